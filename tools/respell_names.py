#!/usr/bin/env python3
"""Brings the repository's own names of definitions, lemmas, fields and their variables to snake case: in every .antt file, in clauses and
imports of .rt files, in must-fail edits and in the pages of docs/ and README.md. Run once, at the top, after the sources have today's spelling.

A name is the repository's own where a file below crates/ declares it. Names of the library, and those that Rattle makes for a function's proof,
stay as they are. Types and modules keep their capitals. A name with a row in OTHER gets that name. It prints what falls together, and then
writes nothing unless it is given --write.
"""
import collections, glob, os, re, sys

OTHER = {"opens-at": "opens_at_lem"}
# Lemmas and variables with the name of a field and of a definition at once.
AFTER = [
    ("crates/recovery/specs/Examples.antt", r"^gap_fits\b", "gap_fits_lem"),
    ("crates/recovery/specs/Examples.antt", r"gap_fits = gap_fits p k", "gap_fits = gap_fits_lem p k"),
    ("crates/reason_laws/specs/TrueLaws.antt", r"\(is_end : CodeSays", "(is_end_lem : CodeSays"),
    ("crates/reason_laws/specs/TrueLaws.antt", r"is_end = is_end;", "is_end = is_end_lem;"),
    ("crates/reason_laws/specs/MarkLaws.antt", r"^    is_mark (?=[:=])", "    is_mark_lem "),
    ("crates/reason_laws/specs/MarkLaws.antt", r"s\.text\) is_mark x y", "s.text) is_mark_lem x y"),
]
TOKEN = re.compile(r"[^\s(){}\[\],;.`\"|:=λ∙]+|\.|\"[^\"]*\"|.", re.S)
PART = r"[^\s(){}\[\],;.`\"]+"


def snake(n):
    if n in OTHER:
        return OTHER[n]
    n = n.replace("-", "_") if re.search(r"[A-Za-z]", n) else n
    n = re.sub(r"(?<=[a-z0-9₀-₉'])(?=[A-Z])", "_", n)
    n = re.sub(r"(?<=[A-Z])(?=[A-Z][a-z])", "_", n)
    return n


def bad(n):
    return bool(re.match(r"[a-zα-ω]", n)) and (("-" in n and n != "-") or re.search(r"[A-Z]", n)) and not n.startswith("0x")


FIELDS = set()  # the fields of records: they keep to their records, and get no ending
CAMEL = set()   # the new names of definitions in camel case: a lemma that would have one of these gets _lem


def new(n):
    if n in OTHER:
        return OTHER[n]
    s = snake(n).lower()
    if s in CAMEL and n not in FIELDS and not ("-" not in n and re.search(r"[A-Z]", n)):
        return s + "_lem"
    return s


MODS = r"(?:(?:pub|abbrev|unfoldable|opaque|private|instance|syntax)\s+)*"
DECL = re.compile(rf"^(\s*){MODS}({PART})\s+:(?=\s|$)", re.M)
BIND = re.compile(rf"(?:\blet\s+|λ\s*|\bλ\s+)({PART})|[({{]((?:{PART}\s+)+):\s")


def strip(t):
    return re.sub(r"(^|\s)--[^\n]*", r"\1", t)


def main():
    write = "--write" in sys.argv
    files = [p for e in ("rt", "antt", "edit") for p in glob.glob(f"crates/**/*.{e}", recursive=True) if "/out/" not in p]
    texts = {p: open(p, encoding="utf-8").read() for p in files}
    own_crates = set(os.listdir("crates"))
    fields = set()      # names of own records' fields
    every = {}
    declared = {}       # file -> own names that it declares
    for p, t in texts.items():
        if not p.endswith(".antt"):
            continue
        s = strip(t)
        names = set()
        function_proof = bool(re.search(r"/proofs/.*/?Proof\.antt$", p))
        for m in DECL.finditer(s):
            names.add(m[2])
        # fields: lines below 'record .. where' or data constructors
        for m in re.finditer(r"^(\s*)(?:pub |private )*(?:record|data)\b[^\n]*(?:\n\1[ ]+[^\n]*)*", s, re.M):
            for d in DECL.finditer(m[0]):
                fields.add(d[2])
        for m in BIND.finditer(s):
            for n in ([m[1]] if m[1] else m[2].split()):
                names.add(n)
        every[p] = set(names)
        declared[p] = {n for n in names if bad(n)}
        if function_proof:
            declared[p] = {n for n in declared[p] if not re.match(r"(returns|Need|loop|decreases|invariant|overflow|same-length)", n)}
    for p, t in texts.items():     # labels in record types written as { a : T; b : T }
        if p.endswith(".antt"):
            for m in re.finditer(r"record\s*\{([^{}]*)\}", strip(t)):
                for part in m[1].split(";"):
                    n = part.strip().split(" ")[0]
                    if n:
                        fields.add(n)
    all_fields = fields
    fields = {n for n in fields if bad(n)}
    FIELDS.update(all_fields)
    for names in declared.values():
        CAMEL.update(snake(n).lower() for n in names if "-" not in n)
    for p, names in every.items():
        declared[p] |= {n for n in names if n in CAMEL and n not in FIELDS and re.match(r"[a-z]", n)}
    kept = {n for names in every.values() for n in names if n in CAMEL and n not in FIELDS}
    exported = collections.defaultdict(set)   # module path 'crate.specs.M' or just all names by crate
    for p, names in declared.items():
        exported[p.split("/")[1]] |= names
    USE = re.compile(rf"^\s*(?:pub |ghost |unfoldable )*use\s+({PART}(?:\.{PART})*?)(?:\.\{{([^}}]*)\}}|\s+as\s+({PART}))?;?\s*$", re.M)

    def imports(t):
        """own names imported, foreign names imported, aliases of own modules"""
        own, foreign, alias = set(), set(), set()
        for m in USE.finditer(t):
            path = m[1].split(".")
            mine = path[0] == "Rattle" and len(path) > 1 and path[1] in own_crates
            for n in (m[2] or "").split(","):
                n = n.strip()
                if not n:
                    continue
                a = n.split(" as ")
                if mine:
                    own.add(a[0].strip())
                    if len(a) > 1:
                        own.add(a[1].strip())
                else:
                    foreign.add(a[-1].strip())
            if m[3] and mine and path[-1] not in ("Tie",):
                alias.add(m[3])
        return own, foreign, alias

    total = collections.Counter()
    out = {}
    clashes = []
    edit_of = {}
    for p, t in sorted(texts.items()):
        if p.endswith(".edit"):
            continue
        own, foreign, alias = imports(t)
        names = {n for n in own if bad(n) or (n in kept and p.endswith(".antt"))} | declared.get(p, set())
        gone = {n for n in names if n in foreign}
        if gone:
            clashes.append(f"{p}: both own and of a library: {sorted(gone)}")
        table = {n: new(n) for n in names}
        out[p] = (table, foreign, alias)
    for p, t in sorted(texts.items()):
        if p.endswith(".edit"):
            m = re.search(r"^file: (\S+)", t, re.M)
            target = "/".join(p.split("/")[:2]) + "/" + (m[1] if m else "")
            if target in out:
                table, foreign, alias = out[target]
                extra = {}
                for n in re.findall(PART, t):   # names that only the edit brings in
                    pass
                out[p] = (table, foreign, alias)
            else:
                clashes.append(f"{p}: no file {target}")
                out[p] = ({}, set(), set())

    result = {}
    for p, (table, foreign, alias) in out.items():
        t = texts[p]
        rt = p.endswith(".rt") or (p.endswith(".edit") and "src/" in re.search(r"^file: (\S+)", t, re.M)[1])
        toks = TOKEN.findall(t)
        res = []
        comment = None
        before = set(toks)
        for i, k in enumerate(toks):
            if k in table and not (i > 0 and toks[i - 1] == "." and not after_alias(toks, i, alias)):
                res.append(table[k])
                total[k] += 1
            elif i > 0 and toks[i - 1] == "." and k in fields and not rt:
                res.append(new(k))
                total[k] += 1
            elif i > 0 and toks[i - 1] == "." and bad(k) and after_alias(toks, i, alias):
                res.append(new(k))
                total[k] += 1
            elif k in fields and not rt and k not in foreign and not (i > 0 and toks[i - 1] == "."):
                res.append(new(k))
                total[k] += 1
            else:
                res.append(k)
        result[p] = "".join(res)
        changed = {k: v for k, v in table.items() if k in before}
        back = collections.defaultdict(set)
        for k, v in changed.items():
            back[v].add(k)
            if v in before and v not in table:
                back[v].add(v)
        for v, ks in back.items():
            if len(ks) > 1:
                clashes.append(f"{p}: {v} from {sorted(ks)}")
    print("\n".join(clashes))
    print(len(total), "names,", sum(total.values()), "places,", len(clashes), "to look at", file=sys.stderr)
    # parameters that would hide a word of a clause
    for p, t in result.items():
        if p.endswith(".rt"):
            words = set(out[p][0].values())
            for m in re.finditer(r"fn \w+[^{;]*", t):
                head = re.search(r"\(([^)]*)\)", m[0])
                if not head:
                    continue
                for prm in re.findall(r"(\w+):", head[1]):
                    if prm in words and re.search(rf"\b{prm}\b", m[0][head.end():]):
                        print(f"{p}: parameter {prm} would hide a word of its clauses")
    for p, old, new_text in AFTER:
        result[p] = re.sub(old, new_text, result[p], flags=re.M)
    if write:
        for p, t in result.items():
            if t != texts[p]:
                open(p, "w", encoding="utf-8").write(t)
        respelled = {k: new(k) for k in total}
        for p in ["README.md"] + glob.glob("docs/**/*.md", recursive=True):
            t = open(p, encoding="utf-8").read()
            u = re.sub(r"(?<![\w./-])[a-z][A-Za-z0-9'≤-]*(?![\w-])", lambda m: respelled.get(m[0], m[0]) if in_ticks(t, m.start()) else m[0], t)
            if u != t:
                open(p, "w", encoding="utf-8").write(u)


def in_ticks(t, i):
    line = t.rfind("\n", 0, i) + 1
    return t.count("`", line, i) % 2 == 1


def after_alias(toks, i, alias):
    return i > 1 and toks[i - 1] == "." and toks[i - 2] in alias


if __name__ == "__main__":
    main()
