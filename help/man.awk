# Turns a page of help into a man page: awk -v version=V -v date=D -v see='PAGE PAGE ..' -f help/man.awk help/WORD.txt
#
# The first line is the page's name and what it does. A line at the margin heads a section, lines four blanks in are text, which is filled, and lines
# eight blanks in stay as they stand.

function roff(text) {
    gsub(/\\/, "\\e", text)
    gsub(/-/, "\\-", text)
    if (text ~ /^[.']/) text = "\\&" text
    return text
}

# Begins a paragraph of text, or a block that stays as it stands; a section's heading begins the first by itself.
function begin(as_it_stands) {
    if (stands && !as_it_stands) print ".fi\n.RE"
    if (!headed && !(stands && as_it_stands)) print ".PP"
    if (stands && as_it_stands) print ""
    if (as_it_stands && !stands) print ".RS 4\n.nf"
    stands = as_it_stands
    headed = 0
    begun = 1
}

function head(title) {
    if (stands) print ".fi\n.RE"
    print ".SH " title
    stands = 0
    headed = 1
    begun = 0
}

NR == 1 {
    name = $1
    print ".TH " toupper(roff(name)) " 1 " date " \"Fluturenc " version "\" \"Fluturenc\""
    head("NAME")
    print roff($0)
    next
}

/^$/ { begun = 0; next }

/^        / {
    if (!begun || !stands) begin(1)
    print roff(substr($0, 9))
    next
}

/^    / {
    if (!begun || stands) begin(0)
    print roff(substr($0, 5))
    next
}

{ head($0) }

END {
    head("SEE ALSO")
    n = split(see, pages, " ")
    for (i = 1; i <= n; i++) print ".BR " roff(pages[i]) " (1)" (i < n ? "," : "")
}
