//! The rows of the C reader compared, byte by byte, with those of the proved program `list`, on the same captures: compare_rows [TIMES [SEED]], after
//! independent/run has built the programs. The C reader is run by itself, built with SSE2 and without, and from here, in pieces of several sizes.
//! Captures that are many and small are compared with the rows of the plain Rust version. The first difference is shown, its capture kept, and ends
//! the run with 1.

use independent::c_reader;
use independent::check::arguments;
use independent::layout::{Profile, CLEAN};
use independent::random::Random;
use independent::reader::{Answer, Reader};
use independent::streams::{self, packed, Line, Sort, SORTS};
use std::collections::BTreeMap;
use std::fs;
use std::io::Write;
use std::path::{Path, PathBuf};
use std::process::{exit, Command, Stdio};
use std::thread;

/// What a program writes on a capture that comes on standard input.
fn written(program: &Path, capture: &[u8]) -> Vec<u8> {
    let mut child = Command::new(program)
        .stdin(Stdio::piped())
        .stdout(Stdio::piped())
        .spawn()
        .unwrap_or_else(|e| panic!("{}: {e}; run independent/run", program.display()));
    let mut input = child.stdin.take().expect("a pipe");
    thread::scope(|scope| {
        // It fails where the program ends early, whose rows then differ.
        scope.spawn(move || drop(input.write_all(capture)));
        let done = child.wait_with_output().expect("the program's end");
        assert!(done.status.code().is_some(), "{}: {}", program.display(), done.status);
        done.stdout
    })
}

/// The rows of the plain version.
fn plain_rows(capture: &[u8]) -> Vec<u8> {
    let nibbles: Vec<u8> = capture.iter().flat_map(|b| [b >> 4, b & 15]).collect();
    let (mut reader, mut line) = (Reader::new(Profile::VV5404), [0; 356]);
    let mut answers = Vec::new();
    let mut left = &nibbles[..];
    while !left.is_empty() {
        let (answer, taken) = reader.run(left, &mut line);
        answers.extend(answer);
        left = &left[taken..];
    }
    answers.extend(reader.finish());
    let mut rows = b"mark answer number note\n".to_vec();
    for (mark, answer) in (1..).zip(answers) {
        let said = match answer {
            Answer::Line { kind, number, start, end } => {
                let note = if start.or(end).is_some() { "repaired" } else { "clean" };
                format!("{} {number} {note}", ["BL", "BK", "VL", "SOF", "EOF"][kind as usize - 1])
            }
            Answer::Gap(..) => "GAP - ok".to_string(),
            Answer::Refused(n) => format!("REFUSED - {n}"),
        };
        writeln!(rows, "{mark} {said}").expect("room");
    }
    rows
}

/// The programs, where captures are kept, and what was compared.
struct Comparison {
    list: PathBuf,
    built: [PathBuf; 2],
    kept: PathBuf,
    captures: usize,
    small: usize,
    bytes: usize,
    /// By what they say.
    rows: BTreeMap<String, usize>,
}

/// What rows say: kinds of lines, good gaps, refusals 1 to 9.
const SAID: usize = 5 + 1 + 9;

impl Comparison {
    fn new() -> Comparison {
        let target = Path::new(env!("CARGO_MANIFEST_DIR")).join("../target");
        let own = target.join("independent");
        let built = [own.join("c_reader_sse2"), own.join("c_reader_plain")];
        Comparison {
            list: target.join("bin/list"),
            built,
            kept: own.join("difference"),
            captures: 0,
            small: 0,
            bytes: 0,
            rows: BTreeMap::new(),
        }
    }

    /// Rows that must be the same.
    fn same(&self, name: &str, by: &str, capture: &[u8], wanted: &[u8], rows: &[u8]) {
        if wanted == rows {
            return;
        }
        let (mut wanted, mut rows) = (wanted.split(|&b| b == b'\n'), rows.split(|&b| b == b'\n'));
        let text = |row: Option<&[u8]>| row.map_or("no row".to_string(), |r| String::from_utf8_lossy(r).into_owned());
        println!("difference: {name}, a capture of {} bytes, read by the C reader {by}", capture.len());
        for at in 1.. {
            let (ours, theirs) = (wanted.next(), rows.next());
            if ours != theirs {
                println!("line {at}\nwanted   {:?}\nC reader {:?}", text(ours), text(theirs));
                break;
            }
        }
        match fs::write(&self.kept, capture) {
            Ok(()) => println!("the capture is kept as {}", self.kept.display()),
            Err(e) => println!("{}: {e}", self.kept.display()),
        }
        exit(1);
    }

    fn in_pieces(&self, name: &str, capture: &[u8], wanted: &[u8], sizes: &[usize]) {
        for &size in sizes {
            self.same(name, &format!("in pieces of {size} bytes"), capture, wanted, &c_reader::rows(capture, size));
        }
    }

    /// A capture's rows by the program `list` and by the C reader, in pieces of these sizes too.
    fn capture(&mut self, name: &str, capture: &[u8], sizes: &[usize]) {
        let wanted = written(&self.list, capture);
        for program in &self.built {
            self.same(name, &format!("{}", program.display()), capture, &wanted, &written(program, capture));
        }
        self.in_pieces(name, capture, &wanted, sizes);
        self.captures += 1;
        self.count(capture, &wanted);
    }

    /// A small capture's rows by the plain version and by the C reader.
    fn small_capture(&mut self, name: &str, capture: &[u8], sizes: &[usize]) {
        let wanted = plain_rows(capture);
        self.in_pieces(name, capture, &wanted, sizes);
        self.small += 1;
        self.count(capture, &wanted);
    }

    fn count(&mut self, capture: &[u8], rows: &[u8]) {
        self.bytes += capture.len();
        let rows = std::str::from_utf8(rows).expect("text");
        for row in rows.lines().skip(1) {
            // A kind or GAP is the second word; REFUSED is told by its number, the last.
            let words: Vec<&str> = row.split(' ').collect();
            let said = if words[1] == "REFUSED" { words[1..].join(" ") } else { words[1].to_string() };
            *self.rows.entry(said).or_default() += 1;
        }
    }
}

/// Nibbles at both phases, as captures: from a byte's start on, and half a byte later.
fn both_phases(nibbles: &[u8]) -> [(&'static str, Vec<u8>); 2] {
    [("even phase", packed(nibbles)), ("odd phase", packed(&[&[15], nibbles].concat()))]
}

fn mark(code: u8) -> [u8; 8] {
    [15, 15, 15, 15, 0, 0, code >> 4, code & 15]
}

/// The nibbles of bytes.
fn nibbles(bytes: &[u8]) -> Vec<u8> {
    bytes.iter().flat_map(|b| [b >> 4, b & 15]).collect()
}

/// A line whose text is these bytes after its code, its end mark with a code, and a gap; nothing asks whether the writer would take it.
fn raw_line(code: u8, text: &[u8], end: u8) -> Vec<u8> {
    [&mark(code)[..], &nibbles(text), &mark(end), &[15; 4]].concat()
}

/// The text of a good line after its code: two number bytes, 303, and a body.
fn good_text(random: &mut Random, kind: u8) -> Vec<u8> {
    [&[0x08, 0x5E][..], &streams::line(random, Profile::VV5404, kind, 303).body].concat()
}

/// So many cases, one after another.
fn each(cases: usize, case: impl Fn(usize) -> Vec<u8>) -> Vec<u8> {
    (0..cases).flat_map(case).collect()
}

/// Each rule at its edges: streams in nibbles.
fn edges(random: &mut Random) -> Vec<(&'static str, Vec<u8>)> {
    let texts: Vec<Vec<u8>> = (1..=5).map(|kind| good_text(random, kind)).collect();
    let code = |kind: usize| CLEAN[kind].0;
    let (blank, blank_code) = (&texts[0], code(1));
    let changed = |text: &[u8], at: usize, byte: u8| [&text[..at], &[byte], &text[at + 1..]].concat();
    // A line of a kind, 1 to 5, with another byte at a place of its body.
    let with = |kind: usize, at: usize, byte: u8| raw_line(code(kind), &changed(&texts[kind - 1], 2 + at, byte), 0x80);
    let places = [0, 1, 177, 178, 354, 355];
    vec![
        ("every code after every code", each(256 * 256, |i| [mark((i / 256) as u8), mark(i as u8)].concat())),
        ("every code at a line's start", each(256, |i| raw_line(i as u8, blank, 0x80))),
        ("every code at a line's end", each(256, |i| raw_line(blank_code, blank, i as u8))),
        ("every byte in a number", each(2 * 256, |i| raw_line(blank_code, &changed(blank, i / 256, i as u8), 0x80))),
        ("every byte at places of a body", each(5 * 6 * 256, |i| with(1 + i / (6 * 256), places[i / 256 % 6], i as u8))),
        ("bad bytes at every place of a body", each(5 * 356 * 3, |i| with(1 + i / (356 * 3), i / 3 % 356, [0x00, 0xFF, 0x08][i % 3]))),
        (
            "texts of every length about the right one",
            each(5 * 40, |i| {
                let longer = [nibbles(&texts[i / 40]), vec![7; 40]].concat();
                [&mark(code(1 + i / 40))[..], &longer[..696 + i % 40], &mark(0x80), &[15; 5]].concat()
            }),
        ),
        (
            "gaps of every length, all F or all but one",
            each(48 * 48, |i| {
                let mut line = raw_line(blank_code, blank, 0x80);
                let gap = line.len() - 4;
                line.resize(gap + i / 48, 15);
                line.iter_mut().skip(gap + i % 48).take(1).for_each(|x| *x = 14);
                line
            }),
        ),
        (
            "groups that touch, and codes on the next group",
            each(8 * 9, |i| {
                let code = [0x9F, 0xF1, 0xBF, 0xFF, 0x80, 0x9D, 0xDF, 0xEF][i % 8];
                [&mark(code)[..6 + i / 8 % 3], &mark(0xC7), &[15; 2][..i / 24]].concat()
            }),
        ),
        ("runs of F before 0 0", each(40, |i| [&vec![15; i][..], &[0, 0, 9, 13], &vec![0; i % 5]].concat())),
    ]
}

/// Streams that are longer than the C reader's buffer, or have a gap of about this many nibbles.
fn long(random: &mut Random, about: usize) -> Vec<(&'static str, Vec<u8>)> {
    let line = |random: &mut Random| streams::written(Profile::VV5404, &streams::any_line(random, Profile::VV5404));
    let mut lines = Vec::new();
    while lines.len() < 2 * about {
        let more = vec![15; random.below(3)];
        lines.extend([line(random), more].concat());
    }
    let length = about + random.below(800);
    let one_less = {
        let mut gap = vec![15; length];
        gap[random.below(length)] = 14;
        gap
    };
    let mut between = |gap: Vec<u8>| [line(random), gap, line(random)].concat();
    vec![
        ("many lines, at either phase", lines),
        ("a long gap", between(vec![15; length])),
        ("a long gap, one nibble E", between(one_less)),
        ("zeros for a gap", between(vec![0; length])),
    ]
}

/// A string of few nibbles, in which marks come often.
fn short(random: &mut Random) -> Vec<u8> {
    (0..random.below(6))
        .flat_map(|_| match random.below(4) {
            0 => mark(random.byte()).to_vec(),
            1 => mark(random.pick(&CLEAN).0).to_vec(),
            2 => vec![15; random.below(8)],
            _ => (0..random.below(6)).map(|_| random.pick(&[15, 0, 8, 9, 13])).collect(),
        })
        .collect()
}

fn main() {
    let (times, mut random) = arguments();
    let random = &mut random;
    let mut all = Comparison::new();

    for (name, w) in edges(random) {
        for (phase, capture) in both_phases(&w) {
            all.capture(&format!("{name}, {phase}"), &capture, &[1, 7, 4096]);
        }
    }
    // Every one of these ends the capture, so each needs one of its own.
    for code in 0..=255 {
        for before in [0x80, 0x9D, 0xEC, 0x00, 0xFF] {
            for (phase, capture) in both_phases(&[mark(before), mark(code)].concat()) {
                all.small_capture(&format!("{before:02X} and {code:02X}, {phase}"), &capture, &[1, 4096]);
            }
        }
    }
    let line = streams::written(Profile::VV5404, &Line { nulls: 25, ..streams::line(random, Profile::VV5404, 3, 64) });
    for (phase, capture) in both_phases(&[&line[..], &line].concat()) {
        for end in 0..=capture.len() {
            all.small_capture(&format!("two lines cut after {end} bytes, {phase}"), &capture[..end], &[1 + end % 5, 4096]);
        }
        let second = line.len() / 2;
        for end in second - 2..second + 8 {
            all.capture(&format!("a line and {} bytes of the next, {phase}", end as isize - second as isize), &capture[..end], &[1, 4096]);
        }
    }
    for _ in 0..times {
        for i in 0..4000 {
            let w = short(random);
            let capture = packed(&w);
            all.small_capture(&format!("short {i}"), &capture, &[1, 1 + random.below(9)]);
        }
        for frames in [1, 2] {
            let w: Vec<u8> = (0..frames)
                .flat_map(|_| streams::frame(random, frames == 1, 25))
                .flat_map(|l| streams::written(Profile::VV5404, &l))
                .collect();
            for (phase, capture) in both_phases(&w) {
                all.capture(&format!("{frames} clean frames, {phase}"), &capture, &[1, 361, 65536, 1 << 20]);
            }
        }
        for (name, nibble) in [("all F", 15), ("zeros", 0)] {
            let length = 200_000 + random.below(1000);
            all.capture(name, &packed(&vec![nibble; length]), &[1, 1000, 1 << 20]);
        }
        for length in [0, 1, 2, 3, 4, 5, 6, 300_000 + random.below(1000)] {
            let (uniform, biased) = (streams::uniform_noise(random, length), streams::biased_noise(random, length));
            all.capture("uniform noise", &packed(&uniform), &[1, 1000, 1 << 20]);
            all.capture("biased noise", &packed(&biased), &[1, 1000, 1 << 20]);
        }
        for spacing in [0, 8, 12, 16, 24, 40] {
            let w = streams::dense(random, 4000, spacing);
            all.capture(&format!("a mark every {spacing} nibbles"), &packed(&w), &[1, 1000, 1 << 20]);
        }
        // The C reader's buffer is 64 KiB: these go across its end at many places.
        for about in [65536, 131_072, 200_000, 131_072 - 300] {
            for (name, w) in long(random, about) {
                for (phase, capture) in both_phases(&w) {
                    let size = 1 + random.below(70_000);
                    all.capture(&format!("{name}, {phase}"), &capture, &[size, 65536, 1 << 20]);
                }
            }
        }
        for sort in SORTS.into_iter().filter(|s| *s != Sort::NotNibbles) {
            for i in 0..8 {
                // From a single stream up to a few hundred, one after another.
                let w: Vec<u8> = (0..1 << i).flat_map(|_| streams::stream(random, sort, Profile::VV5404)).collect();
                let (one, other) = (1 + random.below(20), 1 + random.below(3000));
                all.capture(&format!("{sort:?} {i}"), &packed(&w), &[one, other, 1 << 20]);
            }
        }
    }
    let told: Vec<String> = all.rows.iter().map(|(said, count)| format!("{said}: {count}")).collect();
    println!("{}", told.join(", "));
    assert_eq!(all.rows.len(), SAID, "what rows say, each at least once");
    println!(
        "{} captures compared with `list`, {} small ones with the plain version, {} bytes, {} rows: no difference",
        all.captures,
        all.small,
        all.bytes,
        all.rows.values().sum::<usize>()
    );
}
