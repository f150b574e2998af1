//! How fast the proved code is, beside the plain version in Rust and beside a reader in C that was written for speed:
//! bench [NIBBLES [MEGABYTES [ROUNDS]]], after independent/run and `bin/build list frames why picture compare`. 0 megabytes leave out the second
//! part.
//!
//! First the readers by themselves, on each input, in one thread, in nanoseconds a nibble. The proved reader (the exported call, through its Rust
//! wrapper) and the plain one are fed nibbles in runs of 64 Ki, and are lent the same line buffer again and again, which is not cleared between
//! calls. The proved reader is also fed the same nibbles packed, two a byte, in pieces of 64 KiB; so is the C reader, which writes the row of each mark
//! as text, and hands out no body.
//!
//! Then whole programs, on a file of the same bytes over and over. The file was read before, and what is written goes to /dev/null.
//!
//! All time is processor time, of the program and of the system for it, which other programs on the machine change little. All take turns on an
//! input, round after round, and the least time of each counts.

use fluturenc::bus;
use independent::layout::Profile;
use independent::random::Random;
use independent::reader::{Answer, Reader};
use independent::streams::{self, packed};
use independent::{c_reader, told};
use std::fs::{self, File};
use std::hint::black_box;
use std::io::{BufWriter, Write};
use std::path::{Path, PathBuf};
use std::process::{Command, Stdio};

const RUN: usize = 65536;

/// What the system says of the time that processes have used (getrusage, Linux on x86-64): of the program and of the system for it, in seconds and
/// microseconds, and fourteen more numbers.
#[repr(C)]
#[derive(Default)]
struct Usage {
    user: [i64; 2],
    system: [i64; 2],
    others: [i64; 14],
}

extern "C" {
    fn getrusage(who: i32, usage: *mut Usage) -> i32;
}

const SELF: i32 = 0;
/// All children that have ended.
const CHILDREN: i32 = -1;

/// Seconds of processor time.
fn usage(who: i32) -> f64 {
    let mut usage = Usage::default();
    let answer = unsafe { getrusage(who, &mut usage) };
    assert_eq!(answer, 0, "getrusage");
    let seconds = |time: [i64; 2]| time[0] as f64 + time[1] as f64 / 1e6;
    seconds(usage.user) + seconds(usage.system)
}

/// The kinds of answers of a whole input, so that both are seen to do the same work.
#[derive(Default, PartialEq, Eq, Debug)]
struct Tally {
    lines: usize,
    gaps: usize,
    refusals: usize,
}

impl Tally {
    fn add(&mut self, answer: Option<Answer>) {
        match answer {
            None => {}
            Some(Answer::Line { .. }) => self.lines += 1,
            Some(Answer::Gap(..)) => self.gaps += 1,
            Some(Answer::Refused(_)) => self.refusals += 1,
        }
    }

    fn all(&self) -> usize {
        self.lines + self.gaps + self.refusals
    }
}

fn tally(nibbles: &[u8], mut feed: impl FnMut(&[u8], &mut [u8]) -> (Option<Answer>, usize)) -> Tally {
    let mut line = [0; 356];
    let mut tally = Tally::default();
    for mut run in nibbles.chunks(RUN) {
        while !run.is_empty() {
            let (answer, taken) = feed(run, &mut line);
            tally.add(answer);
            run = &run[taken..];
        }
    }
    black_box(&line);
    tally
}

fn proved_pass(nibbles: &[u8]) -> Tally {
    let mut reader = bus::Reader::new(bus::Profile::VV5404);
    let mut tally = tally(nibbles, |run, line| {
        let fed = reader.feed(run, line);
        (told::answer(fed.answer), fed.taken)
    });
    tally.add(told::answer(Ok(reader.finish())));
    tally
}

fn packed_pass(bytes: &[u8]) -> Tally {
    let mut reader = bus::Reader::new(bus::Profile::VV5404);
    let mut line = [0; 356];
    let mut tally = Tally::default();
    for piece in bytes.chunks(RUN) {
        let mut at = 0;
        while at < 2 * piece.len() {
            let fed = reader.feed_bytes(piece, at, &mut line);
            tally.add(told::answer(fed.answer));
            at += fed.taken;
        }
    }
    black_box(&line);
    tally.add(told::answer(Ok(reader.finish())));
    tally
}

fn plain_pass(nibbles: &[u8]) -> Tally {
    let mut reader = Reader::new(Profile::VV5404);
    let mut tally = tally(nibbles, |run, line| reader.run(run, line));
    tally.add(reader.finish());
    tally
}

fn c_pass(bytes: &[u8]) {
    c_reader::read(bytes, RUN, |rows| {
        black_box(rows);
    });
}

/// Nanoseconds of processor time, and what is given back.
fn timed<T>(pass: impl FnOnce() -> T) -> (f64, T) {
    let before = usage(SELF);
    let done = pass();
    (1e9 * (usage(SELF) - before), done)
}

/// The same half a byte later, with an F before and after: at both places a gap is longer by them.
fn later(nibbles: &[u8]) -> Vec<u8> {
    [&[15], nibbles, &[15]].concat()
}

/// Whole frames in which one line of four has lost, or got, a nibble or more, or has a nibble changed.
fn damaged(random: &mut Random, lines: &[streams::Line], size: usize) -> Vec<u8> {
    let mut all = Vec::new();
    for l in lines.iter().cycle() {
        let mut w = streams::written(Profile::VV5404, l);
        if random.once_in(4) {
            let at = random.below(w.len());
            match random.below(3) {
                0 => drop(w.drain(at..(at + 1 + random.below(40)).min(w.len()))),
                1 => drop(w.splice(at..at, vec![random.below(16) as u8; 1 + random.below(40)])),
                _ => w[at] = random.below(16) as u8,
            }
        }
        all.extend(w);
        if all.len() >= size {
            return all;
        }
    }
    all
}

/// Inputs of about the same size, each an even count of nibbles.
fn inputs(size: usize) -> Vec<(&'static str, Vec<u8>)> {
    let mut random = Random::new(0x5404_5300);
    let lines = streams::frame(&mut random, true, 25);
    let frame: Vec<u8> = lines.iter().flat_map(|l| streams::written(Profile::VV5404, l)).collect();
    let frames = frame.repeat(size.div_ceil(frame.len()));
    let mut pixels = Vec::new();
    while pixels.len() < size {
        let number = random.below(4096) as u16;
        pixels.extend(streams::written(Profile::VV5404, &streams::line(&mut random, Profile::VV5404, 3, number)));
    }
    let mut all = vec![
        ("clean frames, even phase", frames.clone()),
        ("clean frames, odd phase", later(&frames)),
        ("random pixels, even phase", pixels.clone()),
        ("random pixels, odd phase", later(&pixels)),
        ("all F", vec![15; size]),
        ("zeros", vec![0; size]),
        ("uniform noise", streams::uniform_noise(&mut random, size)),
        ("biased noise", streams::biased_noise(&mut random, size)),
        ("a mark every 8 bytes", streams::dense(&mut random, size / 16, 16)),
        ("damaged frames", damaged(&mut random, &lines, size)),
    ];
    for (_, nibbles) in &mut all {
        nibbles.truncate(nibbles.len() / 2 * 2);
    }
    all
}

fn readers(inputs: &[(&str, Vec<u8>)], rounds: usize) {
    println!(
        "{:<26} {:>9} {:>8} {:>10} {:>9} {:>9} {:>9} {:>12} {:>10} {:>10}",
        "ns a nibble", "nibbles", "answers", "proved", "packed", "Rust", "C", "Rust/proved", "proved/C", "packed/C"
    );
    for (name, nibbles) in inputs {
        let bytes = packed(nibbles);
        let rows = c_reader::rows(&bytes, RUN).iter().filter(|&&b| b == b'\n').count() - 1;
        let [mut proved, mut of_bytes, mut plain, mut c] = [f64::MAX; 4];
        for _ in 0..rounds {
            let (time, ours) = timed(|| proved_pass(black_box(nibbles)));
            proved = proved.min(time / nibbles.len() as f64);
            let (time, packed) = timed(|| packed_pass(black_box(&bytes)));
            of_bytes = of_bytes.min(time / nibbles.len() as f64);
            let (time, theirs) = timed(|| plain_pass(black_box(nibbles)));
            plain = plain.min(time / nibbles.len() as f64);
            let (time, ()) = timed(|| c_pass(black_box(&bytes)));
            c = c.min(time / nibbles.len() as f64);
            assert_eq!([&ours, &packed], [&theirs; 2]);
            assert_eq!(ours.all(), rows);
        }
        println!(
            "{name:<26} {:>9} {rows:>8} {proved:>10.3} {of_bytes:>9.3} {plain:>9.3} {c:>9.3} {:>12.2} {:>10.2} {:>10.2}",
            nibbles.len(),
            plain / proved,
            proved / c,
            of_bytes / c
        );
    }
}

/// A file that is removed at the end.
struct Capture(PathBuf);

impl Capture {
    /// The bytes, over and over, up to this many.
    fn new(bytes: &[u8], size: usize) -> Capture {
        let capture = Capture(std::env::temp_dir().join(format!("capture-{}", std::process::id())));
        let mut file = BufWriter::new(File::create(&capture.0).expect("a file for the capture"));
        for _ in 0..size.div_ceil(bytes.len()) {
            file.write_all(bytes).expect("room for the capture");
        }
        file.flush().expect("room for the capture");
        capture
    }
}

impl Drop for Capture {
    fn drop(&mut self) {
        drop(fs::remove_file(&self.0));
    }
}

/// Seconds of processor time of a program, on a capture on standard input; or on two captures that its arguments name.
fn seconds(program: &Path, capture: &Capture, is_named_twice: bool) -> f64 {
    let before = usage(CHILDREN);
    let mut command = Command::new(program);
    if is_named_twice {
        command.arg(&capture.0).arg(&capture.0);
    }
    let status = command
        .stdin(File::open(&capture.0).expect("the capture"))
        .stdout(Stdio::null())
        .stderr(Stdio::null())
        .status()
        .unwrap_or_else(|e| panic!("{}: {e}; run independent/run", program.display()));
    black_box(status);
    usage(CHILDREN) - before
}

fn programs(inputs: &[(&str, Vec<u8>)], megabytes: usize, rounds: usize) {
    let target = Path::new(env!("CARGO_MANIFEST_DIR")).join("../target");
    let names = ["independent/c_reader_sse2", "bin/list", "bin/frames", "bin/why", "bin/picture", "bin/compare"];
    let paths = names.map(|name| target.join(name));
    println!(
        "{:<26} {:>9} {:>8} {:>8} {:>8} {:>8} {:>8} {:>8} {:>8} {:>9}",
        "ms of processor time", "MB", "C", "list", "frames", "why", "picture", "compare", "list/C", "frames/C"
    );
    for (name, nibbles) in inputs {
        let capture = Capture::new(&packed(nibbles), megabytes * 1_000_000);
        let size = fs::metadata(&capture.0).expect("the capture").len() as f64 / 1e6;
        let mut least = [f64::MAX; 6];
        for _ in 0..rounds {
            for (time, path) in least.iter_mut().zip(&paths) {
                *time = time.min(1000.0 * seconds(path, &capture, path.ends_with("compare")));
            }
        }
        let [c, list, frames, why, picture, compare] = least;
        println!(
            "{name:<26} {size:>9.1} {c:>8.0} {list:>8.0} {frames:>8.0} {why:>8.0} {picture:>8.0} {compare:>8.0} {:>8.1} {:>9.1}",
            list / c,
            frames / c
        );
    }
}

/// The processor, how many of them, and how busy they were.
fn machine() -> String {
    let read = |path| fs::read_to_string(path).unwrap_or_default();
    let told = read("/proc/cpuinfo");
    let model = told.lines().find(|l| l.starts_with("model name")).and_then(|l| l.split(": ").nth(1)).unwrap_or("a processor");
    let count = told.lines().filter(|l| l.starts_with("processor")).count();
    let load = read("/proc/loadavg");
    format!("{count} x {model}, load {}", load.split(' ').next().unwrap_or_default())
}

fn main() {
    let given: Vec<usize> = std::env::args().skip(1).map(|a| a.parse().expect("how many nibbles, megabytes and rounds")).collect();
    let given = |at: usize, otherwise| given.get(at).copied().unwrap_or(otherwise);
    let (size, megabytes, rounds) = (given(0, 4_000_000), given(1, 105), given(2, 5));
    let inputs = inputs(size);

    println!("{}; the least of {rounds} rounds, all side by side; line buffers are not cleared between calls", machine());
    println!(
        "proved, Rust: nibbles in runs of {RUN}, each line's body handed out; packed: the proved reader, packed bytes in pieces of {RUN}; \
         C: the same pieces, rows written, no body"
    );
    readers(&inputs, rounds);
    if megabytes > 0 {
        println!(
            "whole programs: the same bytes over and over, in a file that was read before; picture and compare read up to a complete frame"
        );
        programs(&inputs, megabytes, rounds);
    }
}
