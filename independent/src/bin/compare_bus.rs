//! Reading, writing and judging: runs the proved code and the independent version on the same inputs and compares all that they give back, call
//! by call: compare_bus [TIMES [SEED]]. Shows the first difference and exits 1, if there is one.

use fluturenc::bus::{self, raw};
use independent::check::{arguments, same, BEYOND};
use independent::judge::{Judge, Ruling};
use independent::layout::{Profile, LONGEST};
use independent::random::Random;
use independent::reader::{Answer, Reader};
use independent::streams::{self, line_buffer, run_length, Line, Sort, SORTS};
use independent::{told, writer};
use std::fmt::Debug;

/// What was compared.
#[derive(Default)]
struct Count {
    nibbles: usize,
    /// Those of them that were fed as packed bytes.
    packed: usize,
    answers: usize,
    lines: usize,
    gaps: usize,
    refusals: [usize; 20],
    written: usize,
    judged: usize,
}

impl Count {
    fn answer(&mut self, answer: &Option<Answer>) {
        match answer {
            None => return,
            Some(Answer::Line { .. }) => self.lines += 1,
            Some(Answer::Gap(..)) => self.gaps += 1,
            Some(Answer::Refused(n)) => self.refusals[*n as usize] += 1,
        }
        self.answers += 1;
    }
}

/// What is fed: nibbles, or the nibbles of packed bytes from a place on.
#[derive(Clone, Copy)]
enum Given<'a> {
    Nibbles(&'a [u8]),
    Bytes(&'a [u8], usize),
}

/// The nibbles of bytes, the high one of each first.
fn unpacked(bytes: &[u8]) -> Vec<u8> {
    bytes.iter().flat_map(|b| [b >> 4, b & 15]).collect()
}

/// Both readers of one profile: the proved one, whose state lies within a larger buffer and moves about, and again with types; and the plain one.
struct Pair {
    proved: Vec<u8>,
    typed: bus::Reader,
    plain: Reader,
}

impl Pair {
    fn new(profile: Profile) -> Pair {
        let mut state = vec![0xC3; raw::state_length()];
        state.extend(BEYOND);
        same("open", &profile, raw::open(streams::profile_number(profile), &mut state), 0);
        Pair { proved: state, typed: bus::Reader::new(told::profile(profile)), plain: Reader::new(profile) }
    }

    fn check_beyond(&self) {
        same("room beyond the state", &(), &self.proved[raw::state_length()..], &BEYOND[..]);
    }

    /// Feeds a run to both. The answer, and how many nibbles were taken.
    fn feed(&mut self, given: Given<'_>, line: &[u8], count: &mut Count, context: &dyn Debug) -> (Option<Answer>, usize) {
        let (mut ours, mut typed, mut theirs) = (line.to_vec(), line.to_vec(), line.to_vec());
        let before = self.proved.clone();
        let ((number, taken), fed, theirs_said) = match given {
            Given::Nibbles(nibbles) => (
                raw::feed(&mut self.proved, nibbles, &mut ours),
                self.typed.feed(nibbles, &mut typed),
                self.plain.run(nibbles, &mut theirs),
            ),
            Given::Bytes(bytes, from) => (
                raw::feed_bytes(&mut self.proved, bytes, from, &mut ours),
                self.typed.feed_bytes(bytes, from, &mut typed),
                self.plain.run_bytes(bytes, from, &mut theirs),
            ),
        };
        let ours_said = (told::answer(raw::answer(number)), taken);
        same("feeding", context, &ours_said, &theirs_said);
        same("feeding with types", context, &(told::answer(fed.answer), fed.taken), &theirs_said);
        same("the line buffers", context, (&ours, &typed), (&theirs, &theirs));
        if taken == 0 {
            same("the state after a call that took nothing", context, &self.proved, &before);
        }
        if let Given::Bytes(bytes, from) = given {
            let (mut state, mut buffer) = (before, line.to_vec());
            let nibbles = unpacked(bytes).split_off(from.min(2 * bytes.len()));
            let said = raw::feed(&mut state, &nibbles, &mut buffer);
            same("feeding the same as nibbles", context, (said, &state, &buffer), ((number, taken), &self.proved, &ours));
            count.packed += taken;
        }
        self.check_beyond();
        count.nibbles += taken;
        count.answer(&ours_said.0);
        ours_said
    }

    fn finish(&mut self, count: &mut Count, context: &dyn Debug) -> Option<Answer> {
        let ours = told::answer(raw::answer(raw::finish(&mut self.proved)));
        let typed = told::answer(Ok(self.typed.finish()));
        let theirs = self.plain.finish();
        same("finish", context, (&ours, &typed), (&theirs, &theirs));
        self.check_beyond();
        let mut fresh = vec![0; raw::state_length()];
        raw::open(streams::profile_number(self.plain.profile), &mut fresh);
        same("the state after finish", context, &self.proved[..fresh.len()], &fresh[..]);
        count.answer(&ours);
        ours
    }
}

/// The bytes of a run of nibbles, with other nibbles before it, and its place there.
fn within_bytes(random: &mut Random, run: &[u8]) -> (Vec<u8>, usize) {
    let from = 2 * random.below(20) + run.len() % 2;
    (streams::packed(&[&streams::biased_noise(random, from), run].concat()), from)
}

/// One stream in runs of random lengths, each as nibbles or as packed bytes, and finish at its end or not.
fn compare_stream(random: &mut Random, pair: &mut Pair, sort: Sort, nibbles: &[u8], count: &mut Count) {
    let profile = pair.plain.profile;
    let mut at = 0;
    while at < nibbles.len() {
        let length = run_length(random, nibbles.len() - at);
        let line = line_buffer(random, profile);
        let run = &nibbles[at..at + length];
        let (bytes, from) = within_bytes(random, run);
        let given = if sort == Sort::NotNibbles || random.once_in(2) { Given::Nibbles(run) } else { Given::Bytes(&bytes, from) };
        let (answer, taken) = pair.feed(given, &line, count, &(sort, profile, at, length));
        at += taken;
        if answer == Some(Answer::Refused(10)) {
            at += 1;
        }
        if random.once_in(9) {
            pair.proved = pair.proved.to_vec();
        }
    }
    if random.once_in(3) {
        pair.finish(count, &(sort, profile));
    }
}

/// Streams of all sorts and both profiles.
fn compare_streams(random: &mut Random, wanted: usize, count: &mut Count) {
    while count.nibbles < wanted {
        for profile in [Profile::VV5404, Profile::VV5300] {
            let mut pair = Pair::new(profile);
            for _ in 0..6 {
                for sort in SORTS {
                    let nibbles = streams::stream(random, sort, profile);
                    compare_stream(random, &mut pair, sort, &nibbles, count);
                }
            }
        }
    }
}

/// Nibbles from hexadecimal digits, with a run of body bytes in place of each `*`.
fn hex(text: &str, body: &[u8]) -> Vec<u8> {
    text.chars()
        .filter(|c| !c.is_whitespace())
        .flat_map(|c| match c {
            '*' => body.iter().flat_map(|b| [b >> 4, b & 15]).collect(),
            _ => vec![c.to_digit(16).expect("a digit") as u8],
        })
        .collect()
}

/// The cases of paper 01 that are run, with what they must be answered: of both.
fn compare_edges(count: &mut Count) {
    let blank = [7u8; LONGEST];
    let long = [7u8; LONGEST + 1];
    let mut pixels = [0x33u8; LONGEST];
    pixels[LONGEST - 1] = 0x1F;
    let line = |kind, number, start, end| Answer::Line { kind, number, start, end };
    let blank_line = line(1, 303, None, None);
    let gap = Answer::Gap(255, 255, 0);
    // A gap that a mark closes after a line, and the end after that mark; and so many F in the gap.
    let period = |first: &Answer, nibbles| vec![first.clone(), Answer::Gap(255, 255, nibbles), Answer::Refused(3)];
    let apart = |gap: usize, body: &[u8]| hex(&format!("FFFF009D 085E * FFFF0080 {} FFFF009D", "F".repeat(gap)), body);
    let cases: Vec<(&str, Vec<u8>, Vec<Answer>)> = vec![
        ("no input", vec![], vec![]),
        ("no mark", hex("FFFF0 FFF00 12345", &[]), vec![]),
        ("a body of 355", hex("FFFF009D 085E * FFFF0080 FFFF", &blank[1..]), vec![Answer::Refused(4), gap.clone()]),
        ("a body of 356", hex("FFFF009D 085E * FFFF0080 FFFF", &blank), vec![line(1, 303, None, None), gap.clone()]),
        ("a body of 357", hex("FFFF009D 085E * FFFF0080 FFFF", &long), vec![Answer::Refused(4), gap.clone()]),
        ("a code on the next mark", hex("FFFF00FFFF00C7", &[]), vec![Answer::Refused(1), Answer::Refused(3)]),
        ("a last pixel 1F", hex("FFFF00B6 011A * FFFF0080 FFFF", &pixels), vec![line(3, 13, None, None), gap.clone()]),
        ("a repaired start", hex("FFFF009C 0101 * FFFF0080", &blank), vec![line(1, 0, Some(0), None), gap.clone()]),
        ("a repaired end", hex("FFFF009D 0101 * FFFF0081", &blank), vec![line(1, 0, None, Some(0)), gap.clone()]),
        ("both top bits repaired", hex("FFFF001D 0101 * FFFF0000", &blank), vec![line(1, 0, Some(7), Some(7)), gap.clone()]),
        ("a line's period", hex("FFFF009D 085E * FFFF0080 FFFF FFFF009D", &blank), period(&blank_line, 736)),
        ("a refused line's period", hex("FFFF009D 085E * FFFF0080 FFFF FFFF009D", &blank[1..]), period(&Answer::Refused(4), 0)),
        ("30 frames a second", apart(54, &blank), period(&blank_line, 786)),
        ("a period not held", apart(64_802, &blank), period(&blank_line, 65_534)),
        ("a period of the most", apart(64_803, &blank), period(&blank_line, 65_535)),
        ("a period held", apart(64_804, &blank), period(&blank_line, 65_535)),
        ("a period held long after", apart(140_000, &blank), period(&blank_line, 65_535)),
        ("a reserved code", hex("FFFF00ED", &[]), vec![Answer::Refused(2)]),
        ("a damaged code", hex("FFFF009E", &[]), vec![Answer::Refused(1)]),
    ];
    for (name, nibbles, wanted) in cases {
        let mut pair = Pair::new(Profile::VV5404);
        let mut answers = Vec::new();
        let mut at = 0;
        let buffer = [0x55; LONGEST];
        while at < nibbles.len() {
            let (answer, taken) = pair.feed(Given::Nibbles(&nibbles[at..]), &buffer, count, &name);
            at += taken;
            answers.extend(answer);
        }
        answers.extend(pair.finish(count, &name));
        same("a case of paper 01", &name, answers, wanted);
    }
    for (nulls, bytes) in [(25, 393), (103, 471)] {
        let mut nibbles = vec![0; 2000];
        let written = raw::write(0, 1, 303, &blank, (255, 255), nulls, &mut nibbles);
        same("the length of a line period", &nulls, written, (0, 2 * bytes));
    }
}

/// Packed bytes from every place on, and from places past their end.
fn compare_places(random: &mut Random, count: &mut Count) {
    for profile in [Profile::VV5404, Profile::VV5300] {
        for length in 0..40 {
            let bytes = streams::packed(&streams::biased_noise(random, 2 * length));
            for from in (0..2 * length + 4).chain([usize::MAX - 1, usize::MAX]) {
                let mut pair = Pair::new(profile);
                pair.feed(Given::Bytes(&bytes, from), &[0; LONGEST], count, &(profile, length, from));
                pair.finish(count, &(profile, length, from));
            }
        }
    }
}

/// Calls that must be refused and leave everything as it was, and states that no call left.
fn compare_refused_states(random: &mut Random, count: &mut Count) {
    let n = raw::state_length();
    for profile in 2..=255 {
        let mut state = vec![0x77; n];
        same("open, profile", &profile, raw::open(profile, &mut state), 11);
        same("the state after 11", &profile, state, vec![0x77; n]);
    }
    for short in 0..n {
        let mut state = vec![0x77; short];
        for profile in [0, 1] {
            same("open, room", &short, raw::open(profile, &mut state), 12);
        }
        same("feeding a short state", &short, raw::feed(&mut state, &[1, 2, 3], &mut [0; LONGEST]), (11, 0));
        same("feeding bytes to a short state", &short, raw::feed_bytes(&mut state, &[1, 2, 3], 1, &mut [0; LONGEST]), (11, 0));
        same("finishing a short state", &short, raw::finish(&mut state), 11);
        same("the state after them", &short, state, vec![0x77; short]);
    }
    for turn in 0..20_000 {
        let mut state = if turn % 2 == 0 { vec![0; n] } else { (0..n).map(|_| random.byte()).collect() };
        raw::open((turn % 4 / 2) as u8, &mut state);
        let nibbles = streams::biased_noise(random, 40);
        raw::feed(&mut state, &nibbles, &mut [0; LONGEST]);
        for _ in 0..random.below(4) + 1 {
            let place = random.below(14);
            state[place] = random.pick(&[0, 1, 2, 3, 6, 7, 255, 0x9D, 0x80]);
        }
        let before = state.clone();
        let mut line = [0x44; LONGEST];
        let (empty, none) = raw::feed(&mut state, &[], &mut line);
        same("what no nibbles leave", &before, (&state, none, line), (&before, 0, [0x44; LONGEST]));
        let nibbles = streams::biased_noise(random, 400);
        let (mut copy, mut copied) = (state.clone(), line);
        let of_bytes = raw::feed_bytes(&mut copy, &streams::packed(&nibbles), 0, &mut copied);
        let (answer, taken) = raw::feed(&mut state, &nibbles, &mut line);
        same("feeding bytes to any state", &before, (of_bytes, &copy, copied), ((answer, taken), &state, line));
        same("11 for no nibbles", &before, empty == 11, answer == 11);
        if answer == 11 {
            same("what 11 leaves", &before, (&state, taken, line), (&before, 0, [0x44; LONGEST]));
            same("finish after 11", &before, raw::finish(&mut state), 11);
            same("what finish leaves after 11", &before, &state, &before);
        } else {
            same("11 from a state that a call left", &before, raw::finish(&mut state) == 11, false);
        }
        count.answers += 3;
    }
}

/// A line for the writer, mostly with something wrong.
fn for_writer(random: &mut Random) -> (u8, Line, usize) {
    let profile = random.pick(&[Profile::VV5404, Profile::VV5300]);
    let mut l = streams::any_line(random, profile);
    let mut number = streams::profile_number(profile);
    let full = 24 + 2 * profile.body_length() + 2 * l.nulls as usize;
    let mut room = full + random.below(60);
    for _ in 0..random.below(4) {
        match random.below(9) {
            0 => number = random.pick(&[0, 1, 2, 3, 255]),
            1 => l.kind = random.pick(&[0, 1, 2, 3, 4, 5, 6, 7, 255]),
            2 => l.number = if random.once_in(2) { random.word() as u16 } else { random.pick(&[4095, 4096, 65535]) },
            3 => l.body.push(7),
            4 => drop(l.body.pop()),
            5 => {
                if !l.body.is_empty() {
                    let at = random.below(l.body.len());
                    l.body[at] = random.pick(&[0, 1, 7, 8, 254, 255]);
                }
            }
            6 => l.gap = (random.pick(&[0, 1, 7, 254, 255]), random.pick(&[0, 1, 7, 254, 255])),
            7 => l.nulls = random.pick(&[0, 254, 255, 256, 65536, u32::MAX]),
            _ => room = full.saturating_sub(random.below(4)),
        }
    }
    if random.once_in(16) {
        l.body = (0..random.below(400)).map(|_| random.byte()).collect();
    }
    (number, l, room)
}

fn compare_writer(random: &mut Random, calls: usize, count: &mut Count) {
    let mut refused = [0; 20];
    for _ in 0..calls {
        let (profile, l, room) = for_writer(random);
        let fill = random.byte();
        let mut ours = vec![fill; room];
        let answer = raw::write(profile, l.kind, l.number, &l.body, l.gap, l.nulls, &mut ours);
        let mut theirs = vec![fill; room];
        let wanted = match writer::write(profile, l.kind, l.number, &l.body, l.gap, l.nulls, room) {
            Ok(nibbles) => {
                theirs[..nibbles.len()].copy_from_slice(&nibbles);
                (0, nibbles.len())
            }
            Err(n) => {
                refused[n as usize] += 1;
                (n, 0)
            }
        };
        same("writing", &(profile, &l, room), answer, wanted);
        same("the nibbles written", &(profile, &l, room), &ours, &theirs);
        if let (Some(profile), Some(kind)) = (Profile::from_number(profile), told::kind(l.kind)) {
            let mut typed = vec![fill; room];
            let written = bus::write(told::profile(profile), kind, l.number, &l.body, l.gap, l.nulls, &mut typed);
            same("writing with types", &(profile, &l, room), (told::filled(written), &typed), (wanted, &theirs));
        }
        count.written += 1;
    }
    for n in [11, 12, 13, 14, 15, 16, 17] {
        same("whether the writer was refused each way", &n, calls == 0 || refused[n] > 0, true);
    }
}

#[derive(Default)]
struct Judges {
    proved: bus::Judge,
    plain: Judge,
}

impl Judges {
    fn line(&mut self, kind: u8, number: u16, count: &mut Count) -> Ruling {
        let kinds = told::kind(kind);
        let theirs = self.plain.line(kind, number);
        count.judged += 1;
        if kind == 0 || kinds.is_some() {
            let before = self.proved.clone();
            let ours = told::ruling(self.proved.line(kinds, number));
            same("judging", &(kind, number, before), ours, theirs);
        } else {
            // No kind with types has this number; in numbers it is refused by every judge.
            same("judging no kind", &(kind, number), raw::judge(&mut 0, kind, number), 13);
            same("judging no kind", &(kind, number), theirs, Ruling::Refused(13));
        }
        theirs
    }
}

fn compare_judge(random: &mut Random, frames: usize, count: &mut Count) {
    let mut judges = Judges::default();
    let mut complete = 0;
    for _ in 0..frames {
        let kinds = streams::frame_kinds(random.once_in(2));
        let fault = if random.once_in(3) { usize::MAX } else { random.below(320) };
        for (number, &kind) in kinds.iter().enumerate() {
            if number == fault {
                match random.below(6) {
                    0 => drop(judges.line(0, random.word() as u16, count)),
                    1 => drop(judges.line(random.byte(), number as u16, count)),
                    2 => drop(judges.line(kind, random.pick(&[4095, 4096, 65535, 0]), count)),
                    3 => drop(judges.line(4, 0, count)),
                    4 => drop(judges.line(random.below(6) as u8, number as u16, count)),
                    _ => continue,
                }
            }
            if judges.line(kind, number as u16, count) == Ruling::Complete {
                complete += 1;
            }
        }
    }
    same("whether a frame was complete", &frames, frames == 0 || complete > 0, true);
    for _ in 0..1000 * frames {
        judges.line(random.below(8) as u8, random.pick(&[0, 1, 2, 3, 10, 11, 303, 4096]), count);
    }
    // A judge is 0, a place from 1 to 10, or one from 11 to 303 with 2^16 or 2^17 more.
    for number in (0..0x4_0000).chain([u32::MAX]) {
        let (borders, place) = (number >> 16, number & 0xFFFF);
        let reached = match borders {
            0 => place <= 10,
            1 | 2 => (11..=303).contains(&place),
            _ => false,
        };
        let mut judge = number;
        let answer = raw::judge(&mut judge, 6, 0);
        same("a judge's own test", &number, (answer, judge), (if reached { 13 } else { 11 }, number));
        count.judged += 1;
    }
}

/// Whole frames through the proved writer, reader and judge, beside the independent ones.
fn compare_frames(random: &mut Random, frames: usize, count: &mut Count) {
    let mut pair = Pair::new(Profile::VV5404);
    let mut judges = Judges::default();
    let mut complete = 0;
    for frame in 0..frames {
        let borders = random.once_in(2);
        let mut nibbles: Vec<u8> = streams::frame(random, borders, 25).iter().flat_map(|l| streams::written(Profile::VV5404, l)).collect();
        if frame % 2 == 1 {
            let at = random.below(nibbles.len());
            nibbles.drain(at..(at + 1 + random.below(9)).min(nibbles.len()));
        }
        let mut at = 0;
        while at < nibbles.len() {
            let (answer, taken) = pair.feed(Given::Nibbles(&nibbles[at..]), &[0; LONGEST], count, &("frame", frame, at));
            at += taken;
            let ruling = match answer {
                Some(Answer::Line { kind, number, .. }) => judges.line(kind, number, count),
                Some(Answer::Refused(1..=7)) => judges.line(0, 0, count),
                _ => continue,
            };
            complete += usize::from(ruling == Ruling::Complete);
        }
    }
    pair.finish(count, &"frames");
    same("whether a whole frame was complete", &frames, frames < 2 || complete > 0, true);
}

fn main() {
    let (times, mut random) = arguments();
    let mut count = Count::default();
    compare_edges(&mut count);
    compare_places(&mut random, &mut count);
    compare_refused_states(&mut random, &mut count);
    compare_writer(&mut random, 31_000 * times, &mut count);
    compare_judge(&mut random, 34 * times, &mut count);
    compare_frames(&mut random, 5 * times, &mut count);
    let wanted = count.nibbles + 3_000_000 * times;
    compare_streams(&mut random, wanted, &mut count);
    let refusals: Vec<String> = count.refusals.iter().enumerate().filter(|(_, n)| **n > 0).map(|(i, n)| format!("{i}: {n}")).collect();
    println!("{} lines, {} good gaps; refusals {}", count.lines, count.gaps, refusals.join(", "));
    println!("{} calls of the writer, {} of the judge", count.written, count.judged);
    println!("{} nibbles, {} of them in packed bytes, {} answers compared: no difference", count.nibbles, count.packed, count.answers);
}
