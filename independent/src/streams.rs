//! Streams to run both versions on: clean lines and frames, and the same damaged.

use crate::layout::{Profile, CLEAN, LONGEST};
use crate::random::Random;
use crate::writer;

/// What a line is written from.
#[derive(Clone, Debug)]
pub struct Line {
    pub kind: u8,
    pub number: u16,
    pub body: Vec<u8>,
    pub gap: (u8, u8),
    pub nulls: u32,
}

pub fn profile_number(profile: Profile) -> u8 {
    match profile {
        Profile::VV5404 => 0,
        Profile::VV5300 => 1,
    }
}

fn pixel(random: &mut Random) -> u8 {
    match random.below(8) {
        0 => random.pick(&[1, 0x0F, 0x10, 0x1F, 0xF0, 0xF1, 0xFE]),
        _ => (random.below(254) + 1) as u8,
    }
}

/// A line that the writer takes.
pub fn line(random: &mut Random, profile: Profile, kind: u8, number: u16) -> Line {
    let n = profile.body_length();
    let mut body = vec![7; n];
    let (image, border) = match profile {
        Profile::VV5404 => (0..356, 0..356),
        Profile::VV5300 => (4..164, 2..166),
    };
    match kind {
        2 | 3 => border.for_each(|i| body[i] = pixel(random)),
        4 => image.step_by(2).for_each(|i| body[i] = random.pick(&[0x00, 0xFF, 0x07, 0x0F, 0xF0, 0x5A])),
        5 if profile == Profile::VV5300 => (4..12).step_by(2).for_each(|i| body[i] = pixel(random)),
        _ => {}
    }
    let gap = match (profile, kind) {
        (Profile::VV5404, _) => (255, 255),
        (Profile::VV5300, 3) => (pixel(random), pixel(random)),
        (Profile::VV5300, _) => (7, 7),
    };
    let nulls = match random.below(4) {
        0 => 0,
        1 => 25,
        2 => random.below(256) as u32,
        _ => random.below(8) as u32,
    };
    Line { kind, number, body, gap, nulls }
}

/// A line of any kind and number.
pub fn any_line(random: &mut Random, profile: Profile) -> Line {
    let kind = random.below(5) as u8 + 1;
    let number = match random.below(3) {
        0 => random.pick(&[0, 1, 63, 64, 302, 303, 4094, 4095]),
        _ => random.below(4096) as u16,
    };
    line(random, profile, kind, number)
}

pub fn written(profile: Profile, l: &Line) -> Vec<u8> {
    writer::write(profile_number(profile), l.kind, l.number, &l.body, l.gap, l.nulls, usize::MAX).expect("a line that the writer takes")
}

/// The kinds of a frame's lines, borders on or off.
pub fn frame_kinds(borders: bool) -> Vec<u8> {
    let (blank, visible, last) = if borders { (7, 292, 1) } else { (9, 288, 3) };
    [vec![4], vec![2; 2], vec![1; blank], vec![3; visible], vec![5], vec![1; last]].concat()
}

/// A whole frame of profile 0, its lines with this many null bytes.
pub fn frame(random: &mut Random, borders: bool, nulls: u32) -> Vec<Line> {
    let kinds = frame_kinds(borders);
    (0..).zip(kinds).map(|(number, kind)| Line { nulls, ..line(random, Profile::VV5404, kind, number) }).collect()
}

pub fn clean(random: &mut Random, profile: Profile, lines: usize) -> Vec<u8> {
    (0..lines).flat_map(|_| written(profile, &any_line(random, profile))).collect()
}

/// Nibbles with many F and 0, in which marks come by chance.
pub fn biased_noise(random: &mut Random, length: usize) -> Vec<u8> {
    (0..length)
        .map(|_| match random.below(4) {
            0 => 15,
            1 => 0,
            _ => random.below(16) as u8,
        })
        .collect()
}

/// Nibbles of which each is any of the sixteen, alike.
pub fn uniform_noise(random: &mut Random, length: usize) -> Vec<u8> {
    (0..length).map(|_| random.below(16) as u8).collect()
}

/// The bytes of nibbles, the high one of each first; the last has an F more, where they are odd.
pub fn packed(nibbles: &[u8]) -> Vec<u8> {
    nibbles.chunks(2).map(|pair| pair[0] << 4 | pair.get(1).unwrap_or(&15)).collect()
}

/// A code byte: clean, with a bit or two flipped, or any.
fn code(random: &mut Random) -> u8 {
    let byte = random.pick(&CLEAN).0;
    match random.below(6) {
        0 | 1 => byte,
        2 | 3 => byte ^ 1 << random.below(8),
        4 => byte ^ 1 << random.below(8) ^ 1 << random.below(8),
        _ => random.byte(),
    }
}

/// A mark about every so many nibbles.
pub fn dense(random: &mut Random, marks: usize, spacing: usize) -> Vec<u8> {
    let mut out = Vec::new();
    for _ in 0..marks {
        let byte = code(random);
        out.extend([15, 15, 15, 15, 0, 0, byte >> 4, byte & 15]);
        for _ in 0..random.below(2 * spacing.saturating_sub(8) + 1) {
            out.push(if random.once_in(2) { 15 } else { random.below(16) as u8 });
        }
    }
    out
}

/// A line's parts put together with one of them wrong: its code, a number byte, the body's length, a body byte, the end or the gap.
fn broken_line(random: &mut Random, profile: Profile) -> Vec<u8> {
    let l = any_line(random, profile);
    let mut w = written(profile, &l);
    let n = 2 * profile.body_length();
    let end = 12 + n;
    let put = |w: &mut Vec<u8>, at: usize, byte: u8| {
        w[at] = byte >> 4;
        w[at + 1] = byte & 15;
    };
    match random.below(8) {
        0 => put(&mut w, 6, code(random)),
        1 => put(&mut w, 8 + 2 * random.below(2), random.byte()),
        2 => drop(w.drain(12..12 + random.below(4) + 1)),
        3 => {
            let extra = random.below(4) + 1;
            w.splice(end..end, std::iter::repeat_n(random.below(16) as u8, extra));
        }
        4 => put(&mut w, 12 + 2 * random.below(n / 2), random.pick(&[0x00, 0xFF, 0x07, 0x08])),
        5 => put(&mut w, end + 6, code(random)),
        6 => put(&mut w, end + 8 + 2 * random.below(2), random.pick(&[0x00, 0xFF, 0x07, 0x70, 0xFE])),
        _ => w.truncate(end + 8 + random.below(6)),
    }
    w
}

/// How a stream was made.
#[derive(Clone, Copy, PartialEq, Eq, Debug)]
pub enum Sort {
    Clean,
    Damaged,
    Slipped,
    Cut,
    Broken,
    Noisy,
    Dense,
    OtherProfile,
    NotNibbles,
}

pub const SORTS: [Sort; 9] =
    [Sort::Clean, Sort::Damaged, Sort::Slipped, Sort::Cut, Sort::Broken, Sort::Noisy, Sort::Dense, Sort::OtherProfile, Sort::NotNibbles];

/// A stream for a reader of the profile.
pub fn stream(random: &mut Random, sort: Sort, profile: Profile) -> Vec<u8> {
    let lines = random.below(6) + 1;
    match sort {
        Sort::Clean => clean(random, profile, lines),
        Sort::Damaged => {
            let mut w = clean(random, profile, lines);
            for _ in 0..random.below(6) + 1 {
                let at = random.below(w.len());
                match random.below(3) {
                    0 => w[at] = random.below(16) as u8,
                    1 => w[at] ^= 1 << random.below(4),
                    _ => {
                        let to = (at + random.below(24)).min(w.len());
                        w[at..to].fill_with(|| match random.below(3) {
                            0 => 0,
                            1 => 15,
                            _ => random.below(16) as u8,
                        });
                    }
                }
            }
            w
        }
        Sort::Slipped => {
            let mut w = clean(random, profile, lines);
            for _ in 0..random.below(4) + 1 {
                let at = random.below(w.len());
                let to = (at + random.below(10) * random.below(80)).min(w.len());
                let new = random.below(3) * random.below(12);
                let new = biased_noise(random, new);
                w.splice(at..to, new);
                if w.is_empty() {
                    break;
                }
            }
            w
        }
        Sort::Cut => {
            let w = clean(random, profile, lines);
            let from = random.below(w.len());
            let to = from + random.below(w.len() - from);
            w[from..to].to_vec()
        }
        Sort::Broken => (0..lines).flat_map(|_| broken_line(random, profile)).collect(),
        Sort::Noisy => {
            let length = random.below(4000);
            biased_noise(random, length)
        }
        Sort::Dense => {
            let spacing = random.below(24);
            dense(random, 8 * lines, spacing)
        }
        Sort::OtherProfile => {
            let other = if profile == Profile::VV5404 { Profile::VV5300 } else { Profile::VV5404 };
            clean(random, other, lines)
        }
        Sort::NotNibbles => {
            let mut w = clean(random, profile, lines);
            for _ in 0..random.below(8) + 1 {
                let at = random.below(w.len());
                w.insert(at, random.pick(&[16, 17, 0x80, 255]));
            }
            w
        }
    }
}

/// A line buffer of a length that is enough, mostly.
pub fn line_buffer(random: &mut Random, profile: Profile) -> Vec<u8> {
    let n = profile.body_length();
    let length = match random.below(12) {
        0 => n + random.below(40),
        1 => n - 1 - random.below(3),
        2 => random.below(2 * n),
        3 => LONGEST,
        _ => n,
    };
    let fill = random.byte();
    (0..length).map(|i| fill.wrapping_add(i as u8)).collect()
}

/// How many of the nibbles that are left a call is given.
pub fn run_length(random: &mut Random, left: usize) -> usize {
    let length = match random.below(6) {
        0 => random.below(3),
        1 => random.below(20),
        2 => random.below(2000),
        3 => left,
        _ => random.below(800),
    };
    length.min(left)
}

#[cfg(test)]
mod tests {
    use super::*;

    #[test]
    fn frames_have_304_lines_of_their_kinds() {
        for (borders, visible) in [(true, 292), (false, 288)] {
            let lines = frame(&mut Random::new(1), borders, 25);
            assert_eq!((lines.len(), lines.iter().filter(|l| l.kind == 3).count()), (304, visible));
            assert!(lines.iter().all(|l| written(Profile::VV5404, l).len() == 786));
        }
    }

    #[test]
    fn streams_are_nibbles_unless_they_are_meant_not_to_be() {
        let mut random = Random::new(2);
        for sort in SORTS {
            for profile in [Profile::VV5404, Profile::VV5300] {
                let above = (0..20).any(|_| stream(&mut random, sort, profile).iter().any(|n| *n > 15));
                assert_eq!(above, sort == Sort::NotNibbles, "{sort:?}");
            }
        }
    }

    #[test]
    fn the_high_nibble_is_packed_first() {
        assert_eq!(packed(&[1, 2, 3]), [0x12, 0x3F]);
    }
}
