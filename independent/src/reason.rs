//! Why a mark is answered as it is (02, A9).

use crate::layout::*;

/// There is no such value.
pub const NONE: usize = usize::MAX;

const GROUP: [u8; 6] = [15, 15, 15, 15, 0, 0];

/// The bits of each parity sum of 1 C2 C1 C0 P3 P2 P1 P0: C2 C1 C0 P0, C2 C1 P1, C2 C0 P2, C1 C0 P3.
const SUMS: [u8; 4] = [0b0111_0001, 0b0110_0010, 0b0101_0100, 0b0011_1000];

fn byte(nibbles: &[u8], at: usize) -> u8 {
    nibbles[at] << 4 | nibbles[at + 1]
}

/// The number, 128 for a good line and 129 for a good gap, and two values.
pub fn why(profile: u8, before: u8, run: &[u8]) -> (u8, usize, usize) {
    let refused = |n| (n, NONE, NONE);
    let Some(profile) = Profile::from_number(profile) else {
        return refused(11);
    };
    if before > 5 {
        return refused(13);
    }
    if run.iter().any(|n| *n > 15) {
        return refused(10);
    }
    let begins = |at: usize| run.len() >= at + 8 && run[at..at + 6] == GROUP;
    if !begins(0) {
        return refused(36);
    }
    let next = (6..run.len()).find(|at| begins(*at));
    let text = &run[6..next.unwrap_or(run.len())];
    let code = byte(run, 6);
    match read_code(code) {
        Reading::Damaged => {
            let failed = SUMS.iter().enumerate().map(|(i, sum)| ((code & sum).count_ones() as usize & 1) << i).sum();
            (1, usize::from(code), failed)
        }
        Reading::Clean(code) | Reading::Repaired(code, _) => match code {
            Code::Reserved => refused(2),
            Code::End if before == 0 => refused(8),
            Code::End => gap(profile, before, &text[2..]),
            Code::Line(kind) => match next {
                None => refused(3),
                Some(at) => line(profile, kind, text, byte(run, at + 6)),
            },
        },
    }
}

fn gap(profile: Profile, before: u8, gap: &[u8]) -> (u8, usize, usize) {
    let mut stray = 0;
    if profile == Profile::VV5300 {
        if gap.len() < 4 {
            return (9, gap.len(), NONE);
        }
        for at in [0, 2] {
            if !mean_allowed(before, byte(gap, at)) {
                return (9, at, usize::from(gap[at]));
            }
        }
        stray = 4;
    }
    match gap[stray..].iter().position(|n| *n != 15) {
        Some(at) => (9, stray + at, usize::from(gap[stray + at])),
        None => (129, NONE, NONE),
    }
}

fn line(profile: Profile, kind: u8, text: &[u8], next: u8) -> (u8, usize, usize) {
    let wanted = 6 + 2 * profile.body_length();
    if text.len() != wanted {
        return (4, text.len(), wanted);
    }
    let bytes: Vec<u8> = (2..text.len()).step_by(2).map(|at| byte(text, at)).collect();
    let (number, body) = bytes.split_at(2);
    if let Some(place) = number.iter().position(|b| !number_byte_good(*b)) {
        return (5, place, usize::from(number[place]));
    }
    if let Some(place) = bad_place(profile, kind, body) {
        return (6, place, usize::from(body[place]));
    }
    match read_code(next) {
        Reading::Clean(Code::End) | Reading::Repaired(Code::End, _) => (128, NONE, NONE),
        _ => (7, usize::from(next), NONE),
    }
}

#[cfg(test)]
mod tests {
    use super::*;

    /// The answer's number and values, of digits that begin at a mark; `*` stands for a blank body of 356.
    fn told(profile: u8, before: u8, text: &str) -> (u8, usize, usize) {
        let text = text.replace(' ', "").replace('*', &"07".repeat(356));
        let run: Vec<u8> = text.chars().map(|c| c.to_digit(16).unwrap() as u8).collect();
        why(profile, before, &run)
    }

    #[test]
    fn each_answer_has_its_reason() {
        assert_eq!(told(0, 0, "FFFF009D 085E * FFFF0080"), (128, NONE, NONE));
        assert_eq!(told(0, 1, "FFFF0080 FFFF"), (129, NONE, NONE));
        // 9E is 9D with two bits flipped: P1 and P0.
        assert_eq!(told(0, 0, "FFFF009E"), (1, 0x9E, 0b0011));
        assert_eq!(told(0, 0, "FFFF00ED"), (2, NONE, NONE));
        assert_eq!(told(0, 0, "FFFF009D 085E"), (3, NONE, NONE));
        assert_eq!(told(0, 0, "FFFF009D 085E *7 FFFF0080"), (4, 719, 718));
        assert_eq!(told(0, 0, "FFFF009D 085F * FFFF0080"), (5, 1, 0x5F));
        assert_eq!(told(0, 0, "FFFF00C7 0101 * FFFF009D"), (7, 0x9D, NONE));
        assert_eq!(told(0, 0, "FFFF0080"), (8, NONE, NONE));
        assert_eq!(told(0, 1, "FFFF0080 FFFE"), (9, 3, 14));
        assert_eq!(told(1, 3, "FFFF0080 017"), (9, 3, NONE));
        assert_eq!(told(1, 3, "FFFF0080 01FF"), (9, 2, 15));
    }

    #[test]
    fn a_bad_body_byte_has_its_place() {
        let mut run = crate::writer::write(0, 3, 9, &[1; 356], (255, 255), 0, 1000).unwrap();
        (run[12 + 2 * 17], run[13 + 2 * 17]) = (0, 0);
        assert_eq!(why(0, 0, &run), (6, 17, 0));
    }

    #[test]
    fn refusals_come_in_their_order() {
        assert_eq!([why(2, 6, &[16]).0, why(0, 6, &[16]).0, why(0, 5, &[16]).0, why(0, 5, &[15]).0], [11, 13, 10, 36]);
    }
}
