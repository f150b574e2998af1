//! Why a mark is answered as it is.

use crate::{Kind, Profile, Refusal};

/// Why the first mark of a run is answered as it is. Places count from 0.
#[derive(Clone, PartialEq, Eq, Debug)]
pub enum Reason {
    GoodLine,
    GoodGap,
    /// 1: the code byte, and whether each of its parity sums fails, P0 to P3.
    DamagedCode {
        byte: u8,
        failed: [bool; 4],
    },
    /// 2
    ReservedCode,
    /// 3
    UnfinishedLine,
    /// 4: the text's nibbles.
    WrongLength {
        found: usize,
        wanted: usize,
    },
    /// 5: the first bad number byte.
    BadNumber {
        place: usize,
        byte: u8,
    },
    /// 6: the first bad body byte.
    BadBody {
        place: usize,
        byte: u8,
    },
    /// 7: the code that came.
    NoEndOfLine {
        code: u8,
    },
    /// 8
    EndWithoutLine,
    /// 9: the gap's first bad nibble.
    BadGap {
        place: usize,
        nibble: u8,
    },
    /// 9: a gap under two bytes.
    ShortGap {
        nibbles: usize,
    },
}

/// The reason of the answer to the mark that the nibbles begin with, after a mark of this kind, if it was a line's. Refused: 10, 36.
pub fn why(profile: Profile, before: Option<Kind>, run: &[u8]) -> Result<Reason, Refusal> {
    let (number, first, second) = raw::why(profile as u8, before.map_or(0, |k| k as u8), run);
    raw::reason(number, first, second)
}

/// The exported function, in numbers.
pub mod raw {
    use super::Reason;
    use crate::Refusal;

    extern "C" {
        fn fluturenc_why(profile: u8, before: u8, run: *const u8, run_length: usize, first: *mut usize, second: *mut usize) -> u8;
    }

    /// The number, and the two values.
    pub fn why(profile: u8, before: u8, run: &[u8]) -> (u8, usize, usize) {
        let (mut first, mut second) = (0, 0);
        let number = unsafe { fluturenc_why(profile, before, run.as_ptr(), run.len(), &mut first, &mut second) };
        (number, first, second)
    }

    /// What they say.
    pub fn reason(number: u8, first: usize, second: usize) -> Result<Reason, Refusal> {
        let byte = |value: usize| u8::try_from(value).unwrap_or_else(|_| panic!("{value} is no byte"));
        let none = usize::MAX;
        Ok(match (number, first, second) {
            (128, _, _) => Reason::GoodLine,
            (129, _, _) => Reason::GoodGap,
            (1, code, sums) => Reason::DamagedCode { byte: byte(code), failed: [0, 1, 2, 3].map(|i| sums >> i & 1 == 1) },
            (2, _, _) => Reason::ReservedCode,
            (3, _, _) => Reason::UnfinishedLine,
            (4, found, wanted) => Reason::WrongLength { found, wanted },
            (5, place, value) => Reason::BadNumber { place, byte: byte(value) },
            (6, place, value) => Reason::BadBody { place, byte: byte(value) },
            (7, code, _) => Reason::NoEndOfLine { code: byte(code) },
            (8, _, _) => Reason::EndWithoutLine,
            (9, nibbles, value) if value == none => Reason::ShortGap { nibbles },
            (9, place, value) => Reason::BadGap { place, nibble: byte(value) },
            (n, _, _) => return Err(Refusal::answered(n)),
        })
    }
}

#[cfg(test)]
mod tests {
    use super::*;

    /// Of digits that begin at a mark; `*` stands for a blank body of 356.
    fn told(profile: Profile, before: Option<Kind>, text: &str) -> Result<Reason, Refusal> {
        let text = text.replace(' ', "").replace('*', &"07".repeat(356));
        let run: Vec<u8> = text.chars().map(|c| c.to_digit(17).unwrap() as u8).collect();
        why(profile, before, &run)
    }

    #[test]
    fn each_answer_has_its_reason() {
        let line = |text| told(Profile::VV5404, None, text).unwrap();
        assert_eq!(line("FFFF009D 085E * FFFF0080"), Reason::GoodLine);
        // 9E is 9D with two bits flipped: P1 and P0.
        assert_eq!(line("FFFF009E"), Reason::DamagedCode { byte: 0x9E, failed: [true, true, false, false] });
        assert_eq!(line("FFFF00ED"), Reason::ReservedCode);
        assert_eq!(line("FFFF009D 085E"), Reason::UnfinishedLine);
        assert_eq!(line("FFFF009D 085E *7 FFFF0080"), Reason::WrongLength { found: 719, wanted: 718 });
        assert_eq!(line("FFFF009D 085F * FFFF0080"), Reason::BadNumber { place: 1, byte: 0x5F });
        assert_eq!(line("FFFF00C7 0101 * FFFF009D"), Reason::NoEndOfLine { code: 0x9D });
        assert_eq!(line("FFFF0080"), Reason::EndWithoutLine);
        let gap = |profile, text| told(profile, Some(Kind::Visible), text).unwrap();
        assert_eq!(gap(Profile::VV5404, "FFFF0080 FFFF"), Reason::GoodGap);
        assert_eq!(gap(Profile::VV5404, "FFFF0080 FFFE"), Reason::BadGap { place: 3, nibble: 14 });
        assert_eq!(gap(Profile::VV5300, "FFFF0080 01FF"), Reason::BadGap { place: 2, nibble: 15 });
        assert_eq!(gap(Profile::VV5300, "FFFF0080 017"), Reason::ShortGap { nibbles: 3 });
    }

    #[test]
    fn a_bad_body_byte_has_its_place() {
        let text = format!("FFFF009D 085E {}08 FFFF0080", "07".repeat(355));
        assert_eq!(told(Profile::VV5404, None, &text), Ok(Reason::BadBody { place: 355, byte: 8 }));
    }

    #[test]
    fn a_run_of_no_mark_is_refused() {
        assert_eq!(told(Profile::VV5404, None, "FFFF0"), Err(Refusal::NoMarkFirst));
        assert_eq!(told(Profile::VV5404, None, "FFFF0G"), Err(Refusal::NotANibble));
        assert_eq!([raw::why(2, 6, &[16]).0, raw::why(0, 6, &[16]).0], [11, 13]);
    }
}
