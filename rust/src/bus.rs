//! The video bus: the reader, the writer of lines, and the judge of frames.

use crate::Refusal;

/// The sensors whose bus is read: each has its own body, its filler and its gap.
#[derive(Clone, Copy, PartialEq, Eq, Hash, Debug)]
pub enum Profile {
    /// VV5404 and VV6404
    VV5404 = 0,
    /// VV5300 in 8-bit conversion
    VV5300 = 1,
}

impl Profile {
    /// The bytes of a body.
    pub fn body_length(self) -> usize {
        match self {
            Profile::VV5404 => 356,
            Profile::VV5300 => 168,
        }
    }
}

/// The kinds of lines, by their numbers.
#[derive(Clone, Copy, PartialEq, Eq, Hash, Debug)]
pub enum Kind {
    Blank = 1,
    Black = 2,
    Visible = 3,
    StartOfFrame = 4,
    EndOfFrame = 5,
}

impl Kind {
    pub(crate) fn numbered(number: u8) -> Kind {
        match number {
            1 => Kind::Blank,
            2 => Kind::Black,
            3 => Kind::Visible,
            4 => Kind::StartOfFrame,
            5 => Kind::EndOfFrame,
            n => panic!("{n} is no kind"),
        }
    }
}

/// The answer to a mark.
#[derive(Clone, PartialEq, Eq, Debug)]
pub enum Answer {
    /// A line, whose body is the front of the line buffer; with the bit that was repaired in the code that starts it, and in the one that ends it.
    Line { kind: Kind, number: u16, start: Option<u8>, end: Option<u8> },
    /// A good gap: its two bytes, and its line's period in nibbles, 0 where the line was not handed out, or the end of the capture closed the gap.
    Gap { first: u8, second: u8, period: u16 },
    /// Refusals 1 to 9.
    Refused(Refusal),
}

/// What feeding brings: how many nibbles were taken, and the first answer, if there is one; or why the call was refused or stopped (10, 12).
#[derive(Clone, PartialEq, Eq, Debug)]
pub struct Fed {
    pub taken: usize,
    pub answer: Result<Option<Answer>, Refusal>,
}

/// A reader; a copy is a reader of its own.
#[derive(Clone, PartialEq, Eq, Debug)]
pub struct Reader {
    state: Box<[u8]>,
}

impl Reader {
    /// A fresh reader.
    pub fn new(profile: Profile) -> Reader {
        let mut state = vec![0; raw::state_length()].into_boxed_slice();
        assert_eq!(raw::open(profile as u8, &mut state), 0);
        Reader { state }
    }

    /// Feeds nibbles, a byte each, up to the first answer or the end: the next call goes on from there. The line buffer has room for a body.
    pub fn feed(&mut self, nibbles: &[u8], line: &mut [u8]) -> Fed {
        let (number, taken) = raw::feed(&mut self.state, nibbles, line);
        Fed { taken, answer: raw::answer(number) }
    }

    /// Feeds the nibbles of packed bytes, the high one of each first, from a place on that is counted in nibbles, up to the first answer or the
    /// end: the next call goes on at `from` plus what was taken, which is counted in nibbles too. The line buffer has room for a body.
    pub fn feed_bytes(&mut self, bytes: &[u8], from: usize, line: &mut [u8]) -> Fed {
        let (number, taken) = raw::feed_bytes(&mut self.state, bytes, from, line);
        Fed { taken, answer: raw::answer(number) }
    }

    /// The last mark's answer, if there was a mark; the reader is fresh again.
    pub fn finish(&mut self) -> Option<Answer> {
        raw::answer(raw::finish(&mut self.state)).expect("the state of a reader")
    }
}

/// Writes one line's nibbles, with its gap's two bytes and so many null bytes, and gives how many nibbles that is.
pub fn write(
    profile: Profile,
    kind: Kind,
    number: u16,
    body: &[u8],
    gap: (u8, u8),
    nulls: u32,
    nibbles: &mut [u8],
) -> Result<usize, Refusal> {
    let (answer, written) = raw::write(profile as u8, kind as u8, number, body, gap, nulls, nibbles);
    Refusal::or_length(answer, written)
}

/// What the judge says of a line.
#[derive(Clone, Copy, PartialEq, Eq, Debug)]
pub enum Ruling {
    Waiting,
    Going,
    /// The frame's last line.
    Complete,
    /// The frame is given up: 18 or 19.
    GivenUp(Refusal),
}

/// A judge of profile 0 frames; a copy is a judge of its own.
#[derive(Clone, PartialEq, Eq, Debug, Default)]
pub struct Judge {
    number: u32,
}

impl Judge {
    /// A judge that waits for a frame.
    pub fn new() -> Judge {
        Judge::default()
    }

    /// Judges a line by its kind and number, or a broken one: no kind, for each answer 1 to 7. Refused: 14.
    pub fn line(&mut self, kind: Option<Kind>, number: u16) -> Result<Ruling, Refusal> {
        match raw::judge(&mut self.number, kind.map_or(0, |k| k as u8), number) {
            0 => Ok(Ruling::Waiting),
            1 => Ok(Ruling::Going),
            2 => Ok(Ruling::Complete),
            n @ (18 | 19) => Ok(Ruling::GivenUp(Refusal::answered(n))),
            n => Err(Refusal::answered(n)),
        }
    }
}

/// The exported functions, in numbers.
pub mod raw {
    use super::{Answer, Kind};
    use crate::Refusal;

    extern "C" {
        fn fluturenc_state_length() -> usize;
        fn fluturenc_open(profile: u8, state: *mut u8, state_length: usize) -> u8;
        fn fluturenc_feed(
            state: *mut u8,
            state_length: usize,
            nibbles: *const u8,
            nibbles_length: usize,
            line: *mut u8,
            line_length: usize,
            taken: *mut usize,
        ) -> u64;
        fn fluturenc_feed_bytes(
            state: *mut u8,
            state_length: usize,
            bytes: *const u8,
            bytes_length: usize,
            from: usize,
            line: *mut u8,
            line_length: usize,
            taken: *mut usize,
        ) -> u64;
        fn fluturenc_finish(state: *mut u8, state_length: usize) -> u64;
        fn fluturenc_write(
            profile: u8,
            kind: u8,
            number: u16,
            body: *const u8,
            body_length: usize,
            gap_one: u8,
            gap_two: u8,
            nulls: u32,
            nibbles: *mut u8,
            nibbles_length: usize,
            written: *mut usize,
        ) -> u8;
        fn fluturenc_judge(judge: *mut u32, kind: u8, number: u16) -> u8;
    }

    // Each call hands over slices that live for the call and do not overlap, with their own lengths, and asks nothing more.

    /// The bytes of a state.
    pub fn state_length() -> usize {
        unsafe { fluturenc_state_length() }
    }

    /// 0, or the refusal.
    pub fn open(profile: u8, state: &mut [u8]) -> u8 {
        unsafe { fluturenc_open(profile, state.as_mut_ptr(), state.len()) }
    }

    /// The answer, and how many nibbles were taken.
    pub fn feed(state: &mut [u8], nibbles: &[u8], line: &mut [u8]) -> (u64, usize) {
        let mut taken = usize::MAX;
        let answer = unsafe {
            fluturenc_feed(state.as_mut_ptr(), state.len(), nibbles.as_ptr(), nibbles.len(), line.as_mut_ptr(), line.len(), &mut taken)
        };
        (answer, taken)
    }

    /// The answer, and how many nibbles were taken.
    pub fn feed_bytes(state: &mut [u8], bytes: &[u8], from: usize, line: &mut [u8]) -> (u64, usize) {
        let mut taken = usize::MAX;
        let answer = unsafe {
            fluturenc_feed_bytes(
                state.as_mut_ptr(),
                state.len(),
                bytes.as_ptr(),
                bytes.len(),
                from,
                line.as_mut_ptr(),
                line.len(),
                &mut taken,
            )
        };
        (answer, taken)
    }

    /// The answer.
    pub fn finish(state: &mut [u8]) -> u64 {
        unsafe { fluturenc_finish(state.as_mut_ptr(), state.len()) }
    }

    /// 0 or the refusal, and how many nibbles were written.
    #[allow(clippy::too_many_arguments)]
    pub fn write(profile: u8, kind: u8, number: u16, body: &[u8], gap: (u8, u8), nulls: u32, nibbles: &mut [u8]) -> (u8, usize) {
        let mut written = usize::MAX;
        let refusal = unsafe {
            fluturenc_write(
                profile,
                kind,
                number,
                body.as_ptr(),
                body.len(),
                gap.0,
                gap.1,
                nulls,
                nibbles.as_mut_ptr(),
                nibbles.len(),
                &mut written,
            )
        };
        (refusal, written)
    }

    /// The ruling, or the refusal.
    pub fn judge(judge: &mut u32, kind: u8, number: u16) -> u8 {
        unsafe { fluturenc_judge(judge, kind, number) }
    }

    /// What an answer's number says.
    pub fn answer(number: u64) -> Result<Option<Answer>, Refusal> {
        match number >> 24 & 0xFF {
            0 => match u8::try_from(number).expect("a refusal is a byte") {
                0 => Ok(None),
                n @ 1..=9 => Ok(Some(Answer::Refused(Refusal::answered(n)))),
                n => Err(Refusal::answered(n)),
            },
            1 => {
                let (start, end) = (repair(number >> 32 & 0xFFFF), repair(number >> 48));
                assert_eq!(number >> 19 & 1 == 1, start.is_some() || end.is_some(), "{number:#x} is repaired, or is not");
                let kind = Kind::numbered((number >> 16 & 7) as u8);
                Ok(Some(Answer::Line { kind, number: number as u16, start, end }))
            }
            2 => {
                let period = u16::try_from(number >> 32).expect("a period is held at 65,535");
                Ok(Some(Answer::Gap { first: (number >> 8) as u8, second: number as u8, period }))
            }
            _ => panic!("{number:#x} is no answer"),
        }
    }

    /// The bit of a repair's number; none is 0.
    fn repair(number: u64) -> Option<u8> {
        number.checked_sub(1).map(|bit| u8::try_from(bit).expect("a bit is a byte"))
    }
}

#[cfg(test)]
mod tests {
    use super::*;

    /// A blank VV5404 line numbered 303, as it is written, with so many null bytes.
    fn blank(nulls: u32) -> Vec<u8> {
        let mut nibbles = vec![0; 2000];
        let length = write(Profile::VV5404, Kind::Blank, 303, &[7; 356], (255, 255), nulls, &mut nibbles).unwrap();
        nibbles.truncate(length);
        nibbles
    }

    fn line(start: Option<u8>, end: Option<u8>) -> Answer {
        Answer::Line { kind: Kind::Blank, number: 303, start, end }
    }

    /// A line's text, its end and its gap: 393 bytes are 004's line period at 30 frames a second.
    #[test]
    fn a_line_is_written_and_read_back() {
        let nibbles = blank(25);
        assert_eq!(nibbles.len(), 2 * 393);
        assert_eq!(nibbles[..14], [15, 15, 15, 15, 0, 0, 9, 13, 0, 8, 5, 14, 0, 7]);
        let (mut reader, mut buffer) = (Reader::new(Profile::VV5404), [1; 360]);
        assert_eq!(reader.feed(&nibbles, &mut buffer), Fed { taken: 732, answer: Ok(Some(line(None, None))) });
        assert_eq!((&buffer[..356], &buffer[356..]), (&[7; 356][..], &[1; 4][..]));
        assert_eq!(reader.feed(&nibbles[732..], &mut buffer), Fed { taken: 54, answer: Ok(None) });
        // The next line's mark closes the gap.
        let fed = reader.feed(&nibbles, &mut buffer);
        assert_eq!(fed, Fed { taken: 8, answer: Ok(Some(Answer::Gap { first: 255, second: 255, period: 786 })) });
        assert_eq!(reader.finish(), Some(Answer::Refused(Refusal::UnfinishedLine)));
        assert_eq!(reader, Reader::new(Profile::VV5404));
    }

    /// An odd place begins with a byte's low nibble; what is taken is counted in nibbles.
    #[test]
    fn packed_bytes_are_fed_from_a_nibbles_place_on() {
        let nibbles = blank(25);
        for before in [0, 1, 2, 7] {
            // Nibbles that are not fed, the line, and one more where the count is odd.
            let all = [&vec![3; before], &nibbles[..], &vec![15; before % 2]].concat();
            let bytes: Vec<u8> = all.chunks(2).map(|pair| 16 * pair[0] + pair[1]).collect();
            let (mut reader, mut buffer) = (Reader::new(Profile::VV5404), [1; 356]);
            assert_eq!(reader.feed_bytes(&bytes, before, &mut buffer), Fed { taken: 732, answer: Ok(Some(line(None, None))) });
            assert_eq!(buffer, [7; 356]);
            let rest = reader.feed_bytes(&bytes, before + 732, &mut buffer);
            assert_eq!(rest, Fed { taken: 54 + before % 2, answer: Ok(None) });
            assert_eq!(reader.feed_bytes(&bytes, usize::MAX, &mut buffer), Fed { taken: 0, answer: Ok(None) });
            assert_eq!(reader.feed_bytes(&bytes, 0, &mut buffer[1..]), Fed { taken: 0, answer: Err(Refusal::NoRoom) });
        }
    }

    /// 9C is 9D with bit 0 flipped, 1D with bit 7, 81 is 80 with bit 0.
    #[test]
    fn a_flipped_bit_is_repaired_and_told() {
        for (start, bit) in [(0x9C, 0), (0xBD, 5), (0x1D, 7)] {
            let mut nibbles = blank(0);
            (nibbles[6], nibbles[7]) = (start >> 4, start & 15);
            nibbles[731] = 1;
            let fed = Reader::new(Profile::VV5404).feed(&nibbles, &mut [0; 356]);
            assert_eq!(fed.answer, Ok(Some(line(Some(bit), Some(0)))));
        }
    }

    #[test]
    fn each_refusal_of_a_mark_has_its_number() {
        let refused = |nibbles: &[u8]| {
            let (mut reader, mut buffer) = (Reader::new(Profile::VV5404), [1; 356]);
            let fed = reader.feed(nibbles, &mut buffer);
            assert_eq!(buffer, [1; 356]);
            match fed.answer.unwrap().or(reader.finish()) {
                Some(Answer::Refused(why)) => why.number(),
                other => panic!("{other:?}"),
            }
        };
        let changed = |place: usize, nibble: u8| {
            let mut nibbles = blank(0);
            nibbles[place] = nibble;
            refused(&nibbles)
        };
        assert_eq!(refused(&[15, 15, 15, 15, 0, 0, 9, 14]), 1);
        assert_eq!(refused(&[15, 15, 15, 15, 0, 0, 14, 13]), 2);
        assert_eq!(refused(&blank(0)[..700]), 3);
        assert_eq!(refused(&[&blank(0)[..100], &blank(0)[101..]].concat()), 4);
        assert_eq!(changed(11, 15), 5);
        assert_eq!(changed(13, 8), 6);
        assert_eq!(changed(730, 13), 7);
        assert_eq!(refused(&[15, 15, 15, 15, 0, 0, 8, 0]), 8);
    }

    #[test]
    fn a_refused_call_leaves_reader_and_buffer() {
        let (mut reader, mut buffer) = (Reader::new(Profile::VV5404), [1; 355]);
        let before = reader.clone();
        assert_eq!(reader.feed(&blank(0), &mut buffer), Fed { taken: 0, answer: Err(Refusal::NoRoom) });
        assert_eq!((&reader, buffer), (&before, [1; 355]));
        // An input above 15 stops a run just before it.
        assert_eq!(reader.feed(&[15, 15, 16, 15], &mut [0; 356]), Fed { taken: 2, answer: Err(Refusal::NotANibble) });
        assert_ne!(reader, before);
    }

    /// In numbers, where no type keeps a wrong call out: each has all faults of those after it.
    #[test]
    fn the_writer_refuses_in_order_and_writes_nothing() {
        let mut nibbles = [9; 1245];
        let mut refused = |profile, kind, number, length, gap, nulls| {
            let (answer, written) = raw::write(profile, kind, number, &[7; 356][..length], (gap, gap), nulls, &mut nibbles);
            assert_eq!((written, nibbles), (0, [9; 1245]));
            answer
        };
        assert_eq!(refused(2, 6, 4096, 355, 0, 256), 11);
        assert_eq!(refused(0, 6, 4096, 355, 0, 256), 13);
        assert_eq!(refused(0, 1, 4096, 355, 0, 256), 14);
        assert_eq!(refused(0, 1, 4095, 355, 0, 256), 15);
        assert_eq!(refused(0, 1, 4095, 356, 0, 256), 16);
        assert_eq!(refused(0, 1, 4095, 356, 255, 256), 17);
        assert_eq!(refused(0, 1, 4095, 356, 255, 255), 12);
    }

    #[test]
    fn a_state_that_no_call_left_is_refused() {
        let mut state = vec![3; raw::state_length()];
        let before = state.clone();
        assert_eq!(raw::feed(&mut state, &[1, 2], &mut [0; 356]), (11, 0));
        assert_eq!(raw::feed_bytes(&mut state, &[1, 2], 1, &mut [0; 356]), (11, 0));
        assert_eq!([raw::finish(&mut state), raw::open(2, &mut state).into()], [11, 11]);
        assert_eq!(raw::open(0, &mut state[1..]), 12);
        assert_eq!(state, before);
    }

    /// Borders on: SOF, two BK, seven BL, 292 VL, EOF, BL.
    #[test]
    fn a_whole_frame_is_complete() {
        let kinds = [(Kind::StartOfFrame, 1), (Kind::Black, 2), (Kind::Blank, 7), (Kind::Visible, 292), (Kind::EndOfFrame, 1)];
        let lines = kinds.into_iter().flat_map(|(kind, count)| std::iter::repeat_n(kind, count));
        let mut judge = Judge::new();
        assert_eq!(judge.line(Some(Kind::Blank), 303), Ok(Ruling::Waiting));
        for (number, kind) in (0..).zip(lines) {
            assert_eq!(judge.line(Some(kind), number), Ok(Ruling::Going), "{number}");
        }
        let mut other = judge.clone();
        assert_eq!(judge.line(Some(Kind::Blank), 303), Ok(Ruling::Complete));
        assert_eq!(other.line(None, 303), Ok(Ruling::GivenUp(Refusal::BrokenLine)));
        assert_eq!(judge.line(Some(Kind::StartOfFrame), 4096), Err(Refusal::NumberTooLarge));
    }
}
