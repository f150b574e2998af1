//! One answer for each mark.

use crate::layout::*;

#[derive(Clone, PartialEq, Eq, Debug)]
pub enum Answer {
    /// With the bit that was repaired in the code that starts it, and in the code that ends it.
    Line {
        kind: u8,
        number: u16,
        start: Option<u8>,
        end: Option<u8>,
    },
    /// Two bytes, and the line's period in nibbles.
    Gap(u8, u8, u16),
    Refused(u8),
}

const GROUP: [u8; 6] = [15, 15, 15, 15, 0, 0];

pub struct Reader {
    pub profile: Profile,
    /// The open mark: the line kind of the mark before it, and its code byte.
    open: Option<(Option<u8>, u8)>,
    /// All nibbles since the open mark's 0 0; all nibbles so far while no mark is open.
    text: Vec<u8>,
    /// All nibbles taken, and the place of the open mark's first F.
    taken: usize,
    start: usize,
    /// The place of the first F of the mark before it, where that was handed out as a line.
    line: Option<usize>,
}

fn kind_of(code: u8) -> Option<u8> {
    match read_code(code) {
        Reading::Clean(Code::Line(k)) | Reading::Repaired(Code::Line(k), _) => Some(k),
        _ => None,
    }
}

impl Reader {
    pub fn new(profile: Profile) -> Reader {
        Reader { profile, open: None, text: Vec::new(), taken: 0, start: 0, line: None }
    }

    /// Takes a nibble, with a line buffer: an answer if one is due. 10 and 12 change nothing.
    pub fn feed(&mut self, nibble: u8, buffer: &mut [u8]) -> Option<Answer> {
        if nibble > 15 {
            return Some(Answer::Refused(10));
        }
        if buffer.len() < self.profile.body_length() {
            return Some(Answer::Refused(12));
        }
        self.text.push(nibble);
        self.taken += 1;
        let n = self.text.len();
        if n < 8 || self.text[n - 8..n - 2] != GROUP {
            return None;
        }
        let code = self.text[n - 2] << 4 | self.text[n - 1];
        let answer = self.answer(&self.text[..n - 8], Some(code), buffer);
        let before = self.open.and_then(|(_, own)| kind_of(own));
        self.open = Some((before, code));
        self.line = matches!(answer, Some(Answer::Line { .. })).then_some(self.start);
        self.start = self.taken - 8;
        self.text.clear();
        self.text.push(code >> 4);
        self.text.push(code & 15);
        answer
    }

    /// Takes nibbles up to the first answer, and says how many. 12 comes before anything is taken; 10 takes what stands before it.
    pub fn run(&mut self, nibbles: &[u8], buffer: &mut [u8]) -> (Option<Answer>, usize) {
        if buffer.len() < self.profile.body_length() {
            return (Some(Answer::Refused(12)), 0);
        }
        for (i, &nibble) in nibbles.iter().enumerate() {
            match self.feed(nibble, buffer) {
                None => {}
                Some(Answer::Refused(10)) => return (Some(Answer::Refused(10)), i),
                answer => return (answer, i + 1),
            }
        }
        (None, nibbles.len())
    }

    /// Takes the nibbles of bytes, the high one of each first, from a place on, as a run does.
    pub fn run_bytes(&mut self, bytes: &[u8], from: usize, buffer: &mut [u8]) -> (Option<Answer>, usize) {
        let nibbles: Vec<u8> = bytes.iter().flat_map(|b| [b >> 4, b & 15]).skip(from).collect();
        self.run(&nibbles, buffer)
    }

    /// Answers the last mark, if there is one; a fresh reader is left.
    pub fn finish(&mut self) -> Option<Answer> {
        let answer = self.answer(&self.text, None, &mut []);
        *self = Reader::new(self.profile);
        answer
    }

    fn answer(&self, text: &[u8], next: Option<u8>, buffer: &mut [u8]) -> Option<Answer> {
        let (before, code) = self.open?;
        let (code, start) = match read_code(code) {
            Reading::Damaged => return Some(Answer::Refused(1)),
            Reading::Clean(c) => (c, None),
            Reading::Repaired(c, bit) => (c, Some(bit)),
        };
        Some(match code {
            Code::Reserved => Answer::Refused(2),
            Code::End => self.gap(before, text, next.map_or(0, |_| self.period())),
            Code::Line(kind) => match next {
                None => Answer::Refused(3),
                Some(next) => self.line(kind, start, text, next, buffer),
            },
        })
    }

    fn line(&self, kind: u8, start: Option<u8>, text: &[u8], next: u8, buffer: &mut [u8]) -> Answer {
        let n = self.profile.body_length();
        if text.len() != 6 + 2 * n {
            return Answer::Refused(4);
        }
        let byte = |i: usize| text[2 * i] << 4 | text[2 * i + 1];
        let (a, b) = (byte(1), byte(2));
        if !number_byte_good(a) || !number_byte_good(b) {
            return Answer::Refused(5);
        }
        let mut body = [0u8; 356];
        for (i, x) in body[..n].iter_mut().enumerate() {
            *x = byte(3 + i);
        }
        if !body_allowed(self.profile, kind, &body[..n]) {
            return Answer::Refused(6);
        }
        let end = match read_code(next) {
            Reading::Clean(Code::End) => None,
            Reading::Repaired(Code::End, bit) => Some(bit),
            _ => return Answer::Refused(7),
        };
        buffer[..n].copy_from_slice(&body[..n]);
        let number = (a as u16 >> 1) << 6 | b as u16 >> 1;
        Answer::Line { kind, number, start, end }
    }

    /// From the first F of a line handed out to that of the mark just complete, held at 65,535.
    fn period(&self) -> u16 {
        self.line.map_or(0, |line| u16::try_from(self.taken - 8 - line).unwrap_or(u16::MAX))
    }

    fn gap(&self, before: Option<u8>, text: &[u8], period: u16) -> Answer {
        let Some(kind) = before else {
            return Answer::Refused(8);
        };
        let all_f = |w: &[u8]| w.iter().all(|&x| x == 15);
        // An end code never lies on the next mark's F, so the text holds the whole code.
        let gap = &text[2..];
        match self.profile {
            Profile::VV5404 if all_f(gap) => Answer::Gap(255, 255, period),
            Profile::VV5404 => Answer::Refused(9),
            Profile::VV5300 => {
                if gap.len() < 4 {
                    return Answer::Refused(9);
                }
                let (a, b) = (gap[0] << 4 | gap[1], gap[2] << 4 | gap[3]);
                if gap_allowed(self.profile, kind, a, b) && all_f(&gap[4..]) {
                    Answer::Gap(a, b, period)
                } else {
                    Answer::Refused(9)
                }
            }
        }
    }
}

#[cfg(test)]
mod tests {
    use super::*;

    /// All answers to the digits of a VV5404 stream, in which `*` stands for a blank body.
    fn answers(text: &str) -> Vec<Answer> {
        let text = text.replace(' ', "").replace('*', &"07".repeat(356));
        let nibbles: Vec<u8> = text.chars().map(|c| c.to_digit(16).unwrap() as u8).collect();
        let (mut reader, mut answers, mut left) = (Reader::new(Profile::VV5404), Vec::new(), &nibbles[..]);
        while !left.is_empty() {
            let (answer, taken) = reader.run(left, &mut [0; LONGEST]);
            answers.extend(answer);
            left = &left[taken..];
        }
        answers.extend(reader.finish());
        answers
    }

    fn line(number: u16, start: Option<u8>, end: Option<u8>) -> Answer {
        Answer::Line { kind: 1, number, start, end }
    }

    #[test]
    fn a_line_is_read() {
        assert_eq!(answers("FFFF009D 085E * FFFF0080 FFFF"), [line(303, None, None), Answer::Gap(255, 255, 0)]);
        assert_eq!(answers("FFFF009C 0101 * FFFF0081"), [line(0, Some(0), Some(0)), Answer::Gap(255, 255, 0)]);
    }

    /// 01's table of refusals, of marks.
    #[test]
    fn each_refusal_has_its_number() {
        let refused = |text, numbers: &[u8]| {
            let wanted: Vec<Answer> = numbers.iter().map(|n| Answer::Refused(*n)).collect();
            assert_eq!(answers(text)[..numbers.len()], wanted, "{text}");
        };
        refused("FFFF00 FFFF00C7", &[1, 3]);
        refused("FFFF00ED", &[2]);
        refused("FFFF009D 085E 07 FFFF0080", &[4]);
        refused("FFFF009D 085E * 7 FFFF0080", &[4]);
        refused("FFFF009D 085F * FFFF0080", &[5]);
        refused("FFFF00DA 085E *", &[3]);
        refused("FFFF009D 0101 * FFFF009D", &[7]);
        refused("FFFF0080 FFFF", &[8]);
        assert_eq!(answers("FFFF009D 0101 * FFFF0080 FFFE"), [line(0, None, None), Answer::Refused(9)]);
    }

    #[test]
    fn a_bad_body_byte_is_refused() {
        let mut reader = Reader::new(Profile::VV5404);
        let mut nibbles = crate::writer::write(0, 3, 9, &[1; 356], (255, 255), 0, 1000).unwrap();
        nibbles[13] = 0;
        let mut line = [5; LONGEST];
        assert_eq!(reader.run(&nibbles, &mut line), (Some(Answer::Refused(6)), 732));
        assert_eq!(line, [5; LONGEST]);
    }

    /// 9E is damaged, and the F before it is the low nibble of a byte of which the high one is not fed.
    #[test]
    fn bytes_are_taken_from_a_nibbles_place_on() {
        let mut reader = Reader::new(Profile::VV5404);
        let bytes = [0x7F, 0xFF, 0xF0, 0x09, 0xEF, 0xFF, 0xF0, 0x08, 0x00];
        assert_eq!(reader.run_bytes(&bytes, 1, &mut [0; LONGEST]), (Some(Answer::Refused(1)), 16));
        assert_eq!(reader.run_bytes(&bytes, 17, &mut [0; LONGEST]), (None, 1));
        assert_eq!(reader.run_bytes(&bytes, 19, &mut [0; LONGEST]), (None, 0));
        assert_eq!(reader.finish(), Some(Answer::Refused(8)));
    }

    #[test]
    fn a_refused_call_takes_nothing_more() {
        let mut reader = Reader::new(Profile::VV5300);
        assert_eq!(reader.run(&[15, 15], &mut [0; 167]), (Some(Answer::Refused(12)), 0));
        assert_eq!(reader.run(&[15, 15, 16, 15], &mut [0; 168]), (Some(Answer::Refused(10)), 2));
        assert_eq!(reader.finish(), None);
    }
}
