//! Two lists of profile 0 lines compared.

use crate::{Kind, Refusal};

/// A line of a list.
#[derive(Clone, PartialEq, Eq, Debug)]
pub struct Line {
    pub kind: Kind,
    pub number: u16,
    pub body: [u8; 356],
}

/// The list that alone has a line.
#[derive(Clone, Copy, PartialEq, Eq, Debug)]
pub enum Side {
    First,
    Second,
}

/// How two lists differ.
#[derive(Clone, PartialEq, Eq, Debug)]
pub enum Difference {
    /// A line whose number one list only holds.
    Only { side: Side, line: Box<Line> },
    /// A number whose kinds differ.
    Kinds { number: u16, first: Kind, second: Kind },
    /// A place of two bodies that differ, from 0.
    Place { number: u16, place: u16, first: u8, second: u8 },
}

/// All differences, in rising number, kinds before places, then by place. Refused, each looked for over both lists before the next: 35, 14.
pub fn compare(first: &[Line], second: &[Line]) -> Result<Vec<Difference>, Refusal> {
    let (first, second) = (listed(first), listed(second));
    let mut differences = vec![0; 4096];
    loop {
        let (answer, written) = raw::compare(&first, &second, &mut differences);
        match Refusal::or_length(answer, written) {
            Ok(length) => return Ok(read(&differences[..length])),
            Err(Refusal::NoRoom) => differences.resize(2 * differences.len(), 0),
            Err(why) => return Err(why),
        }
    }
}

/// A list as it is lent.
fn listed(lines: &[Line]) -> Vec<u8> {
    let mut list = Vec::new();
    for line in lines {
        list.push(line.kind as u8);
        list.extend(line.number.to_be_bytes());
        list.extend(line.body);
    }
    list
}

/// Differences as they are written.
fn read(mut bytes: &[u8]) -> Vec<Difference> {
    let mut differences = Vec::new();
    while let [sort, high, low, rest @ ..] = bytes {
        let number = u16::from_be_bytes([*high, *low]);
        let (difference, length) = match sort {
            1 | 2 => {
                let side = if *sort == 1 { Side::First } else { Side::Second };
                let body = rest[1..357].try_into().expect("356 bytes");
                (Difference::Only { side, line: Box::new(Line { kind: Kind::numbered(rest[0]), number, body }) }, 357)
            }
            3 => (Difference::Kinds { number, first: Kind::numbered(rest[0]), second: Kind::numbered(rest[1]) }, 2),
            4 => {
                let place = u16::from_be_bytes([rest[0], rest[1]]);
                (Difference::Place { number, place, first: rest[2], second: rest[3] }, 4)
            }
            n => panic!("{n} is no difference"),
        };
        differences.push(difference);
        bytes = &rest[length..];
    }
    differences
}

/// The exported function, in numbers: 0 or the refusal, and the length written.
pub mod raw {
    extern "C" {
        fn fluturenc_compare(
            first: *const u8,
            first_length: usize,
            second: *const u8,
            second_length: usize,
            differences: *mut u8,
            differences_length: usize,
            written: *mut usize,
        ) -> u8;
    }

    pub fn compare(first: &[u8], second: &[u8], differences: &mut [u8]) -> (u8, usize) {
        let mut written = usize::MAX;
        let answer = unsafe {
            fluturenc_compare(
                first.as_ptr(),
                first.len(),
                second.as_ptr(),
                second.len(),
                differences.as_mut_ptr(),
                differences.len(),
                &mut written,
            )
        };
        (answer, written)
    }
}

#[cfg(test)]
mod tests {
    use super::*;

    fn line(kind: Kind, number: u16, body: [u8; 356]) -> Line {
        Line { kind, number, body }
    }

    #[test]
    fn differences_are_told_in_order() {
        let mut other = [7; 356];
        other[300] = 9;
        let only = |side, kind, number| Difference::Only { side, line: Box::new(line(kind, number, [7; 356])) };
        let first = [line(Kind::Blank, 5, [7; 356]), line(Kind::Visible, 256, [7; 356])];
        let second = [line(Kind::Black, 256, other), line(Kind::Blank, 300, [7; 356])];
        let wanted = vec![
            only(Side::First, Kind::Blank, 5),
            Difference::Kinds { number: 256, first: Kind::Visible, second: Kind::Black },
            Difference::Place { number: 256, place: 300, first: 7, second: 9 },
            only(Side::Second, Kind::Blank, 300),
        ];
        assert_eq!(compare(&first, &second), Ok(wanted));
        assert_eq!(compare(&first, &first), Ok(vec![]));
    }

    #[test]
    fn numbers_must_rise() {
        let lines = [line(Kind::Blank, 5000, [7; 356]), line(Kind::Blank, 5000, [7; 356])];
        assert_eq!(compare(&lines, &[]), Err(Refusal::NumbersNotRising));
        assert_eq!(compare(&lines[1..], &[]), Err(Refusal::NumberTooLarge));
    }

    #[test]
    fn a_refused_call_leaves_the_buffer() {
        let list = listed(&[line(Kind::Blank, 5, [7; 356])]);
        let mut differences = [9; 359];
        assert_eq!(raw::compare(&list, &[], &mut differences), (12, 0));
        assert_eq!(raw::compare(&list[1..], &[], &mut differences), (13, 0));
        assert_eq!(raw::compare(&list[..358], &[], &mut differences), (15, 0));
        assert_eq!(differences, [9; 359]);
    }
}
