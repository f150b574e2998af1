//! What the proved calls say of the bus, as the plain version says it.

use crate::judge::Ruling;
use crate::reader::Answer;
use fluturenc::{bus, Refusal};

/// An answer of feeding or finish; none is nothing yet.
pub fn answer(told: Result<Option<bus::Answer>, Refusal>) -> Option<Answer> {
    match told {
        Ok(None) => None,
        Ok(Some(bus::Answer::Line { kind, number, start, end })) => Some(Answer::Line { kind: kind as u8, number, start, end }),
        Ok(Some(bus::Answer::Gap { first, second, period })) => Some(Answer::Gap(first, second, period)),
        Ok(Some(bus::Answer::Refused(why))) | Err(why) => Some(Answer::Refused(why.number())),
    }
}

pub fn ruling(told: Result<bus::Ruling, Refusal>) -> Ruling {
    match told {
        Ok(bus::Ruling::Waiting) => Ruling::Waiting,
        Ok(bus::Ruling::Going) => Ruling::Going,
        Ok(bus::Ruling::Complete) => Ruling::Complete,
        Ok(bus::Ruling::GivenUp(why)) | Err(why) => Ruling::Refused(why.number()),
    }
}

/// A call with types gives what the same call in numbers does.
pub fn filled(told: Result<usize, Refusal>) -> (u8, usize) {
    match told {
        Ok(length) => (0, length),
        Err(why) => (why.number(), 0),
    }
}

pub fn profile(profile: crate::layout::Profile) -> bus::Profile {
    match profile {
        crate::layout::Profile::VV5404 => bus::Profile::VV5404,
        crate::layout::Profile::VV5300 => bus::Profile::VV5300,
    }
}

/// The kind with a number, if there is one.
pub fn kind(number: u8) -> Option<bus::Kind> {
    [bus::Kind::Blank, bus::Kind::Black, bus::Kind::Visible, bus::Kind::StartOfFrame, bus::Kind::EndOfFrame]
        .into_iter()
        .find(|k| *k as u8 == number)
}

#[cfg(test)]
mod tests {
    use super::*;

    #[test]
    fn answers_are_the_same_in_both_words() {
        assert_eq!(answer(Ok(None)), None);
        let line = bus::Answer::Line { kind: bus::Kind::Visible, number: 9, start: Some(7), end: None };
        assert_eq!(answer(Ok(Some(line))), Some(Answer::Line { kind: 3, number: 9, start: Some(7), end: None }));
        assert_eq!(answer(Ok(Some(bus::Answer::Gap { first: 1, second: 2, period: 3 }))), Some(Answer::Gap(1, 2, 3)));
        assert_eq!(answer(Ok(Some(bus::Answer::Refused(Refusal::BadGap)))), Some(Answer::Refused(9)));
        assert_eq!(answer(Err(Refusal::NoRoom)), Some(Answer::Refused(12)));
        assert_eq!(ruling(Ok(bus::Ruling::GivenUp(Refusal::NotTheLineDue))), Ruling::Refused(18));
        assert_eq!([filled(Ok(5)), filled(Err(Refusal::NoRoom))], [(0, 5), (12, 0)]);
    }

    #[test]
    fn kinds_are_1_to_5() {
        assert_eq!((0..=255).filter(|n| kind(*n).is_some()).collect::<Vec<u8>>(), [1, 2, 3, 4, 5]);
        assert_eq!(kind(4), Some(bus::Kind::StartOfFrame));
    }
}
