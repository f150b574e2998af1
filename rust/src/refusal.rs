//! Why a mark or a call is refused.

use std::fmt;

macro_rules! refusals {
    ($($number:literal $name:ident $words:literal)*) => {
        /// Why a mark or a call is refused, by the papers' numbers.
        #[derive(Clone, Copy, PartialEq, Eq, Hash, Debug)]
        pub enum Refusal {
            $(#[doc = $words] $name = $number,)*
        }

        impl Refusal {
            /// The refusal with this number.
            pub fn numbered(number: u8) -> Option<Refusal> {
                match number {
                    $($number => Some(Refusal::$name),)*
                    _ => None,
                }
            }

            fn words(self) -> &'static str {
                match self {
                    $(Refusal::$name => $words,)*
                }
            }
        }
    };
}

refusals! {
    1 DamagedCode "the mark's code is damaged"
    2 ReservedCode "the mark's code is reserved"
    3 UnfinishedLine "the end cut the line off"
    4 WrongLength "a line's text has the wrong length"
    5 BadNumber "a number byte is bad"
    6 BadBody "a body byte is not allowed"
    7 NoEndOfLine "the next mark is no end of line"
    8 EndWithoutLine "an end of line with no line before"
    9 BadGap "the gap is not as laid out"
    10 NotANibble "an input is above 15"
    11 BadState "no such profile, or the state fails its own test"
    12 NoRoom "too little room"
    13 BadKind "no such kind of line"
    14 NumberTooLarge "a number above 4095"
    15 WrongBodyLength "a body of the wrong length"
    16 ByteNotAllowed "a byte of body or gap is not allowed"
    17 TooManyNulls "more than 255 null bytes"
    18 NotTheLineDue "not the line due"
    19 BrokenLine "a broken line"
    20 BadHeader "not a picture's header"
    21 WrongPictureLength "a picture of the wrong length"
    22 BadPixel "a pixel is not 01 to FE"
    23 NotVisible "not a visible line"
    24 ShortMessage "a message shorter than two bytes, or a list that ends within a pair"
    25 WrongAddress "the address is neither 32 nor 33"
    26 WrongIndex "index or increment differs"
    27 WrongData "read data differs"
    28 PastLastRegister "past register 127"
    29 BadSetting "gain, divisor or frame rate"
    30 VersionNotHeld "the version is not held"
    31 NoVersionLeft "no version number is left"
    32 NoSuchTechnician "the technician is neither 1 nor 2"
    33 NoPlaceFree "all eight places are taken"
    34 PlaceNotHeld "not a place that this technician opened"
    35 NumbersNotRising "a list's numbers don't rise"
    36 NoMarkFirst "the run doesn't begin with a mark"
    37 NotSavedSettings "not a list of saved settings"
}

impl Refusal {
    /// The papers' number.
    pub fn number(self) -> u8 {
        self as u8
    }

    /// The refusal that a call answered.
    pub(crate) fn answered(number: u8) -> Refusal {
        Refusal::numbered(number).unwrap_or_else(|| panic!("{number} is no refusal"))
    }

    /// What a call that fills a lent buffer answered: the length, or the refusal, which no length comes with.
    pub(crate) fn or_length(number: u8, length: usize) -> Result<usize, Refusal> {
        if number == 0 {
            return Ok(length);
        }
        assert_eq!(length, 0, "a length beside the refusal {number}");
        Err(Refusal::answered(number))
    }
}

impl fmt::Display for Refusal {
    fn fmt(&self, f: &mut fmt::Formatter<'_>) -> fmt::Result {
        write!(f, "{}, {}", self.number(), self.words())
    }
}

impl std::error::Error for Refusal {}

#[cfg(test)]
mod tests {
    use super::*;

    #[test]
    fn numbers_are_1_to_37() {
        for number in 0..=255 {
            assert_eq!(Refusal::numbered(number).map(Refusal::number), (1..=37).contains(&number).then_some(number));
        }
    }

    #[test]
    fn words_stand_beside_the_number() {
        assert_eq!(Refusal::DamagedCode.to_string(), "1, the mark's code is damaged");
        assert_eq!(Refusal::NotSavedSettings.to_string(), "37, not a list of saved settings");
    }

    #[test]
    fn a_length_or_the_refusal() {
        assert_eq!([Refusal::or_length(0, 9), Refusal::or_length(12, 0)], [Ok(9), Err(Refusal::NoRoom)]);
    }

    #[test]
    #[should_panic(expected = "a length beside the refusal 12")]
    fn never_both() {
        Refusal::or_length(12, 9).expect_err("a refusal");
    }
}
