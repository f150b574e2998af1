//! Line codes, number bytes, body and gap rules of both profiles.

#[derive(Clone, Copy, PartialEq, Eq, Debug)]
pub enum Profile {
    /// VV5404 and VV6404: profile 0 of the papers.
    VV5404,
    /// VV5300 in 8-bit conversion: profile 1.
    VV5300,
}

/// The bytes of the longest body.
pub const LONGEST: usize = 356;

impl Profile {
    pub fn from_number(n: u8) -> Option<Profile> {
        match n {
            0 => Some(Profile::VV5404),
            1 => Some(Profile::VV5300),
            _ => None,
        }
    }

    pub fn body_length(self) -> usize {
        match self {
            Profile::VV5404 => 356,
            Profile::VV5300 => 168,
        }
    }
}

/// End of line, a kind 1 to 5, or reserved.
#[derive(Clone, Copy, PartialEq, Eq, Debug)]
pub enum Code {
    End,
    Line(u8),
    Reserved,
}

#[derive(Clone, Copy, PartialEq, Eq, Debug)]
pub enum Reading {
    Clean(Code),
    /// With the number of the bit, 0 to 7.
    Repaired(Code, u8),
    Damaged,
}

pub const CLEAN: [(u8, Code); 8] = [
    (0x80, Code::End),
    (0x9D, Code::Line(1)),
    (0xAB, Code::Line(2)),
    (0xB6, Code::Line(3)),
    (0xC7, Code::Line(4)),
    (0xDA, Code::Line(5)),
    (0xEC, Code::Reserved),
    (0xF1, Code::Reserved),
];

/// The clean byte that a byte is, or differs from in one of its eight bits.
pub fn read_code(byte: u8) -> Reading {
    for (clean, code) in CLEAN {
        let flips = byte ^ clean;
        if flips == 0 {
            return Reading::Clean(code);
        }
        if flips.is_power_of_two() {
            return Reading::Repaired(code, flips.trailing_zeros() as u8);
        }
    }
    Reading::Damaged
}

pub fn number_byte(six: u16) -> u8 {
    let byte = (six as u8) << 1;
    byte | ((byte.count_ones() as u8 + 1) & 1)
}

pub fn number_byte_good(byte: u8) -> bool {
    byte & 0x80 == 0 && byte.count_ones() % 2 == 1
}

fn pixel(b: u8) -> bool {
    b != 0 && b != 255
}

/// The first place of a body of the right length whose byte is not allowed.
pub fn bad_place(profile: Profile, kind: u8, body: &[u8]) -> Option<usize> {
    let (image, outer) = match profile {
        Profile::VV5404 => (0..356, 0),
        Profile::VV5300 => (4..164, 2),
    };
    body.iter().enumerate().position(|(i, &b)| {
        let in_image = image.contains(&i);
        let allowed = match kind {
            2 | 3 => {
                if i < outer || i >= body.len() - outer {
                    b == 7
                } else {
                    pixel(b)
                }
            }
            4 if in_image && (i - image.start) % 2 == 0 => true,
            5 if profile == Profile::VV5300 && in_image && i - image.start < 8 && (i - image.start) % 2 == 0 => pixel(b),
            _ => b == 7,
        };
        !allowed
    })
}

/// Whether a body of the right length has allowed bytes.
pub fn body_allowed(profile: Profile, kind: u8, body: &[u8]) -> bool {
    bad_place(profile, kind, body).is_none()
}

/// Whether one gap byte of profile 1 may follow a line of the kind.
pub fn mean_allowed(kind: u8, byte: u8) -> bool {
    if kind == 3 {
        pixel(byte)
    } else {
        byte == 7
    }
}

/// Whether the two gap bytes may follow a line of the kind.
pub fn gap_allowed(profile: Profile, kind: u8, a: u8, b: u8) -> bool {
    match profile {
        Profile::VV5404 => a == 255 && b == 255,
        Profile::VV5300 => mean_allowed(kind, a) && mean_allowed(kind, b),
    }
}

#[cfg(test)]
mod tests {
    use super::*;

    /// 01's table of clean bytes, its starred cases and, with 02's A8, the counts of all 256.
    #[test]
    fn codes_are_read() {
        let wanted = [
            (0x80, Reading::Clean(Code::End)),
            (0x9D, Reading::Clean(Code::Line(1))),
            (0xAB, Reading::Clean(Code::Line(2))),
            (0xB6, Reading::Clean(Code::Line(3))),
            (0xC7, Reading::Clean(Code::Line(4))),
            (0xDA, Reading::Clean(Code::Line(5))),
            (0xEC, Reading::Clean(Code::Reserved)),
            (0xF1, Reading::Clean(Code::Reserved)),
            (0x9C, Reading::Repaired(Code::Line(1), 0)),
            (0xBD, Reading::Repaired(Code::Line(1), 5)),
            (0x1D, Reading::Repaired(Code::Line(1), 7)),
            (0x81, Reading::Repaired(Code::End, 0)),
            (0xED, Reading::Repaired(Code::Reserved, 0)),
            (0x9E, Reading::Damaged),
            (0xFF, Reading::Damaged),
        ];
        for (byte, reading) in wanted {
            assert_eq!(read_code(byte), reading, "{byte:02X}");
        }
        let count = |is: fn(&Reading) -> bool| (0..=255).map(read_code).filter(is).count();
        assert_eq!(count(|r| matches!(r, Reading::Clean(_))), 8);
        assert_eq!(count(|r| matches!(r, Reading::Repaired(..))), 64);
        assert_eq!(count(|r| matches!(r, Reading::Damaged)), 184);
    }

    #[test]
    fn numbers_are_two_bytes_of_odd_parity() {
        for (number, bytes) in
            [(0, [1, 1]), (1, [1, 2]), (63, [1, 0x7F]), (64, [2, 1]), (302, [8, 0x5D]), (303, [8, 0x5E]), (4095, [0x7F, 0x7F])]
        {
            assert_eq!([number_byte(number >> 6), number_byte(number & 63)], bytes, "{number}");
        }
        assert_eq!((0..=255).filter(|b| number_byte_good(*b)).count(), 64);
        assert!(!number_byte_good(0x81) && !number_byte_good(3));
    }

    #[test]
    fn bodies_have_the_bytes_of_their_kind() {
        let (mut long, mut short) = ([7; 356], [7; 168]);
        long[8] = 0xFF;
        assert_eq!(bad_place(Profile::VV5404, 4, &long), None);
        assert_eq!(bad_place(Profile::VV5404, 3, &long), Some(8));
        long[9] = 8;
        assert_eq!(bad_place(Profile::VV5404, 4, &long), Some(9));
        short[2] = 0xFE;
        assert_eq!(bad_place(Profile::VV5300, 2, &short), None);
        assert_eq!(bad_place(Profile::VV5300, 5, &short), Some(2));
        short[1] = 8;
        assert_eq!(bad_place(Profile::VV5300, 2, &short), Some(1));
        // The bin averages of an end of frame: image places 0, 2, 4 and 6.
        short = [7; 168];
        short[10] = 9;
        assert_eq!(bad_place(Profile::VV5300, 5, &short), None);
        short[12] = 9;
        assert_eq!(bad_place(Profile::VV5300, 5, &short), Some(12));
    }

    #[test]
    fn gaps_have_the_bytes_of_their_line() {
        assert!(gap_allowed(Profile::VV5404, 3, 255, 255) && !gap_allowed(Profile::VV5404, 3, 255, 7));
        assert!(gap_allowed(Profile::VV5300, 3, 1, 254) && !gap_allowed(Profile::VV5300, 3, 1, 255));
        assert!(gap_allowed(Profile::VV5300, 2, 7, 7) && !gap_allowed(Profile::VV5300, 2, 7, 8));
    }
}
