//! A line as its sensor sends it.

use crate::layout::*;

fn put(out: &mut Vec<u8>, bytes: &[u8]) {
    for b in bytes {
        out.push(b >> 4);
        out.push(b & 15);
    }
}

/// The line's nibbles, or the refusal.
#[allow(clippy::too_many_arguments)]
pub fn write(profile: u8, kind: u8, number: u16, body: &[u8], gap: (u8, u8), nulls: u32, room: usize) -> Result<Vec<u8>, u8> {
    let profile = Profile::from_number(profile).ok_or(11)?;
    if !(1..=5).contains(&kind) {
        return Err(13);
    }
    if number > 4095 {
        return Err(14);
    }
    if body.len() != profile.body_length() {
        return Err(15);
    }
    if !body_allowed(profile, kind, body) || !gap_allowed(profile, kind, gap.0, gap.1) {
        return Err(16);
    }
    if nulls > 255 {
        return Err(17);
    }
    let start = CLEAN.iter().find(|(_, c)| *c == Code::Line(kind)).unwrap().0;
    let mut out = Vec::new();
    put(&mut out, &[0xFF, 0xFF, 0x00, start, number_byte(number >> 6), number_byte(number & 63)]);
    put(&mut out, body);
    put(&mut out, &[0xFF, 0xFF, 0x00, 0x80, gap.0, gap.1]);
    put(&mut out, &vec![0xFF; nulls as usize]);
    if out.len() > room {
        return Err(12);
    }
    Ok(out)
}

#[cfg(test)]
mod tests {
    use super::*;

    fn written(profile: u8, kind: u8, number: u16, body: &[u8], gap: (u8, u8), nulls: u32, room: usize) -> Result<usize, u8> {
        write(profile, kind, number, body, gap, nulls, room).map(|nibbles| nibbles.len())
    }

    /// 004's line periods: 393 bytes at 30 frames a second, 471 at 25.
    #[test]
    fn a_line_has_its_period() {
        assert_eq!(written(0, 1, 303, &[7; 356], (255, 255), 25, 786), Ok(2 * 393));
        assert_eq!(written(0, 1, 303, &[7; 356], (255, 255), 103, 942), Ok(2 * 471));
        assert_eq!(written(1, 2, 0, &[7; 168], (7, 7), 255, 870), Ok(360 + 2 * 255));
    }

    #[test]
    fn a_line_is_mark_number_body_end_and_gap() {
        let nibbles = write(0, 1, 303, &[7; 356], (255, 255), 1, 1000).unwrap();
        assert_eq!(nibbles[..14], [15, 15, 15, 15, 0, 0, 9, 13, 0, 8, 5, 14, 0, 7]);
        assert_eq!(nibbles[722..], [0, 7, 15, 15, 15, 15, 0, 0, 8, 0, 15, 15, 15, 15, 15, 15]);
    }

    /// Each call has all faults of those after it.
    #[test]
    fn refusals_come_in_their_order() {
        assert_eq!(written(2, 6, 4096, &[0; 3], (0, 0), 256, 0), Err(11));
        assert_eq!(written(0, 6, 4096, &[0; 3], (0, 0), 256, 0), Err(13));
        assert_eq!(written(0, 1, 4096, &[0; 3], (0, 0), 256, 0), Err(14));
        assert_eq!(written(0, 1, 4095, &[0; 3], (0, 0), 256, 0), Err(15));
        assert_eq!(written(0, 1, 4095, &[0; 356], (255, 255), 256, 0), Err(16));
        assert_eq!(written(0, 1, 4095, &[7; 356], (255, 255), 256, 0), Err(17));
        assert_eq!(written(0, 1, 4095, &[7; 356], (255, 255), 255, 1245), Err(12));
        assert_eq!(written(0, 1, 4095, &[7; 356], (255, 255), 255, 1246), Ok(1246));
    }
}
