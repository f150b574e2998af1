//! Pictures as PGM files, and heads that send odd pixels first.

use crate::{Kind, Refusal};

/// The pixels of a row, and the rows of a picture with borders on, and off.
pub const WIDTH: usize = 356;
pub const HEIGHT_ON: usize = 292;
pub const HEIGHT_OFF: usize = 288;

/// The longest file: a header of 15 bytes, and the pixels.
pub const LONGEST_FILE: usize = 15 + WIDTH * HEIGHT_ON;

/// Writes the PGM file of a frame's visible rows, top to bottom and end to end, and gives its length. Refused: 21, 22, 12.
pub fn write(rows: &[u8], file: &mut [u8]) -> Result<usize, Refusal> {
    let (answer, written) = raw::write(rows, file);
    Refusal::or_length(answer, written)
}

/// Reads the rows of such a file, and gives their length. Refused: 20, 21, 22, 12.
pub fn read(file: &[u8], rows: &mut [u8]) -> Result<usize, Refusal> {
    let (answer, written) = raw::read(file, rows);
    Refusal::or_length(answer, written)
}

/// Puts a line's pixels in their order, of the body of a head that sends odd ones first, and gives their length. Refused: 23, 15, 12.
pub fn to_pixels(kind: Kind, body: &[u8], pixels: &mut [u8]) -> Result<usize, Refusal> {
    let (answer, written) = raw::to_pixels(kind as u8, body, pixels);
    Refusal::or_length(answer, written)
}

/// The body that such a head sends of these pixels. Refused: 23, 15, 12.
pub fn to_body(kind: Kind, pixels: &[u8], body: &mut [u8]) -> Result<usize, Refusal> {
    let (answer, written) = raw::to_body(kind as u8, pixels, body);
    Refusal::or_length(answer, written)
}

/// The exported functions, in numbers: 0 or the refusal, and the length written.
pub mod raw {
    extern "C" {
        fn fluturenc_picture_write(rows: *const u8, rows_length: usize, file: *mut u8, file_length: usize, written: *mut usize) -> u8;
        fn fluturenc_picture_read(file: *const u8, file_length: usize, rows: *mut u8, rows_length: usize, written: *mut usize) -> u8;
        fn fluturenc_to_pixels(
            kind: u8,
            body: *const u8,
            body_length: usize,
            pixels: *mut u8,
            pixels_length: usize,
            written: *mut usize,
        ) -> u8;
        fn fluturenc_to_body(
            kind: u8,
            pixels: *const u8,
            pixels_length: usize,
            body: *mut u8,
            body_length: usize,
            written: *mut usize,
        ) -> u8;
    }

    pub fn write(rows: &[u8], file: &mut [u8]) -> (u8, usize) {
        let mut written = usize::MAX;
        let answer = unsafe { fluturenc_picture_write(rows.as_ptr(), rows.len(), file.as_mut_ptr(), file.len(), &mut written) };
        (answer, written)
    }

    pub fn read(file: &[u8], rows: &mut [u8]) -> (u8, usize) {
        let mut written = usize::MAX;
        let answer = unsafe { fluturenc_picture_read(file.as_ptr(), file.len(), rows.as_mut_ptr(), rows.len(), &mut written) };
        (answer, written)
    }

    pub fn to_pixels(kind: u8, body: &[u8], pixels: &mut [u8]) -> (u8, usize) {
        let mut written = usize::MAX;
        let answer = unsafe { fluturenc_to_pixels(kind, body.as_ptr(), body.len(), pixels.as_mut_ptr(), pixels.len(), &mut written) };
        (answer, written)
    }

    pub fn to_body(kind: u8, pixels: &[u8], body: &mut [u8]) -> (u8, usize) {
        let mut written = usize::MAX;
        let answer = unsafe { fluturenc_to_body(kind, pixels.as_ptr(), pixels.len(), body.as_mut_ptr(), body.len(), &mut written) };
        (answer, written)
    }
}

#[cfg(test)]
mod tests {
    use super::*;

    #[test]
    fn a_picture_is_written_and_read_back() {
        let rows = vec![9; WIDTH * HEIGHT_ON];
        let mut file = vec![0; LONGEST_FILE + 1];
        assert_eq!(write(&rows, &mut file), Ok(LONGEST_FILE));
        assert!(file.starts_with(b"P5\n356 292\n255\n\x09") && file.ends_with(&[9, 0]));
        let mut back = vec![0; rows.len()];
        assert_eq!(read(&file[..LONGEST_FILE], &mut back), Ok(rows.len()));
        assert_eq!(back, rows);
    }

    #[test]
    fn a_refused_call_leaves_the_buffer() {
        let mut rows = vec![9; WIDTH * HEIGHT_OFF];
        let mut file = [1; 99];
        assert_eq!(write(&rows[1..], &mut file), Err(Refusal::WrongPictureLength));
        assert_eq!(write(&rows, &mut file), Err(Refusal::NoRoom));
        rows[7] = 255;
        assert_eq!(write(&rows, &mut file), Err(Refusal::BadPixel));
        assert_eq!(read(b"P6\n356 288\n255\n", &mut file), Err(Refusal::BadHeader));
        assert_eq!(to_body(Kind::Black, &rows[..1], &mut file), Err(Refusal::NotVisible));
        assert_eq!(to_body(Kind::Visible, &rows[..1], &mut file), Err(Refusal::WrongBodyLength));
        assert_eq!(to_body(Kind::Visible, &rows[..WIDTH], &mut file), Err(Refusal::NoRoom));
        assert_eq!(file, [1; 99]);
    }

    /// Place j below 178 holds pixel 2j + 1, place 178 + j holds pixel 2j.
    #[test]
    fn each_order_undoes_the_other() {
        let pixels: Vec<u8> = (0..356u16).map(|i| i as u8).collect();
        let (mut body, mut back) = ([0; WIDTH], [0; WIDTH]);
        assert_eq!(to_body(Kind::Visible, &pixels, &mut body), Ok(WIDTH));
        assert_eq!((body[0], body[177], body[178], body[355]), (1, 99, 0, 98));
        assert_eq!(to_pixels(Kind::Visible, &body, &mut back), Ok(WIDTH));
        assert_eq!(back[..], pixels[..]);
    }
}
