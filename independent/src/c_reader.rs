//! The C reader (c_reader/reader.h), called from Rust.

use std::ffi::c_void;

#[repr(C)]
struct State {
    _private: [u8; 0],
}

type Rows = extern "C" fn(*mut c_void, *const u8, usize);

extern "C" {
    fn c_reader_open(rows: Rows, to: *mut c_void) -> *mut State;
    fn c_reader_space(reader: *mut State, room: *mut usize) -> *mut u8;
    fn c_reader_take(reader: *mut State, count: usize);
    fn c_reader_finish(reader: *mut State);
}

/// Hands rows on to a function.
extern "C" fn hand_on<F: FnMut(&[u8])>(to: *mut c_void, text: *const u8, length: usize) {
    // The function that `read` was given, which lives as long as its reader; and text that the reader lends.
    let (rows, text) = unsafe { (&mut *to.cast::<F>(), std::slice::from_raw_parts(text, length)) };
    rows(text);
}

/// Reads a whole capture, in pieces of this many bytes at most. Its rows go to a function, some at a time.
pub fn read<F: FnMut(&[u8])>(capture: &[u8], piece: usize, mut rows: F) {
    unsafe {
        let reader = c_reader_open(hand_on::<F>, (&raw mut rows).cast());
        assert!(!reader.is_null(), "no memory");
        let mut left = capture;
        while !left.is_empty() {
            let mut room = 0;
            let space = c_reader_space(reader, &mut room);
            let count = room.min(piece).min(left.len());
            std::ptr::copy_nonoverlapping(left.as_ptr(), space, count);
            c_reader_take(reader, count);
            left = &left[count..];
        }
        c_reader_finish(reader);
    }
}

/// The rows of a capture.
pub fn rows(capture: &[u8], piece: usize) -> Vec<u8> {
    let mut all = Vec::new();
    read(capture, piece, |text| all.extend_from_slice(text));
    all
}

#[cfg(test)]
mod tests {
    use super::*;

    /// 01's listing of a blank line numbered 303 with 25 null bytes, in pieces of any size.
    #[test]
    fn a_line_is_listed() {
        let nibbles = crate::writer::write(0, 1, 303, &[7; 356], (255, 255), 25, 1000).unwrap();
        let capture = crate::streams::packed(&nibbles);
        for piece in [1, 7, 393] {
            assert_eq!(rows(&capture, piece), b"mark answer number note\n1 BL 303 clean\n2 GAP - ok\n");
        }
        assert_eq!(rows(&[], 1), b"mark answer number note\n");
    }
}
