//! A table of eight readers that two technicians share: each calls only the places that they opened.

use crate::bus::{raw::answer, Answer, Fed};
use crate::{Profile, Refusal};

/// The two who share a table.
#[derive(Clone, Copy, PartialEq, Eq, Hash, Debug)]
pub enum Technician {
    First = 1,
    Second = 2,
}

/// Eight places, each free or a technician's, with a reader; a copy is a table of its own.
#[derive(Clone, PartialEq, Eq, Debug)]
pub struct Table {
    bytes: Box<[u8]>,
}

impl Default for Table {
    fn default() -> Table {
        Table::new()
    }
}

impl Table {
    /// All places are free.
    pub fn new() -> Table {
        let mut bytes = vec![0; raw::table_length()].into_boxed_slice();
        assert_eq!(raw::new(&mut bytes), 0);
        Table { bytes }
    }

    /// The lowest free place, 0 to 7, now the technician's with a fresh reader. Refused: 33.
    pub fn open(&mut self, technician: Technician, profile: Profile) -> Result<usize, Refusal> {
        match raw::open(&mut self.bytes, technician as u8, profile as u8) {
            place @ 0..=7 => Ok(usize::from(place)),
            n => Err(Refusal::answered(n)),
        }
    }

    /// Feeds nibbles to the place's reader, as `Reader::feed` does. Refused, with nothing taken: 34; then as there.
    pub fn feed(&mut self, technician: Technician, place: usize, nibbles: &[u8], line: &mut [u8]) -> Fed {
        let (number, taken) = raw::feed(&mut self.bytes, technician as u8, place, nibbles, line);
        Fed { taken, answer: answer(number) }
    }

    /// The last mark's answer of the place, if there was a mark; its reader is fresh again, and the place stays the technician's. Refused: 34.
    pub fn finish(&mut self, technician: Technician, place: usize) -> Result<Option<Answer>, Refusal> {
        answer(raw::finish(&mut self.bytes, technician as u8, place))
    }

    /// Frees the place; a mark that is still open is not answered. Refused: 34.
    pub fn close(&mut self, technician: Technician, place: usize) -> Result<(), Refusal> {
        match raw::close(&mut self.bytes, technician as u8, place) {
            0 => Ok(()),
            n => Err(Refusal::answered(n)),
        }
    }
}

/// The exported functions, in numbers.
pub mod raw {
    extern "C" {
        fn fluturenc_table_length() -> usize;
        fn fluturenc_table_new(table: *mut u8, table_length: usize) -> u8;
        fn fluturenc_table_open(table: *mut u8, table_length: usize, technician: u8, profile: u8) -> u8;
        fn fluturenc_table_feed(
            table: *mut u8,
            table_length: usize,
            technician: u8,
            place: usize,
            nibbles: *const u8,
            nibbles_length: usize,
            line: *mut u8,
            line_length: usize,
            taken: *mut usize,
        ) -> u64;
        fn fluturenc_table_finish(table: *mut u8, table_length: usize, technician: u8, place: usize) -> u64;
        fn fluturenc_table_close(table: *mut u8, table_length: usize, technician: u8, place: usize) -> u8;
    }

    pub fn table_length() -> usize {
        unsafe { fluturenc_table_length() }
    }

    /// 0, or the refusal.
    pub fn new(table: &mut [u8]) -> u8 {
        unsafe { fluturenc_table_new(table.as_mut_ptr(), table.len()) }
    }

    /// The place, 0 to 7, or the refusal.
    pub fn open(table: &mut [u8], technician: u8, profile: u8) -> u8 {
        unsafe { fluturenc_table_open(table.as_mut_ptr(), table.len(), technician, profile) }
    }

    /// The answer, and how many nibbles were taken.
    pub fn feed(table: &mut [u8], technician: u8, place: usize, nibbles: &[u8], line: &mut [u8]) -> (u64, usize) {
        let mut taken = usize::MAX;
        let answer = unsafe {
            fluturenc_table_feed(
                table.as_mut_ptr(),
                table.len(),
                technician,
                place,
                nibbles.as_ptr(),
                nibbles.len(),
                line.as_mut_ptr(),
                line.len(),
                &mut taken,
            )
        };
        (answer, taken)
    }

    pub fn finish(table: &mut [u8], technician: u8, place: usize) -> u64 {
        unsafe { fluturenc_table_finish(table.as_mut_ptr(), table.len(), technician, place) }
    }

    /// 0, or the refusal.
    pub fn close(table: &mut [u8], technician: u8, place: usize) -> u8 {
        unsafe { fluturenc_table_close(table.as_mut_ptr(), table.len(), technician, place) }
    }
}

#[cfg(test)]
mod tests {
    use super::*;

    use Technician::{First, Second};

    #[test]
    fn the_lowest_free_place_is_opened() {
        let mut table = Table::new();
        for place in 0..8 {
            assert_eq!(table.open(if place % 2 == 0 { First } else { Second }, Profile::VV5404), Ok(place));
        }
        assert_eq!(table.open(First, Profile::VV5404), Err(Refusal::NoPlaceFree));
        assert_eq!([table.close(Second, 5), table.close(First, 2)], [Ok(()), Ok(())]);
        assert_eq!(table.open(Second, Profile::VV5300), Ok(2));
    }

    #[test]
    fn each_calls_only_places_they_opened() {
        let mut table = Table::new();
        table.open(First, Profile::VV5404).unwrap();
        let (before, mut line) = (table.clone(), [1; 355]);
        let refused = Fed { taken: 0, answer: Err(Refusal::PlaceNotHeld) };
        assert_eq!(table.feed(Second, 0, &[1], &mut line), refused);
        assert_eq!(table.feed(First, 1, &[1], &mut line), refused);
        assert_eq!(table.feed(First, usize::MAX, &[1], &mut line), refused);
        assert_eq!(table.feed(First, 0, &[1], &mut line), Fed { taken: 0, answer: Err(Refusal::NoRoom) });
        assert_eq!([table.close(Second, 0), table.close(First, 8)], [Err(Refusal::PlaceNotHeld); 2]);
        assert_eq!((table, line), (before, [1; 355]));
    }

    #[test]
    fn a_place_has_a_reader_of_its_own() {
        let mut table = Table::new();
        let places = [First, Second].map(|who| table.open(who, Profile::VV5404).unwrap());
        table.feed(First, places[0], &[15, 15, 15, 15, 0, 0, 9, 14], &mut [0; 356]);
        assert_eq!(table.finish(Second, places[1]), Ok(None));
        assert_eq!(table.finish(First, places[0]), Ok(Some(Answer::Refused(Refusal::DamagedCode))));
        assert_eq!(table.finish(First, places[0]), Ok(None));
    }
}
