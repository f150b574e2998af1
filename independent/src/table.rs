//! The table of readers that two technicians share (02, A12).

use crate::layout::Profile;
use crate::reader::{Answer, Reader};

/// Eight places: free, or a technician's with a reader.
#[derive(Default)]
pub struct Table {
    places: [Option<(u8, Reader)>; 8],
}

fn technician(who: u8) -> Result<(), u8> {
    if who == 1 || who == 2 {
        return Ok(());
    }
    Err(32)
}

impl Table {
    /// Gives the lowest free place.
    pub fn open(&mut self, who: u8, profile: u8) -> Result<usize, u8> {
        technician(who)?;
        let profile = Profile::from_number(profile).ok_or(11)?;
        let place = self.places.iter().position(Option::is_none).ok_or(33)?;
        self.places[place] = Some((who, Reader::new(profile)));
        Ok(place)
    }

    /// The reader in a place that the technician opened.
    pub fn held(&mut self, who: u8, place: usize) -> Result<&mut Reader, u8> {
        technician(who)?;
        match self.places.get_mut(place) {
            Some(Some((owner, reader))) if *owner == who => Ok(reader),
            _ => Err(34),
        }
    }

    /// Takes nibbles up to the first answer, and says how many.
    pub fn feed(&mut self, who: u8, place: usize, nibbles: &[u8], buffer: &mut [u8]) -> (Option<Answer>, usize) {
        match self.held(who, place) {
            Ok(reader) => reader.run(nibbles, buffer),
            Err(n) => (Some(Answer::Refused(n)), 0),
        }
    }

    /// Answers the last mark of a place, which stays its technician's with a fresh reader.
    pub fn finish(&mut self, who: u8, place: usize) -> Option<Answer> {
        match self.held(who, place) {
            Ok(reader) => reader.finish(),
            Err(n) => Some(Answer::Refused(n)),
        }
    }

    pub fn close(&mut self, who: u8, place: usize) -> Result<(), u8> {
        self.held(who, place)?;
        self.places[place] = None;
        Ok(())
    }

    /// Whose each place is; 0 where it is free.
    pub fn owners(&self) -> [u8; 8] {
        [0, 1, 2, 3, 4, 5, 6, 7].map(|i: usize| self.places[i].as_ref().map_or(0, |(who, _)| *who))
    }
}

#[cfg(test)]
mod tests {
    use super::*;

    #[test]
    fn the_lowest_free_place_is_opened() {
        let mut table = Table::default();
        for place in 0..8 {
            assert_eq!(table.open(1 + place as u8 % 2, 0), Ok(place));
        }
        assert_eq!(table.open(1, 0), Err(33));
        assert_eq!([table.close(2, 5), table.close(1, 2)], [Ok(()), Ok(())]);
        assert_eq!(table.open(2, 1), Ok(2));
        assert_eq!(table.owners(), [1, 2, 2, 2, 1, 0, 1, 2]);
    }

    #[test]
    fn each_calls_only_places_they_opened() {
        let mut table = Table::default();
        table.open(1, 0).unwrap();
        let refused = |n| (Some(Answer::Refused(n)), 0);
        assert_eq!(table.feed(3, 0, &[1], &mut []), refused(32));
        assert_eq!(
            [(2, 0), (1, 1), (1, 8)].map(|(who, place)| table.feed(who, place, &[1], &mut [])),
            [refused(34), refused(34), refused(34)]
        );
        assert_eq!(table.feed(1, 0, &[1], &mut []), refused(12));
        assert_eq!([table.open(3, 2), table.open(1, 2)], [Err(32), Err(11)]);
        assert_eq!([table.close(2, 0), table.close(1, 0), table.close(1, 0)], [Err(34), Ok(()), Err(34)]);
    }

    #[test]
    fn a_place_has_a_reader_of_its_own() {
        let mut table = Table::default();
        let places = [table.open(1, 0), table.open(2, 0)].map(Result::unwrap);
        table.feed(1, places[0], &[15, 15, 15, 15, 0, 0, 9, 14], &mut [0; 356]);
        assert_eq!(
            [table.finish(2, places[1]), table.finish(1, places[0]), table.finish(1, places[0])],
            [None, Some(Answer::Refused(1)), None]
        );
    }
}
