//! Frames of profile 0.

#[derive(Clone, Copy, PartialEq, Eq, Debug)]
pub enum Ruling {
    Waiting,
    Going,
    Complete,
    Refused(u8),
}

/// The place due, and whether borders are on, once that is settled; none while waiting.
#[derive(Clone, Copy, PartialEq, Eq, Debug, Default)]
pub struct Judge {
    due: Option<(u16, Option<bool>)>,
}

/// The place of the EOF line.
fn eof_at(borders: bool) -> u16 {
    if borders {
        302
    } else {
        300
    }
}

fn kind_at(place: u16, borders: bool) -> u8 {
    let visible = if borders { 10 } else { 12 };
    let eof = eof_at(borders);
    match place {
        0 => 4,
        1 | 2 => 2,
        p if p < visible => 1,
        p if p < eof => 3,
        p if p == eof => 5,
        _ => 1,
    }
}

impl Judge {
    pub fn line(&mut self, kind: u8, number: u16) -> Ruling {
        if kind > 5 {
            return Ruling::Refused(13);
        }
        if kind != 0 && number > 4095 {
            return Ruling::Refused(14);
        }
        let opens = kind == 4 && number == 0;
        let Some((place, borders)) = self.due else {
            if opens {
                self.due = Some((1, None));
                return Ruling::Going;
            }
            return Ruling::Waiting;
        };
        self.due = None;
        if kind == 0 {
            return Ruling::Refused(19);
        }
        let settled = match borders {
            Some(b) => (kind == kind_at(place, b)).then_some(Some(b)),
            None if place == 10 => match kind {
                3 => Some(Some(true)),
                1 => Some(Some(false)),
                _ => None,
            },
            None => (kind == kind_at(place, true)).then_some(None),
        };
        // After the EOF line no number is compared.
        let numbered = number == place || borders.is_some_and(|b| place > eof_at(b));
        match settled {
            Some(_) if numbered && place == 303 => Ruling::Complete,
            Some(b) if numbered => {
                self.due = Some((place + 1, b));
                Ruling::Going
            }
            _ => {
                if opens {
                    self.due = Some((1, None));
                }
                Ruling::Refused(18)
            }
        }
    }
}

#[cfg(test)]
mod tests {
    use super::*;

    fn frame(borders: bool) -> Vec<u8> {
        (0..304).map(|place| kind_at(place, borders)).collect()
    }

    /// The rulings on a frame's lines, numbered from 0.
    fn judged(judge: &mut Judge, kinds: &[u8]) -> Vec<Ruling> {
        (0..).zip(kinds).map(|(number, kind)| judge.line(*kind, number)).collect()
    }

    #[test]
    fn whole_frames_are_complete() {
        for borders in [true, false] {
            let rulings = judged(&mut Judge::default(), &frame(borders));
            assert!(rulings[..303].iter().all(|r| *r == Ruling::Going));
            assert_eq!(rulings[303], Ruling::Complete);
        }
        assert_eq!(frame(true).iter().filter(|k| **k == 3).count(), 292);
        assert_eq!(frame(false).iter().filter(|k| **k == 3).count(), 288);
    }

    /// 02, A3: after the end of frame the number may stand still.
    #[test]
    fn no_number_is_compared_after_the_end_of_frame() {
        let mut judge = Judge::default();
        judged(&mut judge, &frame(true)[..303]);
        assert_eq!(judge.line(1, 302), Ruling::Complete);
    }

    #[test]
    fn what_is_not_due_gives_the_frame_up() {
        let mut judge = Judge::default();
        assert_eq!(judge.line(2, 1), Ruling::Waiting);
        assert_eq!([judge.line(4, 0), judge.line(2, 2)], [Ruling::Going, Ruling::Refused(18)]);
        assert_eq!([judge.line(2, 3), judge.line(4, 0), judge.line(0, 9)], [Ruling::Waiting, Ruling::Going, Ruling::Refused(19)]);
        // A start of frame is not due within one, and opens the next.
        assert_eq!([judge.line(4, 0), judge.line(4, 0), judge.line(2, 1)], [Ruling::Going, Ruling::Refused(18), Ruling::Going]);
        let before = judge;
        assert_eq!([judge.line(6, 4096), judge.line(5, 4096)], [Ruling::Refused(13), Ruling::Refused(14)]);
        assert_eq!(judge, before);
    }
}
