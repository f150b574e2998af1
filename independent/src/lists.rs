//! Two lists of profile 0 lines compared (02, A13).

use std::collections::BTreeMap;

/// A list's line: kind, number in two bytes, body.
const LINE: usize = 359;

/// The bytes of a line before its body.
const HEAD: usize = 3;

/// A line's kind and body, in each of the lists that has it.
type Sides<'a> = [Option<(u8, &'a [u8])>; 2];

/// The lines of a list by number: kind and body; of a last line that is cut, what there is of its body.
fn lines(list: &[u8]) -> Vec<(u16, u8, &[u8])> {
    list.chunks(LINE).filter(|l| l.len() >= HEAD).map(|l| (u16::from_be_bytes([l[1], l[2]]), l[0], &l[HEAD..])).collect()
}

/// The differences as they are written, or the refusal.
pub fn compare(first: &[u8], second: &[u8], room: usize) -> Result<Vec<u8>, u8> {
    let lists = [lines(first), lines(second)];
    if lists.iter().any(|list| list.windows(2).any(|w| w[0].0 >= w[1].0)) {
        return Err(35);
    }
    if lists.iter().flatten().any(|line| line.0 > 4095) {
        return Err(14);
    }
    if lists.iter().flatten().any(|line| !(1..=5).contains(&line.1)) {
        return Err(13);
    }
    if !first.len().is_multiple_of(LINE) || !second.len().is_multiple_of(LINE) {
        return Err(15);
    }
    let mut numbers: BTreeMap<u16, Sides<'_>> = BTreeMap::new();
    for (side, list) in lists.iter().enumerate() {
        for (number, kind, body) in list {
            numbers.entry(*number).or_default()[side] = Some((*kind, body));
        }
    }
    let mut out = Vec::new();
    for (number, sides) in numbers {
        let mut put = |sort: u8, bytes: &[u8]| {
            out.push(sort);
            out.extend(number.to_be_bytes());
            out.extend(bytes);
        };
        match sides {
            [Some((kind, body)), None] => put(1, &[&[kind], body].concat()),
            [None, Some((kind, body))] => put(2, &[&[kind], body].concat()),
            [Some((kind, body)), Some((kind2, body2))] => {
                if kind != kind2 {
                    put(3, &[kind, kind2]);
                }
                for (place, (a, b)) in body.iter().zip(body2).enumerate() {
                    if a != b {
                        put(4, &[(place >> 8) as u8, place as u8, *a, *b]);
                    }
                }
            }
            [None, None] => unreachable!("a number of neither list"),
        }
    }
    if out.len() > room {
        return Err(12);
    }
    Ok(out)
}

#[cfg(test)]
mod tests {
    use super::*;

    fn line(kind: u8, number: u16, body: [u8; 356]) -> Vec<u8> {
        [&[kind][..], &number.to_be_bytes(), &body].concat()
    }

    #[test]
    fn differences_are_told_in_order() {
        let mut other = [7; 356];
        other[300] = 9;
        let first = [line(1, 5, [7; 356]), line(3, 256, [7; 356])].concat();
        let second = [line(2, 256, other), line(4, 300, [7; 356])].concat();
        let only = |side: u8, high, low, kind| [&[side, high, low, kind][..], &[7; 356]].concat();
        let wanted = [only(1, 0, 5, 1), vec![3, 1, 0, 3, 2], vec![4, 1, 0, 1, 44, 7, 9], only(2, 1, 44, 4)].concat();
        assert_eq!(compare(&first, &second, wanted.len()), Ok(wanted.clone()));
        assert_eq!(compare(&first, &second, wanted.len() - 1), Err(12));
        assert_eq!(compare(&first, &first, 0), Ok(vec![]));
    }

    /// Each list has all faults of those after it.
    #[test]
    fn refusals_come_in_their_order() {
        let good = line(1, 1, [7; 356]);
        let cut = |line: &[u8]| line[..358].to_vec();
        assert_eq!(compare(&good, &[line(6, 5000, [7; 356]), cut(&line(0, 5000, [7; 356]))].concat(), 0), Err(35));
        assert_eq!(compare(&good, &cut(&line(6, 4096, [7; 356])), 0), Err(14));
        assert_eq!(compare(&good, &cut(&line(6, 4095, [7; 356])), 0), Err(13));
        assert_eq!(compare(&good, &cut(&good), 0), Err(15));
    }
}
