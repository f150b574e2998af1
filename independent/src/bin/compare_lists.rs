//! Lists of lines: runs the proved code and the independent version on the same inputs and compares all that they give back:
//! compare_lists [TIMES [SEED]]. Shows the first difference and exits 1, if there is one.

use fluturenc::lists::{self as typed, raw, Difference, Line, Side};
use independent::check::{arguments, same, Counted};
use independent::random::Random;
use independent::{lists, told};

const LINE: usize = 359;

/// A list, mostly in order: lines by rising numbers, whose bodies differ in few places.
fn list(random: &mut Random, body: &[u8; 356]) -> Vec<u8> {
    let mut list = Vec::new();
    let mut number = random.below(5);
    for _ in 0..random.below(7) {
        list.push(random.pick(&[1, 2, 3, 3, 3, 4, 5]));
        list.extend((number as u16).to_be_bytes());
        list.extend(body);
        for _ in 0..random.below(4) {
            let place = list.len() - 1 - random.pick(&[0, 1, 99, 254, 255, 256, 354, 355]);
            list[place] = random.byte();
        }
        number += random.pick(&[1, 1, 1, 2, 300]);
    }
    for _ in 0..random.below(2) * random.below(3) {
        if list.len() < LINE {
            break;
        }
        let line = LINE * random.below(list.len() / LINE);
        match random.below(4) {
            0 => list[line] = random.pick(&[0, 1, 6, 255]),
            1 => list[line + 1] = random.pick(&[0, 15, 16, 255]),
            2 => list[line + 2] = random.pick(&[0, 1, 2, 255]),
            _ => list.truncate(line + random.below(LINE) + 1),
        }
        list.truncate(list.len() / LINE * LINE + if random.once_in(3) { list.len() % LINE } else { 0 });
    }
    list
}

/// The same list with types, where each line is one.
fn lines(list: &[u8]) -> Option<Vec<Line>> {
    let line = |l: &[u8]| Some(Line { kind: told::kind(l[0])?, number: u16::from_be_bytes([l[1], l[2]]), body: l[3..].try_into().ok()? });
    list.len().is_multiple_of(LINE).then(|| list.chunks(LINE).map(line).collect())?
}

/// A difference with types, as it is written.
fn written(difference: &Difference) -> Vec<u8> {
    match difference {
        Difference::Only { side, line } => {
            let sort = if *side == Side::First { 1 } else { 2 };
            [&[sort], &line.number.to_be_bytes()[..], &[line.kind as u8], &line.body].concat()
        }
        Difference::Kinds { number, first, second } => [&[3], &number.to_be_bytes()[..], &[*first as u8, *second as u8]].concat(),
        Difference::Place { number, place, first, second } => {
            [&[4], &number.to_be_bytes()[..], &place.to_be_bytes(), &[*first, *second]].concat()
        }
    }
}

fn main() {
    let (times, mut random) = arguments();
    let mut counted = Counted::default();
    for _ in 0..6000 * times {
        let body = [random.byte(); 356];
        let first = list(&mut random, &body);
        let other = [random.byte(); 356];
        let second = match random.below(5) {
            0 => first.clone(),
            1 => list(&mut random, &other),
            _ => list(&mut random, &body),
        };
        let wanted = lists::compare(&first, &second, usize::MAX);
        let full = wanted.as_ref().map_or(400, Vec::len);
        let room = if random.once_in(4) { full.saturating_sub(random.pick(&[1, 2, 7, 300])) } else { full + random.below(20) };
        let fill = random.byte();
        let mut ours = vec![fill; room];
        let answer = raw::compare(&first, &second, &mut ours);
        counted.filled("compare", &(&first, &second, room), answer, &ours, lists::compare(&first, &second, room), fill);
        if let (Some(a), Some(b)) = (lines(&first), lines(&second)) {
            let typed = typed::compare(&a, &b).map(|d| d.iter().flat_map(written).collect::<Vec<u8>>());
            same("comparing with types", &(&first, &second), typed.map_err(|why| why.number()), wanted);
        }
    }
    counted.tell(&[("compare", &[0, 35, 14, 13, 15, 12])]);
}
