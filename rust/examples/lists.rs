//! Compares two lists of lines: a row of standard input is a list, 1 or 2, a line's kind and number, the value that its body is filled with, and a
//! place of it with the value there.

use fluturenc::lists::{compare, Difference, Line, Side};
use fluturenc::Kind;
use std::io;

fn kind(number: u16) -> Option<Kind> {
    [Kind::Blank, Kind::Black, Kind::Visible, Kind::StartOfFrame, Kind::EndOfFrame].into_iter().find(|k| *k as u16 == number)
}

fn main() -> Result<(), Box<dyn std::error::Error>> {
    let mut lists: [Vec<Line>; 2] = [Vec::new(), Vec::new()];
    for row in io::stdin().lines() {
        let numbers = row?.split(' ').map(str::parse).collect::<Result<Vec<u16>, _>>()?;
        let [list @ (1 | 2), k, number, fill, place @ 0..=355, value] = numbers[..] else {
            return Err("a list, a kind, a number, a value, a place and a value".into());
        };
        let mut body = [fill as u8; 356];
        body[usize::from(place)] = value as u8;
        lists[usize::from(list) - 1].push(Line { kind: kind(k).ok_or("a kind, 1 to 5")?, number, body });
    }
    for difference in compare(&lists[0], &lists[1])? {
        match difference {
            Difference::Only { side, line } => {
                let side = if side == Side::First { "first" } else { "second" };
                println!("{} only in the {side}, kind {}", line.number, line.kind as u8);
            }
            Difference::Kinds { number, first, second } => println!("{number} kinds {} {}", first as u8, second as u8),
            Difference::Place { number, place, first, second } => println!("{number} place {place}: {first} {second}"),
        }
    }
    Ok(())
}
