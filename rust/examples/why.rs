//! Why marks are answered as they are: a row of standard input is a profile, the kind of the mark before, 0 for none, and nibbles in hex that begin
//! with a mark.

use fluturenc::why::{raw, Reason};
use std::io;

fn show(reason: Reason) -> String {
    match reason {
        Reason::GoodLine => "good line".to_string(),
        Reason::GoodGap => "good gap".to_string(),
        Reason::DamagedCode { byte, failed } => {
            let sums: Vec<String> = (0..4).filter(|i| failed[*i]).map(|i| format!("P{i}")).collect();
            format!("1: code {byte:02x}, its parity fails in {}", sums.join(" "))
        }
        Reason::ReservedCode => "2: reserved code".to_string(),
        Reason::UnfinishedLine => "3: cut off by the end".to_string(),
        Reason::WrongLength { found, wanted } => format!("4: {found} nibbles of text, not {wanted}"),
        Reason::BadNumber { place, byte } => format!("5: byte {place} of the number is {byte:02x}"),
        Reason::BadBody { place, byte } => format!("6: byte {place} of the body is {byte:02x}"),
        Reason::NoEndOfLine { code } => format!("7: the next mark has the code {code:02x}"),
        Reason::EndWithoutLine => "8: no line before".to_string(),
        Reason::BadGap { place, nibble } => format!("9: nibble {place} of the gap is {nibble:x}"),
        Reason::ShortGap { nibbles } => format!("9: a gap of {nibbles} nibbles"),
    }
}

fn main() -> Result<(), Box<dyn std::error::Error>> {
    for row in io::stdin().lines() {
        let row = row?;
        let words: Vec<&str> = row.split(' ').collect();
        let [profile, before, hex] = words[..] else {
            return Err("a profile, a kind and nibbles".into());
        };
        let run: Vec<u8> = hex.chars().map(|c| c.to_digit(16).expect("a digit") as u8).collect();
        // What is typed in may be no profile and no kind: so the call is made in numbers. `why::why` takes a Profile and a Kind.
        let (number, first, second) = raw::why(profile.parse()?, before.parse()?, &run);
        match raw::reason(number, first, second) {
            Ok(reason) => println!("{}", show(reason)),
            Err(refusal) => println!("refused {}", refusal.number()),
        }
    }
    Ok(())
}
