//! Lists the marks of a profile 0 capture, the bytes of an 8-wire bus on standard input, as the program `list` does.

use fluturenc::bus::{Answer, Reader};
use fluturenc::{Kind, Profile};
use std::io::{self, Read};

fn show(mark: usize, answer: &Answer) {
    match answer {
        Answer::Line { kind, number, start, end } => {
            let kind = match kind {
                Kind::Blank => "BL",
                Kind::Black => "BK",
                Kind::Visible => "VL",
                Kind::StartOfFrame => "SOF",
                Kind::EndOfFrame => "EOF",
            };
            println!("{mark} {kind} {number} {}", if start.or(*end).is_some() { "repaired" } else { "clean" });
        }
        Answer::Gap { .. } => println!("{mark} GAP - ok"),
        Answer::Refused(why) => println!("{mark} REFUSED - {}", why.number()),
    }
}

fn main() -> Result<(), Box<dyn std::error::Error>> {
    let mut capture = Vec::new();
    io::stdin().read_to_end(&mut capture)?;
    let mut line = [0; 356];
    let mut reader = Reader::new(Profile::VV5404);
    let mut answers = Vec::new();
    let mut at = 0;
    while at < 2 * capture.len() {
        let fed = reader.feed_bytes(&capture, at, &mut line);
        answers.extend(fed.answer?);
        at += fed.taken;
    }
    answers.extend(reader.finish());
    println!("mark answer number note");
    for (i, answer) in answers.iter().enumerate() {
        show(i + 1, answer);
    }
    Ok(())
}
