//! Half-line means of a VV5300 capture, the bytes of an 8-wire bus on standard input, as the program `means` writes them: a row for each visible
//! line, with the sensor's means, the exact ones, and 64 times the sensor's minus the sum of each half.

use fluturenc::bus::{Answer, Reader};
use fluturenc::means::half_means;
use fluturenc::{Kind, Profile};
use std::io::{self, Read};

/// The row of a visible line, by what its gap was answered.
fn show(number: u16, body: &[u8], gap: &Answer) -> Result<(), fluturenc::Refusal> {
    match gap {
        Answer::Gap { first, second, .. } => {
            let [a, b] = half_means(Profile::VV5300, Kind::Visible, body, (*first, *second))?;
            println!("{number} {first} {second} {:.6} {:.6} {} {}", a.mean, b.mean, a.difference, b.difference);
        }
        _ => println!("{number} refused: 9, bad gap"),
    }
    Ok(())
}

fn main() -> Result<(), Box<dyn std::error::Error>> {
    let mut capture = Vec::new();
    io::stdin().read_to_end(&mut capture)?;
    let nibbles: Vec<u8> = capture.iter().flat_map(|byte| [byte >> 4, byte & 15]).collect();
    let mut reader = Reader::new(Profile::VV5300);
    let (mut line, mut visible, mut at) = ([0; 168], None, 0);
    println!("line sensor1 sensor2 mean1 mean2 difference1 difference2");
    while at <= nibbles.len() {
        let answer = if at < nibbles.len() {
            let fed = reader.feed(&nibbles[at..], &mut line);
            at += fed.taken;
            fed.answer?
        } else {
            at += 1;
            reader.finish()
        };
        if let Some(answer) = answer {
            if let Some(number) = visible.take() {
                show(number, &line, &answer)?;
            }
            if let Answer::Line { kind: Kind::Visible, number, .. } = answer {
                visible = Some(number);
            }
        }
    }
    Ok(())
}
