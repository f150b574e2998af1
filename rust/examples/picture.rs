//! Writes the picture of the first complete profile 0 frame of a capture, as the program `picture` does: the bytes of a capture on standard input, a
//! PGM file on standard output.

use fluturenc::bus::{Answer, Judge, Reader, Ruling};
use fluturenc::{picture, Kind, Profile};
use std::io::{self, Read, Write};

/// The visible lines of the first complete frame, end to end.
fn rows(nibbles: &[u8]) -> Result<Vec<u8>, Box<dyn std::error::Error>> {
    let (mut reader, mut judge) = (Reader::new(Profile::VV5404), Judge::new());
    let (mut line, mut rows, mut at) = ([0; picture::WIDTH], Vec::new(), 0);
    while at < nibbles.len() {
        let fed = reader.feed(&nibbles[at..], &mut line);
        at += fed.taken;
        let ruling = match fed.answer? {
            Some(Answer::Line { kind, number, .. }) => {
                if kind == Kind::StartOfFrame {
                    rows.clear();
                }
                if kind == Kind::Visible {
                    rows.extend(line);
                }
                judge.line(Some(kind), number)?
            }
            // Gaps, and what is said of them (8 and 9), are no lines.
            Some(Answer::Refused(why)) if why.number() < 8 => judge.line(None, 0)?,
            _ => continue,
        };
        if ruling == Ruling::Complete {
            return Ok(rows);
        }
    }
    Err("no complete frame".into())
}

fn main() -> Result<(), Box<dyn std::error::Error>> {
    let mut capture = Vec::new();
    io::stdin().read_to_end(&mut capture)?;
    let nibbles: Vec<u8> = capture.iter().flat_map(|byte| [byte >> 4, byte & 15]).collect();
    let rows = rows(&nibbles)?;
    let mut file = vec![0; picture::LONGEST_FILE];
    let length = picture::write(&rows, &mut file)?;
    io::stdout().write_all(&file[..length])?;

    // The file reads back as its rows; and a row sent odd pixels first, put in order, is the row.
    let mut back = vec![0; rows.len()];
    assert_eq!((picture::read(&file[..length], &mut back)?, &back), (rows.len(), &rows));
    let (mut sent, mut row) = ([0; picture::WIDTH], [0; picture::WIDTH]);
    picture::to_body(Kind::Visible, &rows[..picture::WIDTH], &mut sent)?;
    picture::to_pixels(Kind::Visible, &sent, &mut row)?;
    assert_eq!(row, rows[..picture::WIDTH]);
    Ok(())
}
