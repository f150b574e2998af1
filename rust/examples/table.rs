//! Two technicians read two captures side by side in one table, the first of a VV5404 and the second of a VV5300: a row of standard input is a
//! technician and nibbles of their capture in hex. Each is answered as by a reader of one's own, which is fed beside the table.

use fluturenc::bus::{Answer, Reader};
use fluturenc::table::{Table, Technician};
use fluturenc::{Profile, Refusal};
use std::io;

/// A technician's place in the table, and the reader of one's own.
struct Desk {
    technician: Technician,
    place: usize,
    own: Reader,
    line: [u8; 356],
    own_line: [u8; 356],
}

impl Desk {
    fn new(table: &mut Table, technician: Technician, profile: Profile) -> Result<Desk, Refusal> {
        let place = table.open(technician, profile)?;
        println!("{}: place {place}", technician as u8);
        Ok(Desk { technician, place, own: Reader::new(profile), line: [0; 356], own_line: [0; 356] })
    }

    fn show(&self, answer: &Option<Answer>, own: &Option<Answer>) {
        let who = self.technician as u8;
        if answer != own || self.line != self.own_line {
            println!("{who}: a reader of one's own differs");
            return;
        }
        match answer {
            Some(Answer::Line { kind, number, .. }) => println!("{who}: line {number}, kind {}", *kind as u8),
            Some(Answer::Gap { .. }) => println!("{who}: gap"),
            Some(Answer::Refused(why)) => println!("{who}: refused {}", why.number()),
            None => {}
        }
    }

    fn feed(&mut self, table: &mut Table, nibbles: &[u8]) -> Result<(), Refusal> {
        let mut at = 0;
        while at < nibbles.len() {
            let fed = table.feed(self.technician, self.place, &nibbles[at..], &mut self.line);
            let own = self.own.feed(&nibbles[at..], &mut self.own_line);
            assert_eq!(fed.taken, own.taken);
            self.show(&fed.answer?, &own.answer?);
            at += fed.taken;
        }
        Ok(())
    }

    fn close(mut self, table: &mut Table) -> Result<(), Refusal> {
        let own = self.own.finish();
        self.show(&table.finish(self.technician, self.place)?, &own);
        table.close(self.technician, self.place)
    }
}

fn main() -> Result<(), Box<dyn std::error::Error>> {
    let mut table = Table::new();
    let mut first = Desk::new(&mut table, Technician::First, Profile::VV5404)?;
    let mut second = Desk::new(&mut table, Technician::Second, Profile::VV5300)?;
    // The other's place, a free one and none at all are refused alike.
    for place in [second.place, 2, 8] {
        if let Err(why) = table.close(Technician::First, place) {
            println!("1: close of place {place}, refused {}", why.number());
        }
    }
    for row in io::stdin().lines() {
        let row = row?;
        let (technician, hex) = row.split_once(' ').ok_or("a technician and nibbles")?;
        let nibbles: Vec<u8> = hex.chars().map(|c| c.to_digit(16).expect("a digit") as u8).collect();
        match technician {
            "1" => first.feed(&mut table, &nibbles)?,
            "2" => second.feed(&mut table, &nibbles)?,
            _ => return Err("technicians are 1 and 2".into()),
        }
    }
    first.close(&mut table)?;
    second.close(&mut table)?;
    // A closed place is free again, the lowest first.
    println!("2: place {}", table.open(Technician::Second, Profile::VV5404)?);
    Ok(())
}
