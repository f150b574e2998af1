//! Writes the two-wire messages of settings, and reads them back: pairs of register and value on standard input, in decimal, a pair a line. Each
//! message is shown in hex, and then the registers as the messages leave them.

use fluturenc::two_wire::{self, Sensor};
use std::io;

fn main() -> Result<(), Box<dyn std::error::Error>> {
    let mut pairs: Vec<(u8, u8)> = Vec::new();
    for line in io::stdin().lines() {
        let line = line?;
        let (index, value) = line.split_once(' ').ok_or("a register and a value")?;
        pairs.push((index.parse()?, value.parse()?));
    }
    let mut bytes = vec![0; 3 * pairs.len()];
    let length = two_wire::write(&pairs, &mut bytes)?;
    let mut sensor = Sensor::new();
    for message in bytes[..length].chunks(3) {
        sensor.message(message)?;
        println!("{:02x} {:02x} {:02x}", message[0], message[1], message[2]);
    }
    for (index, _) in pairs {
        println!("register {index} is {}", sensor.registers()[usize::from(index)]);
    }
    // A read of another value is refused, and changes nothing.
    let wrong = [33, sensor.index(), sensor.registers()[usize::from(sensor.index())] ^ 1];
    if let Err(why) = sensor.message(&wrong) {
        println!("a read of {:02x} at {}: refused, {}", wrong[2], sensor.index(), why.number());
    }
    Ok(())
}
