//! Saves exposure settings, and goes back to the first: settings on standard input, a line each of fine, coarse, gain code, divisor and frame rate,
//! in decimal. Each is shown as it is held, and at the end the two-wire messages that write the one gone back to.

use fluturenc::settings::{Gain, Rate, Settings, MESSAGES};
use fluturenc::Refusal;
use std::io;

fn show(list: &Settings, version: u16) -> Result<(), Refusal> {
    let s = list.find(version)?;
    println!("version {}: fine {}, coarse {}, gain code {}, divisor {}", s.version, s.fine, s.coarse, s.gain, s.divisor);
    Ok(())
}

fn main() -> Result<(), Box<dyn std::error::Error>> {
    let mut list = Settings::new();
    for line in io::stdin().lines() {
        let numbers = line?.split(' ').map(str::parse).collect::<Result<Vec<u16>, _>>()?;
        let [fine, coarse, gain, divisor, rate] = numbers[..] else {
            return Err("fine, coarse, gain code, divisor and frame rate".into());
        };
        let saved = match (Gain::coded(u8::try_from(gain)?), Rate::of(u8::try_from(rate)?)) {
            (Some(gain), Some(rate)) => list.save(fine, coarse, gain, u8::try_from(divisor)?, rate),
            _ => Err(Refusal::BadSetting),
        };
        match saved {
            Ok(version) => show(&list, version)?,
            Err(why) => println!("not saved: {}", why.number()),
        }
    }
    let version = list.back(1)?;
    println!("back to version 1");
    show(&list, version)?;
    let mut messages = [0; MESSAGES];
    let length = list.messages(version, &mut messages)?;
    for message in messages[..length].chunks(3) {
        println!("{:02x} {:02x} {:02x}", message[0], message[1], message[2]);
    }
    Ok(())
}
