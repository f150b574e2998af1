//! Two-wire messages: runs the proved code and the independent version on the same inputs and compares all that they give back:
//! compare_two_wire [TIMES [SEED]]. Shows the first difference and exits 1, if there is one.

use fluturenc::two_wire::{self as typed, raw};
use independent::check::{arguments, same, Counted, BEYOND};
use independent::random::Random;
use independent::told;
use independent::two_wire::{self, Sensor};

/// A byte, often one that counts.
fn byte(random: &mut Random) -> u8 {
    if random.once_in(2) {
        return random.pick(&[0, 1, 4, 5, 32, 33, 126, 127, 128, 133, 254, 255]);
    }
    random.byte()
}

/// A message: a write, a read of what the sensor holds, with a byte changed or not, or noise.
fn message(random: &mut Random, sensor: &Sensor) -> Vec<u8> {
    let length = match random.below(8) {
        0 => 0,
        1 => random.below(200),
        2 => 128usize.saturating_sub((sensor.second() & 127) as usize) + random.below(2),
        _ => random.below(6),
    };
    match random.below(9) {
        0 => (0..random.below(5)).map(|_| byte(random)).collect(),
        1..=4 => {
            let second = byte(random);
            let length = if random.once_in(4) { 128 - (second & 127) as usize + random.below(2) } else { length };
            [32, second].into_iter().chain((0..length).map(|_| random.byte()).collect::<Vec<u8>>()).collect()
        }
        _ => {
            let (at, step) = ((sensor.second() & 127) as usize, (sensor.second() >> 7) as usize);
            let data = (0..length).map(|i| sensor.register((at + step * i) & 127));
            let mut message: Vec<u8> = [33, sensor.second()].into_iter().chain(data).collect();
            if random.once_in(3) {
                let place = random.below(message.len());
                message[place] = byte(random);
            }
            message
        }
    }
}

fn main() {
    let (times, mut random) = arguments();
    let mut counted = Counted::default();
    let length = raw::sensor_length();
    for room in 0..length {
        let mut state = vec![0x5A; room];
        same("a fresh sensor, room", &room, (raw::reset(&mut state), &state), (12, &vec![0x5A; room]));
        same("a message to a short state", &room, (raw::message(&mut state, &[32, 5, 1]), &state), (11, &vec![0x5A; room]));
        counted.count("sensor_reset", 12);
        counted.count("sensor_message", 11);
    }
    for _ in 0..200 * times {
        let mut state = vec![random.byte(); length];
        state.extend(BEYOND);
        same("a fresh sensor", &(), raw::reset(&mut state), 0);
        counted.count("sensor_reset", 0);
        let (mut sensor, mut plain) = (typed::Sensor::new(), Sensor::new());
        for _ in 0..100 {
            let message = message(&mut random, &plain);
            let wanted = plain.message(&message);
            let ours = raw::message(&mut state, &message);
            let before = sensor.clone();
            same("a message", &(&message, &before), ours, wanted.err().unwrap_or(0));
            same("a message with types", &(&message, &before), sensor.message(&message).map_err(|why| why.number()), wanted);
            same("the state after it", &(&message, &before), &state, &[plain.to_bytes(), BEYOND.to_vec()].concat());
            let held = [sensor.registers(), &[sensor.index(), u8::from(sensor.increment())]].concat();
            same("the sensor after it", &(&message, &before), held, plain.to_bytes());
            counted.count("sensor_message", ours);
        }
    }
    // States that no call left.
    for _ in 0..20_000 * times {
        let mut state: Vec<u8> = (0..length).map(|_| random.byte()).collect();
        state[128] = byte(&mut random);
        state[129] = random.pick(&[0, 1, 1, 2, 255]);
        state.extend(BEYOND);
        let before = state.clone();
        let mut held = Sensor::from_bytes(&state);
        let message = message(&mut random, held.as_ref().unwrap_or(&Sensor::new()));
        let wanted = held.as_mut().map_or(Err(11), |sensor| sensor.message(&message));
        let ours = raw::message(&mut state, &message);
        same("a message to any state", &(&message, &before), ours, wanted.err().unwrap_or(0));
        let left = held.map_or(before.clone(), |sensor| [sensor.to_bytes(), BEYOND.to_vec()].concat());
        same("any state after it", &(&message, &before), &state, &left);
        counted.count("sensor_message", ours);
    }
    for _ in 0..20_000 * times {
        let mut pairs: Vec<u8> = (0..random.below(24)).flat_map(|_| [random.byte() & 127, random.byte()]).collect();
        if random.once_in(4) && !pairs.is_empty() {
            let place = random.below(pairs.len());
            pairs[place] = byte(&mut random);
        }
        if random.once_in(6) {
            pairs.push(byte(&mut random));
        }
        let full = pairs.len() / 2 * 3;
        let room = if random.once_in(3) { full.saturating_sub(random.below(3)) } else { full + random.below(5) };
        let fill = random.byte();
        let mut ours = vec![fill; room];
        let answer = raw::write(&pairs, &mut ours);
        counted.filled("messages", &(&pairs, room), answer, &ours, two_wire::write(&pairs, room), fill);
        if pairs.len().is_multiple_of(2) {
            let listed: Vec<(u8, u8)> = pairs.chunks(2).map(|p| (p[0], p[1])).collect();
            let mut theirs = vec![fill; room];
            same("messages with types", &pairs, (told::filled(typed::write(&listed, &mut theirs)), &theirs), (answer, &ours));
        }
    }
    counted.tell(&[("sensor_reset", &[0, 12]), ("sensor_message", &[0, 11, 24, 25, 26, 27, 28]), ("messages", &[0, 24, 28, 12])]);
}
