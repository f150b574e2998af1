//! Saved settings: runs the proved code and the independent version on the same inputs and compares all that they give back:
//! compare_settings [TIMES [SEED]]. Shows the first difference and exits 1, if there is one.

use fluturenc::settings::{raw, Gain, Rate, Setting, Settings};
use independent::check::{arguments, same, Counted};
use independent::random::Random;
use independent::settings;

/// A number of two bytes, often one that counts.
fn word(random: &mut Random) -> u16 {
    if random.once_in(3) {
        return random.pick(&[0, 1, 8, 255, 256, 301, 302, 303, 359, 360, 361, 437, 438, 439, 65534, 65535]);
    }
    random.word() as u16
}

/// Gain, divisor and frame rate, mostly such as may be saved.
fn codes(random: &mut Random) -> (u8, u8, u8) {
    let gain = if random.once_in(8) { random.byte() } else { random.pick(&[0, 1, 3, 7]) };
    let divisor = if random.once_in(8) { random.pick(&[4, 5, 128, 255]) } else { random.byte() & 3 };
    let rate = if random.once_in(8) { random.pick(&[0, 24, 26, 29, 31, 255]) } else { random.pick(&[25, 30]) };
    (gain, divisor, rate)
}

/// A version: often one of the list's, or beside them.
fn version(random: &mut Random, list: &[u8]) -> u16 {
    if list.len() >= 8 && !random.once_in(8) {
        let at = 8 * random.below(list.len() / 8);
        let held = u16::from_be_bytes([list[at], list[at + 1]]);
        return held.wrapping_add(random.pick(&[0, 0, 0, 0, 1, 65535]));
    }
    word(random)
}

/// A list: some used places, of any first version, and the others as they come; out of order or of another length now and then.
fn list(random: &mut Random) -> Vec<u8> {
    let used = random.below(9) as u16;
    let first = match random.below(3) {
        0 => 1,
        1 => random.pick(&[65527, 65528, 65529, 65534, 65535]),
        _ => word(random).max(1),
    };
    let mut list: Vec<u8> = (0..64).map(|_| random.byte()).collect();
    for place in 0..8u16 {
        let version = if place < used { first.checked_add(place).unwrap_or(0) } else { 0 };
        list[8 * usize::from(place)..][..2].copy_from_slice(&version.to_be_bytes());
    }
    match random.below(8) {
        0 => {
            let place = 8 * random.below(8);
            let wrong = word(random);
            list[place..place + 2].copy_from_slice(&wrong.to_be_bytes());
        }
        1 => {
            let (a, b) = (random.below(8), random.below(8));
            for i in 0..8 {
                list.swap(8 * a + i, 8 * b + i);
            }
        }
        2 => {
            let length = random.pick(&[0, 1, 8, 56, 63, 65, 72, 128]);
            list.resize(length, 0);
        }
        _ => {}
    }
    list
}

/// One call of each kind on a list; the list after a call that saved, or the same.
fn calls(random: &mut Random, counted: &mut Counted, before: &[u8]) -> Vec<u8> {
    let changed = |name: &'static str, counted: &mut Counted, told: (u8, u16), left: &[u8], wanted: Result<(u16, Vec<u8>), u8>| {
        let (answer, bytes) = match wanted {
            Ok((version, bytes)) => ((0, version), bytes),
            Err(n) => ((n, 0), before.to_vec()),
        };
        same(name, &before, told, answer);
        same("the list after it", &(name, before), left, &bytes);
        counted.count(name, told.0);
    };
    let old = version(random, before);

    let fill = random.byte();
    let mut found = vec![fill; random.pick(&[8, 8, 9, 11, 7, 0])];
    let told = raw::find(before, old, &mut found);
    let wanted = settings::find(before, old).and_then(|s| if found.len() < 8 { Err(12) } else { Ok(s.to_bytes()) });
    let length = if wanted.is_ok() { 8 } else { 0 };
    counted.filled("settings_find", &(before, old), (told, length), &found, wanted, fill);

    let mut messages = vec![fill; random.pick(&[18, 18, 20, 17, 0])];
    let told = raw::messages(before, old, &mut messages);
    let wanted = settings::messages(before, old, messages.len());
    counted.filled("settings_messages", &(before, old), told, &messages, wanted, fill);

    let mut back = before.to_vec();
    let told = raw::back(&mut back, old);
    changed("settings_back", counted, told, &back, settings::back(before, old));

    let (fine, coarse) = (word(random), word(random));
    let (gain, divisor, rate) = codes(random);
    let mut saved = before.to_vec();
    let told = raw::save(&mut saved, fine, coarse, gain, divisor, rate);
    changed("settings_save", counted, told, &saved, settings::save(before, fine, coarse, gain, divisor, rate));

    if random.once_in(2) {
        saved
    } else {
        back
    }
}

/// The same calls with types.
fn typed(random: &mut Random, bytes: &[u8]) {
    let number = |told: Result<u16, fluturenc::Refusal>| told.map_err(|why| why.number());
    let held = Settings::from_bytes(bytes);
    same("a list with types", &bytes, held.as_ref().err().map(|why| why.number()), settings::from_bytes(bytes).err());
    let Ok(mut list) = held else { return };
    let old = version(random, bytes);
    let wanted = settings::find(bytes, old).map(|s| Setting {
        version: s.version,
        fine: s.fine,
        coarse: s.coarse,
        gain: s.gain,
        divisor: s.divisor,
    });
    same("a setting with types", &(bytes, old), list.find(old).map_err(|why| why.number()), wanted);
    let mut messages = [0; 18];
    let told = list.messages(old, &mut messages).map_err(|why| why.number());
    same("messages with types", &(bytes, old), told.map(|length| messages[..length].to_vec()), settings::messages(bytes, old, 18));
    let (fine, coarse, divisor) = (word(random), word(random), random.byte() & 7);
    let (gain, rate) =
        (random.pick(&[Gain::Times1, Gain::Times2, Gain::Times4, Gain::Times8]), random.pick(&[Rate::PerSecond25, Rate::PerSecond30]));
    let (told, wanted) = if random.once_in(2) {
        (number(list.save(fine, coarse, gain, divisor, rate)), settings::save(bytes, fine, coarse, gain as u8, divisor, rate as u8))
    } else {
        (number(list.back(old)), settings::back(bytes, old))
    };
    same("a version with types", &(bytes, old), &told, &wanted.as_ref().map(|(version, _)| *version).map_err(|n| *n));
    same("a list with types afterwards", &(bytes, old), list.as_bytes(), wanted.as_ref().map_or(bytes, |(_, after)| &after[..]));
}

fn main() {
    let (times, mut random) = arguments();
    let mut counted = Counted::default();
    same("the length of a list", &(), raw::settings_length(), 64);
    same("a fresh list", &(), Settings::new().as_bytes(), &[0; 64]);
    // Calls one after another from a fresh list, and from one whose versions run out.
    for first in [0, 1, 65500] {
        for _ in 0..20 * times {
            let mut bytes = vec![0; 64];
            bytes[..2].copy_from_slice(&u16::to_be_bytes(first));
            for _ in 0..60 {
                typed(&mut random, &bytes);
                bytes = calls(&mut random, &mut counted, &bytes);
            }
        }
    }
    // Lists that no call left.
    for _ in 0..10_000 * times {
        let bytes = list(&mut random);
        typed(&mut random, &bytes);
        calls(&mut random, &mut counted, &bytes);
    }
    // Every two versions that stand side by side, near the ends.
    for first in [0, 1, 2, 7, 255, 256, 65533, 65534, 65535u16] {
        for second in [0, 1, 2, 3, 8, 255, 256, 257, 65534, 65535u16] {
            let mut bytes = vec![0; 64];
            bytes[..2].copy_from_slice(&first.to_be_bytes());
            bytes[8..10].copy_from_slice(&second.to_be_bytes());
            calls(&mut random, &mut counted, &bytes);
        }
    }
    counted.tell(&[
        ("settings_save", &[0, 37, 29, 31]),
        ("settings_find", &[0, 37, 30, 12]),
        ("settings_back", &[0, 37, 30, 31]),
        ("settings_messages", &[0, 37, 30, 12]),
    ]);
}
