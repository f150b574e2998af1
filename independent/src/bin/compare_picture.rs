//! Pictures and the order of pixels: runs the proved code and the independent version on the same inputs and compares all that they give back:
//! compare_picture [TIMES [SEED]]. Shows the first difference and exits 1, if there is one.

use fluturenc::picture::{self as typed, raw, HEIGHT_OFF, HEIGHT_ON, WIDTH};
use independent::check::{arguments, same, Counted};
use independent::random::Random;
use independent::{picture, told};

/// A length near one that counts.
fn near(random: &mut Random, length: usize) -> usize {
    match random.below(4) {
        0 => length + random.pick(&[0, 1, 15, WIDTH]),
        1 => length - length.min(random.pick(&[0, 1, 15, WIDTH])),
        2 if random.once_in(4) => random.below(length + 20),
        _ => length,
    }
}

/// Rows of a picture, mostly; sometimes of another length, or with a byte that is no pixel.
fn rows(random: &mut Random) -> Vec<u8> {
    let length = WIDTH * random.pick(&[HEIGHT_ON, HEIGHT_OFF, HEIGHT_OFF + 2]);
    let length = if random.once_in(3) { near(random, length) } else { length };
    let (step, seed) = (random.byte(), random.byte());
    let mut rows: Vec<u8> = (0..length).map(|i| (i as u8).wrapping_mul(step).wrapping_add(seed).clamp(1, 254)).collect();
    if random.once_in(4) && !rows.is_empty() {
        let at = random.pick(&[0, 1, rows.len() / 2, rows.len() - 1]).min(rows.len() - 1);
        rows[at] = random.pick(&[0, 255]);
    }
    rows
}

/// A file of rows, mostly whole; or with a header changed, cut or doubled.
fn file(random: &mut Random) -> Vec<u8> {
    let rows = rows(random);
    let height = if random.once_in(4) { random.pick(&[0, 286, 288, 292]) } else { rows.len() / WIDTH };
    let mut file = format!("P5\n{WIDTH} {height}\n255\n").into_bytes();
    match random.below(8) {
        0 => {
            let at = random.below(file.len());
            file[at] = random.byte();
        }
        1 => file = random.pick(&["P5\n356 292\n255\n", "P2\n356 292\n255\n", "P5\n# x\n356 292\n255\n", "P5 356 292 255 "]).into(),
        _ => {}
    }
    file.extend(rows);
    if random.once_in(6) {
        file.truncate(random.pick(&[0, 1, 14, 15, 16, 1000]));
    }
    file
}

fn main() {
    let (times, mut random) = arguments();
    let mut counted = Counted::default();
    for _ in 0..3000 * times {
        let (rows, fill) = (rows(&mut random), random.byte());
        let mut ours = vec![fill; near(&mut random, rows.len() + 15)];
        let answer = raw::write(&rows, &mut ours);
        let mut theirs = vec![fill; ours.len()];
        same("writing with types", &(), (told::filled(typed::write(&rows, &mut theirs)), theirs == ours), (answer, true));
        counted.filled("picture_write", &(rows.len(), ours.len()), answer, &ours, picture::write(&rows, ours.len()), fill);

        let (file, fill) = (file(&mut random), random.byte());
        let mut ours = vec![fill; near(&mut random, file.len().saturating_sub(15))];
        let answer = raw::read(&file, &mut ours);
        let mut theirs = vec![fill; ours.len()];
        same("reading with types", &(), (told::filled(typed::read(&file, &mut theirs)), theirs == ours), (answer, true));
        counted.filled("picture_read", &(file.len(), ours.len()), answer, &ours, picture::read(&file, ours.len()), fill);
    }
    for _ in 0..10_000 * times {
        let kind = if random.once_in(4) { random.pick(&[0, 1, 2, 4, 5, 6, 9, 255]) } else { 3 };
        let length = near(&mut random, WIDTH);
        let line: Vec<u8> = (0..length).map(|_| random.byte()).collect();
        let (room, fill) = (near(&mut random, WIDTH), random.byte());
        let mut ours = vec![fill; room];
        let answer = raw::to_pixels(kind, &line, &mut ours);
        counted.filled("to_pixels", &(kind, &line, room), answer, &ours, picture::to_pixels(kind, &line, room), fill);
        let mut theirs = vec![fill; room];
        if let Some(kind) = told::kind(kind) {
            same("pixels with types", &kind, (told::filled(typed::to_pixels(kind, &line, &mut theirs)), &theirs), (answer, &ours));
        }
        if answer.0 == 0 {
            let mut back = [0; WIDTH];
            same("a body and back", &line, (raw::to_body(kind, &ours[..WIDTH], &mut back), &back[..]), ((0, WIDTH), &line[..]));
        }
        ours.fill(fill);
        let answer = raw::to_body(kind, &line, &mut ours);
        counted.filled("to_body", &(kind, &line, room), answer, &ours, picture::to_body(kind, &line, room), fill);
        theirs.fill(fill);
        if let Some(kind) = told::kind(kind) {
            same("a body with types", &kind, (told::filled(typed::to_body(kind, &line, &mut theirs)), &theirs), (answer, &ours));
        }
    }
    counted.tell(&[
        ("picture_write", &[0, 21, 22, 12]),
        ("picture_read", &[0, 20, 21, 22, 12]),
        ("to_pixels", &[0, 23, 15, 12]),
        ("to_body", &[0, 23, 15, 12]),
    ]);
}
