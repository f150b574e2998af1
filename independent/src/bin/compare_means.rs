//! Half-line means: runs the proved code and the independent version on the same inputs and compares all that they give back:
//! compare_means [TIMES [SEED]]. Shows the first difference and exits 1, if there is one.

use fluturenc::means::{self as typed, raw, Half};
use fluturenc::Refusal;
use independent::check::{arguments, same, Counted};
use independent::layout::Profile;
use independent::{means, streams, told};

fn main() {
    let (times, mut random) = arguments();
    let mut counted = Counted::default();
    for _ in 0..20_000 * times {
        let mut line = streams::line(&mut random, Profile::VV5300, 3, 0);
        let (mut profile, mut kind) = (1, 3);
        if random.once_in(3) {
            let value = random.pick(&[1, 254]);
            line.body[4..164].fill(value);
        }
        for _ in 0..random.below(3) {
            match random.below(6) {
                0 => profile = random.pick(&[0, 2, 255]),
                1 => kind = random.pick(&[0, 1, 2, 4, 5, 9]),
                2 => line.body.truncate(random.pick(&[0, 1, 167, 168])),
                3 => line.body.push(7),
                4 => line.gap = (random.pick(&[0, 1, 254, 255]), random.pick(&[0, 1, 254, 255])),
                _ => {
                    if !line.body.is_empty() {
                        let place = random.below(line.body.len());
                        line.body[place] = random.pick(&[0, 1, 7, 254, 255]);
                    }
                }
            }
        }
        // What the places hold before.
        let (before, beside) = ([f64::MAX, -0.5], [i32::MIN, 77]);
        let (mut ours, mut differences) = (before, beside);
        let answer = raw::half_means(profile, kind, &line.body, line.gap, &mut ours, &mut differences);
        let wanted = means::half_means(profile, kind, &line.body, line.gap);
        let left = wanted.unwrap_or((before, beside));
        same("half-line means", &(profile, kind, &line), (answer, (ours, differences)), (wanted.err().unwrap_or(0), left));
        counted.count("half_means", answer);
        if let (Some(profile), Some(kind)) = (Profile::from_number(profile), told::kind(kind)) {
            let theirs = wanted.map(|(m, d)| [0, 1].map(|i| Half { mean: m[i], difference: d[i] }));
            let ours = typed::half_means(told::profile(profile), kind, &line.body, line.gap);
            same("half-line means with types", &line, ours.map_err(Refusal::number), theirs);
        }
    }
    counted.tell(&[("half_means", &[0, 11, 23, 15, 16])]);
}
