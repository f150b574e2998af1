//! Reasons: runs the proved code and the independent version on the same inputs and compares all that they give back:
//! compare_why [TIMES [SEED]]. Shows the first difference and exits 1, if there is one.

use fluturenc::why::{self, raw};
use independent::check::{arguments, same, Counted};
use independent::layout::Profile;
use independent::random::Random;
use independent::streams::{self, SORTS};
use independent::{reason, told};

/// The places where marks begin.
fn marks(nibbles: &[u8]) -> Vec<usize> {
    (0..nibbles.len().saturating_sub(7)).filter(|at| nibbles[*at..at + 6] == [15, 15, 15, 15, 0, 0]).collect()
}

fn compare(profile: u8, before: u8, run: &[u8], counted: &mut Counted) {
    let wanted = reason::why(profile, before, run);
    let ours = raw::why(profile, before, run);
    same("a reason", &(profile, before, run), ours, wanted);
    counted.count("why", ours.0);
    if let (Some(profile), true) = (Profile::from_number(profile), before <= 5) {
        let typed = why::why(told::profile(profile), told::kind(before), run);
        same("a reason with types", &(before, run), &typed, &raw::reason(wanted.0, wanted.1, wanted.2));
    }
}

fn before(random: &mut Random) -> u8 {
    random.pick(&[0, 1, 2, 3, 3, 3, 4, 5, 5, 6, 255])
}

fn main() {
    let (times, mut random) = arguments();
    let mut counted = Counted::default();
    for _ in 0..100 * times {
        for (number, profile) in [Profile::VV5404, Profile::VV5300].into_iter().enumerate() {
            for sort in SORTS {
                let nibbles = streams::stream(&mut random, sort, profile);
                for at in marks(&nibbles) {
                    let end = if random.once_in(2) { nibbles.len() } else { at + random.below(nibbles.len() - at + 1) };
                    let profile = if random.once_in(30) { random.byte() } else { number as u8 };
                    let before = before(&mut random);
                    compare(profile, before, &nibbles[at..end.min(at + 1200)], &mut counted);
                }
                let at = random.below(nibbles.len() + 1);
                compare(number as u8, before(&mut random), &nibbles[at..nibbles.len().min(at + 900)], &mut counted);
            }
        }
    }
    // Every code, alone and before an end.
    for code in 0..=255u8 {
        let mark = [15, 15, 15, 15, 0, 0, code >> 4, code & 15];
        for profile in [0, 1] {
            for before in 0..=6 {
                compare(profile, before, &mark, &mut counted);
                compare(profile, before, &[mark, [15, 15, 15, 15, 0, 0, 8, 0]].concat(), &mut counted);
            }
        }
    }
    counted.tell(&[("why", &[128, 129, 1, 2, 3, 4, 5, 6, 7, 8, 9, 11, 13, 10, 36])]);
}
