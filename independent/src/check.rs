//! What every comparison does: `compare_.. [TIMES [SEED]]`, and the first difference ends the run.

use crate::random::Random;
use std::fmt::Debug;
use std::process::exit;

/// How many times as much as the gate runs, and the generator.
pub fn arguments() -> (usize, Random) {
    let mut arguments = std::env::args().skip(1);
    let times = arguments.next().map_or(1, |a| a.parse().expect("how many times as much"));
    let seed = arguments.next().map_or(0x5404_5300, |a| a.parse().expect("a seed"));
    println!("seed {seed}");
    (times, Random::new(seed))
}

/// Bytes beyond a state, which no call may touch.
pub const BEYOND: [u8; 3] = [0xA5, 0x00, 0xFF];

/// Shows the difference, if there is one, and exits 1.
pub fn same<T: PartialEq + Debug>(what: &str, context: &dyn Debug, proved: T, plain: T) {
    if proved != plain {
        println!("difference in {what}\nproved      {proved:?}\nindependent {plain:?}\nat          {context:?}");
        exit(1);
    }
}

/// The calls of a group, by what they were answered: 0, or a refusal.
#[derive(Default)]
pub struct Counted(std::collections::BTreeMap<(&'static str, u8), usize>);

impl Counted {
    /// A call that fills a lent buffer: both answers, and what both leave in a buffer that was full of one byte.
    pub fn filled(
        &mut self,
        call: &'static str,
        context: &dyn Debug,
        proved: (u8, usize),
        left: &[u8],
        plain: Result<Vec<u8>, u8>,
        fill: u8,
    ) {
        let mut wanted = vec![fill; left.len()];
        let answer = match plain {
            Ok(bytes) => {
                wanted[..bytes.len()].copy_from_slice(&bytes);
                (0, bytes.len())
            }
            Err(n) => (n, 0),
        };
        same(call, context, proved, answer);
        if left != wanted {
            let place = left.iter().zip(&wanted).position(|(a, b)| a != b);
            same(call, context, place, None);
        }
        self.count(call, answer.0);
    }

    pub fn count(&mut self, call: &'static str, answer: u8) {
        *self.0.entry((call, answer)).or_default() += 1;
    }

    /// Tells how often each call was answered each way. Every way in this list must have come.
    pub fn tell(&self, wanted: &[(&'static str, &[u8])]) {
        for (call, answers) in wanted {
            let told: Vec<String> = answers.iter().map(|n| format!("{n}: {}", self.0.get(&(*call, *n)).copied().unwrap_or(0))).collect();
            println!("{call}: {}", told.join(", "));
            for n in *answers {
                same("the ways that a call was answered", &(call, n), self.0.contains_key(&(*call, *n)), true);
            }
            let others: Vec<_> = self.0.keys().filter(|(c, n)| c == call && !answers.contains(n)).collect();
            same("the answers of a call", call, others.len(), 0);
        }
        println!("{} calls compared: no difference", self.0.values().sum::<usize>());
    }
}

#[cfg(test)]
mod tests {
    use super::*;

    #[test]
    fn calls_are_counted_by_their_answers() {
        let mut counted = Counted::default();
        counted.filled("call", &(), (0, 2), &[1, 2, 9], Ok(vec![1, 2]), 9);
        counted.filled("call", &(), (12, 0), &[9, 9], Err(12), 9);
        counted.count("call", 12);
        assert_eq!(counted.0.into_iter().collect::<Vec<_>>(), [(("call", 0), 1), (("call", 12), 2)]);
    }
}
