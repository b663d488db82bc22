//! Interleaved rounds: each times every side once, in turn.

use std::time::{Duration, Instant};

/// How long one side is run in a round, at least.
const BATCH: Duration = Duration::from_millis(4);

/// Middle value and the quarters beside it.
#[derive(Copy, Clone, Debug)]
pub struct Spread {
    pub low: f64,
    pub median: f64,
    pub high: f64,
}

impl Spread {
    pub fn of(mut values: Vec<f64>) -> Self {
        values.sort_by(f64::total_cmp);
        let at = |part: usize| values[(values.len() - 1) * part / 4];
        Self {
            low: at(1),
            median: at(2),
            high: at(3),
        }
    }
}

/// Nanoseconds a call of each side, and the first side's time over each one's.
pub struct Measured {
    pub times: Vec<Spread>,
    pub ratios: Vec<Spread>,
}

/// A side runs its batch of calls once; `calls` is how many there are in it.
pub fn rounds(count: usize, calls: usize, sides: &mut [&mut dyn FnMut()]) -> Measured {
    let repeats: Vec<usize> = sides.iter_mut().map(|side| repeats(*side)).collect();
    let mut times: Vec<Vec<f64>> = vec![Vec::new(); sides.len()];
    for round in 0..count {
        for turn in 0..sides.len() {
            // Each side is the first one now and then.
            let i = (round + turn) % sides.len();
            let start = Instant::now();
            for _ in 0..repeats[i] {
                sides[i]();
            }
            let spent = start.elapsed().as_nanos() as f64;
            times[i].push(spent / (repeats[i] * calls) as f64);
        }
    }
    let ratio = |other: &Vec<f64>| {
        let pairs = times[0].iter().zip(other);
        Spread::of(pairs.map(|(ours, theirs)| ours / theirs).collect())
    };
    Measured {
        ratios: times.iter().map(ratio).collect(),
        times: times.iter().cloned().map(Spread::of).collect(),
    }
}

/// How often a side is run in one round.
fn repeats(side: &mut dyn FnMut()) -> usize {
    let mut repeats = 1;
    loop {
        let start = Instant::now();
        for _ in 0..repeats {
            side();
        }
        if start.elapsed() >= BATCH {
            return repeats;
        }
        repeats *= 2;
    }
}

#[cfg(test)]
mod tests {
    use super::*;

    #[test]
    fn quarters() {
        let spread = Spread::of(vec![5.0, 1.0, 3.0, 2.0, 4.0]);
        assert_eq!((spread.low, spread.median, spread.high), (2.0, 3.0, 4.0));
    }

    /// Every side is run, and the first one's ratio to itself is 1.
    #[test]
    fn sides_in_turn() {
        let (mut a, mut b) = (0u64, 0u64);
        let pause = Duration::from_millis(1);
        let measured = rounds(
            2,
            1,
            &mut [
                &mut || {
                    a += 1;
                    std::thread::sleep(pause);
                },
                &mut || {
                    b += 1;
                    std::thread::sleep(4 * pause);
                },
            ],
        );
        assert!(a > 2 && b > 2);
        assert_eq!(measured.ratios[0].median, 1.0);
        assert!(measured.times[0].median >= 1e6);
        assert!(measured.ratios[1].median < 1.0);
    }
}
