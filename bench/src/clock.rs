//! Times: medians of samples taken in turn.

use crate::contender::Contender;
use std::time::Instant;

/// Rounds; each takes one sample of every contender.
const ROUNDS: usize = 41;
/// A sample lasts at least about so many nanoseconds.
const SAMPLE: f64 = 400_000.0;

/// Nanoseconds of one call, as a mean over `calls` calls.
pub fn sample(contender: &mut dyn Contender, calls: u32) -> f64 {
    if contender.leaves_a_change() {
        let mut total = 0.0;
        for _ in 0..calls {
            let start = Instant::now();
            contender.call();
            total += start.elapsed().as_nanos() as f64;
            contender.undo();
        }
        return total / f64::from(calls);
    }
    let start = Instant::now();
    for _ in 0..calls {
        contender.call();
    }
    start.elapsed().as_nanos() as f64 / f64::from(calls)
}

/// The samples of each contender, by rounds: first, second .. first, second ..
pub fn samples(contenders: &mut [Box<dyn Contender>]) -> Vec<Vec<f64>> {
    let calls_for = |contender: &mut Box<dyn Contender>| {
        let once = sample(contender.as_mut(), 20).max(1.0);
        (SAMPLE / once).ceil() as u32
    };
    let calls: Vec<u32> = contenders.iter_mut().map(calls_for).collect();
    let mut taken = vec![Vec::new(); contenders.len()];
    for _ in 0..ROUNDS {
        for (at, contender) in contenders.iter_mut().enumerate() {
            taken[at].push(sample(contender.as_mut(), calls[at]));
        }
    }
    taken
}

/// The one in the middle.
pub fn median(values: &[f64]) -> f64 {
    let mut sorted = values.to_vec();
    sorted.sort_by(f64::total_cmp);
    sorted[sorted.len() / 2]
}

/// The median of the quotients of samples taken in the same round.
pub fn ratio(over: &[f64], under: &[f64]) -> f64 {
    let quotients: Vec<f64> = over.iter().zip(under).map(|(a, b)| a / b).collect();
    median(&quotients)
}
