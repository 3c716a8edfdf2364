//! Times of several contenders in one run: interleaved, the best of several rounds.

use std::time::{Duration, Instant};

/// How long one sample of a contender lasts, at least.
const SAMPLE: Duration = Duration::from_micros(400);

/// How often each contender is measured, at most.
const ROUNDS: usize = 60;

/// After how long no new round is begun.
const LONGEST: Duration = Duration::from_secs(20);

/// What is measured.
pub type Contender<'a> = &'a mut dyn FnMut();

fn sample(contender: &mut dyn FnMut(), times: u32) -> Duration {
    let start = Instant::now();
    for _ in 0..times {
        contender();
    }
    start.elapsed()
}

/// Whether everything is to run once, for what is compared and not for its time.
fn quick() -> bool {
    std::env::args().any(|word| word == "quick")
}

/// Nanoseconds of each contender, the best of all rounds.
pub fn best<const N: usize>(mut contenders: [Contender; N]) -> [f64; N] {
    let mut times = [0.0; N];
    times.copy_from_slice(&best_of(&mut contenders));
    times
}

/// The same of any number of contenders.
pub fn best_of(contenders: &mut [Contender]) -> Vec<f64> {
    if quick() {
        let once = |contender: &mut Contender| sample(contender, 1).as_nanos() as f64;
        return contenders.iter_mut().map(once).collect();
    }
    let mut times = vec![1_u32; contenders.len()];
    for (contender, times) in contenders.iter_mut().zip(&mut times) {
        while sample(contender, *times) < SAMPLE {
            *times *= 2;
        }
    }
    let mut best = vec![f64::INFINITY; contenders.len()];
    let start = Instant::now();
    for round in 0..ROUNDS {
        if round > 1 && start.elapsed() > LONGEST {
            break;
        }
        for ((contender, &times), best) in contenders.iter_mut().zip(&times).zip(&mut best) {
            let elapsed = sample(contender, times);
            *best = best.min(elapsed.as_nanos() as f64 / f64::from(times));
        }
    }
    best
}
