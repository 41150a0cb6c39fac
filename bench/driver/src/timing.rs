//! How two sides are timed: in blocks, in turn, and of each side the best.
use std::time::Instant;

/// Each side is run in blocks of about this length, in turn, so often.
const BLOCK: f64 = 400e-6;
const ROUNDS: usize = 25;

/// Runs a call so often, and gives the bits of the last answer.
pub type Repeated = Box<dyn FnMut(usize) -> Vec<u64>>;

fn seconds(run: &mut Repeated, times: usize) -> f64 {
    let start = Instant::now();
    std::hint::black_box(run(times));
    start.elapsed().as_secs_f64()
}

/// How often a block runs the call.
fn times(run: &mut Repeated) -> usize {
    let mut times = 1;
    loop {
        let spent = seconds(run, times);
        if spent > BLOCK / 2.0 {
            return ((times as f64 * BLOCK / spent) as usize).max(1);
        }
        times *= 2;
    }
}

/// The seconds that one call takes on either side.
pub fn in_turn(theirs: &mut Repeated, ours: &mut Repeated) -> (f64, f64) {
    let (their_times, our_times) = (times(theirs), times(ours));
    let (mut their_best, mut our_best) = (f64::MAX, f64::MAX);
    for _ in 0..ROUNDS {
        their_best = their_best.min(seconds(theirs, their_times) / their_times as f64);
        our_best = our_best.min(seconds(ours, our_times) / our_times as f64);
    }
    (their_best, our_best)
}
