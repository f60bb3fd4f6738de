//! The shortest of many repetitions, the sides in turn.

use std::hint::black_box;
use std::time::{Duration, Instant};

/// Nanoseconds a call.
#[derive(Clone, Copy)]
pub struct Times {
    pub ours: f64,
    pub ordinary: f64,
}

impl Times {
    pub fn ratio(self) -> f64 {
        self.ours / self.ordinary
    }

    pub fn mean(all: &[Times]) -> Times {
        let mean = |of: fn(&Times) -> f64| all.iter().map(of).sum::<f64>() / all.len() as f64;
        Times { ours: mean(|t| t.ours), ordinary: mean(|t| t.ordinary) }
    }
}

fn timed<R>(work: impl FnOnce() -> R) -> f64 {
    let start = Instant::now();
    black_box(work());
    start.elapsed().as_nanos() as f64
}

/// Runs both sides in turn for so long, each time from the state that `setup` makes, and keeps the shortest of each. A run of
/// a side makes `calls` calls.
pub fn least<S>(
    state: &mut S,
    calls: usize,
    long: Duration,
    setup: impl Fn(&mut S),
    mut ours: impl FnMut(&mut S),
    mut ordinary: impl FnMut(&mut S),
) -> Times {
    let mut best = Times { ours: f64::MAX, ordinary: f64::MAX };
    let end = Instant::now() + long;
    let mut runs = 0;
    while runs < 10 || Instant::now() < end {
        setup(state);
        best.ours = best.ours.min(timed(|| ours(state)));
        setup(state);
        best.ordinary = best.ordinary.min(timed(|| ordinary(state)));
        runs += 1;
    }
    Times { ours: best.ours / calls as f64, ordinary: best.ordinary / calls as f64 }
}

/// Nanoseconds of each side, the shortest of its runs: all in turn, so often at least and for so long, each time from the state that
/// `setup` makes. `check` sees what a side has left.
pub fn shortest<S, const N: usize>(
    state: &mut S,
    (turns, long): (usize, Duration),
    setup: impl Fn(&mut S),
    sides: [&dyn Fn(&mut S); N],
    check: impl Fn(&S),
) -> [f64; N] {
    let mut best = [f64::MAX; N];
    let end = Instant::now() + long;
    let mut turn = 0;
    while turn < turns || Instant::now() < end {
        for (best, side) in best.iter_mut().zip(sides) {
            setup(state);
            *best = best.min(timed(|| side(state)));
            check(state);
        }
        turn += 1;
    }
    best
}
