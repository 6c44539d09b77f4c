//! Ratios of times: two things are measured by turns in one process, and the fastest of many short spells of either counts.

use std::thread::sleep;
use std::time::{Duration, Instant};

/// How often each ratio is measured.
pub const REPEATS: usize = 31;

/// The pause between repeats: they should see the computer at different moments.
const PAUSE: Duration = Duration::from_millis(60);

/// Of how many spells of each side, taken in turns, a repeat keeps the fastest.
pub const SPELLS: usize = 20;

/// Seconds that a spell takes at least: so short that many are not interrupted by whatever else the computer does.
const SPELL: f64 = 0.0005;

/// A ratio measured several times.
pub struct Ratio {
    /// Nanoseconds of the numerator and of the denominator.
    pub over: f64,
    pub under: f64,
    pub least: f64,
    pub median: f64,
    pub most: f64,
}

/// Nanoseconds that something takes, over so many times.
fn time(times: u64, mut act: impl FnMut()) -> f64 {
    let start = Instant::now();
    for _ in 0..times {
        act();
    }
    start.elapsed().as_secs_f64() * 1e9 / times as f64
}

/// So many times that it takes a spell.
fn times_of(mut act: impl FnMut()) -> u64 {
    let mut times = 1;
    loop {
        let spent = time(times, &mut act) * times as f64 / 1e9;
        if spent > SPELL {
            return times;
        }
        times *= 2;
    }
}

/// Nanoseconds that two things take: of several spells of both, taken in turns, the fastest of either.
fn fastest(over: &mut impl FnMut(), under: &mut impl FnMut(), times: (u64, u64)) -> (f64, f64) {
    (0..SPELLS).fold((f64::MAX, f64::MAX), |best, _| {
        let over = time(times.0, &mut *over);
        let under = time(times.1, &mut *under);
        (best.0.min(over), best.1.min(under))
    })
}

/// The ratio of what two things take.
pub fn ratio(mut over: impl FnMut(), mut under: impl FnMut()) -> Ratio {
    let times = (times_of(&mut over), times_of(&mut under));
    let mut pairs: Vec<(f64, f64)> = (0..REPEATS)
        .map(|_| {
            sleep(PAUSE);
            fastest(&mut over, &mut under, times)
        })
        .collect();
    pairs.sort_by(|a, b| (a.0 / a.1).total_cmp(&(b.0 / b.1)));
    let of = |at: usize| pairs[at].0 / pairs[at].1;
    let (over, under) = pairs[REPEATS / 2];
    Ratio {
        over,
        under,
        least: of(0),
        median: of(REPEATS / 2),
        most: of(REPEATS - 1),
    }
}
