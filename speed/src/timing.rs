//! Times of two sides that take turns, and their ratios.

use std::hint::black_box;
use std::time::Instant;

/// Nanoseconds for one call of each side, and the ratio of the first to the second: the quartiles over all turns.
#[derive(Clone, Copy)]
pub struct Compared {
    pub rattle: [f64; 3],
    pub rust: [f64; 3],
    pub ratio: [f64; 3],
}

impl Compared {
    /// The times of both sides in each turn, compared.
    pub fn of(rattle: &[f64], rust: &[f64]) -> Compared {
        let ratios: Vec<_> = rattle.iter().zip(rust).map(|(a, b)| a / b).collect();
        let [rattle, rust, ratio] = [rattle, rust, &ratios].map(|values| quartiles(&mut values.to_vec()));
        Compared { rattle, rust, ratio }
    }
}

/// The first quartile, the median and the third.
pub fn quartiles(values: &mut [f64]) -> [f64; 3] {
    values.sort_by(f64::total_cmp);
    let at = |quarter: usize| {
        let place = (values.len() - 1) as f64 * quarter as f64 / 4.0;
        let (low, part) = (place as usize, place.fract());
        values[low] * (1.0 - part) + values[(low + 1).min(values.len() - 1)] * part
    };
    [at(1), at(2), at(3)]
}

/// Nanoseconds for one run.
pub fn time<T>(run: impl FnOnce() -> T) -> f64 {
    let start = Instant::now();
    black_box(run());
    start.elapsed().as_nanos() as f64
}

/// Nanoseconds for so many runs.
pub fn repeat<T>(calls: usize, mut run: impl FnMut() -> T) -> f64 {
    time(|| {
        for _ in 0..calls {
            black_box(run());
        }
    })
}

/// How many calls take about so many nanoseconds.
fn calls_for(nanoseconds: f64, mut run: impl FnMut(usize) -> f64) -> usize {
    run(1);
    let one = run(3) / 3.0;
    ((nanoseconds / one.max(1.0)) as usize).clamp(1, 1_000_000)
}

/// The two sides in turns. Each runs so many calls and answers how many nanoseconds they took, on the side of Rattle
/// without those that a batch costs beside its calls.
pub fn compare(turns: usize, beside: f64, mut rattle: impl FnMut(usize) -> f64, mut rust: impl FnMut(usize) -> f64) -> Compared {
    const TURN: f64 = 1_500_000.0;
    let mut rattle = |calls: usize| rattle(calls) - beside;
    // enough calls that what is beside them and taken off is little
    let calls = (calls_for(TURN.max(4.0 * beside), &mut rattle), calls_for(TURN, &mut rust));
    let mut times = (Vec::new(), Vec::new());
    for turn in 0..turns {
        // who goes first changes
        for side in [turn % 2, 1 - turn % 2] {
            if side == 0 {
                times.0.push(rattle(calls.0) / calls.0 as f64);
            } else {
                times.1.push(rust(calls.1) / calls.1 as f64);
            }
        }
    }
    Compared::of(&times.0, &times.1)
}
