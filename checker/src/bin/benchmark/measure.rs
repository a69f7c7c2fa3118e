// Times of two functions on one sheet: both by turns, and the median of each.

use crate::clock::now;

/// Microseconds a call.
#[derive(Clone, Copy)]
pub struct Times {
    pub one: f64,
    pub other: f64,
}

impl Times {
    /// The other's time as a multiple of the one's.
    pub fn ratio(&self) -> f64 {
        self.other / self.one
    }
}

/// What is spent on a pair of functions, in microseconds, within these numbers of turns.
const BUDGET: f64 = 400_000.0;
const FEWEST: f64 = 9.0;
const MOST: f64 = 2001.0;
/// A sample of a short call has as many calls as take about this time.
const SAMPLE: f64 = 50.0;

/// The median times of both. They take turns, so that a change of the machine's load meets both.
pub fn medians(mut one: impl FnMut(), mut other: impl FnMut()) -> Times {
    let first = Times {
        one: sample(&mut one, 1),
        other: sample(&mut other, 1),
    };
    let calls = |time: f64| (SAMPLE / time).max(1.0) as usize;
    let turns = (BUDGET / (first.one + first.other).max(SAMPLE)).clamp(FEWEST, MOST) as usize;
    let (mut ones, mut others) = (Vec::new(), Vec::new());
    for _ in 0..turns {
        ones.push(sample(&mut one, calls(first.one)));
        others.push(sample(&mut other, calls(first.other)));
    }
    Times {
        one: median(ones),
        other: median(others),
    }
}

/// The time of a call, from several in a row.
fn sample(call: &mut impl FnMut(), calls: usize) -> f64 {
    let start = now();
    for _ in 0..calls {
        call();
    }
    (now() - start) / calls as f64
}

/// The middle one; of an even number the mean of the middle two.
pub fn median(mut values: Vec<f64>) -> f64 {
    values.sort_by(f64::total_cmp);
    let middle = values.len() / 2;
    if values.len() % 2 == 1 {
        return values[middle];
    }
    (values[middle - 1] + values[middle]) / 2.0
}
