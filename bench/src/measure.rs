//! Times of two or three ways to do one thing, taken in turns.

use std::time::{Duration, Instant};

/// Median times of one call, in nanoseconds.
#[derive(Clone, Copy)]
pub struct Times {
    pub proved: f64,
    pub rust: f64,
    /// Of the Rust code written for speed, where there is such a side.
    pub tuned: Option<f64>,
}

impl Times {
    /// The time of the proved code over that of the readable Rust code.
    pub fn ratio(self) -> f64 {
        self.proved / self.rust
    }

    /// The time of the proved code over that of the Rust code written for speed.
    pub fn tuned_ratio(self) -> Option<f64> {
        self.tuned.map(|tuned| self.proved / tuned)
    }

    /// What is more than in other times.
    pub fn less(self, other: Times) -> Times {
        let tuned = self.tuned.zip(other.tuned);
        Times {
            proved: self.proved - other.proved,
            rust: self.rust - other.rust,
            tuned: tuned.map(|(tuned, other)| tuned - other),
        }
    }

    /// The times of one of `parts` equal parts.
    pub fn per(self, parts: f64) -> Times {
        Times {
            proved: self.proved / parts,
            rust: self.rust / parts,
            tuned: self.tuned.map(|tuned| tuned / parts),
        }
    }
}

type Call<'a> = Box<dyn FnMut() + 'a>;

/// One thing done in two or three ways, each a call that is repeated.
pub struct Sides<'a> {
    pub proved: Call<'a>,
    pub rust: Call<'a>,
    pub tuned: Option<Call<'a>>,
}

impl<'a> Sides<'a> {
    fn calls(&mut self) -> Vec<&mut Call<'a>> {
        let both = [&mut self.proved, &mut self.rust].into_iter();
        both.chain(self.tuned.as_mut()).collect()
    }
}

const BATCH: Duration = Duration::from_micros(500);

/// The time of so many calls.
fn batch(calls: u32, call: &mut dyn FnMut()) -> Duration {
    let start = Instant::now();
    for _ in 0..calls {
        call();
    }
    start.elapsed()
}

fn median(mut times: Vec<f64>) -> f64 {
    times.sort_by(f64::total_cmp);
    times[times.len() / 2]
}

/// How many calls make a batch.
fn calls_of(call: &mut dyn FnMut()) -> u32 {
    let mut calls = 1;
    while batch(calls, call) < BATCH {
        calls *= 2;
    }
    calls
}

/// Repeats one batch of every call after another, so that all see the machine at the same times; the sides of a case stand
/// side by side, each in front in its turn.
pub fn compare(repetitions: usize, cases: &mut [Sides<'_>]) -> Vec<Times> {
    let calls: Vec<u32> = cases
        .iter_mut()
        .map(|sides| calls_of(&mut *sides.proved))
        .collect();
    let mut times = vec![[const { Vec::new() }; 3]; cases.len()];
    for repetition in 0..repetitions {
        for ((sides, &count), times) in cases.iter_mut().zip(&calls).zip(&mut times) {
            let mut sides = sides.calls();
            let len = sides.len();
            for turn in 0..len {
                let side = (repetition + turn) % len;
                let time = batch(count, &mut *sides[side]);
                times[side].push(time.as_nanos() as f64 / f64::from(count));
            }
        }
    }
    let medians = |[proved, rust, tuned]: [Vec<f64>; 3]| Times {
        proved: median(proved),
        rust: median(rust),
        tuned: (!tuned.is_empty()).then(|| median(tuned)),
    };
    times.into_iter().map(medians).collect()
}
