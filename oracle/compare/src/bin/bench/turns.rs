//! Turns of what is timed, one after another.

use compare::clock::processor_seconds;

/// How often, and how long each time at least.
pub struct Effort {
    pub turns: usize,
    pub seconds: f64,
}

/// What takes very little time is called so many times, as one call.
pub const REPEATS: usize = 100;

pub fn repeated(mut call: impl FnMut()) -> impl FnMut() {
    move || (0..REPEATS).for_each(|_| call())
}

/// Medians over turns in which each has its batch of calls.
pub fn medians<const N: usize>(calls: [&mut dyn FnMut(); N], effort: &Effort) -> [f64; N] {
    turns(calls, effort).map(median)
}

/// The least over such turns: what else the machine does only adds to one.
pub fn least<const N: usize>(calls: [&mut dyn FnMut(); N], effort: &Effort) -> [f64; N] {
    turns(calls, effort).map(|seconds| seconds.into_iter().fold(f64::INFINITY, f64::min))
}

fn turns<const N: usize>(calls: [&mut dyn FnMut(); N], effort: &Effort) -> [Vec<f64>; N] {
    let mut sides = calls.map(|call| Side::new(call, effort));
    for _ in 0..effort.turns {
        sides.iter_mut().for_each(Side::turn);
    }
    sides.map(|side| side.seconds)
}

struct Side<'a> {
    call: &'a mut dyn FnMut(),
    batch: usize,
    seconds: Vec<f64>,
}

impl<'a> Side<'a> {
    /// The first calls say how many take as long as a turn should.
    fn new(call: &'a mut dyn FnMut(), effort: &Effort) -> Self {
        let start = processor_seconds();
        let mut batch = 0;
        while batch == 0 || processor_seconds() - start < effort.seconds {
            call();
            batch += 1;
        }
        let seconds = Vec::new();
        Self {
            call,
            batch,
            seconds,
        }
    }

    fn turn(&mut self) {
        let start = processor_seconds();
        for _ in 0..self.batch {
            (self.call)();
        }
        let seconds = processor_seconds() - start;
        self.seconds.push(seconds / self.batch as f64);
    }
}

pub fn median(mut numbers: Vec<f64>) -> f64 {
    numbers.sort_by(f64::total_cmp);
    let half = numbers.len() / 2;
    let below = numbers[(numbers.len() - 1) / 2];
    (below + numbers[half]) / 2.0
}
