//! The sweeps that were compared.

use super::is_of_rows;
use crate::sweeps::CheckedSweep;
use oracle::{Sweep, Swept, MAX_SEEDS, SWEPT_LENGTH};
use std::fmt;

#[derive(Default)]
pub(super) struct Sweeps {
    of_refused: u64,
    too_many: u64,
    run: u64,
    of_rows: u64,
    /// Of 0, 1, 2, more seeds, and as many as there may be.
    of_seeds: [u64; 5],
    /// A seed stands more than once.
    repeated: u64,
    equal: u64,
    /// And others stand between.
    first_is_last: u64,
    short_of_refused: u64,
    short: u64,
    lines: u64,
    /// Those in sweeps of as many seeds as there may be.
    lines_of_most: u64,
    /// Of the others.
    ended: [u64; 5],
    above_zero: u64,
    pub(super) seconds: f64,
}

impl Sweeps {
    pub(super) fn add(&mut self, sweep: &Sweep, swept: &Swept, checked: &CheckedSweep) {
        self.seconds += checked.seconds;
        let refused = sweep.input.refusal().is_some();
        self.of_refused += u64::from(refused);
        if sweep.count > 0 {
            self.short += u64::from(!refused);
            self.short_of_refused += u64::from(refused);
        }
        match swept {
            Swept::Refused(_) => self.too_many += u64::from(!refused),
            Swept::Ran { lines, .. } => self.add_run(sweep, lines),
            Swept::Panicked(_) => {}
        }
    }

    fn add_run(&mut self, sweep: &Sweep, lines: &[[u64; SWEPT_LENGTH]]) {
        self.run += 1;
        self.of_rows += u64::from(is_of_rows(&sweep.input));
        let kind = if sweep.count == MAX_SEEDS {
            4
        } else {
            sweep.count.min(3)
        };
        self.of_seeds[kind as usize] += 1;
        self.add_seeds(sweep);
        self.lines += sweep.count;
        if sweep.count == MAX_SEEDS {
            self.lines_of_most += sweep.count;
            return;
        }
        let above_zero = f64::from_bits(sweep.input.loss_rate) > 0.0;
        self.above_zero += u64::from(above_zero) * sweep.count;
        for [.., ended] in lines {
            self.ended[*ended as usize] += 1;
        }
    }

    fn add_seeds(&mut self, sweep: &Sweep) {
        let mut seeds: Vec<u64> = sweep.seeds().collect();
        let first_is_last = seeds.first() == seeds.last();
        seeds.sort_unstable();
        seeds.dedup();
        let different = seeds.len() as u64;
        self.repeated += u64::from(different < sweep.count);
        self.equal += u64::from(sweep.count > 1 && different == 1);
        self.first_is_last += u64::from(first_is_last && different > 1);
    }
}

impl fmt::Display for Sweeps {
    fn fmt(&self, f: &mut fmt::Formatter) -> fmt::Result {
        let all = self.of_refused + self.too_many + self.run;
        writeln!(f, "sweeps {all}")?;
        writeln!(f, "  of refused lines {}", self.of_refused)?;
        writeln!(f, "  of too many seeds, refused by 15 {}", self.too_many)?;
        writeln!(f, "  run {}", self.run)?;
        writeln!(f, "    of rows {}", self.of_rows)?;
        let names = ["0", "1", "2", "3 to 60", "65536"];
        for (name, count) in names.iter().zip(self.of_seeds) {
            writeln!(f, "    of seeds {name}: {count}")?;
        }
        writeln!(f, "    with a seed more than once {}", self.repeated)?;
        writeln!(f, "      all seeds equal {}", self.equal)?;
        writeln!(
            f,
            "      the first seed last again, others between {}",
            self.first_is_last
        )?;
        let asked = self.short + self.short_of_refused;
        writeln!(f, "  asked again with a short table {asked}")?;
        writeln!(f, "    refused by 15 {}", self.short)?;
        writeln!(f, "lines of sweeps {}", self.lines)?;
        writeln!(f, "  in sweeps of 65536 seeds {}", self.lines_of_most)?;
        writeln!(f, "  in others {}", self.lines - self.lines_of_most)?;
        for end in 1..=4 {
            writeln!(f, "    with end {end} {}", self.ended[end])?;
        }
        writeln!(f, "    at a loss rate above 0 {}", self.above_zero)
    }
}
