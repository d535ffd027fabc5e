//! Sweeps, and lines `sweep LENGTH COUNT FIRST STEP LINE`.

use super::Source;
use crate::input::{Graph, Input};
use crate::sweep::{needed, Sweep, MAX_SEEDS, SWEPT_LENGTH};
use rand::RngCore;

const LINE: u64 = 2;

/// Lines without end, of 0 to 12 seeds: one in eight has a broken LINE, and one in eight a table
/// that is too short.
pub fn sweep_lines(seed: u64) -> impl Iterator<Item = String> {
    let mut source = Source::new(seed);
    std::iter::from_fn(move || Some(source.sweep_line()))
}

/// Sweeps without end, of 0 to 60 seeds and in tables that are long enough: one in eight is of a
/// refused line. Four in a thousand have a seed too many, and two as many as there may be.
pub fn sweeps(seed: u64) -> impl Iterator<Item = Sweep> {
    let mut source = Source::new(seed);
    (0..).map(move |turn: u64| match turn % 500 {
        0 | 250 => source.sweep_of(MAX_SEEDS + 1, 1),
        1 => source.greatest_sweep(),
        _ => source.sweep(),
    })
}

impl Source {
    fn sweep_line(&mut self) -> String {
        let few = self.below(13);
        let count = self.pick(&[0, 1, 2, few, few, few]);
        let (count, step) = self.count_and_step(count);
        let mut sweep = self.sweep_of(count, step);
        match self.below(8) {
            0 => {
                let line = self.broken_line();
                sweep.line_with(&line)
            }
            1 => {
                sweep.length = self.short_table(count);
                sweep.to_string()
            }
            _ => sweep.to_string(),
        }
    }

    fn sweep(&mut self) -> Sweep {
        let (few, many) = (3 + self.below(10), 13 + self.below(48));
        let count = self.pick(&[0, 1, 2, few, few, few, few, many]);
        let (count, step) = self.count_and_step(count);
        let mut sweep = self.sweep_of(count, step);
        if self.below(8) == 0 {
            self.break_values(&mut sweep.input);
        }
        sweep
    }

    /// So many seeds with any step; or 3, 5 or 9, of which the first stands last again.
    fn count_and_step(&mut self, count: u64) -> (u64, u64) {
        if self.below(8) == 0 {
            let bits = 1 + self.below(3);
            ((1 << bits) + 1, 1 << (64 - bits))
        } else {
            (count, self.step())
        }
    }

    /// Equal seeds, seeds in order, two in turn, or any.
    fn step(&mut self) -> u64 {
        let any = self.draws.next_u64();
        self.pick(&[0, 1, 1 << 63, any | 1, any])
    }

    /// Of an accepted line, in a table that is exact or longer.
    fn sweep_of(&mut self, count: u64, step: u64) -> Sweep {
        let longer = 1 + self.below(30);
        Sweep {
            length: needed(count) + self.pick(&[0, longer]),
            count,
            first: self.seed(),
            step,
            input: self.swept_input(),
        }
    }

    /// Accepted; in one of three a run is short.
    fn swept_input(&mut self) -> Input {
        let mut input = self.input();
        if self.below(3) == 0 {
            input.max_slots = self.around(&[0, 1, 1, 2], 0, 100);
        }
        input
    }

    /// As many seeds as there may be, of a run that takes little time and is not the same for all.
    fn greatest_sweep(&mut self) -> Sweep {
        let mut sweep = self.sweep_of(MAX_SEEDS, 1);
        sweep.input = Input {
            graph: Graph::Topology {
                number: LINE,
                nodes: 2,
                second: 0,
            },
            flood_repeats: 2,
            round_slots: None,
            loss_rate: 0.5f64.to_bits(),
            max_slots: 1,
            ..sweep.input
        };
        sweep
    }

    /// A place too few, a line too few, or no place at all.
    fn short_table(&mut self, count: u64) -> u64 {
        let needed = needed(count);
        let missing = self.pick(&[1, SWEPT_LENGTH as u64, needed]);
        needed.saturating_sub(missing)
    }
}

impl Sweep {
    /// The sweep's line with another LINE, readable or not.
    fn line_with(&self, line: &str) -> String {
        let Sweep {
            length,
            count,
            first,
            step,
            ..
        } = self;
        format!("sweep {length} {count} {first} {step} {line}")
    }
}
