//! One configuration over many seeds.

use crate::answer::{run, Answer, Summary};
use crate::input::{decimal, Input};

/// Numbers of a sweep's line.
pub const SWEPT_LENGTH: usize = 7;
pub const MAX_SEEDS: u64 = 65_536;

/// Too many seeds, or too short a table for them.
const TOO_MANY: u8 = 15;

/// Of `sweep LENGTH COUNT FIRST STEP LINE`.
#[derive(Debug, Clone, PartialEq, Eq)]
pub struct Sweep {
    /// The length of the lent table.
    pub length: u64,
    /// How many seeds.
    pub count: u64,
    pub first: u64,
    /// From one seed to the next, modulo 2^64.
    pub step: u64,
    /// Its seed is not used.
    pub input: Input,
}

/// What is told of a sweep.
#[derive(Debug, PartialEq, Eq)]
pub enum Swept {
    Refused(u8),
    Ran {
        /// Of each seed: rounds, slots, listen, flood, sleep, records, end number.
        lines: Vec<[u64; SWEPT_LENGTH]>,
        /// Of all lines.
        rounds: u64,
        /// The places of the table behind the lines.
        kept: u64,
    },
    /// The Rust's message.
    Panicked(String),
}

impl Sweep {
    /// Reads what stands behind `sweep `.
    pub(crate) fn parse(fields: &str) -> Option<Self> {
        let fields: Vec<&str> = fields.splitn(5, ' ').collect();
        let [length, count, first, step, line] = fields.try_into().ok()?;
        Some(Self {
            length: decimal(length)?,
            count: decimal(count)?,
            first: decimal(first)?,
            step: decimal(step)?,
            input: Input::parse(line.as_bytes())?,
        })
    }

    pub fn seeds(&self) -> impl Iterator<Item = u64> + '_ {
        (0..self.count).map(|i| self.first.wrapping_add(i.wrapping_mul(self.step)))
    }

    /// The input of each seed's run.
    pub fn inputs(&self) -> impl Iterator<Item = Input> + '_ {
        self.seeds().map(|seed| Input {
            seed,
            ..self.input.clone()
        })
    }

    /// Asks the questions, and runs ctsim once for each seed.
    pub fn run(&self) -> Swept {
        if let Some(number) = self.refusal() {
            return Swept::Refused(number);
        }
        let lines = self.inputs().map(|input| line(run(&input)));
        let lines: Vec<[u64; SWEPT_LENGTH]> = match lines.collect() {
            Ok(lines) => lines,
            Err(message) => return Swept::Panicked(message),
        };
        Swept::Ran {
            rounds: lines.iter().map(|line| line[0]).sum(),
            kept: self.length - needed(self.count),
            lines,
        }
    }

    /// The number of the first question that is answered "no".
    pub fn refusal(&self) -> Option<u8> {
        let fits = self.count <= MAX_SEEDS && self.length >= needed(self.count);
        self.input.refusal().or_else(|| (!fits).then_some(TOO_MANY))
    }
}

/// The least length of a table for so many seeds; they are far fewer than 2^64.
pub(crate) fn needed(count: u64) -> u64 {
    SWEPT_LENGTH as u64 * count
}

/// The line of an accepted run, or the message if it panicked.
fn line(answer: Answer) -> Result<[u64; SWEPT_LENGTH], String> {
    match answer {
        Answer::Ran(run) => Ok(numbers(&run)),
        Answer::Refused(_) => unreachable!("no question is about the seed"),
        Answer::Panicked(message) => Err(message),
    }
}

fn numbers(run: &Summary) -> [u64; SWEPT_LENGTH] {
    [
        run.rounds.len() as u64,
        run.slots,
        run.listen,
        run.flood,
        run.sleep,
        run.records.len() as u64,
        run.ended.into(),
    ]
}
