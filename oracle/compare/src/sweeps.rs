//! Sweeps by the library, whose lines are compared with ctsim's runs.

use crate::check::{differs, mark_of, result_differs};
use crate::clock::processor_seconds;
use crate::library::{self, Buffer, SweepBuffers};
use oracle::{Sweep, Swept, SWEPT_LENGTH};

/// The library's numbers for a table that is too short, and for no place for the rounds.
const SHORT_TABLE: u64 = 15;
const SHORT_ROUNDS: u64 = 100;

pub struct CheckedSweep {
    /// The first difference.
    pub difference: Option<String>,
    /// The library's processor time for the sweep.
    pub seconds: f64,
}

/// Compares ctsim's answer to a sweep with the library's. The sweep's number fixes the marks and the
/// lengths of the slices.
pub fn check(sweep: &Sweep, swept: &Swept, number: u64) -> CheckedSweep {
    let mark = mark_of(number);
    let seeds: Vec<u64> = sweep.seeds().collect();
    let ask = |buffers: &mut SweepBuffers| library::sweep(&sweep.input, mark, &seeds, buffers);
    let before = marked(sweep, mark);
    let (mut expected, mut found) = (before.clone(), before.clone());
    let result = write(swept, &mut expected);
    let start = processor_seconds();
    let returned = ask(&mut found);
    let seconds = processor_seconds() - start;
    let difference = panicked(swept)
        .or_else(|| result_differs("result", result, returned))
        .or_else(|| contents_differ(&expected, &found))
        .or_else(|| short_differs(sweep, ask, before.clone(), mark))
        .or_else(|| no_place_differs(ask, before));
    CheckedSweep {
        difference,
        seconds,
    }
}

fn panicked(swept: &Swept) -> Option<String> {
    match swept {
        Swept::Panicked(message) => Some(format!("ctsim panicked: {message}")),
        _ => None,
    }
}

/// Slices full of marks: the table that the sweep lends, and for the rounds as much as needed or more.
fn marked(sweep: &Sweep, mark: u64) -> SweepBuffers {
    let more = (mark >> 40 & 1) as usize * (mark >> 41 & 15) as usize;
    SweepBuffers {
        table: Buffer::new(sweep.length as usize, mark),
        rounds: Buffer::new(1 + more, mark),
    }
}

/// Writes where the library should, and gives back what it should return.
fn write(swept: &Swept, buffers: &mut SweepBuffers) -> u64 {
    match swept {
        Swept::Refused(number) => u64::from(*number),
        Swept::Ran { lines, rounds, .. } => {
            let places = buffers.table.places.chunks_exact_mut(SWEPT_LENGTH);
            for (places, line) in places.zip(lines) {
                places.copy_from_slice(line);
            }
            buffers.rounds.places[0] = *rounds;
            0
        }
        Swept::Panicked(_) => 0,
    }
}

fn contents_differ(expected: &SweepBuffers, found: &SweepBuffers) -> Option<String> {
    differs("table", &expected.table.places, &found.table.places)
        .or_else(|| differs("rounds", &expected.rounds.places, &found.rounds.places))
}

/// The table a place too short, a line too short or of no length: refused last of all. No table is
/// too short for no seeds.
fn short_differs(
    sweep: &Sweep,
    ask: impl Fn(&mut SweepBuffers) -> u64,
    mut buffers: SweepBuffers,
    mark: u64,
) -> Option<String> {
    let needed = SWEPT_LENGTH * sweep.count as usize;
    let lengths = [needed.checked_sub(1)?, needed - SWEPT_LENGTH, 0];
    buffers.table.lent = lengths[(mark >> 32) as usize % lengths.len()];
    let result = sweep.input.refusal().map_or(SHORT_TABLE, u64::from);
    let difference = refusal_differs(ask, buffers, result)?;
    Some(format!("with a short table: {difference}"))
}

/// No place for the rounds: refused first of all.
fn no_place_differs(
    ask: impl Fn(&mut SweepBuffers) -> u64,
    mut buffers: SweepBuffers,
) -> Option<String> {
    buffers.rounds.lent = 0;
    let difference = refusal_differs(ask, buffers, SHORT_ROUNDS)?;
    Some(format!("with no place for the rounds: {difference}"))
}

/// The library should return that number and leave all marks.
fn refusal_differs(
    ask: impl Fn(&mut SweepBuffers) -> u64,
    expected: SweepBuffers,
    result: u64,
) -> Option<String> {
    let mut found = expected.clone();
    let returned = ask(&mut found);
    result_differs("result", result, returned).or_else(|| contents_differ(&expected, &found))
}
