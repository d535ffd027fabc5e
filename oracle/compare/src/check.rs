//! One line, answered by ctsim and by the library.

use crate::clock::processor_seconds;
use crate::exact::Exact;
use crate::library::{self, Buffer, Buffers};
use crate::library::{LOGS_LENGTH, RECORDS_LENGTH, SNAPSHOT_LENGTH, SUMMARY_LENGTH};
use crate::previews::Previewed;
use oracle::{Answer, Input, Summary, Validity, TOTALS_LENGTH};
use std::fmt::Display;

/// The library's numbers for buffers that are too short.
const SHORT: u64 = 10;
const SHORT_SUMMARY: u64 = 100;
/// Its numbers for the validity of a line that no question refuses, or 16 alone.
const CURRENT: u64 = 0;
const OUTDATED: u64 = 16;

pub struct Checked {
    /// Not all snapshots fitted.
    pub cut: bool,
    /// Demand 3's premises are met.
    pub exact: bool,
    /// The first difference.
    pub difference: Option<String>,
    /// The library's processor time for the run.
    pub seconds: f64,
    pub previewed: Previewed,
}

/// Compares ctsim's answer with the library's. The line's number fixes the marks and the lengths of
/// the buffers.
pub fn check(input: &Input, answer: &Answer, number: u64) -> Checked {
    let mark = mark_of(number);
    let (result, run, panic) = match answer {
        Answer::Refused(refusal) => (u64::from(*refusal), None, None),
        Answer::Ran(run) => (0, Some(run), None),
        Answer::Panicked(message) => (0, None, Some(format!("ctsim panicked: {message}"))),
    };
    let taken = run.map_or(10, |run| run.snapshots.len());
    let mut expected = marked(mark, taken);
    let cut = run.is_some() && taken > expected.snapshots.lent / SNAPSHOT_LENGTH;
    let mut found = expected.clone();
    let start = processor_seconds();
    let returned = library::run(input, mark, &mut found);
    let seconds = processor_seconds() - start;
    if let Some(run) = run {
        write(run, &mut expected);
    }
    let exact = run.and_then(|run| Exact::of(input, run));
    let mut previewed = Previewed::of(input, answer, mark);
    let not_exact = || exact.as_ref()?.difference(run?, &found);
    let difference = panic
        .or_else(|| result_differs("result", result, returned))
        .or_else(|| contents_differ(&expected, &found))
        .or_else(not_exact)
        .or_else(|| short_differs(input, mark, result))
        .or_else(|| validity_differs(input, mark))
        .or_else(|| previewed.difference.take());
    Checked {
        cut,
        exact: exact.is_some(),
        difference,
        seconds,
        previewed,
    }
}

/// Times an odd number, so that all bits of the mark vary.
pub fn mark_of(number: u64) -> u64 {
    number.wrapping_add(1).wrapping_mul(0x9e37_79b9_7f4a_7c15)
}

/// Buffers full of marks, and long enough but for the snapshots, of which three lengths are tried:
/// as long as needed, longer, and any shorter one.
fn marked(mark: u64, snapshots: usize) -> Buffers {
    let needed = SNAPSHOT_LENGTH * snapshots;
    let bits = |from: u32, count: u32| (mark >> from & ((1 << count) - 1)) as usize;
    let snapshot_places = match bits(60, 4) % 3 {
        0 => needed,
        1 => needed + 1 + bits(8, 4),
        _ => bits(8, 32) % needed.max(1),
    };
    Buffers {
        summary: Buffer::new(SUMMARY_LENGTH + bits(58, 1) * bits(12, 4), mark),
        logs: Buffer::new(LOGS_LENGTH + bits(57, 1) * bits(16, 4), mark as u8),
        records: Buffer::new(RECORDS_LENGTH + bits(56, 1) * bits(20, 4), mark),
        snapshots: Buffer::new(snapshot_places, mark),
    }
}

/// Writes where the library should, and nowhere else.
fn write(run: &Summary, buffers: &mut Buffers) {
    let Buffers {
        summary,
        logs,
        records,
        snapshots,
    } = buffers;
    summary.places[..SUMMARY_LENGTH].copy_from_slice(&numbers(run));
    write_lists(run, logs, records, snapshots);
}

/// Writes logs, records and those snapshots that fit.
pub(crate) fn write_lists(
    run: &Summary,
    logs: &mut Buffer<u8>,
    records: &mut Buffer<u64>,
    snapshots: &mut Buffer<u64>,
) {
    for (i, log) in run.logs.iter().enumerate() {
        logs.places[2048 + i] = log.len() as u8;
        for (place, term) in logs.places[64 * i..].iter_mut().zip(log) {
            *place = *term as u8;
        }
    }
    for (places, r) in records.places.chunks_mut(3).zip(&run.records) {
        places.copy_from_slice(&[r.id, r.start, r.end]);
    }
    let lent = &mut snapshots.places[..snapshots.lent];
    for (places, snapshot) in lent.chunks_exact_mut(SNAPSHOT_LENGTH).zip(&run.snapshots) {
        places.copy_from_slice(snapshot);
    }
}

fn numbers(run: &Summary) -> [u64; SUMMARY_LENGTH] {
    let mut numbers = [0; SUMMARY_LENGTH];
    let (totals, counts) = numbers.split_at_mut(TOTALS_LENGTH);
    totals.copy_from_slice(&run.totals());
    counts.copy_from_slice(&[run.records.len() as u64, run.snapshots.len() as u64]);
    numbers
}

fn contents_differ(expected: &Buffers, found: &Buffers) -> Option<String> {
    differs("summary", &expected.summary.places, &found.summary.places)
        .or_else(|| differs("records", &expected.records.places, &found.records.places))
        .or_else(|| differs("logs", &expected.logs.places, &found.logs.places))
        .or_else(|| {
            let (expected, found) = (&expected.snapshots, &found.snapshots);
            differs("snapshots", &expected.places, &found.places)
        })
}

pub(crate) fn result_differs(name: &str, expected: u64, found: u64) -> Option<String> {
    (expected != found).then(|| format!("{name}: expected {expected}, found {found}"))
}

/// Expected is what ctsim gives, or the mark in a place that is to stay untouched.
pub(crate) fn differs<T: Display + PartialEq>(
    name: &str,
    expected: &[T],
    found: &[T],
) -> Option<String> {
    let at = (0..expected.len()).find(|&at| expected[at] != found[at])?;
    let (expected, found) = (&expected[at], &found[at]);
    Some(format!("{name}[{at}]: expected {expected}, found {found}"))
}

/// The same line with one buffer too short: refused last of all, or first for the summary.
fn short_differs(input: &Input, mark: u64, result: u64) -> Option<String> {
    let mut expected = marked(mark, 10);
    let last = if result == 0 { SHORT } else { result };
    let less = |length: usize| (mark >> 24) as usize % length;
    let result = match mark >> 32 & 3 {
        0 => {
            expected.summary.lent = less(SUMMARY_LENGTH);
            SHORT_SUMMARY
        }
        1 => {
            expected.records.lent = less(RECORDS_LENGTH);
            last
        }
        _ => {
            expected.logs.lent = less(LOGS_LENGTH);
            last
        }
    };
    let mut found = expected.clone();
    let returned = library::run(input, mark, &mut found);
    result_differs("result with a short buffer", result, returned)
        .or_else(|| contents_differ(&expected, &found))
}

fn validity_differs(input: &Input, mark: u64) -> Option<String> {
    let expected = match input.validity() {
        Validity::Current => CURRENT,
        Validity::Outdated => OUTDATED,
        Validity::Refused(number) => u64::from(number),
    };
    result_differs("validity", expected, library::validity(input, mark))
}
