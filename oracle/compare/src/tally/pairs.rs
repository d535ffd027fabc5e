//! The pairs of files that were compared.

use crate::pairs::CheckedPair;
use oracle::archive::{layout, sections, Superseding};
use oracle::Paired;
use std::fmt;

/// The fields that have to agree, in their order.
const FIELDS: [&str; 9] = [
    "topology",
    "first number",
    "second number",
    "repeats",
    "round slots",
    "loss rate",
    "seed",
    "proposals",
    "interval",
];

#[derive(Default)]
pub(super) struct Pairs {
    of_refused: u64,
    /// On the first file, and on the second alone.
    broken: [u64; 2],
    unlike: u64,
    /// Those that differ in one field alone.
    unlike_in: [u64; FIELDS.len()],
    /// By the file that supersedes.
    answered: [u64; 2],
    equal_limits: u64,
    without_records: u64,
    of_whole: u64,
    /// Those with more records than the other file has.
    with_more: u64,
}

impl Pairs {
    pub(super) fn add(&mut self, checked: &CheckedPair) {
        match &checked.paired {
            Paired::Told { files, superseding } => self.add_told(files, *superseding),
            _ => self.of_refused += 1,
        }
        if let Some([these, others]) = checked.records {
            self.of_whole += 1;
            self.with_more += u64::from(these > others);
        }
    }

    fn add_told(&mut self, files: &[Vec<u8>; 2], superseding: Superseding) {
        match (superseding, files.each_ref().map(|file| inputs(file))) {
            (_, [None, _]) => self.broken[0] += 1,
            (_, [_, None]) => self.broken[1] += 1,
            (Superseding::Refused(_), [Some(first), Some(second)]) => {
                self.add_unlike(first, second);
            }
            (Superseding::Records([file, _, length]), [first, second]) => {
                self.answered[file as usize] += 1;
                self.equal_limits += u64::from(first == second);
                self.without_records += u64::from(length == 0);
            }
        }
    }

    fn add_unlike(&mut self, first: &[u8], second: &[u8]) {
        self.unlike += 1;
        let fields = first.chunks(8).zip(second.chunks(8)).take(FIELDS.len());
        let unlike = fields
            .enumerate()
            .filter(|(_, (field, other))| field != other);
        let unlike: Vec<usize> = unlike.map(|(number, _)| number).collect();
        if let [number] = unlike[..] {
            self.unlike_in[number] += 1;
        }
    }
}

/// The first section. `None`: the layout is broken.
fn inputs(file: &[u8]) -> Option<&[u8]> {
    let directory = layout(file)?;
    let [inputs, ..] = sections(file, &directory);
    Some(inputs)
}

impl fmt::Display for Pairs {
    fn fmt(&self, f: &mut fmt::Formatter) -> fmt::Result {
        let [on_first, on_second] = self.broken;
        let [first, second] = self.answered;
        let answered = first + second;
        let all = self.of_refused + on_first + on_second + self.unlike + answered;
        writeln!(f, "pairs of files {all}")?;
        writeln!(f, "  of refused lines {}", self.of_refused)?;
        writeln!(f, "  refused by 17 on the first file {on_first}")?;
        writeln!(f, "  refused by 17 on the second {on_second}")?;
        writeln!(f, "  refused by 19 {}", self.unlike)?;
        for (name, count) in FIELDS.iter().zip(self.unlike_in) {
            writeln!(f, "    in the {name} alone {count}")?;
        }
        writeln!(f, "  answered {answered}")?;
        writeln!(f, "    with the first file {first}")?;
        writeln!(f, "      at equal limits {}", self.equal_limits)?;
        writeln!(f, "    with the second {second}")?;
        writeln!(f, "    with no records {}", self.without_records)?;
        writeln!(f, "    of two whole files {}", self.of_whole)?;
        writeln!(
            f,
            "      with more records than the other has {}",
            self.with_more
        )
    }
}
