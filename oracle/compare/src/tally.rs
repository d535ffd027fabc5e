//! What a comparison saw.

mod files;
mod pairs;
mod sweeps;
mod validities;
mod wire;

use crate::check::Checked;
use crate::file_checks::CheckedFile;
use crate::files::CheckedFiling;
use crate::packets::{CheckedWired, Wired};
use crate::pairs::CheckedPair;
use crate::previews::Previewed;
use crate::sweeps::CheckedSweep;
use files::Files;
use oracle::{Answer, Checking, Filing, Graph, Input, Pairing, Summary, Sweep, Swept};
use pairs::Pairs;
use std::fmt;
use sweeps::Sweeps;
use validities::Validities;
use wire::Wire;

/// The questions that refuse a line.
const QUESTIONS: [usize; 10] = [1, 2, 3, 4, 5, 6, 16, 7, 8, 9];

#[derive(Default)]
pub struct Tally {
    lines: u64,
    unreadable: u64,
    runs: u64,
    of_rows: u64,
    ended: [u64; 5],
    lossy: u64,
    nacks: u64,
    piggybacks: u64,
    cut: u64,
    refused: [u64; 17],
    exact: u64,
    exact_of_rows: u64,
    exact_above_zero: u64,
    validities: Validities,
    previews: Previews,
    sweeps: Sweeps,
    files: Files,
    pairs: Pairs,
    wire: Wire,
    ctsim_seconds: f64,
    library_seconds: f64,
    differences: u64,
    first: Option<Difference>,
}

/// Pairs of a line and a round of it.
#[derive(Default)]
struct Previews {
    of_refused: u64,
    of_runs: u64,
    of_rows: u64,
    ended: [u64; 5],
    lossy: u64,
    nacks: u64,
    piggybacks: u64,
    past_end: u64,
    packets: u64,
    seconds: f64,
}

struct Difference {
    number: u64,
    line: String,
    what: String,
}

impl Tally {
    pub fn add_unreadable(&mut self) {
        self.lines += 1;
        self.unreadable += 1;
    }

    pub fn add_seconds(&mut self, of_ctsim: f64) {
        self.ctsim_seconds += of_ctsim;
    }

    pub fn add(&mut self, number: u64, input: &Input, answer: &Answer, checked: Checked) {
        self.lines += 1;
        self.library_seconds += checked.seconds;
        self.validities.add(input);
        self.previews.add(input, answer, &checked.previewed);
        match answer {
            Answer::Refused(refusal) => self.refused[*refusal as usize] += 1,
            Answer::Ran(run) => self.add_run(input, run, &checked),
            Answer::Panicked(_) => {}
        }
        if let Some(what) = checked.difference {
            self.add_difference(number, input.to_string(), what);
        }
    }

    pub fn add_sweep(&mut self, number: u64, sweep: &Sweep, swept: &Swept, checked: CheckedSweep) {
        self.sweeps.add(sweep, swept, &checked);
        if let Some(what) = checked.difference {
            self.add_difference(number, sweep.to_string(), what);
        }
    }

    pub fn add_filing(
        &mut self,
        number: u64,
        filing: &Filing,
        answer: &Answer,
        checked: CheckedFiling,
    ) {
        self.files.add(filing, answer, &checked);
        if let Some(what) = checked.difference {
            self.add_difference(number, filing.to_string(), what);
        }
    }

    pub fn add_file_check(
        &mut self,
        number: u64,
        checking: &Checking,
        answer: &Answer,
        checked: Option<CheckedFile>,
    ) {
        self.files.add_check(checking, answer, checked.as_ref());
        if let Some(what) = checked.and_then(|checked| checked.difference) {
            self.add_difference(number, checking.to_string(), what);
        }
    }

    /// Such a file has no line; its way and its seed are told.
    pub fn add_reshaped(&mut self, number: u64, line: String, way: usize, checked: CheckedFile) {
        self.files.add_reshaped(way, &checked);
        if let Some(what) = checked.difference {
            self.add_difference(number, line, what);
        }
    }

    pub fn add_pair(&mut self, number: u64, pairing: &Pairing, checked: CheckedPair) {
        self.pairs.add(&checked);
        if let Some(what) = checked.difference {
            self.add_difference(number, pairing.to_string(), what);
        }
    }

    pub fn add_wired(&mut self, number: u64, wired: &Wired, checked: CheckedWired) {
        self.wire.add(wired, &checked);
        if let Some(what) = checked.difference {
            self.add_difference(number, wired.line(), what);
        }
    }

    fn add_difference(&mut self, number: u64, line: String, what: String) {
        self.differences += 1;
        let first = self.first.as_ref();
        if first.is_none_or(|first| number < first.number) {
            self.first = Some(Difference { number, line, what });
        }
    }

    fn add_run(&mut self, input: &Input, run: &Summary, checked: &Checked) {
        let of_rows = is_of_rows(input);
        let above_zero = f64::from_bits(input.loss_rate) > 0.0;
        self.runs += 1;
        self.ended[run.ended as usize] += 1;
        self.of_rows += u64::from(of_rows);
        self.lossy += u64::from(is_lossy(run));
        self.nacks += u64::from(run.nacks_sent > 0);
        self.piggybacks += u64::from(run.piggybacks_sent > 0);
        self.cut += u64::from(checked.cut);
        self.exact += u64::from(checked.exact);
        self.exact_of_rows += u64::from(checked.exact && of_rows);
        self.exact_above_zero += u64::from(checked.exact && above_zero);
    }

    pub fn all_the_same(&self) -> bool {
        self.differences == 0
    }
}

impl Previews {
    fn add(&mut self, input: &Input, answer: &Answer, previewed: &Previewed) {
        self.seconds += previewed.seconds;
        match answer {
            Answer::Refused(_) => self.of_refused += previewed.asked,
            Answer::Ran(run) => self.add_run(input, run, previewed),
            Answer::Panicked(_) => {}
        }
    }

    fn add_run(&mut self, input: &Input, run: &Summary, previewed: &Previewed) {
        self.of_runs += previewed.asked;
        self.of_rows += u64::from(is_of_rows(input)) * previewed.asked;
        self.ended[run.ended as usize] += previewed.asked;
        self.lossy += u64::from(is_lossy(run)) * previewed.asked;
        self.nacks += previewed.nacks;
        self.piggybacks += previewed.piggybacks;
        self.past_end += previewed.past_end;
        self.packets += previewed.packets;
    }
}

fn is_of_rows(input: &Input) -> bool {
    matches!(input.graph, Graph::Rows { .. })
}

fn is_lossy(run: &Summary) -> bool {
    run.rx_success < run.rx_attempts
}

impl fmt::Display for Tally {
    fn fmt(&self, f: &mut fmt::Formatter) -> fmt::Result {
        writeln!(f, "lines {}", self.lines)?;
        writeln!(f, "unreadable, not compared {}", self.unreadable)?;
        writeln!(f, "runs {}", self.runs)?;
        writeln!(f, "  of rows {}", self.of_rows)?;
        for end in 1..=4 {
            writeln!(f, "  with end {end} {}", self.ended[end])?;
        }
        writeln!(f, "  lossy {}", self.lossy)?;
        writeln!(f, "  with NACKs {}", self.nacks)?;
        writeln!(f, "  with piggybacks {}", self.piggybacks)?;
        writeln!(f, "  whose snapshots did not all fit {}", self.cut)?;
        writeln!(f, "refused {}", self.refused.iter().sum::<u64>())?;
        for number in QUESTIONS {
            writeln!(f, "  by {number} {}", self.refused[number])?;
        }
        writeln!(f, "runs that demand 3 fixes {}", self.exact)?;
        writeln!(f, "  of rows {}", self.exact_of_rows)?;
        writeln!(f, "  at a loss rate above 0 {}", self.exact_above_zero)?;
        write!(f, "{}{}", self.validities, self.previews)?;
        write!(f, "{}{}", self.sweeps, self.files)?;
        write!(f, "{}{}", self.pairs, self.wire)?;
        writeln!(f, "processor seconds of ctsim {:.0}", self.ctsim_seconds)?;
        writeln!(f, "  of the library {:.0}", self.library_seconds)?;
        writeln!(f, "  of its previews {:.0}", self.previews.seconds)?;
        writeln!(f, "  of its sweeps {:.0}", self.sweeps.seconds)?;
        writeln!(f, "  of its filings {:.0}", self.files.filing_seconds)?;
        writeln!(f, "  of its checks {:.0}", self.files.check_seconds)?;
        writeln!(f, "differences {}", self.differences)?;
        if let Some(first) = &self.first {
            writeln!(f, "first difference:\n  {}\n  {}", first.line, first.what)?;
        }
        Ok(())
    }
}

impl fmt::Display for Previews {
    fn fmt(&self, f: &mut fmt::Formatter) -> fmt::Result {
        writeln!(f, "rounds previewed {}", self.of_runs + self.of_refused)?;
        writeln!(f, "  of refused lines {}", self.of_refused)?;
        writeln!(f, "  of runs {}", self.of_runs)?;
        writeln!(f, "    of rows {}", self.of_rows)?;
        for end in 1..=4 {
            writeln!(f, "    with end {end} {}", self.ended[end])?;
        }
        writeln!(f, "    lossy {}", self.lossy)?;
        writeln!(f, "    whose packet has a NACK {}", self.nacks)?;
        writeln!(f, "    whose packet has a piggyback {}", self.piggybacks)?;
        writeln!(f, "    refused by 13 {}", self.past_end)?;
        writeln!(f, "    whose packet was written and read {}", self.packets)
    }
}
