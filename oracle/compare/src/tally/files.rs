//! The files that were made and checked.

use super::is_lossy;
use crate::file_checks::CheckedFile;
use crate::files::CheckedFiling;
use oracle::archive::Verdict;
use oracle::{reshapings, Answer, Checking, Damage, Filed, Filing, Summary};
use std::cmp::Ordering;
use std::fmt;

/// What a damage is done to. A flip and a set are told by the part of the file that they are in.
const PARTS: [&str; 10] = [
    "nothing",
    "cut",
    "lengthened",
    "the first byte",
    "the directory",
    "the inputs",
    "the totals",
    "the records",
    "the snapshots",
    "the logs",
];

/// Files, and of these how many passed the check, did not, and broke the layout.
type Counts = [u64; 4];

pub(super) struct Files {
    of_refused: u64,
    made: u64,
    ended: [u64; 5],
    lossy: u64,
    absent_slots: u64,
    /// For no snapshot, for fewer than were taken, for as many, for more.
    room: [u64; 4],
    /// With fewer bytes lent than needed, with as many, with more.
    lent: [u64; 3],
    /// Bytes of the shortest and of the longest.
    sizes: [usize; 2],
    checks_of_refused: u64,
    checks_ended: [u64; 5],
    damaged: [Counts; PARTS.len()],
    reshaped: Vec<Counts>,
    pub(super) filing_seconds: f64,
    pub(super) check_seconds: f64,
}

impl Default for Files {
    fn default() -> Self {
        Self {
            of_refused: 0,
            made: 0,
            ended: [0; 5],
            lossy: 0,
            absent_slots: 0,
            room: [0; 4],
            lent: [0; 3],
            sizes: [usize::MAX, 0],
            checks_of_refused: 0,
            checks_ended: [0; 5],
            damaged: [[0; 4]; PARTS.len()],
            reshaped: vec![[0; 4]; reshapings().len()],
            filing_seconds: 0.0,
            check_seconds: 0.0,
        }
    }
}

impl Files {
    pub(super) fn add(&mut self, filing: &Filing, answer: &Answer, checked: &CheckedFiling) {
        self.filing_seconds += checked.seconds;
        match (answer, checked.size) {
            (Answer::Ran(run), Some(size)) => self.add_made(filing, run, checked, size),
            _ => self.of_refused += 1,
        }
    }

    fn add_made(&mut self, filing: &Filing, run: &Summary, checked: &CheckedFiling, size: usize) {
        self.made += 1;
        self.ended[run.ended as usize] += 1;
        self.lossy += u64::from(is_lossy(run));
        self.absent_slots += u64::from(filing.input.round_slots.is_none());
        let [least, most] = self.sizes;
        self.sizes = [least.min(size), most.max(size)];
        let room = match filing.room.cmp(&(run.snapshots.len() as u64)) {
            _ if filing.room == 0 => 0,
            Ordering::Less => 1,
            Ordering::Equal => 2,
            Ordering::Greater => 3,
        };
        self.room[room] += 1;
        let lent = match checked.filed {
            Filed::File(_) if filing.length == size as u64 => 1,
            Filed::File(_) => 2,
            _ => 0,
        };
        self.lent[lent] += 1;
    }

    pub(super) fn add_check(
        &mut self,
        checking: &Checking,
        answer: &Answer,
        checked: Option<&CheckedFile>,
    ) {
        let (Answer::Ran(run), Some(checked)) = (answer, checked) else {
            self.checks_of_refused += 1;
            return;
        };
        self.check_seconds += checked.seconds;
        self.checks_ended[run.ended as usize] += 1;
        count(&mut self.damaged[part(checking.damage, checked)], checked);
    }

    pub(super) fn add_reshaped(&mut self, way: usize, checked: &CheckedFile) {
        self.check_seconds += checked.seconds;
        count(&mut self.reshaped[way], checked);
    }
}

fn count(counts: &mut Counts, checked: &CheckedFile) {
    let verdict = match checked.verdict {
        Verdict::Read { yes: true, .. } => 1,
        Verdict::Read { .. } => 2,
        _ => 3,
    };
    counts[0] += 1;
    counts[verdict] += 1;
}

/// The part's place in `PARTS`.
fn part(damage: Damage, checked: &CheckedFile) -> usize {
    match (damage, &checked.verdict) {
        (Damage::Whole, _) => 0,
        (Damage::Cut(_), _) => 1,
        (Damage::Grow(_), _) => 2,
        (_, Verdict::Read { directory, .. }) => {
            let place = damage.place(checked.size).map(|place| place as u64);
            let before = directory
                .iter()
                .filter(|[offset, _]| place >= Some(*offset));
            // None before the first section: the byte was set to what it was.
            4 + before.count() - usize::from(place == Some(0))
        }
        _ => 3 + usize::from(damage.place(checked.size) != Some(0)),
    }
}

impl fmt::Display for Files {
    fn fmt(&self, f: &mut fmt::Formatter) -> fmt::Result {
        writeln!(f, "filings {}", self.of_refused + self.made)?;
        writeln!(f, "  of refused lines {}", self.of_refused)?;
        writeln!(f, "  files made {}", self.made)?;
        for end in 1..=4 {
            writeln!(f, "    with end {end} {}", self.ended[end])?;
        }
        writeln!(f, "    lossy {}", self.lossy)?;
        writeln!(f, "    with absent round slots {}", self.absent_slots)?;
        let rooms = ["none", "fewer than were taken", "as many", "more"];
        for (name, count) in rooms.iter().zip(self.room) {
            writeln!(f, "    room for snapshots, {name}: {count}")?;
        }
        let [short, exact, more] = self.lent;
        writeln!(f, "    in as many bytes as needed {exact}")?;
        writeln!(f, "    in more {more}")?;
        writeln!(f, "    in fewer, refused by 18 before {short}")?;
        let [least, most] = self.sizes;
        writeln!(f, "    of {least} to {most} bytes")?;
        let damaged = sum(&self.damaged);
        writeln!(f, "checks {}", self.checks_of_refused + damaged)?;
        writeln!(f, "  of refused lines {}", self.checks_of_refused)?;
        writeln!(f, "  of files {damaged}")?;
        for end in 1..=4 {
            writeln!(f, "    with end {end} {}", self.checks_ended[end])?;
        }
        writeln!(
            f,
            "checks of files put together anew {}",
            sum(&self.reshaped)
        )?;
        write_table(f, "damage of a file", PARTS.iter().zip(&self.damaged))?;
        let names = reshapings().map(|(name, _)| name);
        write_table(
            f,
            "file put together anew",
            names.iter().zip(&self.reshaped),
        )?;
        writeln!(f)
    }
}

fn write_table<'a>(
    f: &mut fmt::Formatter,
    title: &str,
    rows: impl Iterator<Item = (&'a &'static str, &'a Counts)>,
) -> fmt::Result {
    writeln!(f, "\n| {title} | files | yes | no | 17 |")?;
    writeln!(f, "|---|---|---|---|---|")?;
    for (name, [all, yes, no, broken]) in rows {
        writeln!(f, "| {name} | {all} | {yes} | {no} | {broken} |")?;
    }
    Ok(())
}

fn sum(counts: &[Counts]) -> u64 {
    counts.iter().map(|count| count[0]).sum()
}
