//! Pairs of files, of which the library and the oracle say which supersedes.

use crate::check::{differs, mark_of, result_differs};
use crate::library::{self, Buffer, SUPERSEDING_LENGTH};
use oracle::archive::{supersede, Superseding};
use oracle::{Answer, Damage, Paired, Pairing, Record};

/// The library's number for too few places.
const SHORT: u64 = 100;

pub struct CheckedPair {
    /// What the oracle tells of the pair.
    pub paired: Paired,
    /// Of two whole files: how many records the one that supersedes has, and the other.
    pub records: Option<[usize; 2]>,
    /// The first difference.
    pub difference: Option<String>,
}

/// Compares what the library says of a pair; these are ctsim's answers to its inputs. The number fixes
/// the marks.
pub fn check(pairing: &Pairing, answers: &[Answer; 2], number: u64) -> CheckedPair {
    let paired = pairing.paired(answers);
    let (records, difference) = match &paired {
        Paired::Refused(_) => (None, None),
        Paired::Told { files, superseding } => {
            let records = whole_records(pairing, answers, *superseding);
            let difference = told_differs(files, *superseding, mark_of(number));
            (records, difference.or_else(|| begins_otherwise(records?)))
        }
        Paired::Panicked(message) => (None, Some(format!("ctsim panicked: {message}"))),
    };
    CheckedPair {
        records: records.map(|both| both.map(<[Record]>::len)),
        paired,
        difference,
    }
}

/// Asks the library of the pair, and of the second file with itself.
fn told_differs(files: &[Vec<u8>; 2], superseding: Superseding, mark: u64) -> Option<String> {
    let [first, second] = files.each_ref().map(Vec::as_slice);
    superseding_differs([first, second], superseding, mark).or_else(|| {
        let superseding = supersede(second, second);
        let difference = superseding_differs([second, second], superseding, mark)?;
        Some(format!("of the second file twice: {difference}"))
    })
}

/// Asks with too few places, with as many as needed and with more.
fn superseding_differs(
    [first, second]: [&[u8]; 2],
    superseding: Superseding,
    mark: u64,
) -> Option<String> {
    let more = SUPERSEDING_LENGTH + 1 + (mark >> 40 & 15) as usize;
    (0..=SUPERSEDING_LENGTH).chain([more]).find_map(|lent| {
        let mut found = Buffer::new(lent, mark);
        let mut expected = found.clone();
        let result = write(superseding, &mut expected);
        let returned = library::file_supersede(first, second, &mut found);
        let difference = result_differs("result", result, returned)
            .or_else(|| differs("part", &expected.places, &found.places))?;
        Some(format!("with {lent} places: {difference}"))
    })
}

/// Writes where the library should, and gives back what it should return.
fn write(superseding: Superseding, part: &mut Buffer<u64>) -> u64 {
    match superseding {
        _ if part.lent < SUPERSEDING_LENGTH => SHORT,
        Superseding::Refused(number) => u64::from(number),
        Superseding::Records(numbers) => {
            part.places[..SUPERSEDING_LENGTH].copy_from_slice(&numbers);
            0
        }
    }
}

/// ctsim's records of the file that supersedes, and of the other. `None`: not both are whole.
fn whole_records<'a>(
    pairing: &Pairing,
    answers: &'a [Answer; 2],
    superseding: Superseding,
) -> Option<[&'a [Record]; 2]> {
    let mut files = pairing.files.iter();
    let whole = files.all(|file| file.damage == Damage::Whole);
    match (superseding, answers) {
        (Superseding::Records([file, ..]), [Answer::Ran(first), Answer::Ran(second)]) if whole => {
            let [first, second] = [&first.records[..], &second.records];
            let first_supersedes = file == 0;
            Some(if first_supersedes {
                [first, second]
            } else {
                [second, first]
            })
        }
        _ => None,
    }
}

fn begins_otherwise([these, others]: [&[Record]; 2]) -> Option<String> {
    let begins = these.starts_with(others);
    (!begins).then(|| "the other's records are not the beginning of these".into())
}
