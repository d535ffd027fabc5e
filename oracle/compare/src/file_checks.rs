//! Files checked by the library and by the oracle.

use crate::check::{differs, mark_of, result_differs};
use crate::clock::processor_seconds;
use crate::library::{self, Buffer, PARTS_LENGTH};
use oracle::archive::{self, Verdict};
use oracle::{Answer, Checking, Filed, Reshaped};

/// The library's numbers for a file that passes, for one that does not, for one that breaks the layout
/// and for too few places.
const YES: u64 = 0;
const NO: u64 = 102;
const BROKEN: u64 = 17;
const SHORT: u64 = 100;

pub struct CheckedFile {
    pub size: usize,
    pub verdict: Verdict,
    /// The first difference.
    pub difference: Option<String>,
    /// The library's processor time.
    pub seconds: f64,
}

/// Compares the check of a damaged file; this is ctsim's answer to the file's input. `None`: the line
/// is refused, so that there is no file.
pub fn check(checking: &Checking, answer: &Answer, number: u64) -> Option<CheckedFile> {
    match checking.damaged(answer) {
        Filed::File(file) => Some(checked(&file, number)),
        _ => None,
    }
}

/// Compares the check of a file that was put together anew, which is to come out as listed.
pub fn check_reshaped(file: &[u8], listed: Reshaped, number: u64) -> CheckedFile {
    let checked = checked(file, number);
    let as_listed = match checked.verdict {
        Verdict::Read { yes, .. } => yes == (listed == Reshaped::Yes),
        _ => listed == Reshaped::Broken,
    };
    let unlike = (!as_listed).then(|| format!("the oracle says {}", checked.verdict));
    CheckedFile {
        difference: checked.difference.or(unlike),
        ..checked
    }
}

/// The number fixes the marks.
fn checked(file: &[u8], number: u64) -> CheckedFile {
    let verdict = archive::check(file);
    let start = processor_seconds();
    let difference = verdict_differs(file, &verdict, mark_of(number));
    let seconds = processor_seconds() - start;
    CheckedFile {
        size: file.len(),
        verdict,
        difference,
        seconds,
    }
}

/// Compares what the library says of a file with what the oracle says: by the check, and by the reader
/// with places enough and too few.
pub fn verdict_differs(file: &[u8], verdict: &Verdict, mark: u64) -> Option<String> {
    let (check, result) = match verdict {
        Verdict::Refused(number) => (u64::from(*number), BROKEN),
        Verdict::Read { yes: true, .. } => (YES, 0),
        Verdict::Read { .. } => (NO, 0),
        Verdict::Panicked(message) => return Some(format!("ctsim panicked: {message}")),
    };
    let mut expected = Buffer::new(PARTS_LENGTH + (mark >> 40 & 15) as usize, mark);
    let before = expected.clone();
    if let Verdict::Read { directory, .. } = verdict {
        expected.places[..PARTS_LENGTH].copy_from_slice(directory.as_flattened());
    }
    let mut short = before.clone();
    short.lent = (mark >> 24) as usize % PARTS_LENGTH;
    result_differs("check", check, library::file_check(file))
        .or_else(|| sections_differ(file, before, result, &expected))
        .or_else(|| sections_differ(file, short.clone(), SHORT, &short))
}

/// The library should return that result and leave the places as expected.
fn sections_differ(
    file: &[u8],
    mut found: Buffer<u64>,
    result: u64,
    expected: &Buffer<u64>,
) -> Option<String> {
    let returned = library::file_sections(file, &mut found);
    result_differs("sections", result, returned)
        .or_else(|| differs("sections", &expected.places, &found.places))
}
