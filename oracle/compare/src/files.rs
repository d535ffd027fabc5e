//! Runs filed by the library, whose files are compared with those of ctsim's answers.

use crate::check::{differs, mark_of, result_differs, write_lists};
use crate::clock::processor_seconds;
use crate::file_checks::verdict_differs;
use crate::library::{self, Buffer, FileBuffers};
use crate::library::{LOGS_LENGTH, RECORDS_LENGTH, SNAPSHOT_LENGTH};
use oracle::archive::{layout, Verdict};
use oracle::{Answer, Filed, Filing};

/// What refuses a filing whose bytes are too few.
const TOO_SHORT: u8 = 18;
/// The library's numbers for buffers of the run that are too short, and for no place for the length.
const SHORT: u64 = 10;
const SHORT_WRITTEN: u64 = 100;

pub struct CheckedFiling {
    /// What the oracle tells of the filing as it was made.
    pub filed: Filed,
    /// The size of the library's file, where the line is accepted.
    pub size: Option<usize>,
    /// The first difference.
    pub difference: Option<String>,
    /// The library's processor time for one filing.
    pub seconds: f64,
}

/// Compares a filing with the library's; this is ctsim's answer to its input. The number fixes the
/// marks and the lengths of the buffers.
pub fn check(filing: &Filing, answer: &Answer, number: u64) -> CheckedFiling {
    let mark = mark_of(number);
    let filed = filing.filed(answer);
    let mut asked = Asked::of(filing, answer, mark);
    // Each accepted run has a file, also where the filing's own bytes are too few.
    if filed == Filed::Refused(TOO_SHORT) && asked.difference.is_none() {
        asked = Asked::of(&fitting(filing, answer), answer, mark);
    }
    let Asked { file, seconds, .. } = asked;
    let difference = panicked(answer)
        .or(asked.difference)
        .or_else(|| short_differs(filing, answer, mark))
        .or_else(|| file_differs(file.as_ref()?, mark));
    CheckedFiling {
        filed,
        size: file.map(|file| file.len()),
        difference,
        seconds,
    }
}

fn panicked(answer: &Answer) -> Option<String> {
    match answer {
        Answer::Panicked(message) => Some(format!("ctsim panicked: {message}")),
        _ => None,
    }
}

/// The same with as many bytes as the file has.
fn fitting(filing: &Filing, answer: &Answer) -> Filing {
    let most = Filing {
        length: u64::MAX,
        ..filing.clone()
    };
    match most.filed(answer) {
        Filed::File(file) => Filing {
            length: file.len() as u64,
            ..most
        },
        _ => most,
    }
}

struct Asked {
    /// The first difference.
    difference: Option<String>,
    /// The library's, if there is to be one.
    file: Option<Vec<u8>>,
    /// The library's processor time.
    seconds: f64,
}

impl Asked {
    fn of(filing: &Filing, answer: &Answer, mark: u64) -> Self {
        let before = marked(filing, mark);
        let (mut expected, mut found) = (before.clone(), before);
        let result = write(filing, answer, &mut expected);
        let start = processor_seconds();
        let returned = library::file(&filing.input, mark, &mut found);
        let seconds = processor_seconds() - start;
        let size = expected.written.places[0] as usize;
        Self {
            difference: result_differs("result", result, returned)
                .or_else(|| contents_differ(&expected, &found)),
            file: (result == 0).then(|| found.file.places[..size].to_vec()),
            seconds,
        }
    }
}

/// Buffers full of marks: the bytes that the filing lends, room for its snapshots and none, or a part
/// of one more, and the others as long as needed or longer.
fn marked(filing: &Filing, mark: u64) -> FileBuffers {
    let bits = |from: u32, count: u32| (mark >> from & ((1 << count) - 1)) as usize;
    let part = bits(24, 8) % SNAPSHOT_LENGTH;
    FileBuffers {
        logs: Buffer::new(LOGS_LENGTH + bits(57, 1) * bits(16, 4), mark as u8),
        records: Buffer::new(RECORDS_LENGTH + bits(56, 1) * bits(20, 4), mark),
        snapshots: Buffer::new(SNAPSHOT_LENGTH * filing.room as usize + part, mark),
        file: Buffer::new(filing.length as usize, (mark >> 8) as u8),
        written: Buffer::new(1 + bits(58, 1) * bits(12, 4), mark),
    }
}

/// Writes where the library should, and gives back what it should return.
fn write(filing: &Filing, answer: &Answer, buffers: &mut FileBuffers) -> u64 {
    let FileBuffers {
        logs,
        records,
        snapshots,
        file,
        written,
    } = buffers;
    match (filing.filed(answer), answer) {
        (Filed::Refused(number), _) => u64::from(number),
        (Filed::File(bytes), Answer::Ran(run)) => {
            write_lists(run, logs, records, snapshots);
            file.places[..bytes.len()].copy_from_slice(&bytes);
            written.places[0] = bytes.len() as u64;
            0
        }
        _ => 0,
    }
}

fn contents_differ(expected: &FileBuffers, found: &FileBuffers) -> Option<String> {
    differs("file", &expected.file.places, &found.file.places)
        .or_else(|| differs("written", &expected.written.places, &found.written.places))
        .or_else(|| differs("records", &expected.records.places, &found.records.places))
        .or_else(|| differs("logs", &expected.logs.places, &found.logs.places))
        .or_else(|| {
            let (expected, found) = (&expected.snapshots, &found.snapshots);
            differs("snapshots", &expected.places, &found.places)
        })
}

/// The same filing with one buffer too short. 10 is asked behind the line's questions and before 18,
/// 100 first of all.
fn short_differs(filing: &Filing, answer: &Answer, mark: u64) -> Option<String> {
    let mut expected = marked(filing, mark);
    let refusal = match answer {
        Answer::Refused(number) => u64::from(*number),
        _ => SHORT,
    };
    let less = |length: usize| (mark >> 24) as usize % length;
    let result = match mark >> 32 & 3 {
        0 => {
            expected.written.lent = 0;
            SHORT_WRITTEN
        }
        1 => {
            expected.records.lent = less(RECORDS_LENGTH);
            refusal
        }
        _ => {
            expected.logs.lent = less(LOGS_LENGTH);
            refusal
        }
    };
    let mut found = expected.clone();
    let returned = library::file(&filing.input, mark, &mut found);
    let difference = result_differs("result", result, returned)
        .or_else(|| contents_differ(&expected, &found))?;
    Some(format!("with a short buffer: {difference}"))
}

/// The library's file, which the oracle has made too: the check has to say yes.
fn file_differs(file: &[u8], mark: u64) -> Option<String> {
    let Some(directory) = layout(file) else {
        return Some("the file breaks the layout".into());
    };
    let yes = true;
    verdict_differs(file, &Verdict::Read { yes, directory }, mark)
}
