//! The archive file (request L7): made of ctsim's answer, read by its layout, and checked by a run of
//! its first section. Of two files, which supersedes (request L8).

use crate::answer::{run, Answer, Summary};
use crate::input::{Graph, Input};

/// Inputs, totals, records, snapshots and logs.
pub const SECTIONS: usize = 5;

/// Offset and length of each section.
pub type Directory = [[u64; 2]; SECTIONS];

/// Where the first section starts: behind the first byte and the directory.
pub const FIRST_OFFSET: usize = 41;
const FIRST_BYTE: u8 = 5;

const INPUTS_SIZE: u64 = 80;
const TOTALS_SIZE: u64 = 120;
/// Of one record, and of one snapshot.
pub const RECORD_SIZE: u64 = 24;
pub const SNAPSHOT_SIZE: u64 = 40;
const LOGS_SIZE: u64 = 2080;

/// In the log buffer a node's terms start at its number times this, and the counts here.
const TERMS_SIZE: usize = 64;
const COUNTS_AT: usize = 2048;

/// What stands for absent round slots.
const ABSENT: u64 = u64::MAX;

/// In the first section the slot limit starts here, behind the other nine fields.
const LIMIT_AT: usize = 72;

/// The file breaks the layout.
const BROKEN_LAYOUT: u8 = 17;
/// The fields of two files, but for the slot limit, differ in a byte.
const OTHER_FIELDS: u8 = 19;

/// What is told of a file by a run of its first section.
#[derive(Debug, Clone, PartialEq, Eq)]
pub enum Verdict {
    /// 17, or what refuses the line that the file was to be made of.
    Refused(u8),
    /// The layout is kept.
    Read {
        /// Whether the run gives the other four sections.
        yes: bool,
        directory: Directory,
    },
    /// The Rust's message.
    Panicked(String),
}

/// What is told of two files.
#[derive(Debug, Clone, Copy, PartialEq, Eq)]
pub enum Superseding {
    /// 17 or 19, and an empty part of the first file.
    Refused(u8),
    /// The file that supersedes, 0 for the first and 1 for the second, and offset and length of its
    /// records.
    Records([u64; 3]),
}

impl Summary {
    /// The file of this run, which is that of the input, with room for so many snapshots. The input is
    /// of a topology.
    pub fn file(&self, input: &Input, room: u64) -> Vec<u8> {
        let [totals, records, snapshots, logs] = self.sections(room);
        file_of(&[bytes_of(fields(input)), totals, records, snapshots, logs])
    }

    /// The sections behind the inputs.
    fn sections(&self, room: u64) -> [Vec<u8>; SECTIONS - 1] {
        let records = self.records.iter().flat_map(|r| [r.id, r.start, r.end]);
        let snapshots = self.snapshots.iter().take(room as usize).flatten();
        [
            bytes_of(self.totals()),
            bytes_of(records),
            bytes_of(snapshots.copied()),
            self.log_buffer(),
        ]
    }

    /// Unused bytes are 0.
    fn log_buffer(&self) -> Vec<u8> {
        let mut bytes = vec![0; LOGS_SIZE as usize];
        for (i, log) in self.logs.iter().enumerate() {
            bytes[COUNTS_AT + i] = log.len() as u8;
            for (byte, term) in bytes[TERMS_SIZE * i..].iter_mut().zip(log) {
                *byte = *term as u8;
            }
        }
        bytes
    }
}

/// The file of these sections, whatever their lengths are.
pub fn file_of(sections: &[Vec<u8>; SECTIONS]) -> Vec<u8> {
    let mut offset = FIRST_OFFSET;
    let mut file = vec![FIRST_BYTE];
    for section in sections {
        for number in [offset, section.len()] {
            let number = u32::try_from(number).expect("no run is as long");
            file.extend(number.to_le_bytes());
        }
        offset += section.len();
    }
    file.extend(sections.concat());
    file
}

/// The directory of a file that keeps the layout. `None`: it breaks it, refusal 17.
pub fn layout(file: &[u8]) -> Option<Directory> {
    let directory = read_directory(file)?;
    let mut end = FIRST_OFFSET as u64;
    for [offset, length] in directory {
        if offset != end {
            return None;
        }
        end += length;
    }
    let [inputs, totals, records, snapshots, logs] = directory.map(|[_, length]| length);
    let lengths_fit = inputs == INPUTS_SIZE
        && totals == TOTALS_SIZE
        && records.is_multiple_of(RECORD_SIZE)
        && snapshots.is_multiple_of(SNAPSHOT_SIZE)
        && logs == LOGS_SIZE;
    let kept = file[0] == FIRST_BYTE && lengths_fit && end == file.len() as u64;
    kept.then_some(directory)
}

/// The numbers behind the first byte. `None`: the file ends before.
fn read_directory(file: &[u8]) -> Option<Directory> {
    let bytes = file.get(1..FIRST_OFFSET)?;
    let mut directory = [[0; 2]; SECTIONS];
    let places = directory.as_flattened_mut().iter_mut();
    for (place, bytes) in places.zip(bytes.chunks_exact(4)) {
        *place = number(bytes);
    }
    Some(directory)
}

/// The sections that a directory names.
pub fn sections<'a>(file: &'a [u8], directory: &Directory) -> [&'a [u8]; SECTIONS] {
    directory.map(|[offset, length]| &file[offset as usize..][..length as usize])
}

/// Says whether running the first section afresh, with as many snapshots stored, gives the other four.
pub fn check(file: &[u8]) -> Verdict {
    let Some(directory) = layout(file) else {
        return Verdict::Refused(BROKEN_LAYOUT);
    };
    let [inputs, others @ ..] = sections(file, &directory);
    let stored = directory[3][1] / SNAPSHOT_SIZE;
    let yes = match run(&input_of(inputs)) {
        Answer::Refused(_) => false,
        Answer::Ran(run) => others == run.sections(stored),
        Answer::Panicked(message) => return Verdict::Panicked(message),
    };
    Verdict::Read { yes, directory }
}

/// Says which of two files supersedes: of two that agree in all fields but the slot limit, the one with
/// the larger limit, and the first at equal limits. Nothing is run.
pub fn supersede(first: &[u8], second: &[u8]) -> Superseding {
    let (Some(of_first), Some(of_second)) = (layout(first), layout(second)) else {
        return Superseding::Refused(BROKEN_LAYOUT);
    };
    let [inputs, ..] = sections(first, &of_first);
    let [others, ..] = sections(second, &of_second);
    let (fields, limit) = inputs.split_at(LIMIT_AT);
    let (other_fields, other_limit) = others.split_at(LIMIT_AT);
    if fields != other_fields {
        return Superseding::Refused(OTHER_FIELDS);
    }
    let (file, directory) = if number(limit) < number(other_limit) {
        (1, of_second)
    } else {
        (0, of_first)
    };
    let [_, _, [offset, length], ..] = directory;
    Superseding::Records([file, offset, length])
}

/// The ten input fields.
fn fields(input: &Input) -> [u64; 10] {
    let Graph::Topology {
        number,
        nodes,
        second,
    } = input.graph
    else {
        panic!("a run of rows is not filed");
    };
    [
        number,
        nodes,
        second,
        input.flood_repeats,
        input.round_slots.unwrap_or(ABSENT),
        input.loss_rate,
        input.seed,
        input.num_proposals,
        input.snapshot_interval,
        input.max_slots,
    ]
}

/// The input that a first section asks to run, refused or not.
pub fn input_of(section: &[u8]) -> Input {
    let field = |i: usize| number(&section[8 * i..][..8]);
    Input {
        graph: Graph::Topology {
            number: field(0),
            nodes: field(1),
            second: field(2),
        },
        flood_repeats: field(3),
        round_slots: Some(field(4)).filter(|slots| *slots != ABSENT),
        loss_rate: field(5),
        seed: field(6),
        num_proposals: field(7),
        snapshot_interval: field(8),
        max_slots: field(9),
    }
}

/// Eight bytes a number, the lowest first.
fn bytes_of(numbers: impl IntoIterator<Item = u64>) -> Vec<u8> {
    numbers.into_iter().flat_map(u64::to_le_bytes).collect()
}

/// The number of up to eight bytes, the lowest first.
fn number(bytes: &[u8]) -> u64 {
    let high_first = bytes.iter().rev();
    high_first.fold(0, |number, byte| number << 8 | u64::from(*byte))
}
