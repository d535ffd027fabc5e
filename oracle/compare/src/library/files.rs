//! Archive files: the writer, the reader of their directory, the check, and which of two supersedes.

use super::entries::{ctsim_file_check, ctsim_file_sections};
use super::entries::{ctsim_file_supersede, ctsim_file_topology};
use super::{round_slots, Buffer};
use oracle::{Graph, Input};

/// Offset and length of each section.
pub const PARTS_LENGTH: usize = 10;
/// Which of two files, and offset and length of its part.
pub const SUPERSEDING_LENGTH: usize = 3;

/// What a filing writes to.
#[derive(Clone)]
pub struct FileBuffers {
    pub logs: Buffer<u8>,
    pub records: Buffer<u64>,
    pub snapshots: Buffer<u64>,
    pub file: Buffer<u8>,
    /// For the length of the file.
    pub written: Buffer<u64>,
}

/// Runs and files the input, refused or not, and gives back what the entry returns. The input is of a
/// topology. `any` is for `round_slots`.
pub fn file(input: &Input, any: u64, buffers: &mut FileBuffers) -> u64 {
    let Graph::Topology {
        number,
        nodes,
        second,
    } = input.graph
    else {
        panic!("a run of rows is not filed");
    };
    let (given, round_slots) = round_slots(input, any);
    let FileBuffers {
        logs,
        records,
        snapshots,
        file,
        written,
    } = buffers;
    // Safety: each pointer is that of a vector with at least so many places.
    unsafe {
        ctsim_file_topology(
            number,
            nodes,
            second,
            input.flood_repeats,
            given,
            round_slots,
            f64::from_bits(input.loss_rate),
            input.seed,
            input.num_proposals,
            input.snapshot_interval,
            input.max_slots,
            logs.places.as_mut_ptr(),
            logs.lent,
            records.places.as_mut_ptr(),
            records.lent,
            snapshots.places.as_mut_ptr(),
            snapshots.lent,
            file.places.as_mut_ptr(),
            file.lent,
            written.places.as_mut_ptr(),
            written.lent,
        )
    }
}

/// Reads a file's directory, and gives back what the entry returns.
pub fn file_sections(file: &[u8], parts: &mut Buffer<u64>) -> u64 {
    // Safety: each pointer is that of a slice or a vector with at least so many places.
    unsafe {
        ctsim_file_sections(
            file.as_ptr(),
            file.len(),
            parts.places.as_mut_ptr(),
            parts.lent,
        )
    }
}

/// Checks a file, and gives back what the entry returns.
pub fn file_check(file: &[u8]) -> u64 {
    // Safety: the pointer and the length are those of one slice.
    unsafe { ctsim_file_check(file.as_ptr(), file.len()) }
}

/// Asks which of two files supersedes, and gives back what the entry returns.
pub fn file_supersede(first: &[u8], second: &[u8], part: &mut Buffer<u64>) -> u64 {
    // Safety: each pointer is that of a slice or a vector with at least so many places.
    unsafe {
        ctsim_file_supersede(
            first.as_ptr(),
            first.len(),
            second.as_ptr(),
            second.len(),
            part.places.as_mut_ptr(),
            part.lent,
        )
    }
}
