//! The library's entries, as include/ctsim.h has them.

mod entries;
mod files;

use entries::{ctsim_draws, ctsim_read_packet, ctsim_write_packet};
use entries::{ctsim_preview_rows, ctsim_preview_topology, ctsim_run_rows, ctsim_run_topology};
use entries::{ctsim_sweep_rows, ctsim_sweep_topology};
use entries::{ctsim_validity_rows, ctsim_validity_topology};
pub use files::{file, file_check, file_sections, file_supersede, FileBuffers};
pub use files::{PARTS_LENGTH, SUPERSEDING_LENGTH};
use oracle::{Graph, Input};

pub const SUMMARY_LENGTH: usize = 17;
pub const LOGS_LENGTH: usize = 2080;
pub const RECORDS_LENGTH: usize = 192;
/// Numbers of one snapshot.
pub const SNAPSHOT_LENGTH: usize = 5;
pub const PART_LENGTH: usize = 1;

/// The first places are lent; those behind them are not the library's to write.
#[derive(Clone)]
pub struct Buffer<T> {
    pub places: Vec<T>,
    pub lent: usize,
}

const NOT_LENT: usize = 8;

impl<T: Clone> Buffer<T> {
    /// Every place holds the mark.
    pub fn new(lent: usize, mark: T) -> Self {
        let places = vec![mark; lent + NOT_LENT];
        Self { places, lent }
    }
}

#[derive(Clone)]
pub struct Buffers {
    pub summary: Buffer<u64>,
    pub logs: Buffer<u8>,
    pub records: Buffer<u64>,
    pub snapshots: Buffer<u64>,
}

/// What a preview writes to.
#[derive(Clone)]
pub struct PreviewBuffers {
    pub packet: Buffer<u64>,
    pub part: Buffer<u64>,
}

/// What a sweep writes to.
#[derive(Clone)]
pub struct SweepBuffers {
    pub table: Buffer<u64>,
    pub rounds: Buffer<u64>,
}

/// A packet and its text, of which one is given and the other is written.
#[derive(Clone)]
pub struct WireBuffers {
    pub packet: Buffer<u64>,
    pub text: Buffer<u8>,
    /// For the length of a text that is written, or the number of flags of one that is read.
    pub single: Buffer<u64>,
}

/// Whether round slots are given, and the round slots. `any` stands for two arguments that may be
/// any number: that round slots are given, where it is not 0, and round slots that are not given.
/// These are of any size, so that some would be below the repeats.
fn round_slots(input: &Input, any: u64) -> (u64, u64) {
    match input.round_slots {
        Some(slots) => (any.max(1), slots),
        None => (0, any >> (any % 64)),
    }
}

/// Runs the input, refused or not, and gives back what the entry returns. `any` is for
/// `round_slots`.
pub fn run(input: &Input, any: u64, buffers: &mut Buffers) -> u64 {
    let (given, round_slots) = round_slots(input, any);
    let loss = f64::from_bits(input.loss_rate);
    let Buffers {
        summary,
        logs,
        records,
        snapshots,
    } = buffers;
    match &input.graph {
        // Safety: each pointer is that of a vector with at least so many places.
        Graph::Topology {
            number,
            nodes,
            second,
        } => unsafe {
            ctsim_run_topology(
                *number,
                *nodes,
                *second,
                input.flood_repeats,
                given,
                round_slots,
                loss,
                input.seed,
                input.num_proposals,
                input.snapshot_interval,
                input.max_slots,
                summary.places.as_mut_ptr(),
                summary.lent,
                logs.places.as_mut_ptr(),
                logs.lent,
                records.places.as_mut_ptr(),
                records.lent,
                snapshots.places.as_mut_ptr(),
                snapshots.lent,
            )
        },
        // Safety: as above.
        Graph::Rows { nodes, rows } => unsafe {
            ctsim_run_rows(
                rows.as_ptr(),
                rows.len(),
                *nodes,
                input.flood_repeats,
                given,
                round_slots,
                loss,
                input.seed,
                input.num_proposals,
                input.snapshot_interval,
                input.max_slots,
                summary.places.as_mut_ptr(),
                summary.lent,
                logs.places.as_mut_ptr(),
                logs.lent,
                records.places.as_mut_ptr(),
                records.lent,
                snapshots.places.as_mut_ptr(),
                snapshots.lent,
            )
        },
    }
}

/// Previews a round of the input, refused or not, and gives back what the entry returns. `any` is
/// for `round_slots`.
pub fn preview(input: &Input, any: u64, round: u64, buffers: &mut PreviewBuffers) -> u64 {
    let (given, round_slots) = round_slots(input, any);
    let loss = f64::from_bits(input.loss_rate);
    let PreviewBuffers { packet, part } = buffers;
    match &input.graph {
        // Safety: each pointer is that of a vector with at least so many places.
        Graph::Topology {
            number,
            nodes,
            second,
        } => unsafe {
            ctsim_preview_topology(
                *number,
                *nodes,
                *second,
                input.flood_repeats,
                given,
                round_slots,
                loss,
                input.seed,
                input.num_proposals,
                input.snapshot_interval,
                input.max_slots,
                round,
                packet.places.as_mut_ptr(),
                packet.lent,
                part.places.as_mut_ptr(),
                part.lent,
            )
        },
        // Safety: as above.
        Graph::Rows { nodes, rows } => unsafe {
            ctsim_preview_rows(
                rows.as_ptr(),
                rows.len(),
                *nodes,
                input.flood_repeats,
                given,
                round_slots,
                loss,
                input.seed,
                input.num_proposals,
                input.snapshot_interval,
                input.max_slots,
                round,
                packet.places.as_mut_ptr(),
                packet.lent,
                part.places.as_mut_ptr(),
                part.lent,
            )
        },
    }
}

/// Sweeps these seeds with the input, refused or not, and gives back what the entry returns. The
/// input's own seed is not used. `any` is for `round_slots`.
pub fn sweep(input: &Input, any: u64, seeds: &[u64], buffers: &mut SweepBuffers) -> u64 {
    match &input.graph {
        Graph::Topology {
            number,
            nodes,
            second,
        } => sweep_topology([*number, *nodes, *second], input, any, seeds, buffers),
        Graph::Rows { nodes, rows } => sweep_rows(rows, *nodes, input, any, seeds, buffers),
    }
}

fn sweep_topology(
    [topology, first, second]: [u64; 3],
    input: &Input,
    any: u64,
    seeds: &[u64],
    buffers: &mut SweepBuffers,
) -> u64 {
    let (given, round_slots) = round_slots(input, any);
    let SweepBuffers { table, rounds } = buffers;
    // Safety: each pointer is that of a vector or a slice with at least so many places.
    unsafe {
        ctsim_sweep_topology(
            topology,
            first,
            second,
            input.flood_repeats,
            given,
            round_slots,
            f64::from_bits(input.loss_rate),
            input.num_proposals,
            input.snapshot_interval,
            input.max_slots,
            seeds.as_ptr(),
            seeds.len(),
            table.places.as_mut_ptr(),
            table.lent,
            rounds.places.as_mut_ptr(),
            rounds.lent,
        )
    }
}

fn sweep_rows(
    rows: &[u32],
    nodes: u64,
    input: &Input,
    any: u64,
    seeds: &[u64],
    buffers: &mut SweepBuffers,
) -> u64 {
    let (given, round_slots) = round_slots(input, any);
    let SweepBuffers { table, rounds } = buffers;
    // Safety: as above.
    unsafe {
        ctsim_sweep_rows(
            rows.as_ptr(),
            rows.len(),
            nodes,
            input.flood_repeats,
            given,
            round_slots,
            f64::from_bits(input.loss_rate),
            input.num_proposals,
            input.snapshot_interval,
            input.max_slots,
            seeds.as_ptr(),
            seeds.len(),
            table.places.as_mut_ptr(),
            table.lent,
            rounds.places.as_mut_ptr(),
            rounds.lent,
        )
    }
}

/// Asks for the validity of the input, and gives back what the entry returns. `any` is for
/// `round_slots`.
pub fn validity(input: &Input, any: u64) -> u64 {
    let (given, round_slots) = round_slots(input, any);
    let loss = f64::from_bits(input.loss_rate);
    match &input.graph {
        // Safety: there is no pointer.
        Graph::Topology {
            number,
            nodes,
            second,
        } => unsafe {
            ctsim_validity_topology(
                *number,
                *nodes,
                *second,
                input.flood_repeats,
                given,
                round_slots,
                loss,
                input.seed,
                input.num_proposals,
                input.snapshot_interval,
                input.max_slots,
            )
        },
        // Safety: the pointer is that of a vector with so many places.
        Graph::Rows { nodes, rows } => unsafe {
            ctsim_validity_rows(
                rows.as_ptr(),
                rows.len(),
                *nodes,
                input.flood_repeats,
                given,
                round_slots,
                loss,
                input.seed,
                input.num_proposals,
                input.snapshot_interval,
                input.max_slots,
            )
        },
    }
}

/// Writes a packet of so many flags, and gives back what the entry returns.
pub fn write_packet(flags: u64, buffers: &mut WireBuffers) -> u64 {
    let WireBuffers {
        packet,
        text,
        single,
    } = buffers;
    // Safety: each pointer is that of a vector with at least so many places.
    unsafe {
        ctsim_write_packet(
            packet.places.as_ptr(),
            packet.lent,
            flags,
            text.places.as_mut_ptr(),
            text.lent,
            single.places.as_mut_ptr(),
            single.lent,
        )
    }
}

/// Reads a text, and gives back what the entry returns.
pub fn read_packet(buffers: &mut WireBuffers) -> u64 {
    let WireBuffers {
        packet,
        text,
        single,
    } = buffers;
    // Safety: as above.
    unsafe {
        ctsim_read_packet(
            text.places.as_ptr(),
            text.lent,
            packet.places.as_mut_ptr(),
            packet.lent,
            single.places.as_mut_ptr(),
            single.lent,
        )
    }
}

/// Fills `out` with a seed's draws.
pub fn draws(seed: u64, out: &mut [u64]) {
    // Safety: the pointer and the length are those of one slice.
    let result = unsafe { ctsim_draws(seed, out.as_mut_ptr(), out.len()) };
    assert_eq!(result, 0, "draws are never refused");
}
