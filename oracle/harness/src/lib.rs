//! ctsim, asked by lines of the program's form or of the rows form, for a run, one of its rounds, a
//! sweep of many seeds, the configuration's validity, an archive file, the check of one or which of two
//! supersedes, and by lines for a packet's text or a text's packet.

mod answer;
pub mod archive;
mod filing;
mod generate;
mod input;
mod line;
mod listing;
mod pairing;
mod preview;
mod round;
mod sweep;
mod validity;
mod wire;

pub use answer::{answer, reference, reference_difference, run};
pub use answer::{Answer, Pending, Record, Summary, TOTALS_LENGTH};
pub use ctsim::protocol::paxos::{deserialize_packet, serialize_packet};
pub use filing::{Checking, Damage, Filed, Filing};
pub use generate::{broken, previews, random, random_answered, small};
pub use generate::{checkings, file_lines, filings, reshaped_files, reshapings, Reshaped};
pub use generate::{damaged_texts, damages, faults, near_packets, packet_lines, packets, Taken};
pub use generate::{pair_lines, pairings, sweep_lines, sweeps, validities};
pub use input::{Graph, Input};
pub use line::Line;
pub use pairing::{Paired, Pairing};
pub use preview::Preview;
pub use round::{place, Round, PACKET_LENGTH};
pub use sweep::{Sweep, Swept, MAX_SEEDS, SWEPT_LENGTH};
pub use validity::Validity;
pub use wire::{is_taken_by_ctsim, Packet};
