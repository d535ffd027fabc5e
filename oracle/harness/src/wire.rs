//! Packets on the wire (request L2): which packets have a text, and the texts by ctsim itself.

use crate::input::decimal;
use crate::round::{numbers, PACKET_LENGTH};
use ctsim::protocol::paxos::{deserialize_packet, serialize_packet, PaxosPacket};

/// Every term is below this.
const TERMS: u64 = 64;
const MAX_FLAGS: u64 = 32;

/// A packet's numbers, as `Round` has them, with the number of its flags.
#[derive(Debug, Clone, Copy, PartialEq, Eq)]
pub struct Packet {
    pub flags: u64,
    pub numbers: [u64; PACKET_LENGTH],
}

impl Packet {
    /// The packet's text. `None`: it has none, refusal 14.
    pub fn write(&self) -> Option<Vec<u8>> {
        let packet = self.to_ctsim().filter(has_text)?;
        Some(serialize_packet(&packet))
    }

    /// The packet that has this text. `None`: there is none, refusal 14.
    pub fn read(text: &[u8]) -> Option<Self> {
        let packet = deserialize_packet(text).filter(has_text)?;
        // ctsim takes more texts of a packet than the one that it makes.
        (serialize_packet(&packet) == text).then(|| Self {
            flags: packet.flags_bitmap.len() as u64,
            numbers: numbers(&packet),
        })
    }

    /// Whether ctsim reads this very packet from a text.
    pub fn is_read_by_ctsim(&self, text: &[u8]) -> bool {
        let read = deserialize_packet(text);
        let both = self.to_ctsim().zip(read);
        both.is_some_and(|(packet, read)| same(&packet, &read))
    }

    /// 14 decimals with single blanks between them, the number of flags first.
    pub(crate) fn parse(fields: &str) -> Option<Self> {
        let fields: Option<Vec<u64>> = fields.split(' ').map(decimal).collect();
        let [flags, numbers @ ..] = <[u64; PACKET_LENGTH + 1]>::try_from(fields?).ok()?;
        Some(Self { flags, numbers })
    }

    /// As ctsim has it. `None`: the numbers are not well formed, or the flags are too many.
    pub(crate) fn to_ctsim(self) -> Option<PaxosPacket> {
        let [sender, current_term, set, terms @ ..] = self.numbers;
        let [nack, last_accepted_term, data, piggyback_term, piggyback_data] = given(&terms)?;
        let flags_fit = self.flags <= MAX_FLAGS && set >> self.flags == 0;
        if !flags_fit || nack == Some(0) {
            return None;
        }
        Some(PaxosPacket {
            current_term,
            last_accepted_term,
            flags_bitmap: (0..self.flags).map(|i| set >> i & 1 == 1).collect(),
            nack_term: nack.unwrap_or(0),
            sender: sender as usize,
            proposal_data: data.map_or(Vec::new(), data_of),
            piggyback_term,
            piggyback_data: piggyback_data.map_or(Vec::new(), data_of),
        })
    }
}

/// Whether ctsim reads any packet from a text.
pub fn is_taken_by_ctsim(text: &[u8]) -> bool {
    deserialize_packet(text).is_some()
}

/// Five times whether there is a term, 0 or 1, and the term, 0 if there is none.
fn given(places: &[u64; 10]) -> Option<[Option<u64>; 5]> {
    let mut terms = [None; 5];
    for (term, places) in terms.iter_mut().zip(places.chunks_exact(2)) {
        *term = match *places {
            [0, 0] => None,
            [1, term] => Some(term),
            _ => return None,
        };
    }
    Some(terms)
}

/// The rule: what is to hold of a packet that has a text.
fn has_text(packet: &PaxosPacket) -> bool {
    let flags = packet.flags_bitmap.len() as u64;
    let terms = [
        Some(packet.current_term),
        packet.last_accepted_term,
        Some(packet.nack_term),
        packet.piggyback_term,
    ];
    (2..=MAX_FLAGS).contains(&flags)
        && (packet.sender as u64) < flags
        && terms.iter().flatten().all(|term| *term < TERMS)
        && are_data(&packet.proposal_data, Some(packet.current_term))
        && are_data(&packet.piggyback_data, packet.piggyback_term)
}

/// Whether the bytes are none or the data of that term, and none where there is no term.
fn are_data(bytes: &[u8], term: Option<u64>) -> bool {
    bytes.is_empty() || term.is_some_and(|term| bytes == data_of(term))
}

pub(crate) fn data_of(term: u64) -> Vec<u8> {
    format!("tx{term}").into_bytes()
}

fn same(packet: &PaxosPacket, other: &PaxosPacket) -> bool {
    let PaxosPacket {
        current_term,
        last_accepted_term,
        flags_bitmap,
        nack_term,
        sender,
        proposal_data,
        piggyback_term,
        piggyback_data,
    } = packet;
    *current_term == other.current_term
        && *last_accepted_term == other.last_accepted_term
        && *flags_bitmap == other.flags_bitmap
        && *nack_term == other.nack_term
        && *sender == other.sender
        && *proposal_data == other.proposal_data
        && *piggyback_term == other.piggyback_term
        && *piggyback_data == other.piggyback_data
}
