//! What is seen of one round of ctsim's run.

use ctsim::protocol::paxos::PaxosPacket;
use ctsim::sim::paxos_pipeline::harness::SeenRound;

/// Numbers of a packet.
pub const PACKET_LENGTH: usize = 13;

/// Places of a packet's numbers: the sender, the current term and the flags; then the NACK, the last
/// accepted term, proposal data, the piggyback and its data, each of which is given, 1, or not, 0. The
/// term of such a one stands behind it, 0 if it is not given.
pub mod place {
    pub const SENDER: usize = 0;
    pub const TERM: usize = 1;
    pub const FLAGS: usize = 2;
    pub const NACK: usize = 3;
    pub const LAST_ACCEPTED: usize = 5;
    pub const DATA: usize = 7;
    pub const PIGGYBACK: usize = 9;
    pub const PIGGYBACK_DATA: usize = 11;
    pub const GIVEN: [usize; 5] = [NACK, LAST_ACCEPTED, DATA, PIGGYBACK, PIGGYBACK_DATA];
}

#[derive(Debug, Clone, PartialEq, Eq)]
pub struct Round {
    /// Its first slot.
    pub start: u64,
    /// As `place` has its numbers.
    pub packet: [u64; PACKET_LENGTH],
    /// The set of the nodes that took part.
    pub part: u64,
}

impl Round {
    pub(crate) fn of(seen: &SeenRound) -> Self {
        let SeenRound {
            start,
            packet,
            took_part,
        } = seen;
        let (flags, nodes) = (packet.flags_bitmap.len(), took_part.len());
        assert_eq!(flags, nodes, "flags are as many as nodes");
        Self {
            start: *start,
            packet: numbers(packet),
            part: set(took_part).into(),
        }
    }
}

pub(crate) fn numbers(packet: &PaxosPacket) -> [u64; PACKET_LENGTH] {
    // The comment at ctsim's field has it that 0 is none.
    let nack = (packet.nack_term > 0).then_some(packet.nack_term);
    let terms = [
        nack,
        packet.last_accepted_term,
        term_of(&packet.proposal_data),
        packet.piggyback_term,
        term_of(&packet.piggyback_data),
    ];
    let flags = set(&packet.flags_bitmap).into();
    placed([packet.sender as u64, packet.current_term, flags], terms)
}

/// The numbers in their places: sender, current term and flags, then the five terms.
pub(crate) fn placed(first: [u64; 3], terms: [Option<u64>; 5]) -> [u64; PACKET_LENGTH] {
    let mut numbers = [0; PACKET_LENGTH];
    numbers[..3].copy_from_slice(&first);
    for (at, term) in place::GIVEN.into_iter().zip(terms) {
        numbers[at..][..2].copy_from_slice(&term.map_or([0, 0], |term| [1, term]));
    }
    numbers
}

/// The term whose data these are, by the data alone. `None`: there are none.
fn term_of(data: &[u8]) -> Option<u64> {
    if data.is_empty() {
        return None;
    }
    let text = String::from_utf8_lossy(data);
    let read = text.strip_prefix("tx").and_then(|term| term.parse().ok());
    let term = read.filter(|term: &u64| text == format!("tx{term}"));
    Some(term.unwrap_or_else(|| panic!("data of no term: {text}")))
}

/// The places that are true, bit i for place i.
pub(crate) fn set(members: &[bool]) -> u32 {
    let members = members.iter().enumerate().filter(|(_, member)| **member);
    members.fold(0, |set, (i, _)| set | 1 << i)
}

#[cfg(test)]
mod tests {
    use super::*;

    #[test]
    fn data_tell_their_term() {
        assert_eq!(term_of(b""), None);
        assert_eq!(term_of(b"tx0"), Some(0));
        assert_eq!(term_of(b"tx63"), Some(63));
        for data in ["tx", "tx01", "tx+1", "tx1 ", "1", "Tx1"] {
            let read = std::panic::catch_unwind(|| term_of(data.as_bytes()));
            assert!(read.is_err(), "{data}: {read:?}");
        }
    }
}
