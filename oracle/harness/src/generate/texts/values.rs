//! Texts as ctsim makes them, of packets that have none here.

use super::Source;
use crate::wire::data_of;
use ctsim::protocol::paxos::{serialize_packet, PaxosPacket};
use rand::RngCore;

impl Source {
    /// ctsim's text of a packet that has one, after the change.
    fn text_with(&mut self, change: impl FnOnce(&mut Self, &mut PaxosPacket)) -> Vec<u8> {
        let packet = self.packet().to_ctsim();
        let mut packet = packet.expect("the packet has a text");
        change(self, &mut packet);
        serialize_packet(&packet)
    }

    pub(super) fn text_of_too_few_flags(&mut self) -> Vec<u8> {
        self.text_with(|source, packet| {
            packet.flags_bitmap.truncate(source.index(2));
            packet.sender = 0;
        })
    }

    pub(super) fn text_of_too_many_flags(&mut self) -> Vec<u8> {
        self.text_with(|source, packet| {
            let flags = source.pick(&[33, 33, 34, 63, 64, 65, 256]);
            packet.flags_bitmap.resize(flags, source.below(2) == 1);
        })
    }

    pub(super) fn text_of_sender_beyond(&mut self) -> Vec<u8> {
        self.text_with(|source, packet| {
            let flags = packet.flags_bitmap.len();
            let wide = packet.sender + (1 << 32);
            packet.sender = source.pick(&[flags, flags, flags + 1, wide, usize::MAX]);
        })
    }

    /// One of the four, with its data where it has any.
    pub(super) fn text_of_term_beyond(&mut self) -> Vec<u8> {
        self.text_with(|source, packet| {
            let term = source.term_beyond();
            let own = |data: &mut Vec<u8>| {
                if !data.is_empty() {
                    *data = data_of(term);
                }
            };
            match source.below(4) {
                0 => {
                    packet.current_term = term;
                    own(&mut packet.proposal_data);
                }
                1 => packet.last_accepted_term = Some(term),
                2 => packet.nack_term = term,
                _ => {
                    packet.piggyback_term = Some(term);
                    own(&mut packet.piggyback_data);
                }
            }
        })
    }

    pub(super) fn text_of_data_of_another_term(&mut self) -> Vec<u8> {
        self.text_with(|source, packet| {
            packet.proposal_data = data_of(source.another_term(packet.current_term));
        })
    }

    pub(super) fn text_of_piggyback_data_of_another_term(&mut self) -> Vec<u8> {
        self.text_with(|source, packet| {
            let term = source.term();
            packet.piggyback_term = Some(term);
            packet.piggyback_data = data_of(source.another_term(term));
        })
    }

    pub(super) fn text_of_piggyback_data_alone(&mut self) -> Vec<u8> {
        self.text_with(|source, packet| {
            packet.piggyback_term = None;
            packet.piggyback_data = data_of(source.term());
        })
    }

    pub(super) fn text_of_data_of_no_term(&mut self) -> Vec<u8> {
        self.text_with(|source, packet| {
            if source.below(2) == 0 {
                packet.proposal_data = source.no_data(packet.current_term);
            } else {
                let term = source.term();
                packet.piggyback_term = Some(term);
                packet.piggyback_data = source.no_data(term);
            }
        })
    }

    /// Bytes that are like the data of the term.
    fn no_data(&mut self, term: u64) -> Vec<u8> {
        let (any, data) = (self.draws.next_u64().to_le_bytes(), data_of(term));
        let all_but_last = &data[..data.len() - 1];
        match self.below(10) {
            0 => b"tx".into(),
            1 => b"t".into(),
            2 => all_but_last.into(),
            3 => format!("tx0{term}").into_bytes(),
            4 => format!("tx+{term}").into_bytes(),
            5 => format!("TX{term}").into_bytes(),
            6 => format!("tx{term}0").into_bytes(),
            7 => format!("tx{term}\0").into_bytes(),
            8 => term.to_string().into_bytes(),
            _ => any[..1 + self.index(8)].into(),
        }
    }
}
