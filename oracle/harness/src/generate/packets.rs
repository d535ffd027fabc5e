//! Packets that have a text, packets that miss it by a step, and lines `packet ..` and `text ..`.

use super::texts::DAMAGES;
use super::Source;
use crate::answer::{run, Answer};
use crate::round::place::{
    DATA, FLAGS, GIVEN, LAST_ACCEPTED, NACK, PIGGYBACK, PIGGYBACK_DATA, SENDER, TERM,
};
use crate::round::{placed, Round};
use crate::wire::Packet;
use rand::RngCore;

type Fault = fn(&mut Source, &mut Packet);

/// What spoils a packet that has a text, each by its name.
#[rustfmt::skip]
const FAULTS: [(&str, Fault); 14] = [
    ("0 or 1 flags", Source::too_few_flags),
    ("33 flags or more", Source::too_many_flags),
    ("sender at or above the number of flags", Source::sender_beyond),
    ("a flag at or above the number of flags", Source::flag_beyond),
    ("current term 64 or above", Source::current_term_beyond),
    ("NACK of term 64 or above", Source::nack_beyond),
    ("last accepted term 64 or above", Source::last_accepted_beyond),
    ("piggyback of term 64 or above", Source::piggyback_beyond),
    ("proposal data of another term", Source::data_of_another_term),
    ("piggyback's data of another term", Source::piggyback_data_of_another_term),
    ("piggyback's data, no piggyback", Source::piggyback_data_alone),
    ("given neither 0 nor 1", Source::given_otherwise),
    ("a term that is not given", Source::term_not_given),
    ("NACK given with term 0", Source::nack_of_term_0),
];

/// The names of the faults.
pub fn faults() -> Vec<&'static str> {
    FAULTS.iter().map(|(name, _)| *name).collect()
}

/// Packets without end that have a text.
pub fn packets(seed: u64) -> impl Iterator<Item = Packet> {
    let mut source = Source::new(seed);
    std::iter::from_fn(move || Some(source.packet()))
}

/// Packets without end that have none, by each of the faults in turn, whose number comes first.
pub fn near_packets(seed: u64) -> impl Iterator<Item = (usize, Packet)> {
    let mut source = Source::new(seed);
    let faults = (0..FAULTS.len()).cycle();
    faults.map(move |fault| (fault, source.near_packet(fault)))
}

/// Lines without end: of packets that have a text, of texts, of packets of runs, and of every fault
/// and damage in turn.
pub fn packet_lines(seed: u64) -> impl Iterator<Item = Vec<u8>> {
    let mut source = Source::new(seed);
    let lines = (0..).map(move |turn| source.packet_line(turn));
    lines.filter(|line| !line.contains(&b'\n'))
}

impl Source {
    /// Two lines in eight are of faults and three of damages.
    fn packet_line(&mut self, turn: usize) -> Vec<u8> {
        let (of_eight, turn) = (turn % 8, turn / 8);
        let packet = match of_eight {
            0 | 1 => self.packet(),
            2 => self.packet_of_run(),
            3 | 4 => self.near_packet((2 * turn + of_eight - 3) % FAULTS.len()),
            _ => {
                let (_, damaged, _) = DAMAGES[(3 * turn + of_eight - 5) % DAMAGES.len()];
                return text_line(&damaged(self));
            }
        };
        let as_text = of_eight == 1 || (of_eight == 2 && turn % 2 == 1);
        match packet.write().filter(|_| as_text) {
            Some(text) => text_line(&text),
            None => packet.to_string().into_bytes(),
        }
    }

    fn coin(&mut self) -> bool {
        self.below(2) == 0
    }

    pub(super) fn packet(&mut self) -> Packet {
        let flags = self.nodes();
        let sender = self.around(&[0, flags - 1], 0, flags - 1);
        let set = self.flag_set(flags, sender);
        let current = self.term();
        let nack = Some(self.term()).filter(|term| *term > 0 && self.coin());
        let last_accepted = Some(self.term()).filter(|_| self.coin());
        let data = Some(current).filter(|_| self.coin());
        let piggyback = Some(self.term()).filter(|_| self.coin());
        let piggyback_data = piggyback.filter(|_| self.coin());
        let terms = [nack, last_accepted, data, piggyback, piggyback_data];
        let numbers = placed([sender, current, set], terms);
        Packet { flags, numbers }
    }

    pub(super) fn term(&mut self) -> u64 {
        self.around(&[0, 1, 9, 10, 62, 63], 0, 63)
    }

    /// All flags, none, the sender's, the last one, or any.
    fn flag_set(&mut self, flags: u64, sender: u64) -> u64 {
        let all = (1 << flags) - 1;
        let any = self.draws.next_u64() & all;
        self.pick(&[all, 0, 1 << sender, 1 << (flags - 1), any, any, any])
    }

    /// A round of an accepted run: any, one with a NACK or one with a piggyback.
    fn packet_of_run(&mut self) -> Packet {
        let wanted = self.pick(&[None, Some(NACK), Some(PIGGYBACK)]);
        let meets = |round: &&Round| wanted.is_none_or(|place| round.packet[place] == 1);
        loop {
            let Answer::Ran(run) = run(&self.input()) else {
                continue;
            };
            let rounds: Vec<&Round> = run.rounds.iter().filter(meets).collect();
            if !rounds.is_empty() {
                let numbers = self.pick(&rounds).packet;
                let flags = run.nodes as u64;
                return Packet { flags, numbers };
            }
        }
    }
}

/// Faults.
impl Source {
    fn near_packet(&mut self, fault: usize) -> Packet {
        let mut packet = self.packet();
        let (_, spoil) = FAULTS[fault];
        spoil(self, &mut packet);
        packet
    }

    fn too_few_flags(&mut self, packet: &mut Packet) {
        packet.flags = self.below(2);
        packet.numbers[SENDER] = 0;
        packet.numbers[FLAGS] &= packet.flags;
    }

    fn too_many_flags(&mut self, packet: &mut Packet) {
        let beyond = self.beyond(packet.flags);
        packet.flags = self.pick(&[33, 33, 34, 63, 64, 65, beyond]);
    }

    /// Far above a small number: it differs in high bits alone, or is near 2^64.
    fn beyond(&mut self, number: u64) -> u64 {
        let near = u64::MAX - self.below(3);
        self.pick(&[number + 256, number + (1 << 32), number | 1 << 63, near])
    }

    fn sender_beyond(&mut self, packet: &mut Packet) {
        let flags = packet.flags;
        let beyond = self.beyond(packet.numbers[SENDER]);
        packet.numbers[SENDER] = self.pick(&[flags, flags, flags + 1, beyond]);
    }

    fn flag_beyond(&mut self, packet: &mut Packet) {
        let flags = packet.flags;
        let any = flags + self.below(64 - flags);
        packet.numbers[FLAGS] |= 1 << self.pick(&[flags, flags, any, 63]);
    }

    pub(super) fn term_beyond(&mut self) -> u64 {
        let term = self.term();
        let beyond = self.beyond(term);
        self.pick(&[64, 64, 65, term + 64, beyond])
    }

    fn current_term_beyond(&mut self, packet: &mut Packet) {
        let term = self.term_beyond();
        packet.numbers[TERM] = term;
        if packet.numbers[DATA] == 1 {
            packet.numbers[DATA + 1] = term;
        }
    }

    fn nack_beyond(&mut self, packet: &mut Packet) {
        let term = self.term_beyond();
        packet.give(NACK, term);
    }

    fn last_accepted_beyond(&mut self, packet: &mut Packet) {
        let term = self.term_beyond();
        packet.give(LAST_ACCEPTED, term);
    }

    fn piggyback_beyond(&mut self, packet: &mut Packet) {
        let term = self.term_beyond();
        packet.give(PIGGYBACK, term);
        if packet.numbers[PIGGYBACK_DATA] == 1 {
            packet.numbers[PIGGYBACK_DATA + 1] = term;
        }
    }

    /// One beside it, or one that it may be taken for.
    pub(super) fn another_term(&mut self, term: u64) -> u64 {
        let beyond = self.beyond(term);
        let terms = [term ^ 1, term + 1, 63 - term, term * 10, 64, beyond];
        let others: Vec<u64> = terms.into_iter().filter(|other| *other != term).collect();
        self.pick(&others)
    }

    fn data_of_another_term(&mut self, packet: &mut Packet) {
        let term = self.another_term(packet.numbers[TERM]);
        packet.give(DATA, term);
    }

    fn piggyback_data_of_another_term(&mut self, packet: &mut Packet) {
        let term = self.term();
        packet.give(PIGGYBACK, term);
        let another = self.another_term(term);
        packet.give(PIGGYBACK_DATA, another);
    }

    fn piggyback_data_alone(&mut self, packet: &mut Packet) {
        let term = self.term();
        packet.numbers[PIGGYBACK..][..2].fill(0);
        packet.give(PIGGYBACK_DATA, term);
    }

    fn given_otherwise(&mut self, packet: &mut Packet) {
        let at = self.pick(&GIVEN);
        let given = packet.numbers[at];
        let beyond = self.beyond(given);
        packet.numbers[at] = self.pick(&[2, 2, 3, beyond]);
    }

    fn term_not_given(&mut self, packet: &mut Packet) {
        let at = self.pick(&GIVEN);
        let (term, beyond) = (self.term().max(1), self.term_beyond());
        if at == PIGGYBACK {
            packet.numbers[PIGGYBACK_DATA..].fill(0);
        }
        packet.numbers[at] = 0;
        packet.numbers[at + 1] = self.pick(&[1, term, term, beyond]);
    }

    fn nack_of_term_0(&mut self, packet: &mut Packet) {
        packet.give(NACK, 0);
    }
}

impl Packet {
    fn give(&mut self, place: usize, term: u64) {
        self.numbers[place..][..2].copy_from_slice(&[1, term]);
    }
}

fn text_line(text: &[u8]) -> Vec<u8> {
    [&b"text "[..], text].concat()
}
