//! A few rounds of one line, previewed by the library and compared with those of ctsim's run.

use crate::check::{differs, mark_of, result_differs};
use crate::clock::processor_seconds;
use crate::library::{self, Buffer, PreviewBuffers, PART_LENGTH};
use crate::packets::Wired;
use oracle::place::{NACK, PIGGYBACK};
use oracle::{Answer, Input, Packet, Preview, Round, PACKET_LENGTH};

/// The library's number for a slice that is too short.
const SHORT: u64 = 100;

/// What was seen of one line's previews.
#[derive(Default)]
pub struct Previewed {
    /// Rounds that were asked for.
    pub asked: u64,
    /// Those that the run ends before.
    pub past_end: u64,
    /// Those whose packet is seen; it is written and read too.
    pub packets: u64,
    /// Those whose packet has a NACK.
    pub nacks: u64,
    /// Those whose packet has a piggyback.
    pub piggybacks: u64,
    /// The first difference.
    pub difference: Option<String>,
    /// The library's processor time.
    pub seconds: f64,
}

impl Previewed {
    /// Compares the rounds that the mark chooses.
    pub fn of(input: &Input, answer: &Answer, mark: u64) -> Self {
        let seen: &[Round] = match answer {
            Answer::Ran(run) => &run.rounds,
            _ => &[],
        };
        let rounds = rounds_to_ask(seen, mark);
        let mut previewed = Self::default();
        for round in &rounds {
            previewed.ask(input, answer, mark, *round);
        }
        let short = || short_differs(input, mark, rounds[rounds.len() / 2]);
        previewed.difference = previewed.difference.take().or_else(short);
        previewed
    }

    fn ask(&mut self, input: &Input, answer: &Answer, mark: u64, round: u64) {
        let preview = answer.preview(round);
        self.count(&preview);
        let mut expected = marked(mark_of(mark.wrapping_add(round)));
        let mut found = expected.clone();
        let result = write(&preview, &mut expected);
        let start = processor_seconds();
        let returned = library::preview(input, mark, round, &mut found);
        self.seconds += processor_seconds() - start;
        let difference = || {
            let difference = result_differs("result", result, returned)
                .or_else(|| contents_differ(&expected, &found))?;
            Some(format!("preview of round {round}: {difference}"))
        };
        let wire_difference = || {
            let packet = Wired::Packet(packet_of(answer, round)?);
            let difference = packet.check(mark).difference?;
            Some(format!("packet of round {round}: {difference}"))
        };
        self.difference = self
            .difference
            .take()
            .or_else(difference)
            .or_else(wire_difference);
    }

    fn count(&mut self, preview: &Preview) {
        self.asked += 1;
        match preview {
            Preview::Refused(13) => self.past_end += 1,
            Preview::Seen(round) => {
                self.packets += 1;
                self.nacks += round.packet[NACK];
                self.piggybacks += round.packet[PIGGYBACK];
            }
            _ => {}
        }
    }
}

/// A round's packet; the flags are as many as the nodes.
fn packet_of(answer: &Answer, round: u64) -> Option<Packet> {
    let Answer::Ran(run) = answer else {
        return None;
    };
    let seen = run.rounds.get(round as usize)?;
    Some(Packet {
        flags: run.nodes as u64,
        numbers: seen.packet,
    })
}

/// The first round, one between, the last, the one past it, one with a piggyback if there is any,
/// and for one line in 16 the greatest number.
fn rounds_to_ask(seen: &[Round], mark: u64) -> Vec<u64> {
    let rounds = seen.len() as u64;
    // Where there is none, some are asked for all the same.
    let rounds = if rounds == 0 { 10 } else { rounds };
    let mut asked = vec![0, (mark >> 8) % rounds, rounds - 1, rounds];
    asked.extend(one_with_piggyback(seen, mark));
    asked.extend((mark >> 60 == 0).then_some(u64::MAX));
    asked.sort_unstable();
    asked.dedup();
    asked
}

/// One that the mark chooses. They are rare, so that the others hardly meet them.
fn one_with_piggyback(seen: &[Round], mark: u64) -> Option<u64> {
    let rounds = (0..).zip(seen);
    let piggybacks = rounds.filter(|(_, round)| round.packet[PIGGYBACK] == 1);
    let piggybacks: Vec<u64> = piggybacks.map(|(k, _)| k).collect();
    let chosen = (mark >> 8) as usize % piggybacks.len().max(1);
    piggybacks.get(chosen).copied()
}

/// Buffers full of marks, as long as needed or longer.
fn marked(mark: u64) -> PreviewBuffers {
    let more = |from: u32| (mark >> from & 1) as usize * (mark >> (from + 1) & 15) as usize;
    PreviewBuffers {
        packet: Buffer::new(PACKET_LENGTH + more(40), mark),
        part: Buffer::new(PART_LENGTH + more(48), mark),
    }
}

/// Writes where the library should, and gives back what it should return.
fn write(preview: &Preview, buffers: &mut PreviewBuffers) -> u64 {
    match preview {
        Preview::Refused(number) => u64::from(*number),
        Preview::Seen(round) => {
            buffers.packet.places[..PACKET_LENGTH].copy_from_slice(&round.packet);
            buffers.part.places[0] = round.part;
            0
        }
        // The run's own comparison tells of it.
        Preview::Panicked => 0,
    }
}

fn contents_differ(expected: &PreviewBuffers, found: &PreviewBuffers) -> Option<String> {
    differs("packet", &expected.packet.places, &found.packet.places)
        .or_else(|| differs("part", &expected.part.places, &found.part.places))
}

/// A round with one slice too short, which is refused first of all.
fn short_differs(input: &Input, mark: u64, round: u64) -> Option<String> {
    let mut expected = marked(mark);
    if mark >> 32 & 1 == 0 {
        expected.packet.lent = (mark >> 24) as usize % PACKET_LENGTH;
    } else {
        expected.part.lent = 0;
    }
    let mut found = expected.clone();
    let returned = library::preview(input, mark, round, &mut found);
    let difference =
        result_differs("result", SHORT, returned).or_else(|| contents_differ(&expected, &found))?;
    Some(format!("preview with a short slice: {difference}"))
}
