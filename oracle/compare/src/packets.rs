//! Packets and texts, written and read by the library and by ctsim.

use crate::check::{differs, result_differs};
use crate::library::{self, Buffer, WireBuffers};
use oracle::{damages, is_taken_by_ctsim, Packet, Taken, PACKET_LENGTH};

/// The library's numbers for a packet or a text that is none, and for a slice that is too short.
const REFUSED: u64 = 14;
const SHORT: u64 = 100;
/// No text is as long.
const LONG: usize = 600;

/// What is written or read.
pub enum Wired {
    /// A packet that has a text.
    Packet(Packet),
    /// The number of a fault, and a packet that has it.
    Near(usize, Packet),
    /// The number of a damage, and a text that has it.
    Text(usize, Vec<u8>),
}

impl Wired {
    /// So many of each.
    pub fn all(seed: u64, count: usize) -> impl Iterator<Item = Self> {
        let packets = oracle::packets(seed).map(Self::Packet);
        let near = oracle::near_packets(seed).map(|(fault, packet)| Self::Near(fault, packet));
        let texts = oracle::damaged_texts(seed).map(|(damage, text)| Self::Text(damage, text));
        packets
            .take(count)
            .chain(near.take(count))
            .chain(texts.take(count))
    }

    /// Compares it; the mark fixes the lengths of the slices.
    pub fn check(&self, mark: u64) -> CheckedWired {
        let (taken_by_ctsim, taken_here, difference) = match self {
            Self::Packet(packet) | Self::Near(_, packet) => {
                let difference = packet_differs(packet, mark);
                (false, is_written_here(packet), difference)
            }
            Self::Text(_, text) => {
                let difference = text_differs(text, mark);
                (is_taken_by_ctsim(text), is_taken_here(text), difference)
            }
        };
        CheckedWired {
            taken_by_ctsim,
            taken_here,
            difference: difference.or_else(|| self.unlike_its_kind()),
        }
    }

    /// A packet with a fault has a text, or one without has none; or a damaged text is not as its
    /// damage should leave it.
    fn unlike_its_kind(&self) -> Option<String> {
        match self {
            Self::Packet(packet) => packet.write().is_none().then(|| "has no text".into()),
            Self::Near(_, packet) => packet.write().map(|_| "has a text".into()),
            Self::Text(damage, text) => unlike_its_damage(*damage, text),
        }
    }

    /// As a line for `answer`.
    pub fn line(&self) -> String {
        match self {
            Self::Packet(packet) | Self::Near(_, packet) => packet.to_string(),
            Self::Text(_, text) => format!("text {}", String::from_utf8_lossy(text)),
        }
    }
}

pub struct CheckedWired {
    /// ctsim reads some packet from the text.
    pub taken_by_ctsim: bool,
    /// The library reads the text, or writes the packet.
    pub taken_here: bool,
    /// The first difference.
    pub difference: Option<String>,
}

/// Writes a packet, whether it has a text or not, to bytes that are as many as needed, more, fewer by
/// one and fewer by any number; reads the text again. The mark fixes the lengths.
fn packet_differs(packet: &Packet, mark: u64) -> Option<String> {
    let text = packet.write();
    let needed = text.as_ref().map_or(LONG, Vec::len);
    let more = needed + 1 + (mark >> 20 & 15) as usize;
    let fewer = (mark >> 24) as usize % needed;
    let mut lengths = [needed, more, needed - 1, fewer].into_iter();
    let long = || to_write(packet, LONG, mark);
    lengths
        .find_map(|lent| writing_differs(packet, text.as_deref(), lent, mark))
        .or_else(|| short_differs("written", writer(packet), long(), mark))
        .or_else(|| read_back_differs(packet, &text?, mark))
}

/// Reads a text, whether it is a packet's or not.
fn text_differs(text: &[u8], mark: u64) -> Option<String> {
    let whole = || to_read(text, text.len(), mark);
    reading_differs(text, text.len(), mark)
        .or_else(|| short_differs("read", library::read_packet, whole(), mark))
}

/// ctsim refuses a text though it takes all of the damage, or takes it though it takes none; or the
/// text is a packet's, which none of the damage is.
fn unlike_its_damage(damage: usize, text: &[u8]) -> Option<String> {
    let (name, taken) = damages()[damage];
    let (by_ctsim, is_a_packets) = (is_taken_by_ctsim(text), Packet::read(text).is_some());
    let like = match taken {
        Taken::Always => by_ctsim && !is_a_packets,
        Taken::Sometimes => true,
        Taken::Never => !by_ctsim,
    };
    (!like).then(|| format!("{name}: taken by ctsim: {by_ctsim}, a packet's: {is_a_packets}"))
}

fn is_written_here(packet: &Packet) -> bool {
    writer(packet)(&mut to_write(packet, LONG, 0)) == 0
}

fn is_taken_here(text: &[u8]) -> bool {
    library::read_packet(&mut to_read(text, text.len(), 0)) == 0
}

/// The text, which the library has written too: ctsim and the library read the packet from it, and
/// the library none from a part of it.
fn read_back_differs(packet: &Packet, text: &[u8], mark: u64) -> Option<String> {
    if !packet.is_read_by_ctsim(text) {
        return Some("ctsim reads another packet from the text".into());
    }
    if Packet::read(text) != Some(*packet) {
        return Some("the oracle reads another packet from the text".into());
    }
    let fewer = (mark >> 28) as usize % text.len();
    text_differs(text, mark).or_else(|| reading_differs(text, fewer, mark))
}

/// Writes to so many bytes.
fn writing_differs(packet: &Packet, text: Option<&[u8]>, lent: usize, mark: u64) -> Option<String> {
    let before = to_write(packet, lent, mark);
    let mut expected = before.clone();
    let mut result = REFUSED;
    if let Some(text) = text.filter(|text| text.len() <= lent) {
        expected.text.places[..text.len()].copy_from_slice(text);
        expected.single.places[0] = text.len() as u64;
        result = 0;
    }
    let difference = call_differs(writer(packet), before, result, &expected)?;
    Some(format!("written to {lent} bytes: {difference}"))
}

/// Reads the first bytes of a text, so many as are lent.
fn reading_differs(text: &[u8], lent: usize, mark: u64) -> Option<String> {
    let before = to_read(text, lent, mark);
    let mut expected = before.clone();
    let mut result = REFUSED;
    if let Some(packet) = Packet::read(&text[..lent]) {
        expected.packet.places[..PACKET_LENGTH].copy_from_slice(&packet.numbers);
        expected.single.places[0] = packet.flags;
        result = 0;
    }
    let difference = call_differs(library::read_packet, before, result, &expected)?;
    Some(format!("{lent} bytes read: {difference}"))
}

/// One slice too short, which is refused first of all.
fn short_differs(
    done: &str,
    call: impl Fn(&mut WireBuffers) -> u64,
    mut buffers: WireBuffers,
    mark: u64,
) -> Option<String> {
    if mark >> 32 & 1 == 0 {
        buffers.packet.lent = (mark >> 24) as usize % PACKET_LENGTH;
    } else {
        buffers.single.lent = 0;
    }
    let difference = call_differs(call, buffers.clone(), SHORT, &buffers)?;
    Some(format!("{done} with a short slice: {difference}"))
}

/// Calls the library, which should return that result and leave the buffers as expected.
fn call_differs(
    call: impl Fn(&mut WireBuffers) -> u64,
    mut found: WireBuffers,
    result: u64,
    expected: &WireBuffers,
) -> Option<String> {
    let returned = call(&mut found);
    result_differs("result", result, returned)
        .or_else(|| differs("packet", &expected.packet.places, &found.packet.places))
        .or_else(|| differs("text", &expected.text.places, &found.text.places))
        .or_else(|| differs("single", &expected.single.places, &found.single.places))
}

fn writer(packet: &Packet) -> impl Fn(&mut WireBuffers) -> u64 {
    let flags = packet.flags;
    move |buffers| library::write_packet(flags, buffers)
}

/// None or a few places more than are needed.
fn more(mark: u64, from: u32) -> usize {
    (mark >> from & 1) as usize * (mark >> (from + 1) & 15) as usize
}

/// The packet, and for the text so many bytes. All other places hold marks.
fn to_write(packet: &Packet, lent: usize, mark: u64) -> WireBuffers {
    let mut numbers = Buffer::new(PACKET_LENGTH + more(mark, 40), mark);
    numbers.places[..PACKET_LENGTH].copy_from_slice(&packet.numbers);
    WireBuffers {
        packet: numbers,
        text: Buffer::new(lent, (mark >> 8) as u8),
        single: Buffer::new(1 + more(mark, 48), mark),
    }
}

/// The text, of which so many bytes are lent. All other places hold marks.
fn to_read(text: &[u8], lent: usize, mark: u64) -> WireBuffers {
    let mut bytes = Buffer::new(text.len(), (mark >> 8) as u8);
    bytes.places[..text.len()].copy_from_slice(text);
    bytes.lent = lent;
    WireBuffers {
        packet: Buffer::new(PACKET_LENGTH + more(mark, 40), mark),
        text: bytes,
        single: Buffer::new(1 + more(mark, 48), mark),
    }
}
