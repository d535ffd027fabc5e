//! Packets on the wire.

use crate::turns::{medians, repeated, Effort, REPEATS};
use compare::library::{self, Buffer, WireBuffers};
use oracle::{deserialize_packet, serialize_packet, Packet, PACKET_LENGTH};
use std::hint::black_box;

/// The number of flags, and the 13 numbers.
const PACKETS: [(&str, u64, [u64; PACKET_LENGTH]); 3] = [
    (
        "2 flags, nothing optional",
        2,
        [0, 0, 1, 0, 0, 0, 0, 0, 0, 0, 0, 0, 0],
    ),
    (
        "16 flags, proposal data",
        16,
        [5, 21, 0x5a5a, 0, 0, 0, 0, 1, 21, 0, 0, 0, 0],
    ),
    (
        "32 flags, all that is optional",
        32,
        [31, 63, 0x5a5a_a5a5, 1, 60, 1, 61, 1, 63, 1, 59, 1, 59],
    ),
];

pub fn print_packets(effort: &Effort) {
    println!("\nPackets on the wire: nanoseconds of one call of serialize_packet and");
    println!("deserialize_packet, and of the library's entries.\n");
    print!("| packet | bytes | write: ctsim | library | ratio ");
    println!("| read: ctsim | library | ratio |");
    println!("|---|---|---|---|---|---|---|---|");
    for (name, flags, numbers) in PACKETS {
        let packet = Packet { flags, numbers };
        let text = packet.write().expect("the packet has a text");
        let times = measure_packet(&packet, &text, effort);
        let [write, written, read, taken] = times.map(|s| s * 1e9 / REPEATS as f64);
        print!("| {name} | {} ", text.len());
        print!("| {write:.0} | {written:.0} | {:.2} ", write / written);
        println!("| {read:.0} | {taken:.0} | {:.2} |", read / taken);
    }
}

/// The packet written by ctsim and by the library, and its text read by both.
fn measure_packet(packet: &Packet, text: &[u8], effort: &Effort) -> [f64; 4] {
    let by_ctsim = deserialize_packet(text).expect("ctsim reads its text");
    let mut to_write = WireBuffers {
        packet: holding(&packet.numbers),
        text: Buffer::new(text.len(), 0),
        single: Buffer::new(1, 0),
    };
    let mut to_read = WireBuffers {
        packet: Buffer::new(PACKET_LENGTH, 0),
        text: holding(text),
        single: Buffer::new(1, 0),
    };
    let mut write = repeated(|| drop(black_box(serialize_packet(black_box(&by_ctsim)))));
    let mut written = repeated(|| {
        let result = library::write_packet(black_box(packet.flags), black_box(&mut to_write));
        assert_eq!(result, 0, "refused: {packet}");
    });
    let mut read = repeated(|| drop(black_box(deserialize_packet(black_box(text)))));
    let mut taken = repeated(|| {
        let result = library::read_packet(black_box(&mut to_read));
        assert_eq!(result, 0, "refused: {packet}");
    });
    medians([&mut write, &mut written, &mut read, &mut taken], effort)
}

/// A buffer that lends just these places.
fn holding<T: Copy + Default>(contents: &[T]) -> Buffer<T> {
    let mut buffer = Buffer::new(contents.len(), T::default());
    buffer.places[..contents.len()].copy_from_slice(contents);
    buffer
}
