//! The packets and texts that were made to be compared.

use crate::packets::{CheckedWired, Wired};
use oracle::place::{DATA, LAST_ACCEPTED, NACK, PIGGYBACK, PIGGYBACK_DATA};
use oracle::{damages, faults, Packet};
use std::fmt;

/// What is optional in a packet, by the place that says whether it is given.
const PARTS: [(&str, usize); 5] = [
    ("a NACK", NACK),
    ("a last accepted term", LAST_ACCEPTED),
    ("proposal data", DATA),
    ("a piggyback", PIGGYBACK),
    ("a piggyback's data", PIGGYBACK_DATA),
];

pub(super) struct Wire {
    packets: u64,
    /// Those that have each of the parts.
    with_part: [u64; PARTS.len()],
    /// By fault: all, and those that the library writes.
    near: Vec<[u64; 2]>,
    /// By damage: all, those that ctsim takes and those that the library takes.
    texts: Vec<[u64; 3]>,
}

impl Default for Wire {
    fn default() -> Self {
        Self {
            packets: 0,
            with_part: [0; PARTS.len()],
            near: vec![[0; 2]; faults().len()],
            texts: vec![[0; 3]; damages().len()],
        }
    }
}

impl Wire {
    pub(super) fn add(&mut self, wired: &Wired, checked: &CheckedWired) {
        match wired {
            Wired::Packet(packet) => self.add_packet(packet),
            Wired::Near(fault, _) => {
                let [all, written] = &mut self.near[*fault];
                *all += 1;
                *written += u64::from(checked.taken_here);
            }
            Wired::Text(damage, _) => {
                let [all, by_ctsim, here] = &mut self.texts[*damage];
                *all += 1;
                *by_ctsim += u64::from(checked.taken_by_ctsim);
                *here += u64::from(checked.taken_here);
            }
        }
    }

    fn add_packet(&mut self, packet: &Packet) {
        self.packets += 1;
        for (count, (_, place)) in self.with_part.iter_mut().zip(PARTS) {
            *count += packet.numbers[place];
        }
    }
}

impl fmt::Display for Wire {
    fn fmt(&self, f: &mut fmt::Formatter) -> fmt::Result {
        writeln!(f, "packets written and read {}", self.packets)?;
        for (count, (name, _)) in self.with_part.iter().zip(PARTS) {
            writeln!(f, "  with {name} {count}")?;
        }
        writeln!(f, "packets with a fault {}", sum(&self.near))?;
        writeln!(f, "texts with a damage {}", sum(&self.texts))?;
        writeln!(f, "\n| fault | packets | written here |\n|---|---|---|")?;
        for (name, [all, written]) in faults().iter().zip(&self.near) {
            writeln!(f, "| {name} | {all} | {written} |")?;
        }
        writeln!(
            f,
            "\n| damage | texts | taken by ctsim | taken here |\n|---|---|---|---|"
        )?;
        for ((name, _), [all, by_ctsim, here]) in damages().iter().zip(&self.texts) {
            writeln!(f, "| {name} | {all} | {by_ctsim} | {here} |")?;
        }
        writeln!(f)
    }
}

fn sum<const N: usize>(counts: &[[u64; N]]) -> u64 {
    counts.iter().map(|count| count[0]).sum()
}
