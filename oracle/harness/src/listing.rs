//! The program's listing, what can be printed after it, and the lines of one round, one packet, a
//! sweep, a validity, an archive file, the check of one and a pair of them.

use crate::answer::{Answer, Summary};
use crate::archive::{Superseding, Verdict};
use crate::filing::{Checking, Damage, Filed, Filing};
use crate::pairing::{Paired, Pairing};
use crate::preview::Preview;
use crate::round::Round;
use crate::sweep::{Sweep, Swept};
use crate::validity::Validity;
use crate::wire::Packet;
use std::fmt;

/// A listing has so many snapshots at most.
const STORED_SNAPSHOTS: usize = 1000;

impl fmt::Display for Answer {
    fn fmt(&self, f: &mut fmt::Formatter) -> fmt::Result {
        match self {
            Answer::Refused(number) => writeln!(f, "refused {number}"),
            Answer::Ran(summary) => summary.fmt(f),
            Answer::Panicked(_) => writeln!(f, "panic"),
        }
    }
}

impl fmt::Display for Summary {
    fn fmt(&self, f: &mut fmt::Formatter) -> fmt::Result {
        let rounds = self.rounds.len();
        let Summary {
            nodes,
            slots,
            ended,
            listen,
            flood,
            sleep,
            ..
        } = self;
        writeln!(
            f,
            "nodes {nodes} rounds {rounds} slots {slots} ended {ended}"
        )?;
        writeln!(f, "listen {listen} flood {flood} sleep {sleep}")?;
        write!(f, "links {} {}", self.rx_attempts, self.rx_success)?;
        write!(
            f,
            " floods {} {}",
            self.flood_rounds, self.flood_nodes_total
        )?;
        write!(f, " {} {}", self.flood_nodes_covered, self.took_part())?;
        writeln!(f, " recovery {} {}", self.nacks_sent, self.piggybacks_sent)?;
        for r in &self.records {
            writeln!(f, "proposal {} {} {} {}", r.id, r.start, r.end, r.latency)?;
        }
        for s in self.snapshots.iter().take(STORED_SNAPSHOTS) {
            writeln!(f, "snapshot{}", spaced(s))?;
        }
        for (i, log) in self.logs.iter().enumerate() {
            writeln!(f, "log {i}{}", spaced(log))?;
        }
        Ok(())
    }
}

impl Summary {
    /// The count of all snapshots, the buffers' numbers and the nodes' last states.
    pub fn full(&self) -> String {
        let records = self.records.iter().flat_map(|r| [r.id, r.start, r.end]);
        let counts = self.logs.iter().map(Vec::len);
        let last = self
            .last_accepted
            .iter()
            .map(|t| t.map_or("-".into(), |t| t.to_string()));
        let mut text = format!("snapshots {}\n", self.snapshots.len());
        text += &format!("records{}\n", spaced(records));
        text += &format!("counts{}\n", spaced(counts));
        text += &format!("last{}\n", spaced(last));
        for (i, data) in self.data.iter().enumerate() {
            text += &format!("data {i}{}\n", spaced(data));
        }
        for (i, pending) in self.pending.iter().enumerate() {
            let votes = pending
                .iter()
                .map(|p| format!("{}:{:08x}", p.term, p.votes));
            text += &format!("pending {i}{}\n", spaced(votes));
        }
        text
    }

    /// The first slot of each round, its packet and who took part.
    pub fn rounds(&self) -> String {
        let rounds = self.rounds.iter().enumerate();
        rounds
            .map(|(i, round)| format!("round {i} {} {round}\n", round.start))
            .collect()
    }
}

impl fmt::Display for Round {
    fn fmt(&self, f: &mut fmt::Formatter) -> fmt::Result {
        write!(f, "packet{} part {}", spaced(self.packet), self.part)
    }
}

impl fmt::Display for Packet {
    fn fmt(&self, f: &mut fmt::Formatter) -> fmt::Result {
        write!(f, "packet {}{}", self.flags, spaced(self.numbers))
    }
}

impl fmt::Display for Preview<'_> {
    fn fmt(&self, f: &mut fmt::Formatter) -> fmt::Result {
        match self {
            Preview::Refused(number) => writeln!(f, "refused {number}"),
            Preview::Seen(round) => writeln!(f, "{round}"),
            Preview::Panicked => writeln!(f, "panic"),
        }
    }
}

impl fmt::Display for Sweep {
    fn fmt(&self, f: &mut fmt::Formatter) -> fmt::Result {
        let Sweep {
            length,
            count,
            first,
            step,
            input,
        } = self;
        write!(f, "sweep {length} {count} {first} {step} {input}")
    }
}

impl fmt::Display for Swept {
    fn fmt(&self, f: &mut fmt::Formatter) -> fmt::Result {
        match self {
            Swept::Refused(number) => writeln!(f, "refused {number}"),
            Swept::Ran {
                lines,
                rounds,
                kept,
            } => {
                for line in lines {
                    writeln!(f, "{}", line.map(|number| number.to_string()).join(" "))?;
                }
                writeln!(f, "rounds {rounds} kept {kept}")
            }
            Swept::Panicked(_) => writeln!(f, "panic"),
        }
    }
}

impl fmt::Display for Validity {
    fn fmt(&self, f: &mut fmt::Formatter) -> fmt::Result {
        match self {
            Validity::Current => writeln!(f, "current"),
            Validity::Outdated => writeln!(f, "outdated"),
            Validity::Refused(number) => writeln!(f, "refused {number}"),
        }
    }
}

impl fmt::Display for Filing {
    fn fmt(&self, f: &mut fmt::Formatter) -> fmt::Result {
        let Filing {
            room,
            length,
            input,
        } = self;
        write!(f, "file {room} {length} {input}")
    }
}

impl fmt::Display for Filed {
    fn fmt(&self, f: &mut fmt::Formatter) -> fmt::Result {
        match self {
            Filed::Refused(number) => writeln!(f, "refused {number}"),
            Filed::File(file) => writeln!(f, "file {} {}", file.len(), packed(file)),
            Filed::Panicked(_) => writeln!(f, "panic"),
        }
    }
}

impl fmt::Display for Checking {
    fn fmt(&self, f: &mut fmt::Formatter) -> fmt::Result {
        let Checking {
            damage,
            room,
            input,
        } = self;
        write!(f, "check {damage} {room} {input}")
    }
}

impl fmt::Display for Damage {
    fn fmt(&self, f: &mut fmt::Formatter) -> fmt::Result {
        match self {
            Damage::Whole => write!(f, "whole 0"),
            Damage::Flip(number) => write!(f, "flip {number}"),
            Damage::Cut(number) => write!(f, "cut {number}"),
            Damage::Grow(number) => write!(f, "grow {number}"),
            Damage::Set(number) => write!(f, "set {number}"),
        }
    }
}

impl fmt::Display for Verdict {
    fn fmt(&self, f: &mut fmt::Formatter) -> fmt::Result {
        match self {
            Verdict::Refused(number) => writeln!(f, "refused {number}"),
            Verdict::Read { yes, directory } => {
                let yes = if *yes { "yes" } else { "no" };
                writeln!(f, "{yes} sections{}", spaced(directory.as_flattened()))
            }
            Verdict::Panicked(_) => writeln!(f, "panic"),
        }
    }
}

impl fmt::Display for Pairing {
    fn fmt(&self, f: &mut fmt::Formatter) -> fmt::Result {
        write!(f, "supersede")?;
        for Checking { damage, room, .. } in &self.files {
            write!(f, " {damage} {room}")?;
        }
        let [first, second] = self.files.each_ref().map(|file| &file.input);
        write!(f, " {} {first}", second.max_slots)
    }
}

impl fmt::Display for Paired {
    fn fmt(&self, f: &mut fmt::Formatter) -> fmt::Result {
        match self {
            Paired::Refused(number) => writeln!(f, "refused {number}"),
            Paired::Told { files, superseding } => match *superseding {
                Superseding::Refused(number) => writeln!(f, "refused {number} part 0"),
                Superseding::Records(part) => write_part(f, files, part),
            },
            Paired::Panicked(_) => writeln!(f, "panic"),
        }
    }
}

/// Which file, offset and length, and the bytes, if there are any.
fn write_part(
    f: &mut fmt::Formatter,
    files: &[Vec<u8>; 2],
    [file, offset, length]: [u64; 3],
) -> fmt::Result {
    let which = ["first", "second"][file as usize];
    write!(f, "{which} {offset} {length}")?;
    if length > 0 {
        let part = &files[file as usize][offset as usize..][..length as usize];
        write!(f, " {}", packed(part))?;
    }
    writeln!(f)
}

/// Two hexadecimal digits a byte; four zeros or more in a row as `z`, their number and a point.
fn packed(bytes: &[u8]) -> String {
    let runs = bytes.chunk_by(|byte, next| (*byte == 0) == (*next == 0));
    let digits = |run: &[u8]| run.iter().map(|byte| format!("{byte:02x}")).collect();
    runs.map(|run| match run {
        [0, 0, 0, 0, ..] => format!("z{}.", run.len()),
        _ => digits(run),
    })
    .collect()
}

fn spaced<T: fmt::Display>(items: impl IntoIterator<Item = T>) -> String {
    items.into_iter().map(|item| format!(" {item}")).collect()
}

#[cfg(test)]
mod tests {
    use super::*;

    #[test]
    fn zeros_are_packed() {
        for (bytes, text) in [
            (&[][..], ""),
            (&[0], "00"),
            (&[0, 0, 0], "000000"),
            (&[0, 0, 0, 0], "z4."),
            (&[0, 0, 0, 0, 0], "z5."),
            (&[5, 0, 0, 0, 10], "050000000a"),
            (&[5, 0, 0, 0, 0, 255], "05z4.ff"),
            (&[0, 0, 0, 0, 1, 0, 0, 0], "z4.01000000"),
        ] {
            assert_eq!(packed(bytes), text, "{bytes:?}");
        }
        assert_eq!(packed(&[0; 2000]), "z2000.");
    }
}
