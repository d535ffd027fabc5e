//! Lines of every form.

use crate::filing::{Checking, Filing};
use crate::input::{decimal, Input};
use crate::pairing::Pairing;
use crate::sweep::Sweep;
use crate::wire::Packet;

/// A readable line.
pub enum Line {
    /// A run, or of `round K LINE` the preview of round K of LINE's run.
    Run { round: Option<u64>, input: Input },
    /// Of `sweep LENGTH COUNT FIRST STEP LINE`: LINE's run with many seeds.
    Sweep(Sweep),
    /// Of `validity LINE`: what is told of LINE without a run.
    Validity(Input),
    /// Of `file ROOM LENGTH LINE`: LINE's run as an archive file.
    File(Filing),
    /// Of `check HOW N ROOM LINE`: such a file, damaged and checked.
    Check(Checking),
    /// Of `supersede HOW N ROOM HOW N ROOM LIMIT LINE`: two such files, of which one supersedes.
    Supersede(Pairing),
    /// Of `packet N p0 .. p12`: a packet to write.
    Packet(Packet),
    /// Of `text TEXT`: a text to read, any bytes.
    Text(Vec<u8>),
}

impl Line {
    /// Reads a line without its newline. `None`: unreadable, refusal 12.
    pub fn parse(line: &[u8]) -> Option<Self> {
        if let Some(text) = line.strip_prefix(b"text ") {
            return Some(Line::Text(text.into()));
        }
        let line = std::str::from_utf8(line).ok()?;
        if let Some(fields) = line.strip_prefix("packet ") {
            return Packet::parse(fields).map(Line::Packet);
        }
        if let Some(fields) = line.strip_prefix("sweep ") {
            return Sweep::parse(fields).map(Line::Sweep);
        }
        if let Some(line) = line.strip_prefix("validity ") {
            return Input::parse(line.as_bytes()).map(Line::Validity);
        }
        if let Some(fields) = line.strip_prefix("file ") {
            return Filing::parse(fields).map(Line::File);
        }
        if let Some(fields) = line.strip_prefix("check ") {
            return Checking::parse(fields).map(Line::Check);
        }
        if let Some(fields) = line.strip_prefix("supersede ") {
            return Pairing::parse(fields).map(Line::Supersede);
        }
        let (round, line) = match line.strip_prefix("round ") {
            None => (None, line),
            Some(rest) => {
                let (round, line) = rest.split_once(' ')?;
                (Some(decimal(round)?), line)
            }
        };
        let input = Input::parse(line.as_bytes())?;
        Some(Line::Run { round, input })
    }
}
