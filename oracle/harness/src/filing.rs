//! Lines about archive files: one to be made, and one to be damaged and checked.

use crate::answer::{run, Answer};
use crate::archive::{self, Verdict};
use crate::input::{decimal, Graph, Input};

/// The lent bytes are too few for the file.
const TOO_SHORT: u8 = 18;

/// A file is lengthened by so many bytes at most.
const MAX_GROWTH: u64 = 65_536;

/// Of `file ROOM LENGTH LINE`.
#[derive(Debug, Clone, PartialEq, Eq)]
pub struct Filing {
    /// For so many snapshots.
    pub room: u64,
    /// The number of the bytes that are lent for the file.
    pub length: u64,
    /// Of a topology.
    pub input: Input,
}

/// What is told of a filing.
#[derive(Debug, Clone, PartialEq, Eq)]
pub enum Filed {
    Refused(u8),
    File(Vec<u8>),
    /// The Rust's message.
    Panicked(String),
}

/// Of `check HOW N ROOM LINE`.
#[derive(Debug, Clone, PartialEq, Eq)]
pub struct Checking {
    pub damage: Damage,
    /// For so many snapshots.
    pub room: u64,
    /// Of a topology.
    pub input: Input,
}

/// What is done to a file before it is checked: HOW and N.
#[derive(Debug, Clone, Copy, PartialEq, Eq)]
pub enum Damage {
    /// Nothing.
    Whole,
    /// Bit N modulo the number of bits is another; bit 0 of a byte is the lowest.
    Flip(u64),
    /// The first N bytes stay, N modulo one more than there are.
    Cut(u64),
    /// N zeros come behind.
    Grow(u64),
    /// Byte N / 256, modulo the number of bytes, becomes N modulo 256.
    Set(u64),
}

impl Filing {
    /// Reads what stands behind `file `.
    pub(crate) fn parse(fields: &str) -> Option<Self> {
        let fields: Vec<&str> = fields.splitn(3, ' ').collect();
        let [room, length, line] = fields.try_into().ok()?;
        Some(Self {
            room: decimal(room)?,
            length: decimal(length)?,
            input: input_of_topology(line)?,
        })
    }

    /// Asks the questions, runs ctsim and makes the file of its answer.
    pub fn run(&self) -> Filed {
        self.filed(&run(&self.input))
    }

    /// The same, where this is ctsim's answer to the input.
    pub fn filed(&self, answer: &Answer) -> Filed {
        match filed(&self.input, answer, self.room) {
            Filed::File(file) if file.len() as u64 > self.length => Filed::Refused(TOO_SHORT),
            filed => filed,
        }
    }
}

impl Checking {
    /// Reads what stands behind `check `.
    pub(crate) fn parse(fields: &str) -> Option<Self> {
        let fields: Vec<&str> = fields.splitn(4, ' ').collect();
        let [how, number, room, line] = fields.try_into().ok()?;
        Self::of([how, number, room], input_of_topology(line)?)
    }

    /// Reads HOW, N and ROOM; the input is of a topology.
    pub(crate) fn of([how, number, room]: [&str; 3], input: Input) -> Option<Self> {
        Some(Self {
            damage: Damage::parse(how, decimal(number)?)?,
            room: decimal(room)?,
            input,
        })
    }

    /// The damaged file, where this is ctsim's answer to the input.
    pub fn damaged(&self, answer: &Answer) -> Filed {
        match filed(&self.input, answer, self.room) {
            Filed::File(file) => Filed::File(self.damage.done_to(file)),
            filed => filed,
        }
    }

    /// Asks the questions, runs ctsim, damages the file of its answer and checks it.
    pub fn run(&self) -> Verdict {
        match self.damaged(&run(&self.input)) {
            Filed::Refused(number) => Verdict::Refused(number),
            Filed::File(file) => archive::check(&file),
            Filed::Panicked(message) => Verdict::Panicked(message),
        }
    }
}

impl Damage {
    /// `None`: there is no such damage.
    fn parse(how: &str, number: u64) -> Option<Self> {
        match how {
            "whole" if number == 0 => Some(Damage::Whole),
            "flip" => Some(Damage::Flip(number)),
            "cut" => Some(Damage::Cut(number)),
            "grow" if number <= MAX_GROWTH => Some(Damage::Grow(number)),
            "set" => Some(Damage::Set(number)),
            _ => None,
        }
    }

    /// The byte of a file of so many that a flip or a set is about.
    pub fn place(self, size: usize) -> Option<usize> {
        let place = match self {
            Damage::Flip(number) => number / 8,
            Damage::Set(number) => number / 256,
            _ => return None,
        };
        Some((place % size as u64) as usize)
    }

    fn done_to(self, mut file: Vec<u8>) -> Vec<u8> {
        let size = file.len();
        let byte = self.place(size).map(|place| &mut file[place]);
        match (self, byte) {
            (Damage::Flip(number), Some(byte)) => *byte ^= 1 << (number % 8),
            (Damage::Set(number), Some(byte)) => *byte = number as u8,
            (Damage::Cut(number), _) => file.truncate((number % (size as u64 + 1)) as usize),
            (Damage::Grow(zeros), _) => file.resize(size + zeros as usize, 0),
            _ => {}
        }
        file
    }
}

/// The file of ctsim's answer to an input, in as many bytes as it has.
fn filed(input: &Input, answer: &Answer, room: u64) -> Filed {
    match answer {
        Answer::Refused(number) => Filed::Refused(*number),
        Answer::Ran(run) => Filed::File(run.file(input, room)),
        Answer::Panicked(message) => Filed::Panicked(message.clone()),
    }
}

/// Reads the program's line: no file is made of rows.
pub(crate) fn input_of_topology(line: &str) -> Option<Input> {
    let input = Input::parse(line.as_bytes())?;
    matches!(input.graph, Graph::Topology { .. }).then_some(input)
}
