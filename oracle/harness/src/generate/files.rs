//! Runs to be filed, files to be checked, and lines `file ROOM LENGTH LINE` and `check HOW N ROOM LINE`.

use super::Source;
use crate::answer::{run, Answer};
use crate::archive::{layout, FIRST_OFFSET};
use crate::filing::{Checking, Damage, Filing};
use crate::input::Input;

/// Snapshots that have room at most, but for a few more; the second number is for one run in 32.
const MUCH_ROOM: u64 = 60;
const MOST_ROOM: u64 = 1000;

/// What stands for the bytes of a file where there is none.
const NO_FILE: [u8; FIRST_OFFSET] = [0; FIRST_OFFSET];

/// Lines without end, of both forms in turn: one in eight has a broken LINE, which may be one of rows.
pub fn file_lines(seed: u64) -> impl Iterator<Item = String> {
    let mut source = Source::new(seed);
    let to_file = [true, false].into_iter().cycle();
    to_file.map(move |to_file| source.file_line(to_file))
}

/// Filings without end, with ctsim's answers to their inputs: one in eight is broken.
pub fn filings(seed: u64) -> impl Iterator<Item = (Filing, Answer)> {
    let mut source = Source::new(seed);
    std::iter::from_fn(move || Some(source.filing()))
}

/// Files without end to be damaged and checked, with ctsim's answers to their inputs: one in sixteen
/// is of a broken line.
pub fn checkings(seed: u64) -> impl Iterator<Item = (Checking, Answer)> {
    let mut source = Source::new(seed);
    std::iter::from_fn(move || Some(source.checking()))
}

impl Source {
    fn file_line(&mut self, to_file: bool) -> String {
        let broken = (self.below(8) == 0).then(|| self.broken_line());
        let line = |input: Input| broken.unwrap_or_else(|| input.to_string());
        if to_file {
            let (filing, _) = self.filing();
            let Filing { room, length, .. } = filing;
            format!("file {room} {length} {}", line(filing.input))
        } else {
            let (checking, _) = self.checking();
            let Checking { damage, room, .. } = checking;
            format!("check {damage} {room} {}", line(checking.input))
        }
    }

    fn filing(&mut self) -> (Filing, Answer) {
        let input = self.filed_input(8);
        let answer = run(&input);
        let room = self.room(&answer);
        let length = match &answer {
            Answer::Ran(run) => self.file_length(run.file(&input, room).len() as u64),
            _ => self.below(5000),
        };
        let filing = Filing {
            room,
            length,
            input,
        };
        (filing, answer)
    }

    fn checking(&mut self) -> (Checking, Answer) {
        let input = self.filed_input(16);
        let answer = run(&input);
        let room = self.room(&answer);
        let damage = self.file_damage(&input, &answer, room);
        let checking = Checking {
            damage,
            room,
            input,
        };
        (checking, answer)
    }

    /// Of the file of this answer.
    pub(super) fn file_damage(&mut self, input: &Input, answer: &Answer, room: u64) -> Damage {
        match answer {
            Answer::Ran(run) => self.damage(&run.file(input, room)),
            _ => self.damage(&NO_FILE),
        }
    }

    /// Of a topology; one of so many is broken.
    pub(super) fn filed_input(&mut self, rare: u64) -> Input {
        let mut input = self.topology_input();
        if self.below(rare) == 0 {
            self.break_values(&mut input);
        }
        input
    }

    /// Accepted; in three of four there are few repeats and proposals.
    pub(super) fn topology_input(&mut self) -> Input {
        let graph = self.topology();
        if self.below(4) == 0 {
            let repeats = self.flood_repeats();
            return self.input_of(graph, repeats);
        }
        let repeats = 1 + self.below(3);
        let mut input = self.input_of(graph, repeats);
        input.num_proposals = self.below(4);
        input
    }

    /// Room for no snapshot, for one, for some, for all that a run took, or for more.
    pub(super) fn room(&mut self, answer: &Answer) -> u64 {
        let taken = match answer {
            Answer::Ran(run) => run.snapshots.len() as u64,
            _ => 0,
        };
        let most = if self.below(32) == 0 {
            MOST_ROOM
        } else {
            MUCH_ROOM
        };
        let enough = taken.min(most);
        let (some, more) = (self.below(enough + 1), 1 + self.below(8));
        self.pick(&[0, 1, 2, some, some, enough, enough, enough + more])
    }

    /// For a file of so many bytes: exact, longer, one too few, none, or any number too few.
    fn file_length(&mut self, size: u64) -> u64 {
        let (more, fewer) = (1 + self.below(5000), self.below(size));
        self.pick(&[size, size, size, size + 1, size + more, size - 1, 0, fewer])
    }

    fn damage(&mut self, file: &[u8]) -> Damage {
        let size = file.len() as u64;
        let (byte, bit) = (self.place(file), self.below(8));
        // All but the damage that grows take any number.
        let times = self.pick(&[0, 0, 0, 0, 0, 0, 1, 1 << 32]);
        match self.below(12) {
            0 => Damage::Whole,
            1 => Damage::Cut(self.cut_length(file) + times * (size + 1)),
            2 => Damage::Grow(self.around(&[0, 1, 24, 40], 0, 5000)),
            3..=5 => {
                let value = self.byte_for(file[byte as usize]);
                Damage::Set(256 * (byte + times * size) + value)
            }
            _ => Damage::Flip(8 * (byte + times * size) + bit),
        }
    }

    /// A byte, of the first, of the directory or of a section that has any; of the inputs more often.
    fn place(&mut self, file: &[u8]) -> u64 {
        let directory = layout(file);
        let head = [[0, 1], [1, FIRST_OFFSET as u64 - 1]];
        let inputs = directory.map(|directory| directory[0]);
        let sections = directory.into_iter().flatten().chain(inputs);
        let parts = head.into_iter().chain(sections);
        let parts: Vec<[u64; 2]> = parts.filter(|[_, length]| *length > 0).collect();
        let [offset, length] = self.pick(&parts);
        offset + self.below(length)
    }

    /// In place of this one: the same, one beside it, the least, the greatest or any.
    fn byte_for(&mut self, byte: u8) -> u64 {
        let (more, less) = (byte.wrapping_add(1), byte.wrapping_sub(1));
        let any = self.below(256) as u8;
        self.pick(&[byte, more, less, 0, u8::MAX, any, any]).into()
    }

    /// None, about the directory's end, at a section's start, about the whole, or any.
    fn cut_length(&mut self, file: &[u8]) -> u64 {
        let size = file.len() as u64;
        let starts = layout(file).map(|directory| directory.map(|[offset, _]| offset));
        let start = self.pick(&starts.unwrap_or([FIRST_OFFSET as u64; 5]));
        let any = self.below(size + 1);
        self.pick(&[0, 1, 40, 41, start, start, size - 1, size, any, any])
    }
}
