//! Lines about two archive files, of which one supersedes.

use crate::answer::{run, Answer};
use crate::archive::{supersede, Superseding};
use crate::filing::{input_of_topology, Checking, Filed};
use crate::input::{decimal, Input};

/// Of `supersede HOW N ROOM HOW N ROOM LIMIT LINE`.
#[derive(Debug, Clone, PartialEq, Eq)]
pub struct Pairing {
    /// The first is of LINE, the second of LINE with LIMIT as its slot limit. Each is damaged as one
    /// to be checked.
    pub files: [Checking; 2],
}

/// What is told of a pair.
#[derive(Debug, Clone, PartialEq, Eq)]
pub enum Paired {
    /// By a question that LINE is asked, so that there are no files.
    Refused(u8),
    Told {
        /// The damaged ones.
        files: [Vec<u8>; 2],
        superseding: Superseding,
    },
    /// The Rust's message.
    Panicked(String),
}

impl Pairing {
    /// Reads what stands behind `supersede `.
    pub(crate) fn parse(fields: &str) -> Option<Self> {
        let fields: Vec<&str> = fields.splitn(8, ' ').collect();
        let [how, number, room, other_how, other_number, other_room, limit, line] =
            fields.try_into().ok()?;
        let input = input_of_topology(line)?;
        let other = Input {
            max_slots: decimal(limit)?,
            ..input.clone()
        };
        let first = Checking::of([how, number, room], input)?;
        let second = Checking::of([other_how, other_number, other_room], other)?;
        let files = [first, second];
        Some(Self { files })
    }

    /// Asks the questions, runs ctsim with both limits, damages the files of its answers and says which
    /// supersedes.
    pub fn run(&self) -> Paired {
        let answers = self.files.each_ref().map(|file| run(&file.input));
        self.paired(&answers)
    }

    /// The same, where these are ctsim's answers to the two inputs.
    pub fn paired(&self, answers: &[Answer; 2]) -> Paired {
        let [first, second] = [0, 1].map(|i| self.files[i].damaged(&answers[i]));
        match (first, second) {
            (Filed::File(first), Filed::File(second)) => Paired::Told {
                superseding: supersede(&first, &second),
                files: [first, second],
            },
            // No question is about the limit.
            (Filed::Refused(number), _) | (_, Filed::Refused(number)) => Paired::Refused(number),
            (Filed::Panicked(message), _) | (_, Filed::Panicked(message)) => {
                Paired::Panicked(message)
            }
        }
    }
}
