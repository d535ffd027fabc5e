//! What is told of one round of a run.

use crate::answer::Answer;
use crate::round::Round;

/// What is told of one round.
pub enum Preview<'a> {
    Refused(u8),
    Seen(&'a Round),
    Panicked,
}

/// The run ends before the round.
const ENDS_BEFORE: u8 = 13;

impl Answer {
    /// What is told of a round, where this is the answer to the whole run.
    pub fn preview(&self, round: u64) -> Preview<'_> {
        match self {
            Answer::Refused(number) => Preview::Refused(*number),
            Answer::Ran(run) => match run.rounds.get(round as usize) {
                Some(seen) => Preview::Seen(seen),
                None => Preview::Refused(ENDS_BEFORE),
            },
            Answer::Panicked(_) => Preview::Panicked,
        }
    }
}
