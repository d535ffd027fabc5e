//! Whether a configuration that was filed is still accepted (request L6).

use crate::input::Input;

/// The round slots are below the repeats.
const TOO_SHORT: u8 = 16;

/// What is told of a configuration without a run.
#[derive(Debug, Clone, Copy, PartialEq, Eq)]
pub enum Validity {
    /// It is accepted.
    Current,
    /// 16 alone refuses it.
    Outdated,
    /// The number of the first question but 16 that refuses it.
    Refused(u8),
}

impl Input {
    pub fn validity(&self) -> Validity {
        let other = self.refusals().find(|number| *number != TOO_SHORT);
        match (other, self.refusal()) {
            (Some(number), _) => Validity::Refused(number),
            (None, Some(_)) => Validity::Outdated,
            (None, None) => Validity::Current,
        }
    }
}
