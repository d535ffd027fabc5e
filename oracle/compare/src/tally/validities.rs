//! The validities that were compared.

use super::is_of_rows;
use oracle::{Input, Validity};
use std::fmt;

#[derive(Default)]
pub(super) struct Validities {
    current: u64,
    outdated: u64,
    outdated_of_rows: u64,
    refused: u64,
    /// Those whose first refusal is 16, and another is told.
    refused_behind: u64,
}

impl Validities {
    pub(super) fn add(&mut self, input: &Input) {
        match input.validity() {
            Validity::Current => self.current += 1,
            Validity::Outdated => {
                self.outdated += 1;
                self.outdated_of_rows += u64::from(is_of_rows(input));
            }
            Validity::Refused(number) => {
                self.refused += 1;
                let behind = input.refusal() != Some(number);
                self.refused_behind += u64::from(behind);
            }
        }
    }
}

impl fmt::Display for Validities {
    fn fmt(&self, f: &mut fmt::Formatter) -> fmt::Result {
        let all = self.current + self.outdated + self.refused;
        writeln!(f, "validities {all}")?;
        writeln!(f, "  current {}", self.current)?;
        writeln!(f, "  outdated {}", self.outdated)?;
        writeln!(f, "    of rows {}", self.outdated_of_rows)?;
        writeln!(f, "  refused {}", self.refused)?;
        writeln!(f, "    behind a refusal by 16 {}", self.refused_behind)
    }
}
