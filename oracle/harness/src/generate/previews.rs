//! Lines `round K LINE`.

use super::Source;
use crate::answer::{run, Answer};
use rand::RngCore;

/// Lines without end: seven in eight are accepted, with rounds about the ends of the run and
/// between them; the rest are broken ones with any round.
pub fn previews(seed: u64) -> impl Iterator<Item = String> {
    let mut source = Source::new(seed);
    std::iter::from_fn(move || Some(source.preview_line()))
}

impl Source {
    fn preview_line(&mut self) -> String {
        if self.below(8) == 0 {
            let line = self.broken_line();
            let any = self.draws.next_u64();
            let round = self.pick(&[0, 1, 2, any, u64::MAX]);
            return format!("round {round} {line}");
        }
        let input = self.input();
        let rounds = match run(&input) {
            Answer::Ran(run) => run.rounds.len() as u64,
            _ => 0,
        };
        let round = self.round(rounds, input.num_proposals);
        format!("round {round} {input}")
    }

    /// A round of a run that has so many.
    fn round(&mut self, rounds: u64, proposals: u64) -> u64 {
        let between = self.below(rounds.max(1));
        // The greatest round that a run of so many proposals can have, and beyond.
        let greatest = proposals + 1001;
        let far = self.pick(&[greatest, greatest + 1, greatest + 2, u64::MAX]);
        let (last, before) = (rounds.saturating_sub(1), rounds.saturating_sub(2));
        self.pick(&[0, 1, between, between, before, last, last, rounds, far])
    }
}
