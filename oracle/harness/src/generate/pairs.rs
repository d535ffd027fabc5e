//! Pairs of files, and lines `supersede HOW N ROOM HOW N ROOM LIMIT LINE`.

use super::Source;
use crate::answer::{run, Answer};
use crate::archive::FIRST_OFFSET;
use crate::filing::{Checking, Damage};
use crate::input::Input;
use crate::pairing::Pairing;
use rand::RngCore;

/// Lines without end: one in eight has a broken LINE, which may be one of rows.
pub fn pair_lines(seed: u64) -> impl Iterator<Item = String> {
    let mut source = Source::new(seed);
    std::iter::from_fn(move || Some(source.pair_line()))
}

/// Pairs without end, with ctsim's answers to their inputs: one in sixteen is of a broken line.
pub fn pairings(seed: u64) -> impl Iterator<Item = (Pairing, [Answer; 2])> {
    let mut source = Source::new(seed);
    std::iter::from_fn(move || Some(source.pairing()))
}

impl Source {
    fn pair_line(&mut self) -> String {
        let (pairing, _) = self.pairing();
        let line = pairing.to_string();
        if self.below(8) > 0 {
            return line;
        }
        // It stands nowhere else in the line.
        let of_first = pairing.files[0].input.to_string();
        line.replace(&of_first, &self.broken_line())
    }

    /// Either limit may stand first.
    fn pairing(&mut self) -> (Pairing, [Answer; 2]) {
        let input = self.filed_input(16);
        let answer = run(&input);
        let other = Input {
            max_slots: self.other_limit(&input, &answer),
            ..input.clone()
        };
        let other_answer = run(&other);
        let mut runs = [(input, answer), (other, other_answer)];
        if self.below(2) == 0 {
            runs.reverse();
        }
        let mut files = runs
            .each_ref()
            .map(|(input, answer)| self.pair_file(input, answer));
        self.spare(&mut files);
        (Pairing { files }, runs.map(|(_, answer)| answer))
    }

    /// About the end of the run, where a record is just made or just not, about the run's own limit, at
    /// it, a bit away from it, or any.
    fn other_limit(&mut self, input: &Input, answer: &Answer) -> u64 {
        let (slots, records) = match answer {
            Answer::Ran(run) => (run.slots, &run.records[..]),
            _ => (0, &[][..]),
        };
        let ends: Vec<u64> = records.iter().map(|record| record.end).collect();
        let end = self.pick(&[&ends[..], &[slots]].concat());
        let about_end = [slots.saturating_sub(1), slots, slots + 1, end, end, end + 1];
        let limit = input.max_slots;
        let (less, more) = (limit.saturating_sub(1), limit.saturating_add(1));
        let about_limit = [less, limit, limit, more, limit ^ 1 << self.below(64)];
        let (within, any) = (self.below(slots + 1), self.draws.next_u64());
        let others = [0, 1, within, any, u64::MAX];
        self.pick(&[&about_end[..], &about_limit, &others].concat())
    }

    fn pair_file(&mut self, input: &Input, answer: &Answer) -> Checking {
        let room = self.room(answer);
        let damage = if self.below(2) == 0 {
            self.field_damage()
        } else {
            self.file_damage(input, answer, room)
        };
        let input = input.clone();
        Checking {
            damage,
            room,
            input,
        }
    }

    /// A bit of one of the ten fields: more often the lowest or the highest, and of such a byte.
    fn field_damage(&mut self) -> Damage {
        let place = FIRST_OFFSET as u64 + 8 * self.below(10) + self.around(&[0, 7], 0, 7);
        Damage::Flip(8 * place + self.around(&[0, 7], 0, 7))
    }

    /// Leaves both whole, or one, or does the same to both.
    fn spare(&mut self, files: &mut [Checking; 2]) {
        let [first, second] = files;
        match self.below(9) {
            0..=3 => {
                first.damage = Damage::Whole;
                second.damage = Damage::Whole;
            }
            4 | 5 => first.damage = Damage::Whole,
            6 | 7 => second.damage = Damage::Whole,
            _ if self.below(2) == 0 => second.damage = first.damage,
            _ => {}
        }
    }
}
