//! Lines `validity LINE`.

use super::Source;

/// Lines without end, of four kinds: accepted, with round slots below the repeats, with these and
/// other broken values, and broken.
pub fn validities(seed: u64) -> impl Iterator<Item = String> {
    let mut source = Source::new(seed);
    std::iter::from_fn(move || Some(source.validity_line()))
}

impl Source {
    fn validity_line(&mut self) -> String {
        let mut input = self.input();
        match self.below(4) {
            0 => {}
            1 => self.shorten(&mut input),
            2 => {
                self.break_values(&mut input);
                self.shorten(&mut input);
            }
            _ => return format!("validity {}", self.broken_line()),
        }
        format!("validity {input}")
    }
}
