//! Lines that are broken.

use super::{Source, ONE};
use crate::input::{Graph, Input};

/// Lines without end that have one or two values beyond a limit or can't be read;
/// a few of them are accepted all the same, as leading zeros are.
pub fn broken(seed: u64) -> impl Iterator<Item = String> {
    let mut source = Source::new(seed);
    std::iter::from_fn(move || Some(source.broken_line()))
}

impl Source {
    pub(super) fn broken_line(&mut self) -> String {
        let mut input = self.input();
        if self.below(4) == 0 {
            return self.unreadable(&input.to_string());
        }
        self.break_values(&mut input);
        input.to_string()
    }

    /// One or two of them.
    pub(super) fn break_values(&mut self, input: &mut Input) {
        for _ in 0..1 + self.below(2) {
            self.break_value(input);
        }
    }

    fn break_value(&mut self, input: &mut Input) {
        match self.below(10) {
            0 => input.flood_repeats = self.pick(&[0, 65, 1 << 32, (1 << 32) + 1, u64::MAX]),
            1 => input.round_slots = Some(self.pick(&[4097, u64::MAX])),
            2 => input.loss_rate = self.bad_loss_rate(),
            3 => input.num_proposals = self.pick(&[65, 1 << 32, u64::MAX]),
            4 => input.snapshot_interval = 0,
            5 | 6 => self.shorten(input),
            _ => self.break_graph(&mut input.graph),
        }
    }

    /// Round slots below the repeats, unless these are 0.
    pub(super) fn shorten(&mut self, input: &mut Input) {
        let repeats = input.flood_repeats;
        let any = self.below(repeats.max(1));
        input.round_slots = Some(self.pick(&[repeats.saturating_sub(1), 0, any]));
    }

    /// 1, 2, infinity, NaNs, and numbers below zero.
    fn bad_loss_rate(&mut self) -> u64 {
        let rates = [
            1.0,
            2.0,
            f64::INFINITY,
            f64::NAN,
            -0.5,
            -5e-324,
            f64::NEG_INFINITY,
        ];
        let rate = self.pick(&rates).to_bits();
        let any = ONE + self.below(u64::MAX - ONE);
        let quiet_nan = u64::MAX;
        self.pick(&[rate, rate, quiet_nan, any | 1])
    }

    fn break_graph(&mut self, graph: &mut Graph) {
        match graph {
            Graph::Rows { nodes, rows } => {
                if self.below(4) == 0 {
                    *nodes = self.pick(&[0, 1, 33, u64::MAX]);
                } else {
                    self.break_rows(*nodes, rows);
                }
            }
            Graph::Topology {
                number,
                nodes,
                second,
            } => match self.below(3) {
                0 => *number = self.pick(&[0, 7, u64::MAX]),
                1 => *nodes = self.pick(&[0, 1, 33, 1 << 32, u64::MAX]),
                _ => *second = self.pick(&[0, 1, 32, 33, 1 << 32, u64::MAX]),
            },
        }
    }

    /// One bit that should not be as it is, or a set too few.
    fn break_rows(&mut self, nodes: u64, rows: &mut Vec<u32>) {
        if rows.is_empty() {
            return;
        }
        let at = self.below(rows.len() as u64) as usize;
        match self.below(4) {
            0 => rows.truncate(at),
            1 => rows[at] ^= 1 << at.min(31),
            2 => rows[at] ^= 1 << self.below(32),
            _ => rows[at] |= 1 << nodes.min(31),
        }
    }

    /// A line with one field, or one space, spoiled.
    fn unreadable(&mut self, line: &str) -> String {
        let mut fields: Vec<String> = line.split(' ').map(String::from).collect();
        let at = self.below(fields.len() as u64) as usize;
        let field = fields[at].clone();
        fields[at] = match self.below(12) {
            0 => String::new(),
            1 => format!("{field} "),
            2 => format!("{field}\t"),
            3 => format!("+{field}"),
            4 => format!("-{field}"),
            5 => "-".into(),
            6 => field.to_uppercase(),
            7 => format!("0{field}"),
            8 => format!("{field:0>20}"),
            9 => format!("{field:0>21}"),
            10 => self
                .pick(&["18446744073709551616", "99999999999999999999", "1.0", "é"])
                .into(),
            _ => return self.spoil_line(line),
        };
        fields.join(" ")
    }

    fn spoil_line(&mut self, line: &str) -> String {
        let (short, _) = line.rsplit_once(' ').unwrap_or((line, ""));
        match self.below(6) {
            0 => String::new(),
            1 => short.into(),
            2 => format!("{line} 0"),
            3 => format!(" {line}"),
            4 => format!("{line}\r"),
            _ => line.replace(' ', ","),
        }
    }
}
