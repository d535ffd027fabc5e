//! Lines, and the questions that are put to them (rule 9.2).

use std::fmt;
use std::ops::RangeInclusive;

/// The graph of a line, as far as it could be read.
#[derive(Debug, Clone, PartialEq, Eq)]
pub enum Graph {
    /// `nodes` are the rows and `second` the columns of a grid.
    Topology {
        number: u64,
        nodes: u64,
        second: u64,
    },
    /// One set of neighbours a node, bit j for node j.
    Rows { nodes: u64, rows: Vec<u32> },
}

/// A readable line; its values may still be refused.
#[derive(Debug, Clone, PartialEq, Eq)]
pub struct Input {
    pub graph: Graph,
    pub flood_repeats: u64,
    pub round_slots: Option<u64>,
    /// The bits of the f64.
    pub loss_rate: u64,
    pub seed: u64,
    pub num_proposals: u64,
    pub snapshot_interval: u64,
    pub max_slots: u64,
}

pub(crate) const TREE: u64 = 6;
pub(crate) const GRID: u64 = 4;

impl Input {
    /// Reads a line without its newline. `None`: unreadable, refusal 12.
    pub fn parse(line: &[u8]) -> Option<Self> {
        let line = std::str::from_utf8(line).ok()?;
        let fields: Vec<&str> = line.split(' ').collect();
        let [kind, nodes, third, repeats, slots, loss, seed, proposals, interval, limit] =
            fields.try_into().ok()?;
        let nodes = decimal(nodes)?;
        let graph = if kind == "rows" {
            let rows = sets(third)?;
            Graph::Rows { nodes, rows }
        } else {
            let number = decimal(kind)?;
            let second = decimal(third)?;
            Graph::Topology {
                number,
                nodes,
                second,
            }
        };
        Some(Self {
            graph,
            flood_repeats: decimal(repeats)?,
            round_slots: if slots == "-" {
                None
            } else {
                Some(decimal(slots)?)
            },
            loss_rate: hexadecimal(loss, 16)?,
            seed: decimal(seed)?,
            num_proposals: decimal(proposals)?,
            snapshot_interval: decimal(interval)?,
            max_slots: decimal(limit)?,
        })
    }

    /// The number of the first question that is answered "no".
    pub fn refusal(&self) -> Option<u8> {
        self.refusals().next()
    }

    /// The numbers of all questions that are answered "no", in the order in which they are asked.
    pub(crate) fn refusals(&self) -> impl Iterator<Item = u8> {
        let questions = self.questions().into_iter();
        questions.filter(|(_, yes)| !yes).map(|(number, _)| number)
    }

    /// The questions in their order, each with its answer.
    fn questions(&self) -> Vec<(u8, bool)> {
        let slots = self.round_slots;
        let rate = f64::from_bits(self.loss_rate);
        let mut questions = self.graph.questions();
        questions.extend([
            (5, (1..=64).contains(&self.flood_repeats)),
            (6, slots.is_none_or(|slots| slots <= 4096)),
            (16, slots.is_none_or(|slots| slots >= self.flood_repeats)),
            (7, (0.0..1.0).contains(&rate)),
            (8, self.num_proposals <= 64),
            (9, self.snapshot_interval >= 1),
        ]);
        questions
    }
}

impl Graph {
    /// Those of the graph. Rows are not looked at unless the number of nodes fits.
    fn questions(&self) -> Vec<(u8, bool)> {
        match self {
            Graph::Topology {
                number,
                nodes,
                second,
            } => {
                let (nodes_fit, second_range) = topology_limits(*number, *nodes, *second);
                vec![
                    (1, (1..=6).contains(number)),
                    (2, nodes_fit),
                    (3, second_range.contains(second)),
                ]
            }
            Graph::Rows { nodes, rows } => {
                let nodes_fit = (2..=32).contains(nodes);
                let graph_fits = nodes_fit && rows_fit(*nodes as usize, rows);
                vec![(2, nodes_fit), (4, graph_fits)]
            }
        }
    }
}

/// Question 2, and the range that question 3 allows for the second number. It is not put to a grid.
fn topology_limits(number: u64, nodes: u64, second: u64) -> (bool, RangeInclusive<u64>) {
    let side = 1..=32;
    match number {
        GRID => {
            let sides = side.contains(&nodes) && side.contains(&second);
            let any = 0..=u64::MAX;
            (sides && (2..=32).contains(&(nodes * second)), any)
        }
        TREE => ((2..=32).contains(&nodes), 0..=32),
        _ => ((2..=32).contains(&nodes), 0..=0),
    }
}

/// Question 4. Sets after the first n are not looked at.
fn rows_fit(n: usize, rows: &[u32]) -> bool {
    let has = |i: usize, j: usize| rows[i] >> j & 1 == 1;
    let row_fits = |i: usize| {
        (0..32).all(|j| {
            if j < n {
                has(i, j) == has(j, i)
            } else {
                !has(i, j)
            }
        }) && !has(i, i)
    };
    rows.len() >= n && (0..n).all(row_fits)
}

/// 1 to 20 digits, below 2^64.
pub(crate) fn decimal(field: &str) -> Option<u64> {
    let digits = field.bytes().all(|b| b.is_ascii_digit());
    let length = (1..=20).contains(&field.len());
    if digits && length {
        field.parse().ok()
    } else {
        None
    }
}

/// Exactly so many lowercase digits.
fn hexadecimal(field: &str, digits: usize) -> Option<u64> {
    let lowercase = field
        .bytes()
        .all(|b| matches!(b, b'0'..=b'9' | b'a'..=b'f'));
    if lowercase && field.len() == digits {
        u64::from_str_radix(field, 16).ok()
    } else {
        None
    }
}

/// `-` for no set, else sets of eight digits with commas between them.
fn sets(field: &str) -> Option<Vec<u32>> {
    if field == "-" {
        return Some(Vec::new());
    }
    field
        .split(',')
        .map(|set| hexadecimal(set, 8).map(|bits| bits as u32))
        .collect()
}

impl fmt::Display for Input {
    fn fmt(&self, f: &mut fmt::Formatter) -> fmt::Result {
        write!(f, "{} {} ", self.graph, self.flood_repeats)?;
        match self.round_slots {
            None => write!(f, "-")?,
            Some(slots) => write!(f, "{slots}")?,
        }
        let Input {
            loss_rate,
            seed,
            num_proposals,
            snapshot_interval,
            max_slots,
            ..
        } = self;
        write!(
            f,
            " {loss_rate:016x} {seed} {num_proposals} {snapshot_interval} {max_slots}"
        )
    }
}

impl fmt::Display for Graph {
    fn fmt(&self, f: &mut fmt::Formatter) -> fmt::Result {
        match self {
            Graph::Topology {
                number,
                nodes,
                second,
            } => write!(f, "{number} {nodes} {second}"),
            Graph::Rows { nodes, rows } if rows.is_empty() => write!(f, "rows {nodes} -"),
            Graph::Rows { nodes, rows } => {
                let sets: Vec<String> = rows.iter().map(|row| format!("{row:08x}")).collect();
                write!(f, "rows {nodes} {}", sets.join(","))
            }
        }
    }
}

#[cfg(test)]
mod tests {
    use super::*;

    /// Where 6 and 16 both refuse, 5 does so before them.
    #[test]
    fn the_order_of_6_and_16_is_not_seen() {
        let line = b"2 3 0 1 - 0000000000000000 7 1 2 9";
        let mut input = Input::parse(line).expect("readable");
        for repeats in (0..=70).chain(4090..=4100).chain([5000, 1 << 32, u64::MAX]) {
            for slots in (0..=5010).chain([1 << 32, u64::MAX - 1, u64::MAX]) {
                input.flood_repeats = repeats;
                input.round_slots = Some(slots);
                let refusals: Vec<u8> = input.refusals().collect();
                let both = refusals.ends_with(&[6, 16]);
                assert!(!both || refusals[0] == 5, "{input}");
            }
        }
    }
}
