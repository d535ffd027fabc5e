//! Demand 3, worked out anew: what a run comes to in which no reception is lost.

use crate::library::Buffers;
use oracle::{Graph, Input, Summary};

/// More links than any path has.
const FAR: u64 = 1000;

pub struct Exact {
    proposals: usize,
    half: usize,
    /// The first slot of each round, and after the last round the first free slot.
    starts: Vec<u64>,
    listen: u64,
    flood: u64,
    sleep: u64,
}

impl Exact {
    /// `None` where a premise of demand 3 is not met.
    pub fn of(input: &Input, run: &Summary) -> Option<Self> {
        if run.rx_attempts != run.rx_success || input.num_proposals == 0 {
            return None;
        }
        let distances = distances(&input.graph, run.nodes);
        let diameter = *distances.iter().flatten().max()?;
        let longest = diameter + input.flood_repeats;
        let (proposals, half) = (input.num_proposals as usize, run.nodes / 2);
        let room = input.round_slots.is_none_or(|slots| slots >= longest);
        let limit = (proposals + half) as u64 * longest;
        let suited = diameter < FAR && room && input.max_slots >= limit;
        suited.then(|| Self::sums(&distances, input.flood_repeats, proposals, half))
    }

    fn sums(distances: &[Vec<u64>], repeats: u64, proposals: usize, half: usize) -> Self {
        let mut exact = Self {
            proposals,
            half,
            starts: vec![0],
            listen: 0,
            flood: 0,
            sleep: 0,
        };
        let mut slot = 0;
        for round in 0..proposals + half {
            let from = &distances[round % distances.len()];
            let farthest = from.iter().fold(0, |most, &k| most.max(k));
            slot += farthest + repeats;
            exact.starts.push(slot);
            for k in from {
                exact.listen += k;
                exact.flood += repeats;
                exact.sleep += farthest - k;
            }
        }
        exact
    }

    /// The first number that is another one in the library's buffers, or in ctsim's rounds.
    pub fn difference(&self, run: &Summary, found: &Buffers) -> Option<String> {
        let (summary, logs) = (&found.summary.places, &found.logs.places);
        let rounds = self.proposals + self.half;
        let everyone = (run.nodes * rounds) as u64;
        let mut numbers = vec![
            ("ended", 1, summary[3]),
            ("rounds", rounds as u64, summary[1]),
            ("slots", self.starts[rounds], summary[2]),
            ("listen", self.listen, summary[4]),
            ("flood", self.flood, summary[5]),
            ("sleep", self.sleep, summary[6]),
            ("covered", everyone, summary[11]),
            ("took part", everyone, summary[12]),
            ("records", self.proposals as u64, summary[15]),
            ("rounds of ctsim", rounds as u64, run.rounds.len() as u64),
        ];
        let starts = self.starts.iter().zip(&run.rounds);
        numbers.extend(starts.map(|(start, round)| ("round of ctsim", *start, round.start)));
        for t in 0..self.proposals {
            let record = &found.records.places[3 * t..];
            numbers.push(("record id", t as u64, record[0]));
            numbers.push(("record start", self.starts[t], record[1]));
            numbers.push(("record end", self.starts[t + self.half], record[2]));
        }
        for i in 0..run.nodes {
            numbers.push(("log length", self.proposals as u64, logs[2048 + i].into()));
            let terms = logs[64 * i..].iter().take(self.proposals).enumerate();
            numbers.extend(terms.map(|(t, term)| ("log term", t as u64, u64::from(*term))));
        }
        let (name, exact, found) = numbers
            .into_iter()
            .find(|(_, exact, found)| exact != found)?;
        Some(format!("{name}: by demand 3 {exact}, found {found}"))
    }
}

/// The least number of links from each node to each; at least FAR where no path joins them.
fn distances(graph: &Graph, n: usize) -> Vec<Vec<u64>> {
    let direct = |i, j| match (i == j, linked(graph, i, j)) {
        (true, _) => 0,
        (_, true) => 1,
        _ => FAR,
    };
    let mut distances: Vec<Vec<u64>> = (0..n)
        .map(|i| (0..n).map(|j| direct(i, j)).collect())
        .collect();
    for by in 0..n {
        for i in 0..n {
            for j in 0..n {
                let path = distances[i][by] + distances[by][j];
                distances[i][j] = distances[i][j].min(path);
            }
        }
    }
    distances
}

fn linked(graph: &Graph, i: usize, j: usize) -> bool {
    let (low, high) = (i.min(j) as u64, i.max(j) as u64);
    match graph {
        Graph::Rows { rows, .. } => rows[i] >> j & 1 == 1,
        _ if low == high => false,
        Graph::Topology {
            number,
            nodes,
            second,
        } => match number {
            1 => true,
            2 => high == low + 1,
            3 => low == 0,
            4 => high == low + second || (high == low + 1 && high % second != 0),
            5 => high == low + 1 || (low == 0 && high == nodes - 1),
            _ => *second > 0 && (high - 1) / second == low,
        },
    }
}
