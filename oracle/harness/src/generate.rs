//! Inputs to compare on: a list of small ones, random ones around the limits of
//! the questions, broken ones, and such lines with a round to preview, with many
//! seeds, to be asked for their validity, or to be filed and checked, also in pairs;
//! packets and texts of packets.

mod broken;
mod files;
mod packets;
mod pairs;
mod previews;
mod reshaped;
mod sweeps;
mod texts;
mod validities;

use crate::answer::{diameter, run, Answer};
use crate::input::{Graph, Input, GRID, TREE};
pub use broken::broken;
pub use files::{checkings, file_lines, filings};
pub use packets::{faults, near_packets, packet_lines, packets};
pub use pairs::{pair_lines, pairings};
pub use previews::previews;
use rand::{RngCore, SeedableRng};
use rand_chacha::ChaCha8Rng;
pub use reshaped::{reshaped_files, reshapings, Reshaped};
use std::iter::once;
pub use sweeps::{sweep_lines, sweeps};
pub use texts::{damaged_texts, damages, Taken};
pub use validities::validities;

const TOPOLOGIES: [u64; 6] = [1, 2, 3, 4, 5, 6];
/// 0, minus 0, 5e-324, 2^-53, 0.1, 0.5 and the greatest f64 below 1.
const LOSS_RATES: [u64; 7] = [
    0,
    1 << 63,
    1,
    0x3ca0_0000_0000_0000,
    0x3fb9_9999_9999_999a,
    0x3fe0_0000_0000_0000,
    0x3fef_ffff_ffff_ffff,
];
const MAX_ROUND_SLOTS: u64 = 4096;
const ONE: u64 = 0x3ff0_0000_0000_0000;

/// Every graph up to 4 nodes with small values of the rest, round slots below the repeats among them.
pub fn small() -> impl Iterator<Item = Input> {
    let half = 0.5f64.to_bits();
    small_graphs().into_iter().flat_map(move |graph| {
        let mut inputs = Vec::new();
        for flood_repeats in 1..=3 {
            for round_slots in once(None).chain((0..=6).map(Some)) {
                for num_proposals in 0..=3 {
                    for (loss_rate, seed) in [(0, 0), (half, 0), (half, 1)] {
                        for (snapshot_interval, max_slots) in [(1, 5), (7, u64::MAX)] {
                            let graph = graph.clone();
                            inputs.push(Input {
                                graph,
                                flood_repeats,
                                round_slots,
                                loss_rate,
                                seed,
                                num_proposals,
                                snapshot_interval,
                                max_slots,
                            });
                        }
                    }
                }
            }
        }
        inputs
    })
}

/// All topologies of 2 to 4 nodes, and the rows of all labelled graphs of that size.
fn small_graphs() -> Vec<Graph> {
    let mut graphs = Vec::new();
    for nodes in 2..=4 {
        let topology = |(number, nodes, second)| Graph::Topology {
            number,
            nodes,
            second,
        };
        graphs.extend([1, 2, 3, 5].map(|number| topology((number, nodes, 0))));
        graphs.extend((0..=4).map(|second| topology((TREE, nodes, second))));
        let sides = (1..=nodes).filter(|side| nodes % side == 0);
        graphs.extend(sides.map(|side| topology((GRID, side, nodes / side))));
        let links = nodes * (nodes - 1) / 2;
        graphs.extend((0..1u64 << links).map(|set| labelled_graph(nodes as usize, set)));
    }
    graphs
}

/// The graph of n nodes that has the k-th possible link when bit k is set.
fn labelled_graph(n: usize, set: u64) -> Graph {
    let mut k = 0;
    link_graph(n, |_, _| {
        k += 1;
        set >> (k - 1) & 1 == 1
    })
}

fn link_graph(n: usize, mut linked: impl FnMut(usize, usize) -> bool) -> Graph {
    let mut rows = vec![0; n];
    for i in 0..n {
        for j in 0..i {
            if linked(i, j) {
                rows[i] |= 1 << j;
                rows[j] |= 1 << i;
            }
        }
    }
    Graph::Rows {
        nodes: n as u64,
        rows,
    }
}

/// Accepted inputs without end, the same for the same seed.
pub fn random(seed: u64) -> impl Iterator<Item = Input> {
    let mut source = Source::new(seed);
    std::iter::from_fn(move || Some(source.input()))
}

/// The same inputs with their answers. Where a limit was found by a run without one, that run
/// stands before it.
pub fn random_answered(seed: u64) -> impl Iterator<Item = (Input, Answer)> {
    let mut source = Source::new(seed);
    std::iter::from_fn(move || Some(source.answered())).flatten()
}

/// Choices made from one stream of draws.
struct Source {
    draws: ChaCha8Rng,
    /// The last run that was made to find a limit.
    unlimited: Option<(Input, Answer)>,
}

impl Source {
    fn new(seed: u64) -> Self {
        let draws = ChaCha8Rng::seed_from_u64(seed);
        let unlimited = None;
        Self { draws, unlimited }
    }

    /// A number below `bound`.
    fn below(&mut self, bound: u64) -> u64 {
        self.draws.next_u64() % bound
    }

    fn pick<T: Copy>(&mut self, items: &[T]) -> T {
        items[self.below(items.len() as u64) as usize]
    }

    /// One of the limits, or with one chance in three a number from `low` to `high`.
    fn around(&mut self, limits: &[u64], low: u64, high: u64) -> u64 {
        if self.below(3) == 0 {
            low + self.below(high - low + 1)
        } else {
            self.pick(limits)
        }
    }

    fn input(&mut self) -> Input {
        let graph = if self.below(3) == 0 {
            self.rows()
        } else {
            self.topology()
        };
        let flood_repeats = self.flood_repeats();
        self.input_of(graph, flood_repeats)
    }

    fn flood_repeats(&mut self) -> u64 {
        self.around(&[1, 1, 2, 63, 64], 1, 8)
    }

    fn input_of(&mut self, graph: Graph, flood_repeats: u64) -> Input {
        let mut input = Input {
            round_slots: self.round_slots(flood_repeats, diameter(&graph)),
            graph,
            flood_repeats,
            loss_rate: self.loss_rate(),
            seed: self.seed(),
            num_proposals: self.around(&[0, 1, 2, 63, 64], 0, 64),
            snapshot_interval: self.around(&[1, 2, 1 << 63, u64::MAX], 1, 100),
            max_slots: u64::MAX,
        };
        input.max_slots = self.max_slots(&input);
        input
    }

    fn answered(&mut self) -> impl Iterator<Item = (Input, Answer)> {
        let input = self.input();
        let answer = run(&input);
        let before = self.unlimited.take();
        before.into_iter().chain([(input, answer)])
    }

    fn nodes(&mut self) -> u64 {
        self.around(&[2, 3, 31, 32], 2, 32)
    }

    fn topology(&mut self) -> Graph {
        let number = self.pick(&TOPOLOGIES);
        if number == GRID {
            let nodes = self.pick(&[1, 2, 3, 4, 5, 8, 16, 31, 32]);
            let least = if nodes == 1 { 2 } else { 1 };
            let second = least + self.below(32 / nodes - least + 1);
            return Graph::Topology {
                number,
                nodes,
                second,
            };
        }
        let nodes = self.nodes();
        let second = if number == TREE {
            self.around(&[0, 1, 2, 31, 32], 0, 32)
        } else {
            0
        };
        Graph::Topology {
            number,
            nodes,
            second,
        }
    }

    fn rows(&mut self) -> Graph {
        let n = self.nodes() as usize;
        let mut graph = match self.below(4) {
            0 => self.tree_with_links(n),
            1 => self.two_parts(n),
            _ => self.any_links(n),
        };
        if let Graph::Rows { rows, .. } = &mut graph {
            if self.below(8) == 0 {
                rows.push(self.draws.next_u64() as u32);
            }
        }
        graph
    }

    /// Connected: each node is joined to one before it, and a few links more.
    fn tree_with_links(&mut self, n: usize) -> Graph {
        let joined: Vec<usize> = (0..n as u64)
            .map(|i| self.below(i.max(1)) as usize)
            .collect();
        let rare = self.pick(&[4, 16, 1 << 32]);
        link_graph(n, |i, j| joined[i] == j || self.below(rare) == 0)
    }

    /// Unconnected: no link joins the nodes below a place with those from it on.
    fn two_parts(&mut self, n: usize) -> Graph {
        let place = 1 + self.below(n as u64 - 1) as usize;
        let rare = self.pick(&[1, 2]);
        link_graph(n, |i, j| {
            (i < place) == (j < place) && self.below(rare) == 0
        })
    }

    /// Connected or not: from every link down to none.
    fn any_links(&mut self, n: usize) -> Graph {
        let rare = self.pick(&[1, 2, 4, 8, 16, 1 << 32]);
        link_graph(n, |_, _| self.below(rare) == 0)
    }

    /// Absent, or so many that a flood is cut off behind its initiator, farther on or nowhere.
    fn round_slots(&mut self, repeats: u64, diameter: u64) -> Option<u64> {
        if self.below(3) == 0 {
            return None;
        }
        // A flood that loses nothing takes no more.
        let whole = repeats + diameter;
        let less = repeats.max(whole - 1);
        let any = repeats + self.below(MAX_ROUND_SLOTS - repeats + 1);
        let [r, most] = [repeats, MAX_ROUND_SLOTS];
        let limits = [r, r, r, r + 1, r + 2, less, whole, any, most - 1, most];
        Some(self.around(&limits, repeats, whole + 1))
    }

    fn loss_rate(&mut self) -> u64 {
        match self.below(4) {
            0 => (self.below(1 << 53) as f64 / (1u64 << 53) as f64).to_bits(),
            1 => self.below(ONE),
            _ => self.pick(&LOSS_RATES),
        }
    }

    fn seed(&mut self) -> u64 {
        let any = self.draws.next_u64();
        self.pick(&[0, 1, u64::MAX, any, any])
    }

    fn max_slots(&mut self, unlimited: &Input) -> u64 {
        match self.below(8) {
            0 | 1 => self.round_end(unlimited),
            2 => self.around(&[0, 1, 2, 1000, 5000], 0, 200),
            _ => u64::MAX,
        }
    }

    /// A slot beside the end of one of the run's rounds.
    fn round_end(&mut self, unlimited: &Input) -> u64 {
        let answer = run(unlimited);
        let Answer::Ran(summary) = &answer else {
            return u64::MAX;
        };
        let starts = summary.rounds.iter().map(|round| round.start);
        let ends: Vec<u64> = starts.skip(1).chain([summary.slots]).collect();
        self.unlimited = Some((unlimited.clone(), answer));
        let end = self.pick(&ends);
        self.pick(&[end.saturating_sub(1), end, end + 1])
    }
}
