//! One run of ctsim for one input.

use crate::input::{Graph, Input};
use crate::round::{set, Round};
use ctsim::config::{CiConfig, NetworkConfig, SimConfig};
use ctsim::metrics::MetricsCollector;
use ctsim::network::NetworkGraph;
use ctsim::protocol::paxos::NodePaxosState;
use ctsim::sim::paxos_pipeline::harness::{self, Finished};
use ctsim::sim::paxos_pipeline::PaxosPipelineSim;
use std::panic::{catch_unwind, AssertUnwindSafe};

/// Numbers of the listing's first three lines.
pub const TOTALS_LENGTH: usize = 15;

#[derive(Debug, Clone, PartialEq, Eq)]
pub enum Answer {
    Refused(u8),
    Ran(Box<Summary>),
    /// The Rust's message.
    Panicked(String),
}

/// A run's results, under the names that the source has for them.
#[derive(Debug, Clone, PartialEq, Eq)]
pub struct Summary {
    pub nodes: usize,
    pub rounds: Vec<Round>,
    pub slots: u64,
    pub ended: u8,
    pub listen: u64,
    pub flood: u64,
    pub sleep: u64,
    pub rx_attempts: u64,
    pub rx_success: u64,
    pub flood_rounds: u64,
    pub flood_nodes_total: u64,
    pub flood_nodes_covered: u64,
    pub nacks_sent: u64,
    pub piggybacks_sent: u64,
    /// In the order in which they were recorded.
    pub records: Vec<Record>,
    /// Slot, progress, listening, flooding, sleeping: all that were taken.
    pub snapshots: Vec<[u64; 5]>,
    /// Terms of each node, in commit order.
    pub logs: Vec<Vec<u64>>,
    /// The data beside each of those terms.
    pub data: Vec<Vec<String>>,
    pub pending: Vec<Vec<Pending>>,
    pub last_accepted: Vec<Option<u64>>,
}

impl Summary {
    /// The nodes that took part, added up over the rounds. ctsim has no count of them.
    pub fn took_part(&self) -> u64 {
        let sizes = self.rounds.iter().map(|round| round.part.count_ones());
        sizes.map(u64::from).sum()
    }

    /// The numbers of the listing's first three lines.
    pub fn totals(&self) -> [u64; TOTALS_LENGTH] {
        [
            self.nodes as u64,
            self.rounds.len() as u64,
            self.slots,
            self.ended.into(),
            self.listen,
            self.flood,
            self.sleep,
            self.rx_attempts,
            self.rx_success,
            self.flood_rounds,
            self.flood_nodes_total,
            self.flood_nodes_covered,
            self.took_part(),
            self.nacks_sent,
            self.piggybacks_sent,
        ]
    }
}

#[derive(Debug, Clone, PartialEq, Eq)]
pub struct Record {
    pub id: u64,
    pub start: u64,
    pub end: u64,
    pub latency: u64,
}

/// A pending term and the set of nodes that voted for it.
#[derive(Debug, Clone, PartialEq, Eq)]
pub struct Pending {
    pub term: u64,
    pub votes: u32,
}

/// Answers one line, without its newline.
pub fn answer(line: &[u8]) -> Answer {
    match Input::parse(line) {
        None => Answer::Refused(12),
        Some(input) => run(&input),
    }
}

/// Asks the questions and runs ctsim.
pub fn run(input: &Input) -> Answer {
    match input.refusal() {
        Some(number) => Answer::Refused(number),
        None => run_unasked(input),
    }
}

fn run_unasked(input: &Input) -> Answer {
    match caught(|| summary(wrapped(input))) {
        Ok(summary) => Answer::Ran(Box::new(summary)),
        Err(message) => Answer::Panicked(message),
    }
}

/// What differs between a run with the wrapper and `PaxosPipelineSim::run` itself.
/// `None`: nothing, or the input is refused.
pub fn reference_difference(input: &Input) -> Option<String> {
    if input.refusal().is_some() {
        return None;
    }
    let both = || {
        let core = wrapped(input).core;
        let wrapped = format!("{:?} {:?}", slot_sums(&core.nodes), core.metrics);
        let (metrics, l, f, s) = reference(input);
        let reference = format!("{:?} {metrics:?}", [l, f, s]);
        (wrapped != reference).then(|| format!("wrapped {wrapped}\nreference {reference}"))
    };
    caught(both).unwrap_or_else(Some)
}

/// ctsim's own run of an accepted input: its metrics and three sums.
pub fn reference(input: &Input) -> (MetricsCollector, u64, u64, u64) {
    let graph = network(&input.graph);
    PaxosPipelineSim::new(config(input, graph.num_nodes()), graph).run()
}

fn wrapped(input: &Input) -> Finished {
    let graph = network(&input.graph);
    harness::run(config(input, graph.num_nodes()), graph)
}

/// The message, if it panics.
fn caught<T>(job: impl FnOnce() -> T) -> Result<T, String> {
    catch_unwind(AssertUnwindSafe(job)).map_err(|payload| {
        let text = payload.downcast_ref::<&str>().map(|text| text.to_string());
        let text = text.or_else(|| payload.downcast_ref::<String>().cloned());
        text.unwrap_or_else(|| "no message".into())
    })
}

/// The Rust's configuration of an accepted input. Its two texts and
/// `abort_probability` are read by nothing that runs here.
fn config(input: &Input, num_nodes: usize) -> SimConfig {
    SimConfig {
        seed: input.seed,
        phy_mode: "ci".into(),
        network: NetworkConfig {
            num_nodes,
            topology: String::new(),
            loss_rate: f64::from_bits(input.loss_rate),
            graph_file: None,
        },
        ci: Some(CiConfig {
            flood_repeats: input.flood_repeats as u32,
            round_slots: input.round_slots,
        }),
        ce: None,
        protocol: "paxos".into(),
        num_proposals: input.num_proposals as usize,
        snapshot_interval: input.snapshot_interval,
        max_slots: input.max_slots,
        abort_probability: 0.0,
        quiet: true,
    }
}

/// ctsim's diameter of an accepted graph.
pub(crate) fn diameter(graph: &Graph) -> u64 {
    network(graph).diameter() as u64
}

/// The Rust's own builders; rows by the child module of `network.rs`.
fn network(graph: &Graph) -> NetworkGraph {
    match graph {
        Graph::Rows { nodes, rows } => NetworkGraph::from_rows(&rows[..*nodes as usize]),
        Graph::Topology {
            number,
            nodes,
            second,
        } => {
            let (n, second) = (*nodes as usize, *second as usize);
            match number {
                1 => NetworkGraph::full_mesh(n),
                2 => NetworkGraph::line(n),
                3 => NetworkGraph::star(n),
                4 => NetworkGraph::grid(n, second),
                5 => NetworkGraph::ring(n),
                6 => NetworkGraph::tree(n, second),
                _ => unreachable!("refused by question 1"),
            }
        }
    }
}

fn slot_sums(nodes: &[ctsim::node::Node]) -> [u64; 3] {
    [
        nodes.iter().map(|node| node.slots_listen).sum(),
        nodes.iter().map(|node| node.slots_flood).sum(),
        nodes.iter().map(|node| node.slots_sleep).sum(),
    ]
}

fn summary(finished: Finished) -> Summary {
    let Finished { core, states, .. } = finished;
    let metrics = &core.metrics;
    let [listen, flood, sleep] = slot_sums(&core.nodes);
    Summary {
        nodes: core.num_nodes(),
        rounds: finished.rounds.iter().map(Round::of).collect(),
        slots: core.current_slot,
        ended: finished.ended,
        listen,
        flood,
        sleep,
        rx_attempts: metrics.rx_attempts,
        rx_success: metrics.rx_success,
        flood_rounds: metrics.flood_rounds,
        flood_nodes_total: metrics.flood_nodes_total,
        flood_nodes_covered: metrics.flood_nodes_covered,
        nacks_sent: metrics.nacks_sent,
        piggybacks_sent: metrics.piggybacks_sent,
        records: metrics.proposals.iter().map(record).collect(),
        snapshots: metrics.snapshots.iter().map(snapshot).collect(),
        logs: states.iter().map(log).collect(),
        data: states.iter().map(data).collect(),
        pending: states.iter().map(pending).collect(),
        last_accepted: states.iter().map(|s| s.last_accepted).collect(),
    }
}

fn record(r: &ctsim::metrics::ProposalRecord) -> Record {
    Record {
        id: r.proposal_id as u64,
        start: r.start_slot,
        end: r.end_slot,
        latency: r.latency,
    }
}

fn snapshot(s: &ctsim::metrics::Snapshot) -> [u64; 5] {
    let counts = [
        s.nodes_goal_reached,
        s.nodes_listening,
        s.nodes_flooding,
        s.nodes_sleeping,
    ];
    let [progress, listening, flooding, sleeping] = counts.map(|count| count as u64);
    [s.slot, progress, listening, flooding, sleeping]
}

fn pending(state: &NodePaxosState) -> Vec<Pending> {
    let one = |p: &ctsim::protocol::paxos::PendingProposal| Pending {
        term: p.term,
        votes: set(&p.bitmap),
    };
    state.pending.iter().map(one).collect()
}

fn log(state: &NodePaxosState) -> Vec<u64> {
    state.log.iter().map(|(term, _)| *term).collect()
}

fn data(state: &NodePaxosState) -> Vec<String> {
    let text = |data: &[u8]| String::from_utf8_lossy(data).into_owned();
    state.log.iter().map(|(_, data)| text(data)).collect()
}

#[cfg(test)]
mod tests {
    use super::*;

    /// No accepted input is known to panic, so a refused one stands in.
    #[test]
    fn a_panic_is_an_answer() {
        let line = b"2 3 0 0 - 0000000000000000 7 1 2 1000";
        let input = Input::parse(line).expect("readable");
        assert_eq!(run(&input), Answer::Refused(5));
        let message = "attempt to subtract with overflow".into();
        assert_eq!(run_unasked(&input), Answer::Panicked(message));
    }

    /// What 16 refuses: no node reaches sleep.
    #[test]
    fn a_round_too_short_is_run_by_the_rust() {
        let line = b"2 2 0 2 1 0000000000000000 7 1 1 5000";
        let input = Input::parse(line).expect("readable");
        assert_eq!(run(&input), Answer::Refused(16));
        let Answer::Ran(run) = run_unasked(&input) else {
            panic!("no run");
        };
        assert_eq!((run.rounds.len(), run.slots, run.ended), (1003, 1003, 3));
        assert_eq!((run.listen, run.flood, run.sleep), (1003, 1003, 0));
    }
}
