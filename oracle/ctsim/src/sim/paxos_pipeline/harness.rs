//! `PaxosPipelineSim::run` with a wrapper around `PaxosCi`, which sees each round's
//! packet and participants, sees it begin and stop, and copies `states` out at the end.

use super::*;
use crate::event::Slot;

/// What is left of a run.
pub struct Finished {
    pub core: CiPipelineCore,
    pub states: Vec<NodePaxosState>,
    pub rounds: Vec<SeenRound>,
    /// The end number of rule 6.9, 1 to 4.
    pub ended: u8,
}

/// A round after its flood, before `process_round`.
pub struct SeenRound {
    /// Its first slot.
    pub start: Slot,
    /// As it is read from the bytes that were flooded.
    pub packet: PaxosPacket,
    /// Whether each node took part.
    pub took_part: Vec<bool>,
}

impl SeenRound {
    /// Asks what `process_round` is going to ask: `participated`, and each participant's bytes.
    fn of(start: Slot, core: &CiPipelineCore) -> Self {
        let flooded = &core.nodes[core.initiator()].payload;
        let nodes = 0..core.num_nodes();
        let took_part: Vec<bool> = nodes.map(|i| core.participated(i)).collect();
        let mut held = core.nodes.iter().zip(&took_part);
        let same = held.all(|(node, took_part)| !took_part || node.payload == *flooded);
        assert!(same, "a participant holds another packet than was flooded");
        Self {
            start,
            packet: deserialize_packet(flooded).expect("the flooded packet is readable"),
            took_part,
        }
    }
}

pub fn run(config: SimConfig, graph: NetworkGraph) -> Finished {
    let proto = PaxosCi {
        states: vec![NodePaxosState::new(); graph.num_nodes()],
        term_counter: 0,
        proposals_generated: 0,
        num_proposals: config.num_proposals,
        proposal_starts: HashMap::new(),
        globally_committed: HashSet::new(),
        piggyback_term: None,
        piggyback_data: Vec::new(),
        stop: false,
    };
    let mut seen = Seen::default();
    let wrapper = Wrapper {
        proto,
        round_start: 0,
        seen: &mut seen,
    };
    let core = run_ci_pipeline(wrapper, CiPipelineCore::new(config, graph));
    let at_limit = core.current_slot >= core.config.max_slots;
    let ended = seen.ended.unwrap_or(4);
    assert!(ended < 4 || at_limit, "stopped with none of the four ends");
    Finished {
        core,
        states: seen.states,
        rounds: seen.rounds,
        ended,
    }
}

#[derive(Default)]
struct Seen {
    states: Vec<NodePaxosState>,
    rounds: Vec<SeenRound>,
    ended: Option<u8>,
}

struct Wrapper<'a> {
    proto: PaxosCi,
    /// The first slot of the present round.
    round_start: Slot,
    seen: &'a mut Seen,
}

impl Wrapper<'_> {
    /// The first of the ends 1 to 3 that holds after `process_round`.
    fn end(&self, core: &CiPipelineCore) -> Option<u8> {
        let proposals = self.proto.num_proposals;
        let round = core.round_num as usize;
        if self.all_logs_complete() {
            return Some(1);
        }
        let all_recorded = self.proto.globally_committed.len() == proposals;
        if all_recorded && round > proposals + 5 * core.graph.diameter() {
            return Some(2);
        }
        (round > proposals + 1000).then_some(3)
    }

    fn all_logs_complete(&self) -> bool {
        let holds = |state: &NodePaxosState, t: u64| state.log.iter().any(|(lt, _)| *lt == t);
        let terms = 0..self.proto.num_proposals as u64;
        let complete = |state| terms.clone().all(|t| holds(state, t));
        self.proto.states.iter().all(complete)
    }
}

impl CiProtocol for Wrapper<'_> {
    fn name(&self) -> &str {
        self.proto.name()
    }

    fn on_start(&mut self, core: &mut CiPipelineCore) {
        self.proto.on_start(core);
    }

    fn prepare_round(&mut self, core: &mut CiPipelineCore) {
        self.round_start = core.current_slot;
        self.proto.prepare_round(core);
    }

    fn process_round(&mut self, core: &mut CiPipelineCore) {
        self.seen.rounds.push(SeenRound::of(self.round_start, core));
        self.proto.process_round(core);
        self.seen.ended = self.end(core);
        let stops = self.seen.ended.is_some();
        assert!(stops == self.proto.stop, "end number and stop disagree");
    }

    fn should_stop(&self, core: &CiPipelineCore) -> bool {
        self.proto.should_stop(core)
    }

    fn on_finish(&mut self, core: &mut CiPipelineCore) {
        self.proto.on_finish(core);
        self.seen.states = self.proto.states.clone();
    }
}
