//! The rules' runs at the edges, by the Rust itself.

use ctsim::network::NetworkGraph;
use ctsim::protocol::paxos::{NodePaxosState, PendingProposal};
use oracle::{answer, broken, random, reference_difference, small, Answer, Input, Summary};

const PRINTED_LINE: &str = "2 3 0 1 - 0000000000000000 7 1 2 1000";
const PRINTED_RUN: &str = "\
nodes 3 rounds 2 slots 5 ended 1
listen 5 flood 6 sleep 4
links 4 4 floods 2 6 6 6 recovery 0 0
proposal 0 0 3 3
snapshot 0 0 2 1 0
snapshot 2 0 0 1 2
snapshot 4 0 0 2 1
log 0 0
log 1 0
log 2 0
";

fn text(line: &str) -> String {
    answer(line.as_bytes()).to_string()
}

fn ran(line: &str) -> Summary {
    match answer(line.as_bytes()) {
        Answer::Ran(summary) => *summary,
        other => panic!("{line}: {other:?}"),
    }
}

#[test]
fn printed_run() {
    assert_eq!(text(PRINTED_LINE), PRINTED_RUN);
    let rows = "rows 3 00000002,00000005,00000002 1 - 0000000000000000 7 1 2 1000";
    assert_eq!(text(rows), PRINTED_RUN);
    let rounds = ran(PRINTED_LINE).rounds;
    let starts: Vec<u64> = rounds.iter().map(|round| round.start).collect();
    assert_eq!(starts, [0, 3]);
}

#[test]
fn diameters() {
    let graphs = [
        (NetworkGraph::full_mesh(5), 1),
        (NetworkGraph::line(32), 31),
        (NetworkGraph::ring(5), 2),
        (NetworkGraph::grid(2, 3), 3),
        (NetworkGraph::tree(7, 2), 4),
        (NetworkGraph::tree(4, 0), 0),
        (NetworkGraph::from_rows(&[2, 1, 8, 4]), 1),
    ];
    for (graph, diameter) in graphs {
        assert_eq!(graph.diameter(), diameter);
    }
}

fn state(terms: &[u64], votes: usize, nodes: usize) -> NodePaxosState {
    let bitmap: Vec<bool> = (0..nodes).map(|i| i < votes).collect();
    let pending = |&term| PendingProposal {
        term,
        data: Vec::new(),
        bitmap: bitmap.clone(),
    };
    let mut state = NodePaxosState::new();
    state.pending = terms.iter().map(pending).collect();
    state
}

#[test]
fn majorities() {
    for (nodes, majority) in [(2, 2), (3, 2), (32, 17)] {
        assert!(state(&[0], majority, nodes).check_quorum(0));
        assert!(!state(&[0], majority - 1, nodes).check_quorum(0));
    }
}

#[test]
fn commit_steps_over_terms_not_held() {
    let mut state = state(&[1, 3], 1, 2);
    assert_eq!(state.commit_up_to(3), [0, 1, 2, 3]);
    let log: Vec<u64> = state.log.iter().map(|(term, _)| *term).collect();
    assert_eq!(log, [1, 3]);
    assert_eq!(state.detect_gap(5), Some(4));
}

#[test]
fn star_without_proposals() {
    let run = ran("3 4 0 1 - 0000000000000000 7 0 1 1000");
    assert_eq!((run.rounds.len(), run.slots, run.ended), (1, 2, 1));
    assert_eq!((run.listen, run.flood, run.sleep), (3, 4, 1));
}

/// A round has as many slots as there are repeats, so that it is cut behind its initiator.
#[test]
fn cut_rounds_end_by_their_number() {
    let run = ran("2 2 0 1 1 0000000000000000 7 1 1 5000");
    assert_eq!((run.rounds.len(), run.slots, run.ended), (1003, 1003, 3));
    assert_eq!((run.listen, run.flood, run.sleep), (1003, 1003, 0));
    let listed = run.to_string().matches("snapshot ").count();
    assert_eq!((listed, run.snapshots.len()), (1000, 1003));
}

#[test]
fn no_slot_no_round() {
    let run = ran("2 3 0 1 - 0000000000000000 7 1 2 0");
    assert_eq!((run.rounds.len(), run.slots, run.ended), (0, 0, 4));
}

#[test]
fn half_the_draws_are_lost() {
    use rand::Standard;
    assert!(f64::from_draw(1 << 63) >= 0.5);
    assert!(f64::from_draw(((1 << 52) - 1) << 11) < 0.5);
}

#[test]
fn refusals() {
    let refused = [
        ("0 3 0 1 - 0000000000000000 7 1 2 9", 1),
        ("2 33 0 1 - 0000000000000000 7 1 2 9", 2),
        ("4 33 1 1 - 0000000000000000 7 1 2 9", 2),
        ("4 4294967296 4294967296 1 - 0000000000000000 7 1 2 9", 2),
        ("2 3 1 1 - 0000000000000000 7 1 2 9", 3),
        ("6 3 33 1 - 0000000000000000 7 1 2 9", 3),
        ("rows 2 00000002 1 - 0000000000000000 7 1 2 9", 4),
        ("rows 2 00000003,00000001 1 - 0000000000000000 7 1 2 9", 4),
        ("rows 2 00000006,00000001 1 - 0000000000000000 7 1 2 9", 4),
        ("rows 2 00000002,00000000 0 - 0000000000000000 7 1 2 9", 4),
        ("2 3 0 0 - 0000000000000000 7 1 2 9", 5),
        ("2 3 0 65 - 0000000000000000 7 1 2 9", 5),
        ("2 3 0 1 4097 0000000000000000 7 1 2 9", 6),
        ("2 2 0 2 1 0000000000000000 7 1 1 5000", 16),
        ("2 3 0 1 0 0000000000000000 7 2 2 1000", 16),
        ("2 3 0 1 - 3ff0000000000000 7 1 2 9", 7),
        ("2 3 0 1 - 7ff8000000000000 7 1 2 9", 7),
        ("2 3 0 1 - 8000000000000001 7 1 2 9", 7),
        ("2 3 0 1 - 0000000000000000 7 65 2 9", 8),
        ("2 3 0 1 - 0000000000000000 7 1 0 9", 9),
        ("", 12),
        ("2 3 0 1 - 0000000000000000 7 1 2", 12),
        ("2 3 0 1 - 0000000000000000 7 1 2 9 ", 12),
        ("2 3 0 1 - 0000000000000000 7 1 2  9", 12),
        ("2 3 0 1 - 000000000000000A 7 1 2 9", 12),
        ("2 3 0 1 - 0000000000000000 7 1 2 18446744073709551616", 12),
        ("2 3 0 1 - 0000000000000000 7 1 2 000000000000000000009", 12),
        ("2 3 0 1 - 0000000000000000 - 1 2 9", 12),
    ];
    for (line, number) in refused {
        assert_eq!(answer(line.as_bytes()), Answer::Refused(number), "{line}");
    }
    ran("2 3 0 1 - 8000000000000000 7 1 2 00000000000000000009");
    ran("rows 2 00000002,00000001,ffffffff 1 - 0000000000000000 7 1 2 9");
}

fn refusal(line: &str) -> Option<u8> {
    Input::parse(line.as_bytes()).expect("readable").refusal()
}

#[test]
fn round_slots_are_at_least_the_repeats() {
    for repeats in [1, 2, 3, 63, 64] {
        for graph in ["2 3 0", "rows 3 00000002,00000005,00000002"] {
            let asked = |slots: &str| {
                let line = format!("{graph} {repeats} {slots} 0000000000000000 7 1 2 9");
                refusal(&line)
            };
            let with = |slots: u64| asked(&slots.to_string());
            let refusals = [0, repeats - 1, repeats, repeats + 1, 4096].map(with);
            assert_eq!(refusals, [Some(16), Some(16), None, None, None]);
            assert_eq!(asked("-"), None);
        }
    }
}

/// Round slots below the repeats, and another question's "no".
#[test]
fn question_16_stands_behind_6() {
    let refused = [
        ("0 3 0 2 1 0000000000000000 7 1 2 9", 1),
        ("2 33 0 2 1 0000000000000000 7 1 2 9", 2),
        ("rows 33 00000002,00000001 2 1 0000000000000000 7 1 2 9", 2),
        ("2 3 1 2 1 0000000000000000 7 1 2 9", 3),
        ("rows 2 00000002,00000000 2 1 0000000000000000 7 1 2 9", 4),
        ("2 3 0 65 64 0000000000000000 7 1 2 9", 5),
        ("2 3 0 65 0 0000000000000000 7 1 2 9", 5),
        ("2 3 0 5000 4097 0000000000000000 7 1 2 9", 5),
        ("2 3 0 2 1 3ff0000000000000 7 1 2 9", 16),
        ("2 3 0 2 1 0000000000000000 7 65 2 9", 16),
        ("2 3 0 2 1 0000000000000000 7 1 0 9", 16),
        ("2 3 0 64 63 7ff8000000000000 7 65 0 0", 16),
        ("rows 2 00000002,00000001 2 1 3ff0000000000000 7 65 0 9", 16),
    ];
    for (line, number) in refused {
        assert_eq!(refusal(line), Some(number), "{line}");
    }
    // No round slots are below repeats of 0.
    assert_eq!(refusal("2 3 0 0 0 0000000000000000 7 1 2 9"), Some(5));
    assert_eq!(refusal("2 3 0 64 4097 0000000000000000 7 1 2 9"), Some(6));
}

fn is_accepted(input: &Input) -> bool {
    input.refusal().is_none()
}

#[test]
fn lines_are_read_as_they_are_written() {
    for input in small().step_by(97).chain(random(3).take(500)) {
        assert_eq!(Input::parse(input.to_string().as_bytes()), Some(input));
    }
}

#[test]
fn small_lines_are_accepted_or_too_short() {
    let (accepted, refused): (Vec<Input>, Vec<Input>) = small().partition(is_accepted);
    assert_eq!((accepted.len(), refused.len()), (46_656, 15_552));
    for input in refused {
        assert_eq!(input.refusal(), Some(16), "{input}");
    }
}

#[test]
fn random_lines_are_of_every_kind() {
    let (mut ended, mut lossy, mut nacks, mut piggybacks, mut cut) = ([0; 5], 0, 0, 0, 0);
    for input in random(7).take(500) {
        let run = ran(&input.to_string());
        ended[run.ended as usize] += 1;
        lossy += u64::from(run.rx_success < run.rx_attempts);
        nacks += u64::from(run.nacks_sent > 0);
        piggybacks += u64::from(run.piggybacks_sent > 0);
        cut += u64::from(input.round_slots == Some(input.flood_repeats));
    }
    let [_, end_1, end_2, end_3, end_4] = ended;
    let counts = [end_1, end_2, end_3, end_4, lossy, nacks, piggybacks, cut];
    assert!(counts.iter().all(|count| *count > 40), "{counts:?}");
}

#[test]
fn wrapper_changes_nothing() {
    let small = small().filter(is_accepted).step_by(97);
    for input in small.chain(random(4).take(200)) {
        assert_eq!(reference_difference(&input), None, "{input}");
    }
}

#[test]
fn broken_lines_meet_every_question() {
    let mut met = [false; 17];
    for line in broken(5).take(5000) {
        match answer(line.as_bytes()) {
            Answer::Refused(number) => met[number as usize] = true,
            Answer::Ran(_) => met[0] = true,
            Answer::Panicked(message) => panic!("{line}: {message}"),
        }
    }
    let not_met: Vec<usize> = (0..17).filter(|&number| !met[number]).collect();
    assert_eq!(not_met, [10, 11, 13, 14, 15]);
}
