//! One round of a run, by the Rust itself.

use oracle::{place, previews, random, run, small};
use oracle::{Answer, Input, Line, Preview, Summary};

/// The answer to `round K LINE`.
fn preview(round: &str, line: &str) -> String {
    let line = format!("round {round} {line}");
    let Some(Line::Run { round, input }) = Line::parse(line.as_bytes()) else {
        return "refused 12\n".into();
    };
    run(&input).preview(round.expect("a round")).to_string()
}

fn rounds_are(line: &str, rounds: &[&str]) {
    for (k, round) in rounds.iter().enumerate() {
        assert_eq!(preview(&k.to_string(), line), format!("{round}\n"));
    }
    for k in [rounds.len() as u64, 1 << 32, u64::MAX] {
        assert_eq!(preview(&k.to_string(), line), "refused 13\n");
    }
}

#[test]
fn printed_run() {
    let rounds = [
        "packet 0 0 1 0 0 0 0 1 0 0 0 0 0 part 7",
        "packet 1 0 2 0 0 1 0 0 0 0 0 0 0 part 7",
    ];
    rounds_are("2 3 0 1 - 0000000000000000 7 1 2 1000", &rounds);
}

/// The rules' worked example, section 13: round 1 misses node 2, round 2 has a NACK and round 3 the
/// piggyback.
#[test]
fn worked_example() {
    let rounds = [
        "packet 0 0 1 0 0 0 0 1 0 0 0 0 0 part 7",
        "packet 1 1 2 0 0 1 0 1 1 0 0 0 0 part 3",
        "packet 2 2 4 1 1 1 0 1 2 0 0 0 0 part 7",
        "packet 0 2 1 0 0 1 2 0 0 1 1 1 1 part 7",
        "packet 1 2 2 0 0 1 2 0 0 0 0 0 0 part 7",
    ];
    rounds_are("2 3 0 1 - 3fe0000000000000 37 3 2 1000", &rounds);
    let rows = "rows 3 00000002,00000005,00000002 1 - 3fe0000000000000 37 3 2 1000";
    rounds_are(rows, &rounds);
}

#[test]
fn no_round_at_all() {
    rounds_are("2 3 0 1 - 0000000000000000 7 1 2 0", &[]);
}

/// Only the initiator takes part in a round of as many slots as there are repeats.
#[test]
fn the_longest_run() {
    let line = "2 2 0 1 1 0000000000000000 7 1 1 5000";
    let last = preview("1002", line);
    assert_eq!(last, "packet 0 0 1 0 0 0 0 0 0 0 0 0 0 part 1\n");
    assert_eq!(preview("1003", line), "refused 13\n");
}

#[test]
fn questions_in_their_order() {
    let line = "2 3 0 1 - 0000000000000000 7 1 2 1000";
    assert_eq!(preview("00000000000000000001", line), preview("1", line));
    for round in ["", "-", "-1", "+1", "18446744073709551616", "0 "] {
        assert_eq!(preview(round, line), "refused 12\n", "{round}");
    }
    assert_eq!(preview("0", &format!("{line} ")), "refused 12\n");
    assert_eq!(preview("0", &format!("round 0 {line}")), "refused 12\n");
    let refused = "2 3 0 1 - 0000000000000000 7 1 0 0";
    assert_eq!(preview("9", refused), "refused 9\n");
    let too_short = "2 3 0 2 1 3ff0000000000000 7 1 0 0";
    assert_eq!(preview("9", too_short), "refused 16\n");
}

#[test]
fn rounds_agree_with_the_summary() {
    let accepted = small().filter(|input| input.refusal().is_none());
    for input in accepted.step_by(97).chain(random(6).take(300)) {
        let Answer::Ran(run) = run(&input) else {
            panic!("not accepted: {input}");
        };
        let packets = run.rounds.iter().map(|round| round.packet);
        let nacks: u64 = packets.map(|packet| packet[place::NACK]).sum();
        assert_eq!(nacks, run.nacks_sent, "{input}");
        assert_eq!(run.took_part(), run.flood_nodes_covered, "{input}");
        packets_follow_the_rules(&input, &run);
    }
}

/// What the round's number fixes of its packet, and that the data are the terms' own.
fn packets_follow_the_rules(input: &Input, run: &Summary) {
    let proposals = input.num_proposals;
    for (k, round) in (0..).zip(&run.rounds) {
        let packet = round.packet;
        let (sender, term) = (k % run.nodes as u64, k.min(proposals.saturating_sub(1)));
        let found = [packet[place::SENDER], packet[place::TERM]];
        assert_eq!(found, [sender, term], "round {k} of {input}");
        let data = if k < proposals { [1, k] } else { [0, 0] };
        let given = |at: usize| [packet[at], packet[at + 1]];
        assert_eq!(given(place::DATA), data, "round {k} of {input}");
        let (piggyback, its_data) = (given(place::PIGGYBACK), given(place::PIGGYBACK_DATA));
        assert_eq!(piggyback, its_data, "round {k} of {input}");
        let sender_is_in = packet[place::FLAGS] & round.part & 1 << sender != 0;
        assert!(sender_is_in, "round {k} of {input}");
    }
}

#[test]
fn preview_lines_meet_every_question() {
    let mut met = [false; 17];
    for line in previews(5).take(1500) {
        let Some(Line::Run { round, input }) = Line::parse(line.as_bytes()) else {
            met[12] = true;
            continue;
        };
        match run(&input).preview(round.expect("a round")) {
            Preview::Refused(number) => met[number as usize] = true,
            Preview::Seen(_) => met[0] = true,
            Preview::Panicked => panic!("{line}"),
        }
    }
    let not_met: Vec<usize> = (0..17).filter(|&number| !met[number]).collect();
    assert_eq!(not_met, [10, 11, 14, 15]);
}
