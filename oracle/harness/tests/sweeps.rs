//! Sweeps of many seeds, by the Rust itself.

use oracle::{random, run, small, sweep_lines, sweeps};
use oracle::{Answer, Input, Line, Sweep, Swept, MAX_SEEDS, SWEPT_LENGTH};

const PRINTED_LINE: &str = "2 3 0 1 - 0000000000000000 7 1 2 1000";
/// At loss 0.5, so that seeds differ.
const LOSSY_LINE: &str = "2 3 0 1 - 3fe0000000000000 37 3 2 1000";
/// No round is run.
const NO_SLOT: &str = "2 3 0 1 - 0000000000000000 7 1 2 0";

/// The answer to `sweep NUMBERS LINE`.
fn sweep(numbers: &str, line: &str) -> String {
    let line = format!("sweep {numbers} {line}");
    match Line::parse(line.as_bytes()) {
        Some(Line::Sweep(sweep)) => sweep.run().to_string(),
        None => "refused 12\n".into(),
        _ => panic!("no sweep: {line}"),
    }
}

/// The line of a run, by its summary.
fn line_of(input: &Input) -> String {
    let Answer::Ran(run) = run(input) else {
        panic!("not accepted: {input}");
    };
    let (rounds, records) = (run.rounds.len(), run.records.len());
    let [slots, listen, flood, sleep] = [run.slots, run.listen, run.flood, run.sleep];
    let ended = run.ended;
    format!("{rounds} {slots} {listen} {flood} {sleep} {records} {ended}\n")
}

/// The lines of these seeds.
fn lines_of(line: &str, seeds: &[u64]) -> String {
    let input = Input::parse(line.as_bytes()).expect("readable");
    let inputs = seeds.iter().map(|&seed| Input {
        seed,
        ..input.clone()
    });
    inputs.map(|input| line_of(&input)).collect()
}

#[test]
fn printed_run() {
    let line = "2 5 5 6 4 1 1\n";
    assert_eq!(
        sweep("7 1 7 0", PRINTED_LINE),
        format!("{line}rounds 2 kept 0\n")
    );
    let rows = "rows 3 00000002,00000005,00000002 1 - 0000000000000000 7 1 2 1000";
    let two = format!("{line}{line}rounds 4 kept 5\n");
    assert_eq!(sweep("19 2 7 1", PRINTED_LINE), two);
    assert_eq!(sweep("19 2 7 1", rows), two);
}

#[test]
fn no_seeds() {
    assert_eq!(sweep("0 0 7 1", PRINTED_LINE), "rounds 0 kept 0\n");
    assert_eq!(sweep("9 0 7 1", PRINTED_LINE), "rounds 0 kept 9\n");
}

/// Seed 37 is that of the rules' worked example: 5 rounds.
#[test]
fn the_lines_own_seed_is_not_used() {
    let of_37 = lines_of(LOSSY_LINE, &[37]);
    assert!(of_37.starts_with("5 "), "{of_37}");
    for seed in [0, 37, u64::MAX] {
        let line = LOSSY_LINE.replace(" 37 ", &format!(" {seed} "));
        assert_eq!(
            sweep("7 1 37 9", &line),
            format!("{of_37}rounds 5 kept 0\n")
        );
    }
}

#[test]
fn seeds_go_by_the_step() {
    let max = u64::MAX;
    let half = 1u64 << 63;
    let cases: [(&str, &[u64]); 6] = [
        ("3 0", &[3, 3, 3, 3]),
        ("3 1", &[3, 4, 5, 6]),
        ("18446744073709551614 1", &[max - 1, max, 0, 1]),
        ("1 18446744073709551615", &[1, 0, max, max - 1]),
        ("3 9223372036854775808", &[3, half + 3, 3, half + 3]),
        ("0 4611686018427387904", &[0, half / 2, half, half / 2 * 3]),
    ];
    for (numbers, seeds) in cases {
        let answer = sweep(&format!("30 4 {numbers}"), LOSSY_LINE);
        let lines = lines_of(LOSSY_LINE, seeds);
        assert!(answer.starts_with(&lines), "{numbers}: {answer}");
        assert!(answer.ends_with(" kept 2\n"), "{numbers}: {answer}");
    }
    // The fifth seed is the first again.
    let five = sweep("35 5 0 4611686018427387904", LOSSY_LINE);
    let lines: Vec<&str> = five.lines().collect();
    assert_eq!(lines[0], lines[4]);
}

#[test]
fn as_many_seeds_as_there_may_be() {
    let answer = sweep("458752 65536 0 1", NO_SLOT);
    let lines = "0 0 0 0 0 0 4\n".repeat(65_536);
    assert!(answer == format!("{lines}rounds 0 kept 0\n"));
    assert_eq!(sweep("458759 65537 0 1", NO_SLOT), "refused 15\n");
    assert_eq!(
        sweep("18446744073709551615 65537 0 1", NO_SLOT),
        "refused 15\n"
    );
}

#[test]
fn a_table_too_short() {
    for numbers in [
        "6 1 7 1",
        "0 1 7 1",
        "13 2 7 1",
        "7 2 7 1",
        "458751 65536 0 1",
    ] {
        assert_eq!(sweep(numbers, PRINTED_LINE), "refused 15\n", "{numbers}");
    }
}

/// Seven times the first of them is a small number modulo 2^64.
#[test]
fn no_count_is_too_great() {
    for count in [u64::MAX / 7 + 1, 1 << 61, 1 << 63, u64::MAX] {
        for length in [0, 7, 1 << 20, u64::MAX] {
            let answer = sweep(&format!("{length} {count} 0 1"), PRINTED_LINE);
            assert_eq!(answer, "refused 15\n", "{length} {count}");
        }
    }
}

#[test]
fn questions_in_their_order() {
    let broken = "2 3 0 1 - 0000000000000000 7 1 0 9";
    for numbers in ["7 1 7 1", "6 1 7 1", "0 18446744073709551615 7 1"] {
        assert_eq!(sweep(numbers, broken), "refused 9\n", "{numbers}");
    }
    let topology = "0 3 0 1 - 0000000000000000 7 1 0 9";
    assert_eq!(sweep("0 1 7 1", topology), "refused 1\n");
    let too_short = "2 3 0 2 1 3ff0000000000000 7 1 0 9";
    assert_eq!(sweep("0 1 7 1", too_short), "refused 16\n");
    assert_eq!(sweep("0 0 7 1", too_short), "refused 16\n");
    assert_eq!(
        sweep("00000000000000000007 01 07 00", PRINTED_LINE),
        sweep("7 1 7 0", PRINTED_LINE)
    );
}

#[test]
fn unreadable() {
    let numbers = [
        "",
        "7",
        "7 1 7",
        "7 1 7 1 1",
        " 7 1 7 1",
        "7  1 7 1",
        "7 1 7 1 ",
        "- 1 7 1",
        "7 -1 7 1",
        "7 1 +7 1",
        "7 1 7 18446744073709551616",
        "000000000000000000007 1 7 1",
    ];
    for numbers in numbers {
        assert_eq!(sweep(numbers, PRINTED_LINE), "refused 12\n", "{numbers}");
    }
    for line in ["", "-", "round 0 2 3 0 1 - 0000000000000000 7 1 2 1000"] {
        assert_eq!(sweep("7 1 7 1", line), "refused 12\n", "{line}");
    }
    let twice = format!("sweep 7 1 7 1 {PRINTED_LINE}");
    assert_eq!(sweep("7 1 7 1", &twice), "refused 12\n");
    let of_round = format!("round 0 {twice}");
    assert!(Line::parse(of_round.as_bytes()).is_none());
}

#[test]
fn lines_are_those_of_runs() {
    let accepted = small().filter(|input| input.refusal().is_none());
    for input in accepted.step_by(997).chain(random(8).take(60)) {
        let line = input.to_string();
        let seeds = [u64::MAX, 0, 1];
        let answer = sweep(&format!("21 3 {} 1", u64::MAX), &line);
        assert!(answer.starts_with(&lines_of(&line, &seeds)), "{line}");
    }
}

#[test]
fn sweep_lines_meet_every_question() {
    let mut met = [false; 17];
    let mut of_count = [false; 13];
    for line in sweep_lines(5).take(1000) {
        let Some(Line::Sweep(sweep)) = Line::parse(line.as_bytes()) else {
            met[12] = true;
            continue;
        };
        match sweep.run() {
            Swept::Refused(number) => met[number as usize] = true,
            Swept::Ran { lines, .. } => {
                met[0] = true;
                of_count[lines.len()] = true;
            }
            Swept::Panicked(message) => panic!("{line}: {message}"),
        }
    }
    let not_met: Vec<usize> = (0..17).filter(|&number| !met[number]).collect();
    assert_eq!(not_met, [10, 11, 13, 14]);
    assert_eq!(of_count, [true; 13]);
}

#[test]
fn sweeps_are_read_as_they_are_written() {
    for sweep in sweeps(3).take(300) {
        let line = sweep.to_string();
        match Line::parse(line.as_bytes()) {
            Some(Line::Sweep(read)) => assert_eq!(read, sweep),
            _ => panic!("no sweep: {line}"),
        }
    }
}

/// Of 1,000, so that each turn comes twice.
#[test]
fn sweeps_are_of_every_kind() {
    let all: Vec<Sweep> = sweeps(5).take(1000).collect();
    let count = |meets: &dyn Fn(&Sweep) -> bool| all.iter().filter(|sweep| meets(sweep)).count();
    assert_eq!(count(&|sweep| sweep.count == MAX_SEEDS + 1), 4);
    assert_eq!(count(&|sweep| sweep.count == MAX_SEEDS), 2);
    for seeds in [0, 1, 2] {
        assert!(count(&|sweep| sweep.count == seeds) > 50, "{seeds}");
    }
    let repeats = |sweep: &Sweep| sweep.seeds().skip(1).any(|seed| seed == sweep.first);
    assert!(count(&|sweep| sweep.count < 100 && repeats(sweep)) > 100);
    assert!(count(&|sweep| sweep.input.refusal().is_some()) > 50);
    let places = |sweep: &Sweep| SWEPT_LENGTH as u64 * sweep.count;
    assert!(count(&|sweep| sweep.length == places(sweep)) > 300);
    assert_eq!(count(&|sweep| sweep.length < places(sweep)), 0);
}
