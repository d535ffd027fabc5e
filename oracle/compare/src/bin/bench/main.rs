//! Times ctsim and the library on the same lines, in turn.

mod lines;
mod packets;
mod pairs;
mod sweeps;
mod turns;
mod validities;

use compare::arguments::seed_and_count;
use compare::library::{self, Buffer, Buffers, PreviewBuffers, PART_LENGTH};
use compare::library::{LOGS_LENGTH, RECORDS_LENGTH, SNAPSHOT_LENGTH, SUMMARY_LENGTH};
use lines::{GROWTH, RUNS, SHORT};
use oracle::{Answer, Input, Summary, PACKET_LENGTH};
use packets::print_packets;
use pairs::print_pairs;
use std::hint::black_box;
use std::process::ExitCode;
use sweeps::print_sweeps;
use turns::{median, medians, Effort};
use validities::print_validities;

const HELP: &str = "\
usage: bench [SEED [COUNT]]

Prints a table of the processor time that ctsim and the library take for a run,
for six fixed runs, a table of the library's previews of their rounds, a table of
sweeps of 10000 seeds beside as many runs, for these and for short runs, a table of
packets written and read by both, a table of the library's validities, a table of pairs of
files of which it says which supersedes, and the median ratio over COUNT random runs (100)
of SEED (1).
";

const FIXED: Effort = Effort {
    turns: 15,
    seconds: 0.02,
};
const RANDOM: Effort = Effort {
    turns: 5,
    seconds: 0.002,
};

/// Seconds of processor time for one call.
struct Times {
    ctsim: f64,
    library: f64,
    draws: f64,
}

impl Times {
    fn ratio(&self) -> f64 {
        self.ctsim / self.library
    }
}

fn main() -> ExitCode {
    match seed_and_count(HELP, 100) {
        Ok((seed, count)) => {
            print_fixed();
            if count > 0 {
                print_random(seed, count);
            }
            ExitCode::SUCCESS
        }
        Err(status) => status,
    }
}

fn print_fixed() {
    println!("ctsim: building the graph and PaxosPipelineSim::run, quiet; library: the entry.");
    println!(
        "Processor time of one run in milliseconds; ratio: how many times faster the library is;"
    );
    println!("draws: as many of the seed's draws as the run made attempts, by the library.");
    print_table(&RUNS);
    print_table(&GROWTH);
    print_previews();
    print_sweeps();
    print_packets(&FIXED);
    print_validities(&FIXED);
    print_pairs(&FIXED);
    println!();
    for (name, line) in RUNS.iter().chain(&GROWTH).chain(&SHORT) {
        println!("{name}: {line}");
    }
}

fn print_table(runs: &[(&str, &str)]) {
    println!();
    println!("| run | rounds | slots | attempts | ctsim | library | ratio | draws |");
    println!("|---|---|---|---|---|---|---|---|");
    for (name, line) in runs {
        let input = Input::parse(line.as_bytes()).expect("readable");
        let (run, times) = measure(&input, &FIXED);
        print!(
            "| {name} | {} | {} | {} ",
            run.rounds.len(),
            run.slots,
            run.rx_attempts
        );
        let [ctsim, library, draws] = [times.ctsim, times.library, times.draws].map(|s| s * 1e3);
        println!(
            "| {ctsim:.3} | {library:.3} | {:.2} | {draws:.3} |",
            times.ratio()
        );
    }
}

fn print_previews() {
    println!("\nThe library's run, and its previews of three rounds of it, in microseconds.\n");
    println!("| run | rounds | whole run | round 0 | middle round | last round |");
    println!("|---|---|---|---|---|---|");
    for (name, line) in &RUNS {
        let input = Input::parse(line.as_bytes()).expect("readable");
        let run = ran(&input);
        let times = measure_previews(&input, &run, &FIXED);
        let [whole, first, middle, last] = times.map(|s| s * 1e6);
        print!("| {name} | {} ", run.rounds.len());
        println!("| {whole:.1} | {first:.1} | {middle:.1} | {last:.1} |");
    }
}

fn print_random(seed: u64, count: usize) {
    let inputs: Vec<Input> = oracle::random(seed).take(count).collect();
    let mut ratios: Vec<(f64, &Input)> = inputs
        .iter()
        .map(|input| (measure(input, &RANDOM).1.ratio(), input))
        .collect();
    ratios.sort_by(|(a, _), (b, _)| a.total_cmp(b));
    let median = median(ratios.iter().map(|(ratio, _)| *ratio).collect());
    let (least, slowest) = ratios[0];
    let (greatest, fastest) = ratios[count - 1];
    println!("\n{count} lines of inputs random {seed}: median of the ratios {median:.2}");
    println!("least {least:.2}: {slowest}");
    println!("greatest {greatest:.2}: {fastest}");
}

/// The run by ctsim and by the library, and its draws alone.
fn measure(input: &Input, effort: &Effort) -> (Summary, Times) {
    let run = ran(input);
    // At rate 0 no draw is taken.
    let lossless = f64::from_bits(input.loss_rate) == 0.0;
    let draws = if lossless { 0 } else { run.rx_attempts };
    let mut drawn = vec![0; draws as usize];
    let mut by_ctsim = || drop(black_box(oracle::reference(black_box(input))));
    let mut by_library = library_run(input, &run);
    let mut by_draws = || library::draws(black_box(input.seed), &mut drawn);
    let [ctsim, library, draws_alone] =
        medians([&mut by_ctsim, &mut by_library, &mut by_draws], effort);
    let draws = if lossless { 0.0 } else { draws_alone };
    let times = Times {
        ctsim,
        library,
        draws,
    };
    (run, times)
}

/// The whole run by the library, and its previews of the first, the middle and the last round.
fn measure_previews(input: &Input, run: &Summary, effort: &Effort) -> [f64; 4] {
    let last = run.rounds.len() as u64 - 1;
    let mut whole = library_run(input, run);
    let previews = [0, last / 2, last].map(|round| library_preview(input, round));
    let [mut first, mut middle, mut last] = previews;
    medians([&mut whole, &mut first, &mut middle, &mut last], effort)
}

fn ran(input: &Input) -> Summary {
    match oracle::run(input) {
        Answer::Ran(run) => *run,
        _ => panic!("not accepted: {input}"),
    }
}

/// Calls the entry, with buffers that all snapshots of the run fit in.
fn library_run<'a>(input: &'a Input, run: &Summary) -> impl FnMut() + 'a {
    let mut buffers = Buffers {
        summary: Buffer::new(SUMMARY_LENGTH, 0),
        logs: Buffer::new(LOGS_LENGTH, 0),
        records: Buffer::new(RECORDS_LENGTH, 0),
        snapshots: Buffer::new(SNAPSHOT_LENGTH * run.snapshots.len(), 0),
    };
    move || {
        let result = library::run(black_box(input), 1, &mut buffers);
        assert_eq!(result, 0, "refused: {input}");
    }
}

fn library_preview(input: &Input, round: u64) -> impl FnMut() + '_ {
    let mut buffers = PreviewBuffers {
        packet: Buffer::new(PACKET_LENGTH, 0),
        part: Buffer::new(PART_LENGTH, 0),
    };
    move || {
        let result = library::preview(black_box(input), 1, round, &mut buffers);
        assert_eq!(result, 0, "refused: {input}");
    }
}
