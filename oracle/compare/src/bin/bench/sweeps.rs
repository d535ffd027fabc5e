//! Sweeps beside as many runs.

use crate::lines::{RUNS, SHORT};
use crate::turns::{least, Effort};
use compare::clock::processor_seconds;
use compare::library::{self, Buffer, Buffers, SweepBuffers};
use compare::library::{LOGS_LENGTH, RECORDS_LENGTH, SUMMARY_LENGTH};
use oracle::{Input, SWEPT_LENGTH};
use std::hint::black_box;

const SEEDS: usize = 10_000;

/// ctsim's seeds are so many at least, and as many as take so long.
const CTSIM_SEEDS: usize = 20;
const CTSIM_SECONDS: f64 = 0.5;

/// A call is all seeds, and long enough for a turn.
const LONG_RUNS: Effort = Effort {
    turns: 5,
    seconds: 0.0,
};
const SHORT_RUNS: Effort = Effort {
    turns: 25,
    seconds: 0.0,
};

/// Seconds of processor time for one seed.
struct Times {
    ctsim: f64,
    calls: f64,
    sweep: f64,
}

pub fn print_sweeps() {
    println!("\nThe library's sweep of {SEEDS} seeds, and {SEEDS} calls of its run's entry with");
    println!("the same seeds and no snapshots, in microseconds a seed, the least of some turns.");
    println!("ctsim: its runs of the first of these seeds, {CTSIM_SEEDS} or as many as take {CTSIM_SECONDS}");
    println!("seconds.\n");
    println!("| run | rounds | ctsim | calls | sweep | calls / sweep | ctsim / sweep |");
    println!("|---|---|---|---|---|---|---|");
    print_rows(&RUNS, &LONG_RUNS);
    print_rows(&SHORT, &SHORT_RUNS);
}

fn print_rows(runs: &[(&str, &str)], effort: &Effort) {
    for (name, line) in runs {
        let input = Input::parse(line.as_bytes()).expect("readable");
        let (rounds, times) = measure(&input, effort);
        let mean = rounds as f64 / SEEDS as f64;
        let [ctsim, calls, sweep] = [times.ctsim, times.calls, times.sweep].map(|s| s * 1e6);
        print!("| {name} | {mean:.2} | {ctsim:.2} | {calls:.2} | {sweep:.2} ");
        println!("| {:.2} | {:.2} |", calls / sweep, ctsim / sweep);
    }
}

/// The rounds of all seeds, which are the line's and those behind it, and the times.
fn measure(input: &Input, effort: &Effort) -> (u64, Times) {
    let seeds: Vec<u64> = (input.seed..).take(SEEDS).collect();
    let mut buffers = SweepBuffers {
        table: Buffer::new(SWEPT_LENGTH * SEEDS, 0),
        rounds: Buffer::new(1, 0),
    };
    let mut by_sweep = || {
        let result = library::sweep(black_box(input), 1, &seeds, black_box(&mut buffers));
        assert_eq!(result, 0, "refused: {input}");
    };
    let mut by_calls = library_runs(input, &seeds);
    let [sweep, calls] = least([&mut by_sweep, &mut by_calls], effort);
    let [sweep, calls] = [sweep, calls].map(|seconds| seconds / SEEDS as f64);
    let ctsim = measure_ctsim(input, &seeds);
    let times = Times {
        ctsim,
        calls,
        sweep,
    };
    (buffers.rounds.places[0], times)
}

/// Calls the run's entry for each seed.
fn library_runs<'a>(input: &Input, seeds: &'a [u64]) -> impl FnMut() + 'a {
    let mut input = input.clone();
    let mut buffers = Buffers {
        summary: Buffer::new(SUMMARY_LENGTH, 0),
        logs: Buffer::new(LOGS_LENGTH, 0),
        records: Buffer::new(RECORDS_LENGTH, 0),
        snapshots: Buffer::new(0, 0),
    };
    move || {
        for seed in seeds {
            input.seed = *seed;
            let result = library::run(black_box(&input), 1, black_box(&mut buffers));
            assert_eq!(result, 0, "refused: {input}");
        }
    }
}

/// Seconds of one of ctsim's runs. The clock is asked between batches of seeds, as it takes time.
fn measure_ctsim(input: &Input, seeds: &[u64]) -> f64 {
    let mut input = input.clone();
    let mut runs = 0;
    let start = processor_seconds();
    for batch in seeds.chunks(CTSIM_SEEDS) {
        for seed in batch {
            input.seed = *seed;
            drop(black_box(oracle::reference(black_box(&input))));
        }
        runs += batch.len();
        if processor_seconds() - start >= CTSIM_SECONDS {
            break;
        }
    }
    (processor_seconds() - start) / runs as f64
}
