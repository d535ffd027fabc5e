//! Compares ctsim and the library, line by line.

use compare::arguments::seed_and_count;
use compare::check::{check, mark_of};
use compare::clock::processor_seconds;
use compare::packets::Wired;
use compare::tally::Tally;
use compare::{file_checks, files, pairs, sweeps};
use oracle::{Answer, Input};
use std::process::ExitCode;
use std::sync::atomic::{AtomicUsize, Ordering};
use std::sync::Mutex;
use std::time::Instant;

const HELP: &str = "\
usage: compare [SEED [COUNT]]

Answers by ctsim and by the library, and compares: every line of `inputs small`,
COUNT random ones (100000) and a tenth as many broken ones. Each is asked for its
validity too. A few rounds of each are previewed by the library and compared as well,
and their packets are written and read. So are COUNT random packets, as many that
have a fault, and as many damaged texts. A tenth as many sweeps of up to 60 seeds are
made by the library, and each line is compared with ctsim's run of its seed. A fifth
as many runs of topologies are filed by the library, a fifth as many files are damaged
and checked, and a twentieth as many are put together anew and checked. Of a fifth as
many pairs of files the library says which supersedes. SEED (1) is the first of the seeds
that all are made from, another for each 500 of them.
Status: 0 all are the same; 1 there is a difference; 2 wrong use.
";

/// Lines, sweeps, files, pairs or packets that one thread takes at a time.
const CHUNK: usize = 500;

enum Chunk<'a> {
    Lines(Lines<'a>),
    Sweeps { seed: u64, count: usize },
    Filings { seed: u64, count: usize },
    FileChecks { seed: u64, count: usize },
    Reshaped { seed: u64, count: usize },
    Pairs { seed: u64, count: usize },
    Packets { seed: u64, count: usize },
}

/// A chunk of lines.
enum Lines<'a> {
    Small(&'a [Input]),
    Random { seed: u64, count: usize },
    Broken { seed: u64, count: usize },
}

impl Lines<'_> {
    /// Each line with ctsim's answer; `None` for an unreadable one.
    fn answered(&self) -> Box<dyn Iterator<Item = Option<(Input, Answer)>> + '_> {
        let answered = |input: Input| {
            let answer = oracle::run(&input);
            (input, answer)
        };
        match *self {
            Lines::Small(inputs) => Box::new(inputs.iter().cloned().map(answered).map(Some)),
            Lines::Random { seed, count } => {
                Box::new(oracle::random_answered(seed).take(count).map(Some))
            }
            Lines::Broken { seed, count } => {
                let lines = oracle::broken(seed).take(count);
                Box::new(lines.map(move |line| Input::parse(line.as_bytes()).map(answered)))
            }
        }
    }
}

fn main() -> ExitCode {
    match seed_and_count(HELP, 100_000) {
        Ok((seed, count)) if compare(seed, count) => ExitCode::SUCCESS,
        Ok(_) => ExitCode::FAILURE,
        Err(status) => status,
    }
}

/// Whether all is the same.
fn compare(seed: u64, count: usize) -> bool {
    let start = Instant::now();
    let threads = std::thread::available_parallelism().map_or(1, usize::from);
    let small: Vec<Input> = oracle::small().collect();
    let (fifth, tenth, twentieth) = (count / 5, count / 10, count / 20);
    println!("ctsim and the library on the same lines, in one process");
    println!(
        "small {} random {count} broken {tenth} sweeps {tenth} filings {fifth} checks {fifth} \
         reshaped {twentieth} pairs {fifth} packets {count}, seed {seed}",
        small.len()
    );
    let chunks = chunks(&small, seed, count);
    let tally = Mutex::new(Tally::default());
    let next = AtomicUsize::new(0);
    let work = || loop {
        let at = next.fetch_add(1, Ordering::Relaxed);
        let Some(chunk) = chunks.get(at) else { break };
        compare_chunk(chunk, at * CHUNK, &tally);
    };
    std::thread::scope(|scope| {
        for _ in 0..threads {
            scope.spawn(work);
        }
    });
    let tally = tally.into_inner().expect("no thread panicked");
    print!("{tally}");
    println!(
        "seconds {} with {threads} threads",
        start.elapsed().as_secs()
    );
    tally.all_the_same()
}

/// What the chunk has is numbered from `first` on.
fn compare_chunk(chunk: &Chunk, first: usize, tally: &Mutex<Tally>) {
    match *chunk {
        Chunk::Lines(ref lines) => compare_lines(lines, first, tally),
        Chunk::Sweeps { seed, count } => compare_sweeps(seed, count, first, tally),
        Chunk::Filings { seed, count } => compare_filings(seed, count, first, tally),
        Chunk::FileChecks { seed, count } => compare_file_checks(seed, count, first, tally),
        Chunk::Reshaped { seed, count } => compare_reshaped(seed, count, first, tally),
        Chunk::Pairs { seed, count } => compare_pairs(seed, count, first, tally),
        Chunk::Packets { seed, count } => compare_packets(seed, count, first, tally),
    }
}

fn compare_lines(lines: &Lines, first: usize, tally: &Mutex<Tally>) {
    let mut start = processor_seconds();
    for (i, line) in lines.answered().enumerate() {
        let number = (first + i) as u64;
        let seconds = processor_seconds() - start;
        let check = |(input, answer)| {
            let checked = check(&input, &answer, number);
            (input, answer, checked)
        };
        let line = line.map(check);
        let mut tally = tally.lock().expect("no thread panicked");
        tally.add_seconds(seconds);
        match line {
            Some((input, answer, checked)) => tally.add(number, &input, &answer, checked),
            None => tally.add_unreadable(),
        }
        start = processor_seconds();
    }
}

fn compare_sweeps(seed: u64, count: usize, first: usize, tally: &Mutex<Tally>) {
    for (i, sweep) in oracle::sweeps(seed).take(count).enumerate() {
        let number = (first + i) as u64;
        let start = processor_seconds();
        let swept = sweep.run();
        let seconds = processor_seconds() - start;
        let checked = sweeps::check(&sweep, &swept, number);
        let mut tally = tally.lock().expect("no thread panicked");
        tally.add_seconds(seconds);
        tally.add_sweep(number, &sweep, &swept, checked);
    }
}

fn compare_filings(seed: u64, count: usize, first: usize, tally: &Mutex<Tally>) {
    for (i, (filing, answer)) in oracle::filings(seed).take(count).enumerate() {
        let number = (first + i) as u64;
        let checked = files::check(&filing, &answer, number);
        let mut tally = tally.lock().expect("no thread panicked");
        tally.add_filing(number, &filing, &answer, checked);
    }
}

fn compare_file_checks(seed: u64, count: usize, first: usize, tally: &Mutex<Tally>) {
    for (i, (checking, answer)) in oracle::checkings(seed).take(count).enumerate() {
        let number = (first + i) as u64;
        let checked = file_checks::check(&checking, &answer, number);
        let mut tally = tally.lock().expect("no thread panicked");
        tally.add_file_check(number, &checking, &answer, checked);
    }
}

fn compare_reshaped(seed: u64, count: usize, first: usize, tally: &Mutex<Tally>) {
    let ways = oracle::reshapings();
    for (i, (way, file)) in oracle::reshaped_files(seed).take(count).enumerate() {
        let number = (first + i) as u64;
        let (name, listed) = ways[way];
        let checked = file_checks::check_reshaped(&file, listed, number);
        let line = format!("{name}: reshaped file {i} of seed {seed}");
        let mut tally = tally.lock().expect("no thread panicked");
        tally.add_reshaped(number, line, way, checked);
    }
}

fn compare_pairs(seed: u64, count: usize, first: usize, tally: &Mutex<Tally>) {
    for (i, (pairing, answers)) in oracle::pairings(seed).take(count).enumerate() {
        let number = (first + i) as u64;
        let checked = pairs::check(&pairing, &answers, number);
        let mut tally = tally.lock().expect("no thread panicked");
        tally.add_pair(number, &pairing, checked);
    }
}

fn compare_packets(seed: u64, count: usize, first: usize, tally: &Mutex<Tally>) {
    for (i, wired) in Wired::all(seed, count).enumerate() {
        let number = (first + i) as u64;
        let checked = wired.check(mark_of(number));
        let mut tally = tally.lock().expect("no thread panicked");
        tally.add_wired(number, &wired, checked);
    }
}

/// So many random lines and packets, a fifth as many filings, checks of files and pairs of them, a
/// tenth as many broken lines and sweeps, and a twentieth as many reshaped files.
fn chunks(small: &[Input], seed: u64, count: usize) -> Vec<Chunk<'_>> {
    let (fifth, tenth, twentieth) = (count / 5, count / 10, count / 20);
    let seeded = |lines: usize| {
        let counts = (0..lines)
            .step_by(CHUNK)
            .map(move |at| CHUNK.min(lines - at));
        (seed..).zip(counts)
    };
    let sweeps = seeded(tenth).map(|(seed, count)| Chunk::Sweeps { seed, count });
    let filings = seeded(fifth).map(|(seed, count)| Chunk::Filings { seed, count });
    let checks = seeded(fifth).map(|(seed, count)| Chunk::FileChecks { seed, count });
    let reshaped = seeded(twentieth).map(|(seed, count)| Chunk::Reshaped { seed, count });
    let pairs = seeded(fifth).map(|(seed, count)| Chunk::Pairs { seed, count });
    let packets = seeded(count).map(|(seed, count)| Chunk::Packets { seed, count });
    let small = small.chunks(CHUNK).map(Lines::Small);
    let random = seeded(count).map(|(seed, count)| Lines::Random { seed, count });
    let broken = seeded(tenth).map(|(seed, count)| Lines::Broken { seed, count });
    let lines = small.chain(random).chain(broken);
    let lines = lines.map(Chunk::Lines);
    let files = filings.chain(checks).chain(reshaped).chain(pairs);
    lines.chain(sweeps).chain(files).chain(packets).collect()
}
