//! Validities of configurations.

use crate::turns::{medians, repeated, Effort, REPEATS};
use compare::library;
use oracle::{Graph, Input};
use std::hint::black_box;

pub fn print_validities(effort: &Effort) {
    println!("\nValidities of configurations: nanoseconds of one call of the library's entry.\n");
    println!("| configuration | result | library |");
    println!("|---|---|---|");
    for (name, input) in configurations() {
        let result = library::validity(&input, 1);
        let mut asked = repeated(|| {
            let again = library::validity(black_box(&input), 1);
            assert_eq!(again, result, "{input}");
        });
        let [seconds] = medians([&mut asked], effort);
        let nanoseconds = seconds * 1e9 / REPEATS as f64;
        println!("| {name} | {result} | {nanoseconds:.0} |");
    }
}

/// Accepted ones, one that 16 refuses, and one that 16 and 8 refuse.
fn configurations() -> [(&'static str, Input); 5] {
    let read = |line: &str| Input::parse(line.as_bytes()).expect("readable");
    let line = read("2 2 0 2 2 0000000000000000 7 64 100 1000000");
    let full_mesh = read("1 32 0 2 2 0000000000000000 7 64 100 1000000");
    let rows = (0..32).map(|node| !(1 << node)).collect();
    let of_rows = Input {
        graph: Graph::Rows { nodes: 32, rows },
        ..full_mesh.clone()
    };
    let short = Input {
        round_slots: Some(1),
        ..line.clone()
    };
    let beyond = Input {
        num_proposals: 65,
        ..short.clone()
    };
    [
        ("line 2", line),
        ("full mesh 32", full_mesh),
        ("rows of full mesh 32", of_rows),
        ("line 2, r 2, round slots 1", short),
        ("line 2, r 2, round slots 1, P 65", beyond),
    ]
}
