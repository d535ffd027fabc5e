//! Pairs of files, of which one supersedes.

use crate::ran;
use crate::turns::{medians, repeated, Effort, REPEATS};
use compare::library::{self, Buffer, SUPERSEDING_LENGTH};
use oracle::Input;
use std::hint::black_box;

/// Its run has 64 records and takes 7,000 snapshots.
const LINE: &str = "2 32 0 64 - 0000000000000000 7 64 1 1000000";

pub fn print_pairs(effort: &Effort) {
    println!("\nWhich of two files supersedes: nanoseconds of one call of the library's entry.\n");
    println!("| files of 64 records | bytes of the second | result | library |");
    println!("|---|---|---|---|");
    for (name, [first, second]) in pairs() {
        let mut part = Buffer::new(SUPERSEDING_LENGTH, 0);
        let result = library::file_supersede(&first, &second, &mut part);
        let mut asked = repeated(|| {
            let (first, second) = black_box((&first, &second));
            let again = library::file_supersede(first, second, black_box(&mut part));
            assert_eq!(again, result, "{name}");
        });
        let [seconds] = medians([&mut asked], effort);
        let nanoseconds = seconds * 1e9 / REPEATS as f64;
        let size = second.len();
        println!("| {name} | {size} | {result} | {nanoseconds:.0} |");
    }
}

/// With fewer and more snapshots, and such as 19 and 17 refuse.
fn pairs() -> [(&'static str, [Vec<u8>; 2]); 5] {
    let input = Input::parse(LINE.as_bytes()).expect("readable");
    let larger = Input {
        max_slots: u64::MAX,
        ..input.clone()
    };
    let other = Input {
        snapshot_interval: 2,
        ..larger.clone()
    };
    let file = |input: &Input, room: u64| ran(input).file(input, room);
    let pair = |room: u64| [file(&input, room), file(&larger, room)];
    let unlike = [file(&input, 7000), file(&other, 7000)];
    let mut cut = pair(7000);
    cut[1].pop();
    [
        ("no snapshots", pair(0)),
        ("100 snapshots", pair(100)),
        ("7000 snapshots", pair(7000)),
        ("7000 and 3500 snapshots, another interval", unlike),
        ("7000 snapshots, the second without its last byte", cut),
    ]
}
