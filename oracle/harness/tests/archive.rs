//! Archive files (request L7), of runs by the Rust itself.

use oracle::archive::{check, file_of, input_of, layout, sections, Verdict, SNAPSHOT_SIZE};
use oracle::{checkings, file_lines, filings, random, reshaped_files, reshapings, run, small};
use oracle::{Answer, Checking, Damage, Filed, Graph, Input, Line, Reshaped, Summary};

const PRINTED_LINE: &str = "2 3 0 1 - 0000000000000000 7 1 2 1000";
const PRINTED_FILE: &str = "file 2465 \
05\
29000000500000007900000078000000f1000000180000000901000078000000810100002008000002z7.\
03z15.01z7.ffffffffffffffffz8.07z7.01z7.02z7.e803z6.\
03z7.02z7.05z7.01z7.05z7.06z7.04z7.04z7.04z7.02z7.06z7.06z7.06z39.\
03z23.02z7.01z15.\
02z23.01z7.02z7.\
04z23.02z7.01z2055.\
010101z29.\n";
const PRINTED_SECTIONS: &str = "sections 41 80 121 120 241 24 265 120 385 2080";
/// At loss 0.5, with absent round slots.
const LOSSY_LINE: &str = "2 3 0 1 - 3fe0000000000000 37 3 2 1000";

/// The answer to `file NUMBERS LINE`.
fn file(numbers: &str, line: &str) -> String {
    let line = format!("file {numbers} {line}");
    match Line::parse(line.as_bytes()) {
        Some(Line::File(filing)) => filing.run().to_string(),
        None => "refused 12\n".into(),
        _ => panic!("no filing: {line}"),
    }
}

/// The answer to `check DAMAGE ROOM LINE`.
fn checked(damage_and_room: &str, line: &str) -> String {
    let line = format!("check {damage_and_room} {line}");
    match Line::parse(line.as_bytes()) {
        Some(Line::Check(checking)) => checking.run().to_string(),
        None => "refused 12\n".into(),
        _ => panic!("no check: {line}"),
    }
}

fn input(line: &str) -> Input {
    Input::parse(line.as_bytes()).expect("readable")
}

fn ran(input: &Input) -> Summary {
    match run(input) {
        Answer::Ran(run) => *run,
        other => panic!("{input}: {other:?}"),
    }
}

/// The file of a line, with room for so many snapshots.
fn bytes(line: &str, room: u64) -> Vec<u8> {
    let input = input(line);
    ran(&input).file(&input, room)
}

fn says_yes(file: &[u8]) -> bool {
    matches!(check(file), Verdict::Read { yes: true, .. })
}

fn says_no(file: &[u8]) -> bool {
    matches!(check(file), Verdict::Read { yes: false, .. })
}

/// Accepted inputs of topologies.
fn inputs() -> impl Iterator<Item = Input> {
    let some = small().step_by(97).chain(random(9).take(200));
    some.filter(|input| {
        let of_topology = matches!(input.graph, Graph::Topology { .. });
        of_topology && input.refusal().is_none()
    })
}

#[test]
fn printed_run() {
    assert_eq!(file("3 2465", PRINTED_LINE), PRINTED_FILE);
    let yes = format!("yes {PRINTED_SECTIONS}\n");
    assert_eq!(checked("whole 0 3", PRINTED_LINE), yes);
}

/// The numbers of the listing, and no others.
#[test]
fn sections_are_those_of_the_listing() {
    for input in inputs() {
        let run = ran(&input);
        let file = run.file(&input, 1000);
        let directory = layout(&file).unwrap_or_else(|| panic!("no layout: {input}"));
        let [inputs, totals, records, snapshots, logs] = sections(&file, &directory);
        assert_eq!(input_of(inputs), input);
        let listing = run.to_string();
        let lines: Vec<&str> = listing.lines().collect();
        assert_eq!(numbers(totals), printed(&lines[..3]), "{input}");
        let named = |name: &str| -> Vec<&str> {
            let lines = lines.iter().filter(|line| line.starts_with(name));
            lines.copied().collect()
        };
        let proposals = printed(&named("proposal"));
        let without_latency: Vec<u64> = proposals.chunks(4).flat_map(|p| p[..3].to_vec()).collect();
        assert_eq!(numbers(records), without_latency, "{input}");
        assert_eq!(numbers(snapshots), printed(&named("snapshot")), "{input}");
        assert_eq!(logs, log_buffer(&named("log")), "{input}");
    }
}

fn numbers(section: &[u8]) -> Vec<u64> {
    let numbers = section.chunks(8).map(|bytes| bytes.try_into().expect("8"));
    numbers.map(u64::from_le_bytes).collect()
}

/// The numbers in lines of a listing.
fn printed(lines: &[&str]) -> Vec<u64> {
    let words = lines.iter().flat_map(|line| line.split(' '));
    words.filter_map(|word| word.parse().ok()).collect()
}

/// Bytes that no log uses are 0.
fn log_buffer(logs: &[&str]) -> Vec<u8> {
    let mut bytes = vec![0; 2080];
    for (i, log) in logs.iter().enumerate() {
        let terms = &printed(&[log])[1..];
        bytes[2048 + i] = terms.len() as u8;
        for (k, term) in terms.iter().enumerate() {
            bytes[64 * i + k] = *term as u8;
        }
    }
    bytes
}

#[test]
fn every_file_is_checked_with_yes() {
    for input in inputs() {
        let run = ran(&input);
        let taken = run.snapshots.len() as u64;
        for room in [0, 1, taken / 2, taken, taken + 1, u64::MAX] {
            let file = run.file(&input, room.min(1000));
            assert!(says_yes(&file), "{room} {input}");
        }
    }
}

#[test]
fn room_for_snapshots() {
    for (room, size) in [(0, 2345), (1, 2385), (2, 2425), (3, 2465), (4, 2465)] {
        let answer = file(&format!("{room} 9999"), PRINTED_LINE);
        assert!(answer.starts_with(&format!("file {size} ")), "{answer}");
    }
    let most = file("18446744073709551615 18446744073709551615", PRINTED_LINE);
    assert_eq!(most, PRINTED_FILE);
}

#[test]
fn too_few_bytes() {
    for length in ["0", "1", "41", "2464"] {
        let numbers = format!("3 {length}");
        assert_eq!(file(&numbers, PRINTED_LINE), "refused 18\n", "{length}");
    }
    assert_eq!(file("3 2466", PRINTED_LINE), PRINTED_FILE);
}

#[test]
fn questions_in_their_order() {
    for (line, number) in [
        ("0 33 0 1 - 0000000000000000 7 1 2 9", 1),
        ("2 33 1 1 - 0000000000000000 7 1 2 9", 2),
        ("2 3 1 0 - 0000000000000000 7 1 2 9", 3),
        ("2 3 0 65 9999 0000000000000000 7 1 2 9", 5),
        ("2 3 0 1 18446744073709551615 7ff8000000000000 7 1 2 9", 6),
        ("2 3 0 2 1 3ff0000000000000 7 1 2 9", 16),
        ("2 3 0 1 - 3ff0000000000000 7 65 2 9", 7),
        ("2 3 0 1 - 0000000000000000 7 65 0 9", 8),
        ("2 3 0 1 - 0000000000000000 7 1 0 9", 9),
    ] {
        let refused = format!("refused {number}\n");
        assert_eq!(file("3 0", line), refused, "{line}");
        assert_eq!(file("0 9999", line), refused, "{line}");
        for damage in ["whole 0", "flip 0", "cut 0", "grow 9", "set 0"] {
            assert_eq!(checked(&format!("{damage} 3"), line), refused, "{line}");
        }
    }
}

#[test]
fn unreadable() {
    let rows = "rows 3 00000002,00000005,00000002 1 - 0000000000000000 7 1 2 1000";
    let cut = "2 3 0 1 - 0000000000000000 7 1 2";
    let round = format!("round 0 {PRINTED_LINE}");
    for line in ["", "-", rows, cut, &round] {
        assert_eq!(file("3 2465", line), "refused 12\n", "{line}");
        assert_eq!(checked("whole 0 3", line), "refused 12\n", "{line}");
    }
    for numbers in [
        "",
        "3",
        " 3 9999",
        "3 9999 ",
        "- 9999",
        "3 +9999",
        "3 18446744073709551616",
    ] {
        assert_eq!(file(numbers, PRINTED_LINE), "refused 12\n", "{numbers}");
    }
    for damage in [
        "",
        "whole",
        "whole 0",
        "whole 1 3",
        "Whole 0 3",
        "flip - 3",
        "flip 1 3 3",
        "flip  1 3",
        "turn 1 3",
        "grow 65537 3",
    ] {
        assert_eq!(checked(damage, PRINTED_LINE), "refused 12\n", "{damage}");
    }
}

#[test]
fn damages() {
    let no = format!("no {PRINTED_SECTIONS}\n");
    let yes = format!("yes {PRINTED_SECTIONS}\n");
    let bits = 8 * 2465;
    let seed = 41 + 48;
    for (damage, answer) in [
        ("flip 0".into(), "refused 17\n"),
        (format!("flip {bits}"), "refused 17\n"),
        (format!("flip {}", 8 * seed), &yes),
        (format!("flip {}", 8 * seed + bits), &yes),
        (format!("flip {}", bits - 1), &no),
        ("cut 0".into(), "refused 17\n"),
        ("cut 2464".into(), "refused 17\n"),
        ("cut 2465".into(), &yes),
        ("cut 2466".into(), "refused 17\n"),
        ("cut 4931".into(), &yes),
        ("grow 0".into(), &yes),
        ("grow 1".into(), "refused 17\n"),
        ("grow 40".into(), "refused 17\n"),
        ("grow 65536".into(), "refused 17\n"),
        ("set 4".into(), "refused 17\n"),
        ("set 5".into(), &yes),
        (format!("set {}", 256 * 2465 + 5), &yes),
        (format!("set {}", 256 * seed + 8), &yes),
        (format!("set {}", 256 * 41 + 1), &no),
        (format!("set {}", 256 * 2464), &yes),
        (format!("set {}", 256 * 2464 + 1), &no),
        ("set 18446744073709551615".into(), "refused 17\n"),
    ] {
        assert_eq!(
            checked(&format!("{damage} 3"), PRINTED_LINE),
            answer,
            "{damage}"
        );
    }
}

/// Before the sections 17, behind the inputs no.
#[test]
fn every_bit() {
    let file = bytes(PRINTED_LINE, 3);
    for bit in 0..8 * file.len() {
        let mut flipped = file.clone();
        flipped[bit / 8] ^= 1 << (bit % 8);
        match bit / 8 {
            ..41 => assert_eq!(check(&flipped), Verdict::Refused(17), "{bit}"),
            41..121 => assert!(layout(&flipped).is_some(), "{bit}"),
            _ => assert!(says_no(&flipped), "{bit}"),
        }
    }
}

/// The inputs of a file in another one's place.
#[test]
fn other_inputs() {
    let with = |line: &str, other: &str, room: u64| {
        let (mut file, other) = (bytes(line, room), bytes(other, 0));
        file[41..121].copy_from_slice(&other[41..121]);
        file
    };
    for (line, other, room) in [
        // The seed at rate 0, and minus 0 for 0.
        (PRINTED_LINE, "2 3 0 1 - 8000000000000000 8 1 2 1000", 3),
        // A limit that the run does not reach, and round slots that are enough.
        (PRINTED_LINE, "2 3 0 1 5 0000000000000000 7 1 2 4", 3),
        // The interval, where there is no snapshot, or the first alone.
        (PRINTED_LINE, "2 3 0 1 - 0000000000000000 7 1 9 1000", 0),
        (PRINTED_LINE, "2 3 0 1 - 0000000000000000 7 1 9 1000", 1),
        // A star of 2 is a line.
        (
            "2 2 0 1 - 0000000000000000 7 1 2 1000",
            "3 2 0 1 - 0000000000000000 7 1 2 1000",
            3,
        ),
    ] {
        assert!(says_yes(&with(line, other, room)), "{other}");
    }
    for (other, room) in [
        ("2 3 0 1 - 0000000000000000 7 1 9 1000", 2),
        ("2 3 0 1 - 0000000000000000 7 1 2 3", 3),
        ("2 3 0 1 - 0000000000000000 7 2 2 1000", 3),
        ("2 4 0 1 - 0000000000000000 7 1 2 1000", 3),
        ("1 3 0 1 - 0000000000000000 7 1 2 1000", 3),
    ] {
        assert!(says_no(&with(PRINTED_LINE, other, room)), "{other}");
    }
}

/// No for each question that refuses the first section, 7 by a NaN too.
#[test]
fn inputs_that_a_run_refuses() {
    let [topology, nodes, second, repeats, slots, loss, proposals, interval] =
        [0, 1, 2, 3, 4, 5, 7, 8];
    let nan = f64::NAN.to_bits();
    for (field, values) in [
        (topology, &[0, 7, u64::MAX][..]),
        (nodes, &[0, 1, 33, u64::MAX]),
        (second, &[1, 33, 1 << 32]),
        (repeats, &[0, 65, u64::MAX]),
        (slots, &[0, 4097, u64::MAX - 1]),
        (loss, &[1f64.to_bits(), nan, nan | 1, u64::MAX]),
        (proposals, &[65, u64::MAX]),
        (interval, &[0]),
    ] {
        for value in values {
            let mut file = bytes(LOSSY_LINE, 3);
            file[41 + 8 * field..][..8].copy_from_slice(&value.to_le_bytes());
            assert_ne!(input_of(&file[41..121]).refusal(), None);
            assert!(says_no(&file), "field {field}: {value}");
        }
    }
}

#[test]
fn what_is_no_file() {
    assert_eq!(check(&[]), Verdict::Refused(17));
    assert_eq!(check(&[5]), Verdict::Refused(17));
    assert_eq!(check(&[0; 2321]), Verdict::Refused(17));
    let empty = file_of(&[80, 120, 0, 0, 2080].map(|length| vec![0; length]));
    assert!(says_no(&empty));
}

#[test]
fn a_file_that_passes_is_made_again() {
    let mut passed = 0;
    for (checking, answer) in checkings(6).take(600) {
        let Filed::File(file) = checking.damaged(&answer) else {
            continue;
        };
        if let Verdict::Read { yes, directory } = check(&file) {
            let input = input_of(sections(&file, &directory)[0]);
            let stored = directory[3][1] / SNAPSHOT_SIZE;
            let made = match run(&input) {
                Answer::Ran(run) => Some(run.file(&input, stored)),
                _ => None,
            };
            assert_eq!(yes, made.is_some_and(|made| made == file), "{checking}");
            passed += u64::from(yes);
        }
    }
    assert!(passed > 100, "{passed}");
}

#[test]
fn file_lines_meet_every_answer() {
    let mut met = [false; 19];
    let (mut files, mut yes, mut no) = (0, 0, 0);
    for line in file_lines(5).take(1500) {
        match Line::parse(line.as_bytes()) {
            None => met[12] = true,
            Some(Line::File(filing)) => match filing.run() {
                Filed::Refused(number) => met[number as usize] = true,
                Filed::File(_) => files += 1,
                Filed::Panicked(message) => panic!("{line}: {message}"),
            },
            Some(Line::Check(checking)) => match checking.run() {
                Verdict::Refused(number) => met[number as usize] = true,
                Verdict::Read { yes: true, .. } => yes += 1,
                Verdict::Read { .. } => no += 1,
                Verdict::Panicked(message) => panic!("{line}: {message}"),
            },
            _ => panic!("{line}"),
        }
    }
    assert!(files > 200 && yes > 100 && no > 100, "{files} {yes} {no}");
    let not_met: Vec<usize> = (1..19).filter(|&number| !met[number]).collect();
    assert_eq!(not_met, [4, 10, 11, 13, 14, 15]);
}

#[test]
fn filings_are_of_every_kind() {
    let mut ended = [0; 5];
    let mut lengths = [0; 3];
    let mut rooms = [0; 4];
    for (filing, answer) in filings(5).take(600) {
        let Answer::Ran(run) = answer else {
            continue;
        };
        ended[run.ended as usize] += 1;
        let size = run.file(&filing.input, filing.room).len() as u64;
        let fits = [
            filing.length < size,
            filing.length == size,
            filing.length > size,
        ];
        lengths[fits.iter().position(|is| *is).expect("one is")] += 1;
        let taken = run.snapshots.len() as u64;
        let stored = [filing.room == 0, filing.room < taken, filing.room == taken];
        rooms[stored.iter().position(|is| *is).unwrap_or(3)] += 1;
        let line = filing.to_string();
        match Line::parse(line.as_bytes()) {
            Some(Line::File(read)) => assert_eq!(read, filing),
            _ => panic!("no filing: {line}"),
        }
    }
    assert!(ended[1..].iter().all(|count| *count > 20), "{ended:?}");
    assert!(lengths.iter().all(|count| *count > 50), "{lengths:?}");
    assert!(rooms.iter().all(|count| *count > 30), "{rooms:?}");
}

#[test]
fn checkings_are_of_every_damage() {
    let mut counts = [0; 5];
    for (checking, _) in checkings(5).take(600) {
        let kind = match checking.damage {
            Damage::Whole => 0,
            Damage::Flip(_) => 1,
            Damage::Cut(_) => 2,
            Damage::Grow(_) => 3,
            Damage::Set(_) => 4,
        };
        counts[kind] += 1;
        let line = checking.to_string();
        match Line::parse(line.as_bytes()) {
            Some(Line::Check(read)) => assert_eq!(read, checking),
            _ => panic!("no check: {line}"),
        }
    }
    assert!(counts.iter().all(|count| *count > 20), "{counts:?}");
}

/// A cut is none where all bytes stay.
#[test]
fn what_damages_leave() {
    for (checking, answer) in checkings(7).take(300) {
        let whole = Checking {
            damage: Damage::Whole,
            ..checking.clone()
        };
        let files = [whole, checking.clone()].map(|checking| checking.damaged(&answer));
        let [Filed::File(whole), Filed::File(file)] = files else {
            continue;
        };
        let kept = match checking.damage {
            Damage::Whole => file == whole,
            Damage::Flip(_) => ones_apart(&file, &whole) == Some(1),
            Damage::Cut(_) => whole.starts_with(&file),
            Damage::Grow(_) => file.starts_with(&whole),
            Damage::Set(_) => ones_apart(&file, &whole).is_some_and(|ones| ones <= 8),
        };
        assert!(kept, "{checking}");
        let broken = check(&file) == Verdict::Refused(17);
        assert!(broken || file.len() == whole.len(), "{checking}");
    }
}

/// Bits that are not the same. `None`: the lengths are not.
fn ones_apart(file: &[u8], other: &[u8]) -> Option<u32> {
    let ones = file.iter().zip(other).map(|(a, b)| (a ^ b).count_ones());
    (file.len() == other.len()).then(|| ones.sum())
}

#[test]
fn reshaped_files_are_as_listed() {
    let ways = reshapings();
    for (way, file) in reshaped_files(4).take(ways.len() * 40) {
        let (name, listed) = ways[way];
        let found = match check(&file) {
            Verdict::Refused(17) => Reshaped::Broken,
            Verdict::Read { yes: true, .. } => Reshaped::Yes,
            Verdict::Read { .. } => Reshaped::No,
            other => panic!("{name}: {other:?}"),
        };
        assert_eq!(found, listed, "{name}");
    }
}
