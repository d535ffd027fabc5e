//! Pairs of archive files (request L8), of runs by the Rust itself.

use oracle::archive::{check, layout, sections, supersede, Superseding, Verdict};
use oracle::{pair_lines, pairings, random, reshaped_files, run, small};
use oracle::{Answer, Damage, Graph, Input, Line, Paired, Summary};

/// Rounds start in slots 0 and 3, the second with a record, and the run ends in slot 5.
const LINE: &str = "2 3 0 1 - 0000000000000000 7 1 2";
const RECORD: &str = "24 z16.03z7.\n";
/// What leaves both files whole, with room for 3 snapshots each.
const WHOLE: &str = "whole 0 3 whole 0 3";

/// The answer to `supersede FIELDS LINE`.
fn superseded(fields: &str, line: &str) -> String {
    let line = format!("supersede {fields} {line}");
    match Line::parse(line.as_bytes()) {
        Some(Line::Supersede(pairing)) => pairing.run().to_string(),
        None => "refused 12\n".into(),
        _ => panic!("no pair: {line}"),
    }
}

/// The answer where both files stay whole, by their limits.
fn of_limits(first: u64, second: u64) -> String {
    superseded(&format!("{WHOLE} {second}"), &format!("{LINE} {first}"))
}

/// The answer where the files are damaged so, and the second's limit is larger.
fn of_damages(first: &str, second: &str) -> String {
    superseded(
        &format!("{first} 3 {second} 3 1001"),
        &format!("{LINE} 1000"),
    )
}

fn ran(input: &Input) -> Summary {
    match run(input) {
        Answer::Ran(run) => *run,
        other => panic!("{input}: {other:?}"),
    }
}

/// The file of a line, with room for so many snapshots.
fn bytes(line: &str, room: u64) -> Vec<u8> {
    let input = Input::parse(line.as_bytes()).expect("readable");
    ran(&input).file(&input, room)
}

fn records(file: &[u8]) -> &[u8] {
    let directory = layout(file).expect("kept");
    sections(file, &directory)[2]
}

#[test]
fn the_larger_limit_supersedes() {
    for (first, second, answer) in [
        (1000, 999, format!("first 241 {RECORD}")),
        (1000, 1001, format!("second 241 {RECORD}")),
        (1000, u64::MAX, format!("second 241 {RECORD}")),
        (u64::MAX, 1000, format!("first 241 {RECORD}")),
        // From 4 on the limit does not end the run, and below 4 there is no record.
        (3, 4, format!("second 241 {RECORD}")),
        (4, 3, format!("first 241 {RECORD}")),
        (4, 5, format!("second 241 {RECORD}")),
        (2, 3, "second 241 0\n".into()),
        (3, 2, "first 241 0\n".into()),
        (0, 1, "second 241 0\n".into()),
        (1, 0, "first 241 0\n".into()),
        (0, u64::MAX, format!("second 241 {RECORD}")),
        (u64::MAX, 0, format!("first 241 {RECORD}")),
    ] {
        assert_eq!(of_limits(first, second), answer, "{first} {second}");
    }
}

#[test]
fn the_first_at_equal_limits() {
    for limit in [4, 5, 1000, u64::MAX] {
        assert_eq!(of_limits(limit, limit), format!("first 241 {RECORD}"));
    }
    for limit in [0, 1, 3] {
        assert_eq!(of_limits(limit, limit), "first 241 0\n");
    }
}

/// By their numbers, and not by their bytes' order or a sign.
#[test]
fn limits_are_numbers() {
    for (less, more) in [
        (1, 256),
        (255, 256),
        (0x01ff, 0x0200),
        (u64::from(u32::MAX), 1 << 32),
        (1 << 32, (1 << 32) + 1),
        (u64::MAX >> 1, 1 << 63),
        (1 << 63, u64::MAX),
        (u64::MAX - 1, u64::MAX),
    ] {
        let second = of_limits(less, more);
        assert!(second.starts_with("second "), "{less} {more}: {second}");
        let first = of_limits(more, less);
        assert!(first.starts_with("first "), "{more} {less}: {first}");
    }
}

/// The records stand before the snapshots.
#[test]
fn room_does_not_matter() {
    let line = format!("{LINE} 1000");
    for room in ["0", "1", "3", "4", "18446744073709551615"] {
        let first = superseded(&format!("whole 0 {room} whole 0 3 9"), &line);
        assert_eq!(first, format!("first 241 {RECORD}"), "{room}");
        let second = superseded(&format!("whole 0 3 whole 0 {room} 1001"), &line);
        assert_eq!(second, format!("second 241 {RECORD}"), "{room}");
    }
}

#[test]
fn broken_layouts() {
    let other_topology = "set 10497";
    for broken in ["flip 0", "cut 0", "cut 2464", "grow 1", "set 298"] {
        for other in ["whole 0", "flip 7", "cut 41", other_topology] {
            let answers = [of_damages(broken, other), of_damages(other, broken)];
            assert_eq!(answers, ["refused 17 part 0\n"; 2], "{broken} {other}");
        }
    }
}

#[test]
fn no_files_at_all() {
    let file = bytes(&format!("{LINE} 1000"), 3);
    let zeros = [0; 2321];
    for broken in [&[], &[5][..], &zeros, &file[1..]] {
        for other in [&[], &zeros[..], &file] {
            assert_eq!(supersede(broken, other), Superseding::Refused(17));
            assert_eq!(supersede(other, broken), Superseding::Refused(17));
        }
    }
}

/// Bits of the first section, of either file: those of the limit change which is the larger, and all
/// others are refused by 19.
#[test]
fn every_bit_of_the_inputs() {
    let file = bytes(&format!("{LINE} 1000"), 3);
    let part = |file| Superseding::Records([file, 241, 24]);
    for bit in 0..640 {
        let mut other = file.clone();
        other[41 + bit / 8] ^= 1 << (bit % 8);
        let expected = match bit {
            ..576 => [Superseding::Refused(19); 2],
            _ if 1000u64 >> (bit - 576) & 1 == 1 => [0, 1].map(part),
            _ => [1, 0].map(part),
        };
        let answers = [supersede(&file, &other), supersede(&other, &file)];
        assert_eq!(answers, expected, "{bit}");
    }
}

/// All that stands behind the inputs.
#[test]
fn no_bit_of_other_sections() {
    let [file, larger] = [1000, 1001].map(|limit| bytes(&format!("{LINE} {limit}"), 3));
    for bit in 8 * 121..8 * file.len() {
        let mut other = file.clone();
        other[bit / 8] ^= 1 << (bit % 8);
        let first = Superseding::Records([0, 241, 24]);
        assert_eq!(supersede(&other, &file), first, "{bit}");
        assert_eq!(supersede(&larger, &other), first, "{bit}");
        let second = Superseding::Records([1, 241, 24]);
        assert_eq!(supersede(&other, &larger), second, "{bit}");
    }
}

/// Runs that are alike, but not in every byte of the nine fields.
#[test]
fn fields_are_compared_by_bytes() {
    let file = bytes(&format!("{LINE} 1000"), 3);
    for other in [
        "2 3 0 1 - 8000000000000000 7 1 2 1000",
        "2 3 0 1 - 0000000000000000 8 1 2 1000",
        "2 3 0 1 5 0000000000000000 7 1 2 1000",
    ] {
        let other = bytes(other, 3);
        assert_eq!(supersede(&file, &other), Superseding::Refused(19));
        assert_eq!(supersede(&other, &file), Superseding::Refused(19));
    }
    let high_byte_of_loss = 256 * (41 + 40 + 7);
    let minus_zero = format!("set {}", high_byte_of_loss + 128);
    assert_eq!(of_damages(&minus_zero, "whole 0"), "refused 19 part 0\n");
    assert_eq!(of_damages("whole 0", &minus_zero), "refused 19 part 0\n");
    let second = format!("second 241 {RECORD}");
    assert_eq!(of_damages(&minus_zero, &minus_zero), second);
}

/// Also files that no run makes: only their layouts are asked for.
#[test]
fn wrong_files_supersede() {
    let no_topology = "set 10496";
    let other_record = "set 61697";
    let pairs = [
        (no_topology, no_topology, "second 241 24 z16.03z7.\n"),
        ("whole 0", other_record, "second 241 24 01z15.03z7.\n"),
        (other_record, "whole 0", "second 241 24 z16.03z7.\n"),
        // The limit of the second becomes 233, and 768.
        ("whole 0", "set 29184", "first 241 24 z16.03z7.\n"),
        ("whole 0", "set 28928", "first 241 24 z16.03z7.\n"),
    ];
    for (first, second, answer) in pairs {
        assert_eq!(of_damages(first, second), answer, "{first} {second}");
    }
    let mut file = bytes(&format!("{LINE} 1000"), 3);
    file[41] = 0;
    assert!(matches!(check(&file), Verdict::Read { yes: false, .. }));
}

#[test]
fn questions_in_their_order() {
    for (line, number) in [
        ("0 33 0 1 - 0000000000000000 7 1 2 9", 1),
        ("2 33 1 1 - 0000000000000000 7 1 2 9", 2),
        ("2 3 1 0 - 0000000000000000 7 1 2 9", 3),
        ("2 3 0 65 9999 0000000000000000 7 1 2 9", 5),
        ("2 3 0 1 18446744073709551615 7ff8000000000000 7 1 2 9", 6),
        ("2 3 0 2 1 3ff0000000000000 7 1 2 9", 16),
        ("2 3 0 1 - 3ff0000000000000 7 65 2 9", 7),
        ("2 3 0 1 - 0000000000000000 7 65 0 9", 8),
        ("2 3 0 1 - 0000000000000000 7 1 0 9", 9),
    ] {
        let refused = format!("refused {number}\n");
        for damages in [WHOLE, "cut 0 3 cut 0 3", "whole 0 3 flip 328 3"] {
            let answer = superseded(&format!("{damages} 9"), line);
            assert_eq!(answer, refused, "{damages} {line}");
        }
    }
}

#[test]
fn unreadable() {
    let rows = "rows 3 00000002,00000005,00000002 1 - 0000000000000000 7 1 2 1000";
    let round = format!("round 0 {LINE} 1000");
    for line in ["", "-", rows, LINE, &round] {
        let answer = superseded(&format!("{WHOLE} 9"), line);
        assert_eq!(answer, "refused 12\n", "{line}");
    }
    for fields in [
        "",
        "whole 0 3",
        "whole 0 3 whole 0 3",
        "whole 0 3 whole 0 3 ",
        "whole 0 3 whole 0 3 -",
        "whole 0 3 whole 0 3 +9",
        "whole 0 3 whole 0 3 18446744073709551616",
        "whole 0 3 whole 0 3 9 9",
        " whole 0 3 whole 0 3 9",
        "whole 0 3  whole 0 3 9",
        "whole 1 3 whole 0 3 9",
        "whole 0 3 whole 1 3 9",
        "whole 0 - whole 0 3 9",
        "whole 0 3 whole 0 - 9",
        "turn 0 3 whole 0 3 9",
        "whole 0 3 Whole 0 3 9",
        "whole 0 3 grow 65537 3 9",
    ] {
        let answer = superseded(fields, &format!("{LINE} 1000"));
        assert_eq!(answer, "refused 12\n", "{fields}");
    }
    assert!(Line::parse(b"supersede").is_none());
}

/// Accepted inputs of topologies.
fn inputs() -> impl Iterator<Item = Input> {
    let some = small().step_by(197).chain(random(9).take(60));
    some.filter(|input| {
        let of_topology = matches!(input.graph, Graph::Topology { .. });
        of_topology && input.refusal().is_none()
    })
}

/// Of runs with any two limits, the records of one that does not supersede are the beginning of those
/// of the one that does.
#[test]
fn records_begin_with_the_others() {
    let mut more = 0;
    for input in inputs() {
        let slots = ran(&input).slots;
        let limits = [0, 1, slots / 2, slots.saturating_sub(1), slots, slots + 1];
        let files = limits.map(|max_slots| {
            let input = Input {
                max_slots,
                ..input.clone()
            };
            ran(&input).file(&input, 2)
        });
        for (i, j) in (0..36).map(|pair| (pair / 6, pair % 6)) {
            let pair = [&files[i], &files[j]];
            let which = usize::from(limits[i] < limits[j]);
            let these = records(pair[which]);
            let part = [which as u64, 241, these.len() as u64];
            let answer = supersede(pair[0], pair[1]);
            assert_eq!(answer, Superseding::Records(part), "{input}");
            let others = records(pair[1 - which]);
            assert!(these.starts_with(others), "{input}");
            more += u64::from(these.len() > others.len());
        }
    }
    assert!(more > 300, "{more}");
}

/// Of a file with itself it is the first, and the length is the directory's, also of records that no
/// run has.
#[test]
fn a_file_with_itself() {
    for (_, file) in reshaped_files(3).take(400) {
        let expected = match layout(&file) {
            None => Superseding::Refused(17),
            Some([_, _, [offset, length], ..]) => Superseding::Records([0, offset, length]),
        };
        assert_eq!(supersede(&file, &file), expected);
    }
}

#[test]
fn pair_lines_meet_every_answer() {
    let mut met = [false; 20];
    let (mut which, mut empty) = ([0; 2], 0);
    for line in pair_lines(5).take(1500) {
        let Some(parsed) = Line::parse(line.as_bytes()) else {
            met[12] = true;
            continue;
        };
        let Line::Supersede(pairing) = parsed else {
            panic!("{line}");
        };
        match pairing.run() {
            Paired::Refused(number) => met[number as usize] = true,
            Paired::Told { superseding, .. } => match superseding {
                Superseding::Refused(number) => met[number as usize] = true,
                Superseding::Records([file, _, length]) => {
                    which[file as usize] += 1;
                    empty += u64::from(length == 0);
                }
            },
            Paired::Panicked(message) => panic!("{line}: {message}"),
        }
    }
    assert!(which.iter().all(|count| *count > 100), "{which:?}");
    assert!(empty > 100, "{empty}");
    let not_met: Vec<usize> = (1..20).filter(|&number| !met[number]).collect();
    assert_eq!(not_met, [4, 10, 11, 13, 14, 15, 18]);
}

#[test]
fn pairings_are_of_every_kind() {
    let (mut whole, mut alike, mut damaged) = (0, 0, [0; 2]);
    let (mut equal, mut limits) = (0, [0; 2]);
    for (pairing, answers) in pairings(5).take(600) {
        let [first, second] = &pairing.files;
        let damages = [first.damage, second.damage];
        let is_damaged = damages.map(|damage| damage != Damage::Whole);
        whole += u64::from(is_damaged == [false; 2]);
        alike += u64::from(is_damaged == [true; 2] && damages[0] == damages[1]);
        for (count, is) in damaged.iter_mut().zip(is_damaged) {
            *count += u64::from(is);
        }
        let [limit, other] = [&first.input, &second.input].map(|input| input.max_slots);
        equal += u64::from(limit == other);
        limits[usize::from(limit < other)] += 1;
        assert_eq!(run(&second.input), answers[1], "{pairing}");
        let line = pairing.to_string();
        match Line::parse(line.as_bytes()) {
            Some(Line::Supersede(read)) => assert_eq!(read, pairing),
            _ => panic!("no pair: {line}"),
        }
    }
    assert!(whole > 150 && alike > 10, "{whole} {alike}");
    assert!(equal > 50, "{equal}");
    let counts = [damaged, limits].concat();
    assert!(counts.iter().all(|count| *count > 100), "{counts:?}");
}

/// Every field is changed alone in some pair, in either file.
#[test]
fn pairings_differ_in_every_field() {
    let mut changed = [[false; 10]; 2];
    for (pairing, answers) in pairings(6).take(800) {
        let Paired::Told { files, superseding } = pairing.paired(&answers) else {
            continue;
        };
        let damages = pairing.files.each_ref().map(|file| file.damage);
        let file = match damages {
            [_, Damage::Whole] => 0,
            [Damage::Whole, _] => 1,
            _ => continue,
        };
        if let Some(place @ 41..121) = damages[file].place(files[file].len()) {
            let field = (place - 41) / 8;
            let refused = superseding == Superseding::Refused(19);
            changed[file][field] |= refused == (field < 9);
        }
    }
    assert_eq!(changed, [[true; 10]; 2]);
}
