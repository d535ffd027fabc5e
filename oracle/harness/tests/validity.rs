//! Filed configurations (request L6).

use oracle::{broken, random, small, validities, Input, Line, Validity};

/// The answer to `validity LINE`.
fn validity(line: &str) -> String {
    match Line::parse(format!("validity {line}").as_bytes()) {
        Some(Line::Validity(input)) => input.validity().to_string(),
        None => "refused 12\n".into(),
        _ => panic!("no validity: {line}"),
    }
}

#[test]
fn current() {
    for line in [
        "2 3 0 1 - 0000000000000000 7 1 2 1000",
        "2 3 0 1 1 0000000000000000 7 1 2 1000",
        "2 3 0 64 64 0000000000000000 7 1 2 1000",
        "2 3 0 64 4096 3fefffffffffffff 7 64 1 0",
        "2 3 0 64 - 8000000000000000 7 0 1 0",
        "rows 2 00000002,00000001,ffffffff 2 2 0000000000000000 7 1 2 9",
    ] {
        assert_eq!(validity(line), "current\n", "{line}");
    }
}

#[test]
fn outdated() {
    for line in [
        "2 2 0 2 1 0000000000000000 1 1 100000 5000",
        "2 3 0 1 0 0000000000000000 7 2 2 1000",
        "2 3 0 64 63 0000000000000000 7 1 2 1000",
        "2 3 0 64 0 3fefffffffffffff 7 64 1 0",
        "rows 2 00000002,00000001 2 1 0000000000000000 7 1 2 9",
    ] {
        assert_eq!(validity(line), "outdated\n", "{line}");
    }
}

/// Each line has round slots below the repeats, and another question refuses it too.
#[test]
fn another_refusal_goes_before() {
    for (line, number) in [
        ("0 3 0 2 1 0000000000000000 7 1 2 9", 1),
        ("2 33 0 2 1 0000000000000000 7 1 2 9", 2),
        ("rows 33 00000002,00000001 2 1 0000000000000000 7 1 2 9", 2),
        ("2 3 1 2 1 0000000000000000 7 1 2 9", 3),
        ("rows 2 00000002,00000000 2 1 0000000000000000 7 1 2 9", 4),
        ("2 3 0 65 64 0000000000000000 7 1 2 9", 5),
        ("2 3 0 5000 4097 0000000000000000 7 1 2 9", 5),
        ("2 3 0 2 1 3ff0000000000000 7 1 2 9", 7),
        ("2 3 0 2 1 0000000000000000 7 65 2 9", 8),
        ("2 3 0 2 1 0000000000000000 7 1 0 9", 9),
        ("2 3 0 2 1 0000000000000000 7 65 0 9", 8),
        ("2 3 0 2 1 7ff8000000000000 7 65 0 9", 7),
        ("2 33 0 2 1 7ff8000000000000 7 65 0 9", 2),
    ] {
        let input = Input::parse(line.as_bytes()).expect("readable");
        assert!(is_too_short(&input), "{line}");
        assert_eq!(validity(line), format!("refused {number}\n"), "{line}");
    }
}

#[test]
fn refused_or_unreadable() {
    for (line, number) in [
        ("2 3 0 0 0 0000000000000000 7 1 2 9", 5),
        ("2 3 0 64 4097 0000000000000000 7 1 2 9", 6),
        ("2 3 0 1 - 3ff0000000000000 7 65 2 9", 7),
        ("2 3 0 1 - 0000000000000000 7 1 0 9", 9),
        ("", 12),
        ("2 3 0 2 1 0000000000000000 7 1 2", 12),
        ("2 3 0 2 1 0000000000000000 7 1 2 9 ", 12),
        (" 2 3 0 2 1 0000000000000000 7 1 2 9", 12),
        ("round 0 2 3 0 1 - 0000000000000000 7 1 2 9", 12),
        ("validity 2 3 0 1 - 0000000000000000 7 1 2 9", 12),
    ] {
        assert_eq!(validity(line), format!("refused {number}\n"), "{line}");
    }
    assert!(Line::parse(b"validity").is_none());
    assert!(Line::parse(b"round 0 validity 2 3 0 1 - 0000000000000000 7 1 2 9").is_none());
}

fn is_too_short(input: &Input) -> bool {
    let slots = input.round_slots;
    slots.is_some_and(|slots| slots < input.flood_repeats)
}

/// It is the refusal, but where that is 16: with enough slots the line is accepted, or what refuses
/// it then is told.
#[test]
fn validity_agrees_with_the_refusal() {
    let broken = broken(6).take(5000);
    let broken = broken.filter_map(|line| Input::parse(line.as_bytes()));
    for input in small().step_by(97).chain(random(5).take(300)).chain(broken) {
        let enough = Input {
            round_slots: Some(input.flood_repeats),
            ..input.clone()
        };
        let expected = match (input.refusal(), enough.refusal()) {
            (None, _) => Validity::Current,
            (Some(16), None) => Validity::Outdated,
            (Some(16), Some(number)) | (Some(number), _) => Validity::Refused(number),
        };
        assert_eq!(input.validity(), expected, "{input}");
    }
}

#[test]
fn validity_lines_meet_every_answer() {
    let (mut current, mut outdated, mut met) = (0, 0, [false; 17]);
    let (mut before, mut behind) = (0, 0);
    for line in validities(5).take(2000) {
        let Some(Line::Validity(input)) = Line::parse(line.as_bytes()) else {
            met[12] = true;
            continue;
        };
        match input.validity() {
            Validity::Current => current += 1,
            Validity::Outdated => outdated += 1,
            Validity::Refused(number) => {
                met[number as usize] = true;
                let too_short = u64::from(is_too_short(&input));
                before += too_short * u64::from(number < 6);
                behind += too_short * u64::from(number > 6);
            }
        }
    }
    let counts = [current, outdated, before, behind];
    assert!(counts.iter().all(|count| *count > 50), "{counts:?}");
    let not_met: Vec<usize> = (1..17).filter(|&number| !met[number]).collect();
    assert_eq!(not_met, [10, 11, 13, 14, 15, 16]);
}
