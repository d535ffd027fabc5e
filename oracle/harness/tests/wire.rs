//! Packets on the wire, by the Rust itself and by the rule of request L2.

use oracle::{damaged_texts, damages, faults, is_taken_by_ctsim, near_packets, packet_lines};
use oracle::{packets, random, run, Answer, Line, Packet, Taken};

/// The first example of rule 15.4 of docs/RULES.md.
const EXAMPLE: &str =
    "{\"current_term\":0,\"last_accepted_term\":null,\"flags_bitmap\":[true,false],\
    \"nack_term\":0,\"sender\":0,\"proposal_data\":[116,120,48],\"piggyback_term\":null,\
    \"piggyback_data\":[]}";

/// `N p0 .. p12`.
fn packet(numbers: &str) -> Packet {
    match Line::parse(format!("packet {numbers}").as_bytes()) {
        Some(Line::Packet(packet)) => packet,
        _ => panic!("unreadable: {numbers}"),
    }
}

fn text(numbers: &str) -> Option<String> {
    let text = packet(numbers).write()?;
    Some(String::from_utf8(text).expect("ASCII"))
}

#[test]
fn the_example() {
    let numbers = "2 0 0 1 0 0 0 0 1 0 0 0 0 0";
    assert_eq!(text(numbers).as_deref(), Some(EXAMPLE));
    assert_eq!(Packet::read(EXAMPLE.as_bytes()), Some(packet(numbers)));
    assert_eq!(packet(numbers).to_string(), format!("packet {numbers}"));
}

#[test]
fn all_that_is_optional() {
    let numbers = "3 2 12 6 1 63 1 0 1 12 1 7 1 7";
    let expected =
        "{\"current_term\":12,\"last_accepted_term\":0,\"flags_bitmap\":[false,true,true],\
        \"nack_term\":63,\"sender\":2,\"proposal_data\":[116,120,49,50],\"piggyback_term\":7,\
        \"piggyback_data\":[116,120,55]}";
    assert_eq!(text(numbers).as_deref(), Some(expected));
    assert_eq!(Packet::read(expected.as_bytes()), Some(packet(numbers)));
}

/// `false` is longer than `true`, and `null` than a term, but for a piggyback with data.
#[test]
fn the_longest_text() {
    let longest = packet("32 31 63 0 1 63 0 0 1 63 1 63 1 63");
    assert_eq!(longest.write().expect("a text").len(), 366);
    let longer = |packet: &Packet| packet.write().expect("a text").len() > 366;
    assert_eq!(packets(7).take(20_000).find(longer), None);
}

#[test]
fn the_edges_of_the_rule() {
    let written = [
        "2 1 63 3 1 1 1 63 1 63 1 0 1 0",
        "32 31 0 4294967295 1 63 1 0 0 0 1 63 0 0",
        "2 0 0 0 0 0 0 0 0 0 0 0 0 0",
    ];
    for numbers in written {
        assert!(text(numbers).is_some(), "{numbers}");
    }
    let refused = [
        "0 0 0 0 0 0 0 0 0 0 0 0 0 0",
        "1 0 0 0 0 0 0 0 0 0 0 0 0 0",
        "33 0 0 0 0 0 0 0 0 0 0 0 0 0",
        "18446744073709551615 0 0 0 0 0 0 0 0 0 0 0 0 0",
        "2 2 0 0 0 0 0 0 0 0 0 0 0 0",
        "2 0 64 0 0 0 0 0 0 0 0 0 0 0",
        "2 0 64 0 0 0 0 0 1 64 0 0 0 0",
        "2 0 0 4 0 0 0 0 0 0 0 0 0 0",
        "32 0 0 4294967296 0 0 0 0 0 0 0 0 0 0",
        "2 0 0 0 1 0 0 0 0 0 0 0 0 0",
        "2 0 0 0 1 64 0 0 0 0 0 0 0 0",
        "2 0 0 0 0 1 0 0 0 0 0 0 0 0",
        "2 0 0 0 2 1 0 0 0 0 0 0 0 0",
        "2 0 0 0 0 0 1 64 0 0 0 0 0 0",
        "2 0 0 0 0 0 0 0 1 1 0 0 0 0",
        "2 0 0 0 0 0 0 0 0 0 1 64 0 0",
        "2 0 0 0 0 0 0 0 0 0 1 1 1 2",
        "2 0 0 0 0 0 0 0 0 0 0 0 1 0",
    ];
    for numbers in refused {
        assert_eq!(text(numbers), None, "{numbers}");
    }
}

#[test]
fn packets_are_read_as_they_are_written() {
    for packet in packets(1).take(20_000) {
        let text = packet.write();
        let text = text.unwrap_or_else(|| panic!("no text: {packet}"));
        assert_eq!(Packet::read(&text), Some(packet));
        assert!(packet.is_read_by_ctsim(&text), "{packet}");
    }
}

#[test]
fn packets_of_runs_have_texts() {
    for input in random(8).take(100) {
        let Answer::Ran(run) = run(&input) else {
            panic!("not accepted: {input}");
        };
        for round in &run.rounds {
            let packet = Packet {
                flags: run.nodes as u64,
                numbers: round.packet,
            };
            let text = packet.write();
            let text = text.unwrap_or_else(|| panic!("no text: {packet}"));
            assert_eq!(Packet::read(&text), Some(packet));
        }
    }
}

#[test]
fn no_fault_leaves_a_text() {
    let names = faults();
    for (fault, packet) in near_packets(2).take(names.len() * 1000) {
        assert_eq!(packet.write(), None, "{}: {packet}", names[fault]);
    }
}

/// Few of the bytes before and behind a text are blanks, which ctsim takes: fewer texts might have
/// none of them.
#[test]
fn ctsim_takes_damaged_texts_as_listed() {
    let damages = damages();
    let mut counts = damages.map(|_| [0; 2]);
    for (damage, text) in damaged_texts(3).take(damages.len() * 2000) {
        counts[damage][usize::from(is_taken_by_ctsim(&text))] += 1;
    }
    for ((name, listed), [refused, taken]) in damages.into_iter().zip(counts) {
        let found = match (taken, refused) {
            (0, _) => Taken::Never,
            (_, 0) => Taken::Always,
            _ => Taken::Sometimes,
        };
        assert_eq!(found, listed, "{name}: {taken} taken, {refused} refused");
    }
}

/// Only a damage whose texts ctsim takes and refuses may leave the text of a packet.
#[test]
fn damages_leave_no_packets_text() {
    let damages = damages();
    for (damage, text) in damaged_texts(3).take(damages.len() * 500) {
        let (name, taken) = damages[damage];
        if taken != Taken::Sometimes {
            assert_eq!(Packet::read(&text), None, "{name}");
        }
    }
}

/// What ctsim takes beyond its own texts, and what it does not take.
#[test]
fn ctsim_takes_more() {
    let taken = [
        EXAMPLE.replace(":0,", ": 0 ,"),
        format!(" {EXAMPLE}\r\n\t"),
        EXAMPLE.replace("\"last_accepted_term\":null,", ""),
        EXAMPLE.replace(
            "\"nack_term\":0,\"sender\":0",
            "\"sender\":0,\"nack_term\":0",
        ),
        EXAMPLE.replace("\"sender\":0,", "\"sender\":0,\"x\":[{}],"),
        EXAMPLE.replace("current_term", "\\u0063urrent_term"),
        EXAMPLE.replace("[true,false]", "[]"),
        EXAMPLE.replace("\"sender\":0", "\"sender\":18446744073709551615"),
        EXAMPLE.replace("48]", "49]"),
        "[0,null,[true,false],0,0,[116,120,48],null,[]]".into(),
    ];
    for text in taken {
        assert!(is_taken_by_ctsim(text.as_bytes()), "{text}");
        assert_eq!(Packet::read(text.as_bytes()), None, "{text}");
    }
    for form in ["00", "0.0", "0e0", "-0", "+0", "\"0\"", "null", "false"] {
        let text = EXAMPLE.replace("\"sender\":0", &format!("\"sender\":{form}"));
        assert!(!is_taken_by_ctsim(text.as_bytes()), "{text}");
    }
    let repeated = EXAMPLE.replace("\"sender\":0", "\"sender\":0,\"sender\":0");
    assert!(!is_taken_by_ctsim(repeated.as_bytes()), "{repeated}");
    assert!(!is_taken_by_ctsim(b"{\"sender\":0}"));
}

#[test]
fn lines() {
    let readable = |line: &str| Line::parse(line.as_bytes()).is_some();
    assert!(readable("packet 02 0 0 1 0 0 0 0 1 0 0 0 0 00"));
    for line in [
        "packet",
        "packet ",
        "packet 2 0 0 1 0 0 0 0 1 0 0 0 0",
        "packet 2 0 0 1 0 0 0 0 1 0 0 0 0 0 0",
        "packet 2  0 0 1 0 0 0 0 1 0 0 0 0 0",
        "packet 2 0 0 1 0 0 0 0 1 0 0 0 0 0 ",
        "packet 2 0 0 1 0 0 0 0 1 0 0 0 0 -",
        "packet 2 0 0 1 0 0 0 0 1 0 0 0 0 18446744073709551616",
        "text",
        "round 0 text {}",
    ] {
        assert!(!readable(line), "{line}");
    }
    for rest in ["", " ", "text ", "\u{e9}"] {
        let Some(Line::Text(text)) = Line::parse(format!("text {rest}").as_bytes()) else {
            panic!("unreadable: text {rest}");
        };
        assert_eq!(text, rest.as_bytes());
    }
    assert!(matches!(Line::parse(b"text \xff"), Some(Line::Text(_))));
}

#[test]
fn packet_lines_are_readable() {
    let (mut written, mut refused, mut read, mut others) = (0, 0, 0, 0);
    for line in packet_lines(4).take(2000) {
        assert!(!line.contains(&b'\n'));
        match Line::parse(&line) {
            Some(Line::Packet(packet)) if packet.write().is_some() => written += 1,
            Some(Line::Packet(_)) => refused += 1,
            Some(Line::Text(text)) if Packet::read(&text).is_some() => read += 1,
            Some(Line::Text(_)) => others += 1,
            _ => panic!("{}", String::from_utf8_lossy(&line)),
        }
    }
    let least = [written, refused, read, others].into_iter().min();
    assert!(least > Some(200), "{written} {refused} {read} {others}");
}
