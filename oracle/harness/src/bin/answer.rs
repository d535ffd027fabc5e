//! Answers lines: one given as an argument, or all of standard input.

use oracle::archive::Verdict;
use oracle::{run, Answer, Checking, Filed, Filing, Input, Line, Packet, Paired, Pairing};
use oracle::{Sweep, Swept};
use std::io::{self, BufRead, BufWriter, Write};
use std::process::ExitCode;

const HELP: &str = "\
usage: answer [--echo] [--full] [--rounds] [--reference] [LINE]

Answers LINE, or every line of standard input, with ctsim's listing, `refused N`
or `panic`. A line is
  topology nodes second repeats round_slots|- loss seed P interval limit
  rows nodes SET,SET,..|- repeats round_slots|- loss seed P interval limit
with loss as 16 and each SET as 8 lowercase hexadecimal digits. The line
  round K LINE
is answered with round K of LINE's run alone: `packet`, its 13 numbers, `part`
and the set of the nodes that took part; or `refused N`, by 13 if the run ends
before round K. The line
  sweep LENGTH COUNT FIRST STEP LINE
runs LINE with the seeds FIRST + i * STEP modulo 2^64, i below COUNT, in place of
its own, and is answered with a line for each, `ROUNDS SLOTS LISTEN FLOOD SLEEP
RECORDS ENDED`, then `rounds SUM kept K`, K the places of a table of LENGTH numbers
behind the lines; or `refused N`, by 15 if COUNT is above 65536 or LENGTH below
7 * COUNT. The line
  validity LINE
is answered with `current` if LINE is accepted, `outdated` if 16 alone refuses it,
else `refused N`, by the first question other than 16. Nothing is run. Two lines are
about archive files of a run, with room for ROOM snapshots; LINE is of a topology:
  file ROOM LENGTH LINE
  check HOW N ROOM LINE
The first is answered with `file SIZE BYTES`, BYTES in hexadecimal but for four zeros
or more in a row, which are `zCOUNT.`; or with `refused N`, by 18 if SIZE is above
LENGTH. The second damages the file (HOW N is `whole 0`, `flip` with a bit, `cut` with
a length, `grow` with a number of zeros, `set` with 256 * PLACE + BYTE) and is answered
with `yes` or `no`, by a run of its first section, `sections` and the offset and length
of each section; or with `refused N`, by 17 if the layout is broken. The line
  supersede HOW N ROOM HOW N ROOM LIMIT LINE
is about two such files, the second of LINE with LIMIT as its slot limit, and is answered
with `first` or `second`, the one that supersedes, OFFSET and LENGTH of its records and,
if there are any, their BYTES; with `refused N part 0`, by 17 or by 19 if the other nine
fields differ; or with LINE's `refused N`. Two more are about packets on the wire:
  packet N p0 .. p12
  text TEXT
The first, N the number of flags, is answered with the packet's text, the second,
TEXT the rest of the line, with the line of the packet that has this text; either
with `refused 14` where there is none.

  --echo       print `input LINE` before each answer
  --full       after a listing: the count of all snapshots, the buffers' numbers,
               each log's data, each node's pending terms with their votes
  --rounds     after a listing: `round INDEX FIRST_SLOT packet .. part SET` for each
               round
  --reference  also run PaxosPipelineSim::run and compare its metrics and sums

Status: 0 answered; 1 a line was unreadable, the Rust panicked or the reference
differs (standard error says which line); 2 wrong use.
";

#[derive(Default)]
struct Options {
    echo: bool,
    full: bool,
    rounds: bool,
    reference: bool,
    line: Option<String>,
}

fn main() -> ExitCode {
    let options = match options(std::env::args().skip(1)) {
        Ok(Some(options)) => options,
        Ok(None) => {
            print!("{HELP}");
            return ExitCode::SUCCESS;
        }
        Err(problem) => {
            eprintln!("answer: {problem}\n\n{HELP}");
            return ExitCode::from(2);
        }
    };
    // The answer carries the message; the default hook would print it twice.
    std::panic::set_hook(Box::new(|_| {}));
    match answer_all(&options) {
        Ok(true) => ExitCode::SUCCESS,
        Ok(false) => ExitCode::FAILURE,
        Err(problem) => {
            eprintln!("answer: {problem}");
            ExitCode::from(2)
        }
    }
}

/// `None`: help is asked for.
fn options(arguments: impl Iterator<Item = String>) -> Result<Option<Options>, String> {
    let mut options = Options::default();
    for argument in arguments {
        match argument.as_str() {
            "--help" | "-h" => return Ok(None),
            "--echo" => options.echo = true,
            "--full" => options.full = true,
            "--rounds" => options.rounds = true,
            "--reference" => options.reference = true,
            _ if argument.starts_with('-') => return Err(format!("unknown option: {argument}")),
            _ if options.line.is_some() => return Err("more than one line: quote the line".into()),
            _ => options.line = Some(argument),
        }
    }
    Ok(Some(options))
}

/// Whether every line was read and answered without a fault.
fn answer_all(options: &Options) -> io::Result<bool> {
    let mut output = BufWriter::new(io::stdout().lock());
    let mut faultless = true;
    let mut number = 0;
    for line in lines(options) {
        number += 1;
        for fault in print_answer(options, &line?, &mut output)? {
            eprintln!("answer: line {number}: {fault}");
            faultless = false;
        }
    }
    if number == 0 {
        return Err(io::Error::other("there is no line to answer"));
    }
    output.flush()?;
    Ok(faultless)
}

/// The line given as an argument, up to its first newline, or those of standard input.
fn lines(options: &Options) -> Box<dyn Iterator<Item = io::Result<Vec<u8>>>> {
    match &options.line {
        Some(line) => {
            let first = line.split('\n').next().unwrap_or_default();
            Box::new(std::iter::once(Ok(first.into())))
        }
        None => Box::new(io::stdin().lock().split(b'\n')),
    }
}

/// Prints one answer and gives back what was wrong.
fn print_answer(
    options: &Options,
    line: &[u8],
    output: &mut impl Write,
) -> io::Result<Vec<String>> {
    if options.echo {
        writeln!(output, "input {}", String::from_utf8_lossy(line))?;
    }
    let mut faults = Vec::new();
    match Line::parse(line) {
        None => {
            write!(output, "{}", Answer::Refused(12))?;
            faults.push("unreadable".into());
        }
        Some(Line::Run { round, input }) => faults = print_of_run(options, round, &input, output)?,
        Some(Line::Sweep(sweep)) => faults = print_sweep(options, &sweep, output)?,
        Some(Line::Validity(input)) => write!(output, "{}", input.validity())?,
        Some(Line::File(filing)) => faults = print_file(options, &filing, output)?,
        Some(Line::Check(checking)) => faults = print_check(options, &checking, output)?,
        Some(Line::Supersede(pairing)) => faults = print_pair(options, &pairing, output)?,
        Some(Line::Packet(packet)) => print_found(packet.write(), output)?,
        Some(Line::Text(text)) => {
            let packet = Packet::read(&text);
            print_found(packet.map(|packet| packet.to_string()), output)?;
        }
    }
    Ok(faults)
}

/// Prints a text or a packet, or that there is none.
fn print_found(found: Option<impl AsRef<[u8]>>, output: &mut impl Write) -> io::Result<()> {
    match found {
        Some(found) => {
            output.write_all(found.as_ref())?;
            writeln!(output)
        }
        None => write!(output, "{}", Answer::Refused(14)),
    }
}

/// Prints the answer to a run, or to one of its rounds, and gives back what was wrong.
fn print_of_run(
    options: &Options,
    round: Option<u64>,
    input: &Input,
    output: &mut impl Write,
) -> io::Result<Vec<String>> {
    let answer = run(input);
    match round {
        Some(round) => write!(output, "{}", answer.preview(round))?,
        None => print_run(options, &answer, output)?,
    }
    let message = match &answer {
        Answer::Panicked(message) => Some(message.as_str()),
        _ => None,
    };
    Ok(faults(options, input, message))
}

/// Prints the answer to a sweep, and gives back what was wrong.
fn print_sweep(
    options: &Options,
    sweep: &Sweep,
    output: &mut impl Write,
) -> io::Result<Vec<String>> {
    let swept = sweep.run();
    write!(output, "{swept}")?;
    let mut faults = Vec::new();
    match swept {
        Swept::Panicked(message) => faults.push(panicked(&message)),
        Swept::Ran { .. } if options.reference => {
            let inputs = sweep.inputs();
            faults.extend(inputs.filter_map(|input| oracle::reference_difference(&input)));
        }
        _ => {}
    }
    Ok(faults)
}

/// Prints the answer to a filing, and gives back what was wrong.
fn print_file(
    options: &Options,
    filing: &Filing,
    output: &mut impl Write,
) -> io::Result<Vec<String>> {
    let filed = filing.run();
    write!(output, "{filed}")?;
    let message = match &filed {
        Filed::Panicked(message) => Some(message.as_str()),
        _ => None,
    };
    Ok(faults(options, &filing.input, message))
}

/// Prints the answer to a check, and gives back what was wrong.
fn print_check(
    options: &Options,
    checking: &Checking,
    output: &mut impl Write,
) -> io::Result<Vec<String>> {
    let verdict = checking.run();
    write!(output, "{verdict}")?;
    let message = match &verdict {
        Verdict::Panicked(message) => Some(message.as_str()),
        _ => None,
    };
    Ok(faults(options, &checking.input, message))
}

/// Prints the answer to a pair of files, and gives back what was wrong.
fn print_pair(
    options: &Options,
    pairing: &Pairing,
    output: &mut impl Write,
) -> io::Result<Vec<String>> {
    let paired = pairing.run();
    write!(output, "{paired}")?;
    let message = match &paired {
        Paired::Panicked(message) => Some(message.as_str()),
        _ => None,
    };
    let [first, second] = pairing.files.each_ref().map(|file| &file.input);
    let of_first = faults(options, first, message);
    Ok([of_first, faults(options, second, None)].concat())
}

/// What was wrong with a run of the input; the message is that of a panic.
fn faults(options: &Options, input: &Input, message: Option<&str>) -> Vec<String> {
    let mut faults: Vec<String> = message.map(panicked).into_iter().collect();
    if options.reference {
        faults.extend(oracle::reference_difference(input));
    }
    faults
}

fn panicked(message: &str) -> String {
    format!("the Rust panicked: {message}")
}

/// Prints the answer to a whole run, and what is to come after a listing.
fn print_run(options: &Options, answer: &Answer, output: &mut impl Write) -> io::Result<()> {
    write!(output, "{answer}")?;
    if let Answer::Ran(summary) = answer {
        if options.full {
            write!(output, "{}", summary.full())?;
        }
        if options.rounds {
            write!(output, "{}", summary.rounds())?;
        }
    }
    Ok(())
}
