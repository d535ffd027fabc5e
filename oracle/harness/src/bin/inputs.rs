//! Prints lines for `answer`.

use std::fmt::Display;
use std::io::{self, BufWriter, Write};
use std::process::ExitCode;

const HELP: &str = "\
usage: inputs small
       inputs random SEED COUNT
       inputs broken SEED COUNT
       inputs previews SEED COUNT
       inputs packets SEED COUNT
       inputs sweeps SEED COUNT
       inputs validities SEED COUNT
       inputs files SEED COUNT
       inputs pairs SEED COUNT

Prints lines for `answer`.
  small       every topology of 2 to 4 nodes and the rows of every labelled graph of
              that size, with repeats 1 to 3, round slots absent and 0 to 6, P 0 to 3,
              loss 0 and 0.5; one in four is refused by 16
  random      COUNT accepted lines around the limits of the questions
  broken      COUNT lines with values beyond a limit or unreadable, a few still accepted
  previews    COUNT lines `round K LINE`, most of them accepted; K is the first round,
              the last, beside it or between, or far beyond
  packets     COUNT lines `packet N p0 .. p12` and `text TEXT`: packets that have a text
              and their texts, packets of runs, and those that a fault or a damage
              spoils, of which each has its turn; texts are any bytes but a newline
  sweeps      COUNT lines `sweep LENGTH COUNT FIRST STEP LINE`, most of them accepted, of
              0 to 12 seeds, equal and repeated ones among them; the tables are exact,
              longer or too short
  validities  COUNT lines `validity LINE`: accepted, refused by 16, by 16 and others, or
              by others; a few are unreadable
  files       COUNT lines, `file ROOM LENGTH LINE` and `check HOW N ROOM LINE` in turn,
              most of them accepted: with room for no snapshot, some, all and more, for
              files that fit exactly, more than that or not, and of each damage
  pairs       COUNT lines `supersede HOW N ROOM HOW N ROOM LIMIT LINE`, most of them
              accepted: with limits about the run's end and about each other, and with
              a damage of neither file, of one or of both
The same SEED gives the same lines.
";

fn main() -> ExitCode {
    let arguments: Vec<String> = std::env::args().skip(1).collect();
    if arguments
        .iter()
        .any(|argument| argument == "--help" || argument == "-h")
    {
        print!("{HELP}");
        return ExitCode::SUCCESS;
    }
    match print_lines(&arguments) {
        Ok(()) => ExitCode::SUCCESS,
        Err(problem) => {
            eprintln!("inputs: {problem}");
            ExitCode::from(2)
        }
    }
}

fn print_lines(arguments: &[String]) -> Result<(), String> {
    let arguments: Vec<&str> = arguments.iter().map(String::as_str).collect();
    match arguments[..] {
        ["small"] => write_all(oracle::small()),
        ["random", seed, count] => {
            let count = number("COUNT", count)? as usize;
            write_all(oracle::random(number("SEED", seed)?).take(count))
        }
        ["broken", seed, count] => {
            let count = number("COUNT", count)? as usize;
            write_all(oracle::broken(number("SEED", seed)?).take(count))
        }
        ["previews", seed, count] => {
            let count = number("COUNT", count)? as usize;
            write_all(oracle::previews(number("SEED", seed)?).take(count))
        }
        ["packets", seed, count] => {
            let count = number("COUNT", count)? as usize;
            write_bytes(oracle::packet_lines(number("SEED", seed)?).take(count))
        }
        ["sweeps", seed, count] => {
            let count = number("COUNT", count)? as usize;
            write_all(oracle::sweep_lines(number("SEED", seed)?).take(count))
        }
        ["validities", seed, count] => {
            let count = number("COUNT", count)? as usize;
            write_all(oracle::validities(number("SEED", seed)?).take(count))
        }
        ["files", seed, count] => {
            let count = number("COUNT", count)? as usize;
            write_all(oracle::file_lines(number("SEED", seed)?).take(count))
        }
        ["pairs", seed, count] => {
            let count = number("COUNT", count)? as usize;
            write_all(oracle::pair_lines(number("SEED", seed)?).take(count))
        }
        _ => Err(format!("wrong arguments\n\n{HELP}")),
    }
}

fn number(name: &str, text: &str) -> Result<u64, String> {
    text.parse()
        .map_err(|_| format!("{name} is no number below 2^64: {text}"))
}

fn write_all<T: Display>(lines: impl Iterator<Item = T>) -> Result<(), String> {
    write_bytes(lines.map(|line| line.to_string().into_bytes()))
}

fn write_bytes(lines: impl Iterator<Item = Vec<u8>>) -> Result<(), String> {
    let mut output = BufWriter::new(io::stdout().lock());
    for mut line in lines {
        line.push(b'\n');
        let written = output.write_all(&line);
        written.map_err(|problem| problem.to_string())?;
    }
    output.flush().map_err(|problem| problem.to_string())
}
