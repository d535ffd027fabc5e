//! The arguments that both programs take.

use std::process::ExitCode;

/// `[SEED [COUNT]]`: 1 and `count` where they are not given. Else the status to leave with, after
/// the help.
pub fn seed_and_count(help: &str, count: usize) -> Result<(u64, usize), ExitCode> {
    let arguments: Vec<String> = std::env::args().skip(1).collect();
    let arguments: Vec<&str> = arguments.iter().map(String::as_str).collect();
    let given = match arguments[..] {
        ["--help" | "-h"] => {
            print!("{help}");
            return Err(ExitCode::SUCCESS);
        }
        [] => Some((1, count)),
        [seed] => seed.parse().ok().map(|seed| (seed, count)),
        [seed, count] => seed.parse().ok().zip(count.parse().ok()),
        _ => None,
    };
    given.ok_or_else(|| {
        eprintln!("wrong arguments\n\n{help}");
        ExitCode::from(2)
    })
}
