//! Compares the repository's library with an independent implementation on random cases, and measures both.

mod compare;
mod inputs;
mod library;
mod measure;

use std::process::ExitCode;

const USAGE: &str = "usage: sengoruwa_bench [compare [--cases N] [--seed S] | measure]";
const CASES: u64 = 24_000;
const SEED: u64 = 20_260_731;

enum Command {
    Compare { cases: u64, seed: u64 },
    Measure,
    Both,
}

fn command(words: &[String]) -> Option<Command> {
    let (name, options) = match words {
        [] => return Some(Command::Both),
        [name, options @ ..] => (name.as_str(), options),
    };
    match name {
        "measure" if options.is_empty() => Some(Command::Measure),
        "compare" => {
            let (mut cases, mut seed) = (CASES, SEED);
            for option in options.chunks(2) {
                match option {
                    [name, value] if name == "--cases" => cases = value.parse().ok()?,
                    [name, value] if name == "--seed" => seed = value.parse().ok()?,
                    _ => return None,
                }
            }
            Some(Command::Compare { cases, seed })
        }
        _ => None,
    }
}

fn main() -> ExitCode {
    let words: Vec<String> = std::env::args().skip(1).collect();
    let disagreements = match command(&words) {
        None => {
            eprintln!("{USAGE}");
            return ExitCode::FAILURE;
        }
        Some(Command::Compare { cases, seed }) => compare::compare(cases, seed),
        Some(Command::Measure) => measure::measure(),
        Some(Command::Both) => {
            let differing = measure::measure();
            println!();
            differing + compare::compare(CASES, SEED)
        }
    };
    if disagreements > 0 {
        ExitCode::FAILURE
    } else {
        ExitCode::SUCCESS
    }
}
