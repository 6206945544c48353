//! The rules (docs/RULES.md) a second time, in plain Rust, held against the proved library and program.

#![deny(unsafe_code)]

mod archive;
mod bench;
mod compare;
mod history;
mod machine;
mod program;
#[cfg(proved)]
mod proved;
mod random;
mod ranges;
mod script;
#[cfg(test)]
mod tests;

use program::Ended;
use std::process::ExitCode;

const USAGE: &str = "usage:
  second script [archive FILE | records FILE]
  second compare [--long] [--seed N] [--program PATH] [--no-program] [--alone]
  second bench [growth] [--program PATH]
";

/// Where the proved program stands after a build.
const PROGRAM: &str = concat!(env!("CARGO_MANIFEST_DIR"), "/../../crates/script/out/script");

fn main() -> ExitCode {
    let arguments: Vec<String> = std::env::args().skip(1).collect();
    let words: Vec<&str> = arguments.iter().map(String::as_str).collect();
    let result = match words.as_slice() {
        ["script"] => program::run_plain(),
        ["script", "archive", file] => program::run_archiving(file),
        ["script", "records", file] => program::print_records(file),
        ["compare", options @ ..] => match compare_plan(options) {
            Some(plan) if compare::run(&plan) => Ok(Ended::Well),
            Some(_) => return ExitCode::FAILURE,
            None => return usage(),
        },
        ["bench"] => bench::run(PROGRAM.as_ref()).map(|()| Ended::Well),
        ["bench", "--program", program] => bench::run(program.as_ref()).map(|()| Ended::Well),
        ["bench", "growth"] => bench::growth(PROGRAM.as_ref()).map(|()| Ended::Well),
        ["bench", "growth", "--program", program] => bench::growth(program.as_ref()).map(|()| Ended::Well),
        _ => return usage(),
    };
    match result {
        Ok(Ended::Well) => ExitCode::SUCCESS,
        Ok(Ended::Refused) => ExitCode::from(1),
        Ok(Ended::Unarchived) => ExitCode::from(3),
        Err(error) => {
            eprintln!("second: {error}");
            ExitCode::from(3)
        }
    }
}

fn usage() -> ExitCode {
    eprint!("{USAGE}");
    ExitCode::from(2)
}

fn compare_plan(mut options: &[&str]) -> Option<compare::Plan> {
    let mut plan = compare::Plan { seed: 1, times: 1, program: Some(PROGRAM.into()), alone: false };
    loop {
        options = match options {
            [] => return Some(plan),
            ["--long", rest @ ..] => {
                plan.times = 20;
                rest
            }
            ["--alone", rest @ ..] => {
                plan.alone = true;
                plan.program = None;
                rest
            }
            ["--no-program", rest @ ..] => {
                plan.program = None;
                rest
            }
            ["--seed", seed, rest @ ..] => {
                plan.seed = seed.parse().ok()?;
                rest
            }
            ["--program", path, rest @ ..] => {
                plan.program = Some(path.into());
                rest
            }
            _ => return None,
        };
    }
}
