//! The sceptic's bench: the proved library beside an independent implementation of the rules, in what both say and in how
//! long both take. `bench/run` builds what is needed and runs it.

use std::path::PathBuf;
use std::process::ExitCode;

mod cases;
mod compare;
mod example;
mod measure;
mod plain;
mod progress;
mod proved;
mod reply;
mod tally;

fn main() -> ExitCode {
    let Some(example) = std::env::args_os().nth(1).map(PathBuf::from) else {
        eprintln!("picker-bench EXAMPLE: the program that examples/ask.c makes");
        return ExitCode::FAILURE;
    };
    let mut tally = compare::run();
    if let Err(error) = example::run(&example, &mut tally) {
        eprintln!("{}: {error}", example.display());
        return ExitCode::FAILURE;
    }
    tally.print();
    let worst = measure::run();
    let all = tally.agreed + tally.differed;
    println!(
        "{} of {all} comparisons agreed; worst ratio {worst:.2}",
        tally.agreed
    );
    if tally.differed == 0 {
        ExitCode::SUCCESS
    } else {
        ExitCode::FAILURE
    }
}
