//! Runs the engine's program on column texts, and compares what it prints with
//! document 01. See README.md.

use std::env;
use std::path::PathBuf;
use std::process::{self, ExitCode};
use std::time::Duration;

use zirwennach_tests::kinds::columns;
use zirwennach_tests::plan::{DEFAULT_SEED, Plan};
use zirwennach_tests::program::{Input, Ran, run};
use zirwennach_tests::report::Report;

/// Where the program is if no argument says so.
const PROGRAM: &str = "../target/bin/point_list";

/// How long a run may take.
const PATIENCE: Duration = Duration::from_secs(20);

fn main() -> ExitCode {
    let mut arguments = env::args_os().skip(1);
    let path = arguments.next().map_or(PROGRAM.into(), PathBuf::from);
    if arguments.next().is_some() {
        eprintln!("usage: program [PATH]");
        return ExitCode::from(2);
    }
    println!("program {}, seed {DEFAULT_SEED}", path.display());
    let run = |input: Input| -> Ran {
        run(&path, input, PATIENCE).unwrap_or_else(|error| {
            eprintln!("{}: {error}", path.display());
            process::exit(2)
        })
    };
    let mut report = Report::new();
    columns::program::compare(&mut report, &Plan::quick(DEFAULT_SEED), &run);
    report.finish()
}
