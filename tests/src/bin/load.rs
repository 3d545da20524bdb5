//! Calls every C function with bad input, as a run under a checker of memory. See
//! README.md.

use std::env;
use std::process::ExitCode;

use zirwennach_tests::kinds::load::{ENGINE, run};
use zirwennach_tests::plan::{DEFAULT_SEED, Plan};
use zirwennach_tests::report::Report;

fn main() -> ExitCode {
    let arguments: Vec<String> = env::args().skip(1).collect();
    let Some((calls, seed)) = numbers(&arguments) else {
        eprintln!("usage: load CALLS [SEED]");
        return ExitCode::from(2);
    };
    println!("load {calls}, seed {seed}");
    let mut report = Report::new();
    run(&mut report, &Plan::quick(seed), calls, &ENGINE);
    report.finish()
}

/// The number of calls and the seed, if the arguments are right.
fn numbers(arguments: &[String]) -> Option<(u64, u64)> {
    match arguments {
        [calls] => Some((calls.parse().ok()?, DEFAULT_SEED)),
        [calls, seed] => Some((calls.parse().ok()?, seed.parse().ok()?)),
        _ => None,
    }
}
