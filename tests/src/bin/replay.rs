//! Runs the program `csx_answers` on the sample, as it is and with faults, and compares
//! what it counts. See README.md.

use std::path::PathBuf;
use std::process::{self, ExitCode};
use std::time::Duration;
use std::{env, fs};

use zirwennach_tests::kinds::sample::{self, check};
use zirwennach_tests::plan::{DEFAULT_SEED, Plan};
use zirwennach_tests::program::{Input, Ran, run};
use zirwennach_tests::report::{Kind, Report};

/// Where the program is if no argument says so.
const PROGRAM: &str = "../target/replay";

/// Where the sample is kept.
const KEPT: &str = "../crates/csx_answers/stdin";

/// How long a run may take.
const PATIENCE: Duration = Duration::from_secs(60);

fn main() -> ExitCode {
    let mut arguments = env::args_os().skip(1);
    let path = arguments.next().map_or(PROGRAM.into(), PathBuf::from);
    if arguments.next().is_some() {
        eprintln!("usage: replay [PATH]");
        return ExitCode::from(2);
    }
    let records = sample::records().unwrap_or_else(|lacking| {
        eprintln!("{lacking}");
        process::exit(1)
    });
    println!("program {}, seed {DEFAULT_SEED}", path.display());
    let run = |input: &[u8]| -> Ran {
        run(&path, Input::File(input), PATIENCE).unwrap_or_else(|error| {
            eprintln!("{}: {error}", path.display());
            process::exit(2)
        })
    };
    let mut report = Report::new();
    let mut kept = Kind::new("replay, the sample as it is kept");
    let same = fs::read(KEPT).is_ok_and(|bytes| bytes == sample::text(&records).as_bytes());
    kept.compare_for(same, true, || format!("{KEPT} beside what `sample` prints"));
    report.add(kept);
    check::compare(&mut report, &Plan::quick(DEFAULT_SEED), &records, &run);
    report.finish()
}
