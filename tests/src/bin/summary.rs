//! Writes the document that sums up two runs of `compare`. See README.md.

use std::env;
use std::fs;
use std::process::ExitCode;

use zirwennach_tests::summary::{Run, document};

fn main() -> ExitCode {
    let arguments: Vec<String> = env::args().skip(1).collect();
    let [published, port, path] = &arguments[..] else {
        eprintln!("usage: summary COUNTS COUNTS DOCUMENT");
        return ExitCode::from(2);
    };
    match summed_up(published, port, path) {
        Ok(()) => ExitCode::SUCCESS,
        Err(message) => {
            eprintln!("{message}");
            ExitCode::from(2)
        }
    }
}

fn summed_up(published: &str, port: &str, path: &str) -> Result<(), String> {
    let text = document(&read(published)?, &read(port)?)?;
    fs::write(path, text).map_err(|error| format!("{path}: {error}"))
}

fn read(path: &str) -> Result<Run, String> {
    let text = fs::read_to_string(path).map_err(|error| format!("{path}: {error}"))?;
    Run::read(&text).ok_or(format!("{path}: no counts of a run that passed"))
}
