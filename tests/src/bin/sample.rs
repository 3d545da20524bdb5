//! Prints the sample that the program `csx_answers` is given. See README.md.

use std::io::{self, Write};
use std::process::ExitCode;

use zirwennach_tests::kinds::sample;

fn main() -> ExitCode {
    let text = match sample::records() {
        Ok(records) => sample::text(&records),
        Err(lacking) => {
            eprintln!("{lacking}");
            return ExitCode::FAILURE;
        }
    };
    match io::stdout().write_all(text.as_bytes()) {
        Ok(()) => ExitCode::SUCCESS,
        Err(error) => {
            eprintln!("standard output: {error}");
            ExitCode::FAILURE
        }
    }
}
