//! The arguments of a program, its help and version, and its status.

use std::env::{self, Args};
use std::error::Error;
use std::iter::Skip;
use std::process::ExitCode;

/// The arguments of a command line, one after the other.
pub type Words = Skip<Args>;

/// Runs a program with the settings in its arguments. Prints its help or its version if the first
/// argument asks for that, its usage if the arguments are wrong, and why it failed. The program
/// returns whether it succeeded.
pub fn run<S>(
    usage: &str,
    help: &str,
    settings: impl FnOnce(Words) -> Option<S>,
    program: impl FnOnce(S) -> Result<bool, Box<dyn Error>>,
) -> ExitCode {
    let name = env!("CARGO_BIN_NAME");
    match env::args().nth(1).as_deref() {
        Some("--help") => {
            println!("usage: {usage}\n{help}");
            return ExitCode::SUCCESS;
        }
        Some("--version") => {
            println!("{name} {}", env!("CARGO_PKG_VERSION"));
            return ExitCode::SUCCESS;
        }
        _ => {}
    }
    let Some(settings) = settings(env::args().skip(1)) else {
        eprintln!("usage: {usage}");
        if !help.is_empty() {
            eprintln!("`{name} --help` lists the options.");
        }
        return ExitCode::from(2);
    };
    match program(settings) {
        Ok(true) => ExitCode::SUCCESS,
        Ok(false) => ExitCode::FAILURE,
        Err(error) => {
            eprintln!("{name}: {error}");
            ExitCode::FAILURE
        }
    }
}
