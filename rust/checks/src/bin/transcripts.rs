//! Plays the transcripts that the arguments name, and prints a line for each. The status is 1 if a
//! transcript has a wrong answer.

use std::process::ExitCode;

fn main() -> ExitCode {
    let mut are_right = true;
    for name in std::env::args().skip(1) {
        let Ok(text) = std::fs::read_to_string(&name) else {
            eprintln!("{name}: no such text");
            are_right = false;
            continue;
        };
        let report = seatcrane_checks::player::play(&text);
        let word = if report.is_right { "right" } else { "wrong" };
        let (lines, refused) = (text.lines().count(), report.refused);
        print!("{}", report.wrong);
        println!("{name}: {word}, {lines} lines, {refused} refused allocations");
        are_right &= report.is_right;
    }
    if are_right {
        ExitCode::SUCCESS
    } else {
        ExitCode::FAILURE
    }
}
