//! The benchmarks: this library through its C face, the plain implementation of the field tests,
//! and OpenSSL, over the same octets in one run.
//!
//!     bench ROUNDS DOCUMENT PLOT
//!
//! Prints the numbers, puts them between the markers of the document, and draws the plot.

mod cases;
mod check;
mod clock;
mod fit;
mod machine;
mod openssl;
mod ours;
mod plot;
mod report;
mod sides;
mod timing;

/// The C functions, as the Rust binding declares them. Not all are used here.
#[allow(dead_code)]
#[path = "../bindings/rust/src/sys.rs"]
mod sys;

/// The plain implementation, and numbers that look like chance. Not all of both is used here.
#[allow(dead_code, unused_imports)]
#[path = "../tests"]
mod tests {
    pub mod plain;
    #[path = "generate/random.rs"]
    pub mod random;
}

use std::process::ExitCode;
use std::{env, fs};

const USAGE: &str = "usage: bench ROUNDS DOCUMENT PLOT, with at least 5 rounds";

fn main() -> ExitCode {
    let words: Vec<String> = env::args().skip(1).collect();
    let (rounds, document, plot) = match &words[..] {
        [rounds, document, plot] => (rounds.parse().unwrap_or(0), &document[..], &plot[..]),
        _ => (0, "", ""),
    };
    if rounds < 5 {
        eprintln!("{USAGE}");
        return ExitCode::from(2);
    }
    match run(rounds, document, plot) {
        Ok(()) => ExitCode::SUCCESS,
        Err(message) => {
            eprintln!("{message}");
            ExitCode::FAILURE
        }
    }
}

fn run(rounds: usize, document: &str, plot: &str) -> Result<(), String> {
    let machine = machine::Machine::seen();
    let cases = cases::all();
    cases.iter().try_for_each(check::check)?;
    let times = timing::measure(&cases, rounds);
    let numbers = report::numbers(&machine, &times);
    println!("{numbers}");
    let text = fs::read_to_string(document).map_err(|error| format!("{document}: {error}"))?;
    let text = report::replaced(&text, &numbers).ok_or(format!("{document}: no markers"))?;
    fs::write(document, text).map_err(|error| format!("{document}: {error}"))?;
    fs::write(plot, plot::drawn(&times)).map_err(|error| format!("{plot}: {error}"))
}
