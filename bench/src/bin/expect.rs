//! `expect`: reads a series of texts of wirings from standard input, parted by an empty line, and prints
//! what the second chooser finds for each; on standard error it tells how many have several loads of the
//! least total.

use bench::{second, wiring};
use std::io::Read;
use std::process::ExitCode;

fn main() -> ExitCode {
    let mut text = String::new();
    if let Err(error) = std::io::stdin().read_to_string(&mut text) {
        eprintln!("expect: {error}");
        return ExitCode::FAILURE;
    }
    let series = match wiring::read_series(&text) {
        Ok(series) => series,
        Err(bad) => {
            eprintln!("expect: {bad}");
            return ExitCode::FAILURE;
        }
    };
    let mut ambiguous = 0;
    for (index, wiring) in series.iter().enumerate() {
        if let Err(fault) = wiring.check() {
            eprintln!("expect: wiring {index} is not sound: {fault:?}");
            return ExitCode::FAILURE;
        }
        let findings = second::work_out(wiring);
        println!("{}", line("loads", &findings.loads));
        println!("total {}", findings.total);
        println!("{}", line("words", &findings.words()));
        println!("covers {}", findings.covers);
        ambiguous += usize::from(findings.ways > 1);
    }
    eprintln!("{} wirings, {ambiguous} with several loads of the least total", series.len());
    ExitCode::SUCCESS
}

/// A word and numbers, parted by one space.
fn line(word: &str, numbers: &[usize]) -> String {
    let mut line = word.to_string();
    for number in numbers {
        line.push_str(&format!(" {number}"));
    }
    line
}
