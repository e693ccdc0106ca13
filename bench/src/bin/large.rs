//! `large NAME L`: prints a large wiring with about L leads as text.

use bench::{generate, wiring};
use std::process::ExitCode;

fn main() -> ExitCode {
    let words: Vec<String> = std::env::args().skip(1).collect();
    let leads = words.get(1).and_then(|word| word.parse().ok()).filter(|leads| (256..=4096).contains(leads));
    let built = words.first().zip(leads).and_then(|(name, leads)| generate::large(name, leads));
    let Some(built) = built else {
        eprintln!("usage: large NAME L, with L from 256 to 4096 and a name of {}", generate::NAMES.join(", "));
        return ExitCode::from(2);
    };
    print!("{}", wiring::write(&built));
    ExitCode::SUCCESS
}
