//! `cases N SEED [MOST]`: prints N generated small wirings of up to MOST leads, 8 if it is left out, as text,
//! parted by an empty line. At least one in four has several loads of the least total.

use bench::generate::{small_with, Random};
use bench::second;
use bench::wiring::{write, Wiring};
use std::process::ExitCode;

fn main() -> ExitCode {
    let numbers: Vec<u64> = std::env::args().skip(1).filter_map(|word| word.parse().ok()).collect();
    let (count, seed, most) = match numbers[..] {
        [count, seed] => (count, seed, 8),
        [count, seed, most @ 4..=16] => (count, seed, most as u32),
        _ => {
            eprintln!("usage: cases N SEED [MOST], with MOST from 4 to 16");
            return ExitCode::from(2);
        }
    };
    let mut random = Random::new(seed);
    let mut case = |index| if index % 4 == 3 { ambiguous(&mut random, most) } else { small_with(&mut random, most) };
    let texts: Vec<String> = (0..count).map(|index| write(&case(index))).collect();
    print!("{}", texts.join("\n"));
    ExitCode::SUCCESS
}

/// The next generated wiring with several loads of the least total.
fn ambiguous(random: &mut Random, most: u32) -> Wiring {
    loop {
        let wiring = small_with(random, most);
        if second::work_out(&wiring).ways > 1 {
            return wiring;
        }
    }
}
