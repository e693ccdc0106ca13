//! `clock`: times the ordinary chooser on every large wiring, and with the feature `proved` the proved
//! program beside it.

use bench::wiring::Wiring;
use bench::{generate, ordinary};
use std::hint::black_box;
use std::time::{Duration, Instant};

const SIZES: [usize; 5] = [256, 512, 1024, 2048, 4096];
/// Each call is timed at least so often, and then again until so much time has passed.
const FEWEST_RUNS: u32 = 3;
const ENOUGH: Duration = Duration::from_millis(200);

fn main() {
    println!("times in milliseconds, best of at least {FEWEST_RUNS} runs");
    print!("{:<11} {:>5} {:>5} {:>5} {:>8} {:>10}", "wiring", "leads", "nodes", "paths", "words", "ordinary");
    println!("{}", if cfg!(feature = "proved") { "     proved  ratio" } else { "" });
    for name in generate::NAMES {
        for size in SIZES {
            let wiring = generate::large(name, size).expect("a large wiring has this name");
            line(name, &wiring);
        }
    }
}

/// Times one wiring and prints the line for it.
fn line(name: &str, wiring: &Wiring) {
    let choice = ordinary::choose(wiring).expect("large wirings are sound");
    let ordinary = best(|| ordinary::choose(black_box(wiring)));
    print!("{name:<11} {:>5} {:>5} ", wiring.leads().count(), wiring.nodes);
    print!("{:>5} {:>8} {:>10.3}", choice.total, choice.words.len(), milliseconds(ordinary));
    beside(wiring, &choice.words, ordinary);
    println!();
}

/// Times the proved program, sees that its words are the same, and prints its time and how many times as
/// long it took. It makes its tables in this time; the rows it writes into are lent.
#[cfg(feature = "proved")]
fn beside(wiring: &Wiring, words: &[u32], ordinary: Duration) {
    let mut lent = bench::proved::Lent::new(wiring, words.len(), wiring.places.len());
    let counts = lent.choose().expect("large wirings are sound, and the rows suffice");
    assert!(counts.words == words.len(), "the proved program has another number of words");
    let drawn = lent.words.iter().map(|&word| u32::from(word));
    assert!(drawn.eq(words.iter().copied()), "the proved program has other words");
    let proved = best(|| black_box(&mut lent).choose());
    print!(" {:>10.3} {:>6.2}", milliseconds(proved), proved.as_secs_f64() / ordinary.as_secs_f64());
}

#[cfg(not(feature = "proved"))]
fn beside(_: &Wiring, _: &[u32], _: Duration) {}

/// The least time that a call took.
fn best<T>(mut call: impl FnMut() -> T) -> Duration {
    let begun = Instant::now();
    let mut least = Duration::MAX;
    let mut runs = 0;
    while runs < FEWEST_RUNS || begun.elapsed() < ENOUGH {
        let start = Instant::now();
        drop(black_box(call()));
        least = least.min(start.elapsed());
        runs += 1;
    }
    least
}

fn milliseconds(time: Duration) -> f64 {
    time.as_secs_f64() * 1000.0
}
