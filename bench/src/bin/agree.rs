//! `agree N SEED [MOST]`: compares the two choosers on N generated small wirings of up to MOST leads, 8 if
//! it is left out, and with the feature `proved` the proved program too.

use bench::generate::{small_with, Random};
use bench::ordinary::{self, Choice};
use bench::second::{self, Findings};
use bench::wiring::{write, Delay, Wiring};
use std::process::ExitCode;

fn main() -> ExitCode {
    let numbers: Vec<u64> = std::env::args().skip(1).filter_map(|word| word.parse().ok()).collect();
    let (count, seed, most) = match numbers[..] {
        [count, seed] => (count, seed, 8),
        [count, seed, most @ 4..=16] => (count, seed, most as u32),
        _ => {
            eprintln!("usage: agree N SEED [MOST], with MOST from 4 to 16");
            return ExitCode::from(2);
        }
    };
    let mut random = Random::new(seed);
    let mut tally = Tally::default();
    for agreed in 0..count {
        let wiring = small_with(&mut random, most);
        let findings = second::work_out(&wiring);
        if let Some(difference) = difference(&wiring, &findings) {
            println!("{agreed} agree, and then one differs: {difference}");
            print!("{}", write(&wiring));
            return ExitCode::FAILURE;
        }
        tally.count(&findings, most as usize);
    }
    println!("{count} agree");
    println!("{} have {most} leads, {} a load above 1", tally.full, tally.loaded);
    println!("{} have several loads of the least total", tally.ambiguous);
    println!("the most paths of one wiring are {}, of one list {}", tally.most_paths, tally.longest_list);
    ExitCode::SUCCESS
}

/// What sorts of wirings were compared.
#[derive(Default)]
struct Tally {
    full: usize,
    loaded: usize,
    ambiguous: usize,
    most_paths: usize,
    longest_list: usize,
}

impl Tally {
    fn count(&mut self, findings: &Findings, most: usize) {
        self.full += usize::from(findings.longest.iter().flatten().count() == most);
        self.loaded += usize::from(findings.loads.iter().any(|&load| load > 1));
        self.ambiguous += usize::from(findings.ways > 1);
        self.most_paths = self.most_paths.max(findings.paths.len());
        self.longest_list = self.longest_list.max(findings.list.len());
    }
}

/// The first thing in which the choosers differ, or in which the second is not at one with itself.
fn difference(wiring: &Wiring, findings: &Findings) -> Option<&'static str> {
    let Ok(survey) = ordinary::survey(wiring) else { return Some("refused") };
    let Ok(choice) = ordinary::choose(wiring) else { return Some("refused") };
    let drains: Vec<bool> = survey.types.iter().map(|of_lead| of_lead.drains).collect();
    let fed: Vec<bool> = survey.types.iter().map(|of_lead| of_lead.fed).collect();
    let checks = [
        (same_lengths(wiring, &survey.to, &findings.to), "To"),
        (same_lengths(wiring, &survey.from, &findings.from), "From"),
        (drains == findings.drains, "which leads drain"),
        (fed == findings.fed, "which leads are fed"),
        (longest_are_sums(wiring, findings), "the longest path through a lead"),
        (second::list_covers(wiring, &findings.paths, &findings.list), "the list does not cover"),
        (findings.covers == findings.list.len(), "the list and the smallest covering set"),
        (findings.total == findings.list.len(), "the total and the list"),
    ];
    let failed = checks.into_iter().find(|(holds, _)| !holds).map(|(_, what)| what);
    let failed = failed.or_else(|| choice_difference(wiring, &choice, findings));
    failed.or_else(|| proved_difference(wiring, findings))
}

fn choice_difference(wiring: &Wiring, choice: &Choice, findings: &Findings) -> Option<&'static str> {
    let as_sizes = |numbers: &[u32]| numbers.iter().map(|&number| number as usize).collect::<Vec<_>>();
    let witnessed = second::is_witness(wiring, &findings.paths, &choice.witness, findings.list.len());
    let checks = [
        (choice.total as usize == findings.total, "the total"),
        (as_sizes(&choice.loads) == findings.loads, "the loads"),
        (as_sizes(&choice.words) == findings.words(), "the words"),
        (witnessed, "the witness"),
    ];
    checks.into_iter().find(|(holds, _)| !holds).map(|(_, what)| what)
}

/// In what the proved program differs, lent rows that are just long enough, longer ones, and ones that are too
/// short by one.
#[cfg(feature = "proved")]
fn proved_difference(wiring: &Wiring, findings: &Findings) -> Option<&'static str> {
    use bench::proved::{Lent, Refused};
    let words = findings.words();
    let paths = findings.list.len();
    for spare in [0, 3] {
        let mut lent = Lent::new(wiring, words.len() + spare, paths + spare);
        let Ok(counts) = lent.choose() else { return Some("the proved program refuses") };
        let drawn = lent.words[..words.len()].iter().map(|&word| usize::from(word));
        let witness: Vec<u32> = lent.witness[..paths].iter().map(|&lead| u32::from(lead)).collect();
        let kept = lent.words[words.len()..].iter().chain(&lent.witness[paths..]).all(|&entry| entry == 0);
        let checks = [
            (counts.paths == paths, "the proved program's number of paths"),
            (counts.words == words.len() && drawn.eq(words.iter().copied()), "the proved program's words"),
            (second::is_witness(wiring, &findings.paths, &witness, paths), "the proved program's witness"),
            (kept, "the proved program's rows past the list"),
        ];
        if let Some((_, what)) = checks.into_iter().find(|(holds, _)| !holds) {
            return Some(what);
        }
    }
    let short = |words, witness| Lent::new(wiring, words, witness).choose() == Err(Refused(10));
    let refused = paths == 0 || short(words.len() - 1, paths) && short(words.len(), paths - 1);
    (!refused).then_some("the proved program takes a row that is too short")
}

#[cfg(not(feature = "proved"))]
fn proved_difference(_: &Wiring, _: &Findings) -> Option<&'static str> {
    None
}

fn same_lengths(wiring: &Wiring, first: &[Delay], second: &[Delay]) -> bool {
    let equal = |(&p, &q): (&Delay, &Delay)| second::equal(wiring.kind, p, q);
    first.len() == second.len() && first.iter().zip(second).all(equal)
}

/// Whether the longest path through each lead, found among all paths, is To(tail) + delay + From(head).
fn longest_are_sums(wiring: &Wiring, findings: &Findings) -> bool {
    wiring.leads().all(|(place, lead)| {
        let (to, from) = (findings.to[lead.tail as usize], findings.from[lead.head as usize]);
        let sum = second::plus(second::plus(to, lead.delay), from);
        findings.longest[place].is_some_and(|delay| second::equal(wiring.kind, delay, sum))
    })
}
