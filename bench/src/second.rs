//! A second chooser, for small wirings only. It shares nothing with the ordinary one but the plain types
//! of wirings, and goes by the definitions: it looks at all runs, all paths, all loads and all sets of
//! paths. The wirings it is given must be sound.

use crate::wiring::{Delay, Kind, Wiring};

/// A row of leads, each starting where the one before ended. A run of no leads has one node.
#[derive(Clone, Debug, PartialEq, Eq)]
pub struct Run {
    pub first: u32,
    pub last: u32,
    pub leads: Vec<usize>,
    pub delay: Delay,
}

/// All that follows from the definitions, for one wiring.
#[derive(Clone, Debug)]
pub struct Findings {
    pub to: Vec<Delay>,
    pub from: Vec<Delay>,
    /// By place; false where it is vacant.
    pub drains: Vec<bool>,
    pub fed: Vec<bool>,
    /// By place, the delay of a longest path through the lead; nothing where it is vacant.
    pub longest: Vec<Option<Delay>>,
    pub paths: Vec<Run>,
    /// By place, the best loads; 0 where it is vacant.
    pub loads: Vec<usize>,
    pub total: usize,
    /// How many loads have the least total; the best ones are the first of them.
    pub ways: usize,
    /// The drawn list, each path with its leads from input to output.
    pub list: Vec<Vec<usize>>,
    /// The smallest size of a set of paths that covers every lead.
    pub covers: usize,
}

impl Findings {
    /// For each path of the list its number of leads, and then their numbers.
    pub fn words(&self) -> Vec<usize> {
        let mut words = Vec::new();
        for path in &self.list {
            words.push(path.len());
            words.extend(path);
        }
        words
    }
}

/// Works everything out.
pub fn work_out(wiring: &Wiring) -> Findings {
    let runs = all_runs(wiring);
    let paths: Vec<Run> = runs.iter().filter(|run| is_path(wiring, run)).cloned().collect();
    let nodes = 0..wiring.nodes;
    let to: Vec<Delay> = nodes.clone().map(|node| to(wiring, &runs, node)).collect();
    let from: Vec<Delay> = nodes.map(|node| from(wiring, &runs, node)).collect();
    let places = 0..wiring.places.len();
    let drains: Vec<bool> = places.clone().map(|place| drains(wiring, &from, place)).collect();
    let fed: Vec<bool> = places.clone().map(|place| fed(wiring, &to, place)).collect();
    let longest = places.map(|place| longest_through(wiring, &paths, place)).collect();
    let rules = Rules::new(wiring, &drains, &fed);
    let (total, loads, ways) = best_loads(&rules);
    let list = drawn_list(&rules, &loads);
    let covers = smallest_cover(wiring, &paths);
    Findings { to, from, drains, fed, longest, paths, loads, total, ways, list, covers }
}

/// Whether a delay is longer than another, as the wiring's kind compares them.
fn longer(kind: Kind, p: Delay, q: Delay) -> bool {
    match kind {
        Kind::Late => p.picoseconds > q.picoseconds,
        Kind::Early => p.picoseconds < q.picoseconds,
        Kind::Contact if p.picoseconds == q.picoseconds => p.contacts > q.contacts,
        Kind::Contact => p.picoseconds > q.picoseconds,
    }
}

/// Whether two delays are equal: neither is longer.
pub fn equal(kind: Kind, p: Delay, q: Delay) -> bool {
    !longer(kind, p, q) && !longer(kind, q, p)
}

pub fn plus(p: Delay, q: Delay) -> Delay {
    Delay { picoseconds: p.picoseconds + q.picoseconds, contacts: p.contacts + q.contacts }
}

fn has_lead_in(wiring: &Wiring, node: u32) -> bool {
    wiring.places.iter().flatten().any(|lead| lead.head == node)
}

fn has_lead_out(wiring: &Wiring, node: u32) -> bool {
    wiring.places.iter().flatten().any(|lead| lead.tail == node)
}

fn is_input(wiring: &Wiring, node: u32) -> bool {
    has_lead_out(wiring, node) && !has_lead_in(wiring, node)
}

fn is_output(wiring: &Wiring, node: u32) -> bool {
    has_lead_in(wiring, node) && !has_lead_out(wiring, node)
}

fn is_inner(wiring: &Wiring, node: u32) -> bool {
    has_lead_in(wiring, node) && has_lead_out(wiring, node)
}

fn is_path(wiring: &Wiring, run: &Run) -> bool {
    is_input(wiring, run.first) && is_output(wiring, run.last)
}

/// All runs: those of no leads, and each run again with each lead that goes on from its end.
fn all_runs(wiring: &Wiring) -> Vec<Run> {
    let none = |node| Run { first: node, last: node, leads: Vec::new(), delay: Delay::default() };
    let mut runs: Vec<Run> = (0..wiring.nodes).map(none).collect();
    let mut next = 0;
    while next < runs.len() {
        let run = runs[next].clone();
        for (place, lead) in wiring.places.iter().enumerate() {
            let Some(lead) = lead else { continue };
            if lead.tail == run.last {
                let mut leads = run.leads.clone();
                leads.push(place);
                runs.push(Run { first: run.first, last: lead.head, leads, delay: plus(run.delay, lead.delay) });
            }
        }
        next += 1;
    }
    runs
}

/// The longest delay among some runs.
fn longest_of<'a>(kind: Kind, runs: impl Iterator<Item = &'a Run>) -> Option<Delay> {
    let mut longest = None;
    for run in runs {
        match longest {
            Some(delay) if !longer(kind, run.delay, delay) => {}
            _ => longest = Some(run.delay),
        }
    }
    longest
}

/// The longest delay of a run from an input to the node; zero for a bare node, which has none.
fn to(wiring: &Wiring, runs: &[Run], node: u32) -> Delay {
    let runs = runs.iter().filter(|run| is_input(wiring, run.first) && run.last == node);
    longest_of(wiring.kind, runs).unwrap_or_default()
}

/// The longest delay of a run from the node to an output; zero for a bare node, which has none.
fn from(wiring: &Wiring, runs: &[Run], node: u32) -> Delay {
    let runs = runs.iter().filter(|run| run.first == node && is_output(wiring, run.last));
    longest_of(wiring.kind, runs).unwrap_or_default()
}

fn fed(wiring: &Wiring, to: &[Delay], place: usize) -> bool {
    let Some(lead) = wiring.places[place] else { return false };
    equal(wiring.kind, plus(to[lead.tail as usize], lead.delay), to[lead.head as usize])
}

fn drains(wiring: &Wiring, from: &[Delay], place: usize) -> bool {
    let Some(lead) = wiring.places[place] else { return false };
    equal(wiring.kind, plus(lead.delay, from[lead.head as usize]), from[lead.tail as usize])
}

fn longest_through(wiring: &Wiring, paths: &[Run], place: usize) -> Option<Delay> {
    longest_of(wiring.kind, paths.iter().filter(|path| path.leads.contains(&place)))
}

/// Whether a path is longest through a lead.
fn covers(wiring: &Wiring, paths: &[Run], path: &Run, lead: usize) -> bool {
    let through = |other: &&Run| other.leads.contains(&lead);
    path.leads.contains(&lead)
        && !paths.iter().filter(through).any(|other| longer(wiring.kind, other.delay, path.delay))
}

/// The leads with what the rules for loads and for the list ask of them.
struct Rules<'a> {
    wiring: &'a Wiring,
    /// The numbers of the leads, ascending.
    leads: Vec<usize>,
    drains: &'a [bool],
    fed: &'a [bool],
}

impl<'a> Rules<'a> {
    fn new(wiring: &'a Wiring, drains: &'a [bool], fed: &'a [bool]) -> Self {
        let leads = (0..wiring.places.len()).filter(|&place| wiring.places[place].is_some()).collect();
        Rules { wiring, leads, drains, fed }
    }

    fn tail(&self, lead: usize) -> u32 {
        self.wiring.places[lead].expect("a lead stands here").tail
    }

    fn head(&self, lead: usize) -> u32 {
        self.wiring.places[lead].expect("a lead stands here").head
    }

    fn is_start(&self, lead: usize) -> bool {
        !self.drains[lead] || is_input(self.wiring, self.tail(lead))
    }

    fn is_end(&self, lead: usize) -> bool {
        !self.fed[lead] || is_output(self.wiring, self.head(lead))
    }

    fn fed_into(&self, node: u32) -> Vec<usize> {
        let leads = self.leads.iter().copied();
        leads.filter(|&lead| self.fed[lead] && self.head(lead) == node).collect()
    }

    fn draining_out_of(&self, node: u32) -> Vec<usize> {
        let leads = self.leads.iter().copied();
        leads.filter(|&lead| self.drains[lead] && self.tail(lead) == node).collect()
    }

    fn starts(&self) -> Vec<usize> {
        self.leads.iter().copied().filter(|&lead| self.is_start(lead)).collect()
    }
}

/// The least total, the loads that have it first in ascending order, and how many loads have it.
///
/// All loads from 1 up to the number of leads are gone through in ascending order, lead by lead, and the
/// first with a smaller total than any before is kept. Of loads with the least total none is above the
/// number of leads: no load is above the total, and the least total is at most the number of leads.
fn best_loads(rules: &Rules) -> (usize, Vec<usize>, usize) {
    let inner = (0..rules.wiring.nodes).filter(|&node| is_inner(rules.wiring, node));
    let sides = inner.map(|node| (rules.fed_into(node), rules.draining_out_of(node))).collect();
    let mut trial = Trial {
        leads: rules.leads.clone(),
        sides,
        starts: rules.starts(),
        loads: vec![0; rules.wiring.places.len()],
        best: None,
        ways: 0,
    };
    trial.try_from(0);
    let (total, loads) = trial.best.expect("every sound wiring has best loads");
    (total, loads, trial.ways)
}

/// Loads that are being tried; 0 is a load that is not set yet.
struct Trial {
    leads: Vec<usize>,
    /// For each inner node its fed leads in and its draining leads out.
    sides: Vec<(Vec<usize>, Vec<usize>)>,
    starts: Vec<usize>,
    loads: Vec<usize>,
    /// The least total so far, with the first loads that have it, and how many have it.
    best: Option<(usize, Vec<usize>)>,
    ways: usize,
}

impl Trial {
    /// Tries all loads of the leads from the one at this index on.
    fn try_from(&mut self, index: usize) {
        if !self.may_balance() || !self.may_be_as_good() {
            return;
        }
        if index == self.leads.len() {
            self.keep();
            return;
        }
        for load in 1..=self.leads.len() {
            self.loads[self.leads[index]] = load;
            self.try_from(index + 1);
        }
        self.loads[self.leads[index]] = 0;
    }

    /// Counts loads that are all set, and keeps them if no loads before have a total as small.
    fn keep(&mut self) {
        let total = self.least_sum(&self.starts);
        match &self.best {
            Some((least, _)) if total == *least => self.ways += 1,
            _ => {
                self.best = Some((total, self.loads.clone()));
                self.ways = 1;
            }
        }
    }

    /// Whether at every inner node both sides can still come out equal. With all loads set this says that
    /// they are equal.
    fn may_balance(&self) -> bool {
        self.sides.iter().all(|(fed, draining)| {
            self.least_sum(fed) <= self.greatest_sum(draining) && self.least_sum(draining) <= self.greatest_sum(fed)
        })
    }

    /// Whether the total can still become as small as the least one so far. With all loads set this says
    /// that it is.
    fn may_be_as_good(&self) -> bool {
        self.best.as_ref().is_none_or(|(total, _)| self.least_sum(&self.starts) <= *total)
    }

    /// The sum of some loads if all that are not set become 1.
    fn least_sum(&self, leads: &[usize]) -> usize {
        leads.iter().map(|&lead| self.loads[lead].max(1)).sum()
    }

    /// The sum of some loads if all that are not set become as great as the bound.
    fn greatest_sum(&self, leads: &[usize]) -> usize {
        let bound = self.leads.len();
        leads.iter().map(|&lead| if self.loads[lead] == 0 { bound } else { self.loads[lead] }).sum()
    }
}

/// The list, drawn from what is left of the loads until nothing is left.
fn drawn_list(rules: &Rules, loads: &[usize]) -> Vec<Vec<usize>> {
    let mut left = loads.to_vec();
    let mut list = Vec::new();
    while let Some(start) = rules.starts().into_iter().find(|&lead| left[lead] > 0) {
        let core = take_core(rules, start, &mut left);
        list.push(extended(rules, core));
    }
    assert!(left.iter().all(|&load| load == 0), "something is left that no core takes");
    list
}

/// The core that begins with a lead; what is left of each of its leads is lowered by 1.
fn take_core(rules: &Rules, start: usize, left: &mut [usize]) -> Vec<usize> {
    let mut core = vec![start];
    left[start] -= 1;
    let mut lead = start;
    while !rules.is_end(lead) {
        let draining = rules.draining_out_of(rules.head(lead));
        lead = draining.into_iter().find(|&next| left[next] > 0).expect("the loads are in balance");
        left[lead] -= 1;
        core.push(lead);
    }
    core
}

/// The core extended backwards to an input and forwards to an output.
fn extended(rules: &Rules, mut path: Vec<usize>) -> Vec<usize> {
    while !is_input(rules.wiring, rules.tail(path[0])) {
        let fed = rules.fed_into(rules.tail(path[0]));
        path.insert(0, fed[0]);
    }
    while !is_output(rules.wiring, rules.head(path[path.len() - 1])) {
        let draining = rules.draining_out_of(rules.head(path[path.len() - 1]));
        path.push(draining[0]);
    }
    path
}

/// The smallest size of a covering set of paths: all sets are tried, in ascending size.
fn smallest_cover(wiring: &Wiring, paths: &[Run]) -> usize {
    let lead_mark = |lead: usize| if wiring.places[lead].is_some() { 1u64 << lead } else { 0 };
    let wanted: u64 = (0..wiring.places.len()).map(lead_mark).sum();
    let covered_by = |path| {
        let covered = |&lead: &usize| covers(wiring, paths, path, lead);
        (0..wiring.places.len()).filter(covered).map(|lead| 1u64 << lead).sum()
    };
    let covered: Vec<u64> = paths.iter().map(covered_by).collect();
    let size = (0..=paths.len()).find(|&size| some_set_covers(&covered, size, 0, wanted));
    size.expect("all paths together cover every lead")
}

/// Whether some set of this size, taken from these paths, covers with what is covered already all wanted.
fn some_set_covers(paths: &[u64], size: usize, already: u64, wanted: u64) -> bool {
    if size == 0 {
        return already == wanted;
    }
    (0..paths.len()).any(|first| some_set_covers(&paths[first + 1..], size - 1, already | paths[first], wanted))
}

/// Whether every lead is covered by a path of the list, and every entry of the list is a path.
pub fn list_covers(wiring: &Wiring, paths: &[Run], list: &[Vec<usize>]) -> bool {
    let as_paths: Vec<Option<&Run>> = list.iter().map(|leads| paths.iter().find(|path| path.leads == *leads)).collect();
    let covered = |lead| as_paths.iter().flatten().any(|path| covers(wiring, paths, path, lead));
    let standing = (0..wiring.places.len()).filter(|&place| wiring.places[place].is_some());
    as_paths.iter().all(|path| path.is_some()) && standing.into_iter().all(covered)
}

/// Whether some leads are a witness for this number: as many as it says, in ascending number, all of them
/// leads, and no path longest through two.
pub fn is_witness(wiring: &Wiring, paths: &[Run], witness: &[u32], number: usize) -> bool {
    let ascending = witness.windows(2).all(|two| two[0] < two[1]);
    let stands = |lead: &u32| wiring.places.get(*lead as usize).is_some_and(|place| place.is_some());
    let through_two =
        |path: &Run| witness.iter().filter(|&&lead| covers(wiring, paths, path, lead as usize)).count() >= 2;
    witness.len() == number && ascending && witness.iter().all(stands) && !paths.iter().any(through_two)
}
