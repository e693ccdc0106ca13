//! An ordinary chooser: allocates what it needs, and takes time in proportion to nodes and leads for
//! each search.

use crate::wiring::{self, Delay, Fault, Lead, Wiring};
use std::marker::PhantomData;

/// What a delay is, how delays add up and which of two is the shorter.
pub trait Kind {
    type Delay: Copy + PartialEq;
    const ZERO: Self::Delay;
    /// The delay that a lead's picoseconds and contacts stand for.
    fn read(delay: Delay) -> Self::Delay;
    /// Picoseconds and contacts of a delay.
    fn show(delay: Self::Delay) -> Delay;
    fn add(p: Self::Delay, q: Self::Delay) -> Self::Delay;
    /// Whether p is shorter than q.
    fn below(p: Self::Delay, q: Self::Delay) -> bool;
}

/// Picoseconds, compared as numbers. A sum of 4,095 lawful delays fits.
pub struct Late;

impl Kind for Late {
    type Delay = u32;
    const ZERO: u32 = 0;

    fn read(delay: Delay) -> u32 {
        delay.picoseconds
    }
    fn show(picoseconds: u32) -> Delay {
        Delay { picoseconds, contacts: 0 }
    }
    fn add(p: u32, q: u32) -> u32 {
        p + q
    }
    fn below(p: u32, q: u32) -> bool {
        p < q
    }
}

/// Picoseconds first, contacts second.
pub struct Contact;

impl Kind for Contact {
    type Delay = (u32, u32);
    const ZERO: (u32, u32) = (0, 0);

    fn read(delay: Delay) -> (u32, u32) {
        (delay.picoseconds, delay.contacts)
    }
    fn show((picoseconds, contacts): (u32, u32)) -> Delay {
        Delay { picoseconds, contacts }
    }
    fn add(p: (u32, u32), q: (u32, u32)) -> (u32, u32) {
        (p.0 + q.0, p.1 + q.1)
    }
    fn below(p: (u32, u32), q: (u32, u32)) -> bool {
        p < q
    }
}

/// The delays of another kind, compared the other way round.
pub struct Early<K>(PhantomData<K>);

impl<K: Kind> Kind for Early<K> {
    type Delay = K::Delay;
    const ZERO: K::Delay = K::ZERO;

    fn read(delay: Delay) -> K::Delay {
        K::read(delay)
    }
    fn show(delay: K::Delay) -> Delay {
        K::show(delay)
    }
    fn add(p: K::Delay, q: K::Delay) -> K::Delay {
        K::add(p, q)
    }
    fn below(p: K::Delay, q: K::Delay) -> bool {
        K::below(q, p)
    }
}

/// To and From of each node, and the types of the leads by place (both marks false where it is vacant).
#[derive(Clone, Debug, PartialEq, Eq)]
pub struct Survey {
    pub to: Vec<Delay>,
    pub from: Vec<Delay>,
    pub types: Vec<Type>,
}

/// The two marks of a lead.
#[derive(Clone, Copy, Debug, PartialEq, Eq, Default)]
pub struct Type {
    pub drains: bool,
    pub fed: bool,
}

/// What is chosen for a wiring.
#[derive(Clone, Debug, PartialEq, Eq)]
pub struct Choice {
    /// The best load of each place, 0 where it is vacant.
    pub loads: Vec<u32>,
    /// The number of paths, which is the total of the best loads.
    pub total: u32,
    /// For each path its number of leads, and then their numbers.
    pub words: Vec<u32>,
    /// As many leads as there are paths, no path longest through two of them.
    pub witness: Vec<u32>,
}

/// To, From and the types of a wiring, or why it is refused.
pub fn survey(wiring: &Wiring) -> Result<Survey, Fault> {
    wiring.check()?;
    Ok(match wiring.kind {
        wiring::Kind::Late => survey_of::<Late>(wiring),
        wiring::Kind::Contact => survey_of::<Contact>(wiring),
        wiring::Kind::Early => survey_of::<Early<Late>>(wiring),
    })
}

/// The list of a wiring with its loads and a witness, or why it is refused.
pub fn choose(wiring: &Wiring) -> Result<Choice, Fault> {
    wiring.check()?;
    Ok(match wiring.kind {
        wiring::Kind::Late => choose_by::<Late>(wiring),
        wiring::Kind::Contact => choose_by::<Contact>(wiring),
        wiring::Kind::Early => choose_by::<Early<Late>>(wiring),
    })
}

fn survey_of<K: Kind>(wiring: &Wiring) -> Survey {
    let graph = Graph::new(wiring);
    let (to, from) = (graph.to::<K>(), graph.from::<K>());
    let types = graph.types::<K>(&to, &from);
    let show = |lengths: Vec<K::Delay>| lengths.into_iter().map(K::show).collect();
    Survey { to: show(to), from: show(from), types }
}

fn choose_by<K: Kind>(wiring: &Wiring) -> Choice {
    let graph = Graph::new(wiring);
    let types = graph.types::<K>(&graph.to::<K>(), &graph.from::<K>());
    let net = Network::new(&graph, &types);
    let mut loads = net.first_loads(&graph);
    let mut search = Search::new(net.nodes());
    let witness = lower_total(&net, &mut search, &mut loads);
    lower_in_order(&net, &mut search, &mut loads);
    let words = draw(&net, &loads);
    let total = witness.len() as u32;
    Choice { loads, total, words, witness }
}

/// One list of items for each number, all in one row.
struct Lists<T> {
    starts: Vec<u32>,
    items: Vec<T>,
}

impl<T: Copy + Default> Lists<T> {
    /// Each entry is a list's number and an item; a list keeps its items in the order of the entries.
    fn new(count: usize, entries: impl Iterator<Item = (u32, T)> + Clone) -> Self {
        let mut starts = vec![0; count + 1];
        for (list, _) in entries.clone() {
            starts[list as usize + 1] += 1;
        }
        for list in 0..count {
            starts[list + 1] += starts[list];
        }
        let mut next = starts.clone();
        let mut items = vec![T::default(); starts[count] as usize];
        for (list, item) in entries {
            let slot = &mut next[list as usize];
            items[*slot as usize] = item;
            *slot += 1;
        }
        Lists { starts, items }
    }

    fn of(&self, list: usize) -> &[T] {
        &self.items[self.starts[list] as usize..self.starts[list + 1] as usize]
    }
}

/// A wiring with the leads into and out of each node, in ascending number.
struct Graph<'a> {
    wiring: &'a Wiring,
    nodes: usize,
    entering: Lists<(u32, Lead)>,
    leaving: Lists<(u32, Lead)>,
}

impl<'a> Graph<'a> {
    fn new(wiring: &'a Wiring) -> Self {
        let nodes = wiring.nodes as usize;
        let by_head = wiring.places.iter().enumerate();
        let by_head = by_head.filter_map(|(k, place)| place.map(|lead| (lead.head, (k as u32, lead))));
        let by_tail = wiring.places.iter().enumerate();
        let by_tail = by_tail.filter_map(|(k, place)| place.map(|lead| (lead.tail, (k as u32, lead))));
        let (entering, leaving) = (Lists::new(nodes, by_head), Lists::new(nodes, by_tail));
        Graph { wiring, nodes, entering, leaving }
    }

    fn is_input(&self, node: u32) -> bool {
        self.entering.of(node as usize).is_empty()
    }

    fn is_output(&self, node: u32) -> bool {
        self.leaving.of(node as usize).is_empty()
    }

    /// To of each node. Leads run from lower nodes to higher ones, so node numbers are an order to go by.
    fn to<K: Kind>(&self) -> Vec<K::Delay> {
        let mut to = vec![K::ZERO; self.nodes];
        for node in 0..self.nodes {
            let runs = self.entering.of(node).iter();
            let runs = runs.map(|(_, lead)| K::add(to[lead.tail as usize], K::read(lead.delay)));
            to[node] = longest::<K>(runs);
        }
        to
    }

    fn from<K: Kind>(&self) -> Vec<K::Delay> {
        let mut from = vec![K::ZERO; self.nodes];
        for node in (0..self.nodes).rev() {
            let runs = self.leaving.of(node).iter();
            let runs = runs.map(|(_, lead)| K::add(K::read(lead.delay), from[lead.head as usize]));
            from[node] = longest::<K>(runs);
        }
        from
    }

    fn types<K: Kind>(&self, to: &[K::Delay], from: &[K::Delay]) -> Vec<Type> {
        let of_lead = |lead: &Lead| {
            let (tail, head, delay) = (lead.tail as usize, lead.head as usize, K::read(lead.delay));
            Type { drains: K::add(delay, from[head]) == from[tail], fed: K::add(to[tail], delay) == to[head] }
        };
        self.wiring.places.iter().map(|place| place.as_ref().map_or(Type::default(), of_lead)).collect()
    }
}

/// The longest of some delays, zero if there are none.
fn longest<K: Kind>(delays: impl Iterator<Item = K::Delay>) -> K::Delay {
    delays.reduce(|p, q| if K::below(p, q) { q } else { p }).unwrap_or(K::ZERO)
}

/// A lead at one of its ends, and the node at its other end.
#[derive(Clone, Copy, Default)]
struct Side {
    lead: u32,
    other: u32,
}

/// An arc of the network, with the ends of the lead it stands for.
#[derive(Clone, Copy, Default)]
struct Arc {
    from: u32,
    to: u32,
    lead: Lead,
}

/// The leads as arcs along which loads flow: a start lead leaves the source and not its tail, an end lead
/// enters the sink and not its head. So loads are a flow of at least 1 on every arc that is balanced at
/// every inner node, and the total is what leaves the source.
struct Network {
    source: u32,
    sink: u32,
    arcs: Vec<Arc>,
    entering: Lists<Side>,
    leaving: Lists<Side>,
}

impl Network {
    fn new(graph: &Graph, types: &[Type]) -> Self {
        let (source, sink) = (graph.nodes as u32, graph.nodes as u32 + 1);
        let mut arcs = vec![Arc::default(); types.len()];
        for (k, lead) in graph.wiring.leads() {
            let start = !types[k].drains || graph.is_input(lead.tail);
            let end = !types[k].fed || graph.is_output(lead.head);
            let (from, to) = (if start { source } else { lead.tail }, if end { sink } else { lead.head });
            arcs[k] = Arc { from, to, lead };
        }
        let standing = || graph.wiring.leads().map(|(k, _)| k);
        let entries: Vec<_> = standing().map(|k| (k as u32, arcs[k].from, arcs[k].to)).collect();
        let by_to = entries.iter().map(|&(lead, from, to)| (to, Side { lead, other: from }));
        let by_from = entries.iter().map(|&(lead, from, to)| (from, Side { lead, other: to }));
        let (entering, leaving) = (Lists::new(graph.nodes + 2, by_to), Lists::new(graph.nodes + 2, by_from));
        Network { source, sink, arcs, entering, leaving }
    }

    /// The nodes of the network, source and sink counted.
    fn nodes(&self) -> usize {
        self.sink as usize + 1
    }

    /// Some loads: 1 on every lead, then what is too much at a node sent on to the sink, and what is
    /// lacking fetched from the source. High numbers take the rest, so that low ones start out small.
    fn first_loads(&self, graph: &Graph) -> Vec<u32> {
        let mut loads: Vec<u32> = graph.wiring.places.iter().map(|place| place.is_some() as u32).collect();
        let sum = |loads: &[u32], sides: &[Side]| sides.iter().map(|side| loads[side.lead as usize]).sum::<u32>();
        for node in 0..graph.nodes {
            if let Some(last) = self.leaving.of(node).last() {
                let (enters, leaves) = (sum(&loads, self.entering.of(node)), sum(&loads, self.leaving.of(node)));
                loads[last.lead as usize] += enters.saturating_sub(leaves);
            }
        }
        for node in (0..graph.nodes).rev() {
            if let Some(last) = self.entering.of(node).last() {
                let (enters, leaves) = (sum(&loads, self.entering.of(node)), sum(&loads, self.leaving.of(node)));
                loads[last.lead as usize] += leaves.saturating_sub(enters);
            }
        }
        loads
    }
}

/// Searches of the network by residual steps: along an arc always, which raises its load, and against an
/// arc only if its load is at least 2, which lowers it.
struct Search {
    round: u32,
    /// The last round in which each node was reached.
    seen: Vec<u32>,
    /// The arc by which it was reached, and whether along it.
    came: Vec<(u32, bool)>,
    stack: Vec<u32>,
}

impl Search {
    fn new(nodes: usize) -> Self {
        Search { round: 0, seen: vec![0; nodes], came: vec![(0, false); nodes], stack: Vec::new() }
    }

    fn reached(&self, node: u32) -> bool {
        self.seen[node as usize] == self.round
    }

    /// Notes that a node is reached; whether it was reached for the first time.
    fn reach(&mut self, node: u32, lead: u32, along: bool) -> bool {
        let first = !self.reached(node);
        if first {
            self.seen[node as usize] = self.round;
            self.came[node as usize] = (lead, along);
            self.stack.push(node);
        }
        first
    }

    /// Whether there is a way of residual steps from one node to another by leads of at least this number.
    fn seek(&mut self, net: &Network, loads: &[u32], from: u32, goal: u32, least: u32) -> bool {
        self.round += 1;
        self.stack.clear();
        self.reach(from, 0, true);
        while let Some(node) = self.stack.pop() {
            for side in net.leaving.of(node as usize).iter().rev() {
                if side.lead < least {
                    break;
                }
                if self.reach(side.other, side.lead, true) && side.other == goal {
                    return true;
                }
            }
            for side in net.entering.of(node as usize).iter().rev() {
                if side.lead < least {
                    break;
                }
                let lowers = loads[side.lead as usize] >= 2;
                if lowers && self.reach(side.other, side.lead, false) && side.other == goal {
                    return true;
                }
            }
        }
        false
    }

    /// Changes the loads along the way that was found, by as much as it allows and at most by `most`.
    fn push(&self, net: &Network, loads: &mut [u32], from: u32, goal: u32, most: u32) -> u32 {
        let mut amount = most;
        self.each_step(net, from, goal, |lead, along| {
            if !along {
                amount = amount.min(loads[lead] - 1);
            }
        });
        self.each_step(net, from, goal, |lead, along| {
            if along {
                loads[lead] += amount;
            } else {
                loads[lead] -= amount;
            }
        });
        amount
    }

    /// The steps of the way that was found, from its last back to its first.
    fn each_step(&self, net: &Network, from: u32, goal: u32, mut step: impl FnMut(usize, bool)) {
        let mut node = goal;
        while node != from {
            let (lead, along) = self.came[node as usize];
            step(lead as usize, along);
            let arc = &net.arcs[lead as usize];
            node = if along { arc.from } else { arc.to };
        }
    }
}

/// Lowers the total as long as there is a way from the sink back to the source, and answers the witness:
/// at the end, the leads from the nodes that the sink does not reach to those that it reaches. Each of
/// them has the load 1, and none leads the other way.
fn lower_total(net: &Network, search: &mut Search, loads: &mut [u32]) -> Vec<u32> {
    while search.seek(net, loads, net.sink, net.source, 0) {
        search.push(net, loads, net.sink, net.source, u32::MAX);
    }
    let crossing = |side: &&Side| !search.reached(side.other);
    let reached = (0..net.nodes()).filter(|&node| search.reached(node as u32));
    let into_reached = reached.flat_map(|node| net.entering.of(node).iter().filter(crossing));
    let mut witness: Vec<u32> = into_reached.map(|side| side.lead).collect();
    witness.sort_unstable();
    witness
}

/// Lowers each lead in turn, in ascending number, as far as the leads above it can make up for it.
fn lower_in_order(net: &Network, search: &mut Search, loads: &mut [u32]) {
    for lead in 0..loads.len() {
        let Arc { from, to, .. } = net.arcs[lead];
        while loads[lead] >= 2 && search.seek(net, loads, from, to, lead as u32 + 1) {
            let most = loads[lead] - 1;
            loads[lead] -= search.push(net, loads, from, to, most);
        }
    }
}

/// The words of the list drawn from the loads.
fn draw(net: &Network, loads: &[u32]) -> Vec<u32> {
    let mut left = loads.to_vec();
    // how many of the leads out of each node have nothing left; these are its lowest
    let mut spent = vec![0; net.nodes()];
    let mut words = Vec::new();
    let mut back = Vec::new();
    for start in net.leaving.of(net.source as usize) {
        for _ in 0..loads[start.lead as usize] {
            let place = words.len();
            words.push(0);
            extend_back(net, start.lead, &mut back);
            words.extend(back.iter().rev());
            let last = draw_core(net, start.lead, &mut left, &mut spent, &mut words);
            extend_on(net, last, &mut words);
            words[place] = (words.len() - place - 1) as u32;
        }
    }
    words
}

/// Takes a core from what is left, and answers its last lead.
fn draw_core(net: &Network, start: u32, left: &mut [u32], spent: &mut [usize], words: &mut Vec<u32>) -> u32 {
    let mut lead = start;
    loop {
        words.push(lead);
        left[lead as usize] -= 1;
        let node = net.arcs[lead as usize].to;
        if node == net.sink {
            return lead;
        }
        let out = net.leaving.of(node as usize);
        let spent = &mut spent[node as usize];
        while left[out[*spent].lead as usize] == 0 {
            *spent += 1;
        }
        lead = out[*spent].lead;
    }
}

/// The lowest fed leads from the tail of a lead back to an input, the nearest first.
fn extend_back(net: &Network, lead: u32, back: &mut Vec<u32>) {
    back.clear();
    let mut node = net.arcs[lead as usize].lead.tail;
    while let Some(side) = net.entering.of(node as usize).first() {
        back.push(side.lead);
        node = net.arcs[side.lead as usize].lead.tail;
    }
}

/// Adds the lowest draining leads from the head of a lead on to an output.
fn extend_on(net: &Network, lead: u32, words: &mut Vec<u32>) {
    let mut node = net.arcs[lead as usize].lead.head;
    while let Some(side) = net.leaving.of(node as usize).first() {
        words.push(side.lead);
        node = net.arcs[side.lead as usize].lead.head;
    }
}
