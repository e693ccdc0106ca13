//! Wirings by the seed: small ones with many ties for comparing, and large ones for timing.

use crate::wiring::{Delay, Kind, Lead, Wiring, MOST, MOST_CONTACTS, MOST_PICOSECONDS};

/// Numbers that look random and depend on the seed only.
pub struct Random(u64);

impl Random {
    pub fn new(seed: u64) -> Self {
        // the state must not be zero, and near seeds should not begin alike
        let mixed = (seed ^ 0x9e37_79b9_7f4a_7c15).wrapping_mul(0xbf58_476d_1ce4_e5b9);
        Random((mixed ^ (mixed >> 31)) | 1)
    }

    fn next(&mut self) -> u32 {
        self.0 ^= self.0 << 13;
        self.0 ^= self.0 >> 7;
        self.0 ^= self.0 << 17;
        (self.0.wrapping_mul(0x2545_f491_4f6c_dd1d) >> 32) as u32
    }

    /// A number below the bound.
    pub fn below(&mut self, bound: u32) -> u32 {
        ((u64::from(self.next()) * u64::from(bound)) >> 32) as u32
    }

    /// True once in so many times.
    fn once_in(&mut self, times: u32) -> bool {
        self.below(times) == 0
    }
}

/// How the ends of small leads are chosen.
#[derive(Clone, Copy)]
enum Ends {
    /// Any two nodes.
    Any,
    /// Nodes that are next to each other or nearly so.
    Near,
    /// Two layers of nodes and one or two between them.
    Hubs,
}

/// How the delays of small leads are chosen.
#[derive(Clone, Copy)]
enum Delays {
    /// All equal.
    Equal(u32),
    /// Anything below the bound.
    Below(u32),
    /// The way from tail to head on one scale, so that all runs between two nodes tie.
    Ties,
    /// The same, and once in a while one more.
    NearTies,
    /// The least and the greatest lawful ones.
    Extreme,
}

/// A small sound wiring: up to 7 nodes and up to 8 places, of any kind.
pub fn small(random: &mut Random) -> Wiring {
    small_with(random, 8)
}

/// A small sound wiring: up to 7 nodes and up to so many places (4 or more), of any kind.
pub fn small_with(random: &mut Random, most: u32) -> Wiring {
    let kind = [Kind::Late, Kind::Contact, Kind::Early][random.below(3) as usize];
    let shape = [scattered, grown, bundled][random.below(3) as usize];
    let (nodes, pairs) = shape(random, most);
    let delays = match random.below(10) {
        0 => Delays::Equal(random.below(3)),
        1 => Delays::Below(2),
        2 => Delays::Below(4),
        3 => Delays::Extreme,
        4 | 5 => Delays::NearTies,
        _ => Delays::Ties,
    };
    let vacant = [0, 0, 8, 3][random.below(4) as usize];
    let mut place = |pair: Option<(u32, u32)>| {
        let (tail, head) = pair.filter(|_| vacant == 0 || !random.once_in(vacant))?;
        Some(Lead { tail, head, delay: small_delay(random, kind, delays, tail, head) })
    };
    let places = pairs.into_iter().map(&mut place).collect();
    Wiring { kind, nodes, places }
}

/// For each place the ends of a lead, or nothing.
type Pairs = Vec<Option<(u32, u32)>>;

/// A number of nodes, and ends that are chosen lead by lead.
fn scattered(random: &mut Random, most: u32) -> (u32, Pairs) {
    let nodes = random.below(8).max(random.below(8));
    let count = random.below(most + 1).max(random.below(most + 1));
    let ends = [Ends::Any, Ends::Near, Ends::Hubs][random.below(3) as usize];
    let mut pairs: Pairs = Vec::new();
    for _ in 0..count {
        let parallel = random.once_in(6).then(|| pairs.iter().flatten().last().copied()).flatten();
        pairs.push(parallel.or_else(|| small_ends(random, ends, nodes)));
    }
    (nodes, pairs)
}

/// Ends of leads that grew from one lead: again and again one of them gets a node on its way or another
/// lead beside it. The order is shuffled.
fn grown(random: &mut Random, most: u32) -> (u32, Pairs) {
    let count = 4 + random.below(most - 3) as usize;
    let mut nodes = 2;
    let mut pairs = vec![(0, 1)];
    while pairs.len() < count {
        let index = random.below(pairs.len() as u32) as usize;
        if nodes == 7 || random.once_in(2) {
            pairs.push(pairs[index]);
        } else {
            split(&mut pairs, index);
            nodes += 1;
        }
    }
    finished(random, pairs, nodes)
}

/// Ends of leads in bundles of different sizes from node to node, some leads with a node on their way, in a
/// shuffled order. There the leads of a bundle share the load of a larger one in many ways.
fn bundled(random: &mut Random, most: u32) -> (u32, Pairs) {
    let mut pairs = Vec::new();
    let mut nodes = 1;
    for _ in 0..2 + random.below(2) {
        let size = (1 + random.below(5)).min(most - pairs.len() as u32);
        pairs.extend((0..size).map(|_| (nodes - 1, nodes)));
        nodes += 1;
    }
    while pairs.len() < most as usize && nodes < 7 && random.once_in(2) {
        let index = random.below(pairs.len() as u32) as usize;
        split(&mut pairs, index);
        nodes += 1;
    }
    finished(random, pairs, nodes)
}

/// Puts a node on the way of a lead. It gets the number above the tail, and all nodes from there on move up.
fn split(pairs: &mut Vec<(u32, u32)>, index: usize) {
    let tail = pairs[index].0;
    let moved = |node: u32| node + u32::from(node > tail);
    pairs.iter_mut().for_each(|pair| *pair = (moved(pair.0), moved(pair.1)));
    let head = pairs[index].1;
    pairs[index] = (tail, tail + 1);
    pairs.push((tail + 1, head));
}

/// Now and then with inputs of their own for the first leads, and in a shuffled order.
fn finished(random: &mut Random, mut pairs: Vec<(u32, u32)>, mut nodes: u32) -> (u32, Pairs) {
    if random.once_in(2) {
        nodes = part_inputs(&mut pairs, nodes);
    }
    shuffle(random, &mut pairs);
    (nodes, pairs.into_iter().map(Some).collect())
}

/// Gives leads that leave the first node tails of their own, as far as 7 nodes allow; answers the number
/// of nodes.
fn part_inputs(pairs: &mut [(u32, u32)], nodes: u32) -> u32 {
    let room = 7 - nodes;
    pairs.iter_mut().for_each(|pair| *pair = (pair.0 + room, pair.1 + room));
    let at_first = pairs.iter_mut().filter(|pair| pair.0 == room);
    for (tail, pair) in (0..room).zip(at_first) {
        pair.0 = tail;
    }
    7
}

fn shuffle<T>(random: &mut Random, items: &mut [T]) {
    for last in (1..items.len()).rev() {
        items.swap(last, random.below(last as u32 + 1) as usize);
    }
}

/// A lower and a higher node, or nothing if there are no two.
fn small_ends(random: &mut Random, ends: Ends, nodes: u32) -> Option<(u32, u32)> {
    if nodes < 2 {
        return None;
    }
    let any = |random: &mut Random| {
        let head = 1 + random.below(nodes - 1);
        (random.below(head), head)
    };
    Some(match ends {
        Ends::Any => any(random),
        Ends::Near => {
            let tail = random.below(nodes - 1);
            (tail, (tail + 1 + random.below(2)).min(nodes - 1))
        }
        Ends::Hubs if nodes < 4 => any(random),
        Ends::Hubs => {
            let hub = nodes / 2 - random.below(2) * u32::from(nodes > 5);
            let (first, last) = (random.below(nodes / 2 - 1), nodes - 1 - random.below(nodes - nodes / 2 - 1));
            [(first, hub), (hub, last)][random.below(2) as usize]
        }
    })
}

fn small_delay(random: &mut Random, kind: Kind, delays: Delays, tail: u32, head: u32) -> Delay {
    let mut part = |most| match delays {
        Delays::Equal(delay) => delay,
        Delays::Below(bound) => random.below(bound),
        Delays::Ties => head - tail,
        Delays::NearTies => head - tail + u32::from(random.once_in(8)),
        Delays::Extreme => [0, 1, most - 1, most, most][random.below(5) as usize],
    };
    let picoseconds = part(MOST_PICOSECONDS);
    let contacts = if kind == Kind::Contact { part(MOST_CONTACTS) } else { 0 };
    Delay { picoseconds, contacts }
}

/// The names of the large wirings.
pub const NAMES: [&str; 6] = ["layered", "shuffled", "chain", "ladder", "wide", "multiplier"];

/// The large wiring of this name with at most this many leads, and about as many.
pub fn large(name: &str, leads: usize) -> Option<Wiring> {
    let builder = match name {
        "layered" => layered(leads),
        "shuffled" => shuffled(leads),
        "chain" => chain(leads),
        "ladder" => ladder(leads),
        "wide" => wide(leads),
        "multiplier" => multiplier(leads),
        _ => return None,
    };
    Some(builder.finish())
}

/// A wiring of the late kind that is being built.
#[derive(Default)]
struct Builder {
    nodes: u32,
    places: Vec<Option<Lead>>,
}

impl Builder {
    fn node(&mut self) -> u32 {
        self.nodes += 1;
        self.nodes - 1
    }

    fn nodes(&mut self, count: usize) -> Vec<u32> {
        (0..count).map(|_| self.node()).collect()
    }

    fn lead(&mut self, tail: u32, head: u32, picoseconds: u32) {
        self.places.push(Some(Lead { tail, head, delay: Delay { picoseconds, contacts: 0 } }));
    }

    /// The wiring.
    fn finish(self) -> Wiring {
        assert!(self.nodes as usize <= MOST && self.places.len() <= MOST, "the wiring is too large");
        Wiring { kind: Kind::Late, nodes: self.nodes, places: self.places }
    }
}

/// Layers of different widths, every node of one with a lead to every node of the next, all delays equal.
fn layered(leads: usize) -> Builder {
    const WIDTHS: [usize; 7] = [8, 12, 4, 10, 6, 3, 9];
    let mut builder = Builder::default();
    let mut layer = builder.nodes(WIDTHS[0]);
    for width in WIDTHS.into_iter().cycle().skip(1) {
        let room = leads - builder.places.len();
        let width = width.min(room / layer.len());
        if width == 0 {
            break;
        }
        let next = builder.nodes(width);
        for &tail in &layer {
            for &head in &next {
                builder.lead(tail, head, 100);
            }
        }
        layer = next;
    }
    builder
}

/// The layers again, with the leads at other places, so that many loads are far from the best ones at first.
fn shuffled(leads: usize) -> Builder {
    let mut builder = layered(leads);
    shuffle(&mut Random::new(leads as u64), &mut builder.places);
    builder
}

/// One deep row of nodes, with two leads of the same delay at every step.
fn chain(leads: usize) -> Builder {
    let mut builder = Builder::default();
    let mut tail = builder.node();
    for _ in 0..leads / 2 {
        let head = builder.node();
        builder.lead(tail, head, 70);
        builder.lead(tail, head, 70);
        tail = head;
    }
    builder
}

/// Two deep rows of nodes with a rung from the one to the other at every step. All paths tie, and no path
/// has two rungs, so that there are many long paths in the list.
fn ladder(leads: usize) -> Builder {
    let mut builder = Builder::default();
    let (mut left, mut right) = (builder.node(), builder.node());
    builder.lead(left, right, 20);
    for _ in 0..leads.saturating_sub(1) / 3 {
        let (next_left, next_right) = (builder.node(), builder.node());
        builder.lead(left, next_left, 60);
        builder.lead(right, next_right, 60);
        builder.lead(next_left, next_right, 20);
        (left, right) = (next_left, next_right);
    }
    builder
}

/// Many stars: hubs with leads in and leads out, from inputs and to outputs that they share. Within a star
/// some of the delays tie.
fn wide(leads: usize) -> Builder {
    const IN_AND_OUT: [(usize, usize); 4] = [(5, 27), (20, 12), (16, 16), (9, 23)];
    let mut builder = Builder::default();
    let stars = leads / 32;
    let inputs = builder.nodes(64);
    let hubs = builder.nodes(stars);
    let outputs = builder.nodes(64);
    for (star, &hub) in hubs.iter().enumerate() {
        let (enter, leave) = IN_AND_OUT[star % IN_AND_OUT.len()];
        let delay = |index: usize| if index % 5 == 4 { 80 } else { 100 };
        for index in 0..enter {
            builder.lead(inputs[(star * 7 + index) % inputs.len()], hub, delay(index));
        }
        for index in 0..leave {
            builder.lead(hub, outputs[(star * 11 + index) % outputs.len()], delay(index + 2));
        }
    }
    builder
}

/// The array multiplier with the most leads that fits: factors of equal or nearly equal width.
fn multiplier(leads: usize) -> Builder {
    let sizes = (2..).flat_map(|rows| [(rows, rows), (rows, rows + 1)]);
    let arrays = sizes.map(|(rows, columns)| array(rows, columns));
    let fitting = arrays.take_while(|builder| builder.places.len() <= leads);
    fitting.last().expect("a multiplier of two by two bits fits")
}

/// A carry-save array multiplier: a row of partial products, rows of adders that add one row each, and a
/// ripple adder for the last sums and carries.
fn array(rows: usize, columns: usize) -> Builder {
    let mut builder = Builder::default();
    let (first, second) = (builder.nodes(rows), builder.nodes(columns));
    let mut sums: Vec<Option<u32>> = second.iter().map(|&bit| Some(builder.and(first[0], bit))).collect();
    let mut carries: Vec<Option<u32>> = vec![None; columns];
    for &bit in &first[1..] {
        // the lowest sum is a bit of the product; the others move down by one column
        sums.remove(0);
        sums.push(None);
        for column in 0..columns {
            let product = builder.and(bit, second[column]);
            (sums[column], carries[column]) = builder.adder(Some(product), sums[column], carries[column]);
        }
    }
    let mut carry = None;
    let moved = sums.into_iter().skip(1).chain([None]);
    for (sum, saved) in moved.zip(carries) {
        carry = builder.adder(sum, saved, carry).1;
    }
    builder
}

/// Gates, with a delay for each of their two pins.
impl Builder {
    fn gate(&mut self, pins: [u32; 2], delays: [u32; 2]) -> u32 {
        let gate = self.node();
        self.lead(pins[0], gate, delays[0]);
        self.lead(pins[1], gate, delays[1]);
        gate
    }

    fn and(&mut self, first: u32, second: u32) -> u32 {
        self.gate([first, second], [34, 36])
    }

    fn or(&mut self, first: u32, second: u32) -> u32 {
        self.gate([first, second], [38, 38])
    }

    fn xor(&mut self, first: u32, second: u32) -> u32 {
        self.gate([first, second], [55, 55])
    }

    /// The sum and the carry of up to three bits.
    fn adder(&mut self, a: Option<u32>, b: Option<u32>, c: Option<u32>) -> (Option<u32>, Option<u32>) {
        let bits: Vec<u32> = [a, b, c].into_iter().flatten().collect();
        match bits[..] {
            [] => (None, None),
            [a] => (Some(a), None),
            [a, b] => (Some(self.xor(a, b)), Some(self.and(a, b))),
            [a, b, c, ..] => {
                let half = self.xor(a, b);
                let sum = self.xor(half, c);
                let (both, passed) = (self.and(a, b), self.and(half, c));
                (Some(sum), Some(self.or(both, passed)))
            }
        }
    }
}

#[cfg(test)]
mod tests {
    use super::*;

    #[test]
    fn small_wirings_are_sound_and_of_every_sort() {
        let mut random = Random::new(1);
        let wirings: Vec<Wiring> = (0..2000).map(|_| small(&mut random)).collect();
        let some = |test: fn(&Wiring) -> bool| wirings.iter().any(test);
        assert!(wirings.iter().all(|wiring| wiring.check().is_ok() && wiring.nodes <= 7 && wiring.places.len() <= 8));
        assert!(some(|wiring| wiring.nodes == 0) && some(|wiring| wiring.leads().count() == 8));
        assert!(some(|wiring| wiring.places.contains(&None)));
        assert!(some(|wiring| wiring.leads().any(|(_, lead)| lead.delay.contacts == MOST_CONTACTS)));
    }

    #[test]
    fn large_wirings_are_sound_and_near_their_size() {
        for name in NAMES {
            for leads in [256, 512, 1024, 2048, 4096] {
                let wiring = large(name, leads).unwrap();
                let count = wiring.leads().count();
                assert_eq!(wiring.check(), Ok(()));
                assert!(count <= leads && count * 10 >= leads * 8, "{name} {leads} {count}");
            }
        }
    }
}
