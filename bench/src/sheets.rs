//! The machines that are timed.

use oracle::machine::{weight, Form, Link, Machine, Node, LINKS, NODES, UNITS};
use oracle::random::Random;

/// Machines of one kind, drawn alike.
pub struct Kind {
    pub name: &'static str,
    pub machines: Vec<Machine>,
}

impl Kind {
    /// The first machine alone.
    pub fn first(&self) -> Self {
        Self {
            name: self.name,
            machines: self.machines[..1].to_vec(),
        }
    }
}

/// Pairs of machines of one kind, drawn alike.
pub struct Pairs {
    pub name: &'static str,
    pub pairs: Vec<[Machine; 2]>,
}

/// Machines of one kind that narrow to a node.
pub struct Narrow {
    pub name: &'static str,
    pub nodes: u32,
    pub links: u32,
    pub node: u32,
    pub machines: Vec<Machine>,
}

/// How many machines of a kind, or pairs, are called in turn.
const TEN: u64 = 10;

/// How far a link reaches that is called short.
const SHORT: usize = 4;

/// A chain through all nodes, and other links at random, each to one of so many nodes that follow its
/// source. Weights are drawn from those given, in sixty-fourths. The last node is final.
fn tangle(seed: u64, nodes: usize, links: usize, reach: usize, weights: &[i32]) -> Machine {
    let mut random = Random::new(seed);
    let mut made = vec![Node::default(); nodes];
    for number in 0..links {
        let (source, next) = if number + 1 < nodes {
            (number, number + 1)
        } else {
            let source = random.below(nodes - 1);
            let last = (source + reach).min(nodes - 1);
            (source, random.among(source + 1, last))
        };
        made[source].links.push(Link {
            input: number as u32 + 1,
            output: number as u32 + 1,
            weight: weight(random.pick(weights)),
            next: next as u32,
        });
    }
    made[nodes - 1].end = Some(0.0);
    Machine {
        nodes: made,
        start: Some(0),
        form: Form::Short,
    }
}

/// The last node becomes the start, and the first the only final one, which is unreached then.
fn without_reading(mut machine: Machine) -> Machine {
    let last = machine.nodes.len() - 1;
    machine.nodes[0].end = machine.nodes[last].end.take();
    machine.start = Some(last as u32);
    machine
}

/// Machines for the seeds from 1 to this one.
fn kind(name: &'static str, seeds: u64, made: impl Fn(u64) -> Machine) -> Kind {
    Kind {
        name,
        machines: (1..=seeds).map(made).collect(),
    }
}

/// All weights from 1/64 to one of so many sixty-fourths.
fn any(most: i32) -> Vec<i32> {
    (1..=most).collect()
}

/// The largest machines, in kinds; machines as large as the largest in use; and a small one.
pub fn kinds() -> Vec<Kind> {
    kinds_within(UNITS)
}

/// The same with weights up to 64, which builds from before request (d) accept too.
pub fn kinds_for_builds() -> Vec<Kind> {
    kinds_within(64 * 64)
}

fn kinds_within(most: i32) -> Vec<Kind> {
    let (any, ties) = (any(most), [0]);
    let largest = |seed, reach, weights: &[i32]| tangle(seed, NODES, LINKS, reach, weights);
    vec![
        kind("largest, short links", TEN, |s| largest(s, SHORT, &any)),
        kind("largest, long links", TEN, |s| largest(s, NODES, &any)),
        kind("largest, short links, all ties", TEN, |s| {
            largest(s, SHORT, &ties)
        }),
        kind("largest, long links, all ties", TEN, |s| {
            largest(s, NODES, &ties)
        }),
        kind("largest, no reading", TEN, |s| {
            without_reading(largest(s, SHORT, &any))
        }),
        kind("in use, short links", TEN, |s| {
            tangle(s, 1312, 5000, SHORT, &any)
        }),
        kind("in use, long links", TEN, |s| {
            tangle(s, 1312, 5000, 1312, &any)
        }),
        kind("40 nodes, 100 links", TEN, |s| {
            tangle(s, 40, 100, SHORT, &any)
        }),
    ]
}

/// As many nodes as there may be, and short links, more of them each time.
pub fn growing() -> Vec<Kind> {
    let any = any(UNITS);
    let grown = |name, links| kind(name, 1, |s| tangle(s, NODES, links, SHORT, &any));
    vec![
        grown("2,048 nodes, 2,048 links", LINKS / 8),
        grown("2,048 nodes, 4,096 links", LINKS / 4),
        grown("2,048 nodes, 8,192 links", LINKS / 2),
        grown("2,048 nodes, 16,384 links", LINKS),
    ]
}

/// Machines that are turned from text rows into sheets and back.
pub fn written() -> Vec<Kind> {
    let any = any(UNITS);
    vec![
        kind("2,000 nodes, 16,384 links", TEN, |s| {
            tangle(s, 2000, LINKS, SHORT, &any)
        }),
        kind("1,312 nodes, 5,000 links", TEN, |s| {
            tangle(s, 1312, 5000, SHORT, &any)
        }),
        kind("40 nodes, 100 links", TEN, |s| {
            tangle(s, 40, 100, SHORT, &any)
        }),
    ]
}

/// Keeps the seeds of labels apart from those of machines.
const LABELS: u64 = 1 << 32;

/// As many labels as there may be links: the first, and each so many above the one before it.
fn labels(first: u32, step: u32) -> Vec<u32> {
    (0..LINKS as u32)
        .map(|place| first + step * place)
        .collect()
}

fn shuffled(seed: u64, labels: &[u32]) -> Vec<u32> {
    let mut labels = labels.to_vec();
    Random::new(seed ^ LABELS).shuffle(&mut labels);
    labels
}

/// Of a chain and other links, as `tangle` draws them, with these labels in the order of the links. No two weights sum up past the limit.
fn labelled(seed: u64, nodes: usize, labels: &[u32]) -> Machine {
    let mut machine = tangle(seed, nodes, labels.len(), nodes, &any(UNITS / 2));
    for (link, label) in machine.links_mut().zip(labels) {
        (link.input, link.output) = (*label, *label);
    }
    machine
}

/// The same with few labels: those of the chain come round and round, so that two such machines have a reading in common, if both have as
/// many nodes; the others are drawn.
fn alike(seed: u64, nodes: usize, links: usize, labels: usize) -> Machine {
    let mut random = Random::new(seed ^ LABELS);
    let mut machine = labelled(seed, nodes, &vec![1; links]);
    for (v, node) in machine.nodes.iter_mut().enumerate() {
        for (place, link) in node.links.iter_mut().enumerate() {
            let label = match place {
                0 => v % labels,
                _ => random.below(labels),
            };
            (link.input, link.output) = (label as u32 + 1, label as u32 + 1);
        }
    }
    machine
}

fn final_everywhere(mut machine: Machine) -> Machine {
    for node in &mut machine.nodes {
        node.end = Some(0.0);
    }
    machine
}

/// Pairs of the machines for the seeds 1 and 2, 3 and 4 and so on.
fn pairs_of(
    name: &'static str,
    first: impl Fn(u64) -> Machine,
    second: impl Fn(u64) -> Machine,
) -> Pairs {
    Pairs {
        name,
        pairs: (1..=TEN)
            .map(|s| [first(2 * s - 1), second(2 * s)])
            .collect(),
    }
}

fn alike_pairs(name: &'static str, made: impl Fn(u64) -> Machine) -> Pairs {
    pairs_of(name, &made, &made)
}

/// Pairs of machines whose links have one label each, for what both allow.
pub fn pairs() -> Vec<Pairs> {
    let (odd, even, all) = (labels(1, 2), labels(2, 2), labels(1, 1));
    let mixed = |s, nodes, labels: &[u32]| labelled(s, nodes, &shuffled(s, labels));
    vec![
        pairs_of(
            "apart, in order",
            |s| labelled(s, 2, &odd),
            |s| labelled(s, 2, &even),
        ),
        pairs_of(
            "apart, shuffled",
            |s| mixed(s, 2, &odd),
            |s| mixed(s, 2, &even),
        ),
        alike_pairs("one to one, in order", |s| labelled(s, 2, &all)),
        alike_pairs("one to one, shuffled", |s| mixed(s, 2, &all)),
        alike_pairs("45 nodes, one to one, shuffled", |s| mixed(s, 45, &all)),
        alike_pairs("one label", |s| labelled(s, 2, &[1; 128])),
        alike_pairs("45 nodes, 10 labels", |s| alike(s, 45, 120, 10)),
        pairs_of(
            "2 x 1,024 nodes, 16 labels",
            |s| labelled(s, 2, &all[..16]),
            |s| final_everywhere(alike(s, NODES / 2, LINKS, 16)),
        ),
        alike_pairs("4 nodes, 3 labels", |s| alike(s, 4, 6, 3)),
    ]
}

/// A chain and other links, as `tangle` draws them, but from below a node none leads past it.
fn narrowed(seed: u64, nodes: usize, links: usize, reach: usize, node: usize) -> Machine {
    let mut machine = tangle(seed, nodes, links, reach, &any(UNITS));
    for below in &mut machine.nodes[..node] {
        for link in &mut below.links {
            link.next = link.next.min(node as u32);
        }
    }
    machine
}

fn narrow(name: &'static str, [nodes, links]: [usize; 2], reach: usize, node: usize) -> Narrow {
    Narrow {
        name,
        nodes: nodes as u32,
        links: links as u32,
        node: node as u32,
        machines: (1..=TEN)
            .map(|s| narrowed(s, nodes, links, reach, node))
            .collect(),
    }
}

/// Machines that narrow to a node: of the largest, to one in the middle, an early and a late one, and the first and last of all.
pub fn narrowing() -> Vec<Narrow> {
    let (largest, eighth) = ([NODES, LINKS], NODES / 8);
    vec![
        narrow("largest, middle", largest, SHORT, NODES / 2),
        narrow("largest, long links, middle", largest, NODES, NODES / 2),
        narrow("largest, early", largest, SHORT, eighth),
        narrow("largest, late", largest, SHORT, NODES - eighth),
        narrow("largest, first node", largest, SHORT, 0),
        narrow("largest, last node", largest, SHORT, NODES - 1),
        narrow("64 nodes, 16,384 links", [64, LINKS], SHORT, 32),
        narrow("1,312 nodes, 5,000 links", [1312, 5000], SHORT, 656),
        narrow("40 nodes, 100 links", [40, 100], SHORT, 20),
        narrow("4 nodes, 6 links", [4, 6], SHORT, 2),
    ]
}

/// The same in the middle, with eight links a node, and then with as many nodes as there may be, and more links each time.
pub fn narrowing_growing() -> Vec<Narrow> {
    let middle = |nodes, links| narrow("", [nodes, links], SHORT, nodes / 2);
    let eight = (5..=11).map(|power| middle(1 << power, 8 << power));
    let links = (0..3).map(|power| middle(NODES, NODES << power));
    eight.chain(links).collect()
}
