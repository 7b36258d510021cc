//! Cases: machines whose links climb, each with an n. Few weights, so that ties abound.

use crate::machine::{weight, Form, Link, Machine, Node, BARRED, LINKS, NODES, UNITS};
use crate::random::Random;

pub struct Case {
    pub machine: Machine,
    pub n: usize,
}

/// The cases of a seed, without end.
pub struct Cases {
    random: Random,
    /// The largest size, where it is given: nodes and links.
    most: Option<(usize, usize)>,
    /// Where some are barred, what draws which: the machines are those of the seed without it.
    bars: Option<Random>,
    /// Where some have the longer trailer, what draws which.
    forms: Option<Random>,
}

impl Cases {
    /// Cases of all sizes: nine in ten are small, and one in a thousand is as large as may be.
    pub fn new(seed: u64) -> Self {
        Self {
            random: Random::new(seed),
            most: None,
            bars: None,
            forms: None,
        }
    }

    /// The same, half of them with barred links, barred ends or both.
    pub fn barred(seed: u64) -> Self {
        Self {
            bars: Some(Random::new(seed.rotate_left(32) ^ 0x7F80_0000)),
            ..Self::new(seed)
        }
    }

    /// The same, half of them with the longer trailer: a quarter of unit 64, and a quarter of unit 256,
    /// with as many 256ths at each weight as there were sixty-fourths.
    pub fn of_both_forms(seed: u64) -> Self {
        Self {
            forms: Some(Random::new(seed.rotate_left(16) ^ 256)),
            ..Self::barred(seed)
        }
    }

    /// Cases of at most so many nodes and links. From 61 nodes on most of them have just so many, and
    /// from 201 links on.
    pub fn up_to(seed: u64, nodes: usize, links: usize) -> Self {
        Self {
            most: Some((nodes, links)),
            ..Self::new(seed)
        }
    }
}

impl Iterator for Cases {
    type Item = Case;

    fn next(&mut self) -> Option<Case> {
        let random = &mut self.random;
        let most = self.most.unwrap_or_else(|| match random.below(1000) {
            0 => (NODES, LINKS),
            1..=100 => (60, 200),
            _ => (12, 30),
        });
        let (nodes, mut ways) = ways(random, most);
        assert!(nodes <= most.0 && ways.len() <= most.1);
        if random.once_in(2) {
            random.shuffle(&mut ways);
        }
        let mut machine = dressed(random, nodes, &ways);
        let n = match random.below(10) {
            0 => random.below(65),
            1 => random.pick(&[0, 1, 64]),
            2 => 1,
            3 => random.among(6, 20),
            _ => random.among(2, 5),
        };
        if let Some(bars) = &mut self.bars {
            if bars.once_in(2) {
                bar_some(bars, &mut machine);
            }
        }
        if let Some(forms) = &mut self.forms {
            machine = machine.in_form(forms.pick(&FORMS));
        }
        Some(Case { machine, n })
    }
}

/// The forms of sheets, as often as they are drawn.
const FORMS: [Form; 4] = [Form::Short, Form::Short, Form::Long(64), Form::Long(256)];

/// A link without its labels and weight: source and next node.
type Way = (usize, usize);

/// Nodes and ways of one shape, within the largest size given.
fn ways(random: &mut Random, (most_nodes, most_links): (usize, usize)) -> (usize, Vec<Way>) {
    // the largest machines are as large as may be
    let nodes = if most_nodes > 60 {
        most_nodes
    } else {
        random.among(1, most_nodes)
    };
    match random.below(8) {
        0 => ladder(random, nodes, most_links),
        1 => diamonds(nodes, most_links),
        2 => layers(random, nodes, most_links),
        3 => (2, vec![(0, 1); random.among(0, most_links)]),
        4 if random.once_in(8) => (random.pick(&[0, nodes]), vec![]),
        _ => (nodes, tangle(random, nodes, most_links)),
    }
}

/// How many links at the most leave a node of a ladder or of layers: where there are as many nodes as may
/// be, so many that the links can be, too.
fn widest(nodes: usize) -> usize {
    if nodes == NODES {
        LINKS / NODES
    } else {
        4
    }
}

/// Each node is joined to the next by some parallel links.
fn ladder(random: &mut Random, nodes: usize, most_links: usize) -> (usize, Vec<Way>) {
    let most = random.among(1, widest(nodes));
    let nodes = nodes.min(most_links / most + 1);
    let rung = |v| vec![(v, v + 1); random.among(1, most)];
    (nodes, (0..nodes - 1).flat_map(rung).collect())
}

/// From every third node there are two ways to the next such one, and readings double each time.
fn diamonds(nodes: usize, most_links: usize) -> (usize, Vec<Way>) {
    let nodes = nodes.min(most_links / 4 * 3 + 1);
    let diamond = |v| [(v, v + 1), (v, v + 2), (v + 1, v + 3), (v + 2, v + 3)];
    let whole = (0..nodes).step_by(3).filter(|v| v + 3 < nodes);
    (nodes, whole.flat_map(diamond).collect())
}

/// Each node of a layer is joined to all of the next layer.
fn layers(random: &mut Random, nodes: usize, most_links: usize) -> (usize, Vec<Way>) {
    let width = random.among(2, widest(nodes));
    let nodes = nodes.min(most_links / width);
    let all = |v: usize| (width..2 * width).map(move |to| (v, v / width * width + to));
    (
        nodes,
        (0..nodes)
            .flat_map(all)
            .filter(|way| way.1 < nodes)
            .collect(),
    )
}

/// Links at random, mostly to near nodes. Some nodes are unreached, and some links parallel.
fn tangle(random: &mut Random, nodes: usize, most_links: usize) -> Vec<Way> {
    if nodes < 2 {
        return vec![];
    }
    let chain = random.below(3) > 0;
    let reach = random.pick(&[1, 2, 3, nodes]);
    let count = if most_links > 200 {
        most_links
    } else {
        random.among(0, most_links)
    };
    let mut ways: Vec<Way> = vec![];
    if chain {
        ways.extend((0..nodes - 1).take(most_links).map(|v| (v, v + 1)));
    }
    while ways.len() < count {
        let source = random.below(nodes - 1);
        ways.push((
            source,
            random.among(source + 1, (source + reach).min(nodes - 1)),
        ));
    }
    ways
}

/// A machine of the ways, in the order given at each node, with weights, labels, final nodes and start.
fn dressed(random: &mut Random, count: usize, ways: &[Way]) -> Machine {
    let units = palette(random);
    let labels = random.pick(&[
        Labels::Zero,
        Labels::Few,
        Labels::Few,
        Labels::Own,
        Labels::Any,
    ]);
    let mut nodes = vec![Node::default(); count];
    for (number, (source, next)) in ways.iter().enumerate() {
        nodes[*source].links.push(Link {
            input: label(random, labels, number),
            output: label(random, labels, number),
            weight: weight(some(random, &units)),
            next: *next as u32,
        });
    }
    let ends = if random.once_in(2) {
        units
    } else {
        palette(random)
    };
    mark_ends(random, &mut nodes, &ends);
    let start = match random.below(12) {
        0 => None,
        1 | 2 if count > 0 => Some(random.below(count) as u32),
        _ => (count > 0).then_some(0),
    };
    Machine {
        nodes,
        start,
        form: Form::Short,
    }
}

/// Gives final weights to none of the nodes, to all, to the last, or to the last and some others.
fn mark_ends(random: &mut Random, nodes: &mut [Node], units: &[i32]) {
    let count = nodes.len();
    let kind = random.below(12);
    for (v, node) in nodes.iter_mut().enumerate() {
        let end = match kind {
            0 => false,
            1 => true,
            2..=5 => v + 1 == count,
            _ => v + 1 == count || random.once_in(4),
        };
        node.end = end.then(|| weight(some(random, units)));
    }
}

/// Bars one in so many links, final weights or both, now and then all of them, and at least one where
/// there is any.
fn bar_some(random: &mut Random, machine: &mut Machine) {
    let (links, ends) = random.pick(&[(true, false), (true, false), (false, true), (true, true)]);
    let times = random.pick(&[1, 2, 3, 3, 5, 5, 10, 10, 40]);
    // where a machine has none of one kind, the other is barred
    let has_links = machine.links().next().is_some();
    let has_ends = machine.nodes.iter().any(|node| node.end.is_some());
    let mut weights: Vec<&mut f32> = vec![];
    for node in &mut machine.nodes {
        if links || !has_ends {
            weights.extend(node.links.iter_mut().map(|link| &mut link.weight));
        }
        if ends || !has_links {
            weights.extend(&mut node.end);
        }
    }
    if weights.is_empty() {
        return;
    }
    let one = random.below(weights.len());
    for (at, weight) in weights.into_iter().enumerate() {
        if at == one || random.once_in(times) {
            *weight = BARRED;
        }
    }
}

/// The weights of a machine in sixty-fourths; none at all stands for any on the grid.
fn palette(random: &mut Random) -> Vec<i32> {
    random
        .pick::<&[i32]>(&[
            &[0],
            &[0, 1],
            &[0, 0, 64],
            &[1, 2, 3],
            &[32, 64],
            &[-64, 0, 64],
            &[-1, 0, 1],
            &[UNITS],
            &[-UNITS],
            &[-UNITS, UNITS],
            &[UNITS - 1, UNITS],
            &[-UNITS, 1 - UNITS, 0],
            &[],
        ])
        .to_vec()
}

fn some(random: &mut Random, palette: &[i32]) -> i32 {
    match palette {
        [] => random.below(2 * UNITS as usize + 1) as i32 - UNITS,
        _ => random.pick(palette),
    }
}

/// Which labels the links of a machine have: 0, one of four with 0, their own, or any.
#[derive(Clone, Copy)]
enum Labels {
    Zero,
    Few,
    Own,
    Any,
}

fn label(random: &mut Random, labels: Labels, number: usize) -> u32 {
    match labels {
        Labels::Zero => 0,
        Labels::Few => random.below(4) as u32,
        Labels::Own => number as u32 + 1,
        Labels::Any => {
            let word = random.word() as u32;
            random.pick(&[word, word, u32::MAX, 0])
        }
    }
}
