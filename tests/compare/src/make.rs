//! Random well-formed loops and pairs, legal and illegal.

use crate::random::Random;
use reference::record::{Class, Edge, Loop, Node, Operation, Pair, MOST_LENGTH, MOST_RETIMING};
use reference::rules;
use reference::schedule;

/// How a loop's edges lie.
#[derive(Clone, Copy)]
pub enum Shape {
    /// Edges of delay 0 go forward in a hidden order, so there is no knot.
    Ordered,
    /// A chain in the hidden order, with other edges as in Ordered.
    Chain,
    /// Every edge has a delay.
    Delayed,
    /// Anything: knots are likely.
    Free,
}

fn class(random: &mut Random) -> Class {
    let latency = if random.chance(60) { random.between(1, 3) } else { random.between(1, 8) };
    let units = if random.chance(70) { random.between(1, 2) } else { random.between(1, 8) };
    Class { latency, units, pipelined: random.chance(40) }
}

fn node(random: &mut Random, classes: usize) -> Node {
    let constant = match random.below(3) {
        0 => random.below(5) as u32,
        1 => random.pick(&[0, 1, u32::MAX, 1 << 31]),
        _ => random.next() as u32,
    };
    let operation = random.pick(&[Operation::Add(constant), Operation::Sub(constant), Operation::Mul(constant)]);
    Node { class: random.below(classes), operation }
}

/// A delay of at least 1, most often a small one.
fn some_delay(random: &mut Random) -> i64 {
    if random.chance(70) {
        random.between(1, 3)
    } else {
        random.between(1, 15)
    }
}

/// The nodes in a random order.
fn hidden_order(random: &mut Random, nodes: usize) -> Vec<usize> {
    let mut order: Vec<usize> = (0..nodes).collect();
    for place in (1..nodes).rev() {
        order.swap(place, random.below(place + 1));
    }
    order
}

fn edge(random: &mut Random, order: &[usize], shape: Shape) -> Edge {
    let (low, high) = (random.below(order.len()), random.below(order.len()));
    let delays = match shape {
        Shape::Delayed => some_delay(random),
        Shape::Free if random.chance(40) => 0,
        Shape::Ordered | Shape::Chain if low < high && random.chance(65) => 0,
        _ => some_delay(random),
    };
    Edge { from: order[low], to: order[high], delays }
}

/// A loop with so many nodes and edges; a chain has at least the edges of the chain.
pub fn body(random: &mut Random, nodes: usize, edges: usize, shape: Shape) -> Loop {
    let count = random.between(1, 4) as usize;
    let classes: Vec<Class> = (0..count).map(|_| class(random)).collect();
    let order = hidden_order(random, nodes);
    let nodes = (0..nodes).map(|_| node(random, count)).collect();
    let mut list = Vec::new();
    if let Shape::Chain = shape {
        list.extend(order.windows(2).map(|two| Edge { from: two[0], to: two[1], delays: 0 }));
    }
    while list.len() < edges {
        let next = edge(random, &order, shape);
        list.push(next);
        if random.chance(5) && list.len() < edges {
            list.push(next);
        }
    }
    Loop { classes, nodes, edges: list }
}

/// A loop of a size between two bounds, with any number of edges that suits it.
pub fn any_body(random: &mut Random, least: usize, most: usize) -> Loop {
    let nodes = random.between(least as i64, most as i64) as usize;
    let edges = match random.below(10) {
        0 => 0,
        1 => 256.min(nodes * 8),
        _ => random.below(256.min(nodes * 3) + 1),
    };
    let shapes = [Shape::Ordered, Shape::Ordered, Shape::Ordered, Shape::Chain, Shape::Delayed, Shape::Free];
    let shape = random.pick(&shapes);
    body(random, nodes, edges, shape)
}

/// The length that the longest operation needs.
fn least_length(body: &Loop) -> i64 {
    (0..body.nodes.len()).map(|node| body.latency_of(node)).max().unwrap_or(1)
}

fn random_starts(random: &mut Random, body: &Loop) -> (i64, Vec<i64>) {
    let least = least_length(body);
    let length = match random.below(10) {
        0 => MOST_LENGTH,
        1 => random.between(least, MOST_LENGTH),
        2 => least,
        _ => random.between(least, least + 2 * body.nodes.len() as i64),
    };
    let starts = (0..body.nodes.len()).map(|node| random.between(1, length - body.latency_of(node) + 1)).collect();
    (length, starts)
}

/// Starts and retimings within their ranges, most often not legal.
pub fn random_pair(random: &mut Random, body: &Loop) -> Pair {
    let (length, starts) = random_starts(random, body);
    let top = random.pick(&[0, 0, 1, 1, 2, 3, 15, MOST_RETIMING]);
    let mut retimings: Vec<i64> = (0..starts.len()).map(|_| random.between(0, top)).collect();
    let place = random.below(retimings.len());
    retimings[place] = 0;
    Pair { length, starts, retimings }
}

/// The fit of random starts where there is one, else the random pair.
fn fitted_pair(random: &mut Random, body: &Loop) -> Pair {
    let pair = random_pair(random, body);
    match rules::fitted(body, &pair.starts) {
        Ok(retimings) => Pair { retimings, ..pair },
        Err(_) => pair,
    }
}

/// A pair met on some way from the first schedule, or none with a knot.
pub fn met_pair(random: &mut Random, body: &Loop) -> Option<Pair> {
    let mut pair = schedule::first(body).ok()?;
    for _ in 0..random.below(5) {
        if pair.length > 1 {
            let size = random.between(1, pair.length - 1);
            pair = schedule::rotated(body, &pair, size).unwrap_or(pair);
        }
    }
    Some(pair)
}

/// Puts idle steps after some step: a legal pair stays legal.
pub fn stretch(random: &mut Random, mut pair: Pair) -> Pair {
    let free = MOST_LENGTH - pair.length;
    let idle = if random.chance(50) { free } else { random.between(0, free.min(6)) };
    let after = random.between(0, pair.length);
    for start in pair.starts.iter_mut().filter(|start| **start > after) {
        *start += idle;
    }
    pair.length += idle;
    pair
}

/// Changes one number of a pair by one or two; it may leave its range, but never its field.
pub fn perturb(random: &mut Random, mut pair: Pair) -> Pair {
    let node = random.below(pair.starts.len());
    let change = random.pick(&[-2, -1, -1, 1, 1, 2]);
    match random.below(5) {
        0 => pair.length = (pair.length + change).max(1),
        1 | 2 => pair.starts[node] = (pair.starts[node] + change).max(0),
        _ => pair.retimings[node] = (pair.retimings[node] + change).max(0),
    }
    pair
}

/// A legal pair where the loop has no knot: met, stretched or fitted; else a random one.
pub fn good_pair(random: &mut Random, body: &Loop) -> Pair {
    let pair = match random.below(4) {
        0 => Some(fitted_pair(random, body)),
        1 => met_pair(random, body).map(|pair| stretch(random, pair)),
        _ => met_pair(random, body),
    };
    pair.unwrap_or_else(|| random_pair(random, body))
}

/// No pair, or one of any kind.
pub fn any_pair(random: &mut Random, body: &Loop) -> Option<Pair> {
    match random.below(8) {
        0 => None,
        1 | 2 => Some(random_pair(random, body)),
        3 | 4 => {
            let pair = good_pair(random, body);
            Some(perturb(random, pair))
        }
        _ => Some(good_pair(random, body)),
    }
}
