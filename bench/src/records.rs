//! The records that are timed.

use reference::record::{bytes_of, Class, Edge, Loop, Node, Operation, Pair};
use reference::schedule;

/// A loop by the name that the table gives it, with a legal pair.
pub struct Timed {
    pub name: &'static str,
    pub body: Loop,
    pub pair: Pair,
    pub bytes: Vec<u8>,
}

/// The pair is the shortest of so many rotations by up to five steps.
fn timed(name: &'static str, body: Loop, rotations: i64) -> Timed {
    let (pair, _) = schedule::search(&body, rotations, 5).expect("the loop has no knot");
    let bytes = bytes_of(&body, Some(&pair));
    Timed { name, body, pair, bytes }
}

fn edges(list: &[(usize, usize, i64)]) -> Vec<Edge> {
    list.iter().map(|(from, to, delays)| Edge { from: *from, to: *to, delays: *delays }).collect()
}

fn board() -> Vec<Class> {
    let adder = Class { latency: 1, units: 1, pipelined: false };
    let multiplier = Class { latency: 2, units: 1, pipelined: false };
    vec![adder, multiplier]
}

fn nodes(list: &[Operation]) -> Vec<Node> {
    let class = |operation: &Operation| usize::from(matches!(operation, Operation::Mul(_)));
    list.iter().map(|operation| Node { class: class(operation), operation: *operation }).collect()
}

/// A multiplication and two additions round a cycle with two delays.
fn small() -> Loop {
    let operations = [Operation::Mul(3), Operation::Add(1), Operation::Add(0)];
    Loop { classes: board(), nodes: nodes(&operations), edges: edges(&[(0, 1, 0), (1, 2, 0), (2, 0, 2)]) }
}

/// One step of y'' + 3xy' + 3y = 0 by Euler's rule: six multiplications and five additions.
fn eleven() -> Loop {
    use Operation::{Add, Mul, Sub};
    let (x, y, u) = (6, 7, 9);
    let operations = [Mul(3), Mul(2), Mul(1), Mul(3), Mul(2), Mul(2), Add(2), Add(0), Sub(0), Sub(0), Sub(9)];
    let within = [(0, 2, 0), (1, 2, 0), (2, 8, 0), (8, 9, 0), (3, 4, 0), (4, 9, 0), (5, 7, 0), (x, 10, 0)];
    let across = [(x, x, 1), (x, 0, 1), (u, 1, 1), (u, 5, 1), (u, 8, 1), (y, 3, 1), (y, y, 1)];
    Loop { classes: board(), nodes: nodes(&operations), edges: edges(&[&within[..], &across[..]].concat()) }
}

/// 64 nodes and 256 edges that are always the same: forward edges may have no delay, all others have some.
fn largest() -> Loop {
    let mut state: u32 = 2026;
    let mut next = |below: u32| {
        state = state.wrapping_mul(1_664_525).wrapping_add(1_013_904_223);
        (state >> 16) % below
    };
    let classes = vec![
        Class { latency: 1, units: 4, pipelined: false },
        Class { latency: 2, units: 4, pipelined: false },
        Class { latency: 3, units: 2, pipelined: true },
        Class { latency: 4, units: 8, pipelined: false },
    ];
    let node = |number: usize| Node { class: number % 4, operation: Operation::Add(number as u32) };
    let mut edge = || {
        let (from, to) = (next(64) as usize, next(64) as usize);
        let delays = if from < to && next(3) > 0 { 0 } else { i64::from(next(3)) + 2 };
        Edge { from, to, delays }
    };
    Loop { classes, nodes: (0..64).map(node).collect(), edges: (0..256).map(|_| edge()).collect() }
}

pub fn all() -> [Timed; 3] {
    [timed("small loop", small(), 1), timed("11 nodes", eleven(), 50), timed("64 nodes, 256 edges", largest(), 50)]
}
