//! The floor: no legal pair is shorter.

use crate::cycles;
use crate::record::{Loop, MOST_LENGTH};
use crate::refusal::{Cycle, Refusal};
use crate::rules;

/// What attains the floor.
#[derive(Clone, Debug, PartialEq, Eq)]
pub enum Part {
    Latency,
    Class(usize),
    Recurrence(Cycle),
}

fn nodes_of(body: &Loop, class: usize) -> i64 {
    body.nodes.iter().filter(|node| node.class == class).count() as i64
}

fn largest_latency(body: &Loop) -> i64 {
    (0..body.nodes.len()).map(|node| body.latency_of(node)).max().unwrap_or(0)
}

/// Busy steps over units, rounded up.
fn class_bound(body: &Loop, number: usize) -> i64 {
    let class = &body.classes[number];
    let busy = nodes_of(body, number) * class.occupied_steps();
    (busy + class.units - 1) / class.units
}

/// A cycle whose latency sum is above length times its delay sum, if there is one.
fn cycle_above(body: &Loop, length: i64) -> Option<Cycle> {
    let weight = |edge: &crate::record::Edge| length * edge.delays - body.latency_of(edge.from);
    let weights: Vec<i64> = body.edges.iter().map(weight).collect();
    cycles::settle(body, &weights).err()
}

/// The least length from 1 on that no cycle breaks, by halving: 512 is never broken without a knot.
fn recurrence_bound(body: &Loop) -> i64 {
    let (mut low, mut high) = (1, MOST_LENGTH);
    while low < high {
        let middle = (low + high) / 2;
        if cycle_above(body, middle).is_some() {
            low = middle + 1;
        } else {
            high = middle;
        }
    }
    low
}

pub fn floor(body: &Loop) -> Result<(i64, Part), Refusal> {
    rules::has_no_knot(body)?;
    let latency = largest_latency(body);
    let bounds: Vec<i64> = (0..body.classes.len()).map(|class| class_bound(body, class)).collect();
    let recurrence = recurrence_bound(body);
    let floor = bounds.iter().copied().fold(latency.max(recurrence), i64::max);
    if latency == floor {
        return Ok((floor, Part::Latency));
    }
    if let Some(class) = bounds.iter().position(|bound| *bound == floor) {
        return Ok((floor, Part::Class(class)));
    }
    let cycle = cycle_above(body, floor - 1).expect("the recurrence bound is the least length");
    Ok((floor, Part::Recurrence(cycle)))
}
