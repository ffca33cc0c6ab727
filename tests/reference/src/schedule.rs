//! The list rule, the first schedule, one rotation, and the search.

use crate::record::{Loop, Pair, Record, MOST_LENGTH};
use crate::refusal::Refusal;
use crate::rules::{self, retimed_delay, Table};
use std::cmp::Reverse;

/// The nodes that each node reaches by one edge of retimed delay 0.
fn followers(body: &Loop, retimings: &[i64]) -> Vec<Vec<usize>> {
    let mut followers = vec![Vec::new(); body.nodes.len()];
    for edge in body.edges.iter().filter(|edge| retimed_delay(edge, retimings) == 0) {
        followers[edge.from].push(edge.to);
    }
    followers
}

/// The number of other nodes that a node reaches.
fn weight(followers: &[Vec<usize>], node: usize) -> usize {
    let mut reached = vec![false; followers.len()];
    let mut waiting = vec![node];
    while let Some(next) = waiting.pop() {
        for follower in &followers[next] {
            if !reached[*follower] {
                reached[*follower] = true;
                waiting.push(*follower);
            }
        }
    }
    reached[node] = false;
    reached.iter().filter(|reached| **reached).count()
}

/// Nodes by number, the heaviest first, and the lowest first among equals.
fn heaviest_first(body: &Loop, retimings: &[i64]) -> Vec<usize> {
    let followers = followers(body, retimings);
    let weights: Vec<usize> = (0..body.nodes.len()).map(|node| weight(&followers, node)).collect();
    let mut order: Vec<usize> = (0..body.nodes.len()).collect();
    order.sort_by_key(|node| Reverse(weights[*node]));
    order
}

/// Places every node that has no start yet.
fn place_by_list(body: &Loop, retimings: &[i64], mut starts: Vec<Option<i64>>) -> Vec<i64> {
    let order = heaviest_first(body, retimings);
    let mut predecessors = vec![Vec::new(); body.nodes.len()];
    for edge in body.edges.iter().filter(|edge| retimed_delay(edge, retimings) == 0) {
        predecessors[edge.to].push(edge.from);
    }
    let mut table = Table::new(body);
    for (node, start) in starts.iter().enumerate() {
        if let Some(start) = start {
            table.take(body, node, *start);
        }
    }
    let mut step = 1;
    while starts.contains(&None) {
        for node in &order {
            let done = |before: &usize| starts[*before].is_some_and(|start| start + body.latency_of(*before) <= step);
            let ready = starts[*node].is_none() && predecessors[*node].iter().all(done);
            if ready && table.is_free(body, *node, step) {
                starts[*node] = Some(step);
                table.take(body, *node, step);
            }
        }
        step += 1;
    }
    starts.into_iter().flatten().collect()
}

fn length_of(body: &Loop, starts: &[i64]) -> i64 {
    let ends = starts.iter().enumerate().map(|(node, start)| start + body.latency_of(node) - 1);
    ends.max().unwrap_or(0)
}

/// The first schedule of a loop without a knot: the list rule with all retimings 0.
pub fn first(body: &Loop) -> Result<Pair, Refusal> {
    rules::has_no_knot(body)?;
    let retimings = vec![0; body.nodes.len()];
    let starts = place_by_list(body, &retimings, vec![None; body.nodes.len()]);
    Ok(Pair { length: length_of(body, &starts), starts, retimings })
}

/// The rotation of a legal pair by `size` steps, which must be below its length; Long if the answer would be too long.
pub fn rotated(body: &Loop, pair: &Pair, size: i64) -> Result<Pair, Refusal> {
    let turned = |node: usize| pair.starts[node] <= size;
    let nodes = 0..body.nodes.len();
    let retimings: Vec<i64> = nodes.clone().map(|node| pair.retimings[node] + i64::from(turned(node))).collect();
    let fixed = nodes.map(|node| if turned(node) { None } else { Some(pair.starts[node] - size) }).collect();
    let starts = place_by_list(body, &retimings, fixed);
    let length = length_of(body, &starts);
    if length > MOST_LENGTH {
        return Err(Refusal::Long);
    }
    Ok(Pair { length, retimings: rules::fitted(body, &starts)?, starts })
}

/// One rotation of a record's pair.
pub fn rotate(record: &Record, size: i64) -> Result<Pair, Refusal> {
    let pair = rules::judge(record)?;
    if size == 0 || size >= pair.length {
        return Err(Refusal::Size(size));
    }
    rotated(&record.body, pair, size)
}

/// The shortest pair met by rotating again and again, and the rotations completed.
pub fn search(body: &Loop, count: i64, mut size: i64) -> Result<(Pair, i64), Refusal> {
    let mut current = first(body)?;
    if size == 0 {
        return Err(Refusal::Size(size));
    }
    let mut best = current.clone();
    let mut rotations = 0;
    while rotations < count {
        while size >= current.length {
            size /= 2;
        }
        if size == 0 {
            break;
        }
        match rotated(body, &current, size) {
            Ok(next) => current = next,
            Err(Refusal::Long) => break,
            Err(other) => return Err(other),
        }
        rotations += 1;
        if current.length < best.length {
            best = current.clone();
        }
    }
    Ok((best, rotations))
}
