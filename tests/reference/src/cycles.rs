//! Knots, and cycles of negative weight.

use crate::record::Loop;
use crate::refusal::Cycle;

/// An order of the nodes in which every edge of delay 0 goes forward, or a cycle of such edges.
pub fn order(body: &Loop) -> Result<Vec<usize>, Cycle> {
    let count = body.nodes.len();
    let mut waiting = vec![0; count];
    let mut followers = vec![Vec::new(); count];
    for edge in body.edges.iter().filter(|edge| edge.delays == 0) {
        waiting[edge.to] += 1;
        followers[edge.from].push(edge.to);
    }
    let mut order: Vec<usize> = (0..count).filter(|node| waiting[*node] == 0).collect();
    let mut done = 0;
    while done < order.len() {
        for follower in &followers[order[done]] {
            waiting[*follower] -= 1;
            if waiting[*follower] == 0 {
                order.push(*follower);
            }
        }
        done += 1;
    }
    match (0..count).find(|node| waiting[*node] > 0) {
        None => Ok(order),
        Some(node) => Err(knot_before(body, &waiting, node)),
    }
}

/// Each waiting node has a waiting node before it, so the way back runs into a cycle.
fn knot_before(body: &Loop, waiting: &[usize], node: usize) -> Cycle {
    let before = |node: usize| {
        let mut edges = body.edges.iter();
        edges.position(|edge| edge.to == node && edge.delays == 0 && waiting[edge.from] > 0)
    };
    let parents: Vec<Option<usize>> = (0..body.nodes.len()).map(before).collect();
    cycle_before(body, &parents, node)
}

/// The largest numbers x, none above 0, with x(head) at most x(tail) + weight for every edge, or a
/// cycle with negative weight sum. Only with such a cycle does a round lower anything once there
/// were as many rounds as nodes.
pub fn settle(body: &Loop, weights: &[i64]) -> Result<Vec<i64>, Cycle> {
    let count = body.nodes.len();
    let mut values = vec![0; count];
    let mut parents = vec![None; count];
    let mut round = 1;
    loop {
        let mut lowered = None;
        for (number, edge) in body.edges.iter().enumerate() {
            let bound = values[edge.from] + weights[number];
            if values[edge.to] > bound {
                values[edge.to] = bound;
                parents[edge.to] = Some(number);
                lowered = Some(edge.to);
            }
        }
        match lowered {
            None => return Ok(values),
            Some(node) if round == count => return Err(cycle_before(body, &parents, node)),
            Some(_) => round += 1,
        }
    }
}

/// Goes back over the parent edges, as many steps as there are nodes, and then once round.
fn cycle_before(body: &Loop, parents: &[Option<usize>], node: usize) -> Cycle {
    let back = |node: usize| {
        let number = parents[node].expect("a node on the way back to a cycle has a parent");
        (number, body.edges[number].from)
    };
    let inside = (0..body.nodes.len()).fold(node, |node, _| back(node).1);
    let mut cycle = Vec::new();
    let mut node = inside;
    loop {
        let (number, before) = back(node);
        cycle.push(number);
        node = before;
        if node == inside {
            break;
        }
    }
    cycle.reverse();
    cycle
}
