//! Whether a cycle that the library handed over is one, and has what the answer says of it.

use library::{Answer, Entry};
use reference::record::{read, Edge, Record};
use reference::rules::limit;

/// The edges of the cycle in an answer, or what is wrong with them.
fn edges(record: &Record, answer: &Answer) -> Result<Vec<Edge>, String> {
    let length = answer[4] as usize;
    if length == 0 || length > 64 {
        return Err(format!("the cycle has {length} edges"));
    }
    if answer[5 + length..].iter().any(|word| *word != 0) {
        return Err("places past the cycle are not 0".into());
    }
    let number = |word: &u32| record.body.edges.get(*word as usize).copied();
    let edges: Option<Vec<Edge>> = answer[5..5 + length].iter().map(number).collect();
    edges.ok_or("the cycle names an edge that is not there".into())
}

fn is_round(edges: &[Edge]) -> Result<(), String> {
    let next = edges.iter().cycle().skip(1);
    if edges.iter().zip(next).any(|(edge, next)| edge.to != next.from) {
        return Err("the cycle's edges do not meet head to tail".into());
    }
    let mut nodes: Vec<usize> = edges.iter().map(|edge| edge.from).collect();
    nodes.sort_unstable();
    nodes.dedup();
    if nodes.len() < edges.len() {
        return Err("the cycle meets a node twice".into());
    }
    Ok(())
}

/// Whether the cycle shows what the answer claims: a knot, that no retiming fits, or the floor.
fn shows(record: &Record, edges: &[Edge], entry: Entry, answer: &Answer) -> Result<(), String> {
    let delays: i64 = edges.iter().map(|edge| edge.delays).sum();
    let shown = match (entry, answer[0]) {
        (Entry::Floor, 0) => {
            let latency: i64 = edges.iter().map(|edge| record.body.latency_of(edge.from)).sum();
            latency > (i64::from(answer[1]) - 1) * delays
        }
        (_, 12) => delays == 0,
        (Entry::Fit, 14) => {
            let pair = record.pair.as_ref().ok_or("no retiming for a bare record")?;
            edges.iter().map(|edge| limit(&record.body, &pair.starts, edge)).sum::<i64>() < 0
        }
        _ => return Err("a cycle where none is asked for".into()),
    };
    if shown {
        Ok(())
    } else {
        Err("the cycle does not show what the answer says".into())
    }
}

/// Checks the cycle that stands in an answer about these bytes.
pub fn check(bytes: &[u8], entry: Entry, answer: &Answer) -> Result<(), String> {
    let record = read(bytes).map_err(|_| "a cycle for bytes that are no record")?;
    let edges = edges(&record, answer)?;
    is_round(&edges)?;
    shows(&record, &edges, entry, answer)
}
