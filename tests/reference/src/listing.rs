//! The listing of a record as text.

use crate::floor;
use crate::record::{self, Pair};
use crate::refusal::Refusal;
use crate::rules;
use std::fmt::Write;

/// The nodes that start in a step, ascending, or "-".
fn step_line(pair: &Pair, step: i64) -> String {
    let mut line = format!("{step}:");
    let starting = (0..pair.starts.len()).filter(|node| pair.starts[*node] == step);
    for node in starting {
        match pair.retimings[node] {
            0 => write!(line, " {node}"),
            retiming => write!(line, " {node}+{retiming}"),
        }
        .expect("text can always be added to a string");
    }
    if line.ends_with(':') {
        line.push_str(" -");
    }
    line
}

fn accepted(bytes: &[u8]) -> Result<String, Refusal> {
    let record = record::read(bytes)?;
    let pair = rules::judge(&record)?;
    let (floor, _) = floor::floor(&record.body)?;
    let (nodes, edges) = (record.body.nodes.len(), record.body.edges.len());
    let (length, depth) = (pair.length, pair.depth());
    let verdict = if length == floor { "shortest" } else { "open" };
    let mut text =
        format!("RSK 1\nnodes {nodes} edges {edges} length {length} depth {depth} floor {floor} {verdict}\n");
    for step in 1..=length {
        text.push_str(&step_line(pair, step));
        text.push('\n');
    }
    Ok(text)
}

pub fn text(bytes: &[u8]) -> String {
    accepted(bytes).unwrap_or_else(|refusal| format!("refused {}\n", refusal.number()))
}
