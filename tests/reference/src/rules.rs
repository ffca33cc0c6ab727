//! The rules of a legal pair, the judge, and the fit of a retiming.

use crate::cycles;
use crate::record::{Edge, Loop, Pair, Record};
use crate::refusal::Refusal;

pub fn retimed_delay(edge: &Edge, retimings: &[i64]) -> i64 {
    edge.delays + retimings[edge.from] - retimings[edge.to]
}

pub fn keeps_edge_rule(body: &Loop, pair: &Pair, edge: &Edge) -> bool {
    let ready = pair.starts[edge.from] + body.latency_of(edge.from);
    pair.starts[edge.to] + pair.length * retimed_delay(edge, &pair.retimings) >= ready
}

/// How many units of each class are taken in each step, from step 1 on.
pub struct Table {
    taken: Vec<Vec<i64>>,
}

impl Table {
    pub fn new(body: &Loop) -> Table {
        Table { taken: vec![Vec::new(); body.classes.len()] }
    }

    pub fn taken(&self, class: usize, step: i64) -> i64 {
        self.taken[class].get(step as usize).copied().unwrap_or(0)
    }

    pub fn take(&mut self, body: &Loop, node: usize, start: i64) {
        let row = &mut self.taken[body.nodes[node].class];
        let end = (start + body.class_of(node).occupied_steps()) as usize;
        if row.len() < end {
            row.resize(end, 0);
        }
        for place in &mut row[start as usize..end] {
            *place += 1;
        }
    }

    /// Whether a unit is free at every step that the node would occupy.
    pub fn is_free(&self, body: &Loop, node: usize, start: i64) -> bool {
        let class = body.class_of(node);
        let mut steps = start..start + class.occupied_steps();
        steps.all(|step| self.taken(body.nodes[node].class, step) < class.units)
    }
}

/// The lowest overfull step, and the lowest class overfull there.
fn overfull(body: &Loop, pair: &Pair) -> Option<(i64, usize)> {
    let mut table = Table::new(body);
    for (node, start) in pair.starts.iter().enumerate() {
        table.take(body, node, *start);
    }
    for step in 1..=pair.length {
        for (number, class) in body.classes.iter().enumerate() {
            if table.taken(number, step) > class.units {
                return Some((step, number));
            }
        }
    }
    None
}

pub fn keeps_unit_rule(body: &Loop, pair: &Pair) -> Result<(), Refusal> {
    match overfull(body, pair) {
        None => Ok(()),
        Some((step, class)) => Err(Refusal::Units { step, class }),
    }
}

pub fn has_no_knot(body: &Loop) -> Result<(), Refusal> {
    cycles::order(body).map_err(Refusal::Knot)?;
    Ok(())
}

/// The pair of a record that the judge accepts.
pub fn judge(record: &Record) -> Result<&Pair, Refusal> {
    let body = &record.body;
    let pair = record.pair.as_ref().ok_or(Refusal::Bare)?;
    has_no_knot(body)?;
    if let Some(edge) = body.edges.iter().position(|edge| !keeps_edge_rule(body, pair, edge)) {
        return Err(Refusal::Dependence(edge));
    }
    keeps_unit_rule(body, pair)?;
    Ok(pair)
}

/// The largest r(to) - r(from) that these starts allow.
pub fn limit(body: &Loop, starts: &[i64], edge: &Edge) -> i64 {
    if starts[edge.from] + body.latency_of(edge.from) <= starts[edge.to] {
        edge.delays
    } else {
        edge.delays - 1
    }
}

/// The retiming of least depth that fits the starts, node by node the largest of those.
pub fn fitted(body: &Loop, starts: &[i64]) -> Result<Vec<i64>, Refusal> {
    let limits: Vec<i64> = body.edges.iter().map(|edge| limit(body, starts, edge)).collect();
    let values = cycles::settle(body, &limits).map_err(Refusal::NoRetiming)?;
    let least = values.iter().copied().min().unwrap_or(0);
    Ok(values.iter().map(|value| value - least).collect())
}

/// The record's starts with a retiming fitted afresh.
pub fn fit(record: &Record) -> Result<Pair, Refusal> {
    let pair = record.pair.as_ref().ok_or(Refusal::Bare)?;
    has_no_knot(&record.body)?;
    let retimings = fitted(&record.body, &pair.starts)?;
    keeps_unit_rule(&record.body, pair)?;
    Ok(Pair { retimings, ..pair.clone() })
}
