//! The stepping machine and the plain loop.

use crate::cycles;
use crate::record::{Loop, Pair, Record};
use crate::refusal::Refusal;

/// Iterations that the start table holds for each node.
pub const STARTS_EACH: usize = 15;

/// The start table's place of a node at an iteration below 0.
fn table_place(node: usize, iteration: i64) -> usize {
    STARTS_EACH * node + (-iteration) as usize - 1
}

/// The edges into each node, in edge order.
fn incoming(body: &Loop) -> Vec<Vec<usize>> {
    let mut incoming = vec![Vec::new(); body.nodes.len()];
    for (number, edge) in body.edges.iter().enumerate() {
        incoming[edge.to].push(number);
    }
    incoming
}

struct Machine<'a> {
    body: &'a Loop,
    incoming: Vec<Vec<usize>>,
    table: &'a [u32],
    values: &'a mut [u32],
    finish: &'a mut [u32],
    /// For each class the last run step that an earlier issue occupies, while it may matter.
    held: Vec<Vec<i64>>,
    operands: Vec<u32>,
}

impl Machine<'_> {
    fn place(&self, node: usize, iteration: i64) -> usize {
        iteration as usize * self.body.nodes.len() + node
    }

    /// The operand that an edge brings at a run step, if it is there.
    fn operand(&self, number: usize, iteration: i64, step: i64) -> Option<u32> {
        let edge = &self.body.edges[number];
        let wanted = iteration - edge.delays;
        if wanted < 0 {
            return Some(self.table[table_place(edge.from, wanted)]);
        }
        let place = self.place(edge.from, wanted);
        let finish = i64::from(self.finish[place]);
        (finish != 0 && finish <= step).then(|| self.values[place])
    }

    fn issue(&mut self, step: i64, node: usize, iteration: i64) -> Result<(), Refusal> {
        self.operands.clear();
        for edge in &self.incoming[node] {
            match self.operand(*edge, iteration, step) {
                Some(operand) => self.operands.push(operand),
                None => return Err(Refusal::Early { step, node, edge: *edge }),
            }
        }
        let class = self.body.nodes[node].class;
        let row = &self.body.classes[class];
        self.held[class].retain(|last| *last >= step);
        if self.held[class].len() as i64 >= row.units {
            return Err(Refusal::Busy { step, node, class });
        }
        self.held[class].push(step + row.occupied_steps() - 1);
        let place = self.place(node, iteration);
        self.values[place] = self.body.nodes[node].operation.value(&self.operands);
        self.finish[place] = (step + row.latency) as u32;
        Ok(())
    }

    /// All run steps for `count` iterations; their number.
    fn run(&mut self, pair: &Pair, count: i64) -> Result<i64, Refusal> {
        let mut starting = vec![Vec::new(); pair.length as usize + 1];
        for (node, start) in pair.starts.iter().enumerate() {
            starting[*start as usize].push(node);
        }
        let steps = (count + pair.depth()) * pair.length;
        for step in 1..=steps {
            let repetition = (step - 1) / pair.length - pair.depth();
            let body_step = (step - 1) % pair.length + 1;
            for node in &starting[body_step as usize] {
                let iteration = repetition + pair.retimings[*node];
                if 0 <= iteration && iteration < count {
                    self.issue(step, *node, iteration)?;
                }
            }
        }
        Ok(steps)
    }
}

/// Room with the number of the first buffer that is too short.
fn room(buffers: &[(usize, usize)]) -> Result<(), Refusal> {
    match buffers.iter().position(|(length, needed)| length < needed) {
        None => Ok(()),
        Some(buffer) => Err(Refusal::Room(buffer)),
    }
}

/// Runs a record's pair, legal or not, and answers the number of run steps.
pub fn run(record: &Record, count: i64, table: &[u32], values: &mut [u32], finish: &mut [u32]) -> Result<i64, Refusal> {
    let body = &record.body;
    let pair = record.pair.as_ref().ok_or(Refusal::Bare)?;
    let places = count as usize * body.nodes.len();
    room(&[(table.len(), STARTS_EACH * body.nodes.len()), (values.len(), places), (finish.len(), places)])?;
    values[..places].fill(0);
    finish[..places].fill(0);
    let held = vec![Vec::new(); body.classes.len()];
    let incoming = incoming(body);
    Machine { body, incoming, table, values, finish, held, operands: Vec::new() }.run(pair, count)
}

/// The plain loop: iteration after iteration, each node after those that it uses.
pub fn plain(body: &Loop, count: i64, table: &[u32], values: &mut [u32]) -> Result<(), Refusal> {
    let order = cycles::order(body).map_err(Refusal::Knot)?;
    let width = body.nodes.len();
    room(&[(table.len(), STARTS_EACH * width), (values.len(), count as usize * width)])?;
    let incoming = incoming(body);
    let mut operands = Vec::new();
    for iteration in 0..count {
        for node in &order {
            operands.clear();
            for edge in incoming[*node].iter().map(|number| &body.edges[*number]) {
                let wanted = iteration - edge.delays;
                operands.push(if wanted < 0 {
                    table[table_place(edge.from, wanted)]
                } else {
                    values[wanted as usize * width + edge.from]
                });
            }
            values[iteration as usize * width + node] = body.nodes[*node].operation.value(&operands);
        }
    }
    Ok(())
}
