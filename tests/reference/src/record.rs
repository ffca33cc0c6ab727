//! Records: a loop, its board and perhaps a pair, read from bytes and written as bytes.

use crate::refusal::Refusal;
use std::ops::RangeInclusive;

/// The largest number of classes, nodes and edges, and the largest length, delay and retiming.
pub const MOST_CLASSES: i64 = 4;
pub const MOST_NODES: i64 = 64;
pub const MOST_EDGES: i64 = 256;
pub const MOST_LENGTH: i64 = 512;
pub const MOST_DELAYS: i64 = 15;
pub const MOST_RETIMING: i64 = 63;

/// The size of the largest record.
pub const MOST_BYTES: usize = 1_367;

#[derive(Clone, Copy, Debug, PartialEq, Eq)]
pub struct Class {
    pub latency: i64,
    pub units: i64,
    pub pipelined: bool,
}

impl Class {
    /// For how many steps, from its start, an operation occupies a unit.
    pub fn occupied_steps(&self) -> i64 {
        if self.pipelined {
            1
        } else {
            self.latency
        }
    }
}

#[derive(Clone, Copy, Debug, PartialEq, Eq)]
pub enum Operation {
    Add(u32),
    Sub(u32),
    Mul(u32),
}

impl Operation {
    /// The value for operands in edge order, modulo 2^32.
    pub fn value(&self, operands: &[u32]) -> u32 {
        match *self {
            Operation::Add(constant) => operands.iter().fold(constant, |sum, x| sum.wrapping_add(*x)),
            Operation::Mul(constant) => operands.iter().fold(constant, |product, x| product.wrapping_mul(*x)),
            Operation::Sub(constant) => {
                let first = operands.first().copied().unwrap_or(0);
                let rest = operands.iter().skip(1);
                rest.fold(first, |left, x| left.wrapping_sub(*x)).wrapping_sub(constant)
            }
        }
    }

    fn code(&self) -> (u8, u32) {
        match *self {
            Operation::Add(constant) => (0, constant),
            Operation::Sub(constant) => (1, constant),
            Operation::Mul(constant) => (2, constant),
        }
    }
}

#[derive(Clone, Copy, Debug, PartialEq, Eq)]
pub struct Node {
    pub class: usize,
    pub operation: Operation,
}

#[derive(Clone, Copy, Debug, PartialEq, Eq)]
pub struct Edge {
    pub from: usize,
    pub to: usize,
    pub delays: i64,
}

/// A graph and its board.
#[derive(Clone, Debug, PartialEq, Eq)]
pub struct Loop {
    pub classes: Vec<Class>,
    pub nodes: Vec<Node>,
    pub edges: Vec<Edge>,
}

impl Loop {
    pub fn class_of(&self, node: usize) -> &Class {
        &self.classes[self.nodes[node].class]
    }

    pub fn latency_of(&self, node: usize) -> i64 {
        self.class_of(node).latency
    }
}

/// A schedule: starts in body steps 1 to the length, and a retiming for each node.
#[derive(Clone, Debug, PartialEq, Eq)]
pub struct Pair {
    pub length: i64,
    pub starts: Vec<i64>,
    pub retimings: Vec<i64>,
}

impl Pair {
    pub fn depth(&self) -> i64 {
        self.retimings.iter().copied().max().unwrap_or(0)
    }
}

#[derive(Clone, Debug, PartialEq, Eq)]
pub struct Record {
    pub body: Loop,
    pub pair: Option<Pair>,
}

/// The place in the lent bytes up to which fields were taken.
struct Cursor<'a> {
    bytes: &'a [u8],
    place: usize,
}

/// Makes the refusal of a field from the field's offset.
type Refuse = fn(usize) -> Refusal;

impl Cursor<'_> {
    /// The next field's offset and bytes.
    fn take<const SIZE: usize>(&mut self) -> Result<(usize, [u8; SIZE]), Refusal> {
        let offset = self.place;
        let field = self.bytes[offset..].first_chunk::<SIZE>().ok_or(Refusal::Short(offset))?;
        self.place += SIZE;
        Ok((offset, *field))
    }

    fn byte(&mut self, range: RangeInclusive<i64>, refuse: Refuse) -> Result<i64, Refusal> {
        let (offset, [value]) = self.take::<1>()?;
        within(i64::from(value), range, refuse(offset))
    }

    fn half_word(&mut self, range: RangeInclusive<i64>, refuse: Refuse) -> Result<i64, Refusal> {
        let (offset, field) = self.take::<2>()?;
        within(i64::from(u16::from_le_bytes(field)), range, refuse(offset))
    }

    fn class(&mut self) -> Result<Class, Refusal> {
        let latency = self.byte(1..=8, Refusal::Machine)?;
        let units = self.byte(1..=8, Refusal::Machine)?;
        let flag = self.byte(0..=1, Refusal::Machine)?;
        Ok(Class { latency, units, pipelined: flag == 1 })
    }

    fn node(&mut self, classes: i64) -> Result<Node, Refusal> {
        let class = self.byte(0..=classes - 1, Refusal::Node)? as usize;
        let code = self.byte(0..=2, Refusal::Node)?;
        let constant = u32::from_le_bytes(self.take::<4>()?.1);
        let operation = match code {
            0 => Operation::Add(constant),
            1 => Operation::Sub(constant),
            _ => Operation::Mul(constant),
        };
        Ok(Node { class, operation })
    }

    fn edge(&mut self, nodes: i64) -> Result<Edge, Refusal> {
        let from = self.byte(0..=nodes - 1, Refusal::Edge)? as usize;
        let to = self.byte(0..=nodes - 1, Refusal::Edge)? as usize;
        let delays = self.byte(0..=MOST_DELAYS, Refusal::Edge)?;
        Ok(Edge { from, to, delays })
    }

    fn pair(&mut self, body: &Loop, length: i64) -> Result<Pair, Refusal> {
        let first_retiming = self.place + 2;
        let (mut starts, mut retimings) = (Vec::new(), Vec::new());
        for node in 0..body.nodes.len() {
            let last = length - body.latency_of(node) + 1;
            starts.push(self.half_word(1..=last, Refusal::Start)?);
            retimings.push(self.byte(0..=MOST_RETIMING, Refusal::Retiming)?);
        }
        if !retimings.contains(&0) {
            return Err(Refusal::Retiming(first_retiming));
        }
        Ok(Pair { length, starts, retimings })
    }
}

fn within(value: i64, range: RangeInclusive<i64>, refusal: Refusal) -> Result<i64, Refusal> {
    if range.contains(&value) {
        Ok(value)
    } else {
        Err(refusal)
    }
}

/// So many of one thing after another.
fn list<T>(count: i64, mut one: impl FnMut() -> Result<T, Refusal>) -> Result<Vec<T>, Refusal> {
    let mut list = Vec::with_capacity(count as usize);
    for _ in 0..count {
        list.push(one()?);
    }
    Ok(list)
}

/// Takes the fields in layout order; refusals 1 to 10.
pub fn read(bytes: &[u8]) -> Result<Record, Refusal> {
    let mut cursor = Cursor { bytes, place: 0 };
    let (offset, mark) = cursor.take::<3>()?;
    if mark != *b"RSK" {
        return Err(Refusal::Mark(offset));
    }
    cursor.half_word(1..=1, Refusal::Version)?;
    let class_count = cursor.byte(1..=MOST_CLASSES, Refusal::Count)?;
    let node_count = cursor.byte(1..=MOST_NODES, Refusal::Count)?;
    let edge_count = cursor.half_word(0..=MOST_EDGES, Refusal::Count)?;
    let length = cursor.half_word(0..=MOST_LENGTH, Refusal::Count)?;
    let classes = list(class_count, || cursor.class())?;
    let nodes = list(node_count, || cursor.node(class_count))?;
    let edges = list(edge_count, || cursor.edge(node_count))?;
    let body = Loop { classes, nodes, edges };
    let pair = if length == 0 { None } else { Some(cursor.pair(&body, length)?) };
    if cursor.place < bytes.len() {
        return Err(Refusal::Tail(cursor.place));
    }
    Ok(Record { body, pair })
}

/// The bytes of a loop with a pair or without.
pub fn bytes_of(body: &Loop, pair: Option<&Pair>) -> Vec<u8> {
    let mut bytes = Vec::with_capacity(MOST_BYTES);
    bytes.extend(b"RSK\x01\x00");
    bytes.push(body.classes.len() as u8);
    bytes.push(body.nodes.len() as u8);
    bytes.extend((body.edges.len() as u16).to_le_bytes());
    bytes.extend(pair.map_or(0, |pair| pair.length as u16).to_le_bytes());
    for class in &body.classes {
        bytes.extend([class.latency as u8, class.units as u8, u8::from(class.pipelined)]);
    }
    for node in &body.nodes {
        let (code, constant) = node.operation.code();
        bytes.extend([node.class as u8, code]);
        bytes.extend(constant.to_le_bytes());
    }
    for edge in &body.edges {
        bytes.extend([edge.from as u8, edge.to as u8, edge.delays as u8]);
    }
    if let Some(pair) = pair {
        for (start, retiming) in pair.starts.iter().zip(&pair.retimings) {
            bytes.extend((*start as u16).to_le_bytes());
            bytes.push(*retiming as u8);
        }
    }
    bytes
}

/// Stores the record at the beginning of a lent buffer and answers its size, or Room.
pub fn write(body: &Loop, pair: Option<&Pair>, out: &mut [u8]) -> Result<usize, Refusal> {
    store(&bytes_of(body, pair), out)
}

/// Stores bytes at the beginning of a lent buffer and answers their number, or Room.
pub fn store(bytes: &[u8], out: &mut [u8]) -> Result<usize, Refusal> {
    let part = out.get_mut(..bytes.len()).ok_or(Refusal::Room(0))?;
    part.copy_from_slice(bytes);
    Ok(bytes.len())
}
