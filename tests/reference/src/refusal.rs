//! The twenty refusals with their details.

/// A list of edge numbers, head to tail.
pub type Cycle = Vec<usize>;

#[derive(Clone, Debug, PartialEq, Eq)]
pub enum Refusal {
    Short(usize),
    Mark(usize),
    Version(usize),
    Count(usize),
    Machine(usize),
    Node(usize),
    Edge(usize),
    Start(usize),
    Retiming(usize),
    Tail(usize),
    Bare,
    Knot(Cycle),
    Dependence(usize),
    NoRetiming(Cycle),
    Units { step: i64, class: usize },
    Size(i64),
    Long,
    Room(usize),
    Early { step: i64, node: usize, edge: usize },
    Busy { step: i64, node: usize, class: usize },
}

impl Refusal {
    /// The number, 1 to 20.
    pub fn number(&self) -> u32 {
        match self {
            Refusal::Short(_) => 1,
            Refusal::Mark(_) => 2,
            Refusal::Version(_) => 3,
            Refusal::Count(_) => 4,
            Refusal::Machine(_) => 5,
            Refusal::Node(_) => 6,
            Refusal::Edge(_) => 7,
            Refusal::Start(_) => 8,
            Refusal::Retiming(_) => 9,
            Refusal::Tail(_) => 10,
            Refusal::Bare => 11,
            Refusal::Knot(_) => 12,
            Refusal::Dependence(_) => 13,
            Refusal::NoRetiming(_) => 14,
            Refusal::Units { .. } => 15,
            Refusal::Size(_) => 16,
            Refusal::Long => 17,
            Refusal::Room(_) => 18,
            Refusal::Early { .. } => 19,
            Refusal::Busy { .. } => 20,
        }
    }

    /// The details, 0 where there are fewer than three.
    pub fn details(&self) -> [u32; 3] {
        match *self {
            Refusal::Short(offset)
            | Refusal::Mark(offset)
            | Refusal::Version(offset)
            | Refusal::Count(offset)
            | Refusal::Machine(offset)
            | Refusal::Node(offset)
            | Refusal::Edge(offset)
            | Refusal::Start(offset)
            | Refusal::Retiming(offset)
            | Refusal::Tail(offset) => [offset as u32, 0, 0],
            Refusal::Bare | Refusal::Knot(_) | Refusal::NoRetiming(_) | Refusal::Long => [0, 0, 0],
            Refusal::Dependence(edge) => [edge as u32, 0, 0],
            Refusal::Units { step, class } => [step as u32, class as u32, 0],
            Refusal::Size(size) => [size as u32, 0, 0],
            Refusal::Room(buffer) => [buffer as u32, 0, 0],
            Refusal::Early { step, node, edge } => [step as u32, node as u32, edge as u32],
            Refusal::Busy { step, node, class } => [step as u32, node as u32, class as u32],
        }
    }

    /// The cycle handed over, empty for all but Knot and NoRetiming.
    pub fn cycle(&self) -> &[usize] {
        match self {
            Refusal::Knot(cycle) | Refusal::NoRetiming(cycle) => cycle,
            _ => &[],
        }
    }
}
