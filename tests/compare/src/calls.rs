//! Random numbers and buffer lengths for calls about given bytes.

use crate::call::Call;
use crate::random::Random;
use library::{Entry, ENTRIES};
use reference::listing;
use reference::record::{read, Record};

/// What the calls about some bytes depend on.
pub struct Subject {
    size: usize,
    listing: usize,
    record: Option<Record>,
}

impl Subject {
    pub fn new(bytes: &[u8]) -> Subject {
        Subject { size: bytes.len(), listing: listing::text(bytes).len(), record: read(bytes).ok() }
    }

    fn nodes(&self) -> usize {
        self.record.as_ref().map_or(3, |record| record.body.nodes.len())
    }

    fn length(&self) -> i64 {
        self.record.as_ref().and_then(|record| record.pair.as_ref()).map_or(4, |pair| pair.length)
    }

    fn depth(&self) -> i64 {
        self.record.as_ref().and_then(|record| record.pair.as_ref()).map_or(0, |pair| pair.depth())
    }

    /// The room that an entry point needs for what it writes.
    pub fn needed(&self, entry: Entry) -> usize {
        let bare = |record: &Record| record.pair.is_none() && entry != Entry::Rewrite;
        match entry {
            Entry::List => self.listing,
            Entry::Rewrite | Entry::Fit | Entry::First | Entry::Rotate | Entry::Search => {
                let pair = self.record.as_ref().is_some_and(bare);
                self.size + if pair { 3 * self.nodes() } else { 0 }
            }
            _ => 0,
        }
    }
}

/// A length around the needed one, most often enough.
fn around(random: &mut Random, needed: usize) -> usize {
    match random.below(20) {
        0 => 0,
        1 => random.below(needed + 1),
        2 | 3 => needed.saturating_sub(1),
        4..=9 => needed,
        _ => needed + random.below(20),
    }
}

/// Iterations: about the depth, where a refused pair has to be stuck, or up to some hundreds.
fn iterations(random: &mut Random, depth: i64) -> u16 {
    let some = random.between(0, 40);
    let many = if random.chance(10) { random.between(0, 400) } else { some };
    random.pick(&[0, 1, 2, depth, depth + 1, depth + 16, depth + 17, some, many]) as u16
}

fn steps(random: &mut Random, length: i64) -> u16 {
    let some = random.between(1, length);
    let any = random.between(0, 65_535);
    random.pick(&[0, 1, 1, 2, some, some, some, length - 1, length, length + 1, any]) as u16
}

/// A call of an entry point about the subject.
pub fn call(random: &mut Random, subject: &Subject, entry: Entry) -> Call {
    let mut call = Call { entry, count: 0, size: 0, out: 0, table: 0, values: 0, finish: 0, pattern: random.next() };
    match entry {
        Entry::Judge | Entry::Floor => {}
        Entry::Rewrite | Entry::Fit | Entry::First | Entry::List => {}
        Entry::Rotate => call.count = steps(random, subject.length()),
        Entry::Search => {
            call.count = if random.chance(5) { random.between(0, 60) } else { random.between(0, 6) } as u16;
            call.size = steps(random, 2 * subject.length());
        }
        Entry::Run | Entry::Plain => {
            call.count = iterations(random, subject.depth());
            let places = usize::from(call.count) * subject.nodes();
            call.table = around(random, 15 * subject.nodes());
            call.values = around(random, places);
            call.finish = if entry == Entry::Run { around(random, places) } else { 0 };
        }
    }
    if subject.needed(entry) > 0 {
        call.out = around(random, subject.needed(entry));
    }
    call
}

/// A run or plain loop with so many iterations and all the room it needs.
pub fn run(random: &mut Random, subject: &Subject, entry: Entry, count: u16) -> Call {
    let places = usize::from(count) * subject.nodes();
    let table = 15 * subject.nodes() + random.below(2);
    let values = places + random.below(5);
    let finish = if entry == Entry::Run { places + random.below(5) } else { 0 };
    Call { count, table, values, finish, ..call(random, subject, entry) }
}

/// A call of every entry point that is linked.
pub fn every(random: &mut Random, bytes: &[u8]) -> Vec<Call> {
    let subject = Subject::new(bytes);
    let linked = ENTRIES.into_iter().filter(|entry| entry.is_linked());
    linked.map(|entry| call(random, &subject, entry)).collect()
}

/// A call of the reader and writer, and one of some other entry point.
pub fn some(random: &mut Random, bytes: &[u8]) -> Vec<Call> {
    let subject = Subject::new(bytes);
    let other = loop {
        let entry = random.pick(&ENTRIES);
        if entry.is_linked() {
            break entry;
        }
    };
    [Entry::Rewrite, other].map(|entry| call(random, &subject, entry)).to_vec()
}
