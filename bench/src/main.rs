//! Times each entry point of the proved library and of the reference on the same records.

mod clock;
mod records;

use library::{Answer, Entry, ENTRIES};
use records::Timed;
use reference::entry;
use std::hint::black_box;

/// A call's numbers: steps, rotations or iterations, and the size of a search.
#[derive(Clone, Copy)]
struct Numbers {
    count: u16,
    size: u16,
}

/// The buffers that every call lends.
struct Lent {
    answer: Answer,
    out: Vec<u8>,
    table: Vec<u32>,
    values: Vec<u32>,
    finish: Vec<u32>,
}

fn of_library(entry: Entry, record: &[u8], numbers: Numbers, lent: &mut Lent) -> u32 {
    let Lent { answer, out, table, values, finish } = lent;
    match entry {
        Entry::Rewrite => library::rewrite(record, out, answer),
        Entry::Judge => library::judge(record, answer),
        Entry::Fit => library::fit(record, out, answer),
        Entry::First => library::first(record, out, answer),
        Entry::Rotate => library::rotate(record, numbers.count, out, answer),
        Entry::Search => library::search(record, numbers.count, numbers.size, out, answer),
        Entry::Floor => library::floor(record, answer),
        Entry::List => library::list(record, out, answer),
        Entry::Run => library::run(record, numbers.count, table, values, finish, answer),
        Entry::Plain => library::plain(record, numbers.count, table, values, answer),
    }
}

fn of_reference(entry: Entry, record: &[u8], numbers: Numbers, lent: &mut Lent) -> u32 {
    let Lent { answer, out, table, values, finish } = lent;
    *answer = match entry {
        Entry::Rewrite => entry::rewrite(record, out),
        Entry::Judge => entry::judge(record),
        Entry::Fit => entry::fit(record, out),
        Entry::First => entry::first(record, out),
        Entry::Rotate => entry::rotate(record, numbers.count, out),
        Entry::Search => entry::search(record, numbers.count, numbers.size, out),
        Entry::Floor => entry::floor(record),
        Entry::List => entry::list(record, out),
        Entry::Run => entry::run(record, numbers.count, table, values, finish),
        Entry::Plain => entry::plain(record, numbers.count, table, values),
    };
    answer[0]
}

impl Lent {
    fn new(entry: Entry, nodes: usize, iterations: usize) -> Lent {
        let places = if matches!(entry, Entry::Run | Entry::Plain) { iterations * nodes } else { 0 };
        Lent {
            answer: [0; 69],
            out: vec![0; 8192],
            table: (0..15 * nodes as u32).collect(),
            values: vec![0; places],
            finish: vec![0; places],
        }
    }
}

/// Times one entry point on one record and prints a row of the table.
fn row(entry: Entry, timed: &Timed, numbers: Numbers, what: &str) {
    if !entry.is_linked() {
        return;
    }
    let lent = || Lent::new(entry, timed.body.nodes.len(), usize::from(numbers.count));
    let (mut ours, mut theirs) = (lent(), lent());
    let (proved, plain) = clock::fastest(
        || assert_eq!(of_library(entry, black_box(&timed.bytes), numbers, &mut ours), 0),
        || assert_eq!(of_reference(entry, black_box(&timed.bytes), numbers, &mut theirs), 0),
    );
    let call = format!("{}{what}", entry.name());
    println!("| {call:<23} | {:<19} | {proved:>11.0} | {plain:>11.0} | {:>5.2} |", timed.name, proved / plain);
}

fn processor() -> String {
    let text = std::fs::read_to_string("/proc/cpuinfo").unwrap_or_default();
    let line = text.lines().find(|line| line.starts_with("model name"));
    line.and_then(|line| line.split(": ").nth(1)).unwrap_or("not known").to_string()
}

fn main() {
    println!("Processor: {}.", processor());
    println!("Nanoseconds of processor time for one call; the ratio is the proved library over plain Rust.\n");
    println!("| Call                    | Record              |     Library |  Plain Rust | Ratio |");
    println!("|-------------------------|---------------------|------------:|------------:|------:|");
    let records = records::all();
    for timed in &records {
        for entry in ENTRIES {
            let (numbers, what) = match entry {
                Entry::Rotate => (Numbers { count: 1, size: 0 }, " by 1"),
                Entry::Search => (Numbers { count: 10, size: 5 }, ", 10 rotations"),
                Entry::Run | Entry::Plain => (Numbers { count: 100, size: 0 }, ", K = 100"),
                _ => (Numbers { count: 0, size: 0 }, ""),
            };
            row(entry, timed, numbers, what);
        }
    }
    let largest = &records[2];
    row(Entry::Search, largest, Numbers { count: 1_000, size: 5 }, ", 1,000 rotations");
    row(Entry::Run, largest, Numbers { count: 60_000, size: 0 }, ", K = 60,000");
    row(Entry::Plain, largest, Numbers { count: 60_000, size: 0 }, ", K = 60,000");
    println!();
    for timed in &records {
        println!("{}: length {}, depth {}", timed.name, timed.pair.length, timed.pair.depth());
    }
}
