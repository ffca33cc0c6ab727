//! Holds the proved library against the reference on random and damaged records. The first argument
//! is a seed; without one the cases are always the same. Exit status 1 tells of a difference.

mod call;
mod calls;
mod cycle;
mod damage;
mod kinds;
mod make;
mod promises;
mod random;
mod tally;

use call::{Buffers, Call};
use kinds::KINDS;
use random::Random;
use std::process::ExitCode;
use std::sync::atomic::{AtomicBool, AtomicU64, Ordering};
use std::sync::Mutex;
use std::time::Instant;
use tally::Tally;

const SEED: u64 = 2026;

/// How many times cases are made between two looks at the shared counter.
const BATCH: u64 = 8;

struct Shared {
    seed: u64,
    next: AtomicU64,
    stop: AtomicBool,
    tally: Mutex<Tally>,
}

/// The kind and the number within it of the n-th time that cases are made.
fn kind_of(mut number: u64) -> Option<(usize, u64)> {
    for (place, kind) in KINDS.iter().enumerate() {
        if number < kind.times {
            return Some((place, number));
        }
        number -= kind.times;
    }
    None
}

fn hex(bytes: &[u8]) -> String {
    bytes.iter().map(|byte| format!("{byte:02x}")).collect()
}

fn print_failure(kind: usize, record: &[u8], call: &Call, fault: &str) {
    println!("DIFFERENT: {}: {fault}", call.entry.name());
    println!("  among {}", KINDS[kind].name);
    println!("  record {}", hex(record));
    println!("  call {call:?}");
    println!("  start table {:?}", Buffers::new(call).table);
}

/// Makes and compares the cases of one time; whether all agreed.
fn compare_cases(seed: u64, kind: usize, number: u64, tally: &mut Tally) -> bool {
    let mut random = Random::new(seed, kind as u64, number);
    for (record, calls) in (KINDS[kind].make)(&mut random) {
        tally.record(kind);
        for call in &calls {
            let compared = call::compare(&record, call);
            let tried = compared.and_then(|left| promises::check(&record, call, &left).map(|tried| (left, tried)));
            match tried {
                Ok((left, tried)) => tally.call(kind, call, &left, tried),
                Err(fault) => {
                    print_failure(kind, &record, call, &fault);
                    return false;
                }
            }
        }
    }
    true
}

fn work(shared: &Shared) {
    let mut tally = Tally::default();
    while !shared.stop.load(Ordering::Relaxed) {
        let first = shared.next.fetch_add(BATCH, Ordering::Relaxed);
        if kind_of(first).is_none() {
            break;
        }
        for (kind, number) in (first..first + BATCH).filter_map(kind_of) {
            if !compare_cases(shared.seed, kind, number, &mut tally) {
                shared.stop.store(true, Ordering::Relaxed);
                break;
            }
        }
    }
    shared.tally.lock().expect("no worker stops while it adds").add(&tally);
}

fn main() -> ExitCode {
    let seed = std::env::args().nth(1).map_or(SEED, |word| word.parse().expect("the seed is a number"));
    let began = Instant::now();
    let tally = Mutex::new(Tally::default());
    let shared = Shared { seed, next: AtomicU64::new(0), stop: AtomicBool::new(false), tally };
    let workers = std::thread::available_parallelism().map_or(1, |count| count.get());
    std::thread::scope(|scope| (0..workers).for_each(|_| drop(scope.spawn(|| work(&shared)))));
    if shared.stop.load(Ordering::Relaxed) {
        return ExitCode::FAILURE;
    }
    let tally = shared.tally.into_inner().expect("no worker stops while it adds");
    tally.print();
    let missing = tally.missing();
    missing.iter().for_each(|what| println!("MISSING: {what}"));
    if !missing.is_empty() {
        return ExitCode::FAILURE;
    }
    println!("no difference (seed {seed}, {:.0} s on {workers} threads)", began.elapsed().as_secs_f64());
    ExitCode::SUCCESS
}
