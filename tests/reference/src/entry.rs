//! The ten entry points with the answers that C and Rust link.

use crate::floor::{self, Part};
use crate::listing;
use crate::machine;
use crate::record::{self, Record};
use crate::refusal::{Cycle, Refusal};
use crate::rules;
use crate::schedule;

/// The number of the refusal, three numbers, the cycle's length, the cycle, then 0.
pub type Answer = [u32; 69];

/// An answer's numbers, and the cycle handed over.
type Given = ([i64; 3], Cycle);

fn numbers(first: i64, second: i64, third: i64) -> Given {
    ([first, second, third], Vec::new())
}

fn answer(result: Result<Given, Refusal>) -> Answer {
    let mut words = [0; 69];
    let cycle = match &result {
        Ok((numbers, cycle)) => {
            words[1..4].copy_from_slice(&numbers.map(|number| number as u32));
            cycle
        }
        Err(refusal) => {
            words[0] = refusal.number();
            words[1..4].copy_from_slice(&refusal.details());
            refusal.cycle()
        }
    };
    words[4] = cycle.len() as u32;
    for (word, edge) in words[5..].iter_mut().zip(cycle) {
        *word = *edge as u32;
    }
    words
}

/// Reads a record, does the work and makes the answer.
fn of_record(bytes: &[u8], work: impl FnOnce(&Record) -> Result<Given, Refusal>) -> Answer {
    answer(record::read(bytes).and_then(|record| work(&record)))
}

fn size(written: Result<usize, Refusal>) -> Result<Given, Refusal> {
    Ok(numbers(written? as i64, 0, 0))
}

pub fn rewrite(bytes: &[u8], out: &mut [u8]) -> Answer {
    of_record(bytes, |record| size(record::write(&record.body, record.pair.as_ref(), out)))
}

pub fn judge(bytes: &[u8]) -> Answer {
    of_record(bytes, |record| rules::judge(record).map(|_| numbers(0, 0, 0)))
}

pub fn fit(bytes: &[u8], out: &mut [u8]) -> Answer {
    of_record(bytes, |record| size(record::write(&record.body, Some(&rules::fit(record)?), out)))
}

pub fn first(bytes: &[u8], out: &mut [u8]) -> Answer {
    of_record(bytes, |record| size(record::write(&record.body, Some(&schedule::first(&record.body)?), out)))
}

pub fn rotate(bytes: &[u8], steps: u16, out: &mut [u8]) -> Answer {
    of_record(bytes, |record| {
        let pair = schedule::rotate(record, i64::from(steps))?;
        size(record::write(&record.body, Some(&pair), out))
    })
}

pub fn search(bytes: &[u8], count: u16, steps: u16, out: &mut [u8]) -> Answer {
    of_record(bytes, |record| {
        let (pair, rotations) = schedule::search(&record.body, i64::from(count), i64::from(steps))?;
        let size = record::write(&record.body, Some(&pair), out)?;
        Ok(numbers(size as i64, rotations, 0))
    })
}

pub fn floor(bytes: &[u8]) -> Answer {
    of_record(bytes, |record| {
        let (floor, part) = floor::floor(&record.body)?;
        Ok(match part {
            Part::Latency => numbers(floor, 1, 0),
            Part::Class(class) => numbers(floor, 2, class as i64),
            Part::Recurrence(cycle) => ([floor, 3, 0], cycle),
        })
    })
}

pub fn list(bytes: &[u8], out: &mut [u8]) -> Answer {
    answer(size(record::store(listing::text(bytes).as_bytes(), out)))
}

pub fn run(bytes: &[u8], count: u16, table: &[u32], values: &mut [u32], finish: &mut [u32]) -> Answer {
    of_record(bytes, |record| {
        let steps = machine::run(record, i64::from(count), table, values, finish)?;
        Ok(numbers(steps, 0, 0))
    })
}

pub fn plain(bytes: &[u8], count: u16, table: &[u32], values: &mut [u32]) -> Answer {
    of_record(bytes, |record| {
        machine::plain(&record.body, i64::from(count), table, values)?;
        Ok(numbers(0, 0, 0))
    })
}
