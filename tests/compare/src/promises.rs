//! What the library promises across its functions, on what it has just answered.

use crate::call::{Buffers, Call};
use library::Entry;
use reference::machine;
use reference::record::{read, Record};

/// Which promise was tried.
#[derive(Clone, Copy, PartialEq, Eq)]
pub enum Tried {
    None,
    /// A record that was written is accepted by the judge.
    Judged,
    /// An accepted record runs to its end, with the plain loop's values.
    Ran,
    /// A refused record with enough iterations is stuck.
    Stuck,
}

fn judged(bytes: &[u8]) -> u32 {
    library::judge(bytes, &mut [0; 69])
}

/// The values of the plain loop, by the reference.
fn plain_values(record: &Record, call: &Call, table: &[u32]) -> Result<Vec<u32>, String> {
    let mut values = vec![0; usize::from(call.count) * record.body.nodes.len()];
    let plain = machine::plain(&record.body, i64::from(call.count), table, &mut values);
    plain.map_err(|refusal| format!("the plain loop is refused: {refusal:?}"))?;
    Ok(values)
}

fn of_run(bytes: &[u8], call: &Call, left: &Buffers) -> Result<Tried, String> {
    let record = read(bytes).map_err(|_| "a run of bytes that are no record")?;
    let depth = record.pair.as_ref().map_or(0, |pair| pair.depth());
    let answered = left.answer()[0];
    match judged(bytes) {
        0 if answered == 0 => {
            let values = plain_values(&record, call, &left.table)?;
            if left.values()[..values.len()] != values[..] {
                return Err("the run's values are not the plain loop's".into());
            }
            Ok(Tried::Ran)
        }
        0 => Err("the judge accepts, and the run is stuck".into()),
        _ if i64::from(call.count) < depth + 16 => Ok(Tried::None),
        _ if answered == 0 => Err("the judge refuses, and the run is not stuck".into()),
        _ => Ok(Tried::Stuck),
    }
}

/// Tries what is promised of a call that was answered.
pub fn check(bytes: &[u8], call: &Call, left: &Buffers) -> Result<Tried, String> {
    let answer = left.answer();
    match call.entry {
        Entry::Fit | Entry::First | Entry::Rotate | Entry::Search if answer[0] == 0 => {
            match judged(&left.out()[..answer[1] as usize]) {
                0 => Ok(Tried::Judged),
                number => Err(format!("the record that was written is refused as {number}")),
            }
        }
        Entry::Run if matches!(answer[0], 0 | 19 | 20) => of_run(bytes, call, left),
        _ => Ok(Tried::None),
    }
}
