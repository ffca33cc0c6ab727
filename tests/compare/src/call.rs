//! One call of an entry point, made of the library and of the reference, and compared.

use crate::cycle;
use crate::random::Random;
use library::{Answer, Entry};
use reference::entry;

/// Places before and after each lent buffer, which no call may touch.
const GUARD: usize = 4;

/// An entry point, its numbers and the lengths of its buffers. What the entry point does not take is 0.
#[derive(Clone, Copy, Debug)]
pub struct Call {
    pub entry: Entry,
    /// The steps of a rotation, the rotations of a search, the iterations of a run.
    pub count: u16,
    /// The size of a search.
    pub size: u16,
    pub out: usize,
    pub table: usize,
    pub values: usize,
    pub finish: usize,
    /// What the buffers hold before the call comes from this seed.
    pub pattern: u64,
}

/// All that a call may write, with guards, and the start table.
#[derive(Clone, PartialEq)]
pub struct Buffers {
    answer: Vec<u32>,
    out: Vec<u8>,
    pub table: Vec<u32>,
    values: Vec<u32>,
    finish: Vec<u32>,
}

fn part<T>(buffer: &mut [T]) -> &mut [T] {
    let end = buffer.len() - GUARD;
    &mut buffer[GUARD..end]
}

impl Buffers {
    pub fn new(call: &Call) -> Buffers {
        let mut random = Random::new(call.pattern, 0, 0);
        let mut words = |length: usize| (0..length).map(|_| random.next() as u32).collect::<Vec<u32>>();
        let answer = words(69 + 2 * GUARD);
        let out = words(call.out + 2 * GUARD).iter().map(|word| *word as u8).collect();
        let table = words(call.table);
        let values = words(call.values + 2 * GUARD);
        let finish = words(call.finish + 2 * GUARD);
        Buffers { answer, out, table, values, finish }
    }

    pub fn answer(&self) -> Answer {
        self.answer[GUARD..GUARD + 69].try_into().expect("an answer has 69 words")
    }

    pub fn out(&self) -> &[u8] {
        &self.out[GUARD..self.out.len() - GUARD]
    }

    pub fn values(&self) -> &[u32] {
        &self.values[GUARD..self.values.len() - GUARD]
    }
}

/// Calls the library; the number returned.
fn of_library(record: &[u8], call: &Call, buffers: &mut Buffers) -> u32 {
    let answer: &mut Answer = part(&mut buffers.answer).try_into().expect("an answer has 69 words");
    let (out, table) = (part(&mut buffers.out), &buffers.table[..]);
    let (values, finish) = (part(&mut buffers.values), part(&mut buffers.finish));
    match call.entry {
        Entry::Rewrite => library::rewrite(record, out, answer),
        Entry::Judge => library::judge(record, answer),
        Entry::Fit => library::fit(record, out, answer),
        Entry::First => library::first(record, out, answer),
        Entry::Rotate => library::rotate(record, call.count, out, answer),
        Entry::Search => library::search(record, call.count, call.size, out, answer),
        Entry::Floor => library::floor(record, answer),
        Entry::List => library::list(record, out, answer),
        Entry::Run => library::run(record, call.count, table, values, finish, answer),
        Entry::Plain => library::plain(record, call.count, table, values, answer),
    }
}

/// Calls the reference; the number that is to be returned.
fn of_reference(record: &[u8], call: &Call, buffers: &mut Buffers) -> u32 {
    let (out, table) = (part(&mut buffers.out), &buffers.table[..]);
    let (values, finish) = (part(&mut buffers.values), part(&mut buffers.finish));
    let answer = match call.entry {
        Entry::Rewrite => entry::rewrite(record, out),
        Entry::Judge => entry::judge(record),
        Entry::Fit => entry::fit(record, out),
        Entry::First => entry::first(record, out),
        Entry::Rotate => entry::rotate(record, call.count, out),
        Entry::Search => entry::search(record, call.count, call.size, out),
        Entry::Floor => entry::floor(record),
        Entry::List => entry::list(record, out),
        Entry::Run => entry::run(record, call.count, table, values, finish),
        Entry::Plain => entry::plain(record, call.count, table, values),
    };
    part(&mut buffers.answer).copy_from_slice(&answer);
    answer[0]
}

/// Compares the words of the answers: all of them, or all but the cycle where both hand one over.
fn same_answers(record: &[u8], call: &Call, ours: &mut Buffers, theirs: &Buffers) -> Result<(), String> {
    let (answer, wanted) = (ours.answer(), theirs.answer());
    if answer[..4] != wanted[..4] || (answer[4] == 0) != (wanted[4] == 0) {
        return Err(format!("the answer is {:?} and should be {:?}", &answer[..5], &wanted[..5]));
    }
    if wanted[4] > 0 {
        cycle::check(record, call.entry, &wanted).map_err(|fault| format!("in the reference's cycle: {fault}"))?;
        cycle::check(record, call.entry, &answer).map_err(|fault| format!("{fault}: {:?}", &answer[4..]))?;
        part(&mut ours.answer).copy_from_slice(&wanted);
    }
    if ours.answer == theirs.answer {
        Ok(())
    } else {
        Err(format!("the answer is {:?} and should be {:?}", ours.answer, theirs.answer))
    }
}

/// The first place where two buffers differ.
fn same<T: PartialEq + std::fmt::Debug>(name: &str, ours: &[T], theirs: &[T]) -> Result<(), String> {
    match (0..ours.len()).find(|place| ours[*place] != theirs[*place]) {
        None => Ok(()),
        Some(place) => {
            let (held, wanted) = (&ours[place], &theirs[place]);
            let place = place as i64 - GUARD as i64;
            Err(format!("place {place} of {name} holds {held:?} and should hold {wanted:?}"))
        }
    }
}

/// Makes the call of both; what the library left, or where they differ.
pub fn compare(record: &[u8], call: &Call) -> Result<Buffers, String> {
    let mut ours = Buffers::new(call);
    let mut theirs = ours.clone();
    let lent = record.to_vec();
    let returned = of_library(&lent, call, &mut ours);
    let wanted = of_reference(record, call, &mut theirs);
    if returned != wanted {
        return Err(format!("it returned {returned} and should return {wanted}"));
    }
    same_answers(record, call, &mut ours, &theirs)?;
    same("out", &ours.out, &theirs.out)?;
    same("values", &ours.values, &theirs.values)?;
    same("finish", &ours.finish, &theirs.finish)?;
    if lent != record || ours.table != theirs.table {
        return Err("the record or the start table was changed".into());
    }
    Ok(ours)
}
