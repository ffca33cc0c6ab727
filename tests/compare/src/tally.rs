//! Counts of what was compared, and whether everything that can be answered was.

use crate::call::{Buffers, Call};
use crate::kinds::KINDS;
use crate::promises::Tried;
use library::{Entry, ENTRIES};

#[derive(Clone, Default)]
pub struct Tally {
    records: [u64; KINDS.len()],
    calls: [u64; KINDS.len()],
    /// For each entry point, how often it answered (0) and gave each refusal.
    answers: [[u64; 21]; ENTRIES.len()],
    /// Floors by part: latency, class, cycle.
    parts: [u64; 4],
    /// Listings that say shortest, open and refused.
    listings: [u64; 3],
    /// Searches that ended before their count although the pair at hand could still be rotated: by Long.
    ended_long: u64,
    cycles: u64,
    judged: u64,
    ran: u64,
    stuck: u64,
}

/// The answers that an entry point can give: 0, and its refusals.
fn possible(entry: Entry) -> Vec<usize> {
    let own: &[usize] = match entry {
        Entry::Rewrite => &[18],
        Entry::Judge => &[11, 12, 13, 15],
        Entry::Fit => &[11, 12, 14, 15, 18],
        Entry::First => &[12, 18],
        Entry::Rotate => &[11, 12, 13, 15, 16, 17, 18],
        Entry::Search => &[12, 16, 18],
        Entry::Floor => &[12],
        Entry::List => return vec![0, 18],
        Entry::Run => &[11, 18, 19, 20],
        Entry::Plain => &[12, 18],
    };
    (0..=10).chain(own.iter().copied()).collect()
}

/// A search ends early where the length is 1, which is then the answer's, and by Long.
fn ended_long(call: &Call, left: &Buffers) -> bool {
    let length = u16::from_le_bytes([left.out()[9], left.out()[10]]);
    left.answer()[2] < u32::from(call.count) && length > 1
}

impl Tally {
    pub fn record(&mut self, kind: usize) {
        self.records[kind] += 1;
    }

    pub fn call(&mut self, kind: usize, call: &Call, left: &Buffers, tried: Tried) {
        let answer = left.answer();
        self.calls[kind] += 1;
        self.answers[call.entry as usize][answer[0] as usize] += 1;
        self.cycles += u64::from(answer[4] > 0);
        match (call.entry, answer[0]) {
            (Entry::Floor, 0) => self.parts[answer[2] as usize] += 1,
            (Entry::Search, 0) => self.ended_long += u64::from(ended_long(call, left)),
            (Entry::List, 0) => self.listing(&left.out()[..answer[1] as usize]),
            _ => {}
        }
        match tried {
            Tried::None => {}
            Tried::Judged => self.judged += 1,
            Tried::Ran => self.ran += 1,
            Tried::Stuck => self.stuck += 1,
        }
    }

    fn listing(&mut self, text: &[u8]) {
        let line = text.split(|byte| *byte == b'\n').nth(1).unwrap_or(&[]);
        let place = match line {
            _ if line.ends_with(b" shortest") => 0,
            _ if line.ends_with(b" open") => 1,
            _ => 2,
        };
        self.listings[place] += 1;
    }

    pub fn add(&mut self, other: &Tally) {
        let mut pairs: Vec<(&mut u64, &u64)> = Vec::new();
        pairs.extend(self.records.iter_mut().zip(&other.records));
        pairs.extend(self.calls.iter_mut().zip(&other.calls));
        pairs.extend(self.answers.iter_mut().flatten().zip(other.answers.iter().flatten()));
        pairs.extend(self.parts.iter_mut().zip(&other.parts));
        pairs.extend(self.listings.iter_mut().zip(&other.listings));
        pairs.push((&mut self.ended_long, &other.ended_long));
        pairs.push((&mut self.cycles, &other.cycles));
        pairs.push((&mut self.judged, &other.judged));
        pairs.push((&mut self.ran, &other.ran));
        pairs.push((&mut self.stuck, &other.stuck));
        for (sum, more) in pairs {
            *sum += more;
        }
    }

    pub fn print(&self) {
        println!("{:>9} {:>9}  kind of record", "records", "calls");
        for (place, kind) in KINDS.iter().enumerate() {
            println!("{:>9} {:>9}  {}", self.records[place], self.calls[place], kind.name);
        }
        let (records, calls): (u64, u64) = (self.records.iter().sum(), self.calls.iter().sum());
        println!("{records:>9} {calls:>9}  together");
        println!("answers of each function, 0 and each refusal:");
        for entry in ENTRIES.into_iter().filter(|entry| entry.is_linked()) {
            let counts = self.answers[entry as usize];
            let shown = possible(entry).into_iter().map(|number| format!(" {number}:{}", counts[number]));
            println!("  {:<8}{}", entry.name(), shown.collect::<String>());
        }
        let [_, latency, class, cycle] = self.parts;
        println!("floors by latency {latency}, by a class {class}, by a cycle {cycle}");
        let [shortest, open, refused] = self.listings;
        println!("listings shortest {shortest}, open {open}, refused {refused}");
        println!("cycles checked {}; written records judged {}", self.cycles, self.judged);
        println!("searches ended by Long {}", self.ended_long);
        println!("legal runs held to the plain loop {}; refused runs stuck {}", self.ran, self.stuck);
    }

    /// What should have happened and did not: a comparison without it says too little.
    pub fn missing(&self) -> Vec<String> {
        let mut missing = Vec::new();
        let mut want = |count: u64, what: String| {
            if count == 0 {
                missing.push(what);
            }
        };
        for entry in ENTRIES.into_iter().filter(|entry| entry.is_linked()) {
            for number in possible(entry) {
                want(self.answers[entry as usize][number], format!("{} never answered {number}", entry.name()));
            }
        }
        for part in 1..4 {
            want(self.parts[part], format!("no floor was by part {part}"));
        }
        for (count, word) in self.listings.iter().zip(["shortest", "open", "refused"]) {
            want(*count, format!("no listing said {word}"));
        }
        want(self.cycles, "no cycle was checked".into());
        want(self.judged, "no written record was judged".into());
        if Entry::Search.is_linked() {
            want(self.ended_long, "no search was ended by Long".into());
        }
        if Entry::Run.is_linked() {
            want(self.ran, "no legal run was held to the plain loop".into());
            want(self.stuck, "no refused run was stuck".into());
        }
        missing
    }
}
