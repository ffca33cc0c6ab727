//! The kinds of cases: how the records of each are made, and which calls are made about them.

use crate::call::Call;
use crate::calls::{self, Subject};
use crate::damage;
use crate::make::{self, Shape};
use crate::random::Random;
use library::{Entry, ENTRIES};
use reference::record::{bytes_of, Loop};

/// A record, or what should be one, and the calls about it.
pub type Case = (Vec<u8>, Vec<Call>);

pub struct Kind {
    pub name: &'static str,
    /// How many times cases are made.
    pub times: u64,
    pub make: fn(&mut Random) -> Vec<Case>,
}

pub const KINDS: [Kind; 14] = [
    Kind { name: "loops of 1 to 3 nodes", times: 100_000, make: tiny },
    Kind { name: "loops of 4 to 10 nodes", times: 100_000, make: small },
    Kind { name: "loops of 11 to 24 nodes", times: 20_000, make: medium },
    Kind { name: "loops of 25 to 64 nodes", times: 5_000, make: large },
    Kind { name: "loops of 64 nodes and 256 edges", times: 1_500, make: largest },
    Kind { name: "long chains of long operations", times: 2_500, make: long },
    Kind { name: "damaged records", times: 80_000, make: damaged },
    Kind { name: "every byte at its bounds", times: 120, make: bounds },
    Kind { name: "every truncation, and bytes added", times: 300, make: cut },
    Kind { name: "bytes that are no record", times: 30_000, make: noise },
    Kind { name: "every size of a buffer", times: 250, make: rooms },
    Kind { name: "runs of up to some hundred iterations", times: 20_000, make: runs },
    Kind { name: "runs of 65,535 iterations", times: 60, make: long_runs },
    Kind { name: "long searches", times: 60, make: long_searches },
];

fn with_any_pair(random: &mut Random, body: &Loop) -> Vec<u8> {
    let pair = make::any_pair(random, body);
    bytes_of(body, pair.as_ref())
}

fn sized(random: &mut Random, least: usize, most: usize) -> Vec<Case> {
    let body = make::any_body(random, least, most);
    let bytes = with_any_pair(random, &body);
    let calls = calls::every(random, &bytes);
    vec![(bytes, calls)]
}

fn tiny(random: &mut Random) -> Vec<Case> {
    sized(random, 1, 3)
}

fn small(random: &mut Random) -> Vec<Case> {
    sized(random, 4, 10)
}

fn medium(random: &mut Random) -> Vec<Case> {
    sized(random, 11, 24)
}

fn large(random: &mut Random) -> Vec<Case> {
    sized(random, 25, 64)
}

fn largest(random: &mut Random) -> Vec<Case> {
    let shape = random.pick(&[Shape::Ordered, Shape::Chain, Shape::Delayed, Shape::Free]);
    let body = make::body(random, 64, 256, shape);
    let bytes = with_any_pair(random, &body);
    let calls = calls::every(random, &bytes);
    vec![(bytes, calls)]
}

/// Chains of some 64 operations of some 8 steps, near the longest length there is; with a single
/// unit a rotation soon needs more.
fn long(random: &mut Random) -> Vec<Case> {
    let nodes = random.between(58, 64) as usize;
    let edges = nodes - 1 + random.below(40);
    let mut body = make::body(random, nodes, edges, Shape::Chain);
    let single = random.chance(50);
    for class in &mut body.classes {
        class.latency = if single { 8 } else { random.between(7, 8) };
        class.units = if single { 1 } else { random.between(1, 2) };
        class.pipelined &= !single;
    }
    if single {
        body.nodes.iter_mut().for_each(|node| node.class = 0);
    }
    let bytes = with_any_pair(random, &body);
    let calls = calls::every(random, &bytes);
    vec![(bytes, calls)]
}

/// A record of a few nodes, now and then a large one, with a pair that may be legal.
fn base(random: &mut Random) -> Vec<u8> {
    let most = if random.chance(3) { 64 } else { 6 };
    let body = make::any_body(random, 1, most);
    with_any_pair(random, &body)
}

fn damaged(random: &mut Random) -> Vec<Case> {
    let mut bytes = base(random);
    for _ in 0..random.between(1, 3) {
        damage::once(random, &mut bytes);
    }
    let calls = calls::some(random, &bytes);
    vec![(bytes, calls)]
}

fn cases_of(random: &mut Random, list: Vec<Vec<u8>>) -> Vec<Case> {
    let case = |bytes: Vec<u8>| {
        let calls = calls::some(random, &bytes);
        (bytes, calls)
    };
    list.into_iter().map(case).collect()
}

fn bounds(random: &mut Random) -> Vec<Case> {
    let list = damage::at_bounds(&base(random));
    cases_of(random, list)
}

fn cut(random: &mut Random) -> Vec<Case> {
    let bytes = base(random);
    let list = damage::cut(random, &bytes);
    cases_of(random, list)
}

fn noise(random: &mut Random) -> Vec<Case> {
    let bytes = damage::noise(random);
    cases_of(random, vec![bytes])
}

/// Every size of the out buffer from none to more than is needed.
fn rooms(random: &mut Random) -> Vec<Case> {
    let body = make::any_body(random, 1, 4);
    let pair = make::good_pair(random, &body);
    let bytes = bytes_of(&body, Some(&pair));
    let subject = Subject::new(&bytes);
    let mut list = Vec::new();
    for entry in ENTRIES.into_iter().filter(|entry| entry.is_linked() && subject.needed(*entry) > 0) {
        for out in 0..=subject.needed(entry) + 3 {
            list.push(Call { out, ..calls::call(random, &subject, entry) });
        }
    }
    vec![(bytes, list)]
}

fn runs_of(random: &mut Random, bytes: &[u8], count: u16) -> Vec<Call> {
    let subject = Subject::new(bytes);
    let linked = [Entry::Run, Entry::Plain].into_iter().filter(|entry| entry.is_linked());
    linked.map(|entry| calls::run(random, &subject, entry, count)).collect()
}

/// Legal pairs and their neighbours, with enough iterations that a refused one is stuck.
fn runs(random: &mut Random) -> Vec<Case> {
    let most = random.pick(&[2, 4, 8, 20]);
    let body = make::any_body(random, 1, most);
    let mut pair = make::good_pair(random, &body);
    if random.chance(50) {
        pair = make::perturb(random, pair);
    }
    let more = random.pick(&[0, 15, 16, 17, 40, 300]);
    let count = pair.depth() + random.between(0, more);
    let bytes = bytes_of(&body, Some(&pair));
    let calls = runs_of(random, &bytes, count as u16);
    vec![(bytes, calls)]
}

fn long_runs(random: &mut Random) -> Vec<Case> {
    let body = make::any_body(random, 1, 3);
    let pair = make::good_pair(random, &body);
    let bytes = bytes_of(&body, Some(&pair));
    let calls = runs_of(random, &bytes, 65_535);
    vec![(bytes, calls)]
}

fn long_searches(random: &mut Random) -> Vec<Case> {
    let (most, rotations) = random.pick(&[(3, 65_535), (8, 5_000), (24, 1_000), (64, 200)]);
    let body = make::any_body(random, 1, most);
    let bytes = bytes_of(&body, None);
    let subject = Subject::new(&bytes);
    let mut list = Vec::new();
    if Entry::Search.is_linked() {
        let count = random.between(rotations / 2, rotations) as u16;
        let out = subject.needed(Entry::Search);
        list.push(Call { count, out, ..calls::call(random, &subject, Entry::Search) });
    }
    vec![(bytes, list)]
}
