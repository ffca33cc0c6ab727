//! The small loop of the scope, case by case.

use reference::entry;
use reference::floor::{floor, Part};
use reference::listing;
use reference::record::{bytes_of, read, Pair, Record};
use reference::refusal::Refusal;
use reference::rules::{fit, judge, limit};
use reference::schedule::{first, rotated, search};

const RECORD: [u8; 53] = [
    0x52, 0x53, 0x4B, 1, 0, 2, 3, 3, 0, 2, 0, 1, 1, 0, 2, 1, 0, 1, 2, 3, 0, 0, 0, 0, 0, 1, 0, 0, 0, 0, 0, 0, 0, 0, 0,
    0, 1, 0, 1, 2, 0, 2, 0, 2, 1, 0, 1, 1, 0, 0, 2, 0, 0,
];

fn record() -> Record {
    read(&RECORD).unwrap()
}

fn pair(length: i64, starts: [i64; 3], retimings: [i64; 3]) -> Pair {
    Pair { length, starts: starts.to_vec(), retimings: retimings.to_vec() }
}

fn with(pair: Pair) -> Record {
    Record { pair: Some(pair), ..record() }
}

#[test]
fn record_is_written_as_it_was_read() {
    assert_eq!(bytes_of(&record().body, record().pair.as_ref()), RECORD);
}

#[test]
fn first_schedule_and_rotations() {
    let body = record().body;
    let start = first(&body).unwrap();
    assert_eq!(start, pair(4, [1, 3, 4], [0, 0, 0]));
    let once = rotated(&body, &start, 1).unwrap();
    assert_eq!(once, pair(3, [1, 2, 3], [1, 0, 0]));
    assert_eq!(rotated(&body, &once, 1).unwrap(), pair(4, [3, 1, 2], [1, 0, 0]));
    assert_eq!(rotated(&body, &once, 2).unwrap(), pair(3, [2, 2, 1], [2, 1, 0]));
}

#[test]
fn searches() {
    let body = record().body;
    assert_eq!(search(&body, 1, 5).unwrap(), (pair(2, [1, 1, 2], [1, 0, 0]), 1));
    assert_eq!(search(&body, 0, 5).unwrap(), (pair(4, [1, 3, 4], [0, 0, 0]), 0));
}

#[test]
fn floor_fit_and_judge() {
    let body = record().body;
    assert_eq!(floor(&body).unwrap(), (2, Part::Latency));
    let none = with(pair(2, [1, 1, 1], [0, 0, 0]));
    assert!(matches!(fit(&none), Err(Refusal::NoRetiming(cycle)) if cycle.len() == 3));
    let limits: Vec<i64> = body.edges.iter().map(|edge| limit(&body, &[1, 1, 1], edge)).collect();
    assert_eq!(limits, [-1, -1, 1]);
    assert_eq!(fit(&with(pair(2, [1, 1, 2], [0, 0, 0]))).unwrap().retimings, [1, 0, 0]);
    assert_eq!(judge(&with(pair(2, [1, 1, 2], [0, 0, 0]))), Err(Refusal::Dependence(0)));
    assert_eq!(entry::rotate(&RECORD, 2, &mut [0; 53])[..4], [16, 2, 0, 0]);
}

#[test]
fn runs() {
    let mut table = [0; 45];
    (table[30], table[31]) = (5, 7);
    let (mut values, mut finish) = ([9; 10], [9; 10]);
    assert_eq!(entry::run(&RECORD, 3, &table, &mut values, &mut finish)[..2], [0, 8]);
    assert_eq!(values, [21, 22, 22, 15, 16, 16, 66, 67, 67, 9]);
    assert_eq!(finish, [3, 4, 5, 5, 6, 7, 7, 8, 9, 9]);
    assert_eq!(entry::run(&RECORD, 0, &table, &mut values, &mut finish)[..2], [0, 2]);
    let mut plain = [9; 10];
    assert_eq!(entry::plain(&RECORD, 3, &table, &mut plain)[..2], [0, 0]);
    assert_eq!(plain, values);
}

#[test]
fn listing_of_the_record() {
    let text = "RSK 1\nnodes 3 edges 3 length 2 depth 1 floor 2 shortest\n1: 0+1 1\n2: 2\n";
    assert_eq!(listing::text(&RECORD), text);
    assert_eq!(listing::text(&RECORD[..5]), "refused 1\n");
}
