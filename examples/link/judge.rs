//! Judges the record of a small loop, lists it, and judges it again without its retiming.

use std::io::{stdout, Write};

#[link(name = "rsk_c", kind = "static")]
extern "C" {
    fn rsk_judge(record: *const u8, record_size: usize, answer: *mut u32) -> u32;
    fn rsk_list(record: *const u8, record_size: usize, out: *mut u8, out_size: usize, answer: *mut u32) -> u32;
}

/// Two classes, three nodes, three edges, a schedule of length 2; the retiming of node 0 is at offset 46.
#[rustfmt::skip]
const SMALL_LOOP: [u8; 53] = [
    b'R', b'S', b'K', 1, 0, 2, 3, 3, 0, 2, 0,
    1, 1, 0, 2, 1, 0,
    1, 2, 3, 0, 0, 0, 0, 0, 1, 0, 0, 0, 0, 0, 0, 0, 0, 0,
    0, 1, 0, 1, 2, 0, 2, 0, 2,
    1, 0, 1, 1, 0, 0, 2, 0, 0,
];

fn judge(name: &str, record: &[u8]) {
    let mut answer = [0_u32; 69];
    match unsafe { rsk_judge(record.as_ptr(), record.len(), answer.as_mut_ptr()) } {
        0 => println!("{name}: accepted"),
        number => println!("{name}: refused {number}, {}", answer[1]),
    }
}

/// The listing's text, or none where the buffer is too short.
fn list(record: &[u8]) -> Option<Vec<u8>> {
    let (mut text, mut answer) = (vec![0; 200], [0_u32; 69]);
    let number =
        unsafe { rsk_list(record.as_ptr(), record.len(), text.as_mut_ptr(), text.len(), answer.as_mut_ptr()) };
    text.truncate(answer[1] as usize);
    (number == 0).then_some(text)
}

fn main() {
    judge("small loop", &SMALL_LOOP);
    if let Some(text) = list(&SMALL_LOOP) {
        stdout().write_all(&text).expect("standard output takes the listing");
    }
    let mut changed = SMALL_LOOP;
    changed[46] = 0;
    judge("without its retiming", &changed);
}
