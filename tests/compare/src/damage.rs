//! Records that are damaged, cut, or no records at all.

use crate::random::Random;

/// Numbers about the bounds of some field.
const BOUNDS: [u8; 20] = [0, 1, 2, 3, 4, 5, 7, 8, 9, 15, 16, 17, 62, 63, 64, 65, 127, 128, 254, 255];

/// One change: a byte set, dropped, put in or doubled, or the end cut off or made longer.
pub fn once(random: &mut Random, bytes: &mut Vec<u8>) {
    if bytes.is_empty() {
        return bytes.push(random.next() as u8);
    }
    let header = bytes.len().min(20);
    let place = if random.chance(30) { random.below(header) } else { random.below(bytes.len()) };
    match random.below(12) {
        0 => bytes.truncate(place),
        1 => drop(bytes.remove(place)),
        2 => bytes.insert(place, random.next() as u8),
        3 => bytes.push(random.pick(&BOUNDS)),
        4 => bytes[place] = random.next() as u8,
        5 => bytes[place] ^= 1 << random.below(8),
        6 | 7 => bytes[place] = bytes[place].wrapping_add(random.pick(&[1, 255])),
        _ => bytes[place] = random.pick(&BOUNDS),
    }
}

/// Every byte at every bound, and every two bytes as numbers about the bounds of a length.
pub fn at_bounds(bytes: &[u8]) -> Vec<Vec<u8>> {
    let mut list = Vec::new();
    for place in 0..bytes.len() {
        let near = [bytes[place].wrapping_sub(1), bytes[place].wrapping_add(1)];
        for value in BOUNDS.into_iter().chain(near) {
            let mut changed = bytes.to_vec();
            changed[place] = value;
            list.push(changed);
        }
    }
    for place in 3..bytes.len() - 1 {
        for value in [0_u16, 1, 255, 256, 257, 511, 512, 513, 65_535] {
            let mut changed = bytes.to_vec();
            changed[place..place + 2].copy_from_slice(&value.to_le_bytes());
            list.push(changed);
        }
    }
    list
}

/// Every beginning of the bytes, and the bytes with some more.
pub fn cut(random: &mut Random, bytes: &[u8]) -> Vec<Vec<u8>> {
    let mut list: Vec<Vec<u8>> = (0..=bytes.len()).map(|length| bytes[..length].to_vec()).collect();
    for more in 1..=4 {
        let tail = (0..more).map(|_| random.next() as u8);
        list.push(bytes.iter().copied().chain(tail).collect());
    }
    list
}

/// Random bytes, most often with a header that is good or nearly good.
pub fn noise(random: &mut Random) -> Vec<u8> {
    let length = random.below(80);
    let small = random.chance(50);
    let mut bytes = random.pick(&[&b""[..], b"RSK", b"RSK\x01\x00", b"RSK\x01\x00\x02\x03", b"RSL\x01\x00"]).to_vec();
    for _ in 0..length {
        let byte = random.next() as u8;
        bytes.push(if small { byte % 4 } else { byte });
    }
    bytes
}
