//! Damaged records: each bit, each cut, each byte of a good record may be spoiled.

use crate::random::Random;

/// `record` with one thing wrong, or now and then unlike any record.
pub fn damage(random: &mut Random, record: &[u8]) -> Vec<u8> {
    let mut bytes = record.to_vec();
    // A repeated record may be too short to be spoiled further.
    let way = if bytes.len() > 5 { random.below(9) } else { 4 };
    match way {
        0 => bytes.truncate(random.below(bytes.len() as u64) as usize),
        1 => bytes.push(random.next() as u8),
        2 => bytes[0] = random.below(24) as u8,
        3 => flip(random, &mut bytes, 1, 5),
        4 => bytes = (0..random.below(80)).map(|_| random.next() as u8).collect(),
        5 | 6 => {
            let end = bytes.len();
            flip(random, &mut bytes, 5, end);
        }
        7 => {
            let at = random.below(bytes.len() as u64) as usize;
            bytes[at] = random.next() as u8;
        }
        _ => {
            let at = random.below(bytes.len() as u64) as usize;
            bytes.remove(at);
        }
    }
    bytes
}

/// Flips one bit of the bytes from `start` to before `end`.
fn flip(random: &mut Random, bytes: &mut [u8], start: usize, end: usize) {
    let at = random.range(start as u64, end as u64 - 1) as usize;
    bytes[at] ^= 1 << random.below(8);
}

/// `record` cut at each place, and with a byte over.
pub fn every_cut(record: &[u8]) -> Vec<Vec<u8>> {
    let mut cut: Vec<Vec<u8>> = (0..record.len()).map(|end| record[..end].to_vec()).collect();
    cut.push([record, &[0]].concat());
    cut
}

/// `record` with each bit changed.
pub fn every_flip(record: &[u8]) -> Vec<Vec<u8>> {
    let flipped = (0..record.len() * 8).map(|bit| {
        let mut bytes = record.to_vec();
        bytes[bit / 8] ^= 1 << (bit % 8);
        bytes
    });
    flipped.collect()
}
