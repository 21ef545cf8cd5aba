//! Draws of single values: quantities, prices, texts and codes.

use model::numbers::{MAX_PRICE, MAX_QTY};

use crate::profile::Values;
use crate::random::Random;

const SHARE: u64 = 10_000;
const TICK: u64 = 1_000_000;

const ALPHANUMERIC: &[u8] = b"ABCDEFGHIJKLMNOPQRSTUVWXYZabcdefghijklmnopqrstuvwxyz0123456789";

pub fn qty(random: &mut Random, values: Values) -> u64 {
    match values {
        Values::Usual => SHARE * random.range(1, 500),
        Values::Edges => edge(random, MAX_QTY),
    }
}

pub fn price(random: &mut Random, values: Values) -> u64 {
    match values {
        Values::Usual => TICK * random.range(900, 1_100),
        Values::Edges => edge(random, MAX_PRICE),
    }
}

fn edge(random: &mut Random, most: u64) -> u64 {
    match random.below(8) {
        0 => 0,
        1 => 1,
        2 => most,
        3 => most - 1,
        4 => random.range(0, most),
        _ => random.magnitude(most),
    }
}

/// A quantity at, just below or just above one of `marks`.
pub fn near(random: &mut Random, marks: &[u64], step: u64) -> u64 {
    let mark = *random.pick(marks);
    let step = if random.chance(70) { step } else { 1 };
    let near = match random.below(4) {
        0 => mark.saturating_sub(step),
        1 => mark + step,
        _ => mark,
    };
    near.min(MAX_QTY)
}

/// A text of `least` to `most` bytes, each any byte.
pub fn any_text(random: &mut Random, least: u64, most: u64) -> Vec<u8> {
    let length = match random.below(4) {
        0 => least,
        1 => most,
        _ => random.range(least, most),
    };
    (0..length).map(|_| random.next() as u8).collect()
}

/// An order's name of `length` letters and digits.
pub fn order_name(random: &mut Random, length: u64) -> Vec<u8> {
    (0..length).map(|_| *random.pick(ALPHANUMERIC)).collect()
}

pub fn code(random: &mut Random, codes: &[u8]) -> u8 {
    *random.pick(codes)
}
