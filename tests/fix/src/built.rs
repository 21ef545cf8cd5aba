//! Records built field by field: each kind with each set of optional bits, each field at the ends of
//! its range and past them, texts of every byte, records that are none, and all of it by chance.
//! Rests on records and random.

use std::sync::LazyLock;

use crate::random::Random;
use crate::records::{Form, Record, bits, form, has_right_bits};
use crate::writer::Header;

pub const KINDS: [u8; 5] = [16, 17, 18, 19, 20];

/// A usual content of each field.
fn usual(bit: usize) -> Vec<u8> {
    match bit {
        0 | 1 => 7_u16.to_le_bytes().to_vec(),
        2 => b"A1".to_vec(),
        3 => b"C2".to_vec(),
        4 => b"C1".to_vec(),
        5 => b"A1-1".to_vec(),
        6 => b"WHEATH27".to_vec(),
        7 => b"1".to_vec(),
        8 => b"2".to_vec(),
        9 => 1_000_000_u64.to_le_bytes().to_vec(),
        10 | 17 => 1_025_000_000_u64.to_le_bytes().to_vec(),
        11 => b"1".to_vec(),
        12 => b"F".to_vec(),
        13 => b"1".to_vec(),
        14 | 16 => 400_000_u64.to_le_bytes().to_vec(),
        18 => b"V-1".to_vec(),
        19 => 99_u32.to_le_bytes().to_vec(),
        20 => b"no such price".to_vec(),
        24 => 600_000_u64.to_le_bytes().to_vec(),
        25 => 2_u64.to_le_bytes().to_vec(),
        26 => 1_025_000_000_u128.to_le_bytes().to_vec(),
        27 => vec![3],
        28 | 29 => vec![1],
        30 => b"A1".to_vec(),
        31 => vec![1],
        _ => unreachable!("a message's field"),
    }
}

fn of_bits(kind: u8, map: u32) -> Record {
    (0..32)
        .filter(|bit| map >> bit & 1 == 1)
        .fold(Record::new(kind), |record, bit| record.with(bit, &usual(bit)))
}

/// A message of that kind with each set of bits that it may have.
pub fn of_kind(kind: u8) -> Vec<Record> {
    let (always, maybe) = bits(kind).expect("a message");
    let base: u32 = always.iter().map(|bit| 1 << bit).sum();
    let set = |chosen: usize| -> u32 {
        maybe.iter().enumerate().filter(|(at, _)| chosen >> at & 1 == 1).map(|(_, bit)| 1 << bit).sum()
    };
    let maps = (0..1 << maybe.len()).map(|chosen| base | set(chosen));
    maps.filter(|map| has_right_bits(kind, |bit| map >> bit & 1 == 1)).map(|map| of_bits(kind, map)).collect()
}

/// Numbers where digits, words and ranges turn.
fn numbers(length: usize, largest: u128) -> Vec<u128> {
    let top = if length == 16 { u128::MAX } else { (1 << (8 * length)) - 1 };
    let powers =
        (0..39).map(|power| 10_u128.pow(power)).chain((0..128).step_by(8).map(|power| 1_u128 << power));
    let near = powers.flat_map(|power| [power - 1, power, power.saturating_add(1), power.saturating_mul(3)]);
    let ends = [largest - 1, largest, largest.saturating_add(1), top, top - 1, top / 2, top / 10];
    let mut all: Vec<u128> = near.chain(ends).filter(|number| *number <= top).collect();
    all.sort();
    all.dedup();
    all
}

/// Contents of a field, in its range and out of it.
pub fn contents(bit: usize) -> Vec<Vec<u8>> {
    match form(bit).expect("a message's field") {
        Form::Number(length, largest) => {
            let bytes = |number: u128| number.to_le_bytes()[..length].to_vec();
            numbers(length, largest).into_iter().map(bytes).collect()
        }
        Form::Code(_) => (0..=255).map(|byte| vec![byte]).collect(),
        Form::Text(_, most) => texts(most),
        Form::Name => [&texts(20)[..], &[b"NONE".to_vec(), b"NON".to_vec(), b"NONEX".to_vec()]].concat(),
    }
}

fn texts(most: usize) -> Vec<Vec<u8>> {
    let lengths = [0, 1, 2, most - 1, most, most + 1, 255].map(|length| vec![b'x'; length]);
    let bytes = (0..=255).flat_map(|byte| {
        [vec![byte], vec![b'x', byte, b'y'], vec![b'x'; most - 1]].map(move |mut text| {
            if text.len() == most - 1 {
                text.push(byte);
            }
            text
        })
    });
    let telling: [&[u8]; 6] = [b"=", b"58=", b"10=000", b"NONE", b"A.1", b"below filled"];
    lengths.into_iter().chain(bytes).chain(telling.map(<[u8]>::to_vec)).collect()
}

/// Each kind with each set of bits; a full one of each with each content of each field.
pub static ALL: LazyLock<Vec<Record>> = LazyLock::new(all);

/// Bytes that are no record of a message, most of them: each kind byte, each bit of the map, each cut,
/// a byte over, fields of other bits.
pub static BROKEN: LazyLock<Vec<Vec<u8>>> = LazyLock::new(broken);

/// Headers: usual ones, numbers where digits turn, texts of every byte and of every kind of length.
pub static HEADERS: LazyLock<Vec<Header>> = LazyLock::new(headers);

static BY_KIND: LazyLock<[Vec<Record>; 5]> = LazyLock::new(|| KINDS.map(of_kind));

fn all() -> Vec<Record> {
    let mut records: Vec<Record> = KINDS.into_iter().flat_map(of_kind).collect();
    let ends: Vec<Record> = records.iter().filter(|record| is_fullest(record)).flat_map(each_end).collect();
    records.extend(ends);
    records
}

fn is_fullest(record: &Record) -> bool {
    let count = |record: &Record| record.fields.iter().flatten().count();
    of_kind(record.kind).iter().all(|other| count(other) <= count(record))
}

fn each_end(record: &Record) -> Vec<Record> {
    let stands = (0..32).filter(|bit| record.has(*bit));
    stands
        .flat_map(|bit| contents(bit).into_iter().map(move |content| record.clone().with(bit, &content)))
        .collect()
}

fn broken() -> Vec<Vec<u8>> {
    let mut all = vec![Vec::new()];
    for record in KINDS.into_iter().flat_map(of_kind).filter(is_fullest) {
        let bytes = record.bytes();
        all.extend((0..bytes.len()).map(|cut| bytes[..cut].to_vec()));
        all.extend((0..=255).map(|kind| [&[kind], &bytes[1..]].concat()));
        all.extend((0..=255).map(|byte| [&bytes[..], &[byte]].concat()));
        for bit in 0..32 {
            let mut other = bytes.clone();
            other[1 + bit / 8] ^= 1 << (bit % 8);
            all.push(other);
            if form(bit).is_some() {
                all.push(
                    if record.has(bit) {
                        record.clone().without(bit)
                    } else {
                        record.clone().with(bit, &usual(bit))
                    }
                    .bytes(),
                );
            }
        }
    }
    // Bits 20 and 27 together, and a 3 beside a 4.
    for kind in [16, 17] {
        for record in of_kind(kind) {
            let both = record.with(20, b"said").with(27, &[6]);
            all.push(both.bytes());
            all.push(both.clone().with(13, b"?").bytes());
            all.push(both.with(20, b"").bytes());
        }
    }
    all
}

/// A record by chance, nearly always one of a message and in range.
pub fn draw(random: &mut Random) -> Record {
    let mut record = {
        let kind = random.below(KINDS.len());
        random.pick(&BY_KIND[kind]).clone()
    };
    for bit in (0..32).filter(|bit| record.has(*bit)).collect::<Vec<_>>() {
        if !random.one_in(4) {
            record.fields[bit] = Some(content(bit, random));
        }
    }
    record
}

fn content(bit: usize, random: &mut Random) -> Vec<u8> {
    if random.one_in(500) {
        let all = contents(bit);
        return random.pick(&all).clone();
    }
    match form(bit).expect("a message's field") {
        Form::Number(length, largest) => {
            let wide = u128::from(random.word()) << 64 | u128::from(random.word());
            let number = wide >> random.below(128);
            let number = if largest == u128::MAX { number } else { number % (largest + 1) };
            number.to_le_bytes()[..length].to_vec()
        }
        Form::Code(list) => vec![*random.pick(list)],
        Form::Text(_, most) => (0..1 + random.below(most)).map(|_| 32 + random.below(224) as u8).collect(),
        Form::Name => (0..1 + random.below(20)).map(|_| *random.pick(b"ABCXYZabcxyz0189")).collect(),
    }
}

fn headers() -> Vec<Header> {
    let usual = Header::usual();
    let mut all = vec![usual.clone()];
    all.extend(
        numbers(8, u128::MAX).into_iter().map(|number| Header { sequence: number as u64, ..usual.clone() }),
    );
    let bytes = (0..=255).map(|byte| vec![byte]);
    let lengths = [0, 1, 2, 31, 32, 33, 64, 255, 256, 257, 1_000, 70_000].map(|length| vec![b'='; length]);
    let others: [&[u8]; 5] = [b"a=b", b"a\x1Fb", b"a\x01b", b"10=000", b"\xFF\x7F "];
    for text in bytes.chain(lengths).chain(others.map(<[u8]>::to_vec)) {
        all.push(Header { sender: text.clone(), ..usual.clone() });
        all.push(Header { target: text.clone(), ..usual.clone() });
        all.push(Header { time: text, ..usual.clone() });
    }
    all
}
