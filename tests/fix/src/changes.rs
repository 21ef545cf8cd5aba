//! Changed messages: bytes, fields and values, with the checksum and the body length mended and not.
//! Rests on writer.

use crate::writer::{Field, WORDS, spell};

/// A message's fields, loosely.
pub fn split(message: &[u8]) -> Vec<Field> {
    let fields = message.strip_suffix(b"\x01").unwrap_or(message).split(|&byte| byte == 1);
    let field = |field: &[u8]| {
        let cut = field.iter().position(|&byte| byte == b'=')?;
        Some((std::str::from_utf8(&field[..cut]).ok()?.parse().ok()?, field[cut + 1..].to_vec()))
    };
    fields.filter_map(field).collect()
}

/// The same bytes with a right body length, if they have a place for it.
fn with_length(message: &[u8]) -> Option<Vec<u8>> {
    let start = find(message, b"\x019=")? + 3;
    let end = start + find(&message[start..], b"\x01")?;
    let trailer = message.windows(4).rposition(|bytes| bytes == b"\x0110=")?;
    let length = (trailer + 1).checked_sub(end + 1)?;
    Some([&message[..start], length.to_string().as_bytes(), &message[end..]].concat())
}

/// The same bytes with a right checksum, if they have a place for it.
fn with_sum(message: &[u8]) -> Option<Vec<u8>> {
    let trailer = message.windows(4).rposition(|bytes| bytes == b"\x0110=")? + 1;
    let sum = message[..trailer].iter().fold(0_u8, |sum, &byte| sum.wrapping_add(byte));
    Some([&message[..trailer], format!("10={sum:03}\x01").as_bytes()].concat())
}

fn find(bytes: &[u8], piece: &[u8]) -> Option<usize> {
    bytes.windows(piece.len()).position(|window| window == piece)
}

/// A changed message as it is, with its sum mended, and with its length mended too.
pub fn mended(message: Vec<u8>) -> Vec<Vec<u8>> {
    let sum = with_sum(&message);
    let both = with_length(&message).and_then(|message| with_sum(&message));
    let mut all = vec![message];
    all.extend(sum);
    all.extend(both);
    all.dedup();
    all
}

/// Each byte at other values, left out, doubled, and others put before it; each end cut off.
pub fn bytes(message: &[u8], values: &[u8]) -> Vec<Vec<u8>> {
    let mut all = Vec::new();
    for at in 0..message.len() {
        let (before, byte, after) = (&message[..at], message[at], &message[at + 1..]);
        let near = [byte.wrapping_add(1), byte.wrapping_sub(1), byte ^ 0x20, byte ^ 0x80];
        all.extend(
            values
                .iter()
                .chain(&near)
                .filter(|&&value| value != byte)
                .map(|&value| [before, &[value], after].concat()),
        );
        all.extend(b"0\x01= \x1F\x7F.".map(|more| [before, &[more], &message[at..]].concat()));
        all.push([before, after].concat());
        all.push([before, &[byte], &message[at..]].concat());
        all.push(before.to_vec());
        all.push(message[at..].to_vec());
    }
    all.push([message, b"\x01"].concat());
    all.push([message, message].concat());
    all.push([message, b"58=x\x01"].concat());
    all
}

/// Fields left out, swapped, doubled, moved, under another tag, and put in where there were none.
pub fn fields(message: &[u8]) -> Vec<Vec<u8>> {
    let fields = split(message);
    let count = fields.len();
    let mut all: Vec<Vec<Field>> = Vec::new();
    for at in 0..count {
        let mut without = fields.clone();
        let taken = without.remove(at);
        all.push(without.clone());
        for place in 0..count {
            let mut moved = without.clone();
            moved.insert(place.min(without.len()), taken.clone());
            all.push(moved);
            let mut doubled = fields.clone();
            doubled.insert(place, taken.clone());
            all.push(doubled);
            let mut swapped = fields.clone();
            swapped.swap(at, place);
            all.push(swapped);
            let mut told = fields.clone();
            told[at].1 = fields[place].1.clone();
            all.push(told);
        }
        for tag in TAGS {
            let mut other = fields.clone();
            other[at].0 = tag;
            all.push(other);
        }
        for (tag, value) in MORE {
            let mut more = fields.clone();
            more.insert(at, (tag, value.to_vec()));
            all.push(more);
        }
    }
    all.iter().map(|fields| spell(fields)).collect()
}

const TAGS: [u32; 32] = [
    0, 1, 5, 6, 8, 9, 10, 11, 14, 15, 17, 31, 32, 34, 35, 37, 38, 39, 40, 41, 44, 49, 52, 54, 55, 56, 58, 59,
    60, 102, 103, 434,
];

const MORE: [(u32, &[u8]); 14] = [
    (58, b"said"),
    (58, b"below filled"),
    (44, b"1.00000000"),
    (59, b"0"),
    (41, b"C0"),
    (37, b"V"),
    (103, b"0"),
    (102, b"0"),
    (60, b"20261116-12:34:56.789"),
    (43, b"Y"),
    (1, b"acct"),
    (40, b"1"),
    (434, b"1"),
    (151, b"0.0000"),
];

/// Each value in forms that are near to right: zeros before it, signs, fewer and more decimals, at the
/// range's end and past it, another code, a longer and a shorter text.
pub fn values(message: &[u8]) -> Vec<Vec<u8>> {
    let fields = split(message);
    let mut all = Vec::new();
    for at in 0..fields.len() {
        for value in near(&fields[at].1) {
            let mut other = fields.clone();
            other[at].1 = value;
            all.push(spell(&other));
        }
        // The tag in another form.
        let spelled = |form: String| {
            let (before, after) = (spell(&fields[..at]), spell(&fields[at + 1..]));
            [&before, form.as_bytes(), b"=", &fields[at].1, b"\x01", &after].concat()
        };
        let tag = fields[at].0;
        all.extend(
            [format!("0{tag}"), format!("+{tag}"), format!(" {tag}"), format!("{tag}0"), String::new()]
                .map(spelled),
        );
    }
    all
}

/// A report with another name, its ExecID's included.
pub fn names(message: &[u8]) -> Vec<Vec<u8>> {
    let fields = split(message);
    let renamed = |name: Vec<u8>| {
        let mut other = fields.clone();
        for (tag, value) in &mut other {
            match tag {
                37 => *value = name.clone(),
                17 => *value = [&name, &b".7"[..]].concat(),
                _ => {}
            }
        }
        spell(&other)
    };
    near(b"A1").into_iter().map(renamed).collect()
}

fn near(value: &[u8]) -> Vec<Vec<u8>> {
    let mut all: Vec<Vec<u8>> = b"0+- .A\x1F=\xFF".iter().map(|byte| [&[*byte], value].concat()).collect();
    all.extend(b"0 .5A\x1F=\xFF".iter().map(|byte| [value, &[*byte]].concat()));
    all.extend((0..=255).map(|byte| vec![byte]));
    all.extend((0..=70).map(|length| vec![b'1'; length]));
    all.extend((0..=70).map(|length| vec![b'x'; length]));
    all.extend(WORDS.map(|word| word.as_bytes().to_vec()));
    all.extend(NEAR.map(|text| text.as_bytes().to_vec()));
    // The ExecID's number.
    if let Some(point) = value.iter().rposition(|&byte| byte == b'.') {
        all.extend(NEAR.map(|text| [&value[..=point], text.as_bytes()].concat()));
        all.extend(
            ["", "0", "00", "1"].map(|zeros| [&value[..point], zeros.as_bytes(), &value[point..]].concat()),
        );
    }
    all
}

const NEAR: [&str; 36] = [
    "0",
    "00",
    "1",
    "01",
    "0.0000",
    "00.0000",
    ".0000",
    "0.000",
    "0.00000",
    "0.",
    "1e4",
    "100000000.0000",
    "100000000.0001",
    "99999999.9999",
    "1000000000.0000",
    "0.00000000",
    "0.0000000",
    "0.000000000",
    "1000000.00000000",
    "1000000.00000001",
    "999999.99999999",
    "3402823669209384634633746074317.68211455",
    "3402823669209384634633746074317.68211456",
    "3402823669209384634633746074318.00000000",
    "34028236692093846346337460743176.8211455",
    "184467440737.09551615",
    "184467440737.09551616",
    "4294967295",
    "4294967296",
    "18446744073709551615",
    "18446744073709551616",
    "99999999999999999999",
    "340282366920938463463374607431768211455",
    "NONE",
    "A1.2",
    "FIX.4.2",
];
