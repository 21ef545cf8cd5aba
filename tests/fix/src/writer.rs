//! The writer, plainly from the change request (docs/FIX.md). Rests on records.

use crate::records::{Form, NAME, Record, SEQUENCE, form};

/// What the session gives.
#[derive(Debug, Clone, PartialEq, Eq)]
pub struct Header {
    pub sender: Vec<u8>,
    pub target: Vec<u8>,
    pub sequence: u64,
    pub time: Vec<u8>,
}

impl Header {
    pub fn new(sender: &[u8], target: &[u8], sequence: u64, time: &[u8]) -> Self {
        Self { sender: sender.to_vec(), target: target.to_vec(), sequence, time: time.to_vec() }
    }

    pub fn usual() -> Self {
        Self::new(b"GATEWAY", b"DESK", 42, b"20261116-12:34:56.789")
    }
}

/// The words of the fixed texts 1 to 18.
pub const WORDS: [&str; 18] = [
    "gateway is cancelling",
    "replace pending",
    "below filled",
    "blocked",
    "duplicate",
    "unknown order",
    "order is done",
    "too many requests",
    "side or symbol",
    "rejected by the venue",
    "not sent before restart",
    "Symbol",
    "OrderQty",
    "NoReferencePrice",
    "Notional",
    "PriceBand",
    "SelfTrade",
    "Credit",
];

pub type Field = (u32, Vec<u8>);

/// MsgType of a kind of message.
pub fn msg_type(kind: u8) -> &'static [u8] {
    match kind {
        16 => b"8",
        17 => b"9",
        18 => b"D",
        19 => b"F",
        20 => b"G",
        _ => unreachable!("a message"),
    }
}

/// The tag of a bit in a message of that kind, if it is carried.
fn tag(kind: u8, bit: usize) -> Option<u32> {
    Some(match bit {
        2 | 18 => 37,
        3 | 5 => 11,
        4 | 30 => 41,
        6 => 55,
        7 => 54,
        8 | 10 | 11 if kind == 19 => return None,
        8 => 40,
        9 => 38,
        10 => 44,
        11 => 59,
        12 => 150,
        13 => 39,
        14 => 32,
        16 => 14,
        17 => 6,
        19 if kind == 16 => 103,
        19 => 102,
        20 | 27 => 58,
        24 => 151,
        25 => 17,
        26 => 31,
        29 => 434,
        _ => return None,
    })
}

/// A number with so many decimals.
pub fn decimal(count: u128, decimals: u32) -> Vec<u8> {
    let unit = 10_u128.pow(decimals);
    format!("{}.{:0width$}", count / unit, count % unit, width = decimals as usize).into_bytes()
}

fn value(record: &Record, bit: usize) -> Vec<u8> {
    let number = record.number(bit);
    match bit {
        9 | 14 | 16 | 24 => decimal(number, 4),
        10 | 17 | 26 => decimal(number, 8),
        SEQUENCE => [record.text(NAME), b".", number.to_string().as_bytes()].concat(),
        27 => WORDS[number as usize - 1].as_bytes().to_vec(),
        19 | 29 => number.to_string().into_bytes(),
        _ => record.text(bit).to_vec(),
    }
}

/// All fields of the message, header and trailer included.
pub fn fields(record: &Record, header: &Header) -> Vec<Field> {
    let mut body = vec![
        (35, msg_type(record.kind).to_vec()),
        (49, header.sender.clone()),
        (56, header.target.clone()),
        (34, header.sequence.to_string().into_bytes()),
        (52, header.time.clone()),
    ];
    for bit in 0..32 {
        if record.kind == 17 && bit == NAME && !record.has(NAME) {
            body.push((37, b"NONE".to_vec()));
        }
        if let (true, Some(tag)) = (record.has(bit), tag(record.kind, bit)) {
            body.push((tag, value(record, bit)));
        }
    }
    if matches!(record.kind, 18..=20) {
        body.push((60, header.time.clone()));
    }
    let length = spell(&body).len().to_string().into_bytes();
    let mut whole = vec![(8, b"FIX.4.4".to_vec()), (9, length)];
    whole.append(&mut body);
    let sum = spell(&whole).iter().map(|&byte| u32::from(byte)).sum::<u32>() % 256;
    whole.push((10, format!("{sum:03}").into_bytes()));
    whole
}

/// The fields as bytes.
pub fn spell(fields: &[Field]) -> Vec<u8> {
    fields
        .iter()
        .flat_map(|(tag, value)| [tag.to_string().as_bytes(), b"=", value, b"\x01"].concat())
        .collect()
}

/// Whether FIX can carry the text.
fn is_clean(text: &[u8]) -> bool {
    !text.is_empty() && text.iter().all(|&byte| byte >= 32)
}

/// The fields to write, or 3, 4 or 9.
pub fn questions(record: &[u8], header: &Header) -> Result<Vec<Field>, u32> {
    let record = Record::read(record)?;
    let is_text = |bit: &usize| matches!(form(*bit), Some(Form::Text(..)));
    let texts = (0..32).filter(|bit| record.has(*bit)).filter(is_text);
    let clean = [&header.sender, &header.target, &header.time].into_iter().all(|text| is_clean(text))
        && texts.into_iter().all(|bit| is_clean(record.text(bit)));
    if clean { Ok(fields(&record, header)) } else { Err(9) }
}

/// The message, or 3, 4, 9 or 10.
pub fn write(record: &[u8], header: &Header, room: usize) -> Result<Vec<u8>, u32> {
    let message = spell(&questions(record, header)?);
    if message.len() <= room { Ok(message) } else { Err(10) }
}
