//! The reader, plainly, as a grammar: for each MsgType the fields in their order and what each may
//! hold. It shares nothing with the writer but the words. Rests on records and writer.

use crate::records::is_name;
use crate::writer::WORDS;

/// A field: its tag, where its value stands, and how long it is.
#[derive(Debug, Clone, Copy, PartialEq, Eq)]
pub struct Found {
    pub tag: u32,
    pub at: usize,
    pub length: usize,
}

/// What a value may be.
#[derive(Clone, Copy)]
enum Value {
    Text(usize),
    Name,
    NameOrNone,
    Code(&'static str),
    /// A number with so many decimals, up to so many of the smallest unit.
    Decimal(usize, u128),
    Reason,
    Word,
    ExecId,
    Time,
}
use Value::{Code, Decimal, ExecId, Name, NameOrNone, Reason, Text, Time, Word};

const QTY: Value = Decimal(4, 1_000_000_000_000);
const PRICE: Value = Decimal(8, 100_000_000_000_000);
const SIDE: Value = Code("125");
const TYPE: Value = Code("12");
const TIF: Value = Code("0134");
const STATUS: Value = Code("A0126E4C83");

/// A tag, whether it must stand, and its value.
type Row = (u32, bool, Value);

const REPORT: &[Row] = &[
    (37, true, Name),
    (11, true, Text(32)),
    (41, false, Text(32)),
    (55, true, Text(16)),
    (54, true, SIDE),
    (40, true, TYPE),
    (38, true, QTY),
    (44, false, PRICE),
    (59, false, TIF),
    (150, true, Code("A0F64E58CD3I")),
    (39, true, STATUS),
    (32, true, QTY),
    (14, true, QTY),
    (6, true, PRICE),
    (103, false, Reason),
    (58, false, Text(64)),
    (151, true, QTY),
    (17, true, ExecId),
    (31, true, Decimal(8, u128::MAX)),
    (58, false, Word),
];
const REJECT: &[Row] = &[
    (37, true, NameOrNone),
    (11, true, Text(32)),
    (41, true, Text(32)),
    (39, true, STATUS),
    (102, true, Reason),
    (58, true, Text(64)),
    (434, true, Code("12")),
];
const NEW: &[Row] = &[
    (11, true, Text(32)),
    (55, true, Text(16)),
    (54, true, SIDE),
    (40, true, TYPE),
    (38, true, QTY),
    (44, false, PRICE),
    (59, false, TIF),
    (60, true, Time),
];
const CANCEL: &[Row] = &[
    (11, true, Text(32)),
    (55, true, Text(16)),
    (54, true, SIDE),
    (38, true, QTY),
    (37, false, Text(32)),
    (41, true, Text(32)),
    (60, true, Time),
];
const REPLACE: &[Row] = &[
    (11, true, Text(32)),
    (55, true, Text(16)),
    (54, true, SIDE),
    (40, true, TYPE),
    (38, true, QTY),
    (44, false, PRICE),
    (59, false, TIF),
    (37, false, Text(32)),
    (41, true, Text(32)),
    (60, true, Time),
];

/// The fields of a message, or nothing if no record is written so.
pub fn read(message: &[u8]) -> Option<Vec<Found>> {
    let mut reader = Reader { message, at: 0, found: Vec::new() };
    (reader.field(8)? == b"FIX.4.4").then_some(())?;
    let length = number(reader.field(9)?, u64::MAX.into())?;
    let start = reader.at;
    let rows = match reader.field(35)? {
        b"8" => REPORT,
        b"9" => REJECT,
        b"D" => NEW,
        b"F" => CANCEL,
        b"G" => REPLACE,
        _ => return None,
    };
    for tag in [49, 56] {
        is_text(reader.field(tag)?, usize::MAX).then_some(())?;
    }
    number(reader.field(34)?, u64::MAX.into())?;
    let time = reader.field(52)?;
    is_text(time, usize::MAX).then_some(())?;
    let mut name: &[u8] = b"";
    for &(tag, must, form) in rows {
        if !must && !reader.is_next(tag) {
            continue;
        }
        let value = reader.field(tag)?;
        is_value(value, form, name, time).then_some(())?;
        if tag == 37 {
            name = value;
        }
    }
    let texts = reader.found.iter().filter(|found| found.tag == 58).count();
    let end = reader.at;
    let sum = message[..end].iter().fold(0_u8, |sum, &byte| sum.wrapping_add(byte));
    let right = reader.field(10)? == format!("{sum:03}").as_bytes()
        && length == (end - start) as u128
        && texts <= 1
        && reader.at == message.len();
    right.then_some(reader.found)
}

struct Reader<'a> {
    message: &'a [u8],
    at: usize,
    found: Vec<Found>,
}

impl<'a> Reader<'a> {
    fn is_next(&self, tag: u32) -> bool {
        self.behind(tag).is_some()
    }

    /// What stands behind the tag, if it is the next.
    fn behind(&self, tag: u32) -> Option<&'a [u8]> {
        let digits = [100, 10, 1].map(|unit| b'0' + (tag / unit % 10) as u8);
        let digits = &digits[digits.iter().position(|&digit| digit != b'0')?..];
        self.message[self.at..].strip_prefix(digits)?.strip_prefix(b"=")
    }

    /// The value of the next field, which has that tag.
    fn field(&mut self, tag: u32) -> Option<&'a [u8]> {
        let behind = self.behind(tag)?;
        let at = self.message.len() - behind.len();
        let length = behind.iter().position(|&byte| byte == 1)?;
        self.found.push(Found { tag, at, length });
        self.at = at + length + 1;
        Some(&self.message[at..at + length])
    }
}

fn is_text(value: &[u8], most: usize) -> bool {
    (1..=most).contains(&value.len()) && value.iter().all(|&byte| byte >= 32)
}

/// A number in its shortest digits, up to a largest one.
fn number(value: &[u8], largest: u128) -> Option<u128> {
    let digits = std::str::from_utf8(value).ok()?;
    let shortest = digits == "0" || !digits.starts_with('0');
    (digits.bytes().all(|byte| byte.is_ascii_digit()) && shortest).then_some(())?;
    digits.parse().ok().filter(|number| *number <= largest)
}

fn is_decimal(value: &[u8], decimals: usize, largest: u128) -> bool {
    let Some(point) = value.iter().position(|&byte| byte == b'.') else { return false };
    let (whole, part) = (&value[..point], &value[point + 1..]);
    let right_part = part.len() == decimals && part.iter().all(u8::is_ascii_digit);
    let digits = String::from_utf8([whole, part].concat());
    let count = digits.ok().and_then(|digits| digits.parse::<u128>().ok());
    right_part && number(whole, u128::MAX).is_some() && count.is_some_and(|count| count <= largest)
}

fn is_exec_id(value: &[u8], name: &[u8]) -> bool {
    let sequence = value.strip_prefix(name).and_then(|rest| rest.strip_prefix(b"."));
    sequence.and_then(|digits| number(digits, u64::MAX.into())).is_some()
}

fn is_value(value: &[u8], form: Value, name: &[u8], time: &[u8]) -> bool {
    match form {
        Text(most) => is_text(value, most),
        Name => is_name(value),
        NameOrNone => is_name(value) || value == b"NONE",
        Code(list) => value.len() == 1 && list.as_bytes().contains(&value[0]),
        Decimal(decimals, largest) => is_decimal(value, decimals, largest),
        Reason => number(value, u32::MAX.into()).is_some(),
        Word => WORDS.iter().any(|word| word.as_bytes() == value),
        ExecId => is_exec_id(value, name),
        Time => value == time,
    }
}
