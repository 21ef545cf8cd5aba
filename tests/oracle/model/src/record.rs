//! Event and message records: a kind byte, a map of 32 bits, bit 0 the lowest, then only the
//! fields whose bit stands, in bit order, numbers little-endian.

use crate::codes;
use crate::numbers::{MAX_PRICE, MAX_QTY, Source};

pub const CLIENT: usize = 0;
pub const VENUE: usize = 1;
pub const NAME: usize = 2;
pub const CL_ORD_ID: usize = 3;
pub const ORIG_CL_ORD_ID: usize = 4;
pub const DOWNSTREAM: usize = 5;
pub const SYMBOL: usize = 6;
pub const SIDE: usize = 7;
pub const ORD_TYPE: usize = 8;
pub const QTY: usize = 9;
pub const PRICE: usize = 10;
pub const TIME_IN_FORCE: usize = 11;
pub const EXEC_TYPE: usize = 12;
pub const ORD_STATUS: usize = 13;
pub const LAST_QTY: usize = 14;
pub const LAST_PX: usize = 15;
pub const CUM_QTY: usize = 16;
pub const AVG_PX: usize = 17;
pub const VENUE_ORDER_ID: usize = 18;
pub const REASON: usize = 19;
pub const TEXT: usize = 20;
pub const REDELIVERED: usize = 21;
pub const BLOCKED: usize = 22;
pub const VERDICT: usize = 23;
pub const LEAVES_QTY: usize = 24;
pub const REPORT_SEQUENCE: usize = 25;
pub const FILL_PRICE: usize = 26;
pub const FIXED_TEXT: usize = 27;
pub const ORIGIN: usize = 28;
pub const RESPONSE_TO: usize = 29;
pub const ORIG_DOWNSTREAM: usize = 30;
pub const PRICE_SOURCE: usize = 31;
pub const BITS: usize = 32;

/// Kinds of event.
pub const BOOK: u8 = 1;
pub const CANCEL: u8 = 2;
pub const REPLACE: u8 = 3;
pub const VENUE_REPORT: u8 = 4;
pub const UNKNOWN_AT_VENUE: u8 = 5;
pub const CANCEL_REJECT: u8 = 6;
pub const SEND_FAILED: u8 = 7;
pub const SEND_AGAIN: u8 = 8;
pub const GATEWAY_CANCEL: u8 = 9;

/// Kinds of message.
pub const REPORT_MESSAGE: u8 = 16;
pub const REJECT_MESSAGE: u8 = 17;
pub const NEW_ORDER_MESSAGE: u8 = 18;
pub const CANCEL_MESSAGE: u8 = 19;
pub const REPLACE_MESSAGE: u8 = 20;

const HEAD: usize = 5;

/// How a field stands in a record.
#[derive(Debug, Clone, Copy, PartialEq, Eq)]
pub enum Shape {
    /// A number of that many bytes.
    Number(usize),
    /// A length byte and that many bytes of text, from the least to the most.
    Text(usize, usize),
    /// Its bit alone.
    Mark,
}

pub fn shape(bit: usize) -> Shape {
    match bit {
        CLIENT | VENUE => Shape::Number(2),
        NAME => Shape::Text(1, 20),
        CL_ORD_ID | ORIG_CL_ORD_ID | DOWNSTREAM | ORIG_DOWNSTREAM => Shape::Text(1, 32),
        SYMBOL => Shape::Text(1, 16),
        VENUE_ORDER_ID => Shape::Text(0, 32),
        TEXT => Shape::Text(1, 64),
        SIDE | ORD_TYPE | TIME_IN_FORCE | EXEC_TYPE | ORD_STATUS | VERDICT => Shape::Number(1),
        FIXED_TEXT | ORIGIN | RESPONSE_TO | PRICE_SOURCE => Shape::Number(1),
        REASON => Shape::Number(4),
        REDELIVERED | BLOCKED => Shape::Mark,
        FILL_PRICE => Shape::Number(16),
        _ => Shape::Number(8),
    }
}

const fn bits(list: &[usize]) -> u32 {
    let (mut map, mut at) = (0, 0);
    while at < list.len() {
        map |= 1 << list[at];
        at += 1;
    }
    map
}

/// The bits that an event of a kind must have, and those that it may have.
pub fn event_bits(kind: u8) -> Option<(u32, u32)> {
    let told = bits(&[ORD_STATUS, VENUE_ORDER_ID, REASON, TEXT]);
    Some(match kind {
        BOOK => (
            bits(&[CLIENT, VENUE, NAME, CL_ORD_ID, SYMBOL, SIDE, ORD_TYPE, QTY]),
            bits(&[PRICE, TIME_IN_FORCE]),
        ),
        CANCEL => (bits(&[CLIENT, CL_ORD_ID, ORIG_CL_ORD_ID, SYMBOL, SIDE]), bits(&[REDELIVERED])),
        REPLACE => (
            bits(&[CLIENT, CL_ORD_ID, ORIG_CL_ORD_ID, SYMBOL, SIDE, QTY, VERDICT]),
            bits(&[ORD_TYPE, PRICE, TIME_IN_FORCE, REDELIVERED, BLOCKED]),
        ),
        VENUE_REPORT => (bits(&[VENUE, DOWNSTREAM, EXEC_TYPE, LAST_QTY, LAST_PX, CUM_QTY, AVG_PX]), told),
        UNKNOWN_AT_VENUE => (bits(&[VENUE, DOWNSTREAM]), 0),
        CANCEL_REJECT => (bits(&[VENUE, DOWNSTREAM]), told),
        SEND_FAILED => (bits(&[VENUE, DOWNSTREAM, TEXT]), 0),
        SEND_AGAIN => (bits(&[VENUE, DOWNSTREAM]), 0),
        GATEWAY_CANCEL => (bits(&[NAME]), 0),
        _ => return None,
    })
}

/// A record that reads whole; its fields may still be out of range.
#[derive(Debug, Clone)]
pub struct Record<'a> {
    pub kind: u8,
    pub map: u32,
    numbers: [u128; BITS],
    texts: [&'a [u8]; BITS],
}

impl<'a> Record<'a> {
    /// The event in `bytes`: its kind's bits, all its fields and no byte over.
    pub fn read_event(bytes: &'a [u8]) -> Option<Self> {
        let (record, rest) = Self::read(bytes)?;
        let (required, allowed) = event_bits(record.kind)?;
        let fits = record.map & required == required && record.map & !(required | allowed) == 0;
        (fits && rest.is_empty()).then_some(record)
    }

    /// The record at the start of `bytes`, and what follows it. A report has a price source, and
    /// no other record has one.
    pub fn read(bytes: &'a [u8]) -> Option<(Self, &'a [u8])> {
        let (head, mut rest) = bytes.split_at_checked(HEAD)?;
        let map = u32::from_le_bytes(head[1..].try_into().expect("four bytes"));
        let mut record = Self { kind: head[0], map, numbers: [0; BITS], texts: [&[]; BITS] };
        if record.has(PRICE_SOURCE) != (record.kind == REPORT_MESSAGE) {
            return None;
        }
        for bit in (0..BITS).filter(|bit| map >> bit & 1 == 1) {
            rest = record.take(bit, rest)?;
        }
        Some((record, rest))
    }

    fn take(&mut self, bit: usize, bytes: &'a [u8]) -> Option<&'a [u8]> {
        match shape(bit) {
            Shape::Number(size) => {
                let (number, rest) = bytes.split_at_checked(size)?;
                self.numbers[bit] = number.iter().rev().fold(0, |n, &byte| n << 8 | u128::from(byte));
                Some(rest)
            }
            Shape::Text(..) => {
                let (length, rest) = bytes.split_first()?;
                let (text, rest) = rest.split_at_checked(usize::from(*length))?;
                self.texts[bit] = text;
                Some(rest)
            }
            Shape::Mark => Some(bytes),
        }
    }

    pub fn has(&self, bit: usize) -> bool {
        self.map >> bit & 1 == 1
    }

    /// The number at `bit`, 0 if it is absent.
    pub fn wide(&self, bit: usize) -> u128 {
        self.numbers[bit]
    }

    pub fn number(&self, bit: usize) -> u64 {
        self.numbers[bit] as u64
    }

    pub fn code(&self, bit: usize) -> u8 {
        self.numbers[bit] as u8
    }

    /// The text at `bit`, empty if it is absent.
    pub fn text(&self, bit: usize) -> &'a [u8] {
        self.texts[bit]
    }

    pub fn maybe<T>(&self, bit: usize, value: impl FnOnce(&Self) -> T) -> Option<T> {
        self.has(bit).then(|| value(self))
    }

    /// Whether each field, text lengths included, is in its range and each code listed.
    pub fn in_range(&self) -> bool {
        (0..BITS).filter(|&bit| self.has(bit)).all(|bit| self.field_in_range(bit))
    }

    fn field_in_range(&self, bit: usize) -> bool {
        if let Shape::Text(least, most) = shape(bit) {
            let text = self.texts[bit];
            return (least..=most).contains(&text.len()) && (bit != NAME || is_order_name(text));
        }
        match bit {
            SIDE => codes::SIDES.contains(&self.code(bit)),
            ORD_TYPE => codes::ORD_TYPES.contains(&self.code(bit)),
            TIME_IN_FORCE => codes::TIMES_IN_FORCE.contains(&self.code(bit)),
            EXEC_TYPE => codes::EXEC_TYPES.contains(&self.code(bit)),
            ORD_STATUS => codes::STATUSES.contains(&self.code(bit)),
            QTY | LAST_QTY | CUM_QTY => self.number(bit) <= MAX_QTY,
            PRICE | LAST_PX | AVG_PX => self.number(bit) <= MAX_PRICE,
            VERDICT => self.code(bit) <= 7,
            PRICE_SOURCE => self.code(bit) <= Source::Average as u8,
            _ => true,
        }
    }
}

/// Letters and digits, and not the placeholder NONE.
pub fn is_order_name(text: &[u8]) -> bool {
    text.iter().all(u8::is_ascii_alphanumeric) && text != b"NONE"
}

/// A record in the making: fields set in any order, written in bit order.
#[derive(Debug, Clone, PartialEq, Eq)]
pub struct Draft {
    kind: u8,
    fields: [Option<Field>; BITS],
}

#[derive(Debug, Clone, PartialEq, Eq)]
enum Field {
    Number(u128),
    Text(Vec<u8>),
    Mark,
}

impl Draft {
    pub fn new(kind: u8) -> Self {
        Self { kind, fields: [const { None }; BITS] }
    }

    /// The record that was read, to be altered.
    pub fn of(record: &Record<'_>) -> Self {
        let stands = (0..BITS).filter(|&bit| record.has(bit));
        stands.fold(Self::new(record.kind), |draft, bit| match shape(bit) {
            Shape::Number(_) => draft.number(bit, record.wide(bit)),
            Shape::Text(..) => draft.text(bit, record.text(bit)),
            Shape::Mark => draft.mark(bit),
        })
    }

    pub fn number(mut self, bit: usize, number: impl Into<u128>) -> Self {
        self.fields[bit] = Some(Field::Number(number.into()));
        self
    }

    pub fn text(mut self, bit: usize, text: impl AsRef<[u8]>) -> Self {
        self.fields[bit] = Some(Field::Text(text.as_ref().to_vec()));
        self
    }

    pub fn mark(mut self, bit: usize) -> Self {
        self.fields[bit] = Some(Field::Mark);
        self
    }

    pub fn maybe<T>(self, value: Option<T>, set: impl FnOnce(Self, T) -> Self) -> Self {
        match value {
            Some(value) => set(self, value),
            None => self,
        }
    }

    pub fn has(&self, bit: usize) -> bool {
        self.fields[bit].is_some()
    }

    pub fn of_kind(mut self, kind: u8) -> Self {
        self.kind = kind;
        self
    }

    pub fn without(mut self, bit: usize) -> Self {
        self.fields[bit] = None;
        self
    }

    pub fn bytes(&self) -> Vec<u8> {
        let map = (0..BITS).filter(|&bit| self.has(bit)).fold(0_u32, |map, bit| map | 1 << bit);
        let mut bytes = vec![self.kind];
        bytes.extend(map.to_le_bytes());
        for (bit, field) in self.fields.iter().enumerate() {
            match field {
                Some(Field::Number(number)) => {
                    let Shape::Number(size) = shape(bit) else { panic!("bit {bit} is no number") };
                    bytes.extend(&number.to_le_bytes()[..size]);
                }
                Some(Field::Text(text)) => {
                    bytes.push(text.len() as u8);
                    bytes.extend(text);
                }
                Some(Field::Mark) | None => {}
            }
        }
        bytes
    }
}

#[cfg(test)]
mod tests {
    use super::*;

    fn cancel() -> Draft {
        Draft::new(CANCEL)
            .number(CLIENT, 0x0102_u16)
            .text(CL_ORD_ID, "c2")
            .text(ORIG_CL_ORD_ID, "c1")
            .text(SYMBOL, "XYZ")
            .number(SIDE, b'1')
    }

    #[test]
    fn a_record_reads_as_it_was_written() {
        let bytes = cancel().mark(REDELIVERED).bytes();
        assert_eq!(bytes, b"\x02\xd9\x00\x20\x00\x02\x01\x02c2\x02c1\x03XYZ1");
        let record = Record::read_event(&bytes).expect("whole");
        assert_eq!((record.number(CLIENT), record.text(CL_ORD_ID)), (0x0102, &b"c2"[..]));
        assert!(record.has(REDELIVERED) && record.in_range());
        assert_eq!(Draft::of(&record), cancel().mark(REDELIVERED));
    }

    #[test]
    fn every_cut_and_a_byte_over_do_not_read() {
        let mut bytes = cancel().bytes();
        for end in 0..bytes.len() {
            assert!(Record::read_event(&bytes[..end]).is_none(), "cut at {end}");
        }
        bytes.push(0);
        assert!(Record::read_event(&bytes).is_none());
    }

    #[test]
    fn wrong_bits_do_not_read() {
        assert!(Record::read_event(&cancel().without(SIDE).bytes()).is_none());
        assert!(Record::read_event(&cancel().number(QTY, 1_u8).bytes()).is_none());
        let mut bytes = cancel().bytes();
        bytes[4] |= 0x80;
        assert!(Record::read_event(&bytes).is_none());
        bytes[4] &= 0x7f;
        bytes[0] = 10;
        assert!(Record::read_event(&bytes).is_none());
    }

    #[test]
    fn a_price_source_stands_in_every_report_and_in_no_other_record() {
        let sourced = |kind: u8| Draft::new(kind).number(PRICE_SOURCE, 3_u8).bytes();
        for kind in 0..=255 {
            let (with, without) = (sourced(kind), Draft::new(kind).bytes());
            assert_eq!(Record::read(&with).is_some(), kind == REPORT_MESSAGE, "kind {kind}");
            assert_eq!(Record::read(&without).is_some(), kind != REPORT_MESSAGE, "kind {kind}");
        }
        assert!(Record::read_event(&cancel().number(PRICE_SOURCE, 0_u8).bytes()).is_none());
        for source in 0..=255_u8 {
            let report = Draft::new(REPORT_MESSAGE).number(PRICE_SOURCE, source).bytes();
            let (report, rest) = Record::read(&report).expect("whole");
            assert_eq!((report.code(PRICE_SOURCE), rest.len()), (source, 0));
            assert_eq!(report.in_range(), source <= 3, "source {source}");
        }
    }

    #[test]
    fn a_length_out_of_range_reads_but_is_refused() {
        for (text, good) in [(0, false), (1, true), (32, true), (33, false), (255, false)] {
            let bytes = cancel().text(CL_ORD_ID, vec![0xff; text]).bytes();
            assert_eq!(Record::read_event(&bytes).expect("whole").in_range(), good, "{text} bytes");
        }
    }

    #[test]
    fn order_names_are_letters_and_digits() {
        for (name, good) in [("a", true), ("Z9", true), ("NONE", false), ("none", true), ("a-1", false)] {
            let bytes = Draft::new(GATEWAY_CANCEL).text(NAME, name).bytes();
            assert_eq!(Record::read_event(&bytes).expect("whole").in_range(), good, "{name}");
        }
    }
}
