//! Records: a kind, a map of 32 bits and the fields whose bit stands, in bit order (docs/SCOPE.md, Records). Rests on decimal
//! and error.

use crate::decimal::{Price, Qty};
use crate::error::Fault;

/// A field, by its bit in the map.
#[derive(Clone, Copy)]
pub(crate) struct Bit(u32);

macro_rules! fields {
    ($($name:ident = $bit:literal,)*) => {
        impl Bit {
            $(pub(crate) const $name: Self = Self($bit);)*

            /// All fields, for the test of include/gateway.h.
            #[cfg(test)]
            const ALL: &[(&str, u32)] = &[$((stringify!($name), $bit)),*];
        }
    };
}

fields! {
    CLIENT = 0,
    VENUE = 1,
    NAME = 2,
    CL_ORD_ID = 3,
    ORIG_CL_ORD_ID = 4,
    DOWNSTREAM = 5,
    SYMBOL = 6,
    SIDE = 7,
    ORD_TYPE = 8,
    QTY = 9,
    PRICE = 10,
    TIME_IN_FORCE = 11,
    EXEC_TYPE = 12,
    ORD_STATUS = 13,
    LAST_QTY = 14,
    LAST_PX = 15,
    CUM_QTY = 16,
    AVG_PX = 17,
    VENUE_ORDER_ID = 18,
    REASON = 19,
    TEXT = 20,
    REDELIVERED = 21,
    BLOCKED = 22,
    VERDICT = 23,
    LEAVES_QTY = 24,
    EXEC_SEQ = 25,
    FILL_PRICE = 26,
    FIXED_TEXT = 27,
    ORIGIN = 28,
    RESPONSE_TO = 29,
    ORIG_DOWNSTREAM = 30,
    PRICE_SOURCE = 31,
}

impl Bit {
    /// Its place in the map, from 0.
    pub(crate) fn place(self) -> usize {
        usize::try_from(self.0).unwrap_or(usize::MAX)
    }

    const fn mask(self) -> u32 {
        match 1u32.checked_shl(self.0) {
            Some(mask) => mask,
            None => 0,
        }
    }
}

/// A record in the making, in place of what a buffer held; the fields must come in bit order.
pub(crate) struct Writer<'a> {
    bytes: &'a mut Vec<u8>,
    map: u32,
}

impl<'a> Writer<'a> {
    pub(crate) fn new(bytes: &'a mut Vec<u8>, kind: u8) -> Self {
        bytes.clear();
        bytes.extend_from_slice(&[kind, 0, 0, 0, 0]);
        Self { bytes, map: 0 }
    }

    /// A field of these bytes.
    pub(crate) fn put(&mut self, bit: Bit, bytes: &[u8]) {
        self.mark(bit, true);
        self.bytes.extend_from_slice(bytes);
    }

    /// A field of one byte, if there is one.
    pub(crate) fn put_if(&mut self, bit: Bit, byte: Option<u8>) {
        if let Some(byte) = byte {
            self.put(bit, &[byte]);
        }
    }

    /// A text. A byte says its length: a longer one is cut there, and the book refuses it by its length.
    pub(crate) fn text(&mut self, bit: Bit, text: &[u8]) {
        let length = u8::try_from(text.len()).unwrap_or(u8::MAX);
        self.put(bit, &[length]);
        self.bytes.extend(text.iter().take(usize::from(length)));
    }

    pub(crate) fn text_if(&mut self, bit: Bit, text: Option<&[u8]>) {
        if let Some(text) = text {
            self.text(bit, text);
        }
    }

    pub(crate) fn qty(&mut self, bit: Bit, qty: Qty) {
        self.put(bit, &qty.0.to_le_bytes());
    }

    /// A price. One that 64 bits do not hold is written as the largest, which the book refuses.
    pub(crate) fn price(&mut self, bit: Bit, price: Price) {
        self.put(bit, &u64::try_from(price.0).unwrap_or(u64::MAX).to_le_bytes());
    }

    pub(crate) fn price_if(&mut self, bit: Bit, price: Option<Price>) {
        if let Some(price) = price {
            self.price(bit, price);
        }
    }

    /// A field without bytes, or the bit of one whose bytes follow.
    pub(crate) fn mark(&mut self, bit: Bit, stands: bool) {
        if stands {
            self.map |= bit.mask();
        }
        if let Some([_, map @ ..]) = self.bytes.first_chunk_mut::<5>() {
            *map = self.map.to_le_bytes();
        }
    }
}

/// A record being read: the fields must be asked for in bit order, each once.
pub(crate) struct Reader<'a> {
    kind: u8,
    /// The bits that have not been asked for.
    map: u32,
    rest: &'a [u8],
}

impl<'a> Reader<'a> {
    /// The record at the front of some bytes.
    pub(crate) fn new(bytes: &'a [u8]) -> Result<Self, Fault> {
        let [kind, a, b, c, d, rest @ ..] = bytes else { return Err(Fault::Cut) };
        Ok(Self { kind: *kind, map: u32::from_le_bytes([*a, *b, *c, *d]), rest })
    }

    pub(crate) fn kind(&self) -> u8 {
        self.kind
    }

    /// A field that the record may have.
    pub(crate) fn maybe<T: Field>(&mut self, bit: Bit) -> Result<Option<T>, Fault> {
        if self.map & bit.mask() == 0 {
            return Ok(None);
        }
        self.map &= !bit.mask();
        T::read(self, bit).map(Some)
    }

    /// A field that the record must have.
    pub(crate) fn field<T: Field>(&mut self, bit: Bit) -> Result<T, Fault> {
        self.maybe(bit)?.ok_or(self.missing(bit))
    }

    pub(crate) fn missing(&self, bit: Bit) -> Fault {
        Fault::Missing { kind: self.kind, bit: bit.0 }
    }

    pub(crate) fn unexpected(&self, bit: Bit) -> Fault {
        Fault::Unexpected { kind: self.kind, map: bit.mask() }
    }

    /// What stands behind the record, of which every field was asked for.
    pub(crate) fn end(self) -> Result<&'a [u8], Fault> {
        match self.map {
            0 => Ok(self.rest),
            map => Err(Fault::Unexpected { kind: self.kind, map }),
        }
    }

    fn array<const N: usize>(&mut self) -> Result<[u8; N], Fault> {
        let (taken, rest) = self.rest.split_first_chunk().ok_or(Fault::Cut)?;
        self.rest = rest;
        Ok(*taken)
    }

    /// A field of one byte that a list decides.
    pub(crate) fn listed<T>(&mut self, bit: Bit, from: fn(u8) -> Option<T>) -> Result<T, Fault> {
        let [code] = self.array()?;
        from(code).ok_or(Fault::Code { bit: bit.0, code })
    }
}

/// What a field may hold.
pub(crate) trait Field: Sized {
    /// The bytes of the field with that bit.
    fn read(r: &mut Reader<'_>, bit: Bit) -> Result<Self, Fault>;
}

macro_rules! numbers {
    ($($number:ident),*) => {
        $(impl Field for $number {
            fn read(r: &mut Reader<'_>, _: Bit) -> Result<Self, Fault> {
                r.array().map(Self::from_le_bytes)
            }
        })*
    };
}

numbers!(u16, u32, u64, u128);

/// A text: its length, then as many bytes.
impl Field for Vec<u8> {
    fn read(r: &mut Reader<'_>, _: Bit) -> Result<Self, Fault> {
        let [length] = r.array()?;
        let (text, rest) = r.rest.split_at_checked(usize::from(length)).ok_or(Fault::Cut)?;
        r.rest = rest;
        Ok(text.to_vec())
    }
}

impl Field for Qty {
    fn read(r: &mut Reader<'_>, bit: Bit) -> Result<Self, Fault> {
        u64::read(r, bit).map(Self)
    }
}

/// A price of 64 bits; a fill price has 128 and is read as a number.
impl Field for Price {
    fn read(r: &mut Reader<'_>, bit: Bit) -> Result<Self, Fault> {
        u64::read(r, bit).map(|count| Self(count.into()))
    }
}

#[cfg(test)]
mod tests {
    use super::*;

    /// The header's names that are not said to be of an event, a message, an alarm, an outcome or a refusal, with their numbers.
    #[test]
    fn the_header_has_the_same_fields() {
        let header = include_str!("../include/gateway.h");
        let stated =
            header.lines().filter_map(|line| line.trim().strip_prefix("JUBAFIYE_")?.split_once(" = "));
        let others = ["EVENT_", "MESSAGE_", "ALARM_", "OUTCOME_", "REFUSED_", "TAKEN"];
        let fields = stated.filter(|(name, _)| !others.iter().any(|other| name.starts_with(other)));
        let number = |text: &str| text.split([',', ' ']).next().and_then(|digits| digits.parse::<u32>().ok());
        let fields: Vec<_> = fields.map(|(name, rest)| (name, number(rest).unwrap())).collect();
        assert_eq!(fields, Bit::ALL);
    }

    #[test]
    fn a_text_or_price_that_is_too_long_is_still_too_long() {
        let mut bytes = Vec::new();
        Writer::new(&mut bytes, 9).text(Bit::NAME, &[b'x'; 300]);
        assert_eq!((bytes.len(), bytes[5]), (5 + 1 + 255, 255));
        Writer::new(&mut bytes, 1).price(Bit::PRICE, Price(u128::MAX));
        assert_eq!(bytes[5..], [0xff; 8]);
    }

    #[test]
    fn what_is_written_is_read() {
        let mut bytes = Vec::new();
        let mut w = Writer::new(&mut bytes, 16);
        w.put(Bit::CLIENT, &7u16.to_le_bytes());
        w.text(Bit::NAME, b"G1");
        w.qty(Bit::QTY, Qty(9));
        w.price(Bit::PRICE, Price(10));
        let mut r = Reader::new(&bytes).unwrap();
        assert_eq!((r.kind(), r.field(Bit::CLIENT), r.maybe::<u16>(Bit::VENUE)), (16, Ok(7u16), Ok(None)));
        assert_eq!((r.field(Bit::NAME), r.field(Bit::QTY)), (Ok(b"G1".to_vec()), Ok(Qty(9))));
        assert_eq!(r.field(Bit::PRICE), Ok(Price(10)));
        assert_eq!(r.field::<u64>(Bit::EXEC_SEQ), Err(Fault::Missing { kind: 16, bit: 25 }));
        assert_eq!(r.end(), Ok(&[][..]));
    }

    #[test]
    fn a_field_that_no_one_asked_for_is_no_end() {
        let r = Reader::new(&[18, 0, 0, 0, 0x80, 1]).unwrap();
        assert_eq!(r.end(), Err(Fault::Unexpected { kind: 18, map: 1 << 31 }));
    }
}
