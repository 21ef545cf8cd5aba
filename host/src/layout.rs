//! The book's bytes (docs/LAYOUT.md): where each field stands, under its name there. The numbers stand here and nowhere else in the
//! crate; `tests/layout.rs` and `tests/explain.rs` compare them with the library. Rests on nothing.

/// The version of the book's layout (docs/LAYOUT.md, Version). A book's bytes do not say theirs: a store keeps this number beside them.
///
/// ```
/// use jubafiye::{explain, BOOK_BYTES, LAYOUT_VERSION};
///
/// // a store keeps the version beside the bytes, and reads them as a book only if it is its own
/// let (version, bytes) = (LAYOUT_VERSION, [0; BOOK_BYTES]);
/// assert!(version == LAYOUT_VERSION && explain(&bytes).is_empty());
/// ```
pub const LAYOUT_VERSION: u32 = 1;

/// The bytes of a book.
///
/// ```
/// use jubafiye::{explain, Rule, BOOK_BYTES};
///
/// let stored = [0; BOOK_BYTES];
/// assert_eq!(explain(&stored), []);
/// assert_eq!(explain(&stored[1..])[0].rule, Rule::Length);
/// ```
pub const BOOK_BYTES: usize = 65_536;

/// The most orders of a book.
pub(crate) const ORDERS: usize = 64;

/// The most requests of a book.
pub(crate) const REQUESTS: usize = 256;

/// A book's bytes: the type holds their number.
pub(crate) type BookBytes = [u8; BOOK_BYTES];

const ORDERS_AT: usize = 256;
const ORDER_BYTES: usize = 256;
const REQUESTS_AT: usize = 16_640;
const REQUEST_BYTES: usize = 128;
const OPENS_AT: usize = 49_408;
const OPEN_BYTES: usize = 8;

/// The bytes of a text; its length byte follows.
pub(crate) const TEXT_BYTES: usize = 32;

/// How a field is shown to a person.
#[derive(Clone, Copy, PartialEq, Eq)]
pub(crate) enum Shape {
    Number,
    Text,
    Qty,
    Price,
    Side,
    OrdType,
    TimeInForce,
    Status,
    Stage,
    Kind,
    Outcome,
    /// 0 for none, else one more than a request's index.
    Link,
}

/// A field of a record: where it stands, how many bytes it has, and its name in docs/LAYOUT.md.
#[derive(Clone, Copy)]
pub(crate) struct Spot {
    pub(crate) at: usize,
    pub(crate) bytes: usize,
    pub(crate) name: &'static str,
    pub(crate) shape: Shape,
}

macro_rules! spots {
    ($($spot:ident = $at:literal $bytes:literal $name:literal $shape:ident;)*) => {
        $(pub(crate) const $spot: Spot = Spot { at: $at, bytes: $bytes, name: $name, shape: Shape::$shape };)*

        /// All fields, in their order.
        pub(crate) const ALL: &[Spot] = &[$($spot),*];
    };
}

/// The header.
pub(crate) mod header {
    use super::{Shape, Spot};

    spots! {
        ORDERS = 0 2 "orders in use" Number;
        REQUESTS = 2 2 "requests in use" Number;
        SETTING = 4 4 "setting" Number;
    }
}

/// An order record.
pub(crate) mod order {
    use super::{Shape, Spot};

    spots! {
        CLIENT = 0 2 "client" Number;
        VENUE = 2 2 "venue" Number;
        NAME = 4 33 "names.name" Text;
        CL_ORD_ID = 37 33 "names.clordid" Text;
        DOWNSTREAM = 70 33 "names.downstream" Text;
        SYMBOL = 103 33 "names.symbol" Text;
        VENUE_ORDER_ID = 136 33 "names.venueorderid" Text;
        SIDE = 169 1 "terms.side" Side;
        ORD_TYPE = 170 1 "terms.ordtype" OrdType;
        TIME_IN_FORCE = 171 1 "terms.timeinforce" TimeInForce;
        QTY = 172 8 "terms.qty" Qty;
        PRICE = 180 8 "terms.price" Price;
        STATUS = 188 1 "state.status" Status;
        CUM_QTY = 189 8 "state.cumqty" Qty;
        AVG_PX = 197 8 "state.avgpx" Price;
        EXEC_SEQ = 205 8 "state.execseq" Number;
        AMENDMENTS = 213 2 "links.amendments" Number;
        CURRENT = 215 2 "links.current" Link;
        CANCEL = 217 2 "links.cancel" Link;
        PENDING = 219 2 "pending.request" Link;
        PENDING_QTY = 221 8 "pending.qty" Qty;
        PENDING_PRICE = 229 8 "pending.price" Price;
        PENDING_ORD_TYPE = 237 1 "pending.ordtype" OrdType;
        PENDING_TIME_IN_FORCE = 238 1 "pending.timeinforce" TimeInForce;
        STAGE = 239 1 "gateway.stage" Stage;
        TRIES = 240 1 "gateway.tries" Number;
        ORIG_DOWNSTREAM = 241 2 "gateway.origdownstream" Link;
        REFUSED_SENDS = 243 4 "gateway.refusedsends" Number;
    }
}

/// A request record.
pub(crate) mod request {
    use super::{Shape, Spot};

    spots! {
        ORDER = 0 2 "order" Number;
        KIND = 2 1 "kind" Kind;
        ANSWERED = 3 1 "answered" Number;
        CL_ORD_ID = 4 33 "clordid" Text;
        ORIG_CL_ORD_ID = 37 33 "origclordid" Text;
        DOWNSTREAM = 70 33 "downstream" Text;
        OUTCOME = 103 1 "outcome" Outcome;
        ORIGIN = 104 2 "origin" Link;
    }
}

/// The word of an order's place: its client's open quantity.
pub(crate) const OPEN: Spot = Spot { at: 0, bytes: OPEN_BYTES, name: "open quantity", shape: Shape::Qty };

/// A text as it stands: cut at 32 bytes if its length runs over.
#[derive(Clone, Copy, PartialEq, Eq)]
pub(crate) struct Text<'a> {
    pub(crate) text: &'a [u8],
    pub(crate) length: usize,
    /// Whether zeros stand after it.
    pub(crate) clean: bool,
}

/// A record of a book, or its header: any bytes.
#[derive(Clone, Copy)]
pub(crate) struct Raw<'a> {
    book: &'a BookBytes,
    start: usize,
}

impl<'a> Raw<'a> {
    /// Where a field stands in the book.
    pub(crate) fn at(self, spot: Spot) -> usize {
        self.start.saturating_add(spot.at)
    }

    pub(crate) fn bytes(self, spot: Spot) -> &'a [u8] {
        let rest = self.book.get(self.at(spot)..).unwrap_or_default();
        rest.get(..spot.bytes).unwrap_or_default()
    }

    /// A field of at most 8 bytes.
    pub(crate) fn number(self, spot: Spot) -> u64 {
        let mut word = [0; 8];
        word.iter_mut().zip(self.bytes(spot)).for_each(|(to, from)| *to = *from);
        u64::from_le_bytes(word)
    }

    pub(crate) fn byte(self, spot: Spot) -> u8 {
        self.bytes(spot).first().copied().unwrap_or_default()
    }

    pub(crate) fn short(self, spot: Spot) -> u16 {
        self.bytes(spot).first_chunk().map_or(0, |bytes| u16::from_le_bytes(*bytes))
    }

    pub(crate) fn word(self, spot: Spot) -> u32 {
        self.bytes(spot).first_chunk().map_or(0, |bytes| u32::from_le_bytes(*bytes))
    }

    pub(crate) fn text(self, spot: Spot) -> Text<'a> {
        let (text, rest) = self.bytes(spot).split_at_checked(TEXT_BYTES).unwrap_or_default();
        let length = rest.first().copied().map_or(0, usize::from);
        let (text, behind) = text.split_at_checked(length).unwrap_or((text, &[]));
        Text { text, length, clean: behind.iter().all(|&byte| byte == 0) }
    }

    /// The index that a link leads to.
    pub(crate) fn link(self, spot: Spot) -> Option<usize> {
        usize::from(self.short(spot)).checked_sub(1)
    }
}

pub(crate) fn header(book: &BookBytes) -> Raw<'_> {
    Raw { book, start: 0 }
}

/// The order record at an index.
pub(crate) fn order(book: &BookBytes, index: usize) -> Raw<'_> {
    Raw { book, start: index.saturating_mul(ORDER_BYTES).saturating_add(ORDERS_AT) }
}

/// The request record at an index.
pub(crate) fn request(book: &BookBytes, index: usize) -> Raw<'_> {
    Raw { book, start: index.saturating_mul(REQUEST_BYTES).saturating_add(REQUESTS_AT) }
}

/// The word of the open quantity at the place of the order at an index.
pub(crate) fn open(book: &BookBytes, index: usize) -> Raw<'_> {
    Raw { book, start: index.saturating_mul(OPEN_BYTES).saturating_add(OPENS_AT) }
}

/// How many orders are in use, at most 64.
pub(crate) fn orders_in_use(book: &BookBytes) -> usize {
    usize::from(header(book).short(header::ORDERS)).min(ORDERS)
}

/// How many requests are in use, at most 256.
pub(crate) fn requests_in_use(book: &BookBytes) -> usize {
    usize::from(header(book).short(header::REQUESTS)).min(REQUESTS)
}

/// Writes a field of at most 8 bytes, and no other byte.
pub(crate) fn write(book: &mut BookBytes, at: usize, spot: Spot, value: u64) {
    let field = book.get_mut(at..).unwrap_or_default().iter_mut().take(spot.bytes);
    field.zip(value.to_le_bytes()).for_each(|(to, from)| *to = from);
}

#[cfg(test)]
mod tests {
    use super::*;

    /// The rows of the document's table under a heading: place, bytes and name; spare bytes aside.
    fn rows(heading: &str) -> Vec<(usize, usize, &'static str)> {
        let document = include_str!("../../docs/LAYOUT.md");
        let section =
            document.split("\n## ").find(|section| section.lines().next() == Some(heading)).unwrap();
        let cells = section.lines().map(|line| line.split('|').map(str::trim).collect::<Vec<_>>());
        let row = |cells: Vec<&'static str>| {
            let name = cells.get(3)?.split([';', ':']).next()?;
            Some((cells.get(1)?.parse().ok()?, cells.get(2)?.parse().ok()?, name))
        };
        cells.filter_map(row).filter(|row| row.2 != "spare" && row.2 != "not used").collect()
    }

    #[test]
    fn every_field_stands_where_the_document_has_it() {
        for (heading, all) in [("Header", header::ALL), ("Order", order::ALL), ("Request", request::ALL)] {
            let here: Vec<_> = all.iter().map(|spot| (spot.at, spot.bytes, spot.name)).collect();
            assert_eq!(here, rows(heading), "{heading}");
        }
    }
}
