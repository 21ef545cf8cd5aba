//! The book's bytes as docs/LAYOUT.md has them: where each field stands, records read and written,
//! and two books compared with each other field by field. It knows nothing of what fields mean.

use model::machine::{BOOK_BYTES, MOST_ORDERS, MOST_REQUESTS};

pub const ORDERS_AT: usize = 256;
pub const ORDER_BYTES: usize = 256;
pub const REQUESTS_AT: usize = 16_640;
pub const REQUEST_BYTES: usize = 128;
/// Behind the tables a word for each order's place, in use if the order is its client's first:
/// the client's open quantity.
pub const OPENS_AT: usize = 49_408;
pub const OPEN_BYTES: usize = 8;
pub const UNUSED_AT: usize = OPENS_AT + MOST_ORDERS * OPEN_BYTES;

const TEXT_BYTES: usize = 32;

/// A text: 32 bytes, zeros after it, then its length byte.
#[derive(Clone, Copy, PartialEq, Eq)]
pub struct Text {
    pub bytes: [u8; TEXT_BYTES],
    pub length: u8,
}

impl Text {
    pub fn new(text: &[u8]) -> Self {
        let mut bytes = [0; TEXT_BYTES];
        bytes[..text.len()].copy_from_slice(text);
        Self { bytes, length: text.len() as u8 }
    }

    /// The text itself, cut if its length runs over.
    pub fn text(&self) -> &[u8] {
        &self.bytes[..usize::from(self.length).min(TEXT_BYTES)]
    }
}

impl std::fmt::Debug for Text {
    fn fmt(&self, f: &mut std::fmt::Formatter<'_>) -> std::fmt::Result {
        write!(f, "\"{}\"", self.text().escape_ascii())
    }
}

/// A value that stands in a record.
trait Value {
    fn read(bytes: &[u8]) -> Self;
    fn write(&self, bytes: &mut [u8]);
}

impl Value for u64 {
    fn read(bytes: &[u8]) -> Self {
        bytes.iter().rev().fold(0, |number, &byte| number << 8 | Self::from(byte))
    }

    fn write(&self, bytes: &mut [u8]) {
        bytes.copy_from_slice(&self.to_le_bytes()[..bytes.len()]);
    }
}

impl Value for Text {
    fn read(bytes: &[u8]) -> Self {
        let text = bytes[..TEXT_BYTES].try_into().expect("32 bytes and a length");
        Self { bytes: text, length: bytes[TEXT_BYTES] }
    }

    fn write(&self, bytes: &mut [u8]) {
        bytes[..TEXT_BYTES].copy_from_slice(&self.bytes);
        bytes[TEXT_BYTES] = self.length;
    }
}

/// Where a field stands in its record.
#[derive(Debug, Clone, Copy, PartialEq, Eq)]
pub struct Field {
    pub name: &'static str,
    pub at: usize,
    pub bytes: usize,
}

/// A record from its table: offset, bytes, field and the name of it in docs/LAYOUT.md.
macro_rules! record {
    ($(#[$doc:meta])* $record:ident, $($at:literal $bytes:literal $field:ident: $type:ty = $name:literal,)*) => {
        $(#[$doc])*
        #[derive(Debug, Clone, PartialEq, Eq)]
        pub struct $record {
            $(pub $field: $type,)*
        }

        impl $record {
            pub const FIELDS: &'static [Field] = &[$(Field { name: $name, at: $at, bytes: $bytes },)*];

            pub fn read(record: &[u8]) -> Self {
                Self { $($field: <$type as Value>::read(&record[$at..$at + $bytes]),)* }
            }

            pub fn write(&self, record: &mut [u8]) {
                $(self.$field.write(&mut record[$at..$at + $bytes]);)*
            }
        }
    };
}

record! {
    /// The counts as they stand, and the setting.
    Header,
    0 2 orders: u64 = "orders in use",
    2 2 requests: u64 = "requests in use",
    4 4 setting: u64 = "setting",
}

record! {
    Order,
    0 2 client: u64 = "client",
    2 2 venue: u64 = "venue",
    4 33 name: Text = "names.name",
    37 33 cl_ord_id: Text = "names.clordid",
    70 33 downstream: Text = "names.downstream",
    103 33 symbol: Text = "names.symbol",
    136 33 venue_order_id: Text = "names.venueorderid",
    169 1 side: u64 = "terms.side",
    170 1 ord_type: u64 = "terms.ordtype",
    171 1 time_in_force: u64 = "terms.timeinforce",
    172 8 qty: u64 = "terms.qty",
    180 8 price: u64 = "terms.price",
    188 1 status: u64 = "state.status",
    189 8 cum_qty: u64 = "state.cumqty",
    197 8 avg_px: u64 = "state.avgpx",
    205 8 exec_seq: u64 = "state.execseq",
    213 2 amendments: u64 = "links.amendments",
    215 2 current: u64 = "links.current",
    217 2 cancel: u64 = "links.cancel",
    219 2 pending: u64 = "pending.request",
    221 8 pending_qty: u64 = "pending.qty",
    229 8 pending_price: u64 = "pending.price",
    237 1 pending_ord_type: u64 = "pending.ordtype",
    238 1 pending_time_in_force: u64 = "pending.timeinforce",
    239 1 stage: u64 = "gateway.stage",
    240 1 tries: u64 = "gateway.tries",
    241 2 orig_downstream: u64 = "gateway.origdownstream",
    243 4 refused_sends: u64 = "gateway.refusedsends",
}

record! {
    Request,
    0 2 order: u64 = "order",
    2 1 kind: u64 = "kind",
    3 1 answered: u64 = "answered",
    4 33 cl_ord_id: Text = "clordid",
    37 33 orig_cl_ord_id: Text = "origclordid",
    70 33 downstream: Text = "downstream",
    103 1 outcome: u64 = "outcome",
    104 2 origin: u64 = "origin",
}

/// Kinds of request.
pub const FIRST: u64 = 0;
pub const CLIENT_CANCEL: u64 = 1;
pub const CLIENT_REPLACE: u64 = 2;
pub const GATEWAY_CANCEL: u64 = 3;

/// Stages of a gateway cancel.
pub const NONE: u64 = 0;
pub const UNSENT: u64 = 1;
pub const SENT: u64 = 2;
pub const STUCK: u64 = 3;

/// The book that a whole buffer is: the records in use, at most the tables' sizes.
#[derive(Debug, Clone, PartialEq, Eq)]
pub struct Book {
    pub header: Header,
    pub orders: Vec<Order>,
    pub requests: Vec<Request>,
    /// The open quantity at each order's place, if the order is its client's first; the other
    /// words may be anything.
    pub opens: Vec<Option<u64>>,
}

/// The bytes of the order at an index.
pub fn order_at(index: usize) -> std::ops::Range<usize> {
    let at = ORDERS_AT + index * ORDER_BYTES;
    at..at + ORDER_BYTES
}

/// The bytes of the request at an index.
pub fn request_at(index: usize) -> std::ops::Range<usize> {
    let at = REQUESTS_AT + index * REQUEST_BYTES;
    at..at + REQUEST_BYTES
}

/// The bytes of the word at an order's place.
pub fn open_at(index: usize) -> std::ops::Range<usize> {
    let at = OPENS_AT + index * OPEN_BYTES;
    at..at + OPEN_BYTES
}

/// Whether the order at an index is its client's first.
pub fn is_first(orders: &[Order], index: usize) -> bool {
    orders[..index].iter().all(|order| order.client != orders[index].client)
}

impl Request {
    /// Where its spare bytes begin: without an OrigClOrdID the bytes of the origin are spare too.
    fn spare(&self) -> usize {
        if self.orig_cl_ord_id.length == 0 { 104 } else { 106 }
    }

    /// The request in a record of the table; an origin that may be anything is read as 0.
    fn of(record: &[u8]) -> Self {
        let mut request = Self::read(record);
        if request.orig_cl_ord_id.length == 0 {
            request.origin = 0;
        }
        request
    }
}

impl Book {
    pub fn read(bytes: &[u8]) -> Self {
        let header = Header::read(bytes);
        let orders = (header.orders as usize).min(MOST_ORDERS);
        let requests = (header.requests as usize).min(MOST_REQUESTS);
        let orders: Vec<Order> = (0..orders).map(|index| Order::read(&bytes[order_at(index)])).collect();
        let open = |index: usize| is_first(&orders, index).then(|| u64::read(&bytes[open_at(index)]));
        Self {
            requests: (0..requests).map(|index| Request::of(&bytes[request_at(index)])).collect(),
            opens: (0..orders.len()).map(open).collect(),
            orders,
            header,
        }
    }

    /// Writes header, records and words in use, the records' spare bytes as zeros, and no other byte.
    pub fn write(&self, bytes: &mut [u8]) {
        self.header.write(bytes);
        for (index, order) in self.orders.iter().enumerate() {
            let record = &mut bytes[order_at(index)];
            record.fill(0);
            order.write(record);
        }
        for (index, request) in self.requests.iter().enumerate() {
            let record = &mut bytes[request_at(index)];
            record.fill(0);
            request.write(record);
        }
        for (index, open) in self.opens.iter().enumerate() {
            open.inspect(|open| open.write(&mut bytes[open_at(index)]));
        }
    }

    /// The book for a reader, a line for each record.
    pub fn show(&self) -> String {
        let orders = self.orders.iter().map(|order| format!("{order:?}\n"));
        let requests = self.requests.iter().map(|request| format!("{request:?}\n"));
        let opens = std::iter::once(format!("open quantities {:?}\n", self.opens));
        std::iter::once(format!("{:?}\n", self.header)).chain(orders).chain(requests).chain(opens).collect()
    }

    /// A link as the downstream ClOrdID that it leads to.
    fn link(&self, link: u64) -> String {
        match link.checked_sub(1) {
            None => "none".into(),
            Some(index) => match self.requests.get(index as usize) {
                Some(request) => format!("{} (request {index})", request.downstream.text().escape_ascii()),
                None => format!("request {index}, which is not there"),
            },
        }
    }
}

const LINKS: [&str; 5] =
    ["links.current", "links.cancel", "pending.request", "gateway.origdownstream", "origin"];

/// A record's place in a message: which it is, its fields, where it stands in the book, and its spare
/// bytes.
struct Record {
    what: String,
    fields: &'static [Field],
    at: usize,
    spare: std::ops::Range<usize>,
}

const OPEN: &[Field] = &[Field { name: "open quantity", at: 0, bytes: OPEN_BYTES }];

fn records(book: &Book) -> Vec<Record> {
    let name = |text: &Text| text.text().escape_ascii().to_string();
    let header = Record { what: "header".into(), fields: Header::FIELDS, at: 0, spare: 0..0 };
    let orders = book.orders.iter().enumerate().map(|(index, order)| {
        let place = order_at(index);
        let what = format!("order {index} ({})", name(&order.name));
        Record { what, fields: Order::FIELDS, at: place.start, spare: place.start + 247..place.end }
    });
    let requests = book.requests.iter().enumerate().map(|(index, request)| {
        let place = request_at(index);
        let what = format!("request {index} ({})", name(&request.downstream));
        Record {
            what,
            fields: Request::FIELDS,
            at: place.start,
            spare: place.start + request.spare()..place.end,
        }
    });
    let opens = book.opens.iter().zip(&book.orders).enumerate().filter_map(|(index, (open, order))| {
        let what = format!("word {index}, of client {}", order.client);
        open.map(|_| Record { what, fields: OPEN, at: open_at(index).start, spare: 0..0 })
    });
    std::iter::once(header).chain(orders).chain(requests).chain(opens).collect()
}

/// The bytes of the records in use that are no field.
pub fn spare(book: &Book) -> impl Iterator<Item = usize> {
    records(book).into_iter().flat_map(|record| record.spare)
}

/// A field's bytes for a reader.
fn value(book: &Book, field: &Field, bytes: &[u8]) -> String {
    match field.bytes {
        33 => {
            let text = Text::read(bytes);
            let rest = &text.bytes[text.text().len()..];
            let filled = if rest.iter().all(|&byte| byte == 0) { "" } else { " and bytes behind it" };
            format!("\"{}\" of length {}{filled}", text.text().escape_ascii(), text.length)
        }
        _ if LINKS.contains(&field.name) => book.link(u64::read(bytes)),
        1 if bytes[0].is_ascii_alphanumeric() => format!("{} ({})", bytes[0], char::from(bytes[0])),
        _ => u64::read(bytes).to_string(),
    }
}

/// What differs between the bytes that a book should have and those that it has: each field of each
/// record that should be in use, and any byte that is no field.
pub fn differences(should: &[u8], has: &[u8]) -> Vec<String> {
    let (right, found) = (Book::read(should), Book::read(has));
    let mut differences = Vec::new();
    let mut named = vec![false; BOOK_BYTES];
    for record in records(&right) {
        for field in record.fields {
            let range = record.at + field.at..record.at + field.at + field.bytes;
            named[range.clone()].fill(true);
            let (right_bytes, found_bytes) = (&should[range.clone()], &has[range]);
            if right_bytes != found_bytes {
                let right = value(&right, field, right_bytes);
                let found = value(&found, field, found_bytes);
                differences.push(format!("{}, {}: should be {right}, is {found}", record.what, field.name));
            }
        }
    }
    let odd = (0..BOOK_BYTES).find(|&at| !named[at] && should[at] != has[at]);
    let unnamed = odd
        .map(|at| format!("byte {at}, which is no field in use: should be {}, is {}", should[at], has[at]));
    differences.into_iter().chain(unnamed).collect()
}

/// Compares a book's bytes with what an event should leave of those before it: every field of the
/// records in use, every client's open quantity, and every other byte as it was; a spare byte may have
/// become 0.
pub fn holds(before: &[u8], right: &Book, has: &[u8]) -> Result<(), String> {
    let mut should = before.to_vec();
    right.write(&mut should);
    if should == has {
        return Ok(());
    }
    for record in records(right) {
        for at in record.spare.filter(|&at| has[at] == before[at]) {
            should[at] = has[at];
        }
    }
    match differences(&should, has) {
        none if none.is_empty() => Ok(()),
        some => Err(format!("the book:\n  {}", some.join("\n  "))),
    }
}

#[cfg(test)]
mod tests {
    use super::*;

    #[test]
    fn the_fields_of_a_record_follow_one_another() {
        for (fields, spare) in [(Order::FIELDS, 247), (Request::FIELDS, 106), (Header::FIELDS, 8)] {
            let end = fields.iter().fold(0, |at, field| {
                assert_eq!(field.at, at, "{}", field.name);
                at + field.bytes
            });
            assert_eq!(end, spare);
        }
        assert_eq!(order_at(64).start, REQUESTS_AT);
        assert_eq!(request_at(256).start, OPENS_AT);
        assert_eq!((open_at(0), open_at(64).start), (49_408..49_416, UNUSED_AT));
    }

    #[test]
    fn each_changed_byte_of_a_record_in_use_is_named() {
        let mut bytes = vec![0; BOOK_BYTES];
        bytes[0] = 2;
        bytes[2] = 3;
        for at in 0..BOOK_BYTES {
            let mut changed = bytes.clone();
            changed[at] ^= 0x10;
            assert_eq!(differences(&bytes, &changed).len(), 1, "byte {at}");
        }
    }
}
