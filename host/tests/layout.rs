//! The layout's numbers. Every field of an order, of a request and of the header, and the words of open quantities, are set by
//! events to values that tell them apart. Each is read twice: from the book's bytes at the place that docs/LAYOUT.md gives it, and
//! through the crate, which reads by `src/layout.rs` (`Book::orders`, `Book::requests`, `Book::diff`, `explain`, `Book::carry_over`).
//! A wrong number in either fails.

use std::collections::BTreeMap;

use jubafiye::text::from_text;
use jubafiye::{
    explain, Book, OrdStatus, OrdType, Outcome, Price, Qty, Request, Rule, SentKind, Side, Stage, TimeInForce,
};

const DOCUMENT: &str = include_str!("../../docs/LAYOUT.md");

/// A section of the document, as the cells of its table's rows.
fn table(heading: &str) -> Vec<Vec<&'static str>> {
    let section = DOCUMENT.split("\n## ").find(|section| section.lines().next() == Some(heading)).unwrap();
    let rows = section.lines().filter(|line| line.starts_with('|')).skip(2);
    rows.map(|line| line.split('|').skip(1).map(str::trim).collect()).collect()
}

fn number(text: &str) -> usize {
    text.replace(',', "").parse().unwrap()
}

/// Where records begin and how long each is, by the document's first table: `what` is how its row goes on after their number.
fn records(what: &str) -> (usize, usize) {
    let table = table_of_regions();
    let row = table.iter().find(|row| row[2].contains(what)).unwrap();
    let count = number(row[2].split(' ').next().unwrap());
    (number(row[0]), (number(row[1]) - number(row[0])) / count)
}

fn table_of_regions() -> Vec<Vec<&'static str>> {
    let rows = DOCUMENT.split("\n## ").next().unwrap().lines().filter(|line| line.starts_with('|')).skip(2);
    rows.map(|line| line.split('|').skip(1).map(str::trim).collect()).collect()
}

/// The fields of a record by the document: name, place, bytes; what is spare or not used is left out.
fn fields(heading: &str) -> Vec<(&'static str, usize, usize)> {
    let name = |cell: &'static str| cell.split([';', ':']).next().unwrap();
    let rows = table(heading).into_iter().map(|row| (name(row[2]), number(row[0]), number(row[1])));
    rows.filter(|row| row.0 != "spare" && row.0 != "not used").collect()
}

/// What is expected of a field: a number or a text in the bytes, and how `Book::diff` shows it.
enum Is {
    Number(u64, &'static str),
    Text(&'static str),
}
use Is::{Number, Text};

impl Is {
    fn bytes(&self, bytes: usize) -> Vec<u8> {
        let mut field = match self {
            Number(value, _) => value.to_le_bytes()[..bytes.min(8)].to_vec(),
            Text(text) => [text.as_bytes(), &[0; 32][text.len()..], &[text.len() as u8]].concat(),
        };
        field.resize(bytes, 0);
        field
    }

    fn shown(&self) -> &'static str {
        match self {
            Number(_, shown) | Text(shown) => shown,
        }
    }
}

/// Compares a record with what is expected of each of its fields, all of which are listed; `Book::diff` lists those that are not 0.
fn hold(book: &Book, record: &str, heading: &str, start: usize, expected: &[(&str, Is)]) {
    let empty = Book::new(0);
    let changes = empty.diff(book);
    let shown: BTreeMap<&str, &str> = changes
        .iter()
        .filter(|change| change.record == record)
        .map(|change| (change.field, change.after.as_deref().unwrap()))
        .collect();
    let fields = fields(heading);
    assert_eq!(
        fields.iter().map(|field| field.0).collect::<Vec<_>>(),
        expected.iter().map(|field| field.0).collect::<Vec<_>>(),
        "{record}: the fields of the document, in their order"
    );
    for ((field, at, bytes), (_, is)) in fields.into_iter().zip(expected) {
        let stored = &book.as_bytes()[start + at..][..bytes];
        assert_eq!(stored, is.bytes(bytes), "{record}: {field} at {at} of the document");
        let set = stored.iter().any(|&byte| byte != 0);
        assert_eq!(shown.get(field), set.then(|| is.shown()).as_ref(), "{record}: {field} through the crate");
    }
}

fn take(book: &mut Book, lines: &str) {
    for line in lines.lines().map(str::trim).filter(|line| !line.is_empty()) {
        book.take_record(&from_text(line).unwrap()).map(drop).unwrap_or_else(|why| panic!("{line}: {why}"));
    }
}

/// Three orders, the latter two of one client. G1 is replaced, filled in part, and then has a replace out, a client's cancel that was
/// refused, and a gateway cancel whose send failed, so that it waits.
fn waiting() -> Book {
    let mut book = Book::new(0x0102_0304);
    take(&mut book, "
        book client=515 venue=1029 name=H2 clordid=D1 symbol=OATS side=buy ordtype=market qty=7
        book client=258 venue=772 name=G1 clordid=C1 symbol=WHEATH27 side=sell-short ordtype=limit qty=1234.5678 price=10.12345678 timeinforce=good-till-cancel
        book client=258 venue=772 name=G3 clordid=E1 symbol=OATS side=sell ordtype=market qty=0.5
        report venue=772 downstream=G1 exectype=new ordstatus=new lastqty=0 lastpx=0 cumqty=0 avgpx=0 venueorderid=V-17
        replace client=258 clordid=C2 origclordid=C1 symbol=WHEATH27 side=sell-short ordtype=limit qty=2345.6789 price=11.5 timeinforce=day verdict=pass
        report venue=772 downstream=G1-1 exectype=replaced ordstatus=new lastqty=0 lastpx=0 cumqty=0 avgpx=0
        report venue=772 downstream=G1-1 exectype=trade ordstatus=partially-filled lastqty=40.0001 lastpx=11.25 cumqty=40.0001 avgpx=11.25
        replace client=258 clordid=C3 origclordid=C2 symbol=WHEATH27 side=sell-short ordtype=limit qty=3456.789 price=12.75 timeinforce=immediate-or-cancel verdict=pass
        cancel client=258 clordid=C4 origclordid=C2 symbol=WHEATH27 side=sell-short
        gateway-cancel name=G1
        reject venue=772 downstream=G1-3 reason=99
        failed venue=772 downstream=G1-4 text=down
    ");
    book
}

/// The same, and then a gateway cancel of G1 is sent.
fn book() -> Book {
    let mut book = waiting();
    take(&mut book, "gateway-cancel name=G1");
    book
}

/// The index of the order G1, and of its requests: the first, G1-1, G1-3 (a client's cancel) and G1-5 (the gateway's).
const G1: usize = 1;
const FIRST: usize = 1;
const REPLACED: usize = 3;
const CANCEL: usize = 5;
const GATEWAY: usize = 7;

#[test]
fn the_header() {
    let expected = [
        ("orders in use", Number(3, "3")),
        ("requests in use", Number(8, "8")),
        ("setting", Number(0x0102_0304, "16909060")),
    ];
    hold(&book(), "header", "Header", 0, &expected);
    assert_eq!((book().setting(), book().orders().count(), book().requests().count()), (0x0102_0304, 3, 8));
}

/// What is expected of G1: its amendments, its latest cancel, and the stage, tries and failed sends of its gateway cancel.
fn of_order(amendments: Is, cancel: Is, [stage, tries, refused_sends]: [Is; 3]) -> [(&'static str, Is); 28] {
    [
        ("client", Number(258, "258")),
        ("venue", Number(772, "772")),
        ("names.name", Text("G1")),
        ("names.clordid", Text("C2")),
        ("names.downstream", Text("G1-1")),
        ("names.symbol", Text("WHEATH27")),
        ("names.venueorderid", Text("V-17")),
        ("terms.side", Number(b'5'.into(), "sell short")),
        ("terms.ordtype", Number(b'2'.into(), "limit")),
        ("terms.timeinforce", Number(b'0'.into(), "day")),
        ("terms.qty", Number(23_456_789, "2345.6789")),
        ("terms.price", Number(1_150_000_000, "11.5")),
        ("state.status", Number(b'1'.into(), "partially filled")),
        ("state.cumqty", Number(400_001, "40.0001")),
        ("state.avgpx", Number(1_125_000_000, "11.25")),
        ("state.execseq", Number(3, "3")),
        ("links.amendments", amendments),
        ("links.current", Number(REPLACED as u64 + 1, "G1-1")),
        ("links.cancel", cancel),
        ("pending.request", Number(5, "G1-2")),
        ("pending.qty", Number(34_567_890, "3456.789")),
        ("pending.price", Number(1_275_000_000, "12.75")),
        ("pending.ordtype", Number(b'2'.into(), "limit")),
        ("pending.timeinforce", Number(b'3'.into(), "immediate or cancel")),
        ("gateway.stage", stage),
        ("gateway.tries", tries),
        ("gateway.origdownstream", Number(REPLACED as u64 + 1, "G1-1")),
        ("gateway.refusedsends", refused_sends),
    ]
}

/// Every field is other than 0 at one of two times.
#[test]
fn every_field_of_an_order_in_the_bytes() {
    let (start, bytes) = records("order records");
    let at = start + G1 * bytes;
    let waits = [Number(1, "waits to be sent"), Number(0, ""), Number(1, "1")];
    let expected = of_order(Number(4, "4"), Number(GATEWAY as u64, "G1-4"), waits);
    hold(&waiting(), "order G1", "Order", at, &expected);
    let sent = [Number(2, "sent"), Number(1, "1"), Number(0, "")];
    let expected = of_order(Number(5, "5"), Number(GATEWAY as u64 + 1, "G1-5"), sent);
    hold(&book(), "order G1", "Order", at, &expected);
}

#[test]
fn every_field_of_an_order_in_the_view() {
    let book = book();
    let order = book.order("G1").unwrap();
    assert_eq!((order.index, order.client, order.venue), (G1, 258, 772));
    assert_eq!((order.name, order.cl_ord_id, order.downstream), (&b"G1"[..], &b"C2"[..], &b"G1-1"[..]));
    assert_eq!((order.symbol, order.venue_order_id), (&b"WHEATH27"[..], Some(&b"V-17"[..])));
    assert_eq!((order.side, order.ord_type), (Side::SellShort, OrdType::Limit));
    assert_eq!((order.time_in_force, order.status), (Some(TimeInForce::Day), OrdStatus::PartiallyFilled));
    assert_eq!((order.qty, order.price), (Qty(23_456_789), Some(Price(1_150_000_000))));
    assert_eq!((order.cum_qty, order.avg_px), (Qty(400_001), Price(1_125_000_000)));
    assert_eq!((order.exec_seq, order.amendments), (3, 5));
    assert_eq!((order.current, order.cancel), (REPLACED, Some(GATEWAY)));
    let pending = order.pending.unwrap();
    assert_eq!((pending.request, pending.qty), (4, Qty(34_567_890)));
    assert_eq!((pending.ord_type, pending.price), (OrdType::Limit, Some(Price(1_275_000_000))));
    assert_eq!(pending.time_in_force, Some(TimeInForce::Ioc));
    let cancel = order.gateway_cancel.unwrap();
    assert_eq!((cancel.stage, cancel.tries, cancel.refused_sends), (Stage::Sent, 1, 0));
    assert_eq!(cancel.orig_downstream, b"G1-1");
    let waiting = waiting();
    let waits = waiting.order("G1").unwrap().gateway_cancel.unwrap();
    assert_eq!((waits.stage, waits.tries, waits.refused_sends), (Stage::Unsent, 0, 1));
}

/// The stage in the byte that the document names, and in the view.
fn stage(book: &Book) -> (u8, Option<Stage>) {
    let (start, bytes) = records("order records");
    let at = fields("Order").iter().find(|field| field.0 == "gateway.stage").unwrap().1;
    let order = book.order("G1").unwrap();
    (book.as_bytes()[start + order.index * bytes + at], order.gateway_cancel.map(|cancel| cancel.stage))
}

#[test]
fn every_stage_of_a_gateway_cancel() {
    let mut book = Book::new(10_000);
    take(&mut book, "book client=7 venue=3 name=G1 clordid=C1 symbol=OATS side=buy ordtype=market qty=7");
    assert_eq!(stage(&book), (0, None));
    take(&mut book, "gateway-cancel name=G1");
    assert_eq!(stage(&book), (2, Some(Stage::Sent)));
    take(&mut book, "failed venue=3 downstream=G1-1 text=down");
    assert_eq!(stage(&book), (1, Some(Stage::Unsent)));
    take(&mut book, "gateway-cancel name=G1\nreject venue=3 downstream=G1-2 reason=1");
    assert_eq!(stage(&book), (3, Some(Stage::Stuck)));
}

#[test]
fn every_field_of_a_request_in_the_bytes() {
    let replaced = [
        ("order", Number(G1 as u64, "1")),
        ("kind", Number(2, "client's replace")),
        ("answered", Number(1, "1")),
        ("clordid", Text("C2")),
        ("origclordid", Text("C1")),
        ("downstream", Text("G1-1")),
        ("outcome", Number(1, "accepted")),
        ("origin", Number(FIRST as u64 + 1, "G1")),
    ];
    let refused = [
        ("order", Number(G1 as u64, "1")),
        ("kind", Number(1, "client's cancel")),
        ("answered", Number(1, "1")),
        ("clordid", Text("C4")),
        ("origclordid", Text("C2")),
        ("downstream", Text("G1-3")),
        ("outcome", Number(2, "refused")),
        ("origin", Number(REPLACED as u64 + 1, "G1-1")),
    ];
    let (start, bytes) = records("request records");
    hold(&book(), "request G1-1", "Request", start + REPLACED * bytes, &replaced);
    hold(&book(), "request G1-3", "Request", start + CANCEL * bytes, &refused);
}

#[test]
fn every_field_of_a_request_in_the_view() {
    let book = book();
    let requests: Vec<Request<'_>> = book.requests().collect();
    let text = |text: Option<&[u8]>| text.map_or("-".into(), |text| String::from_utf8(text.into()).unwrap());
    let shown: Vec<_> = requests
        .iter()
        .map(|one| {
            let ids = [Some(one.downstream), one.cl_ord_id, one.orig_cl_ord_id].map(text).join(" ");
            (one.order, ids, one.kind, one.answered, one.outcome, one.origin)
        })
        .collect();
    let is = |order, ids: &str, kind, outcome: Outcome, origin| {
        (order, ids.to_string(), kind, outcome != Outcome::Open, outcome, origin)
    };
    let expected = [
        is(0, "H2 D1 -", SentKind::NewOrder, Outcome::Open, None),
        is(G1, "G1 C1 -", SentKind::NewOrder, Outcome::Accepted, None),
        is(2, "G3 E1 -", SentKind::NewOrder, Outcome::Open, None),
        is(G1, "G1-1 C2 C1", SentKind::ClientReplace, Outcome::Accepted, Some(FIRST)),
        is(G1, "G1-2 C3 C2", SentKind::ClientReplace, Outcome::Open, Some(REPLACED)),
        is(G1, "G1-3 C4 C2", SentKind::ClientCancel, Outcome::Refused, Some(REPLACED)),
        is(G1, "G1-4 - -", SentKind::GatewayCancel, Outcome::FailedToSend, None),
        is(G1, "G1-5 - -", SentKind::GatewayCancel, Outcome::Open, None),
    ];
    assert_eq!(shown, expected);
}

#[test]
fn the_words_of_open_quantities() {
    let book = book();
    let (start, bytes) = records("words of 8 bytes");
    assert_eq!(bytes, 8);
    let word = |index: usize| start + bytes * index;
    // G1 and G3 are of one client, whose word stands at the place of the first.
    let open = [Qty::units(7), Qty(23_456_789 - 400_001 + 5_000)];
    assert_eq!([book.open_quantity(515), book.open_quantity(258)], open);
    for (index, open) in open.into_iter().enumerate() {
        assert_eq!(book.as_bytes()[word(index)..][..bytes], open.0.to_le_bytes(), "word {index}");
        for byte in 0..bytes {
            let mut damaged = book.as_bytes().to_vec();
            damaged[word(index) + byte] ^= 1;
            let broken = explain(&damaged);
            assert_eq!((broken.len(), broken[0].rule, broken[0].at), (1, Rule::OpenQuantity, word(index)));
            assert!(Book::from_bytes(&damaged).is_err());
            assert!(
                Book::carry_over(&damaged).unwrap().as_bytes() == book.as_bytes(),
                "word {index}, byte {byte}"
            );
        }
    }
    // The word of an order that is not the first of its client may be anything.
    let mut other = book.as_bytes().to_vec();
    other[word(2)..][..bytes].fill(0xFF);
    assert!(explain(&other).is_empty() && Book::from_bytes(&other).is_ok());
}
