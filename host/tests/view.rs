//! Orders and requests as the views show them. `tests/layout.rs` checks where each field stands.

mod common;

use jubafiye::text::from_text;
use jubafiye::{Book, OrdStatus, OrdType, Outcome, Price, Qty, SentKind, Side, Stage, TimeInForce};

fn take(book: &mut Book, lines: &str) {
    for line in lines.lines().map(str::trim).filter(|line| !line.is_empty()) {
        book.take_record(&from_text(line).unwrap()).map(drop).unwrap();
    }
}

/// Two orders: the first replaced once and again, cancelled by the client and by the gateway; the second plain.
fn book() -> Book {
    let mut book = Book::new(77_777);
    take(&mut book, "
        book client=258 venue=772 name=G1 clordid=C1 symbol=WHEATH27 side=sell-short ordtype=limit qty=1234.5678 price=10.12345678 timeinforce=good-till-cancel
        book client=515 venue=1029 name=H2 clordid=D1 symbol=OATS side=buy ordtype=market qty=7
        report venue=772 downstream=G1 exectype=new ordstatus=new lastqty=0 lastpx=0 cumqty=0 avgpx=0 venueorderid=V-17
        replace client=258 clordid=C2 origclordid=C1 symbol=WHEATH27 side=sell-short ordtype=limit qty=2345.6789 price=11.5 timeinforce=day verdict=pass
        report venue=772 downstream=G1-1 exectype=replaced ordstatus=new lastqty=0 lastpx=0 cumqty=0 avgpx=0
        report venue=772 downstream=G1-1 exectype=trade ordstatus=partially-filled lastqty=40.0001 lastpx=11.25 cumqty=40.0001 avgpx=11.25
        replace client=258 clordid=C3 origclordid=C2 symbol=WHEATH27 side=sell-short ordtype=limit qty=3456.789 price=12.75 timeinforce=immediate-or-cancel verdict=pass
        cancel client=258 clordid=C4 origclordid=C2 symbol=WHEATH27 side=sell-short
        gateway-cancel name=G1
        reject venue=772 downstream=G1-3 reason=99
        failed venue=772 downstream=G1-4 text=down
    ");
    book
}

#[test]
fn every_field_of_an_order() {
    let book = book();
    assert_eq!((book.setting(), book.orders().count()), (77_777, 2));
    let order = book.order("G1").unwrap();
    assert_eq!((order.index, order.client, order.venue), (0, 258, 772));
    assert_eq!((order.name, order.cl_ord_id, order.downstream), (&b"G1"[..], &b"C2"[..], &b"G1-1"[..]));
    assert_eq!((order.symbol, order.venue_order_id), (&b"WHEATH27"[..], Some(&b"V-17"[..])));
    assert_eq!((order.side, order.ord_type), (Side::SellShort, OrdType::Limit));
    assert_eq!((order.time_in_force, order.status), (Some(TimeInForce::Day), OrdStatus::PartiallyFilled));
    assert_eq!((order.qty, order.price), (Qty(23_456_789), Some(Price(1_150_000_000))));
    assert_eq!((order.cum_qty, order.avg_px), (Qty(400_001), Price(1_125_000_000)));
    assert_eq!((order.exec_seq, order.amendments), (3, 4));
    assert_eq!((order.current, order.cancel), (2, Some(5)));
    let pending = order.pending.unwrap();
    assert_eq!((pending.request, pending.qty), (3, Qty(34_567_890)));
    assert_eq!((pending.ord_type, pending.price), (OrdType::Limit, Some(Price(1_275_000_000))));
    assert_eq!(pending.time_in_force, Some(TimeInForce::Ioc));
    let cancel = order.gateway_cancel.unwrap();
    assert_eq!((cancel.stage, cancel.tries, cancel.refused_sends), (Stage::Unsent, 0, 1));
    assert_eq!(cancel.orig_downstream, b"G1-1");
    assert_eq!(order.leaves_qty(), Qty(23_456_789 - 400_001));
    let other = book.order("H2").unwrap();
    assert_eq!((other.index, other.client, other.venue, other.side), (1, 515, 1029, Side::Buy));
    assert_eq!((other.price, other.time_in_force, other.venue_order_id), (None, None, None));
    assert_eq!((other.pending, other.gateway_cancel, other.cancel), (None, None, None));
}

#[test]
fn every_field_of_a_request() {
    let book = book();
    let shown: Vec<_> = book
        .requests()
        .map(|r| {
            (
                r.downstream,
                r.order,
                r.order_name,
                r.kind,
                r.answered,
                r.outcome,
                r.cl_ord_id,
                r.orig_cl_ord_id,
            )
        })
        .collect();
    let (g, h) = (&b"G1"[..], &b"H2"[..]);
    let id = |text: &'static [u8]| Some(text);
    assert_eq!(
        shown,
        [
            (g, 0, g, SentKind::NewOrder, true, Outcome::Accepted, id(b"C1"), None),
            (h, 1, h, SentKind::NewOrder, false, Outcome::Open, id(b"D1"), None),
            (&b"G1-1"[..], 0, g, SentKind::ClientReplace, true, Outcome::Accepted, id(b"C2"), id(b"C1")),
            (b"G1-2", 0, g, SentKind::ClientReplace, false, Outcome::Open, id(b"C3"), id(b"C2")),
            (b"G1-3", 0, g, SentKind::ClientCancel, true, Outcome::Refused, id(b"C4"), id(b"C2")),
            (b"G1-4", 0, g, SentKind::GatewayCancel, true, Outcome::FailedToSend, None, None),
        ]
    );
    assert!(book.requests().all(|request| (request.venue, request.client)
        == if request.order == 0 { (772, 258) } else { (1029, 515) }));
}

#[test]
fn what_waits_for_a_venue() {
    let book = book();
    let names = |venue| book.unanswered(venue).map(|request| request.downstream.to_vec()).collect::<Vec<_>>();
    assert_eq!((names(772), names(1029), names(1)), (vec![b"G1-2".to_vec()], vec![b"H2".to_vec()], vec![]));
}

#[test]
fn a_cancel_that_was_given_up() {
    let mut book = book();
    assert_eq!(book.stuck().count(), 0);
    take(
        &mut book,
        "
        gateway-cancel name=H2
        reject venue=1029 downstream=H2-1 reason=1
    ",
    );
    assert_eq!(book.stuck().map(|order| order.name.to_vec()).collect::<Vec<_>>(), [b"H2"]);
}

#[test]
fn books_are_shown_and_compared() {
    let (before, mut after) = (book(), book());
    let shown = before.to_string();
    let lines: Vec<&str> = shown.lines().collect();
    assert_eq!(lines[0], "2 of 64 orders, 6 of 256 requests, 77777 ClOrdIDs for a client");
    assert_eq!(lines[1], "G1: client 258 (C2), venue 772, sell short 2345.6789 WHEATH27 limit 11.5 day, partially filled, cum 40.0001 at 11.25, \
                          leaves 2305.6788; replace pending: 3456.789 limit 12.75 immediate or cancel; gateway's cancel waits to be sent, tries 0");
    assert_eq!(lines[5], "    G1-3: client's cancel of G1 to venue 772 (C4 for C2), refused");
    assert_eq!(lines.len(), 1 + 2 + 6);
    assert!(format!("{:?}", before.order("G1").unwrap()).contains("name: \"G1\""));

    assert_eq!(before.diff(&after), []);
    take(
        &mut after,
        "
        report venue=1029 downstream=H2 exectype=trade ordstatus=filled lastqty=7 lastpx=3 cumqty=7 avgpx=3
        book client=1 venue=1 name=K clordid=K symbol=OATS side=buy ordtype=market qty=1
    ",
    );
    let changes: Vec<String> = before.diff(&after).iter().map(ToString::to_string).collect();
    assert_eq!(
        changes[..6],
        [
            "header: orders in use: 2 -> 3",
            "header: requests in use: 6 -> 7",
            "order H2: state.status: pending new -> filled",
            "order H2: state.cumqty: 0 -> 7",
            "order H2: state.avgpx: 0 -> 3",
            "order H2: state.execseq: 0 -> 1",
        ]
    );
    assert!(changes.contains(&"order K: names.name: not there -> K".to_string()));
    assert!(changes.contains(&"request K: downstream: not there -> K".to_string()));
    assert_eq!(after.diff(&before).len(), changes.len());
}

#[test]
fn every_book_of_a_day_reads_whole() {
    for seed in 0..30 {
        let (book, _) = common::day(seed, 150);
        let bytes = book.as_bytes();
        let counts = [0, 2].map(|at| usize::from(u16::from_le_bytes([bytes[at], bytes[at + 1]])));
        assert_eq!([book.orders().count(), book.requests().count()], counts, "seed {seed}");
        assert_eq!(book.to_string().lines().count(), 1 + counts[0] + counts[1]);
        let open: Qty = book.orders().filter(|order| order.client == 1).map(|order| order.leaves_qty()).sum();
        assert_eq!(open, book.open_quantity(1));
    }
}
