//! The wrapper over the linked library: a day, each kind of message, each refusal by its number, and bytes that are no book.

use jubafiye::{
    Alarm, Amend, Answer, Book, Booking, CancelReject, Error, Event, ExecType, FixedText, Message, OrdStatus,
    OrdType, Price, PriceSource, Qty, Reason, Refusal, RejectedRequest, Replace, Report, RequestKind,
    RiskReject, Side, TimeInForce, VenueReport, Words, ANSWER_BYTES, BOOK_BYTES,
};

fn booking<'a>(name: &'a [u8], cl_ord_id: &'a [u8]) -> Booking<'a> {
    Booking {
        client: 7,
        venue: 3,
        name,
        cl_ord_id,
        symbol: b"W",
        side: Side::Buy,
        ord_type: OrdType::Limit,
        qty: Qty::units(100),
        price: Some(Price::units(10)),
        time_in_force: None,
    }
}

/// An order A, ClOrdID C1, limit 100 at 10, that the venue has acknowledged.
fn live() -> Book {
    let mut book = Book::new(10_000);
    assert_eq!(book.take(&Event::Book(booking(b"A", b"C1"))), Ok(Answer::default()));
    drop(book.take(&report(b"A", 0, 0, 0)).unwrap());
    book
}

fn report(downstream: &[u8], cum: u64, last: u64, avg_px: u128) -> Event<'_> {
    Event::VenueReport(VenueReport {
        venue: 3,
        downstream,
        exec_type: if last == 0 { ExecType::New } else { ExecType::Trade },
        status: Some(if cum == 0 { OrdStatus::New } else { OrdStatus::PartiallyFilled }),
        last_qty: Qty::units(last),
        last_px: Price::units(11),
        cum_qty: Qty::units(cum),
        avg_px: Price(avg_px),
        venue_order_id: None,
        reason: None,
        text: None,
    })
}

fn amend(cl_ord_id: &[u8]) -> Amend<'_> {
    Amend { client: 7, cl_ord_id, orig_cl_ord_id: b"C1", symbol: b"W", side: Side::Buy, redelivered: false }
}

fn replace(cl_ord_id: &[u8], qty: u64) -> Replace<'_> {
    Replace {
        amend: amend(cl_ord_id),
        qty: Qty::units(qty),
        verdict: Ok(()),
        ord_type: None,
        price: Some(Price::units(10)),
        time_in_force: Some(TimeInForce::Day),
        blocked: false,
    }
}

/// The one message that an event brings.
fn one(book: &mut Book, event: &Event<'_>) -> Message {
    let mut answer = book.take(event).unwrap();
    assert_eq!((answer.messages.len(), &answer.alarms[..]), (1, &[][..]), "{event:?}");
    answer.messages.remove(0)
}

fn reported(book: &mut Book, event: &Event<'_>) -> Report {
    match one(book, event) {
        Message::Report(report) => report,
        message => panic!("a report: {message:?}"),
    }
}

fn rejected(book: &mut Book, event: &Event<'_>) -> CancelReject {
    match one(book, event) {
        Message::CancelReject(reject) => reject,
        message => panic!("a cancel reject: {message:?}"),
    }
}

#[test]
fn a_fill_is_told_as_the_rise_at_its_price() {
    let mut book = live();
    let told = reported(&mut book, &report(b"A", 40, 40, 1_000_000_000));
    assert_eq!(
        (told.last_qty, told.cum_qty, told.leaves_qty),
        (Qty::units(40), Qty::units(40), Qty::units(60))
    );
    // A report was missed: 30 more at (70 * 10.3 - 40 * 10) / 30.
    let told = reported(&mut book, &report(b"A", 70, 10, 1_030_000_000));
    assert_eq!((told.last_qty, told.last_px.to_string()), (Qty::units(30), "10.7".into()));
    assert_eq!(told.price_source, Some(PriceSource::Implied));
    assert_eq!((told.exec_seq, told.status), (3, OrdStatus::PartiallyFilled));
    let over = book.take(&report(b"A", 101, 31, 1_030_000_000)).unwrap();
    assert_eq!((over.messages, over.alarms), (vec![], vec![Alarm::Overfill]));
    assert!(book.keeps_rules());
}

#[test]
fn a_price_has_the_source_of_its_rule() {
    let mut book = Book::new(10_000);
    drop(book.take(&Event::Book(booking(b"A", b"C1"))).unwrap());
    let told = |book: &mut Book, event: &Event<'_>| {
        let told = reported(book, event);
        (told.last_px, told.price_source)
    };
    let at_11 = Price::units(11);
    // Nothing filled: LastPx is told all the same.
    assert_eq!(told(&mut book, &report(b"A", 0, 0, 0)), (at_11, Some(PriceSource::LastPx)));
    assert_eq!(told(&mut book, &report(b"A", 1, 1, at_11.0)), (at_11, Some(PriceSource::LastPx)));
    // A fill was missed: implied, though it is LastPx again.
    assert_eq!(told(&mut book, &report(b"A", 3, 1, at_11.0)), (at_11, Some(PriceSource::Implied)));
    // No price above 0 is implied.
    assert_eq!(told(&mut book, &report(b"A", 4, 2, 0)), (Price(0), Some(PriceSource::Average)));
    // No venue reported: a request that comes again, and a first send that fails.
    let again = Amend { redelivered: true, ..amend(b"C1") };
    assert_eq!(told(&mut book, &Event::Cancel(again)), (Price(0), None));
    let again = Replace { amend: again, ..replace(b"C1", 50) };
    assert_eq!(told(&mut book, &Event::Replace(again)), (Price(0), None));
    drop(book.take(&Event::Book(booking(b"B", b"C2"))).unwrap());
    let failed = Event::SendFailed { venue: 3, downstream: b"B", text: b"down" };
    assert_eq!(told(&mut book, &failed), (Price(0), None));
}

#[test]
fn a_cancel_goes_to_the_venue_under_the_next_name() {
    let mut book = live();
    let Message::Cancel(sent) = one(&mut book, &Event::Cancel(amend(b"C2"))) else {
        panic!("a cancel goes out");
    };
    assert_eq!(
        (sent.venue, &sent.downstream[..], sent.orig_downstream.as_deref()),
        (3, &b"A-1"[..], Some(&b"A"[..]))
    );
    assert_eq!((&sent.symbol[..], sent.side, sent.ord_type), (&b"W"[..], Side::Buy, OrdType::Limit));
    assert_eq!((sent.qty, sent.price), (Qty::units(100), Some(Price::units(10))));
    assert_eq!((sent.time_in_force, sent.venue_order_id), (None, None));
}

#[test]
fn a_replace_goes_out_or_is_refused() {
    let mut book = live();
    drop(book.take(&report(b"A", 40, 40, 1)).unwrap());
    let below = rejected(&mut book, &Event::Replace(replace(b"C2", 39)));
    assert_eq!((below.response_to, below.reason), (RequestKind::Replace, Reason::Ours(99)));
    assert_eq!((below.text, below.name), (Words::Fixed(FixedText::BelowFilled), Some(b"A".to_vec())));
    let verdict = Err(RiskReject::Credit);
    let over = rejected(&mut book, &Event::Replace(Replace { verdict, ..replace(b"C2", 200) }));
    assert_eq!(over.text, Words::Fixed(FixedText::Risk(RiskReject::Credit)));
    let Message::Replace(sent) = one(&mut book, &Event::Replace(replace(b"C2", 40))) else {
        panic!("a replace goes out");
    };
    assert_eq!((sent.qty, sent.time_in_force), (Qty::units(40), Some(TimeInForce::Day)));
    let again = Amend { redelivered: true, ..amend(b"C2") };
    let told = reported(&mut book, &Event::Replace(Replace { amend: again, ..replace(b"C2", 40) }));
    assert_eq!((told.exec_type, told.qty), (ExecType::Status, Qty::units(100)));
}

#[test]
fn a_venues_refusal_reaches_the_client_with_its_words() {
    let mut book = live();
    drop(book.take(&Event::Cancel(amend(b"C2"))).unwrap());
    let refusal = RejectedRequest {
        venue: 3,
        downstream: b"A-1",
        status: Some(OrdStatus::New),
        venue_order_id: Some(b"V-9"),
        reason: Some(2),
        text: Some(b"not now"),
    };
    let told = rejected(&mut book, &Event::CancelReject(refusal));
    assert_eq!((told.reason, told.text), (Reason::Venue(2), Words::Given(b"not now".to_vec())));
    assert_eq!((told.cl_ord_id, told.orig_cl_ord_id), (b"C2".to_vec(), b"C1".to_vec()));
    let unknown = Amend { orig_cl_ord_id: b"C9", ..amend(b"C3") };
    assert_eq!(rejected(&mut book, &Event::Cancel(unknown)).name, None);
}

#[test]
fn sends_that_fail_or_go_again() {
    let mut book = Book::new(10_000);
    drop(book.take(&Event::Book(booking(b"A", b"C1"))).unwrap());
    let again = Event::SendAgain { venue: 3, downstream: b"A" };
    assert!(matches!(one(&mut book, &again), Message::NewOrder(order) if order.downstream == b"A"));
    let failed = Event::SendFailed { venue: 3, downstream: b"A", text: b"down" };
    let told = reported(&mut book, &failed);
    assert_eq!((told.status, told.reason), (OrdStatus::Rejected, Some(Reason::Ours(99))));
    assert_eq!(told.text, Some(Words::Given(b"down".to_vec())));
    assert!(book.take(&again).unwrap().messages.is_empty());
}

#[test]
fn alarms() {
    let mut book = live();
    let alarm = |book: &mut Book, event: Event<'_>| match book.take(&event).unwrap().alarms[..] {
        [alarm] => Some(alarm),
        _ => None,
    };
    assert_eq!(alarm(&mut book, report(b"B", 0, 0, 0)), Some(Alarm::UnknownOrder));
    let unknown = Event::UnknownAtVenue { venue: 3, downstream: b"A" };
    assert_eq!(alarm(&mut book, unknown), Some(Alarm::UnknownAtVenue));
    assert!(matches!(one(&mut book, &Event::GatewayCancel { name: b"A" }), Message::Cancel(_)));
    let gone = RejectedRequest {
        venue: 3,
        downstream: b"A-1",
        status: None,
        venue_order_id: None,
        reason: Some(1),
        text: None,
    };
    let filled = RejectedRequest { status: Some(OrdStatus::Filled), ..gone };
    let both = book.clone().take(&Event::CancelReject(filled)).unwrap();
    assert_eq!(both.alarms, [Alarm::FilledShort, Alarm::StuckCancel]);
    assert_eq!(alarm(&mut book, Event::CancelReject(gone)), Some(Alarm::StuckCancel));
    let canceled = VenueReport {
        venue: 3,
        downstream: b"A",
        exec_type: ExecType::Canceled,
        status: Some(OrdStatus::Canceled),
        last_qty: Qty(0),
        last_px: Price(0),
        cum_qty: Qty(0),
        avg_px: Price(0),
        venue_order_id: None,
        reason: None,
        text: None,
    };
    assert!(reported(&mut book, &Event::VenueReport(canceled)).status.is_done());
    assert_eq!(alarm(&mut book, report(b"A", 40, 40, 1)), Some(Alarm::FillOnDoneOrder));
}

/// The refusal of an event that changes nothing.
fn refused(book: &mut Book, event: Event<'_>) -> u32 {
    let before = book.as_bytes().to_vec();
    let refusal = book.take(&event).unwrap_err();
    assert_eq!(book.as_bytes(), before, "{event:?}");
    assert_eq!(refusal.refusal().map(Refusal::number), Some(refusal.number()));
    refusal.number()
}

#[test]
fn each_refusal_by_its_number() {
    let mut book = live();
    assert!(matches!(Book::from_bytes(&[255; BOOK_BYTES]), Err(refusal) if refusal.number() == 1));
    let before = book.as_bytes().to_vec();
    let booked = Event::Book(booking(b"B", b"C2")).record();
    for length in [0, 1, 2, 3, 4, 100, ANSWER_BYTES - 1] {
        let mut short = vec![0xAA; length];
        assert_eq!(book.take_record_into(&booked, &mut short), Err(Refusal::AnswerBuffer), "{length} bytes");
        assert_eq!(short, vec![0xAA; length]);
    }
    for end in 0..booked.len() {
        assert_eq!(book.take_record(&booked[..end]), Err(Error::Refused(Refusal::Record)), "cut at {end}");
    }
    assert_eq!(book.as_bytes(), before);
    assert_eq!(refused(&mut book, Event::Book(booking(b"no-dash", b"C2"))), 4);
    assert_eq!(refused(&mut book, Event::Book(booking(b"NONE", b"C2"))), 4);
    assert_eq!(refused(&mut book, Event::Book(Booking { qty: Qty(u64::MAX), ..booking(b"B", b"C2") })), 4);
    assert_eq!(refused(&mut book, Event::Book(booking(b"A", b"C2"))), 5);
    assert_eq!(refused(&mut book, Event::Book(booking(b"B", b"C1"))), 5);
    assert_eq!(refused(&mut book, Event::Book(Booking { price: None, ..booking(b"B", b"C2") })), 6);
    assert_eq!(refused(&mut book, Event::Replace(Replace { price: None, ..replace(b"C2", 50) })), 6);
}

#[test]
fn order_65_and_request_257_do_not_fit() {
    let mut book = Book::new(10_000);
    let id = |number: usize| format!("C{number}").into_bytes();
    for number in 1..=64 {
        let name = format!("A{number}").into_bytes();
        drop(book.take(&Event::Book(booking(&name, &id(number)))).unwrap());
    }
    assert_eq!(refused(&mut book, Event::Book(booking(b"B", b"C65"))), 7);
    for number in 65..=256 {
        drop(book.take(&Event::Cancel(amend(&id(number)))).unwrap());
    }
    assert_eq!(refused(&mut book, Event::Cancel(amend(b"C257"))), 7);
    assert_eq!(refused(&mut book, Event::GatewayCancel { name: b"A2" }), 7);
    let status = Amend { redelivered: true, ..amend(b"C256") };
    assert_eq!(reported(&mut book, &Event::Cancel(status)).exec_type, ExecType::Status);
}

#[test]
fn a_book_goes_on_from_its_bytes() {
    let mut book = live();
    drop(book.take(&Event::Cancel(amend(b"C2"))).unwrap());
    let mut restored = Book::from_bytes(&book.clone().into_bytes()).unwrap();
    let fill = report(b"A", 40, 40, 1);
    assert_eq!(restored.take(&fill), book.take(&fill));
    assert_eq!(restored.as_bytes(), book.as_bytes());
}

#[test]
fn bytes_that_are_no_book_are_refused() {
    assert!(Book::from_bytes(&[0; BOOK_BYTES]).is_ok());
    for length in [0, 1, BOOK_BYTES - 1, BOOK_BYTES + 1] {
        assert!(matches!(Book::from_bytes(&vec![0; length]), Err(Refusal::Book)), "{length} bytes");
    }
    let mut bytes = live().into_bytes();
    // The order's status.
    bytes[256 + 188] = b'9';
    assert!(matches!(Book::from_bytes(&bytes), Err(Refusal::Book)));
}

#[test]
fn a_message_is_shown_as_one_line() {
    let mut book = live();
    let line = |book: &mut Book, event: Event<'_>| one(book, &event).to_string();
    let told = line(&mut book, report(b"A", 40, 40, 1_000_000_000));
    assert_eq!(
        told,
        "report to client 7: C1, trade, partially filled, last 40 at 11 (the venue's LastPx), cum 40, leaves 60"
    );
    let again = Event::Cancel(Amend { redelivered: true, ..amend(b"C1") });
    assert_eq!(
        line(&mut book, again),
        "report to client 7: C1, order status, partially filled, last 0 at 0, cum 40, leaves 60"
    );
    let below = line(&mut book, Event::Replace(replace(b"C2", 39)));
    assert_eq!(
        below,
        "refusal of a replace to client 7: C2, partially filled, our reason 99, quantity below filled quantity"
    );
    let sent = line(&mut book, Event::Cancel(amend(b"C\n3")));
    assert_eq!(sent, "cancel to venue 3: A-1 for A, buy 100 W, limit 10");
    let failed = Event::SendFailed { venue: 3, downstream: b"A-1", text: b"two\nlines" };
    assert_eq!(
        line(&mut book, failed),
        "refusal of a cancel to client 7: C 3, partially filled, our reason 99, two lines"
    );
}

#[test]
fn a_book_may_move_to_another_thread() {
    fn moves<T: Send + Sync + 'static>(_: &T) {}
    moves(&live());
    moves(&Error::Refused(Refusal::Full));
}
