//! Both libraries in one program: what the book puts out, written as FIX and read back, is what the answer says.

use jubafiye::fix::{self, Body, Header, Outgoing, Peer};
use jubafiye::{
    Amend, Answer, Book, Booking, Error, Event, ExecType, Message, OrdStatus, OrdType, Price, Qty, Refusal,
    RejectedRequest, Replace, Side, TimeInForce, VenueReport, Words, ANSWER_BYTES,
};

const HEADER: Header<'static> =
    Header { sender: b"GATEWAY", target: b"DESK", sequence: 42, time: b"20261116-12:34:56.789" };

fn amend(cl_ord_id: &'static [u8], orig_cl_ord_id: &'static [u8]) -> Amend<'static> {
    Amend { client: 7, cl_ord_id, orig_cl_ord_id, symbol: b"WHEATH27", side: Side::Buy, redelivered: false }
}

fn report(
    downstream: &'static [u8],
    said: (ExecType, OrdStatus),
    cum: u64,
    reason: Option<u32>,
) -> Event<'static> {
    Event::VenueReport(VenueReport {
        venue: 3,
        downstream,
        exec_type: said.0,
        status: Some(said.1),
        last_qty: Qty(3),
        last_px: Price(1_025_000_001),
        cum_qty: Qty::units(cum),
        avg_px: Price::units(10),
        venue_order_id: Some(b"V=1"),
        reason,
        text: reason.map(|_| &b"said by the venue"[..]),
    })
}

/// Events whose answers have messages of every kind.
fn day() -> Vec<Event<'static>> {
    vec![
        Event::Book(Booking {
            client: 7,
            venue: 3,
            name: b"G1",
            cl_ord_id: b"C1",
            symbol: b"WHEATH27",
            side: Side::Buy,
            ord_type: OrdType::Limit,
            qty: Qty::units(100),
            price: Some(Price(1_025_000_000)),
            time_in_force: Some(TimeInForce::Gtc),
        }),
        Event::SendAgain { venue: 3, downstream: b"G1" },
        report(b"G1", (ExecType::New, OrdStatus::New), 0, None),
        report(b"G1", (ExecType::Trade, OrdStatus::PartiallyFilled), 40, Some(4_294_967_295)),
        Event::Replace(Replace {
            amend: amend(b"C2", b"C1"),
            qty: Qty::units(80),
            verdict: Ok(()),
            ord_type: None,
            price: Some(Price::units(11)),
            time_in_force: None,
            blocked: false,
        }),
        report(b"G1-1", (ExecType::Replaced, OrdStatus::PartiallyFilled), 40, None),
        Event::Cancel(amend(b"C3", b"C2")),
        Event::CancelReject(RejectedRequest {
            venue: 3,
            downstream: b"G1-2",
            status: None,
            venue_order_id: None,
            reason: Some(2),
            text: Some(b"too late"),
        }),
        Event::Cancel(amend(b"C4", b"C9")),
        Event::GatewayCancel { name: b"G1" },
        Event::Cancel(amend(b"C5", b"C2")),
    ]
}

fn words(text: &Words) -> Vec<u8> {
    match text {
        Words::Given(text) => text.clone(),
        Words::Fixed(fixed) => match fixed.number() {
            1 => b"gateway is cancelling".to_vec(),
            6 => b"unknown order".to_vec(),
            other => panic!("the text {other} is not in this day"),
        },
    }
}

fn same(message: &Message, body: &Body<'_>) {
    match (message, body) {
        (Message::Report(told), Body::Report(fix)) => {
            assert_eq!(
                (fix.order_id, fix.cl_ord_id, fix.symbol),
                (&told.name[..], &told.cl_ord_id[..], &told.symbol[..])
            );
            assert_eq!((fix.orig_cl_ord_id, fix.price), (told.orig_cl_ord_id.as_deref(), told.price));
            assert_eq!((fix.side, fix.ord_type, fix.qty), (told.side, told.ord_type, told.qty));
            assert_eq!(
                (fix.time_in_force, fix.exec_type, fix.status),
                (told.time_in_force, told.exec_type, told.status)
            );
            assert_eq!(
                (fix.last_qty, fix.cum_qty, fix.leaves_qty),
                (told.last_qty, told.cum_qty, told.leaves_qty)
            );
            assert_eq!((fix.avg_px, fix.last_px, fix.exec_seq), (told.avg_px, told.last_px, told.exec_seq));
            assert_eq!(fix.exec_id, [&told.name[..], b".", told.exec_seq.to_string().as_bytes()].concat());
            assert_eq!(fix.reason, told.reason.map(|reason| reason.number()));
            assert_eq!(fix.text.map(<[u8]>::to_vec), told.text.as_ref().map(words));
        }
        (Message::CancelReject(told), Body::CancelReject(fix)) => {
            assert_eq!((fix.order_id, fix.cl_ord_id), (told.name.as_deref(), &told.cl_ord_id[..]));
            assert_eq!((fix.orig_cl_ord_id, fix.status), (&told.orig_cl_ord_id[..], told.status));
            assert_eq!((fix.reason, fix.response_to), (told.reason.number(), told.response_to));
            assert_eq!(fix.text, words(&told.text));
        }
        (Message::NewOrder(told), Body::NewOrder(fix)) => {
            assert_eq!(
                (fix.cl_ord_id, fix.symbol, fix.side),
                (&told.downstream[..], &told.symbol[..], told.side)
            );
            assert_eq!((fix.ord_type, fix.qty, fix.price), (told.ord_type, told.qty, told.price));
            assert_eq!(fix.time_in_force, told.time_in_force);
        }
        (Message::Cancel(told), Body::Cancel(fix)) => {
            assert_eq!(
                (fix.cl_ord_id, fix.symbol, fix.side),
                (&told.downstream[..], &told.symbol[..], told.side)
            );
            assert_eq!((fix.qty, fix.order_id), (told.qty, told.venue_order_id.as_deref()));
            assert_eq!(Some(fix.orig_cl_ord_id), told.orig_downstream.as_deref());
        }
        (Message::Replace(told), Body::Replace(fix)) => {
            let order = &fix.order;
            assert_eq!(
                (order.cl_ord_id, order.symbol, order.side),
                (&told.downstream[..], &told.symbol[..], told.side)
            );
            assert_eq!((order.ord_type, order.qty, order.price), (told.ord_type, told.qty, told.price));
            assert_eq!(
                (order.time_in_force, fix.order_id),
                (told.time_in_force, told.venue_order_id.as_deref())
            );
            assert_eq!(Some(fix.orig_cl_ord_id), told.orig_downstream.as_deref());
        }
        (message, body) => panic!("{message:?} is written as {body:?}"),
    }
}

#[test]
fn what_the_book_puts_out_is_written_and_read() {
    let mut book = Book::new(10_000);
    let mut kinds = [0; 5];
    for event in day() {
        let mut buffer = [0; ANSWER_BYTES];
        let bytes = book.take_record_into(&event.record(), &mut buffer).expect("a taken event");
        let answer = Answer::read(bytes).expect("an answer");
        let records = fix::records(bytes).expect("an answer");
        assert_eq!(records.len(), answer.messages.len());
        let outgoing: Vec<Outgoing<'_>> = fix::outgoing(bytes).expect("an answer").collect();
        assert!(outgoing.iter().map(|outgoing| outgoing.record).eq(records.iter().copied()));
        assert!(outgoing.iter().map(|outgoing| &outgoing.message).eq(&answer.messages));
        for (record, message) in records.into_iter().zip(&answer.messages) {
            let to_client = matches!(message, Message::Report(_) | Message::CancelReject(_));
            assert_eq!(Peer::of(message), if to_client { Peer::Client(7) } else { Peer::Venue(3) });
            let written = fix::to_vec(record, &HEADER).expect("a message");
            let read = fix::read(&written).expect("what was written");
            assert_eq!(read.header, HEADER);
            same(message, &read.body);
            kinds[usize::from(record[0] - 16)] += 1;
        }
    }
    assert!(kinds.iter().all(|&count| count > 0), "{kinds:?}");
}

fn taken<'a>(book: &mut Book, event: &Event<'_>, buffer: &'a mut [u8]) -> Vec<Outgoing<'a>> {
    let answer = book.take_record_into(&event.record(), buffer).expect("a taken event");
    fix::outgoing(answer).expect("an answer").collect()
}

/// A booked order, and a venue's report of a fill of 40 with this text.
fn filled(text: &[u8]) -> (Book, VenueReport<'_>) {
    let mut book = Book::new(10_000);
    day().iter().take(3).for_each(|event| drop(book.take(event).expect("a taken event")));
    let fill = VenueReport {
        venue: 3,
        downstream: b"G1",
        exec_type: ExecType::Trade,
        status: Some(OrdStatus::PartiallyFilled),
        last_qty: Qty::units(40),
        last_px: Price::units(10),
        cum_qty: Qty::units(40),
        avg_px: Price::units(10),
        venue_order_id: None,
        reason: None,
        text: Some(text),
    };
    (book, fill)
}

/// The fill is taken and cannot be told as it is. It is told with the text cleaned, and the book goes on.
#[test]
fn a_fill_with_a_text_that_fix_does_not_carry_is_told() {
    let (mut book, fill) = filled(b"a\nb");
    let mut buffer = [0; ANSWER_BYTES];
    let outgoing = taken(&mut book, &Event::VenueReport(fill), &mut buffer);
    let [told] = &outgoing[..] else { panic!("one message: {outgoing:?}") };
    assert_eq!(told.to_vec(&HEADER), Err(Refusal::Text));
    let Message::Report(report) = &told.message else { panic!("a report") };
    assert_eq!(
        (report.last_qty, report.text.as_ref()),
        (Qty::units(40), Some(&Words::Given(b"a\nb".to_vec())))
    );
    let message = fix::to_vec(&fix::with_clean_text(told.record), &HEADER).expect("a message");
    let Ok(Body::Report(read)) = fix::read(&message).map(|read| read.body) else { panic!("a report") };
    assert_eq!((read.last_qty, read.cum_qty, read.text), (Qty::units(40), Qty::units(40), Some(&b"a b"[..])));
    assert_eq!((read.exec_id, read.exec_seq), (&b"G1.1"[..], report.exec_seq));
    // Taken again, as a venue resends it, it is stale: the first answer was the only one that tells it.
    let mut buffer = [0; ANSWER_BYTES];
    assert!(taken(&mut book, &Event::VenueReport(fill), &mut buffer).is_empty());
    assert!(book.keeps_rules());
}

/// Better: the text is cleaned before the event is taken, so that the book's message is the one that is sent.
#[test]
fn a_text_that_is_cleaned_before_it_is_taken_is_written() {
    let (mut book, fill) = filled(b"a\nb");
    let text = fix::clean(b"a\nb");
    let fill = Event::VenueReport(VenueReport { text: Some(&text), ..fill });
    let mut buffer = [0; ANSWER_BYTES];
    let outgoing = taken(&mut book, &fill, &mut buffer);
    let messages: Vec<_> = outgoing.iter().map(|outgoing| outgoing.to_vec(&HEADER)).collect();
    let [Ok(message)] = &messages[..] else { panic!("one message: {messages:?}") };
    assert_eq!(fix::read(message).expect("a message").fields.get(58), Some(&b"a b"[..]));
}

/// An answer of a client's refusal and the gateway's own cancel goes to two peers.
#[test]
fn two_messages_of_an_answer_go_to_two_peers() {
    let mut book = Book::new(10_000);
    let refused = Event::CancelReject(RejectedRequest {
        venue: 3,
        downstream: b"G1-1",
        status: None,
        venue_order_id: None,
        reason: Some(2),
        text: None,
    });
    for event in [&day()[0], &Event::Cancel(amend(b"C2", b"C1")), &Event::GatewayCancel { name: b"G1" }] {
        let _ = book.take(event).expect("a taken event");
    }
    let mut buffer = [0; ANSWER_BYTES];
    let peers: Vec<Peer> =
        taken(&mut book, &refused, &mut buffer).iter().map(|outgoing| outgoing.to).collect();
    assert_eq!(peers, [Peer::Client(7), Peer::Venue(3)]);
}

#[test]
fn what_is_no_answer_has_no_messages() {
    for bytes in [&b""[..], b"none", &[5, 0, 1, 0, 0], &[5, 0, 3, 0, 0]] {
        assert_eq!(fix::outgoing(bytes).map(Iterator::count), Err(Error::Refused(Refusal::Record)));
    }
    assert_eq!(fix::outgoing(&[5, 0, 0, 6, 1]).map(Iterator::count), Ok(0));
}
