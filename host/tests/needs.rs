//! What an event will need, over the linked library: what is said before each event of a day, compared with the event then run on a copy.

use jubafiye::{
    Amend, Book, Booking, Error, Event, ExecType, Needs, OrdStatus, OrdType, Price, Qty, Refusal,
    RejectedRequest, Replace, Side, TimeInForce, VenueReport, ANSWER_BYTES,
};

/// The bytes of each field by its bit (docs/SCOPE.md, Records); a text brings its length.
const TEXT: usize = 255;
const SIZES: [usize; 32] = [
    2, 2, TEXT, TEXT, TEXT, TEXT, TEXT, 1, 1, 8, 8, 1, 1, 1, 8, 8, 8, 8, TEXT, 4, TEXT, 0, 0, 1, 8, 8, 16, 1,
    1, 1, TEXT, 1,
];

/// The requests in use (docs/LAYOUT.md).
fn requests(book: &Book) -> u32 {
    u16::from_le_bytes(book.as_bytes()[2..4].try_into().unwrap()).into()
}

/// How many fields the message at the front has, taken one by one, and what stands behind it.
fn fields(message: &[u8]) -> (u32, &[u8]) {
    let map = u32::from_le_bytes(message[1..5].try_into().unwrap());
    let (mut count, mut rest) = (0, &message[5..]);
    for bit in (0..32).filter(|bit| map >> bit & 1 == 1) {
        let size = if SIZES[bit] == TEXT { 1 + usize::from(rest[0]) } else { SIZES[bit] };
        (count, rest) = (count + 1, &rest[size..]);
    }
    (count, rest)
}

/// The head of an answer: what one without a message has.
fn head() -> usize {
    let mut answer = [0; ANSWER_BYTES];
    let silent = Event::SendAgain { venue: 3, downstream: b"nobody" }.record();
    Book::new(10_000).take_record_into(&silent, &mut answer).unwrap().len()
}

/// The numbers of an event that is run, or the refusal if it is not taken.
fn run(book: &mut Book, record: &[u8]) -> Result<[u32; 5], Refusal> {
    let (mut answer, before) = ([0xAA; ANSWER_BYTES], requests(book));
    let answer = book.take_record_into(record, &mut answer)?;
    let (mut rest, mut counts) = (&answer[head()..], [0; 2]);
    for count in counts.iter_mut().take(answer[2].into()) {
        (*count, rest) = fields(rest);
    }
    assert!(rest.is_empty());
    Ok([answer.len() as u32, answer[2].into(), requests(book) - before, counts[0], counts[1]])
}

fn numbers(needs: Needs) -> [u32; 5] {
    [needs.length, needs.messages, needs.requests, needs.fields_first, needs.fields_second]
}

/// Asks, runs the event, and compares; nothing has changed before it runs.
fn compare(book: &mut Book, event: &Event<'_>) -> Result<[u32; 5], Refusal> {
    let before = book.as_bytes().to_vec();
    let asked = book.needs(event);
    assert_eq!(book.as_bytes(), before);
    assert_eq!(book.needs_of_record(&event.record()), asked);
    let needed = run(book, &event.record());
    assert_eq!(asked.map(numbers), needed, "{event:?}");
    needed
}

fn booking<'a>(name: &'a [u8], cl_ord_id: &'a [u8]) -> Booking<'a> {
    Booking {
        client: 7,
        venue: 3,
        name,
        cl_ord_id,
        symbol: b"W",
        side: Side::Sell,
        ord_type: OrdType::Limit,
        qty: Qty::units(100),
        price: Some(Price::units(10)),
        time_in_force: Some(TimeInForce::Day),
    }
}

fn amend(cl_ord_id: &[u8]) -> Amend<'_> {
    Amend { client: 7, cl_ord_id, orig_cl_ord_id: b"C1", symbol: b"W", side: Side::Sell, redelivered: false }
}

fn replace(cl_ord_id: &[u8]) -> Replace<'_> {
    let amend = amend(cl_ord_id);
    let (ord_type, price, time_in_force) = (None, Some(Price::units(12)), None);
    Replace { amend, qty: Qty::units(120), verdict: Ok(()), ord_type, price, time_in_force, blocked: false }
}

fn report(downstream: &[u8], status: OrdStatus, cum: u64) -> Event<'_> {
    Event::VenueReport(VenueReport {
        venue: 3,
        downstream,
        exec_type: if cum == 0 { ExecType::New } else { ExecType::Trade },
        status: Some(status),
        last_qty: Qty(3),
        last_px: Price::units(11),
        cum_qty: Qty::units(cum),
        avg_px: Price::units(10),
        venue_order_id: Some(b"V-1"),
        reason: Some(5),
        text: Some(b"said by the venue"),
    })
}

fn cancel_reject(downstream: &[u8]) -> Event<'_> {
    let (status, venue_order_id, text) = (None, None, None);
    Event::CancelReject(RejectedRequest {
        venue: 3,
        downstream,
        status,
        venue_order_id,
        reason: Some(99),
        text,
    })
}

#[test]
fn a_day_with_each_kind_of_event_and_an_answer_of_two() -> Result<(), Error> {
    let mut book = Book::new(10_000);
    let day = [
        Event::Book(booking(b"A", b"C1")),
        Event::SendAgain { venue: 3, downstream: b"A" },
        report(b"A", OrdStatus::New, 0),
        report(b"A", OrdStatus::PartiallyFilled, 40),
        Event::Replace(replace(b"C2")),
        Event::SendFailed { venue: 3, downstream: b"A-1", text: b"down" },
        Event::Cancel(amend(b"C3")),
        Event::GatewayCancel { name: b"A" },
        cancel_reject(b"A-2"),
        report(b"A", OrdStatus::PartiallyFilled, 101),
        Event::Cancel(amend(b"C4")),
        Event::UnknownAtVenue { venue: 3, downstream: b"A" },
        report(b"A", OrdStatus::Filled, 100),
        report(b"B", OrdStatus::Filled, 100),
    ];
    let mut seen = [false; 3];
    for event in &day {
        let [_, messages, added, first, second] = compare(&mut book, event)?;
        seen[messages as usize] = true;
        assert!(added <= 1 && (first > 0) == (messages > 0) && (second > 0) == (messages > 1));
    }
    assert_eq!(seen, [true; 3]);
    // The two messages of an answer do not have the same fields.
    let mut book = Book::new(10_000);
    for event in &day[..8] {
        compare(&mut book, event)?;
    }
    let [length, 2, 1, first, second] = compare(&mut book, &day[8])? else { panic!("two messages") };
    assert!(first != second && length as usize > head());
    Ok(())
}

#[test]
fn a_refused_event_needs_nothing_and_gets_its_own_number() -> Result<(), Error> {
    let mut book = Book::new(10_000);
    compare(&mut book, &Event::Book(booking(b"A", b"C1")))?;
    let no_price = Booking { price: None, ..booking(b"B", b"C2") };
    let refused = [
        (Event::GatewayCancel { name: b"not-a-name" }, Refusal::Range),
        (Event::Book(booking(b"A", b"C9")), Refusal::InUse),
        (Event::Book(no_price), Refusal::Price),
    ];
    for (event, refusal) in refused {
        assert_eq!(compare(&mut book, &event), Err(refusal));
    }
    for record in [&b""[..], b"no record", &[1; 300]] {
        assert_eq!(book.needs_of_record(record), Err(Refusal::Record));
        assert_eq!(run(&mut book, record), Err(Refusal::Record));
    }
    Ok(())
}

#[test]
fn full_tables() -> Result<(), Error> {
    let mut book = Book::new(10_000);
    let names: Vec<String> = (0..65).map(|number| format!("N{number}")).collect();
    let booking = |name: &'_ String| Event::Book(booking(name.as_bytes(), name.as_bytes())).record();
    for name in &names[..64] {
        let asked = book.needs_of_record(&booking(name)).map(numbers);
        assert_eq!(run(&mut book, &booking(name)), asked);
        assert!(asked.is_ok());
    }
    assert_eq!(book.needs_of_record(&booking(&names[64])), Err(Refusal::Full));
    // Three tries of a gateway cancel, of all orders but the last; three refused cancels of its client there.
    for name in &names[..63] {
        compare(&mut book, &Event::GatewayCancel { name: name.as_bytes() })?;
        for attempt in 1..=2 {
            let downstream = format!("{name}-{attempt}");
            compare(&mut book, &cancel_reject(downstream.as_bytes()))?;
        }
    }
    let cancel = |cl_ord_id| Event::Cancel(Amend { orig_cl_ord_id: b"N63", ..amend(cl_ord_id) });
    for (cl_ord_id, downstream) in [(b"K1", b"N63-1"), (b"K2", b"N63-2"), (b"K3", b"N63-3")] {
        compare(&mut book, &cancel(cl_ord_id))?;
        compare(&mut book, &cancel_reject(downstream))?;
    }
    assert_eq!(requests(&book), 256);
    // One more is refused, and no request is counted; what adds none is taken.
    assert_eq!(compare(&mut book, &cancel(b"K4")), Err(Refusal::Full));
    let [_, 1, 0, _, 0] = compare(&mut book, &report(b"N63", OrdStatus::PartiallyFilled, 40))? else {
        panic!("one message and no request")
    };
    Ok(())
}
