//! Open quantities over the linked library: what moves them, and older books, without them.

use jubafiye::{
    Amend, Book, Booking, Error, Event, ExecType, OrdStatus, OrdType, Price, Qty, Refusal, RejectedRequest,
    Replace, Side, VenueReport, BOOK_BYTES,
};

/// Where the open quantities stand (docs/LAYOUT.md), one for each order's place.
const OPENS_AT: usize = 49_408;
const OPENS_END: usize = OPENS_AT + 64 * 8;

fn booking(client: u16, name: &[u8], qty: u64) -> Event<'_> {
    Event::Book(Booking {
        client,
        venue: 3,
        name,
        cl_ord_id: name,
        symbol: b"W",
        side: Side::Buy,
        ord_type: OrdType::Market,
        qty: Qty::units(qty),
        price: None,
        time_in_force: None,
    })
}

fn report(downstream: &[u8], exec_type: ExecType, status: OrdStatus, cum: u64) -> Event<'_> {
    Event::VenueReport(VenueReport {
        venue: 3,
        downstream,
        exec_type,
        status: Some(status),
        last_qty: Qty::units(cum),
        last_px: Price::units(10),
        cum_qty: Qty::units(cum),
        avg_px: Price::units(10),
        venue_order_id: None,
        reason: None,
        text: None,
    })
}

fn amend<'a>(client: u16, orig_cl_ord_id: &'a [u8], cl_ord_id: &'a [u8]) -> Amend<'a> {
    Amend { client, cl_ord_id, orig_cl_ord_id, symbol: b"W", side: Side::Buy, redelivered: false }
}

fn refused(downstream: &[u8], status: Option<OrdStatus>) -> Event<'_> {
    let venue_order_id = None;
    let refused =
        RejectedRequest { venue: 3, downstream, status, venue_order_id, reason: Some(0), text: None };
    Event::CancelReject(refused)
}

/// Two clients with orders between one another's, filled in part.
fn book() -> Result<Book, Error> {
    let mut book = Book::new(10_000);
    for (client, name, qty) in [(7, &b"A"[..], 100), (9, b"B", 40), (7, b"C", 50), (9, b"D", 5)] {
        drop(book.take(&booking(client, name, qty))?);
    }
    drop(book.take(&report(b"C", ExecType::Trade, OrdStatus::PartiallyFilled, 20))?);
    Ok(book)
}

fn open(book: &Book) -> [Qty; 4] {
    [0, 7, 9, u16::MAX].map(|client| book.open_quantity(client))
}

fn units(units: [u64; 4]) -> [Qty; 4] {
    units.map(Qty::units)
}

#[test]
fn bookings_fills_and_done_orders_count() -> Result<(), Error> {
    assert_eq!(open(&Book::new(10_000)), units([0; 4]));
    let mut book = book()?;
    assert_eq!(open(&book), units([0, 130, 45, 0]));
    drop(book.take(&report(b"A", ExecType::Canceled, OrdStatus::Canceled, 60))?);
    assert_eq!(open(&book), units([0, 30, 45, 0]));
    drop(book.take(&report(b"B", ExecType::Trade, OrdStatus::Filled, 40))?);
    assert_eq!(open(&book), units([0, 30, 5, 0]));
    let before = book.as_bytes().to_vec();
    assert_eq!(book.take(&booking(9, b"B", 7)), Err(Error::Refused(Refusal::InUse)));
    assert_eq!((book.as_bytes(), open(&book)), (&before[..], units([0, 30, 5, 0])));
    Ok(())
}

#[test]
fn a_replace_counts_once_it_is_accepted() -> Result<(), Error> {
    let mut book = book()?;
    let replace = Replace {
        amend: amend(7, b"A", b"R"),
        qty: Qty::units(300),
        verdict: Ok(()),
        ord_type: None,
        price: None,
        time_in_force: None,
        blocked: false,
    };
    drop(book.take(&Event::Replace(replace))?);
    assert_eq!(book.open_quantity(7), Qty::units(130));
    drop(book.take(&report(b"A-1", ExecType::Replaced, OrdStatus::New, 0))?);
    assert_eq!(book.open_quantity(7), Qty::units(330));
    Ok(())
}

#[test]
fn a_refusals_status_counts_with_a_cancel_reject_or_with_nothing_told() -> Result<(), Error> {
    for (request, told) in
        [(Event::Cancel(amend(7, b"A", b"R")), 1), (Event::GatewayCancel { name: b"A" }, 0)]
    {
        let mut book = book()?;
        drop(book.take(&request)?);
        assert_eq!(book.open_quantity(7), Qty::units(130));
        let answer = book.take(&refused(b"A-1", Some(OrdStatus::Canceled)))?;
        assert_eq!((answer.messages.len(), book.open_quantity(7)), (told, Qty::units(30)), "{request:?}");
        assert!(book.keeps_rules());
    }
    Ok(())
}

#[test]
fn a_book_with_another_sum_is_refused() -> Result<(), Error> {
    let stored = book()?.into_bytes();
    for at in OPENS_AT..OPENS_END {
        let mut damaged = stored.clone();
        damaged[at] ^= 0x40;
        // Orders 0 and 1 are the first of their clients; the other words may be anything.
        let first = at < OPENS_AT + 2 * 8;
        assert_eq!(Book::from_bytes(&damaged).is_err(), first, "byte {at}");
        let carried = Book::carry_over(&damaged)?;
        assert_eq!((open(&carried), carried.as_bytes() == stored), (units([0, 130, 45, 0]), first));
    }
    Ok(())
}

#[test]
fn a_book_from_before_is_carried_over() -> Result<(), Error> {
    let book = book()?;
    for filler in [0, 0xA5] {
        let mut stored = book.as_bytes().to_vec();
        stored[OPENS_AT..].fill(filler);
        assert!(matches!(Book::from_bytes(&stored), Err(Refusal::Book)));
        let mut carried = Book::carry_over(&stored)?;
        assert_eq!(open(&carried), units([0, 130, 45, 0]));
        // Two words are written, and nothing else.
        stored[OPENS_AT..OPENS_AT + 16].copy_from_slice(&book.as_bytes()[OPENS_AT..OPENS_AT + 16]);
        assert_eq!(carried.as_bytes(), stored);
        drop(carried.take(&report(b"A", ExecType::Trade, OrdStatus::PartiallyFilled, 1))?);
        assert_eq!(open(&carried), units([0, 129, 45, 0]));
    }
    Ok(())
}

#[test]
fn a_full_book_from_before_is_carried_over() -> Result<(), Error> {
    let mut book = Book::new(10_000);
    for number in 0..64_u16 {
        let name = format!("N{number}");
        drop(book.take(&booking(number * 1_040, name.as_bytes(), 100_000_000))?);
    }
    let mut stored = book.as_bytes().to_vec();
    stored[OPENS_AT..OPENS_END].fill(0xFF);
    let carried = Book::carry_over(&stored)?;
    assert_eq!(carried.as_bytes(), book.as_bytes());
    (0..64_u16).for_each(|number| assert_eq!(carried.open_quantity(number * 1_040), Qty::MAX));
    Ok(())
}

#[test]
fn what_keeps_no_other_rule_is_not_carried_over() -> Result<(), Error> {
    for length in [0, 1, BOOK_BYTES - 1, BOOK_BYTES + 1] {
        assert!(matches!(Book::carry_over(&vec![0; length]), Err(Refusal::Book)));
    }
    for byte in 1..=u8::MAX {
        assert!(matches!(Book::carry_over(&vec![byte; BOOK_BYTES]), Err(Refusal::Book)));
    }
    // A status in no list.
    let mut stored = book()?.into_bytes();
    stored[256 + 188] = b'7';
    assert!(matches!(Book::carry_over(&stored), Err(Refusal::Book)));
    Ok(())
}
