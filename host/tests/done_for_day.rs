//! OrdStatus 3 over the linked library: live, with leaves 0, until another status comes.

use jubafiye::{
    Alarm, Amend, Answer, Book, Booking, Error, Event, ExecType, Message, OrdStatus, OrdType, Price, Qty,
    RejectedRequest, Report, Side, VenueReport,
};

fn book() -> Result<Book, Error> {
    let mut book = Book::new(10_000);
    let booking = Booking {
        client: 7,
        venue: 3,
        name: b"A",
        cl_ord_id: b"C1",
        symbol: b"W",
        side: Side::Buy,
        ord_type: OrdType::Limit,
        qty: Qty::units(100),
        price: Some(Price::units(10)),
        time_in_force: None,
    };
    drop(book.take(&Event::Book(booking))?);
    Ok(book)
}

/// A report on the order: its status, and what was filled in all.
fn report(exec_type: ExecType, status: Option<OrdStatus>, cum: u64, last: u64) -> Event<'static> {
    Event::VenueReport(VenueReport {
        venue: 3,
        downstream: b"A",
        exec_type,
        status,
        last_qty: Qty::units(last),
        last_px: Price::units(10),
        cum_qty: Qty::units(cum),
        avg_px: Price::units(10),
        venue_order_id: None,
        reason: None,
        text: None,
    })
}

/// The event's only message, a report.
fn told(book: &mut Book, event: &Event<'_>) -> Result<Report, Error> {
    let Answer { messages, alarms, .. } = book.take(event)?;
    assert!(alarms.is_empty());
    match messages.into_iter().next() {
        Some(Message::Report(report)) => Ok(report),
        other => panic!("no report: {other:?}"),
    }
}

/// New, then done for the day.
fn ended() -> Result<Book, Error> {
    let mut book = book()?;
    drop(book.take(&report(ExecType::New, Some(OrdStatus::New), 0, 0))?);
    let told = told(&mut book, &report(ExecType::DoneForDay, Some(OrdStatus::DoneForDay), 0, 0))?;
    assert_eq!((told.status, told.leaves_qty), (OrdStatus::DoneForDay, Qty(0)));
    Ok(book)
}

#[test]
fn it_is_told_printed_and_counted_with_leaves_0() -> Result<(), Error> {
    let mut book = ended()?;
    assert_eq!(book.open_quantity(7), Qty(0));
    let line = format!("{:20}{:16}3      100.0000        0.0000        0.0000 ", "A", "W");
    assert!(book.page().lines().eq([line.as_bytes()]));
    assert!(book.keeps_rules());
    assert_eq!(Book::carry_over(book.as_bytes())?.as_bytes(), book.as_bytes());
    // A fill without a status leaves it; a later status brings the rest back.
    let filled = told(&mut book, &report(ExecType::Trade, None, 40, 40))?;
    assert_eq!(
        (filled.status, filled.last_qty, filled.leaves_qty),
        (OrdStatus::DoneForDay, Qty::units(40), Qty(0))
    );
    let again = told(&mut book, &report(ExecType::Status, Some(OrdStatus::PartiallyFilled), 40, 0))?;
    assert_eq!((again.status, again.leaves_qty), (OrdStatus::PartiallyFilled, Qty::units(60)));
    assert_eq!(book.open_quantity(7), Qty::units(60));
    Ok(())
}

#[test]
fn it_is_live() -> Result<(), Error> {
    let amend = Amend {
        client: 7,
        cl_ord_id: b"C2",
        orig_cl_ord_id: b"C1",
        symbol: b"W",
        side: Side::Buy,
        redelivered: false,
    };
    let answer = ended()?.take(&Event::Cancel(amend))?;
    assert!(matches!(answer.messages[..], [Message::Cancel(_)]), "{answer:?}");
    // Fills count up to the quantity, and not to the leaves.
    let over = ended()?.take(&report(ExecType::Trade, Some(OrdStatus::DoneForDay), 101, 101))?;
    assert_eq!(over.alarms, [Alarm::Overfill]);
    let all = told(&mut ended()?, &report(ExecType::Trade, Some(OrdStatus::DoneForDay), 100, 100))?;
    assert_eq!((all.status, all.cum_qty), (OrdStatus::DoneForDay, Qty::units(100)));
    Ok(())
}

#[test]
fn a_refusal_brings_it_and_an_image_holds_it() -> Result<(), Error> {
    let mut book = book()?;
    drop(book.take(&Event::GatewayCancel { name: b"A" })?);
    let refused = RejectedRequest {
        venue: 3,
        downstream: b"A-1",
        status: Some(OrdStatus::DoneForDay),
        venue_order_id: None,
        reason: Some(99),
        text: None,
    };
    // The gateway's cancel goes again, and the client hears nothing.
    let answer = book.take(&Event::CancelReject(refused))?;
    assert!(matches!(answer.messages[..], [Message::Cancel(_)]), "{answer:?}");
    assert_eq!(book.open_quantity(7), Qty(0));
    let image = Book::from_bytes(book.as_bytes())?;
    assert_eq!(image.open_quantity(7), Qty(0));
    Ok(())
}
