//! What the Rust gateway had as inputs of its own and the book leaves to its host, as lists of events: each is put to the journal
//! with [`Journal::take`](crate::Journal::take) or [`Journal::drain`](crate::Journal::drain).
//!
//! ```
//! use desk::{recipes, Journal};
//! use jubafiye::text::from_text;
//!
//! # let mut journal = Journal::create(desk::doc_folder("recipes").join("journal"), 10_000)?;
//! let booking = "book client=7 venue=3 name=G1 clordid=C1 symbol=W side=buy ordtype=market qty=100";
//! drop(journal.take(&from_text(booking).unwrap())?);
//! // the end of the day
//! let cancels = recipes::cancel_day_orders(journal.book());
//! drop(journal.drain(cancels.iter().map(Vec::as_slice))?);
//! // until the venue has answered, G1 keeps the day open
//! assert_eq!((cancels.len(), recipes::left_open(journal.book()).len()), (1, 1));
//! # Ok::<(), desk::Error>(())
//! ```

use jubafiye::{Book, Event, ExecType, OrdStatus, Stage, VenueReport};

/// An order that the venue no longer knows (alarm 4), once a person has decided that it is done there: a report of the venue's that
/// cancels it with what was filled so far. None if the book has no such order or it is done already.
///
/// ```
/// use jubafiye::{Book, Booking, Event, OrdStatus, Qty, Side};
///
/// let mut book = Book::new(10_000);
/// let booking = Booking::new(7, 3, Side::Buy, Qty::units(100), b"WHEATH27").named(b"G1", b"C1");
/// drop(book.take(&Event::Book(booking))?);
/// let record = desk::recipes::gone_at_venue(&book, b"G1").unwrap();
/// assert_eq!(book.take_record(&record)?.messages.len(), 1);
/// assert_eq!(book.order(b"G1").unwrap().status, OrdStatus::Canceled);
/// assert_eq!(desk::recipes::gone_at_venue(&book, b"G1"), None);
/// # Ok::<(), jubafiye::Error>(())
/// ```
pub fn gone_at_venue(book: &Book, name: impl AsRef<[u8]>) -> Option<Vec<u8>> {
    let order = book.order(name).filter(|order| !order.status.is_done())?;
    let report =
        VenueReport::new(order.venue, order.downstream, ExecType::Canceled, order.cum_qty, order.avg_px)
            .status(OrdStatus::Canceled)
            .text(b"no longer known at the venue");
    Some(Event::VenueReport(report).record())
}

/// A venue whose session comes up again: event 9 for each live order there whose gateway cancel was begun and is not sent.
///
/// ```
/// use jubafiye::{Book, Booking, Event, Qty, Side};
///
/// let mut book = Book::new(10_000);
/// let booking = Booking::new(7, 3, Side::Buy, Qty::units(100), b"WHEATH27").named(b"G1", b"C1");
/// drop(book.take(&Event::Book(booking))?);
/// drop(book.take(&Event::GatewayCancel { name: b"G1" })?);
/// assert!(desk::recipes::venue_up(&book, 3).is_empty());
/// // the session could not take the gateway's cancel
/// drop(book.take(&Event::SendFailed { venue: 3, downstream: b"G1-1", text: b"session down" })?);
/// let again = desk::recipes::venue_up(&book, 3);
/// assert_eq!(again, [Event::GatewayCancel { name: b"G1" }.record()]);
/// assert_eq!(book.take_record(&again[0])?.messages.len(), 1);
/// # Ok::<(), jubafiye::Error>(())
/// ```
pub fn venue_up(book: &Book, venue: u16) -> Vec<Vec<u8>> {
    let waits = |order: &jubafiye::Order<'_>| {
        order.venue == venue && order.gateway_cancel.is_some_and(|cancel| cancel.stage == Stage::Unsent)
    };
    book.orders().filter(waits).map(|order| Event::GatewayCancel { name: order.name }.record()).collect()
}

/// A venue that lost what it was sent, so that nothing is known of what arrived: event 8 for each request that it has not settled.
/// A journal that is opened after a crash does this by itself for what was not handed over.
///
/// ```
/// use jubafiye::{Book, Booking, Event, Qty, Side};
///
/// let mut book = Book::new(10_000);
/// let booking = Booking::new(7, 3, Side::Buy, Qty::units(100), b"WHEATH27").named(b"G1", b"C1");
/// drop(book.take(&Event::Book(booking))?);
/// let lost = desk::recipes::venue_lost(&book, 3);
/// assert_eq!(lost, [Event::SendAgain { venue: 3, downstream: b"G1" }.record()]);
/// assert_eq!(book.take_record(&lost[0])?.messages.len(), 1);
/// # Ok::<(), jubafiye::Error>(())
/// ```
pub fn venue_lost(book: &Book, venue: u16) -> Vec<Vec<u8>> {
    let again =
        |request: jubafiye::Request<'_>| Event::SendAgain { venue, downstream: request.downstream }.record();
    book.unanswered(venue).map(again).collect()
}

/// The end of a day, first step: event 9 for each live order that is good for the day, so that the gateway cancels it. Orders that
/// are good till cancelled, or that are being cancelled already, stay as they are.
///
/// ```
/// use jubafiye::{Book, Booking, Event, Qty, Side, TimeInForce};
///
/// let mut book = Book::new(10_000);
/// let booking = Booking::new(7, 3, Side::Buy, Qty::units(100), b"WHEATH27").named(b"G1", b"C1");
/// drop(book.take(&Event::Book(booking))?);
/// let kept = booking.named(b"G2", b"C2").time_in_force(TimeInForce::Gtc);
/// drop(book.take(&Event::Book(kept))?);
/// assert_eq!(desk::recipes::cancel_day_orders(&book), [Event::GatewayCancel { name: b"G1" }.record()]);
/// # Ok::<(), jubafiye::Error>(())
/// ```
pub fn cancel_day_orders(book: &Book) -> Vec<Vec<u8>> {
    let ends = |order: &jubafiye::Order<'_>| {
        let kept = order.time_in_force == Some(jubafiye::TimeInForce::Gtc);
        !order.status.is_done() && !kept && order.gateway_cancel.is_none()
    };
    book.orders().filter(ends).map(|order| Event::GatewayCancel { name: order.name }.record()).collect()
}

/// The end of a day, last step: what a person has to look after before the next day starts with an empty book, one line each. An
/// empty list: the day may be closed.
///
/// ```
/// use jubafiye::{Book, Booking, Event, Qty, Side};
///
/// let mut book = Book::new(10_000);
/// let booking = Booking::new(7, 3, Side::Buy, Qty::units(100), b"WHEATH27").named(b"G1", b"C1");
/// drop(book.take(&Event::Book(booking))?);
/// assert!(desk::recipes::left_open(&book)[0].starts_with("G1: client 7 (C1), venue 3, buy 100 WHEATH27"));
/// drop(book.take_record(&desk::recipes::gone_at_venue(&book, b"G1").unwrap())?);
/// assert!(desk::recipes::left_open(&book).is_empty());
/// # Ok::<(), jubafiye::Error>(())
/// ```
pub fn left_open(book: &Book) -> Vec<String> {
    let live = book.orders().filter(|order| !order.status.is_done());
    live.map(|order| {
        let stuck = order.gateway_cancel.is_some_and(|cancel| cancel.stage == Stage::Stuck);
        format!("{order}{}", if stuck { " (a person has to cancel it at the venue)" } else { "" })
    })
    .collect()
}
