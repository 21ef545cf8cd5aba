//! What an event will need, before it is taken. Rests on entries, book and event.

use crate::book::Book;
use crate::entries;
use crate::error::Refusal;
use crate::event::Event;

/// What an event will need: the numbers of the event then run on the same book.
///
/// ```
/// use jubafiye::{Book, Event, Needs};
///
/// let mut book = Book::new(10_000);
/// let event = Event::UnknownAtVenue { venue: 3, downstream: b"G1" };
/// let Needs { length, messages, .. } = book.needs(&event)?;
/// assert_eq!((length, messages), (5, 0));
/// assert_eq!(book.take(&event)?.messages.len(), 0);
/// # Ok::<(), jubafiye::Error>(())
/// ```
#[derive(Debug, Clone, Copy, PartialEq, Eq, Hash, Default)]
#[non_exhaustive]
pub struct Needs {
    /// The bytes of its answer, the head included.
    pub length: u32,
    /// The messages that go out, at most two.
    pub messages: u32,
    /// The request records that it adds to the book, at most one.
    pub requests: u32,
    /// The fields of the first message, 0 if there is none: one for each bit of its map.
    pub fields_first: u32,
    /// The fields of the second message, 0 if there is none.
    pub fields_second: u32,
}

impl Book {
    /// What an event will need, or the refusal that it would get; the book does not change.
    ///
    /// ```
    /// # use jubafiye::{Amend, Book, Booking, Event, OrdType, Price, Qty, Refusal, Side};
    /// let mut book = Book::new(10_000);
    /// let booking = Event::Book(Booking {
    ///     client: 7,
    ///     venue: 3,
    ///     name: b"G1",
    ///     cl_ord_id: b"C1",
    ///     symbol: b"WHEATH27",
    ///     side: Side::Buy,
    ///     ord_type: OrdType::Limit,
    ///     qty: Qty::units(100),
    ///     price: Some(Price::units(10)),
    ///     time_in_force: None,
    /// });
    /// // A booking puts nothing out and adds the order's first request.
    /// let needs = book.needs(&booking)?;
    /// assert_eq!((needs.messages, needs.requests), (0, 1));
    /// book.take(&booking)?;
    /// assert_eq!(book.needs(&booking), Err(Refusal::InUse));
    ///
    /// // A cancel goes to the venue: a message of eight fields, and a second request.
    /// let cancel = Event::Cancel(Amend {
    ///     client: 7,
    ///     cl_ord_id: b"C2",
    ///     orig_cl_ord_id: b"C1",
    ///     symbol: b"WHEATH27",
    ///     side: Side::Buy,
    ///     redelivered: false,
    /// });
    /// let needs = book.needs(&cancel)?;
    /// assert_eq!((needs.messages, needs.requests), (1, 1));
    /// assert_eq!((needs.fields_first, needs.fields_second), (8, 0));
    /// # Ok::<(), jubafiye::Error>(())
    /// ```
    pub fn needs(&self, event: &Event<'_>) -> Result<Needs, Refusal> {
        self.needs_of_record(&event.record())
    }

    /// The same of an event's record, which may be any bytes. Nothing is allocated.
    ///
    /// ```
    /// # use jubafiye::{Book, Refusal};
    /// assert_eq!(Book::new(10_000).needs_of_record(b"no record"), Err(Refusal::Record));
    /// ```
    pub fn needs_of_record(&self, record: &[u8]) -> Result<Needs, Refusal> {
        entries::needs(self.bytes(), record)
    }
}
