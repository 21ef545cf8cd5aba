//! The book in its buffer. Rests on entries, event and answer.

use std::fmt;

use crate::answer::{whole, Answer};
use crate::entries::{self, BookBytes, ANSWER_BYTES, BOOK_BYTES};
use crate::error::{Error, Refusal};
use crate::event::Event;

/// An order book: 65,536 bytes that the proved functions read and write. It always keeps its rules.
///
/// It holds nothing else and shares nothing: books may be used side by side, each by one thread at a time.
///
/// ```
/// use jubafiye::{Alarm, Book, Booking, Event, ExecType, Message, OrdStatus, OrdType, Price, Qty, Side, VenueReport};
///
/// let mut book = Book::new(10_000);
/// book.take(&Event::Book(Booking {
///     client: 7,
///     venue: 3,
///     name: b"G1",
///     cl_ord_id: b"C1",
///     symbol: b"WHEATH27",
///     side: Side::Buy,
///     ord_type: OrdType::Limit,
///     qty: Qty::units(100),
///     price: Some(Price::units(10)),
///     time_in_force: None,
/// }))?;
///
/// let mut fill = VenueReport {
///     venue: 3,
///     downstream: b"G1",
///     exec_type: ExecType::Trade,
///     status: Some(OrdStatus::PartiallyFilled),
///     last_qty: Qty::units(40),
///     last_px: Price::units(10),
///     cum_qty: Qty::units(40),
///     avg_px: Price::units(10),
///     venue_order_id: Some(b"V-1"),
///     reason: None,
///     text: None,
/// };
/// let answer = book.take(&Event::VenueReport(fill))?;
/// let [Message::Report(told)] = &answer.messages[..] else { panic!("one report goes out") };
/// assert_eq!((told.last_qty.to_string(), told.leaves_qty.to_string()), ("40".into(), "60".into()));
///
/// fill.cum_qty = Qty::units(101);
/// assert_eq!(book.take(&Event::VenueReport(fill))?.alarms, [Alarm::Overfill]);
/// # Ok::<(), jubafiye::Error>(())
/// ```
#[derive(Clone)]
pub struct Book {
    bytes: Box<BookBytes>,
    /// The latest record, kept for its room.
    record: Vec<u8>,
}

impl Book {
    /// An empty book. `setting`: the most ClOrdIDs that a client may use, the reserve included.
    /// ```
    /// let book = jubafiye::Book::new(10_000);
    /// assert_eq!((book.setting(), book.orders().count()), (10_000, 0));
    /// ```
    pub fn new(setting: u32) -> Self {
        let mut bytes = Box::new([0; BOOK_BYTES]);
        // `start` refuses only another length, which the type rules out; a library with other books would refuse each event.
        let _ = entries::start(&mut bytes, setting);
        Self { bytes, record: Vec::new() }
    }

    /// A book from the bytes of one: how a book is taken up again after a restart. Bytes of another length, or that do not
    /// keep the rules, are refused with [`Refusal::Book`].
    ///
    /// ```
    /// use jubafiye::{Book, Refusal};
    ///
    /// let stored = Book::new(10_000).into_bytes();
    /// let book = Book::from_bytes(&stored)?;
    /// assert_eq!(book.as_bytes(), stored);
    /// assert!(matches!(Book::from_bytes(b"no book"), Err(Refusal::Book)));
    /// # Ok::<(), Refusal>(())
    /// ```
    pub fn from_bytes(bytes: &[u8]) -> Result<Self, Refusal> {
        let bytes: Box<BookBytes> = Box::<[u8]>::from(bytes).try_into().map_err(|_| Refusal::Book)?;
        entries::check(&bytes)?;
        Ok(Self { bytes, record: Vec::new() })
    }

    /// The book's bytes, by docs/LAYOUT.md.
    /// ```
    /// let book = jubafiye::Book::new(10_000);
    /// assert_eq!(book.as_bytes().len(), jubafiye::BOOK_BYTES);
    /// ```
    pub fn as_bytes(&self) -> &[u8] {
        &self.bytes[..]
    }

    /// The book's bytes, for a store.
    /// ```
    /// use jubafiye::Book;
    ///
    /// let stored = Book::new(10_000).into_bytes();
    /// assert_eq!(Book::from_bytes(&stored)?.setting(), 10_000);
    /// # Ok::<(), jubafiye::Refusal>(())
    /// ```
    pub fn into_bytes(self) -> Vec<u8> {
        let bytes: Box<[u8]> = self.bytes;
        bytes.into_vec()
    }

    pub(crate) fn bytes(&self) -> &BookBytes {
        &self.bytes
    }

    /// For a call that leaves a book which keeps its rules.
    pub(crate) fn bytes_mut(&mut self) -> &mut BookBytes {
        &mut self.bytes
    }

    /// Whether the book keeps its rules, which it always does.
    ///
    /// ```
    /// assert!(jubafiye::Book::new(10_000).keeps_rules());
    /// ```
    pub fn keeps_rules(&self) -> bool {
        entries::check(&self.bytes).is_ok()
    }

    /// Takes an event: the book changes, and what goes out is given back. A refused event has changed nothing.
    ///
    /// ```
    /// use jubafiye::{Alarm, Book, Error, Event, Refusal};
    ///
    /// let mut book = Book::new(10_000);
    /// let answer = book.take(&Event::UnknownAtVenue { venue: 3, downstream: b"G1" })?;
    /// assert_eq!(answer.alarms, [Alarm::UnknownOrder]);
    ///
    /// let too_long = book.take(&Event::GatewayCancel { name: &[b'A'; 21] });
    /// assert_eq!(too_long, Err(Error::Refused(Refusal::Range)));
    /// # Ok::<(), Error>(())
    /// ```
    pub fn take(&mut self, event: &Event<'_>) -> Result<Answer, Error> {
        let mut record = std::mem::take(&mut self.record);
        event.write(&mut record);
        let answer = self.take_record(&record);
        self.record = record;
        answer
    }

    /// Takes an event's record, which may be any bytes.
    ///
    /// ```
    /// use jubafiye::{Book, Error, Refusal};
    ///
    /// let refused = Book::new(10_000).take_record(b"no record");
    /// assert_eq!(refused, Err(Error::Refused(Refusal::Record)));
    /// ```
    pub fn take_record(&mut self, record: &[u8]) -> Result<Answer, Error> {
        let mut answer = [0; ANSWER_BYTES];
        entries::event(&mut self.bytes, record, &mut answer)?;
        Ok(Answer::read(&answer)?)
    }

    /// Takes an event's record and gives back the answer's bytes, at the front of `answer`, which has [`ANSWER_BYTES`] or
    /// more. Nothing is allocated. Should the answer's length not fit the buffer, the whole buffer is given back.
    ///
    /// ```
    /// use jubafiye::{Answer, Book, Event, ANSWER_BYTES};
    ///
    /// let mut book = Book::new(10_000);
    /// let mut buffer = [0; ANSWER_BYTES];
    /// let record = Event::UnknownAtVenue { venue: 3, downstream: b"G1" }.record();
    /// let answer = book.take_record_into(&record, &mut buffer)?;
    /// assert_eq!(answer, [5, 0, 0, 3, 0]);
    /// assert_eq!(Answer::read(answer)?.alarms.len(), 1);
    /// # Ok::<(), Box<dyn std::error::Error>>(())
    /// ```
    pub fn take_record_into<'a>(&mut self, record: &[u8], answer: &'a mut [u8]) -> Result<&'a [u8], Refusal> {
        entries::event(&mut self.bytes, record, answer)?;
        Ok(whole(answer).unwrap_or(answer))
    }
}

impl fmt::Debug for Book {
    fn fmt(&self, f: &mut fmt::Formatter<'_>) -> fmt::Result {
        f.debug_struct("Book").finish_non_exhaustive()
    }
}
