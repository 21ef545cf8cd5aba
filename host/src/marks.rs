//! Marks to come back to: names and images of a book in a buffer of places. Rests on entries and book.

use std::fmt;

use crate::book::Book;
use crate::entries::{self, MARK_LETTERS, MARK_NAME, MARK_PLACE};
use crate::error::Refusal;

/// The bytes of a place: 32 of a name, filled with zeros, and the image of a book.
///
/// ```
/// use jubafiye::{Marks, PLACE_BYTES};
///
/// // room for two marks, and a part that is no whole place
/// let marks = Marks::over(vec![0; 2 * PLACE_BYTES + 100]);
/// assert_eq!(marks.places(), 2);
/// ```
pub const PLACE_BYTES: usize = MARK_PLACE;

/// Marks over a buffer that is owned ([`Marks::new`]) or lent ([`Marks::over`]): whole places of [`PLACE_BYTES`], a last part
/// that is shorter not used. Nothing else is held, so that the buffer can be stored and taken up again, and any bytes are a
/// buffer: a place whose name is all zero is free, one whose name is no name belongs to nobody and stays as it is.
///
/// ```
/// # use jubafiye::{Booking, Event, Marks, OrdType, Qty, Side};
/// use jubafiye::{Book, Refusal};
///
/// # let booking = |name| Event::Book(Booking {
/// #     client: 7, venue: 3, name, cl_ord_id: name, symbol: b"WHEATH27", side: Side::Buy,
/// #     ord_type: OrdType::Market, qty: Qty::units(100), price: None, time_in_force: None,
/// # });
/// let mut book = Book::new(10_000);
/// let mut marks = Marks::new(2);
/// marks.set(&book, "morning")?;
/// # book.take(&booking(b"G1")).unwrap();
/// // an order is booked, and a rehearsal follows
/// marks.set(&book, "rehearsal")?;
/// let before = book.clone();
/// # book.take(&booking(b"G2")).unwrap();
/// marks.return_to(&mut book, "rehearsal")?;
/// assert_eq!(book.as_bytes(), before.as_bytes());
///
/// assert_eq!(marks.names(), ["morning", "rehearsal"]);
/// assert_eq!(marks.set(&book, "evening"), Err(Refusal::NoPlace));
/// assert_eq!(marks.set(&book, "not a name"), Err(Refusal::MarkName));
/// assert_eq!(marks.return_to(&mut book, "evening"), Err(Refusal::NoMark));
/// # Ok::<(), Refusal>(())
/// ```
#[derive(Clone)]
pub struct Marks<B = Vec<u8>> {
    buffer: B,
}

impl Marks {
    /// So many places, all free, in a buffer of its own.
    /// ```
    /// let marks = jubafiye::Marks::new(2);
    /// assert_eq!((marks.places(), marks.free(), marks.names().len()), (2, 2, 0));
    /// ```
    pub fn new(places: usize) -> Self {
        Self { buffer: vec![0; places.saturating_mul(PLACE_BYTES)] }
    }
}

impl<B> Marks<B> {
    /// Over a buffer that is there, lent or given, whatever bytes it holds.
    ///
    /// ```
    /// use jubafiye::{Book, Marks, PLACE_BYTES};
    ///
    /// let mut buffer = vec![0; PLACE_BYTES];
    /// let mut book = Book::new(10_000);
    /// Marks::over(&mut buffer[..]).set(&book, "A")?;
    /// assert_eq!(&buffer[..2], b"A\0");
    /// // to return, a buffer need not be lent as one that is written
    /// Marks::over(&buffer[..]).return_to(&mut book, "A")?;
    /// # Ok::<(), jubafiye::Refusal>(())
    /// ```
    pub fn over(buffer: B) -> Self {
        Self { buffer }
    }

    /// The buffer.
    /// ```
    /// use jubafiye::{Marks, PLACE_BYTES};
    ///
    /// assert_eq!(Marks::new(2).into_inner(), vec![0; 2 * PLACE_BYTES]);
    /// ```
    pub fn into_inner(self) -> B {
        self.buffer
    }
}

impl<B: AsRef<[u8]>> Marks<B> {
    /// The buffer's bytes, for a store (docs/LAYOUT.md, A place).
    /// ```
    /// use jubafiye::{Book, Marks};
    ///
    /// let mut marks = Marks::new(1);
    /// marks.set(&Book::new(10_000), "A")?;
    /// assert_eq!(Marks::over(marks.as_bytes()).names(), ["A"]);
    /// # Ok::<(), jubafiye::Refusal>(())
    /// ```
    pub fn as_bytes(&self) -> &[u8] {
        self.buffer.as_ref()
    }

    /// How many places there are.
    /// [`Marks::new`] has an example.
    pub fn places(&self) -> usize {
        self.as_bytes().chunks_exact(PLACE_BYTES).count()
    }

    /// How many of them are free.
    /// ```
    /// use jubafiye::{Book, Marks};
    ///
    /// let mut marks = Marks::new(2);
    /// marks.set(&Book::new(10_000), "A")?;
    /// assert_eq!(marks.free(), 1);
    /// # Ok::<(), jubafiye::Refusal>(())
    /// ```
    pub fn free(&self) -> usize {
        self.as_bytes().chunks_exact(PLACE_BYTES).filter(|place| name(place) == Some("")).count()
    }

    /// The names that places have, each once, by the first of its places. Whether an image of that name keeps the book's rules
    /// is decided by the return.
    /// [`Marks`] has an example.
    pub fn names(&self) -> Vec<&str> {
        let mut names = Vec::new();
        for name in self.as_bytes().chunks_exact(PLACE_BYTES).filter_map(name) {
            if !name.is_empty() && !names.contains(&name) {
                names.push(name);
            }
        }
        names
    }

    /// Makes the book the image of that name: the first whose image keeps the book's rules, byte for byte. A name that is not 1
    /// to 16 letters or digits is refused with [`Refusal::MarkName`], one without such an image with [`Refusal::NoMark`]; the
    /// book is then as it was.
    ///
    /// **What was sent meanwhile cannot be unsent.** Orders, requests and ClOrdIDs that the image lacks are unused again, and may
    /// be booked anew. Each order's report sequence is the image's again: the next reports bear **ExecIDs that were sent before,
    /// with other contents**. Who tells reports by their ExecID takes them for repeats; a gateway that goes on with the same
    /// sessions after a return has to make them differ, for instance by a number of its own for each return. What the reports
    /// since the return say adds up with what the image held, not with what was told before it.
    ///
    /// ```
    /// # use jubafiye::{Book, Booking, Event, ExecType, Marks, Message, OrdStatus, OrdType, Price, Qty, Side, VenueReport};
    /// # let mut book = Book::new(10_000);
    /// # book.take(&Event::Book(Booking {
    /// #     client: 7, venue: 3, name: b"G1", cl_ord_id: b"C1", symbol: b"WHEATH27", side: Side::Buy,
    /// #     ord_type: OrdType::Market, qty: Qty::units(100), price: None, time_in_force: None,
    /// # }))?;
    /// # let fill = |cum| Event::VenueReport(VenueReport {
    /// #     venue: 3, downstream: b"G1", exec_type: ExecType::Trade, status: Some(OrdStatus::PartiallyFilled),
    /// #     last_qty: Qty::units(cum), last_px: Price::units(10), cum_qty: Qty::units(cum), avg_px: Price::units(10),
    /// #     venue_order_id: None, reason: None, text: None,
    /// # });
    /// let mut marks = Marks::new(1);
    /// marks.set(&book, "rehearsal")?;
    /// // a fill of 40 is told, and, after the return, one of 70
    /// let told = book.take(&fill(40))?;
    /// marks.return_to(&mut book, "rehearsal")?;
    /// let again = book.take(&fill(70))?;
    /// let [Message::Report(told), Message::Report(again)] = [&told.messages[0], &again.messages[0]] else { panic!() };
    /// // both have the ExecID G1.1
    /// assert_eq!((told.exec_seq, again.exec_seq), (1, 1));
    /// assert_eq!((told.last_qty, again.last_qty), (Qty::units(40), Qty::units(70)));
    /// # Ok::<(), jubafiye::Error>(())
    /// ```
    pub fn return_to(&self, book: &mut Book, name: impl AsRef<[u8]>) -> Result<(), Refusal> {
        entries::return_to_mark(book.bytes_mut(), name.as_ref(), self.as_bytes())
    }
}

impl<B: AsRef<[u8]> + AsMut<[u8]>> Marks<B> {
    /// Sets a mark: the book's image goes to the first place of that name, in the place of what it held, else to the first free
    /// one. A name that is not 1 to 16 letters or digits is refused with [`Refusal::MarkName`], a new one if no place is free
    /// with [`Refusal::NoPlace`]; the buffer is then as it was.
    /// [`Marks`] has an example.
    pub fn set(&mut self, book: &Book, name: impl AsRef<[u8]>) -> Result<(), Refusal> {
        entries::set_mark(book.bytes(), name.as_ref(), self.buffer.as_mut())
    }
}

impl<B: AsRef<[u8]>> fmt::Debug for Marks<B> {
    fn fmt(&self, f: &mut fmt::Formatter<'_>) -> fmt::Result {
        f.debug_struct("Marks").field("places", &self.places()).field("names", &self.names()).finish()
    }
}

/// The name of a place, empty if the place is free; none if it belongs to nobody.
fn name(place: &[u8]) -> Option<&str> {
    let field = place.get(..MARK_NAME)?;
    let length = field.iter().position(|&byte| byte == 0).unwrap_or(MARK_NAME);
    let (name, rest) = field.split_at_checked(length)?;
    let letters = length <= MARK_LETTERS && name.iter().all(u8::is_ascii_alphanumeric);
    (letters && rest.iter().all(|&byte| byte == 0)).then(|| std::str::from_utf8(name).ok())?
}
