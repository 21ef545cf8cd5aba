//! The evening page: a line of 80 columns for each order, and a line feed. Rests on entries and book.

use std::fmt;
use std::str;

use crate::book::Book;
use crate::entries::{self, ORDERS, PAGE_LINE};
use crate::error::Refusal;

/// The bytes that the page of any book has at most: a line for each of 64 orders.
///
/// ```
/// use jubafiye::{Book, Booking, Event, Qty, Refusal, Side, PAGE_BYTES};
///
/// let mut book = Book::new(10_000);
/// let booking = Booking::new(7, 3, Side::Buy, Qty::units(100), b"WHEATH27").named(b"G1", b"C1");
/// drop(book.take(&Event::Book(booking))?);
/// assert_eq!(book.page_into(&mut [0; PAGE_BYTES])?.len(), PAGE_BYTES / 64);
/// assert_eq!(book.page_into(&mut [0; PAGE_BYTES / 64 - 1]), Err(Refusal::PageBuffer));
/// # Ok::<(), jubafiye::Error>(())
/// ```
pub const PAGE_BYTES: usize = PAGE_LINE * ORDERS;

/// A book's evening page, as bytes: the order's name in columns 1 to 20, its symbol in 21 to 36, its status in 37, then ordered,
/// cumulative and leaves quantity in 14 columns each, and a blank.
///
/// A symbol may hold any byte. One below 32 is printed as a blank; one above 126 is what it is, and [`Display`](fmt::Display)
/// shows it as the Latin-1 character, so that a line still has 80 characters. [`Page::as_bytes`] has what goes to a printer.
///
/// ```
/// use jubafiye::{Book, Booking, Event, Page, Qty, Side};
///
/// let mut book = Book::new(10_000);
/// let booking = Booking::new(7, 3, Side::Buy, Qty::units(100), b"WHEATH27").named(b"G1", b"C1");
/// drop(book.take(&Event::Book(booking))?);
/// let page: Page = book.page();
/// assert_eq!(
///     page.to_string(),
///     "G1                  WHEATH27        A      100.0000        0.0000      100.0000 \n"
/// );
/// # Ok::<(), jubafiye::Error>(())
/// ```
#[derive(Clone, PartialEq, Eq, Hash)]
pub struct Page {
    bytes: Vec<u8>,
}

impl Page {
    pub(crate) fn of(bytes: Vec<u8>) -> Self {
        Self { bytes }
    }

    /// The bytes, as the library printed them.
    /// ```
    /// # use jubafiye::{Book, Booking, Event, Qty, Side};
    /// # let mut book = Book::new(10_000);
    /// # let booking = Booking::new(7, 3, Side::Buy, Qty::units(100), b"WHEATH27").named(b"G1", b"C1");
    /// # drop(book.take(&Event::Book(booking))?);
    /// // G1 is booked
    /// assert_eq!(book.page().as_bytes().len(), 81);
    /// # Ok::<(), jubafiye::Error>(())
    /// ```
    pub fn as_bytes(&self) -> &[u8] {
        &self.bytes
    }

    /// The same, for whoever keeps them.
    /// ```
    /// # use jubafiye::{Book, Booking, Event, Qty, Side};
    /// # let mut book = Book::new(10_000);
    /// # let booking = Booking::new(7, 3, Side::Buy, Qty::units(100), b"WHEATH27").named(b"G1", b"C1");
    /// # drop(book.take(&Event::Book(booking))?);
    /// // G1 is booked
    /// assert!(book.page().into_bytes().ends_with(b"\n"));
    /// # Ok::<(), jubafiye::Error>(())
    /// ```
    pub fn into_bytes(self) -> Vec<u8> {
        self.bytes
    }

    /// The page as a text, if its bytes are UTF-8: always if no symbol has a byte above 127, and else only if such bytes
    /// spell characters, of which each takes more columns than one.
    /// ```
    /// # use jubafiye::{Book, Booking, Event, Qty, Side};
    /// # let mut book = Book::new(10_000);
    /// # let booking = Booking::new(7, 3, Side::Buy, Qty::units(100), b"WHEATH27").named(b"G1", b"C1");
    /// # drop(book.take(&Event::Book(booking))?);
    /// // G1 is booked
    /// assert!(book.page().as_str().is_some_and(|page| page.starts_with("G1 ")));
    /// # Ok::<(), jubafiye::Error>(())
    /// ```
    pub fn as_str(&self) -> Option<&str> {
        str::from_utf8(&self.bytes).ok()
    }

    /// The lines, each without its line feed.
    /// ```
    /// # use jubafiye::{Book, Booking, Event, Qty, Side};
    /// # let mut book = Book::new(10_000);
    /// # let booking = Booking::new(7, 3, Side::Buy, Qty::units(100), b"WHEATH27").named(b"G1", b"C1");
    /// # drop(book.take(&Event::Book(booking))?);
    /// // G1 is booked
    /// assert_eq!(book.page().lines().map(<[u8]>::len).collect::<Vec<_>>(), [80]);
    /// # Ok::<(), jubafiye::Error>(())
    /// ```
    pub fn lines(&self) -> impl Iterator<Item = &[u8]> {
        self.bytes.chunks(PAGE_LINE).map(|line| line.strip_suffix(b"\n").unwrap_or(line))
    }
}

impl fmt::Display for Page {
    fn fmt(&self, f: &mut fmt::Formatter<'_>) -> fmt::Result {
        self.bytes.iter().try_for_each(|&byte| fmt::Write::write_char(f, char::from(byte)))
    }
}

impl fmt::Debug for Page {
    fn fmt(&self, f: &mut fmt::Formatter<'_>) -> fmt::Result {
        write!(f, "Page(\"{}\")", self.bytes.escape_ascii())
    }
}

impl Book {
    /// The evening page: a line for each order, done or not, in booking order. The book keeps its rules and the room is
    /// enough, so that the library refuses nothing; should one of another version do so, the page is empty.
    ///
    /// ```
    /// # use jubafiye::{Book, Booking, Event, OrdType, Qty, Side};
    /// let mut book = Book::new(10_000);
    /// assert_eq!(book.page().as_bytes(), b"");
    /// # book.take(&Event::Book(Booking {
    /// #     client: 7, venue: 3, name: b"G1", cl_ord_id: b"C1", symbol: b"WHEAT\nH27", side: Side::Buy,
    /// #     ord_type: OrdType::Market, qty: Qty::units(100), price: None, time_in_force: None,
    /// # }))?;
    /// // an order G1 of 100, its symbol with a line feed in it
    /// assert_eq!(
    ///     book.page().as_str(),
    ///     Some("G1                  WHEAT H27       A      100.0000        0.0000      100.0000 \n")
    /// );
    /// # Ok::<(), jubafiye::Error>(())
    /// ```
    pub fn page(&self) -> Page {
        let mut out = [0; PAGE_BYTES];
        let bytes = self.page_into(&mut out).unwrap_or_default().to_vec();
        Page { bytes }
    }

    /// Prints the evening page to the front of `out` and gives it back; [`PAGE_BYTES`] are always enough. Nothing is allocated.
    /// A buffer shorter than 81 bytes for each order is refused with [`Refusal::PageBuffer`] and stays as it was.
    ///
    /// ```
    /// use jubafiye::{Book, PAGE_BYTES};
    ///
    /// let mut out = [0; PAGE_BYTES];
    /// assert_eq!(Book::new(10_000).page_into(&mut out)?, b"");
    /// # Ok::<(), jubafiye::Refusal>(())
    /// ```
    pub fn page_into<'a>(&self, out: &'a mut [u8]) -> Result<&'a [u8], Refusal> {
        let length = entries::page(self.bytes(), out)?;
        Ok(out.get(..length).unwrap_or(out))
    }
}
