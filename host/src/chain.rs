//! Which ClOrdID stands for which order: the chain of a client's ClOrdID back to the first; and the links of a book older than
//! those. Rests on entries, layout and book.

use crate::book::Book;
use crate::entries::{self, BookBytes, CHAIN_ENTRY, REQUESTS};
use crate::error::Refusal;
use crate::explain::origin;
use crate::layout;
use crate::layout::request::{ORIGIN, ORIG_CL_ORD_ID};
use crate::list::listed;
use crate::show::shown;

/// The bytes of an entry of a chain.
///
/// ```
/// use jubafiye::{Book, Booking, ChainEntry, Event, Qty, Side, CHAIN_BYTES, CHAIN_ENTRY_BYTES};
///
/// let mut book = Book::new(10_000);
/// let booking = Booking::new(7, 3, Side::Buy, Qty::units(100), b"WHEATH27").named(b"G1", b"C1");
/// drop(book.take(&Event::Book(booking))?);
/// let mut list = [0; CHAIN_BYTES];
/// let entries = book.chain_into(7, "C1", &mut list)?.chunks(CHAIN_ENTRY_BYTES);
/// assert_eq!(entries.filter_map(ChainEntry::read).count(), 1);
/// # Ok::<(), jubafiye::Error>(())
/// ```
pub const CHAIN_ENTRY_BYTES: usize = CHAIN_ENTRY;

/// The bytes that the chain of any ClOrdID has at most.
///
/// ```
/// use jubafiye::{Book, Booking, Event, Qty, Refusal, Side, CHAIN_BYTES};
///
/// let mut book = Book::new(10_000);
/// let booking = Booking::new(7, 3, Side::Buy, Qty::units(100), b"WHEATH27").named(b"G1", b"C1");
/// drop(book.take(&Event::Book(booking))?);
/// assert!(book.chain_into(7, "C1", &mut [0; CHAIN_BYTES]).is_ok());
/// assert_eq!(book.chain_into(7, "C1", &mut [0; 1]), Err(Refusal::ChainList));
/// # Ok::<(), jubafiye::Error>(())
/// ```
pub const CHAIN_BYTES: usize = CHAIN_ENTRY * REQUESTS;

listed! {
    /// What a request came to. It is open until the request is settled, and from then on stays what that made it.
    ///
    /// ```
    /// use jubafiye::Outcome;
    ///
    /// assert_eq!(Outcome::from_number(3), Some(Outcome::FailedToSend));
    /// assert_eq!((Outcome::Accepted.number(), Outcome::Refused.to_string()), (1, "refused".into()));
    /// ```
    #[non_exhaustive]
    Outcome: number, from_number {
        Open = 0 "open",
        Accepted = 1 "accepted",
        Refused = 2 "refused",
        FailedToSend = 3 "failed to send",
    }
}

/// A ClOrdID of a chain, and what its request came to.
///
/// ```
/// use jubafiye::{Book, Booking, ChainEntry, Event, Outcome, Qty, Side};
///
/// let mut book = Book::new(10_000);
/// let booking = Booking::new(7, 3, Side::Buy, Qty::units(100), b"WHEATH27").named(b"G1", b"C1");
/// drop(book.take(&Event::Book(booking))?);
/// let chain: Vec<ChainEntry> = book.chain(7, "C1");
/// assert_eq!((&chain[0].cl_ord_id[..], chain[0].outcome), (&b"C1"[..], Outcome::Open));
/// # Ok::<(), jubafiye::Error>(())
/// ```
#[derive(Clone, PartialEq, Eq, Hash)]
#[non_exhaustive]
pub struct ChainEntry {
    /// The ClOrdID, which may hold any byte.
    pub cl_ord_id: Vec<u8>,
    /// What its request came to.
    pub outcome: Outcome,
}

shown!(ChainEntry { cl_ord_id as text, outcome });

impl ChainEntry {
    /// The entry at the front of some bytes; none if they are no entry.
    ///
    /// ```
    /// use jubafiye::{ChainEntry, Outcome, CHAIN_ENTRY_BYTES};
    ///
    /// let mut bytes = [0; CHAIN_ENTRY_BYTES];
    /// (bytes[0], bytes[1], bytes[33]) = (1, b'C', 2);
    /// let entry = ChainEntry::read(&bytes).unwrap();
    /// assert_eq!((&entry.cl_ord_id[..], entry.outcome), (&b"C"[..], Outcome::Refused));
    /// assert_eq!(ChainEntry::read(b"no entry"), None);
    /// ```
    pub fn read(entry: &[u8]) -> Option<Self> {
        let (length, rest) = entry.split_first()?;
        let (name, rest) = rest.split_first_chunk::<32>()?;
        let cl_ord_id = name.get(..usize::from(*length))?.to_vec();
        Some(Self { cl_ord_id, outcome: Outcome::from_number(*rest.first()?)? })
    }
}

impl Book {
    /// The chain of a client's ClOrdID: that name, the one that its request's OrigClOrdID names, and so on back to the first,
    /// with what each request came to. A name that the client never used has an empty chain. The book keeps its rules and the
    /// room is enough, so that the library refuses nothing; should one of another version do so, the chain is empty.
    ///
    /// ```
    /// # use jubafiye::{Amend, Book, Booking, Event, OrdType, Qty, Side};
    /// use jubafiye::Outcome;
    ///
    /// let mut book = Book::new(10_000);
    /// # book.take(&Event::Book(Booking {
    /// #     client: 7, venue: 3, name: b"G1", cl_ord_id: b"C1", symbol: b"WHEATH27", side: Side::Buy,
    /// #     ord_type: OrdType::Market, qty: Qty::units(100), price: None, time_in_force: None,
    /// # }))?;
    /// # let amend = Amend { client: 7, cl_ord_id: b"C2", orig_cl_ord_id: b"C1", symbol: b"WHEATH27", side: Side::Buy, redelivered: false };
    /// # book.take(&Event::Cancel(amend))?;
    /// # book.take(&Event::SendFailed { venue: 3, downstream: b"G1-1", text: b"down" })?;
    /// # book.take(&Event::Cancel(Amend { cl_ord_id: b"C3", orig_cl_ord_id: b"C2", ..amend }))?;
    /// // client 7 booked C1; its cancel C2 could not be sent; its cancel C3, of C2, is out
    /// let chain = book.chain(7, b"C3");
    /// let names: Vec<(&[u8], Outcome)> = chain.iter().map(|entry| (&entry.cl_ord_id[..], entry.outcome)).collect();
    /// assert_eq!(names, [(&b"C3"[..], Outcome::Open), (b"C2", Outcome::FailedToSend), (b"C1", Outcome::Open)]);
    /// assert_eq!(book.chain(7, b"C4"), []);
    /// # Ok::<(), jubafiye::Error>(())
    /// ```
    pub fn chain(&self, client: u16, cl_ord_id: impl AsRef<[u8]>) -> Vec<ChainEntry> {
        let mut list = [0; CHAIN_BYTES];
        let entries = self.chain_into(client, cl_ord_id, &mut list).unwrap_or_default();
        entries.chunks(CHAIN_ENTRY).map_while(ChainEntry::read).collect()
    }

    /// Writes the entries, [`CHAIN_ENTRY_BYTES`] each ([`ChainEntry::read`]), to the front of `list` and gives them back. Nothing
    /// is allocated. A list that cannot hold the whole chain is refused with [`Refusal::ChainList`] and stays as it was;
    /// [`CHAIN_BYTES`] hold any chain.
    ///
    /// ```
    /// use jubafiye::{Book, CHAIN_BYTES};
    ///
    /// let mut list = [0; CHAIN_BYTES];
    /// assert_eq!(Book::new(10_000).chain_into(7, "C1", &mut list)?, b"");
    /// assert_eq!(Book::new(10_000).chain_into(7, "C1", &mut [])?, b"");
    /// # Ok::<(), jubafiye::Refusal>(())
    /// ```
    pub fn chain_into<'a>(
        &self,
        client: u16,
        cl_ord_id: impl AsRef<[u8]>,
        list: &'a mut [u8],
    ) -> Result<&'a [u8], Refusal> {
        let count = entries::chain(self.bytes(), client, cl_ord_id.as_ref(), list)?;
        Ok(list.get(..count.saturating_mul(CHAIN_ENTRY)).unwrap_or(list))
    }
}

/// Writes the link of the request that each OrigClOrdID names, among those of its order that stand before it, and no other byte.
pub(crate) fn write_origins(book: &mut BookBytes) {
    for index in 0..layout::requests_in_use(book) {
        if layout::request(book, index).text(ORIG_CL_ORD_ID).length == 0 {
            continue;
        }
        let Some(link) = origin(book, index) else { continue };
        let at = layout::request(book, index).at(ORIGIN);
        layout::write(book, at, ORIGIN, u64::from(link));
    }
}
