//! FIX 4.4 messages: those of an answer written whole, as they are sent, and read back (docs/FIX.md). Rests on the static
//! library `libfix.a`, and not on the book's: a FIX engine may link it alone (`default-features = false`).
//!
//! ```
//! # #[cfg(feature = "book")] {
//! use jubafiye::{fix, Book, Booking, Event, OrdType, Side, ANSWER_BYTES};
//!
//! let mut book = Book::new(10_000);
//! # book.take(&Event::Book(Booking {
//! #     client: 7, venue: 3, name: b"G1", cl_ord_id: b"C1", symbol: b"WHEATH27", side: Side::Buy, ord_type: OrdType::Limit,
//! #     qty: "100".parse()?, price: Some("10.25".parse()?), time_in_force: None,
//! # }))?;
//! let mut buffer = [0; ANSWER_BYTES];
//! let event = Event::SendAgain { venue: 3, downstream: b"G1" }.record();
//! let answer = book.take_record_into(&event, &mut buffer)?;
//!
//! let header = fix::Header { sender: b"GATEWAY", target: b"VENUE", sequence: 42, time: b"20261116-12:34:56.789" };
//! for outgoing in fix::outgoing(answer)? {
//!     assert_eq!(outgoing.to, fix::Peer::Venue(3));
//!     let message = outgoing.to_vec(&header)?;
//!     let told = String::from_utf8(message)?.replace('\x01', "|");
//!     assert_eq!(
//!         told,
//!         "8=FIX.4.4|9=136|35=D|49=GATEWAY|56=VENUE|34=42|52=20261116-12:34:56.789|11=G1|55=WHEATH27|54=1|40=2|\
//!          38=100.0000|44=10.25000000|60=20261116-12:34:56.789|10=081|"
//!     );
//! }
//! # }
//! # Ok::<(), Box<dyn std::error::Error>>(())
//! ```

mod entries;
mod read;
mod send;

use std::error;
use std::fmt;

use crate::error::Refusal;

pub use send::{clean, outgoing, with_clean_text, with_extras, Extra, Outgoing, Peer};

pub use read::{read, Body, Cancel, CancelReject, Fields, Message, NewOrder, Replace, Report};

/// What the session gives to a message. The three texts are not empty and have no byte below 32.
/// ```
/// use jubafiye::fix::Header;
///
/// let header = Header { sender: b"US", target: b"THEM", sequence: 7, time: b"20261116-12:34:56" };
/// assert_eq!(Header { sequence: 8, ..header }.sender, b"US");
/// ```
#[derive(Debug, Clone, Copy, PartialEq, Eq, Hash)]
pub struct Header<'a> {
    /// SenderCompID(49).
    pub sender: &'a [u8],
    /// TargetCompID(56).
    pub target: &'a [u8],
    /// MsgSeqNum(34).
    pub sequence: u64,
    /// SendingTime(52), and TransactTime(60) of a message to a venue.
    pub time: &'a [u8],
}

/// The bytes that a message has at most, the header's texts aside.
///
/// ```
/// use jubafiye::fix::{self, Header, MESSAGE_BYTES};
///
/// // one buffer for a session whose comp IDs and times never pass 64 bytes in all, SendingTime(52) counted twice
/// let mut buffer = [0; MESSAGE_BYTES + 64];
/// let header = Header { sender: b"US", target: b"THEM", sequence: 7, time: b"20261116-12:34:56" };
/// assert!(header.room() <= buffer.len());
/// // a new order for venue 3: G1, WHEAT, buy, market, 100
/// let record = b"\x12\xe2\x03\0\0\x03\0\x02G1\x05WHEAT11\x40\x42\x0f\0\0\0\0\0";
/// assert!(fix::write(record, &header, &mut buffer)?.ends_with(b"\x01"));
/// # Ok::<(), jubafiye::Refusal>(())
/// ```
pub const MESSAGE_BYTES: usize = 512;

impl Header<'_> {
    /// The room that any message with this header fits into.
    ///
    /// ```
    /// # use jubafiye::fix::Header;
    /// let header = Header { sender: b"US", target: b"THEM", sequence: 1, time: b"20261116-12:34:56" };
    /// assert_eq!(header.room(), 512 + 2 + 4 + 2 * 17);
    /// ```
    pub fn room(&self) -> usize {
        let texts = [self.sender, self.target, self.time, self.time];
        texts.iter().fold(MESSAGE_BYTES, |room, text| room.saturating_add(text.len()))
    }
}

/// Writes a message of an answer, a record of kind 16 to 20, to the front of `out` and gives it back; what stands behind it
/// there stays. A refused call has written nothing: [`Refusal::Record`], [`Refusal::Range`], [`Refusal::Text`] or
/// [`Refusal::Room`], in this order. Nothing is allocated.
///
/// ```
/// use jubafiye::{fix, Refusal};
///
/// // A new order for venue 3: G1, WHEAT, buy, market, 100.
/// let record = b"\x12\xe2\x03\0\0\x03\0\x02G1\x05WHEAT11\x40\x42\x0f\0\0\0\0\0";
/// let mut header = fix::Header { sender: b"US", target: b"THEM", sequence: 7, time: b"20261116-12:34:56" };
/// let mut buffer = [0; 200];
/// let message = fix::write(record, &header, &mut buffer)?;
/// assert!(message.starts_with(b"8=FIX.4.4\x019=103\x0135=D\x01") && message.ends_with(b"\x01"));
/// assert_eq!(fix::write(record, &header, &mut [0; 20]), Err(Refusal::Room));
/// header.sender = b"";
/// assert_eq!(fix::write(record, &header, &mut buffer), Err(Refusal::Text));
/// # Ok::<(), Refusal>(())
/// ```
pub fn write<'a>(record: &[u8], header: &Header<'_>, out: &'a mut [u8]) -> Result<&'a [u8], Refusal> {
    let length = entries::write(record, header, out)?;
    Ok(out.get(..length).unwrap_or(out))
}

/// The same, into bytes of its own.
/// ```
/// use jubafiye::fix;
///
/// // A new order for venue 3: G1, WHEAT, buy, market, 100.
/// let record = b"\x12\xe2\x03\0\0\x03\0\x02G1\x05WHEAT11\x40\x42\x0f\0\0\0\0\0";
/// let header = fix::Header { sender: b"US", target: b"THEM", sequence: 7, time: b"20261116-12:34:56" };
/// let message = fix::to_vec(record, &header)?;
/// assert_eq!(message, fix::write(record, &header, &mut [0; 600])?);
/// # Ok::<(), jubafiye::Refusal>(())
/// ```
pub fn to_vec(record: &[u8], header: &Header<'_>) -> Result<Vec<u8>, Refusal> {
    let mut message = vec![0; header.room()];
    let length = entries::write(record, header, &mut message)?;
    message.truncate(length);
    Ok(message)
}

/// The records of an answer's messages, as [`write()`] takes them, for a host that reads no types; [`outgoing`] has both. An
/// answer's messages have no lengths of their own, and the library says where each stands. Refused with [`Refusal::Record`] or
/// [`Refusal::Range`] if the bytes are no answer.
///
/// ```
/// # use jubafiye::{fix, Refusal};
/// let none = fix::records(&[5, 0, 0, 3, 0])?;
/// assert!(none.is_empty());
/// assert_eq!(fix::records(b"none"), Err(Refusal::Record));
/// # Ok::<(), Refusal>(())
/// ```
pub fn records(answer: &[u8]) -> Result<Vec<&[u8]>, Refusal> {
    let mut records = Vec::new();
    for n in 0..MESSAGES {
        match entries::message_at(answer, n)? {
            Some(record) => records.push(record),
            None => break,
        }
    }
    Ok(records)
}

/// The most messages of an answer.
const MESSAGES: u32 = 2;

/// Why a message was not read.
///
/// ```
/// use jubafiye::{fix, Refusal};
///
/// let why = fix::read(b"8=FIX.4.2\x01").unwrap_err();
/// assert_eq!(why, fix::Error::Refused(Refusal::Record));
/// assert!(why.to_string().ends_with("just messages as this library writes them are read"));
/// ```
#[derive(Debug, Clone, Copy, PartialEq, Eq, Hash)]
#[non_exhaustive]
pub enum Error {
    /// No record is written so: [`Refusal::Record`].
    Refused(Refusal),
    /// The library took the message, but this crate cannot read the field of this tag, or misses it. The proved library never
    /// gives this; one of another version may.
    Unreadable {
        /// The field's tag.
        tag: u32,
    },
}

impl fmt::Display for Error {
    fn fmt(&self, f: &mut fmt::Formatter<'_>) -> fmt::Result {
        match self {
            Self::Refused(refusal) => {
                write!(f, "{refusal}; just messages as this library writes them are read")
            }
            Self::Unreadable { tag } => write!(f, "the field {tag} does not read"),
        }
    }
}

impl error::Error for Error {}

impl From<Refusal> for Error {
    fn from(refusal: Refusal) -> Self {
        Self::Refused(refusal)
    }
}
