//! What can go wrong: a refusal, by its number, or an answer that does not read. Rests on nothing.

use std::error;
use std::fmt;

/// Why a call was not taken: the number of the question that was answered with no (docs/SCOPE.md, Questions). Nothing has
/// changed, neither the book nor what was lent beside it.
///
/// ```
/// # #[cfg(feature = "book")] {
/// use jubafiye::{Book, Error, Event, Refusal};
///
/// let mut book = Book::new(10_000);
/// let refused = book.take(&Event::GatewayCancel { name: b"not-a-name" });
/// assert_eq!(refused, Err(Error::Refused(Refusal::Range)));
/// assert_eq!(Refusal::Range.number(), 4);
/// assert_eq!(Refusal::Range.to_string(), "refused with 4: a field is out of its range");
/// # }
/// ```
#[derive(Debug, Clone, Copy, PartialEq, Eq, Hash)]
#[non_exhaustive]
pub enum Refusal {
    /// 1: the book has another length or does not keep its rules.
    Book,
    /// 2: the answer buffer is too short.
    AnswerBuffer,
    /// 3: the record does not read whole.
    Record,
    /// 4: a field is out of its range.
    Range,
    /// 5: the order name or the ClOrdID is in use.
    InUse,
    /// 6: a price without a limit, or a limit without a price.
    Price,
    /// 7: no free order or request record.
    Full,
    /// 8: the page's buffer is shorter than 81 bytes for each order.
    PageBuffer,
    /// 9: a text for FIX is empty or has a byte below 32.
    Text,
    /// 10: the buffer cannot hold the FIX message.
    Room,
    /// 11: the net position's scratch or output is smaller than it must be.
    NetBuffers,
    /// 12: the list cannot hold the whole chain of the ClOrdID.
    ChainList,
    /// 13: a mark's name is not 1 to 16 letters or digits.
    MarkName,
    /// 14: no mark of that name has an image that keeps the book's rules.
    NoMark,
    /// 15: no place is free for a mark of a new name.
    NoPlace,
    /// 16: the archive has another length or does not keep its rules.
    BadArchive,
    /// 17: the name or a ClOrdID of a done order stands in the archive.
    InArchive,
    /// 18: the archive has no room for all done orders and their requests.
    FullArchive,
    /// Another number, which this crate does not know: the library is of another version.
    Other(u32),
}

impl Refusal {
    /// The number that the library returns, never 0.
    /// ```
    /// assert_eq!(jubafiye::Refusal::Full.number(), 7);
    /// ```
    pub const fn number(self) -> u32 {
        match self {
            Self::Book => 1,
            Self::AnswerBuffer => 2,
            Self::Record => 3,
            Self::Range => 4,
            Self::InUse => 5,
            Self::Price => 6,
            Self::Full => 7,
            Self::PageBuffer => 8,
            Self::Text => 9,
            Self::Room => 10,
            Self::NetBuffers => 11,
            Self::ChainList => 12,
            Self::MarkName => 13,
            Self::NoMark => 14,
            Self::NoPlace => 15,
            Self::BadArchive => 16,
            Self::InArchive => 17,
            Self::FullArchive => 18,
            Self::Other(number) => number,
        }
    }

    /// The refusal of a number; 0, which takes the call, is none.
    ///
    /// ```
    /// # use jubafiye::Refusal;
    /// assert_eq!(Refusal::from_number(0), None);
    /// assert_eq!(Refusal::from_number(7), Some(Refusal::Full));
    /// ```
    pub const fn from_number(number: u32) -> Option<Self> {
        Some(match number {
            0 => return None,
            1 => Self::Book,
            2 => Self::AnswerBuffer,
            3 => Self::Record,
            4 => Self::Range,
            5 => Self::InUse,
            6 => Self::Price,
            7 => Self::Full,
            8 => Self::PageBuffer,
            9 => Self::Text,
            10 => Self::Room,
            11 => Self::NetBuffers,
            12 => Self::ChainList,
            13 => Self::MarkName,
            14 => Self::NoMark,
            15 => Self::NoPlace,
            16 => Self::BadArchive,
            17 => Self::InArchive,
            18 => Self::FullArchive,
            _ => Self::Other(number),
        })
    }

    /// What a call came to.
    #[cfg(any(feature = "book", feature = "fix", test))]
    pub(crate) fn of(number: u32) -> Result<(), Self> {
        Self::from_number(number).map_or(Ok(()), Err)
    }
}

impl fmt::Display for Refusal {
    fn fmt(&self, f: &mut fmt::Formatter<'_>) -> fmt::Result {
        let why = match self {
            Self::Book => "the book does not keep its rules",
            Self::AnswerBuffer => "the answer buffer is too short",
            Self::Record => "the record does not read whole",
            Self::Range => "a field is out of its range",
            Self::InUse => "the order name or ClOrdID is in use",
            Self::Price => "a price goes exactly with a limit order",
            Self::Full => "no free order or request record",
            Self::PageBuffer => "the page's buffer is too short",
            Self::Text => "a text for FIX is empty or has a byte below 32",
            Self::Room => "the buffer cannot hold the FIX message",
            Self::NetBuffers => "the net position's scratch or output is too small",
            Self::ChainList => "the list cannot hold the whole chain",
            Self::MarkName => "a mark's name is not 1 to 16 letters or digits",
            Self::NoMark => "no mark of that name has an image that keeps the rules",
            Self::NoPlace => "no place is free for a new mark",
            Self::BadArchive => "the archive does not keep its rules",
            Self::InArchive => "a done order's name or ClOrdID stands in the archive",
            Self::FullArchive => "the archive has no room for the done orders",
            Self::Other(_) => "a number that is not known here",
        };
        write!(f, "refused with {}: {why}", self.number())
    }
}

impl error::Error for Refusal {}

/// What is wrong with bytes that are no answer.
///
/// ```
/// use jubafiye::{Answer, Fault};
///
/// let bad = Answer::read(&[5, 0, 3, 0, 0]).unwrap_err();
/// assert_eq!(bad.fault(), Fault::Count(3));
/// assert_eq!(bad.fault().to_string(), "3 messages, more than 2");
/// ```
#[derive(Debug, Clone, Copy, PartialEq, Eq, Hash)]
#[non_exhaustive]
pub enum Fault {
    /// They end before the answer does.
    Cut,
    /// The answer's length takes in bytes behind its last message.
    Over,
    /// This count of messages, above 2.
    Count(u8),
    /// This alarm, which is not known.
    Alarm(u8),
    /// A message of this kind, which is not known.
    Kind(u8),
    /// A message of this kind that lacks this field, by its bit.
    Missing {
        /// The message's kind.
        kind: u8,
        /// The field's bit.
        bit: u32,
    },
    /// A message of this kind with fields that it never has.
    Unexpected {
        /// The message's kind.
        kind: u8,
        /// The map of those fields.
        map: u32,
    },
    /// A field with a code that is not in its list.
    Code {
        /// The field's bit.
        bit: u32,
        /// The code that it holds.
        code: u8,
    },
}

impl fmt::Display for Fault {
    fn fmt(&self, f: &mut fmt::Formatter<'_>) -> fmt::Result {
        match self {
            Self::Cut => f.write_str("they end before the answer does"),
            Self::Over => f.write_str("bytes stand behind the last message"),
            Self::Count(count) => write!(f, "{count} messages, more than 2"),
            Self::Alarm(number) => write!(f, "the alarm {number} is not known"),
            Self::Kind(kind) => write!(f, "a message of kind {kind}"),
            Self::Missing { kind, bit } => write!(f, "a message {kind} without field {bit}"),
            Self::Unexpected { kind, map } => write!(f, "a message {kind} with the fields {map:#010x}"),
            Self::Code { bit, code } => write!(f, "field {bit} holds the code {code}"),
        }
    }
}

/// Bytes that are no answer of the book's, whole, and what is wrong with them.
///
/// ```
/// use jubafiye::{Answer, Fault};
///
/// let bad = Answer::read(&[5, 0, 1, 0, 99]).unwrap_err();
/// assert_eq!(bad.bytes(), [5, 0, 1, 0, 99]);
/// assert_eq!(bad.fault(), Fault::Cut);
/// ```
#[derive(Debug, Clone, PartialEq, Eq)]
pub struct BadAnswer {
    bytes: Vec<u8>,
    fault: Fault,
}

impl BadAnswer {
    pub(crate) fn new(bytes: &[u8], fault: Fault) -> Self {
        Self { bytes: bytes.to_vec(), fault }
    }

    /// All bytes that were to be read: of an event that was taken, the whole answer buffer as the library left it.
    /// [`BadAnswer`] has an example.
    pub fn bytes(&self) -> &[u8] {
        &self.bytes
    }

    /// The same, for whoever keeps them.
    /// ```
    /// let bad = jubafiye::Answer::read(b"none").unwrap_err();
    /// assert_eq!(bad.into_bytes(), b"none");
    /// ```
    pub fn into_bytes(self) -> Vec<u8> {
        self.bytes
    }

    /// The first thing that is wrong with them.
    /// [`BadAnswer`] has an example.
    pub fn fault(&self) -> Fault {
        self.fault
    }
}

impl fmt::Display for BadAnswer {
    fn fmt(&self, f: &mut fmt::Formatter<'_>) -> fmt::Result {
        write!(f, "these {} bytes are no answer of the book: {}", self.bytes.len(), self.fault)
    }
}

impl error::Error for BadAnswer {}

/// Why an event gave no messages to send. The two cases differ in what has happened to the book.
///
/// ```
/// # #[cfg(feature = "book")] {
/// use jubafiye::{Book, Error, Event};
///
/// let told = match Book::new(10_000).take(&Event::GatewayCancel { name: b"" }) {
///     Ok(answer) => answer.to_string(),
///     Err(Error::Refused(refusal)) => format!("the book is as it was: {refusal}"),
///     Err(taken) => format!("{taken}: keep its bytes"),
/// };
/// assert_eq!(told, "the book is as it was: refused with 4: a field is out of its range");
/// # }
/// ```
#[derive(Debug, Clone, PartialEq, Eq)]
#[non_exhaustive]
pub enum Error {
    /// The event was not taken: the book is as it was.
    Refused(Refusal),
    /// **The event was taken and the book has changed**, but this crate cannot read the answer. The messages stand in its
    /// bytes and are to be sent: keep them, and do not put the event again. The proved library never gives this; a library of
    /// another version may.
    Unreadable(BadAnswer),
}

impl Error {
    /// The number that the library returned: the refusal's, or 0 if the event was taken.
    ///
    /// ```
    /// # use jubafiye::{Error, Refusal};
    /// assert_eq!(Error::Refused(Refusal::Full).number(), 7);
    /// ```
    pub fn number(&self) -> u32 {
        match self {
            Self::Refused(refusal) => refusal.number(),
            Self::Unreadable(_) => 0,
        }
    }

    /// The refusal, if the event was not taken.
    /// ```
    /// # use jubafiye::{Error, Refusal};
    /// assert_eq!(Error::Refused(Refusal::Full).refusal(), Some(Refusal::Full));
    /// ```
    pub fn refusal(&self) -> Option<Refusal> {
        match self {
            Self::Refused(refusal) => Some(*refusal),
            Self::Unreadable(_) => None,
        }
    }
}

impl fmt::Display for Error {
    fn fmt(&self, f: &mut fmt::Formatter<'_>) -> fmt::Result {
        match self {
            Self::Refused(refusal) => refusal.fmt(f),
            Self::Unreadable(_) => f.write_str("the event was taken, but its answer does not read"),
        }
    }
}

impl error::Error for Error {
    fn source(&self) -> Option<&(dyn error::Error + 'static)> {
        match self {
            Self::Refused(_) => None,
            Self::Unreadable(bad) => Some(bad),
        }
    }
}

impl From<Refusal> for Error {
    fn from(refusal: Refusal) -> Self {
        Self::Refused(refusal)
    }
}

impl From<BadAnswer> for Error {
    fn from(bad: BadAnswer) -> Self {
        Self::Unreadable(bad)
    }
}

#[cfg(test)]
mod tests {
    use super::*;
    use std::error::Error as _;

    #[test]
    fn numbers_and_refusals_are_each_others() {
        for number in 1..=25 {
            assert_eq!(Refusal::from_number(number).map(Refusal::number), Some(number));
            assert_eq!(Refusal::of(number).map_err(Refusal::number), Err(number));
        }
        assert_eq!(Refusal::of(0), Ok(()));
        assert_eq!(Refusal::of(u32::MAX), Err(Refusal::Other(u32::MAX)));
        assert_eq!(Refusal::Other(99).to_string(), "refused with 99: a number that is not known here");
    }

    #[test]
    fn an_answer_that_does_not_read_is_told_with_its_bytes() {
        let bad = BadAnswer::new(b"abc", Fault::Cut);
        assert_eq!(
            bad.to_string(),
            "these 3 bytes are no answer of the book: they end before the answer does"
        );
        let error = Error::from(bad.clone());
        assert_eq!((error.number(), error.refusal()), (0, None));
        assert_eq!(error.source().map(ToString::to_string), Some(bad.to_string()));
        assert_eq!(bad.into_bytes(), b"abc");
    }
}
