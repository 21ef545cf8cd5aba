//! Many events in one call, whose book is asked its rules once. Rests on entries, book, answer and error.

use std::iter::FusedIterator;

use crate::answer::{whole, Answer};
use crate::book::Book;
use crate::entries::{self, SAID_BYTES};
use crate::error::{Error, Refusal};

/// What many events in one call came to: how far the records were read, and what each event said.
///
/// ```
/// use jubafiye::{Alarm, Book, Error, Event, Refusal, Stopped};
///
/// let mut records = Vec::new();
/// Event::UnknownAtVenue { venue: 3, downstream: b"G1" }.append(&mut records);
/// Event::GatewayCancel { name: b"not-a-name" }.append(&mut records);
///
/// let (mut book, mut answers) = (Book::new(10_000), [0; 4_096]);
/// let taken = book.take_all(&records, &mut answers)?;
/// assert_eq!((taken.events(), taken.read(), taken.stopped()), (2, records.len(), Stopped::AllRead));
/// let mut answers = taken.answers();
/// assert_eq!(answers.next().unwrap()?.alarms, [Alarm::UnknownOrder]);
/// assert_eq!(answers.next(), Some(Err(Error::Refused(Refusal::Range))));
/// assert_eq!(answers.next(), None);
/// # Ok::<(), Error>(())
/// ```
#[must_use = "its messages are to be sent, and the next call begins where this one stopped reading"]
#[derive(Debug, Clone, Copy, PartialEq, Eq)]
pub struct Taken<'a> {
    events: usize,
    read: usize,
    stopped: Stopped,
    said: &'a [u8],
}

/// Why a call of many events ended. What was not read is for the next call, which begins there.
///
/// ```
/// use jubafiye::{Book, Event, Stopped, SAID_BYTES};
///
/// let (mut book, mut records) = (Book::new(10_000), Vec::new());
/// let event = Event::SendAgain { venue: 3, downstream: b"G1" };
/// event.append(&mut records);
/// let one = records.len();
/// event.append(&mut records);
///
/// let mut stopped = |records: &[u8], room: usize| {
///     book.take_all(records, &mut vec![0; room]).map(|taken| (taken.read(), taken.stopped()))
/// };
/// assert_eq!(stopped(&records, 4_096)?, (2 * one, Stopped::AllRead));
/// assert_eq!(stopped(&records, SAID_BYTES)?, (one, Stopped::NoRoom));
/// assert_eq!(stopped(&records[..one + 3], 4_096)?, (one, Stopped::Cut { bytes: Some(one) }));
/// assert_eq!(stopped(&records[..one + 1], 4_096)?, (one, Stopped::Cut { bytes: None }));
/// # Ok::<(), jubafiye::Refusal>(())
/// ```
#[derive(Debug, Clone, Copy, PartialEq, Eq)]
pub enum Stopped {
    /// Every byte of the records was read.
    AllRead,
    /// Fewer than [`SAID_BYTES`] of the answers were left, and bytes of the records are: the next call needs new room.
    NoRoom,
    /// What is left is the front of a record: the next call needs its rest too.
    Cut {
        /// The bytes of the record with its length, if that is there: 2 to 65,537. If they do not fit the host's own buffer,
        /// the length is garbage, and waiting for the rest would be waiting for ever.
        bytes: Option<usize>,
    },
}

impl<'a> Taken<'a> {
    fn new([events, read, written]: [usize; 3], records: &[u8], answers: &'a [u8]) -> Self {
        // The proved library reads and writes no more than there is.
        let rest = records.get(read..).unwrap_or_default();
        let (said, room) = answers.split_at_checked(written).unwrap_or((answers, &[]));
        let stopped = match rest {
            [] => Stopped::AllRead,
            _ if room.len() < SAID_BYTES => Stopped::NoRoom,
            [low, high, ..] => {
                let length = usize::from(u16::from_le_bytes([*low, *high]));
                Stopped::Cut { bytes: Some(length.saturating_add(2)) }
            }
            [_] => Stopped::Cut { bytes: None },
        };
        Self { events, read, stopped, said }
    }

    /// How many events were run, refused ones too.
    /// [`Taken`] has an example.
    pub fn events(&self) -> usize {
        self.events
    }

    /// The bytes of the records that were read: the next call begins with the first that was not.
    /// [`Stopped`] has an example.
    pub fn read(&self) -> usize {
        self.read
    }

    /// Why it ended there.
    /// [`Stopped`] has an example.
    pub fn stopped(&self) -> Stopped {
        self.stopped
    }

    /// What [`Book::take`] gives for each event, in order: its answer, or an error.
    /// [`Taken`] has an example.
    pub fn answers(&self) -> impl Iterator<Item = Result<Answer, Error>> + 'a {
        self.said().map(|said| Ok(Answer::read(said?)?))
    }

    /// The bytes of each event's answer, or its refusal, in order. Nothing is allocated.
    ///
    /// ```
    /// # use jubafiye::{Book, Event, Refusal};
    /// let mut records = b"\x03\0bad".to_vec();
    /// Event::SendAgain { venue: 3, downstream: b"G1" }.append(&mut records);
    /// let mut answers = [0; 4_096];
    /// let taken = Book::new(10_000).take_all(&records, &mut answers)?;
    /// assert_eq!(taken.said().collect::<Vec<_>>(), [Err(Refusal::Record), Ok(&[5, 0, 0, 0, 0][..])]);
    /// # Ok::<(), Refusal>(())
    /// ```
    pub fn said(&self) -> Said<'a> {
        Said { rest: self.said }
    }
}

/// The bytes of each event's answer, or its refusal, in order: what [`Taken::said`] goes through.
///
/// ```
/// # use jubafiye::{Book, Refusal, Said};
/// let mut answers = [0; 4_096];
/// let taken = Book::new(10_000).take_all(&[0, 0, 1, 0, 9], &mut answers)?;
/// let mut said: Said<'_> = taken.said();
/// assert_eq!((said.next(), said.next()), (Some(Err(Refusal::Record)), Some(Err(Refusal::Record))));
/// assert_eq!(said.next(), None);
/// # Ok::<(), Refusal>(())
/// ```
#[derive(Debug, Clone)]
pub struct Said<'a> {
    rest: &'a [u8],
}

impl<'a> Iterator for Said<'a> {
    type Item = Result<&'a [u8], Refusal>;

    fn next(&mut self) -> Option<Self::Item> {
        let (&refusal, rest) = self.rest.split_first()?;
        if let Some(refusal) = Refusal::from_number(refusal.into()) {
            self.rest = rest;
            return Some(Err(refusal));
        }
        // Should an answer's length not fit, all that is left is given back.
        let answer = whole(rest).unwrap_or(rest);
        self.rest = rest.get(answer.len()..).unwrap_or_default();
        Some(Ok(answer))
    }
}

impl FusedIterator for Said<'_> {}

impl Book {
    /// Takes many events, whose records stand one after the other, each after its length in two bytes, little-endian: each as
    /// [`Book::take_record`] takes it, on the book that the one before it left. A refused event does not end the list. The
    /// book's rules are asked once, which is most of what a single event costs.
    ///
    /// It goes on as long as a whole record is there and [`SAID_BYTES`] of `answers` are left. What it has not read is for the
    /// next call, with new room and, if a record was cut, with the rest behind it. `answers` with fewer than [`SAID_BYTES`] is
    /// refused with [`Refusal::AnswerBuffer`], and nothing has changed. Nothing is allocated.
    ///
    /// ```
    /// use jubafiye::{Book, Event, Refusal, Stopped};
    ///
    /// // A journal that is read in pieces of 16 bytes, into a buffer of 64.
    /// let mut journal = Vec::new();
    /// for name in [&b"G1"[..], b"G2", b"G3"] {
    ///     Event::GatewayCancel { name }.append(&mut journal);
    /// }
    /// let (mut book, mut come, mut answers, mut events) = (Book::new(10_000), Vec::new(), [0; 4_096], 0);
    /// for piece in journal.chunks(16) {
    ///     come.extend_from_slice(piece);
    ///     loop {
    ///         let taken = book.take_all(&come, &mut answers)?;
    ///         events += taken.answers().count();
    ///         let (read, stopped) = (taken.read(), taken.stopped());
    ///         come.drain(..read);
    ///         match stopped {
    ///             Stopped::AllRead => break,
    ///             Stopped::NoRoom => continue,
    ///             Stopped::Cut { bytes } if bytes.is_none_or(|bytes| bytes <= 64) => break,
    ///             Stopped::Cut { .. } => panic!("a length that is garbage"),
    ///         }
    ///     }
    /// }
    /// assert_eq!((events, come.len()), (3, 0));
    /// # Ok::<(), Refusal>(())
    /// ```
    pub fn take_all<'a>(&mut self, records: &[u8], answers: &'a mut [u8]) -> Result<Taken<'a>, Refusal> {
        let ran = entries::events(self.bytes_mut(), records, answers)?;
        Ok(Taken::new(ran, records, answers))
    }
}

#[cfg(test)]
mod tests {
    use super::*;

    /// A library of another version: numbers that fit nothing, and answers that do not read.
    #[test]
    fn whatever_is_returned_and_written_nothing_panics() {
        let garbage: Vec<u8> = (0..2_000_u32).map(|at| (at * at % 251) as u8).collect();
        for number in [0, 1, 2, 1_999, 2_000, 2_001, usize::MAX] {
            for other in [0, 7, 2_000, usize::MAX] {
                let taken = Taken::new([number; 3], &garbage[..other.min(2_000)], &garbage);
                assert!(taken.said().count() <= 2_000 && taken.answers().count() <= 2_000);
                let taken = Taken::new([other, other, number], &garbage, &garbage);
                assert_eq!((taken.events(), taken.read()), (other, other));
            }
        }
        let said = |bytes| Said { rest: bytes }.collect::<Vec<_>>();
        assert_eq!(said(&[0]), [Ok(&[][..])]);
        assert_eq!(said(&[0, 9]), [Ok(&[9][..])]);
        assert_eq!(said(&[0, 9, 0, 3]), [Ok(&[9, 0, 3][..])]);
        assert_eq!(said(&[0, 0, 0, 3]), [Ok(&[][..]), Ok(&[0, 3][..])]);
        assert_eq!(said(&[200, 4]), [Err(Refusal::Other(200)), Err(Refusal::Range)]);
    }
}
