//! Many events in one call (`events`), compared with the library's own `event` for each record: the numbers, and every byte of
//! book, answers and records, with guards around all three. A list goes through in calls that are cut anywhere, each with a
//! room of its own; beside that come calls that are refused, records that are cut, and rooms that are exactly enough.

use std::fmt;

use lists::List;
use lists::random::Random;
use model::machine::{ANSWER_BYTES, BOOK_BYTES};

use crate::entries::{Entries, Ran};
use crate::expected::told;
use crate::guards::{guarded, lend, same};
use crate::keeps::keeps;

/// The bytes of a record's length.
const LENGTH: usize = 2;

/// The most that an event says, its refusal and an answer: a call goes on as long as there is room for it.
pub const MOST_SAID: usize = 1 + ANSWER_BYTES;

/// The rooms that a list's calls have.
const ROOMS: (u64, u64) = (MOST_SAID as u64, 8_192);

/// The most bytes of a list that come between two calls.
const STEP: u64 = 3_000;

/// Events that odd calls are made of, and how many a list has that gets them.
const FEW: usize = 6;
const LONG: usize = 50;

/// Bytes of a book that are damaged, one in each call.
const DAMAGES: usize = 4;

/// What calls came to.
#[derive(Debug, Clone, Copy, PartialEq, Eq, Default)]
pub struct Calls {
    pub calls: u64,
    pub events: u64,
    /// Events that were refused, in calls that were not.
    pub refused: u64,
    /// Calls that stopped for want of room though a whole record was there, and calls that left a cut record.
    pub full: u64,
    pub cut: u64,
    /// Calls that were refused with 1 and 2.
    pub ones: u64,
    pub twos: u64,
}

impl Calls {
    pub fn add(&mut self, other: Self) {
        self.calls += other.calls;
        self.events += other.events;
        self.refused += other.refused;
        self.full += other.full;
        self.cut += other.cut;
        self.ones += other.ones;
        self.twos += other.twos;
    }
}

impl fmt::Display for Calls {
    fn fmt(&self, f: &mut fmt::Formatter<'_>) -> fmt::Result {
        let Self { calls, events, refused, full, cut, ones, twos } = self;
        write!(
            f,
            "{events} in {calls} calls, {refused} of them refused; {full} calls had no more room, {cut} left a cut record, \
             {ones} were refused with 1 and {twos} with 2"
        )
    }
}

/// A library's `events`, and what its calls came to.
pub struct Many<'a> {
    entries: &'a Entries,
    random: Random,
    pub calls: Calls,
}

/// Records one after the other, each after its length.
pub fn joined<'r>(records: impl IntoIterator<Item = &'r [u8]>) -> Vec<u8> {
    let with_length = |record: &'r [u8]| {
        let length = u16::try_from(record.len()).expect("a record that two bytes can count");
        [&length.to_le_bytes(), record].concat()
    };
    records.into_iter().flat_map(with_length).collect()
}

/// The record at the front, if it is there whole.
fn first(records: &[u8]) -> Option<&[u8]> {
    let (length, rest) = records.split_first_chunk()?;
    rest.get(..u16::from_le_bytes(*length).into())
}

/// What a call must give and leave of book and answers: what `event` gives and leaves, record by record.
pub fn right(entries: &Entries, book: &[u8], records: &[u8], answers: &[u8]) -> (Ran, Vec<u8>, Vec<u8>) {
    let (mut book, mut answers) = (book.to_vec(), answers.to_vec());
    let refused = |refusal| Ran { refusal, ..Ran::default() };
    if !keeps(&book) {
        return (refused(1), book, answers);
    }
    if answers.len() < MOST_SAID {
        return (refused(2), book, answers);
    }
    let (mut events, mut read, mut written) = (0, 0, 0);
    while let Some(record) = first(&records[read..]).filter(|_| answers.len() - written >= MOST_SAID) {
        let mut answer = [0xEE; ANSWER_BYTES];
        let refusal = entries.event(&mut book, record, &mut answer);
        let said = if refusal == 0 { told(&answer) } else { Vec::new() };
        answers[written] = refusal as u8;
        answers[written + 1..][..said.len()].copy_from_slice(&said);
        events += 1;
        read += LENGTH + record.len();
        written += 1 + said.len();
    }
    (Ran { refusal: 0, events, read: read as u64, written: written as u64 }, book, answers)
}

impl<'a> Many<'a> {
    pub fn new(entries: &'a Entries, seed: u64) -> Self {
        Self { entries, random: Random::new(seed), calls: Calls::default() }
    }

    /// Calls, and compares what it gives and every byte with what they must be; the book is then what was left of it.
    pub fn call(&mut self, book: &mut Vec<u8>, records: &[u8], room: usize) -> Result<Ran, String> {
        let fill = self.random.next() as u8;
        let answers: Vec<u8> = (0..room).map(|at| (at * 151) as u8 ^ fill).collect();
        let (right, book_after, answers_after) = right(self.entries, book, records, &answers);
        let (mut lent_book, mut lent_records, mut lent_answers) =
            (guarded(book), guarded(records), guarded(&answers));
        let slices = (lend(&mut lent_book), lend(&mut lent_records), lend(&mut lent_answers));
        let given = self.entries.events(slices.0, slices.1, slices.2);
        let found = |what: String| {
            let bytes = records.len();
            format!("events: a call of {bytes} bytes of records with a room of {room}: {what}")
        };
        if given != right {
            return Err(found(format!("should give {right:?}, gives {given:?}")));
        }
        same("the answers", &answers_after, &lent_answers).map_err(found)?;
        same("the book", &book_after, &lent_book).map_err(found)?;
        same("the records", records, &lent_records).map_err(found)?;
        *book = book_after;
        self.count(given, records, &answers_after);
        Ok(given)
    }

    fn count(&mut self, ran: Ran, records: &[u8], answers: &[u8]) {
        let (left, room) = (&records[ran.read as usize..], answers.len() - ran.written as usize);
        let mut said = &answers[..ran.written as usize];
        while let [refusal, rest @ ..] = said {
            self.calls.refused += u64::from(*refusal != 0);
            said = if *refusal == 0 { &rest[told(rest).len()..] } else { rest };
        }
        self.calls.calls += 1;
        self.calls.events += ran.events;
        self.calls.full += u64::from(ran.refusal == 0 && room < MOST_SAID && first(left).is_some());
        self.calls.cut += u64::from(ran.refusal == 0 && !left.is_empty() && first(left).is_none());
        self.calls.ones += u64::from(ran.refusal == 1);
        self.calls.twos += u64::from(ran.refusal == 2);
    }

    /// The list's events as a host hands them over that reads a socket: what has come so far, from where the call before it
    /// stopped reading, so that a cut record comes again. Before a long list's first event and after its last come odd calls.
    pub fn list(&mut self, mut book: Vec<u8>, list: &List) -> Result<(), String> {
        let records: Vec<&[u8]> = list.items.iter().map(|item| &item.record[..]).collect();
        if records.len() >= LONG {
            self.odd(&book, &records[..FEW])?;
        }
        let all = joined(records.iter().copied());
        let (mut at, mut come, mut events) = (0, 0, 0);
        while at < all.len() {
            come = (come.max(at) + self.random.range(1, STEP) as usize).min(all.len());
            let room = self.random.range(ROOMS.0, ROOMS.1) as usize;
            let ran = self.call(&mut book, &all[at..come], room)?;
            at += ran.read as usize;
            events += ran.events;
        }
        if events != records.len() as u64 {
            return Err(format!("events: {} of {} records were run", events, records.len()));
        }
        if records.len() < LONG { Ok(()) } else { self.odd(&book, &records[records.len() - FEW..]) }
    }

    /// Calls of a few records that are refused, cut, or have exactly the room that they need, each on a copy of the book.
    fn odd(&mut self, book: &[u8], records: &[&[u8]]) -> Result<(), String> {
        let whole = joined(records.iter().copied());
        let mut on_copy = |records: &[u8], room: usize| self.call(&mut book.to_vec(), records, room);
        for room in [0, 1, ANSWER_BYTES, MOST_SAID] {
            on_copy(&whole, room)?;
            on_copy(&[], room)?;
        }
        // The room that the last event must find, and a byte less.
        let all = on_copy(&whole, records.len() * MOST_SAID)?;
        let last = whole.len() - records.last().map_or(0, |last| LENGTH + last.len());
        let before = on_copy(&whole[..last], records.len() * MOST_SAID + MOST_SAID)?;
        for room in [before.written as usize + MOST_SAID, all.written as usize + MOST_SAID] {
            on_copy(&whole, room)?;
            on_copy(&whole, (room - 1).max(MOST_SAID))?;
        }
        // The last record cut, its length too; nothing; a length without bytes; records of no byte among the others.
        let some = whole.len() - (whole.len() - last).min(4);
        for end in (some..whole.len()).chain((last + 1..whole.len()).take(4)) {
            on_copy(&whole[..end], 8_192)?;
        }
        for records in [&[][..], &[5], &[5, 0], &[0, 0], &[0, 0, 0, 0, 0], &[255, 255], &[1, 0, 9, 0, 0]] {
            on_copy(records, 8_192)?;
            on_copy(&[&whole[..], records].concat(), 8_192)?;
            on_copy(&[records, &whole].concat(), 8_192)?;
        }
        on_copy(&[&[255, 255][..], &vec![9; 65_535], &whole].concat(), 8_192)?;
        on_copy(&[&[255, 255][..], &vec![9; 65_534]].concat(), 8_192)?;
        self.other_books(book, &whole)
    }

    /// Books of another length, and books with a byte changed, which may still keep their rules.
    fn other_books(&mut self, book: &[u8], records: &[u8]) -> Result<(), String> {
        for length in [0, 1, BOOK_BYTES - 1, BOOK_BYTES + 1] {
            let mut other = book.to_vec();
            other.resize(length, 0x5A);
            self.call(&mut other.clone(), records, 8_192)?;
            self.call(&mut other, &[], 0)?;
        }
        for _ in 0..DAMAGES {
            let mut damaged = book.to_vec();
            damaged[self.random.below(BOOK_BYTES as u64) as usize] ^= 1 << self.random.below(8);
            self.call(&mut damaged, records, 8_192)?;
        }
        // More orders than there may be: no book, whatever stands behind the count.
        let mut broken = book.to_vec();
        broken[0] = 65;
        self.call(&mut broken.clone(), records, 8_192)?;
        self.call(&mut broken.clone(), records, ANSWER_BYTES)?;
        self.call(&mut broken, &[], 8_192).map(drop)
    }
}

/// A list through `events`, from the book that `start` makes.
pub fn holds(entries: &Entries, list: &List) -> Result<Calls, String> {
    let mut book = vec![0xA5; BOOK_BYTES];
    entries.start(&mut book, list.setting);
    holds_on(entries, book, list)
}

/// The same from a book that keeps its rules.
pub fn holds_on(entries: &Entries, book: Vec<u8>, list: &List) -> Result<Calls, String> {
    let mut many = Many::new(entries, list.items.len() as u64);
    many.list(book, list)?;
    Ok(many.calls)
}

#[cfg(test)]
mod tests {
    use model::events::{self, Named};

    use super::*;
    use crate::stand_in::STAND_IN;

    fn started() -> Vec<u8> {
        let mut book = vec![0; BOOK_BYTES];
        STAND_IN.start(&mut book, 10_000);
        book
    }

    #[test]
    fn a_record_is_whole_or_not_there() {
        assert_eq!([&[][..], &[0], &[1, 0], &[2, 0, 7], &[0, 1, 7]].map(first), [None; 5]);
        assert_eq!(first(&[0, 0]), Some(&[][..]));
        assert_eq!(first(&[1, 0, 7, 8]), Some(&[7][..]));
        assert_eq!(joined([&[7][..], &[], &[8, 9]]), [1, 0, 7, 0, 0, 2, 0, 8, 9]);
    }

    /// A booking, the same again, a record of no byte, and a cut one, by hand.
    #[test]
    fn a_small_call() {
        let named = Named { client: 9, symbol: b"S".to_vec(), side: b'1' };
        let booking = events::book(1, &named, b"A", b"c", 100, Some(10)).bytes();
        let mut records = joined([&booking[..], &booking, &[]]);
        let whole = records.len() as u64;
        records.extend(&joined([&booking[..]])[..booking.len()]);
        let mut answers = vec![0xAA; 2_000];
        let ran = STAND_IN.events(&mut started(), &mut records, &mut answers);
        assert_eq!(ran, Ran { refusal: 0, events: 3, read: whole, written: 8 });
        assert_eq!(answers[..10], [0, 5, 0, 0, 0, 0, 5, 3, 0xAA, 0xAA]);
        assert_eq!(right(&STAND_IN, &started(), &records, &vec![0xAA; 2_000]).0, ran);
        // The second event finds 1,025 bytes behind what the first one said, or it waits for the next call.
        let one = LENGTH + booking.len();
        for (room, events, read, written) in [(1_031, 2, 2 * one, 7), (1_030, 1, one, 6)] {
            let ran = STAND_IN.events(&mut started(), &mut records, &mut answers[..room]);
            assert_eq!(ran, Ran { refusal: 0, events, read: read as u64, written });
        }
    }

    #[test]
    fn calls_that_are_refused() {
        let (mut records, mut answers) = (joined([&b"no record"[..]]), vec![0xAA; MOST_SAID]);
        let mut broken = vec![0xFF; BOOK_BYTES];
        for (room, refusal) in [(MOST_SAID, 1), (0, 1)] {
            let ran = STAND_IN.events(&mut broken, &mut records, &mut answers[..room]);
            assert_eq!(ran, Ran { refusal, ..Ran::default() });
        }
        let ran = STAND_IN.events(&mut started(), &mut [], &mut answers[..MOST_SAID - 1]);
        assert_eq!(ran, Ran { refusal: 2, ..Ran::default() });
        assert!(answers.iter().all(|&byte| byte == 0xAA));
    }
}
