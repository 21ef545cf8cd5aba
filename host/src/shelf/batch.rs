//! Many events of a shelf: split by book, run on as many threads as there are, their answers in the events' order. Rests on
//! shelved and concern.

use std::collections::HashMap;
use std::panic;
use std::sync::Arc;
use std::thread;

use crate::shelf::concern::Concern;
use crate::shelf::shelved::{taken, Answered, Job, Shelved};
use crate::shelf::Shelf;

/// What many events of a shelf came to: each one's answer, in their order, and the bytes of their records.
///
/// ```
/// use jubafiye::{Batch, Event, Shelf};
///
/// let mut records = Vec::new();
/// Event::SendAgain { venue: 3, downstream: b"G1" }.append(&mut records);
/// let whole = records.len();
/// records.extend(b"\x08\0\x09"); // the front of another
/// let batch: Batch = Shelf::new(100).take_all(&records);
/// assert_eq!((batch.answers.len(), batch.read), (1, whole));
/// ```
#[must_use = "its messages are to be sent, and the next call begins where this one stopped reading"]
#[derive(Debug, Clone, PartialEq, Eq)]
#[non_exhaustive]
pub struct Batch {
    /// What [`Shelf::event`] gives for each event.
    pub answers: Vec<Answered>,
    /// The bytes of the records that were read; what is left is the front of a record, whose rest is still to come.
    pub read: usize,
}

/// With fewer events, a further thread costs more than it takes over.
const FEW: usize = 64;

/// The record at the front, and what is behind it; none if it is not there whole.
fn first(records: &[u8]) -> Option<(&[u8], &[u8])> {
    let (length, rest) = records.split_first_chunk()?;
    rest.split_at_checked(usize::from(u16::from_le_bytes(*length)))
}

/// Events by the book that they go to, those that go to none, and the names that the bookings among them bear.
#[derive(Default)]
struct Split<'a> {
    lists: HashMap<usize, Vec<Job<'a>>>,
    nobody: Vec<Job<'a>>,
    bookings: Vec<(usize, &'a [u8], usize)>,
    names: HashMap<&'a [u8], usize>,
    events: usize,
}

impl<K: Ord> Shelf<K> {
    /// Takes many events, whose records stand one after the other, each after its length in two bytes, little-endian
    /// ([`Event::append`](crate::Event::append)). Each gets what [`Shelf::event`] gives it, in the order of the events: a refused
    /// one does not end the list. The events of different books run side by side ([`Shelf::threads`]), and those of one book in
    /// their order.
    ///
    /// ```
    /// use jubafiye::{Booking, Event, Qty, Shelf, Side};
    ///
    /// let mut records = Vec::new();
    /// for number in 0..200u16 {
    ///     let name = format!("G{number}");
    ///     let booking = Booking::new(number % 4, 3, Side::Buy, Qty::units(1), b"OATS");
    ///     Event::Book(booking.named(name.as_bytes(), name.as_bytes())).append(&mut records);
    /// }
    /// let mut shelf = Shelf::new(100);
    /// let batch = shelf.take_all(&records);
    /// assert!(batch.read == records.len() && batch.answers.iter().all(Result::is_ok));
    /// assert_eq!(shelf.page().lines().count(), 200);
    /// ```
    pub fn take_all(&mut self, records: &[u8]) -> Batch {
        let (mut rest, mut read, mut all) = (records, 0_usize, Vec::new());
        while let Some((record, behind)) = first(rest) {
            all.push(record);
            read = read.saturating_add(record.len()).saturating_add(2);
            rest = behind;
        }
        let mut answers = Vec::with_capacity(all.len());
        while let Some(left) = all.get(answers.len()..).filter(|left| !left.is_empty()) {
            let split = self.split(left);
            let (bookings, events) = (split.bookings.clone(), split.events);
            let mut said = self.run(split);
            said.sort_unstable_by_key(|&(place, _)| place);
            let taken = |place: usize| said.get(place).is_some_and(|(_, answered)| taken(answered));
            for (_, name, index) in bookings.into_iter().filter(|&(place, ..)| taken(place)) {
                Arc::make_mut(&mut self.names).insert(name.to_vec(), index);
            }
            answers.extend(said.into_iter().take(events).map(|(_, answered)| answered));
        }
        Batch { answers, read }
    }

    /// Splits events by book, as far as it is certain before they run where each goes: up to a booking whose name another book's
    /// booking bears before it.
    fn split<'a>(&mut self, records: &[&'a [u8]]) -> Split<'a> {
        let mut split = Split::default();
        for (place, &record) in records.iter().enumerate() {
            let concern = Concern::of(record);
            let named = match concern {
                Concern::Booking { name, .. } | Concern::Order(name) => split.names.get(name).copied(),
                _ => None,
            };
            let index = match (concern, self.index(&concern)) {
                (Concern::Booking { .. }, Some(own)) if named.is_some_and(|named| named != own) => break,
                (Concern::Order(_), None) => named,
                (_, index) => index,
            };
            let job = Job { place, record, concern };
            match index {
                Some(index) => split.lists.entry(index).or_default().push(job),
                None => split.nobody.push(job),
            }
            if let (Concern::Booking { name, .. }, Some(index)) = (concern, index) {
                split.names.insert(name, index);
                split.bookings.push((place, name, index));
            }
            split.events = split.events.saturating_add(1);
        }
        split
    }

    /// Runs what was split, each book's events on one thread.
    fn run(&mut self, mut split: Split<'_>) -> Vec<(usize, Answered)> {
        let mut said: Vec<_> =
            split.nobody.iter().map(|job| (job.place, self.nobody.take_record(job.record))).collect();
        let own = |(index, book)| Some((book, split.lists.remove(&index)?));
        let mut work: Vec<(&mut Shelved, Vec<Job<'_>>)> =
            self.books.iter_mut().enumerate().filter_map(own).collect();
        let threads = if split.events < FEW { 1 } else { self.threads.min(work.len()).max(1) };
        // The longest lists first, each to the thread that has the least so far.
        work.sort_by_key(|(_, jobs)| std::cmp::Reverse(jobs.len()));
        let mut shares: Vec<(usize, Vec<_>)> = (0..threads).map(|_| (0, Vec::new())).collect();
        for one in work {
            if let Some(share) = shares.iter_mut().min_by_key(|share| share.0) {
                share.0 = share.0.saturating_add(one.1.len());
                share.1.push(one);
            }
        }
        let run = |share: Vec<(&mut Shelved, Vec<Job<'_>>)>| -> Vec<_> {
            share.into_iter().flat_map(|(book, jobs)| book.take_all(&jobs)).collect()
        };
        let own = shares.pop().map(|share| share.1).unwrap_or_default();
        thread::scope(|scope| {
            let others: Vec<_> = shares.into_iter().map(|share| scope.spawn(move || run(share.1))).collect();
            said.extend(run(own));
            for other in others {
                said.extend(other.join().unwrap_or_else(|reason| panic::resume_unwind(reason)));
            }
        });
        said
    }
}
