//! A book of a shelf with the archives that its done orders were retired into. Rests on book, retire, many and concern.

use std::collections::HashMap;
use std::sync::Arc;

use crate::answer::{whole, Answer};
use crate::book::Book;
use crate::entries::{self, ANSWER_BYTES, ORDERS, REQUESTS, SAID_BYTES};
use crate::error::{Error, Refusal};
use crate::layout;
use crate::shelf::concern::Concern;

/// What an event gives: its answer, or an error.
pub(crate) type Answered = Result<Answer, Error>;

/// Whether the event was taken.
pub(crate) fn taken(answered: &Answered) -> bool {
    !matches!(answered, Err(Error::Refused(_)))
}

/// An event of a batch: its place among the batch's events, its record, and what it concerns.
#[derive(Clone, Copy)]
pub(crate) struct Job<'a> {
    pub(crate) place: usize,
    pub(crate) record: &'a [u8],
    pub(crate) concern: Concern<'a>,
}

/// A book and its archives, oldest first, with the archive of each retired name and of each ClOrdID of a client. A clone shares
/// what neither changes.
#[derive(Clone)]
pub(crate) struct Shelved {
    pub(crate) book: Book,
    pub(crate) archives: Vec<Arc<Book>>,
    names: Arc<HashMap<Vec<u8>, usize>>,
    cl_ord_ids: Arc<HashMap<u16, HashMap<Vec<u8>, usize>>>,
    /// Whether the book retires by itself if it finds no room.
    pub(crate) retires: bool,
}

impl Shelved {
    pub(crate) fn new(book: Book, archives: Vec<Arc<Book>>, retires: bool) -> Self {
        let (names, cl_ord_ids) = Default::default();
        let mut shelved = Self { book, archives: Vec::new(), names, cl_ord_ids, retires };
        for archive in archives {
            shelved.archives.push(archive);
            shelved.enter(0, 0);
        }
        shelved
    }

    /// Enters what the newest archive holds behind so many orders and requests.
    fn enter(&mut self, orders: usize, requests: usize) {
        let Some((archive, older)) = self.archives.split_last() else { return };
        let names = Arc::make_mut(&mut self.names);
        names.extend(archive.orders().skip(orders).map(|order| (order.name.to_vec(), older.len())));
        let ids = Arc::make_mut(&mut self.cl_ord_ids);
        for request in archive.requests().skip(requests) {
            if let Some(id) = request.cl_ord_id {
                ids.entry(request.client).or_default().insert(id.to_vec(), older.len());
            }
        }
    }

    /// The archive of a client's ClOrdID.
    pub(crate) fn archive_of(&self, client: u16, cl_ord_id: &[u8]) -> Option<usize> {
        self.cl_ord_ids.get(&client)?.get(cl_ord_id).copied()
    }

    /// The archive that an event goes to; none if it goes to the book.
    fn archive(&self, concern: &Concern<'_>) -> Option<usize> {
        match *concern {
            Concern::Booking { client, name, cl_ord_id } => {
                self.names.get(name).copied().or_else(|| self.archive_of(client, cl_ord_id))
            }
            Concern::Amendment { client, cl_ord_id, orig_cl_ord_id } => {
                self.archive_of(client, cl_ord_id).or_else(|| self.archive_of(client, orig_cl_ord_id))
            }
            Concern::Order(name) => self.names.get(name).copied(),
            Concern::Nothing => None,
        }
    }

    /// The book or archive that has the order of a name, if there is one.
    pub(crate) fn holds(&self, name: &[u8]) -> &Book {
        self.names.get(name).and_then(|&archive| self.archives.get(archive)).map_or(&self.book, Arc::as_ref)
    }

    /// The book or archive that has a client's ClOrdID, if there is one.
    pub(crate) fn holds_id(&self, client: u16, cl_ord_id: &[u8]) -> &Book {
        let archive = self.archive_of(client, cl_ord_id).and_then(|archive| self.archives.get(archive));
        archive.map_or(&self.book, Arc::as_ref)
    }

    /// The archives, oldest first, and then the book.
    pub(crate) fn all(&self) -> impl Iterator<Item = &Book> {
        self.archives.iter().map(Arc::as_ref).chain([&self.book])
    }

    /// Retires the done orders into the newest archive, or into a fresh one if that is refused; gives how many they were.
    pub(crate) fn retire(&mut self) -> usize {
        if let Some(newest) = self.archives.last_mut() {
            let (orders, requests) = in_use(newest);
            if let Ok(moved) = self.book.retire(Arc::make_mut(newest)) {
                self.enter(orders, requests);
                return usize::try_from(moved).unwrap_or(usize::MAX);
            }
        }
        let mut fresh = Book::new(self.book.setting());
        match self.book.retire(&mut fresh) {
            Ok(0) | Err(_) => 0,
            Ok(moved) => {
                self.archives.push(Arc::new(fresh));
                self.enter(0, 0);
                usize::try_from(moved).unwrap_or(usize::MAX)
            }
        }
    }

    /// Takes an event, in the archive or the book that it goes to, and gives its answer's bytes; the book retires its done orders if
    /// it finds no room.
    pub(crate) fn take<'a>(
        &mut self,
        concern: &Concern<'_>,
        record: &[u8],
        answer: &'a mut [u8],
    ) -> Result<&'a [u8], Refusal> {
        let archive = self.archive(concern);
        if let Some(archive) = archive.and_then(|archive| self.archives.get_mut(archive)) {
            return Arc::make_mut(archive).take_record_into(record, answer);
        }
        match entries::event(self.book.bytes_mut(), record, answer) {
            Err(Refusal::Full) if self.retires && self.retire() > 0 => {
                entries::event(self.book.bytes_mut(), record, answer)?
            }
            taken => taken?,
        }
        Ok(whole(answer).unwrap_or(answer))
    }

    /// How many events find room whatever they are: each adds at most one order and one request.
    fn room(&self) -> usize {
        let (orders, requests) = in_use(&self.book);
        ORDERS.saturating_sub(orders).min(REQUESTS.saturating_sub(requests))
    }

    /// Takes events in their order, as [`Shelved::take`] takes each; as many as find room for certain go in one call.
    pub(crate) fn take_all(&mut self, jobs: &[Job<'_>]) -> Vec<(usize, Answered)> {
        let (mut said, mut rest) = (Vec::with_capacity(jobs.len()), jobs);
        while let Some((job, behind)) = rest.split_first() {
            let sure = rest.iter().take(self.room()).take_while(|job| self.archive(&job.concern).is_none());
            let count = sure.count();
            let ran = if count < 2 { 0 } else { self.run(rest.get(..count).unwrap_or_default(), &mut said) };
            rest = if ran == 0 {
                let mut answer = [0; ANSWER_BYTES];
                let bytes = self.take(&job.concern, job.record, &mut answer);
                said.push((job.place, read(bytes)));
                behind
            } else {
                rest.get(ran..).unwrap_or_default()
            };
        }
        said
    }

    /// Runs events on the book in one call, and gives how many were run.
    fn run(&mut self, jobs: &[Job<'_>], said: &mut Vec<(usize, Answered)>) -> usize {
        let mut records = Vec::new();
        for job in jobs {
            // What came behind a length in two bytes goes there again.
            let Ok(length) = u16::try_from(job.record.len()) else { break };
            records.extend_from_slice(&length.to_le_bytes());
            records.extend_from_slice(job.record);
        }
        let mut answers = vec![0; jobs.len().saturating_mul(SAID_BYTES)];
        let Ok(taken) = self.book.take_all(&records, &mut answers) else { return 0 };
        let before = said.len();
        said.extend(jobs.iter().map(|job| job.place).zip(taken.answers()));
        said.len().saturating_sub(before)
    }
}

/// The answer of some bytes.
pub(crate) fn read(bytes: Result<&[u8], Refusal>) -> Answered {
    Ok(Answer::read(bytes?)?)
}

/// How many orders and requests a book has.
fn in_use(book: &Book) -> (usize, usize) {
    (layout::orders_in_use(book.bytes()), layout::requests_in_use(book.bytes()))
}
