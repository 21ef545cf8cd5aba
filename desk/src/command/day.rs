//! A day of events: read from a journal, a text or records, and run.

use std::collections::BTreeSet;
use std::error::Error;
use std::fmt;
use std::io::Read;
use std::path::Path;
use std::time::{Duration, Instant};

use desk::Journal;
use jubafiye::{text, Answer, Book, Error as Taken, Event, Refusal, Shelf};

/// The setting of a day that says none.
const SETTING: u32 = 10_000;

/// The records of a day, in order.
pub struct Day {
    /// The book that it begins with.
    first: Book,
    pub records: Vec<Vec<u8>>,
    /// The numbers of those that a journal has as refused for want of room: before there were archives nothing retired.
    full: BTreeSet<u64>,
}

/// An event of a day as it was run.
pub struct Step {
    pub seq: u64,
    pub record: Vec<u8>,
    pub answer: Result<Answer, Refusal>,
    /// The order that it concerns, if the book has it.
    pub order: Option<Vec<u8>>,
}

impl fmt::Display for Step {
    fn fmt(&self, f: &mut fmt::Formatter<'_>) -> fmt::Result {
        writeln!(f, "{} {}", self.seq, text::to_text(&self.record))?;
        match &self.answer {
            Ok(answer) => answer.to_string().lines().try_for_each(|line| writeln!(f, "    {line}")),
            Err(refusal) => writeln!(f, "    {}", refusal.of_record(&self.record)),
        }
    }
}

/// The bytes of a file, or of standard input.
pub fn bytes(path: &Path) -> Result<Vec<u8>, Box<dyn Error>> {
    if path == Path::new("-") {
        let mut bytes = Vec::new();
        std::io::stdin().read_to_end(&mut bytes)?;
        return Ok(bytes);
    }
    std::fs::read(path).map_err(|why| format!("{}: {why}", path.display()).into())
}

pub fn is_journal(bytes: &[u8]) -> bool {
    bytes.starts_with(b"SQLite format 3\0")
}

impl Day {
    pub fn load(path: &Path) -> Result<Self, Box<dyn Error>> {
        let bytes = bytes(path)?;
        let of_file = |why: String| format!("{}: {why}", path.display());
        if is_journal(&bytes) {
            let journal = Journal::read(path).map_err(|why| of_file(why.to_string()))?;
            let events = journal.events(1)?;
            let full = events.iter().filter(|event| event.answer == Err(Refusal::Full));
            return Ok(Self {
                first: journal.first_book().map_err(|why| of_file(why.to_string()))?,
                full: full.map(|event| event.seq).collect(),
                records: events.into_iter().map(|event| event.record).collect(),
            });
        }
        let records = match std::str::from_utf8(&bytes) {
            Ok(day) if !day.contains(|c: char| c.is_control() && !c.is_whitespace()) => from_text(day),
            _ => from_records(&bytes),
        };
        match records.map_err(of_file)? {
            records if records.is_empty() => Err(of_file("no event stands in it".into()).into()),
            records => Ok(Self { first: Book::new(SETTING), records, full: BTreeSet::new() }),
        }
    }

    /// Runs the day up to an event and shows each step; gives the book then, with what it has retired.
    pub fn run(
        &self,
        until: Option<u64>,
        mut show: impl FnMut(&Step) -> Result<(), Box<dyn Error>>,
    ) -> Result<Shelf<()>, Box<dyn Error>> {
        let mut shelf = one_book(self.first.clone())?;
        let mut told = Instant::now();
        for (seq, record) in
            (1..).zip(&self.records).take_while(|(seq, _)| until.is_none_or(|until| *seq <= until))
        {
            if told.elapsed() > Duration::from_secs(1) {
                eprintln!("desk: event {seq} of {}", self.records.len());
                told = Instant::now();
            }
            let before = concerns(&shelf, record);
            shelf.retires(!self.full.contains(&seq));
            let answer = match shelf.take_record(record) {
                Ok(answer) => Ok(answer),
                Err(Taken::Refused(refusal)) => Err(refusal),
                Err(other) => return Err(other.into()),
            };
            let order = before.or_else(|| concerns(&shelf, record));
            show(&Step { seq, record: record.clone(), answer, order })?;
        }
        Ok(shelf)
    }
}

/// A shelf with one book for all clients.
pub fn one_book(book: Book) -> Result<Shelf<()>, Refusal> {
    let mut shelf = Shelf::keyed(book.setting(), |_| ());
    shelf.put((), book, Vec::new())?;
    Ok(shelf)
}

fn from_text(day: &str) -> Result<Vec<Vec<u8>>, String> {
    text::records(day).map(|(line, record)| record.map_err(|why| format!("line {line}: {why}"))).collect()
}

fn from_records(mut bytes: &[u8]) -> Result<Vec<Vec<u8>>, String> {
    let mut records = Vec::new();
    while let Some((length, rest)) = bytes.split_first_chunk() {
        let length = usize::from(u16::from_le_bytes(*length));
        let Some((record, rest)) = rest.split_at_checked(length) else { break };
        records.push(record.to_vec());
        bytes = rest;
    }
    match bytes.len() {
        0 => Ok(records),
        left => Err(format!(
            "it is no day: after {} records, {left} bytes are left that are no record",
            records.len()
        )),
    }
}

/// The name of the order that an event concerns (docs/SCOPE.md, Events).
fn concerns(shelf: &Shelf<()>, record: &[u8]) -> Option<Vec<u8>> {
    let by_name = |name: &[u8]| shelf.order(name).map(|order| order.name.to_vec());
    let by_client = |amend: jubafiye::Amend<'_>| {
        shelf.order_of(amend.client, amend.orig_cl_ord_id).map(|order| order.name.to_vec())
    };
    let by_downstream = |downstream: &[u8]| {
        let name = downstream.split(|&byte| byte == b'-').next()?;
        let mut requests = shelf.holder(name)?.requests();
        requests.find(|request| request.downstream == downstream).map(|request| request.order_name.to_vec())
    };
    match Event::read(record).ok()? {
        Event::Book(booking) => by_name(booking.name),
        Event::Cancel(amend) => by_client(amend),
        Event::Replace(replace) => by_client(replace.amend),
        Event::VenueReport(report) => by_downstream(report.downstream),
        Event::CancelReject(reject) => by_downstream(reject.downstream),
        Event::UnknownAtVenue { downstream, .. }
        | Event::SendFailed { downstream, .. }
        | Event::SendAgain { downstream, .. } => by_downstream(downstream),
        Event::GatewayCancel { name } => by_name(name),
    }
}
