//! The journal: events, answers and what is to be sent, in one transaction each, before anything is sent. Rests on `jubafiye` and
//! SQLite.

use std::fmt::Display;
use std::path::Path;
use std::sync::Arc;

use jubafiye::{Answer, Book, Event, Message, Refusal, Shelf, ANSWER_BYTES};
use rusqlite::{params, Connection, OpenFlags, Transaction};

use crate::error::Error;
use crate::sum::sum;

/// The version of docs/LAYOUT.md that snapshots have, as SQLite stores it.
///
/// ```
/// use desk::{Error, Journal, LAYOUT_VERSION};
///
/// # let path = desk::doc_folder("layout_version").join("journal");
/// drop(Journal::create(&path, 10_000)?);
/// // as a desk with a later layout would leave it
/// rusqlite::Connection::open(&path)?.execute("UPDATE snapshot SET layout = ?1", [LAYOUT_VERSION + 1])?;
/// assert!(matches!(Journal::open(&path), Err(Error::Version { wanted: LAYOUT_VERSION, .. })));
/// # Ok::<(), Error>(())
/// ```
pub const LAYOUT_VERSION: i64 = jubafiye::LAYOUT_VERSION as i64;

/// A snapshot of the book is kept after so many events.
///
/// ```
/// use desk::{Journal, SNAPSHOT_EVERY};
/// use jubafiye::text::from_text;
///
/// # let path = desk::doc_folder("snapshot_every").join("journal");
/// let mut journal = Journal::create(&path, 10_000)?;
/// let event = from_text("again venue=3 downstream=G1").unwrap();
/// drop(journal.drain((0..SNAPSHOT_EVERY).map(|_| &event[..]))?);
/// drop(journal);
/// let db = rusqlite::Connection::open(&path)?;
/// let last: u64 = db.query_row("SELECT max(seq) FROM snapshot", [], |row| row.get(0))?;
/// assert_eq!(last, SNAPSHOT_EVERY);
/// # Ok::<(), desk::Error>(())
/// ```
pub const SNAPSHOT_EVERY: u64 = 256;

/// The version of the journal's tables, and the one that it has from its first archive on; the number by which SQLite's file is ours.
const VERSION: i64 = 1;
const WITH_ARCHIVES: i64 = 2;
const APPLICATION: i64 = 0x6A75_6265;

const TABLES: &str = "
    CREATE TABLE event (seq INTEGER PRIMARY KEY, record BLOB NOT NULL, refusal INTEGER NOT NULL, answer BLOB NOT NULL, sum INTEGER NOT NULL);
    CREATE TABLE outbox (id INTEGER PRIMARY KEY AUTOINCREMENT, seq INTEGER NOT NULL, message BLOB NOT NULL, repeat INTEGER NOT NULL, sum INTEGER NOT NULL);
    CREATE TABLE snapshot (seq INTEGER PRIMARY KEY, layout INTEGER NOT NULL, book BLOB NOT NULL, sum INTEGER NOT NULL);
";

/// The archives as the last snapshot has them. Their sums are part of its own.
const ARCHIVES: &str = "
    CREATE TABLE IF NOT EXISTS archive (number INTEGER PRIMARY KEY, layout INTEGER NOT NULL, book BLOB NOT NULL, sum INTEGER NOT NULL);
";

/// A message that is to be handed to a session.
///
/// ```
/// use desk::{Journal, Outgoing};
/// use jubafiye::{fix, text::from_text};
///
/// # let mut journal = Journal::create(desk::doc_folder("outgoing").join("journal"), 10_000)?;
/// let booking = "book client=7 venue=3 name=G1 clordid=C1 symbol=W side=buy ordtype=market qty=100";
/// drop(journal.take(&from_text(booking).unwrap())?);
/// let mut sent = Vec::new();
/// journal.hand_over(|Outgoing { message, record, repeat, .. }| {
///     let header = fix::Header { sender: b"US", target: b"THEM", sequence: 1, time: b"20261116-12:34:56" };
///     sent.push((fix::Peer::of(message), fix::to_vec(record, &header)?, *repeat));
///     Ok::<(), jubafiye::Refusal>(())
/// })?;
/// let (to, fix, repeat) = &sent[0];
/// assert_eq!((*to, fix.starts_with(b"8=FIX.4.4\x01"), *repeat), (fix::Peer::Venue(3), true, false));
/// # Ok::<(), desk::Error>(())
/// ```
#[derive(Debug, Clone, PartialEq, Eq)]
#[non_exhaustive]
pub struct Outgoing {
    /// Its number: messages are handed over in this order.
    pub id: i64,
    /// The number of its event.
    pub seq: u64,
    /// The message.
    pub message: Message,
    /// Its record, as `jubafiye::fix::write` takes it.
    pub record: Vec<u8>,
    /// Whether it may have been handed over before a crash: FIX's PossResend(97).
    pub repeat: bool,
}

/// An event that is on the disk.
///
/// ```
/// use desk::{Journal, Taken};
/// use jubafiye::Event;
///
/// # let mut journal = Journal::create(desk::doc_folder("taken").join("journal"), 10_000)?;
/// let record = Event::GatewayCancel { name: b"" }.record();
/// let Taken { seq, answer, .. } = journal.take(&record)?;
/// let why = answer.unwrap_err().of_record(&record);
/// assert_eq!((seq, why.ends_with("name has 0 bytes, not 1 to 20")), (1, true));
/// # Ok::<(), desk::Error>(())
/// ```
#[must_use]
#[derive(Debug, Clone, PartialEq, Eq)]
#[non_exhaustive]
pub struct Taken {
    /// Its number, from 1.
    pub seq: u64,
    /// What the book said: its messages are in the outbox.
    pub answer: Result<Answer, Refusal>,
}

/// An event as the journal keeps it.
///
/// ```
/// use desk::{Journal, Kept};
/// use jubafiye::{text::to_text, Event};
///
/// # let mut journal = Journal::create(desk::doc_folder("kept").join("journal"), 10_000)?;
/// drop(journal.take(&Event::UnknownAtVenue { venue: 3, downstream: b"G1" }.record())?);
/// let Kept { seq, record, answer, .. } = &journal.events(1)?[0];
/// assert_eq!((*seq, to_text(record)), (1, "unknown venue=3 downstream=G1".into()));
/// assert_eq!(answer.as_deref(), Ok(&[5, 0, 0, 3, 0][..]));
/// # Ok::<(), desk::Error>(())
/// ```
#[derive(Debug, Clone, PartialEq, Eq)]
#[non_exhaustive]
pub struct Kept {
    /// Its number, from 1.
    pub seq: u64,
    /// Its record.
    pub record: Vec<u8>,
    /// The bytes of its answer, or its refusal.
    pub answer: Result<Vec<u8>, Refusal>,
}

/// A book that is kept through a crash, and what is to be sent.
///
/// Where an order or a request finds no room, the book retires its done orders into archives (`jubafiye::Shelf`), which are kept too:
/// a book's 64 orders bound what is live, not the day.
///
/// An event, its answer and its messages go to the disk in one transaction (`synchronous=FULL`) before [`Journal::take`] returns.
/// A booking's own message to its venue, which the book leaves to the host, is among them.
///
/// ```
/// use desk::Journal;
/// use jubafiye::text::from_text;
///
/// # let path = desk::doc_folder("journal").join("monday.journal");
/// let mut journal = Journal::create(&path, 10_000)?;
/// let booking = "book client=7 venue=3 name=G1 clordid=C1 symbol=W side=buy ordtype=market qty=100";
/// assert!(journal.take(&from_text(booking).unwrap())?.answer.is_ok());
/// let before = journal.book().as_bytes().to_vec();
/// drop(journal);
/// // a crash, say: the book is what it was, and the order is still to be handed over
/// let journal = Journal::open(&path)?;
/// assert_eq!((journal.book().as_bytes() == before, journal.outbox()?.len()), (true, 1));
/// # Ok::<(), desk::Error>(())
/// ```
pub struct Journal {
    db: Connection,
    now: Now,
    /// What is on the disk is not known.
    stopped: bool,
}

/// An archive and its sum.
type Archive = (Arc<Book>, u64);

/// Where a journal is.
struct Now {
    /// The one book with its archives.
    shelf: Shelf<()>,
    /// The archives as the last snapshot has them.
    archives: Vec<Archive>,
    /// The number and the sum of the last event.
    seq: u64,
    sum: u64,
    /// The number of the last snapshot.
    snapshot: u64,
}

impl Journal {
    /// A new journal with an empty book; `setting`: the most ClOrdIDs that a client may use. It is made in one transaction: after a
    /// crash in the middle of it either the journal is there, whole, and is opened, or it is made by calling this again, which takes
    /// an empty file over.
    ///
    /// ```
    /// use desk::{Error, Journal};
    ///
    /// # let path = desk::doc_folder("create").join("journal");
    /// let journal = Journal::create(&path, 10_000)?;
    /// assert_eq!((journal.seq(), journal.setting()), (0, 10_000));
    /// assert!(matches!(Journal::create(&path, 10_000), Err(Error::AlreadyThere(_))));
    /// # Ok::<(), Error>(())
    /// ```
    pub fn create(path: impl AsRef<Path>, setting: u32) -> Result<Self, Error> {
        Self::create_with(path, Book::new(setting))
    }

    /// A new journal that begins with a book: that of the day before, once its done orders have retired, so that what is good till
    /// cancelled goes on. It is made as [`Journal::create`] makes one. It knows nothing of the other day's archives, and its outbox is
    /// empty.
    ///
    /// ```
    /// use desk::Journal;
    /// use jubafiye::text::from_text;
    ///
    /// # let folder = desk::doc_folder("create_with");
    /// # let (monday, tuesday) = (folder.join("monday"), folder.join("tuesday"));
    /// let mut before = Journal::create(&monday, 10_000)?;
    /// for line in [
    ///     "book client=7 venue=3 name=G1 clordid=C1 symbol=W side=buy ordtype=market qty=100",
    ///     "book client=7 venue=3 name=G2 clordid=C2 symbol=W side=buy ordtype=market qty=100 timeinforce=good-till-cancel",
    ///     "failed venue=3 downstream=G1 text=down",
    /// ] {
    ///     assert!(before.take(&from_text(line).unwrap())?.answer.is_ok());
    /// }
    /// // G1 is done, G2 good till cancelled
    /// let mut shelf = before.shelf().clone();
    /// assert_eq!(shelf.retire_all(), 1);
    /// let journal = Journal::create_with(&tuesday, shelf.book(&()).unwrap().clone())?;
    /// drop(journal);
    /// let journal = Journal::open(&tuesday)?;
    /// assert_eq!((journal.seq(), journal.book().order("G1").is_none(), journal.book().orders().count()), (0, true, 1));
    /// # Ok::<(), desk::Error>(())
    /// ```
    pub fn create_with(path: impl AsRef<Path>, first: Book) -> Result<Self, Error> {
        let path = path.as_ref();
        if path.exists() && !may_be_unmade(path) {
            return Err(Error::AlreadyThere(path.into()));
        }
        let there =
            |why| if matches!(why, Error::NotAJournal) { Error::AlreadyThere(path.into()) } else { why };
        let mut db = connect_unlocked(path, OpenFlags::SQLITE_OPEN_CREATE).map_err(there)?;
        let shelf = shelf(first, Vec::new())?;
        let behavior = rusqlite::TransactionBehavior::Exclusive;
        let all = db.transaction_with_behavior(behavior).map_err(|why| there(why.into()))?;
        // Asked with the lock held, and after SQLite has taken back what a crash cut.
        if !is_empty(&all)? {
            return Err(Error::AlreadyThere(path.into()));
        }
        all.pragma_update(None, "application_id", APPLICATION)?;
        all.pragma_update(None, "user_version", VERSION)?;
        all.execute_batch(TABLES)?;
        let (sum, archives) = put_snapshot(&all, 0, &shelf, &[])?;
        all.commit()?;
        let now = Now { shelf, archives, seq: 0, sum, snapshot: 0 };
        Ok(Self { db, now, stopped: false })
    }

    /// Opens a journal: the last snapshot is taken up and the events behind it are run again, each answer compared with the one that
    /// was kept. What may not have been handed over before is marked and settled: see [`Journal::outbox`].
    ///
    /// ```
    /// use desk::Journal;
    ///
    /// # let path = desk::doc_folder("open").join("journal");
    /// drop(Journal::create(&path, 10_000)?);
    /// assert_eq!(Journal::open(&path)?.seq(), 0);
    /// # Ok::<(), desk::Error>(())
    /// ```
    pub fn open(path: impl AsRef<Path>) -> Result<Self, Error> {
        let mut journal = Self::taken_up(path.as_ref(), connect)?;
        journal.resend()?;
        Ok(journal)
    }

    /// Opens a journal to look into it: nothing is settled or written, but that SQLite takes back a transaction that a crash cut.
    /// A file that may not be written is read all the same.
    ///
    /// ```
    /// use desk::{Error, Journal};
    ///
    /// # let path = desk::doc_folder("read").join("journal");
    /// assert!(matches!(Journal::read(&path), Err(Error::NotThere(_))));
    /// drop(Journal::create(&path, 10_000)?);
    /// assert_eq!(Journal::read(&path)?.book().orders().count(), 0);
    /// # Ok::<(), Error>(())
    /// ```
    pub fn read(path: impl AsRef<Path>) -> Result<Self, Error> {
        let path = path.as_ref();
        match Self::taken_up(path, connect) {
            Err(Error::ReadOnly) => Self::taken_up(path, connect_to_read),
            journal => journal,
        }
    }

    fn taken_up(
        path: &Path,
        connect: fn(&Path, OpenFlags) -> Result<Connection, Error>,
    ) -> Result<Self, Error> {
        if !path.is_file() {
            return Err(Error::NotThere(path.into()));
        }
        let db = connect(path, OpenFlags::empty())?;
        known(&db)?;
        let whole: String = db.query_row("PRAGMA integrity_check(1)", [], |row| row.get(0))?;
        if whole != "ok" {
            return Err(Error::Damaged(whole));
        }
        let (now, stopped) = (last_snapshot(&db)?, false);
        let mut journal = Self { db, now, stopped };
        journal.replay()?;
        journal.outbox()?;
        Ok(journal)
    }

    /// The book as it is after the last event.
    /// ```
    /// use desk::Journal;
    ///
    /// # let journal = Journal::create(desk::doc_folder("book").join("journal"), 10_000)?;
    /// assert_eq!(journal.book().orders().count(), 0);
    /// # Ok::<(), desk::Error>(())
    /// ```
    pub fn book(&self) -> &Book {
        own_book(&self.now.shelf)
    }

    /// The book with its archives, oldest first: page, net position, orders and chains over all of them.
    /// ```
    /// use desk::Journal;
    /// use jubafiye::text::from_text;
    ///
    /// # let mut journal = Journal::create(desk::doc_folder("shelf").join("journal"), 10_000)?;
    /// // 70 orders, each of which fails to be sent, and so is done
    /// for number in 0..70 {
    ///     let booking = format!("book client=7 venue=3 name=G{number} clordid={number} symbol=W side=buy ordtype=market qty=1");
    ///     for line in [booking, format!("failed venue=3 downstream=G{number} text=down")] {
    ///         assert!(journal.take(&from_text(&line).unwrap())?.answer.is_ok());
    ///     }
    /// }
    /// assert_eq!((journal.book().orders().count(), journal.shelf().archives(&()).len()), (6, 1));
    /// assert_eq!(journal.shelf().page().lines().count(), 70);
    /// # Ok::<(), desk::Error>(())
    /// ```
    pub fn shelf(&self) -> &Shelf<()> {
        &self.now.shelf
    }

    /// The book that the journal began with, before its first event.
    /// ```
    /// use desk::Journal;
    ///
    /// # let journal = Journal::create(desk::doc_folder("first").join("journal"), 10_000)?;
    /// assert_eq!(journal.first_book()?.orders().count(), 0);
    /// # Ok::<(), desk::Error>(())
    /// ```
    pub fn first_book(&self) -> Result<Book, Error> {
        let query = "SELECT book FROM snapshot WHERE seq = 0";
        let bytes: Vec<u8> = self.db.query_row(query, [], |row| row.get(0))?;
        Book::from_bytes(&bytes).map_err(|_| Error::Damaged(why(0, &bytes)))
    }

    /// The number of the last event.
    /// ```
    /// use desk::Journal;
    ///
    /// # let mut journal = Journal::create(desk::doc_folder("seq").join("journal"), 10_000)?;
    /// let taken = journal.take(b"no record")?;
    /// assert_eq!(journal.seq(), taken.seq);
    /// # Ok::<(), desk::Error>(())
    /// ```
    pub fn seq(&self) -> u64 {
        self.now.seq
    }

    /// Takes an event's record: when this returns, the event, its answer and its messages are on the disk, and the messages may be
    /// handed over ([`Journal::hand_over`]). A refused event is kept too. With an error nothing was taken.
    ///
    /// ```
    /// use desk::Journal;
    /// use jubafiye::Refusal;
    ///
    /// # let mut journal = Journal::create(desk::doc_folder("take").join("journal"), 10_000)?;
    /// let taken = journal.take(b"no record")?;
    /// assert_eq!((taken.seq, taken.answer), (1, Err(Refusal::Record)));
    /// # Ok::<(), desk::Error>(())
    /// ```
    pub fn take(&mut self, record: &[u8]) -> Result<Taken, Error> {
        let taken = self.drain([record])?;
        taken.into_iter().next().ok_or(Error::Stopped)
    }

    /// Takes many events in one transaction: all of them are on the disk when this returns, or none.
    ///
    /// ```
    /// use desk::Journal;
    /// use jubafiye::text::from_text;
    ///
    /// # let mut journal = Journal::create(desk::doc_folder("drain").join("journal"), 10_000)?;
    /// let day = ["again venue=3 downstream=G1", "gateway-cancel name=G1"].map(|line| from_text(line).unwrap());
    /// let taken = journal.drain(day.iter().map(Vec::as_slice))?;
    /// assert_eq!((taken.len(), journal.seq()), (2, 2));
    /// # Ok::<(), desk::Error>(())
    /// ```
    pub fn drain<'a>(&mut self, records: impl IntoIterator<Item = &'a [u8]>) -> Result<Vec<Taken>, Error> {
        self.write(|step| records.into_iter().map(|record| step.take(record)).collect())
    }

    /// What is to be handed over, in order.
    ///
    /// After a restart reports and cancel rejects that were here before stand here again, the same bytes under the same ExecID, marked
    /// as possible repeats. A request to a venue is settled by event 8, as docs/SCOPE.md, Sends, has it: it stands here again under
    /// its own ClOrdID, marked, or its client is told that it was not sent.
    ///
    /// ```
    /// use desk::Journal;
    /// use jubafiye::text::from_text;
    ///
    /// # let path = desk::doc_folder("outbox").join("journal");
    /// # let mut journal = Journal::create(&path, 10_000)?;
    /// let booking = "book client=7 venue=3 name=G1 clordid=C1 symbol=W side=buy ordtype=market qty=100";
    /// drop(journal.take(&from_text(booking).unwrap())?);
    /// assert!(!journal.outbox()?[0].repeat);
    /// drop(journal);
    /// // a crash: the order may have been sent, or not
    /// assert!(Journal::open(&path)?.outbox()?[0].repeat);
    /// # Ok::<(), desk::Error>(())
    /// ```
    pub fn outbox(&self) -> Result<Vec<Outgoing>, Error> {
        let query = "SELECT id, seq, message, repeat, sum FROM outbox ORDER BY id";
        let mut rows = self.db.prepare_cached(query)?;
        let rows =
            rows.query_map([], |row| Ok((row.get(0)?, row.get(1)?, row.get(2)?, row.get(3)?, row.get(4)?)))?;
        let outgoing = |row: rusqlite::Result<(i64, i64, Vec<u8>, bool, i64)>| {
            let (id, seq, record, repeat, kept) = row?;
            let seq = count(seq)?;
            if message_sum(seq, &record) != kept as u64 {
                return Err(Error::Damaged(format!(
                    "a message of event {seq} is not the one that was written"
                )));
            }
            let message = message(&record)?;
            Ok(Outgoing { id, seq, message, record, repeat })
        };
        rows.map(outgoing).collect()
    }

    /// Hands each message of the outbox to `send`, in order, and notes those that it took. If it fails, those before are noted and
    /// the rest stays. Gives how many were handed over.
    /// ```
    /// use desk::{Error, Journal};
    /// use jubafiye::text::from_text;
    ///
    /// # let mut journal = Journal::create(desk::doc_folder("hand_over").join("journal"), 10_000)?;
    /// let booking = "book client=7 venue=3 name=G1 clordid=C1 symbol=W side=buy ordtype=market qty=100";
    /// drop(journal.take(&from_text(booking).unwrap())?);
    /// // a session that is down takes nothing: the message stays
    /// assert!(matches!(journal.hand_over(|_| Err("session down")), Err(Error::Session(_))));
    /// assert_eq!(journal.hand_over(|_| Ok::<(), &str>(()))?, 1);
    /// assert!(journal.outbox()?.is_empty());
    /// # Ok::<(), desk::Error>(())
    /// ```
    pub fn hand_over<E: Display>(
        &mut self,
        mut send: impl FnMut(&Outgoing) -> Result<(), E>,
    ) -> Result<usize, Error> {
        let (mut last, mut handed, mut failed) = (None, 0, None);
        for outgoing in self.outbox()? {
            if let Err(why) = send(&outgoing) {
                failed = Some(Error::Session(why.to_string()));
                break;
            }
            last = Some(outgoing.id);
            handed += 1;
        }
        if let Some(last) = last {
            self.write(|step| {
                Ok(step.all.execute("DELETE FROM outbox WHERE id <= ?1", [last]).map(drop)?)
            })?;
        }
        failed.map_or(Ok(handed), Err)
    }

    /// The events from a number on.
    ///
    /// ```
    /// use desk::Journal;
    ///
    /// # let mut journal = Journal::create(desk::doc_folder("events").join("journal"), 10_000)?;
    /// drop(journal.take(b"no record")?);
    /// assert_eq!(journal.events(1)?[0].record, b"no record");
    /// assert!(journal.events(2)?.is_empty());
    /// # Ok::<(), desk::Error>(())
    /// ```
    pub fn events(&self, from: u64) -> Result<Vec<Kept>, Error> {
        let mut rows = self
            .db
            .prepare_cached("SELECT seq, record, refusal, answer FROM event WHERE seq >= ?1 ORDER BY seq")?;
        let rows = rows.query_map([number(from)?], |row| {
            Ok((row.get(0)?, row.get(1)?, row.get(2)?, row.get::<_, Vec<u8>>(3)?))
        })?;
        let kept = |row: rusqlite::Result<(i64, Vec<u8>, u32, Vec<u8>)>| {
            let (seq, record, refusal, answer) = row?;
            let answer = Refusal::from_number(refusal).map_or(Ok(answer), Err);
            Ok(Kept { seq: count(seq)?, record, answer })
        };
        rows.map(kept).collect()
    }

    /// The setting of the journal's first book.
    /// ```
    /// use desk::Journal;
    ///
    /// # let journal = Journal::create(desk::doc_folder("setting").join("journal"), 10_000)?;
    /// assert_eq!(journal.setting(), 10_000);
    /// # Ok::<(), desk::Error>(())
    /// ```
    pub fn setting(&self) -> u32 {
        self.book().setting()
    }

    /// Runs a step in one transaction. With an error the book is what it was; if the disk may have taken the step all the same,
    /// the journal stops.
    fn write<T>(&mut self, step: impl FnOnce(&mut Step<'_>) -> Result<T, Error>) -> Result<T, Error> {
        if self.stopped {
            return Err(Error::Stopped);
        }
        // The books alone: a clone of the shelf would make each booking copy the names of all orders.
        let Now { shelf: before, archives, seq, sum, snapshot } = &self.now;
        let books = (own_book(before).clone(), before.archives(&()).to_vec());
        let (archives, seq, sum, snapshot) = (archives.clone(), *seq, *sum, *snapshot);
        let done = commit(&mut self.db, &mut self.now, step);
        if done.is_err() {
            self.stopped = true;
            self.now = Now { shelf: shelf(books.0, books.1)?, archives, seq, sum, snapshot };
        }
        done
    }

    /// Runs the events behind the snapshot again; checks every event's sum, and compares each answer that is run with the one kept.
    fn replay(&mut self) -> Result<(), Error> {
        let now = &mut self.now;
        let mut rows = self.db.prepare("SELECT seq, record, refusal, answer, sum FROM event ORDER BY seq")?;
        let mut rows = rows.query([])?;
        let mut buffer = [0; ANSWER_BYTES];
        while let Some(row) = rows.next()? {
            let (seq, refusal, kept): (i64, u32, i64) = (row.get(0)?, row.get(2)?, row.get(4)?);
            let (record, answer): (Vec<u8>, Vec<u8>) = (row.get(1)?, row.get(3)?);
            let seq = count(seq)?;
            now.sum = event_sum(now.sum, seq, &record, refusal, &answer);
            if seq != now.seq + 1 || now.sum != kept as u64 {
                return Err(Error::Damaged(format!("event {seq} is not the one that was written")));
            }
            now.seq = seq;
            if seq <= now.snapshot {
                continue;
            }
            // Whatever was refused for want of room was refused for good: before there were archives nothing retired.
            now.shelf.retires(refusal != Refusal::Full.number());
            let ran = match now.shelf.take_record_into(&record, &mut buffer) {
                Ok(ran) => (0, ran),
                Err(refused) => (refused.number(), &[][..]),
            };
            if ran != (refusal, &answer[..]) {
                return Err(Error::AnswersOtherwise { seq });
            }
        }
        now.shelf.retires(true);
        if now.seq < now.snapshot {
            return Err(Error::Damaged(format!(
                "the events end at {}, before the snapshot {}",
                now.seq, now.snapshot
            )));
        }
        Ok(())
    }

    /// Marks what was in the outbox before a restart, and puts event 8 for each request to a venue among it.
    fn resend(&mut self) -> Result<(), Error> {
        let before = self.outbox()?;
        if before.is_empty() {
            return Ok(());
        }
        self.write(|step| {
            step.all.execute("UPDATE outbox SET repeat = 1", [])?;
            for outgoing in &before {
                let (Message::NewOrder(request) | Message::Cancel(request) | Message::Replace(request)) =
                    &outgoing.message
                else {
                    continue;
                };
                step.all.execute("DELETE FROM outbox WHERE id = ?1", [outgoing.id])?;
                let again = Event::SendAgain { venue: request.venue, downstream: &request.downstream };
                let _ = step.take(&again.record())?;
            }
            Ok(())
        })
    }
}

/// The one book of a journal's shelf.
fn own_book(shelf: &Shelf<()>) -> &Book {
    shelf.book(&()).expect("the shelf of a journal has its book from the start")
}

/// A shelf with one book for all clients.
fn shelf(book: Book, archives: Vec<Arc<Book>>) -> Result<Shelf<()>, Error> {
    let mut shelf = Shelf::keyed(book.setting(), |_| ());
    let put = shelf.put((), book, archives);
    put.map_err(|_| Error::Damaged("an order stands twice in the book and its archives".into()))?;
    Ok(shelf)
}

/// A transaction that takes events.
struct Step<'a> {
    all: Transaction<'a>,
    now: &'a mut Now,
}

/// Runs a step in one transaction, with a snapshot if one is due.
fn commit<T>(
    db: &mut Connection,
    now: &mut Now,
    step: impl FnOnce(&mut Step<'_>) -> Result<T, Error>,
) -> Result<T, Error> {
    let mut on = Step { all: db.transaction()?, now };
    let done = step(&mut on)?;
    let Step { all, now } = on;
    if now.seq >= now.snapshot + SNAPSHOT_EVERY {
        (_, now.archives) = put_snapshot(&all, now.seq, &now.shelf, &now.archives)?;
        now.snapshot = now.seq;
    }
    all.commit()?;
    Ok(done)
}

impl Step<'_> {
    /// Takes an event. What an event 8 sends to a venue may have been handed over before.
    fn take(&mut self, record: &[u8]) -> Result<Taken, Error> {
        let mut buffer = [0; ANSWER_BYTES];
        let (refusal, bytes) = match self.now.shelf.take_record_into(record, &mut buffer) {
            Ok(bytes) => (None, bytes),
            Err(refusal) => (Some(refusal), &[][..]),
        };
        self.now.seq += 1;
        let number_of = refusal.map_or(0, Refusal::number);
        self.now.sum = event_sum(self.now.sum, self.now.seq, record, number_of, bytes);
        let mut put = self.all.prepare_cached("INSERT INTO event VALUES (?1, ?2, ?3, ?4, ?5)")?;
        put.execute(params![number(self.now.seq)?, record, number_of, bytes, self.now.sum as i64])?;
        drop(put);
        let seq = self.now.seq;
        let Some(refusal) = refusal else {
            let answer = Answer::read(bytes)?;
            self.put_out(bytes, matches!(record.first(), Some(8)))?;
            self.put_order(record)?;
            return Ok(Taken { seq, answer: Ok(answer) });
        };
        Ok(Taken { seq, answer: Err(refusal) })
    }

    /// Puts an answer's messages into the outbox.
    fn put_out(&mut self, answer: &[u8], repeat: bool) -> Result<(), Error> {
        let records =
            jubafiye::fix::records(answer).map_err(|why| Error::Damaged(format!("an answer: {why}")))?;
        for record in records {
            let to_venue = matches!(record.first(), Some(18..=20));
            let query = "INSERT INTO outbox (seq, message, repeat, sum) VALUES (?1, ?2, ?3, ?4)";
            let sum = message_sum(self.now.seq, record);
            let row = params![number(self.now.seq)?, record, repeat && to_venue, sum as i64];
            self.all.prepare_cached(query)?.execute(row)?;
        }
        Ok(())
    }

    /// A booking puts nothing out: the order itself is what event 8 sends, and changes nothing.
    fn put_order(&mut self, record: &[u8]) -> Result<(), Error> {
        if let Ok(Event::Book(booking)) = Event::read(record) {
            let order = Event::SendAgain { venue: booking.venue, downstream: booking.name }.record();
            let mut buffer = [0; ANSWER_BYTES];
            if let Ok(answer) = self.now.shelf.take_record_into(&order, &mut buffer) {
                self.put_out(answer, false)?;
            }
        }
        Ok(())
    }
}

/// Whether a file may be what a crash left of a journal that was being made: it is empty, or SQLite's own journal stands beside it, by
/// which SQLite takes it back.
fn may_be_unmade(path: &Path) -> bool {
    let length = |path: &Path| path.metadata().ok().filter(|file| file.is_file()).map(|file| file.len());
    let mut beside = path.as_os_str().to_os_string();
    beside.push("-journal");
    length(path).is_some_and(|bytes| bytes == 0 || length(Path::new(&beside)).is_some_and(|bytes| bytes > 0))
}

/// Whether nothing was ever written into a database.
fn is_empty(db: &Connection) -> Result<bool, Error> {
    let tables: i64 = db.query_row("SELECT count(*) FROM sqlite_master", [], |row| row.get(0))?;
    let application: i64 = db.pragma_query_value(None, "application_id", |row| row.get(0))?;
    Ok((tables, application) == (0, 0))
}

/// A connection that no other process shares.
fn connect(path: &Path, more: OpenFlags) -> Result<Connection, Error> {
    let db = connect_unlocked(path, more)?;
    // Takes the lock, which is kept until the connection is closed. A COMMIT would write a page into an empty file.
    db.execute_batch("BEGIN EXCLUSIVE; ROLLBACK")?;
    Ok(db)
}

/// A connection that keeps each lock that it takes.
fn connect_unlocked(path: &Path, more: OpenFlags) -> Result<Connection, Error> {
    let flags = OpenFlags::SQLITE_OPEN_READ_WRITE | OpenFlags::SQLITE_OPEN_NO_MUTEX | more;
    let db = Connection::open_with_flags(path, flags)?;
    db.busy_timeout(std::time::Duration::ZERO)?;
    db.pragma_update(None, "locking_mode", "EXCLUSIVE")?;
    // Commits stand in the file itself: a journal that was cut or flipped beside it loses nothing silently.
    db.query_row("PRAGMA journal_mode = TRUNCATE", [], |_| Ok(()))?;
    db.pragma_update(None, "synchronous", "FULL")?;
    Ok(db)
}

/// A connection to a file that may not be written; whoever writes it meanwhile turns this one away.
fn connect_to_read(path: &Path, more: OpenFlags) -> Result<Connection, Error> {
    let db = Connection::open_with_flags(
        path,
        OpenFlags::SQLITE_OPEN_READ_ONLY | OpenFlags::SQLITE_OPEN_NO_MUTEX | more,
    )?;
    db.busy_timeout(std::time::Duration::ZERO)?;
    Ok(db)
}

/// Whether the file is a journal of this version.
fn known(db: &Connection) -> Result<(), Error> {
    let pragma = |name| db.pragma_query_value(None, name, |row| row.get::<_, i64>(0));
    if pragma("application_id")? != APPLICATION {
        return Err(Error::NotAJournal);
    }
    match pragma("user_version")? {
        VERSION | WITH_ARCHIVES => Ok(()),
        found => Err(Error::Version { found, wanted: WITH_ARCHIVES }),
    }
}

/// Where the last snapshot was, with the sum that the first event is chained to. Every snapshot's sum is checked.
fn last_snapshot(db: &Connection) -> Result<Now, Error> {
    let archives = archives(db)?;
    let mut rows = db.prepare("SELECT seq, layout, book, sum FROM snapshot ORDER BY seq")?;
    let mut rows = rows.query([])?;
    let (mut first, mut last) = (None, None);
    while let Some(row) = rows.next()? {
        let (seq, bytes, kept): (i64, Vec<u8>, i64) = (row.get(0)?, row.get(2)?, row.get(3)?);
        of_this_layout(row.get(1)?)?;
        let seq = count(seq)?;
        let sum = snapshot_sum(seq, &bytes, if seq == 0 { &[] } else { &archives });
        if sum != kept as u64 {
            return Err(Error::Damaged(format!("the snapshot {seq} is not the one that was written")));
        }
        first = first.or((seq == 0).then_some(sum));
        last = Some((seq, bytes));
    }
    let (Some(sum), Some((snapshot, bytes))) = (first, last) else {
        return Err(Error::Damaged("there is no snapshot".into()));
    };
    let book = Book::from_bytes(&bytes).map_err(|_| Error::Damaged(why(snapshot, &bytes)))?;
    let shelf = shelf(book, archives.iter().map(|archive| archive.0.clone()).collect())?;
    Ok(Now { shelf, archives, seq: 0, sum, snapshot })
}

fn of_this_layout(found: i64) -> Result<(), Error> {
    if found == LAYOUT_VERSION {
        return Ok(());
    }
    Err(Error::Version { found, wanted: LAYOUT_VERSION })
}

/// The archives, oldest first, each with its sum, which is checked.
fn archives(db: &Connection) -> Result<Vec<Archive>, Error> {
    let there = "SELECT count(*) FROM sqlite_master WHERE name = 'archive'";
    if db.query_row(there, [], |row| row.get::<_, i64>(0))? == 0 {
        return Ok(Vec::new());
    }
    let mut rows = db.prepare("SELECT number, layout, book, sum FROM archive ORDER BY number")?;
    let mut rows = rows.query([])?;
    let mut archives = Vec::new();
    while let Some(row) = rows.next()? {
        let (place, bytes, kept): (i64, Vec<u8>, i64) = (row.get(0)?, row.get(2)?, row.get(3)?);
        of_this_layout(row.get(1)?)?;
        let sum = archive_sum(place, &bytes);
        let book = Book::from_bytes(&bytes).ok().filter(|_| sum == kept as u64);
        let damaged = || Error::Damaged(format!("the archive {place} is not the one that was written"));
        archives.push((Arc::new(book.ok_or_else(damaged)?), sum));
    }
    Ok(archives)
}

/// Why the book of a snapshot is none.
fn why(seq: u64, bytes: &[u8]) -> String {
    let broken = jubafiye::explain(bytes);
    let first = broken.first().map(ToString::to_string).unwrap_or_default();
    format!("the book of the snapshot {seq}: {first}")
}

/// Keeps a snapshot with its archives, of which those of `before` are there, and gives its sum and the archives with theirs; of the
/// earlier snapshots the first and, while there are no archives, the latest stay.
fn put_snapshot(
    all: &Transaction<'_>,
    seq: u64,
    shelf: &Shelf<()>,
    before: &[Archive],
) -> Result<(u64, Vec<Archive>), Error> {
    all.execute("DELETE FROM snapshot WHERE seq > 0 AND seq < (SELECT max(seq) FROM snapshot)", [])?;
    if !shelf.archives(&()).is_empty() {
        all.execute("DELETE FROM snapshot WHERE seq > 0", [])?;
        all.execute_batch(ARCHIVES)?;
        all.pragma_update(None, "user_version", WITH_ARCHIVES)?;
    }
    let mut archives = Vec::with_capacity(shelf.archives(&()).len());
    for (place, archive) in (0_i64..).zip(shelf.archives(&())) {
        let kept = before.get(archives.len()).filter(|kept| Arc::ptr_eq(&kept.0, archive));
        let sum = kept.map_or_else(|| archive_sum(place, archive.as_bytes()), |kept| kept.1);
        if kept.is_none() {
            let values = params![place, LAYOUT_VERSION, archive.as_bytes(), sum as i64];
            all.execute("INSERT OR REPLACE INTO archive VALUES (?1, ?2, ?3, ?4)", values)?;
        }
        archives.push((archive.clone(), sum));
    }
    let book = own_book(shelf).as_bytes();
    let sum = snapshot_sum(seq, book, &archives);
    let values = params![number(seq)?, LAYOUT_VERSION, book, sum as i64];
    all.execute("INSERT INTO snapshot VALUES (?1, ?2, ?3, ?4)", values)?;
    Ok((sum, archives))
}

/// A book's sum, and with archives also theirs.
fn snapshot_sum(seq: u64, book: &[u8], archives: &[Archive]) -> u64 {
    let own = sum(LAYOUT_VERSION as u64, &[&seq.to_le_bytes(), book]);
    archives.iter().fold(own, |before, archive| sum(before, &[&archive.1.to_le_bytes()]))
}

fn archive_sum(place: i64, book: &[u8]) -> u64 {
    sum(WITH_ARCHIVES as u64, &[&place.to_le_bytes(), book])
}

fn message_sum(seq: u64, record: &[u8]) -> u64 {
    sum(1, &[&seq.to_le_bytes(), record])
}

fn event_sum(before: u64, seq: u64, record: &[u8], refusal: u32, answer: &[u8]) -> u64 {
    sum(before, &[&seq.to_le_bytes(), record, &refusal.to_le_bytes(), answer])
}

/// The message of a record in the outbox.
fn message(record: &[u8]) -> Result<Message, Error> {
    let length = u16::try_from(record.len() + 5).unwrap_or(u16::MAX).to_le_bytes();
    let answer = Answer::read(&[&length[..], &[1, 0, 0], record].concat())?;
    answer.messages.into_iter().next().ok_or_else(|| Error::Damaged("a message of the outbox".into()))
}

fn number(count: u64) -> Result<i64, Error> {
    i64::try_from(count).map_err(|_| Error::Damaged(format!("the number {count} is too large")))
}

fn count(number: i64) -> Result<u64, Error> {
    u64::try_from(number).map_err(|_| Error::Damaged(format!("the number {number} is below 0")))
}

#[cfg(test)]
mod tests {
    use super::*;

    #[test]
    fn a_library_that_answers_otherwise_is_not_gone_on_with() {
        let path = crate::doc_folder("otherwise").join("journal");
        let journal = Journal::create(&path, 10_000).unwrap();
        // An event that the book refuses, kept as one that was taken: what a library of another version may have said.
        let sum = event_sum(journal.now.sum, 1, b"no record", 0, &[5, 0, 0, 0, 0]);
        let row = params![1, b"no record", 0, [5u8, 0, 0, 0, 0], sum as i64];
        journal.db.execute("INSERT INTO event VALUES (?1, ?2, ?3, ?4, ?5)", row).unwrap();
        drop(journal);
        assert!(matches!(Journal::open(&path), Err(Error::AnswersOtherwise { seq: 1 })));
    }

    /// A journal from before there were archives has an event that was refused for want of room, though an order was done.
    #[test]
    fn what_was_refused_for_want_of_room_stays_refused() {
        let path = crate::doc_folder("full").join("journal");
        let mut journal = Journal::create(&path, 10_000).unwrap();
        let booking = |number: u32| {
            let line = format!("book client=7 venue=3 name=G{number} clordid={number} symbol=W side=buy ordtype=market qty=1");
            jubafiye::text::from_text(&line).unwrap()
        };
        for number in 0..64 {
            assert!(journal.take(&booking(number)).unwrap().answer.is_ok());
        }
        let done = jubafiye::text::from_text("failed venue=3 downstream=G0 text=down").unwrap();
        assert!(journal.take(&done).unwrap().answer.is_ok());
        let sum = event_sum(journal.now.sum, 66, &booking(64), 7, &[]);
        let row = params![66, booking(64), 7, [0u8; 0], sum as i64];
        journal.db.execute("INSERT INTO event VALUES (?1, ?2, ?3, ?4, ?5)", row).unwrap();
        drop(journal);
        let mut journal = Journal::open(&path).unwrap();
        assert_eq!((journal.book().orders().count(), journal.shelf().archives(&()).len()), (64, 0));
        assert!(journal.take(&booking(64)).unwrap().answer.is_ok());
        assert_eq!((journal.book().orders().count(), journal.shelf().archives(&()).len()), (64, 1));
    }
}
