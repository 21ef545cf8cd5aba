//! A worker that takes events and hands messages over is killed, thousands of times: at every write of a run, half-way through it, with
//! and without what was not synced, and at random. After each kill the journal is compared with what was acknowledged and what went out.
//!
//! `cargo test --test crash` is the short form, `cargo test --test crash -- --long` the other.

#[path = "../../host/tests/common/mod.rs"]
mod common;

use std::collections::{BTreeMap, BTreeSet};
use std::fs::{self, File, OpenOptions};
use std::io::Write;
use std::path::{Path, PathBuf};
use std::process::Command;
use std::time::{Duration, Instant};

use common::Numbers;
use desk::{Error, Journal, Outgoing};
use jubafiye::{Answer, Book, Event, Message, Outcome, Shelf};

fn main() {
    if let Some(folder) = std::env::var_os("DESK_WORKER") {
        return worker(Path::new(&folder));
    }
    let long = std::env::args().any(|argument| argument == "--long");
    let crashes = Crashes::new(if long { 14 } else { 5 });
    let started = Instant::now();
    let mut count = Count::default();
    let (seeds, random) = if long { (4, 1_000) } else { (1, 40) };
    for seed in 0..seeds {
        crashes.at_every_write("kill", seed, &mut count);
        crashes.at_every_write("power", 100 + seed, &mut count);
    }
    crashes.at_random(random, &mut count);
    count.close();
    let [acked, sent, repeats, archives] = count.done;
    assert!(count.kills > if long { 3_000 } else { 150 }, "{} kills", count.kills);
    assert!(archives > 0, "nothing was retired");
    println!(
        "crash: {} kills ({} at a write, {} of these with what was not synced lost; {} at random), {} events acknowledged, {} messages \
         sent, {} of them marked as repeats, {} archives; nothing lost, nothing told otherwise, {:.0} s",
        count.kills,
        count.at_writes,
        count.power,
        count.kills - count.at_writes,
        acked,
        sent,
        repeats,
        archives,
        started.elapsed().as_secs_f64()
    );
}

#[derive(Default)]
struct Count {
    kills: usize,
    at_writes: usize,
    power: usize,
    /// Events acknowledged, messages sent, those marked, and archives: of the journals that are done with, and of the one that is not.
    done: [usize; 4],
    now: [usize; 4],
}

impl Count {
    /// A journal is done with.
    fn close(&mut self) {
        let now = std::mem::take(&mut self.now);
        self.done.iter_mut().zip(now).for_each(|(done, now)| *done += now);
    }
}

/// The worker's files.
fn file(folder: &Path, name: &str) -> PathBuf {
    folder.join(name)
}

fn append(path: &Path) -> File {
    OpenOptions::new().create(true).append(true).open(path).unwrap()
}

/// Takes events one by one and several at once, notes each that is acknowledged, and hands messages over to a file.
fn worker(folder: &Path) {
    let number = |name: &str| std::env::var(name).unwrap().parse::<u64>().unwrap();
    let (seed, events) = (number("DESK_SEED"), number("DESK_EVENTS"));
    let path = file(folder, "journal");
    let made = file(folder, "made").exists();
    let mut journal = if made { Journal::open(&path) } else { made_now(&path) }.unwrap();
    append(&file(folder, "made"));
    let (mut acked, mut wire) = (append(&file(folder, "acked")), append(&file(folder, "wire")));
    let mut numbers = Numbers(seed);
    let mut name = seed as usize * 1_000;
    let mut taken = 0;
    while taken < events {
        let count = if numbers.one_in(3) { 1 + numbers.below(4) } else { 1 };
        let records: Vec<Vec<u8>> = (0..count)
            .map(|_| {
                name += 1;
                common::event(&mut numbers, journal.book(), name)
            })
            .collect();
        let done = journal.drain(records.iter().map(Vec::as_slice)).unwrap();
        let lines: String =
            done.iter().zip(&records).map(|(one, record)| format!("{} {}\n", one.seq, hex(record))).collect();
        acked.write_all(lines.as_bytes()).unwrap();
        if !numbers.one_in(3) {
            let send = |out: &Outgoing| {
                wire.write_all(format!("{} {}\n", u8::from(out.repeat), hex(&out.record)).as_bytes())
            };
            journal.hand_over(send).unwrap();
        }
        taken += count as u64;
    }
}

/// A journal that is made, or was made whole by a process that was killed before it could tell.
fn made_now(path: &Path) -> Result<Journal, Error> {
    match Journal::create(path, 10_000) {
        Err(Error::AlreadyThere(_)) => {
            let journal = Journal::open(path)?;
            assert_eq!((journal.seq(), journal.setting()), (0, 10_000));
            Ok(journal)
        }
        made => made,
    }
}

fn hex(bytes: &[u8]) -> String {
    bytes.iter().map(|byte| format!("{byte:02x}")).collect()
}

fn unhex(text: &str) -> Vec<u8> {
    (0..text.len() / 2).map(|at| u8::from_str_radix(&text[2 * at..2 * at + 2], 16).unwrap()).collect()
}

/// Where the workers run, and the shim that stops them.
struct Crashes {
    folder: PathBuf,
    shim: PathBuf,
    /// How many events a worker takes at least that is stopped at a write.
    events: u64,
}

impl Crashes {
    fn new(events: u64) -> Self {
        let memory = Path::new("/dev/shm");
        let under = if memory.is_dir() { memory.to_path_buf() } else { std::env::temp_dir() };
        let folder = under.join(format!("desk-crash-{}", std::process::id()));
        fs::create_dir_all(&folder).unwrap();
        let shim = folder.join("shim.so");
        let source = Path::new(env!("CARGO_MANIFEST_DIR")).join("tests/shim.c");
        let built = Command::new("cc")
            .args(["-shared", "-fPIC", "-O1", "-o"])
            .arg(&shim)
            .arg(source)
            .arg("-ldl")
            .status();
        assert!(built.unwrap().success(), "the shim is built with cc");
        Self { folder, shim, events }
    }

    fn fresh(&self, count: &mut Count) -> PathBuf {
        count.close();
        let folder = self.folder.join("run");
        let _ = fs::remove_dir_all(&folder);
        fs::create_dir_all(&folder).unwrap();
        folder
    }

    fn worker(&self, folder: &Path, seed: u64, events: u64) -> Command {
        let mut command = Command::new(std::env::current_exe().unwrap());
        command
            .env("DESK_WORKER", folder)
            .env("DESK_SEED", seed.to_string())
            .env("DESK_EVENTS", events.to_string());
        command
    }

    /// Runs a worker that the shim stops at a write; gives whether it was stopped.
    fn stopped_at(&self, folder: &Path, seed: u64, how: &str, at: u64) -> bool {
        let mut command = self.worker(folder, seed, self.events);
        command.env("LD_PRELOAD", &self.shim).env("SHIM_DO", how).env("SHIM_AT", at.to_string());
        command.env("SHIM_PATH", file(folder, "journal"));
        killed(command.status().unwrap())
    }

    fn at_every_write(&self, how: &str, seed: u64, count: &mut Count) {
        for at in 1.. {
            let folder = self.fresh(count);
            if !self.stopped_at(&folder, seed, how, at) {
                verify(&folder, count);
                return;
            }
            count.kills += 1;
            count.at_writes += 1;
            count.power += usize::from(how == "power");
            // Killed while the journal was made: the next worker makes it, or finds it whole.
            if file(&folder, "made").exists() {
                verify(&folder, count);
                // And once more while it is opened and goes on.
                if self.stopped_at(&folder, seed + 1, how, 1 + at % 13) {
                    count.kills += 1;
                    count.at_writes += 1;
                    count.power += usize::from(how == "power");
                    verify(&folder, count);
                }
            }
            assert!(self.worker(&folder, seed + 2, 4).status().unwrap().success());
            verify(&folder, count);
        }
    }

    fn at_random(&self, kills: usize, count: &mut Count) {
        let mut numbers = Numbers(77);
        let mut folder = self.fresh(count);
        for run in 0..kills {
            if run % 10 == 0 {
                folder = self.fresh(count);
                // The first journal has archives before it is killed.
                let events = if run == 0 { 900 } else { 3 };
                assert!(self.worker(&folder, run as u64, events).status().unwrap().success());
            }
            let mut child = self.worker(&folder, 10_000 + run as u64, 100_000).spawn().unwrap();
            std::thread::sleep(Duration::from_micros(1_000 + numbers.below(15_000) as u64));
            child.kill().unwrap();
            assert!(killed(child.wait().unwrap()));
            count.kills += 1;
            verify(&folder, count);
        }
    }
}

impl Drop for Crashes {
    fn drop(&mut self) {
        let _ = fs::remove_dir_all(&self.folder);
    }
}

fn killed(status: std::process::ExitStatus) -> bool {
    use std::os::unix::process::ExitStatusExt;
    assert!(status.success() || status.signal() == Some(9), "the worker ended with {status}");
    status.signal() == Some(9)
}

/// A request to a venue, by its downstream ClOrdID.
fn request(downstream: &[u8]) -> String {
    format!("request {}", String::from_utf8_lossy(downstream))
}

/// A message by what the receiver tells it by: an ExecID, a refusal's ClOrdIDs or a request's downstream ClOrdID.
fn told_by(message: &Message) -> String {
    let text = |bytes: &[u8]| String::from_utf8_lossy(bytes).into_owned();
    match message {
        Message::Report(report) => format!("report {}.{}", text(&report.name), report.exec_seq),
        Message::CancelReject(reject) => {
            format!("reject {} {}", text(&reject.cl_ord_id), text(&reject.orig_cl_ord_id))
        }
        Message::NewOrder(request) | Message::Cancel(request) | Message::Replace(request) => {
            self::request(&request.downstream)
        }
        other => panic!("{other:?}"),
    }
}

fn message(record: &[u8]) -> Message {
    let length = (record.len() as u16 + 5).to_le_bytes();
    Answer::read(&[&length[..], &[1, 0, 0], record].concat()).unwrap().messages.remove(0)
}

/// Compares the journal with what was acknowledged and what went out.
fn verify(folder: &Path, count: &mut Count) {
    let journal =
        Journal::read(file(folder, "journal")).unwrap_or_else(|why| panic!("{why}: {}", folder.display()));
    let events = journal.events(1).unwrap();
    let acked = fs::read_to_string(file(folder, "acked")).unwrap_or_default();
    let acked: BTreeMap<u64, Vec<u8>> = acked
        .lines()
        .map(|line| line.split_once(' ').unwrap())
        .map(|(seq, record)| (seq.parse().unwrap(), unhex(record)))
        .collect();
    let last = acked.keys().last().copied().unwrap_or(0);
    let mut shelf = Shelf::keyed(10_000, |_| ());
    for event in &events {
        drop(shelf.take_record(&event.record));
        match acked.get(&event.seq) {
            Some(record) => assert_eq!(*record, event.record, "event {} is the one acknowledged", event.seq),
            // Before the last acknowledged one just what a restart put itself, or a step whose process was killed before it could
            // tell: such a one is the last of its process, and the next begins with a restart's events or its own.
            None => {
                assert!(event.seq > last || event.record[0] == 8 || is_untold(&events, &acked, event.seq))
            }
        }
    }
    assert!(events.len() as u64 >= last, "event {last} was acknowledged, and {} are there", events.len());
    let book = shelf.book(&()).map_or_else(|| Book::new(10_000), Book::clone);
    assert!(book.as_bytes() == journal.book().as_bytes(), "the book is that of the events");
    let archives = |shelf: &Shelf<()>| -> Vec<Vec<u8>> {
        shelf.archives(&()).iter().map(|archive| archive.as_bytes().to_vec()).collect()
    };
    assert!(archives(&shelf) == archives(journal.shelf()), "and so are its archives");
    count.now = [acked.len(), 0, 0, journal.shelf().archives(&()).len()];
    sent(folder, &journal, &events, &acked, count);
}

/// Whether an event that was never told belongs to a step of at most four that was committed as its process was killed.
fn is_untold(events: &[desk::Kept], acked: &BTreeMap<u64, Vec<u8>>, seq: u64) -> bool {
    let untold = |seq: &u64| !acked.contains_key(seq) && events[*seq as usize - 1].record[0] != 8;
    (1..seq).rev().take_while(untold).count() < 4
}

/// What went out: nothing told otherwise under the same name, nothing twice unmarked, nothing that the book does not have, nothing lost.
fn sent(
    folder: &Path,
    journal: &Journal,
    events: &[desk::Kept],
    acked: &BTreeMap<u64, Vec<u8>>,
    count: &mut Count,
) {
    let wire = fs::read_to_string(file(folder, "wire")).unwrap_or_default();
    let (mut contents, mut unmarked, mut known) = (BTreeMap::new(), BTreeSet::new(), BTreeSet::new());
    for line in wire.lines() {
        let (repeat, record) = line.split_once(' ').unwrap();
        let message = message(&unhex(record));
        let name = told_by(&message);
        if let Message::Report(_) = message {
            let before = contents.insert(name.clone(), record.to_string());
            assert!(before.is_none_or(|before| before == record), "{name} was told with other contents");
        }
        if repeat == "0" && !name.starts_with("reject") {
            assert!(unmarked.insert(name.clone()), "{name} went out twice, unmarked");
        }
        count.now[2] += usize::from(repeat == "1");
        count.now[1] += 1;
        known.insert(name);
    }
    let books = journal.shelf().archives(&()).iter().map(|archive| &**archive).chain([journal.book()]);
    let requests: BTreeSet<String> =
        books.flat_map(Book::requests).map(|one| request(one.downstream)).collect();
    for name in known.iter().filter(|name| name.starts_with("request")) {
        assert!(requests.contains(name), "{name} went out, and the book has it not");
    }
    known.extend(journal.outbox().unwrap().iter().map(|outgoing| told_by(&outgoing.message)));
    let settled = settled(events, acked);
    for event in events {
        for name in put_out(event) {
            assert!(
                known.contains(&name) || settled.contains(&name),
                "{name} of event {} was lost",
                event.seq
            );
        }
    }
}

/// The messages that an event puts out, by what the receiver tells them by: those of its answer, and a booking's own order.
fn put_out(event: &desk::Kept) -> Vec<String> {
    let Ok(answer) = &event.answer else { return Vec::new() };
    let mut names: Vec<String> = Answer::read(answer).unwrap().messages.iter().map(told_by).collect();
    if let Ok(Event::Book(booking)) = Event::read(&event.record) {
        names.push(request(booking.name));
    }
    names
}

/// The requests that may be neither on the wire nor in the outbox: those that a restart put as event 8 and the book did not send again.
/// Either event 8 settled such a request as not sent, whose outcome is then refused (docs/SCOPE.md, Chains), or there was nothing left to
/// send: the venue had settled it (a request of the drawn days may be answered before it is sent), or the venue knew its order. A request
/// that is put out later is none of them.
fn settled(events: &[desk::Kept], acked: &BTreeMap<u64, Vec<u8>>) -> BTreeSet<String> {
    let (mut book, mut settled) = (Book::new(10_000), BTreeSet::new());
    for event in events {
        let waits =
            |book: &Book, venue, name: &[u8]| book.unanswered(venue).any(|one| one.downstream == name);
        let again = match Event::read(&event.record) {
            // What a worker put itself was acknowledged.
            Ok(Event::SendAgain { venue, downstream }) if !acked.contains_key(&event.seq) => {
                Some((downstream, waits(&book, venue, downstream)))
            }
            _ => None,
        };
        drop(book.take_record(&event.record));
        if let Some((downstream, waited)) = again {
            let of = book.requests().find(|one| one.downstream == downstream);
            let not_sent = of.is_some_and(|one| one.outcome == Outcome::Refused);
            if !waited || not_sent {
                settled.insert(request(downstream));
            }
        }
        settled.retain(|name| !put_out(event).contains(name));
    }
    settled
}
