//! Days that no book could hold without retirements, through the static library: 50,000 orders through one book, some of them good
//! till cancelled and live all day; a shelf of 64 books on one thread and on two; and what a retirement takes. Every event has to
//! be taken, and the nets over book and archives have to add up. Without a library it says so and does nothing.

use std::hint::black_box;
use std::process::ExitCode;
use std::time::Instant;

use compare::entries::{Entries, library};
use compare::layout::{Book, order_at};
use compare::many::{MOST_SAID, joined};
use compare::net::{LINES, SCRATCH};
use compare::retirements::filler;
use model::events::{self, Filled, Named};
use model::machine::BOOK_BYTES;

/// Orders of the day, those that stay live, and how many are booked between two retirements.
const ORDERS: usize = 50_000;
const STANDING: usize = 8;
const TOGETHER: usize = 32;

/// Books of a shelf, and the orders of each.
const BOOKS: usize = 64;
const EACH: usize = 800;

/// Bought by each order that is filled.
const QTY: u64 = 1_000_000;

/// Retirements of a size that are timed.
const ROUNDS: usize = 200;

fn main() -> ExitCode {
    let Some(entries) = library() else {
        println!("  no library is linked, so no long day");
        return ExitCode::SUCCESS;
    };
    println!("long_day: events a second, by the clock");
    let start = Instant::now();
    let day = Day::run(&entries, ORDERS);
    let (seconds, events, archives) = (start.elapsed().as_secs_f64(), day.events, day.archives.len());
    println!(
        "  {ORDERS} orders through one book: {events} events, {} retirements, {archives} archives, {:.0} events a second",
        day.retirements,
        events as f64 / seconds
    );
    day.adds_up(&entries, ORDERS);
    for threads in [1, 2] {
        let start = Instant::now();
        let events: usize = std::thread::scope(|scope| {
            let run = |_| {
                scope.spawn(move || {
                    (0..BOOKS / threads).map(|_| Day::run(&entries, EACH).events).sum::<usize>()
                })
            };
            let all: Vec<_> = (0..threads).map(run).collect();
            all.into_iter().map(|thread| thread.join().expect("a day that ends")).sum()
        });
        println!(
            "  a shelf of {BOOKS} books, {EACH} orders each, threads: {threads}: {:.0} events a second",
            events as f64 / start.elapsed().as_secs_f64()
        );
    }
    println!("long_day: ns a retirement, best of {ROUNDS}");
    for (orders, requests) in [(1, 1), (16, 64), (64, 64), (64, 256)] {
        println!(
            "  {orders} orders, {requests} requests, all done: {:.0} ns",
            retirement(&entries, orders, requests)
        );
    }
    ExitCode::SUCCESS
}

/// A day on one book.
struct Day {
    book: Vec<u8>,
    archives: Vec<Vec<u8>>,
    events: usize,
    retirements: usize,
}

fn started(entries: &Entries) -> Vec<u8> {
    let mut book = vec![0; BOOK_BYTES];
    assert_eq!(entries.start(&mut book, 10_000), 0);
    book
}

fn named() -> Named {
    Named { client: 7, symbol: b"COFFEEU7".to_vec(), side: b'1' }
}

/// An order booked, acknowledged and, unless it stands, filled in two parts.
fn records(number: usize, stands: bool) -> Vec<Vec<u8>> {
    let name = format!("N{number}");
    let (name, id) = (name.as_bytes(), format!("C{number}"));
    let report = |exec_type, status, last_qty, cum_qty| {
        let filled = Filled { last_qty, last_px: 100, cum_qty, avg_px: 100 };
        events::report(1, name, exec_type, Some(status), filled).bytes()
    };
    let mut records = vec![
        events::book(1, &named(), name, id.as_bytes(), QTY, Some(100)).bytes(),
        report(b'0', b'0', 0, 0),
    ];
    if !stands {
        records.extend([report(b'F', b'1', QTY / 2, QTY / 2), report(b'F', b'2', QTY / 2, QTY)]);
    }
    records
}

impl Day {
    fn run(entries: &Entries, orders: usize) -> Self {
        let (book, archives) = (started(entries), vec![started(entries)]);
        let mut day = Self { book, archives, events: 0, retirements: 0 };
        for first in (0..orders).step_by(TOGETHER) {
            let here = first..(first + TOGETHER).min(orders);
            let records: Vec<Vec<u8>> = here.flat_map(|number| records(number, number < STANDING)).collect();
            day.take(entries, &records);
            day.retire(entries);
        }
        day
    }

    fn take(&mut self, entries: &Entries, records: &[Vec<u8>]) {
        let mut all = joined(records.iter().map(|record| &record[..]));
        let mut answers = vec![0; records.len() * MOST_SAID];
        let ran = entries.events(&mut self.book, &mut all, &mut answers);
        assert_eq!((ran.refusal, ran.events), (0, records.len() as u64));
        let mut said = &answers[..ran.written as usize];
        while let [refusal, low, high, ..] = *said {
            assert_eq!(refusal, 0, "an event of the long day is refused");
            said = &said[1 + usize::from(u16::from_le_bytes([low, high]))..];
        }
        self.events += records.len();
    }

    /// Into the newest archive, or a fresh one if that is full.
    fn retire(&mut self, entries: &Entries) {
        self.retirements += 1;
        let newest = self.archives.last_mut().expect("there is always one");
        if entries.retire(&mut self.book, newest).refusal == 18 {
            let mut fresh = started(entries);
            assert_eq!(entries.retire(&mut self.book, &mut fresh).refusal, 0);
            self.archives.push(fresh);
        }
    }

    /// What was filled stands in book and archives, each order once.
    fn adds_up(&self, entries: &Entries, orders: usize) {
        let (mut net, mut count) = (0, 0);
        for book in self.archives.iter().chain([&self.book]) {
            let (mut scratch, mut lines) = ([0; SCRATCH], [0; LINES]);
            let given = entries.net_position(book, &mut scratch, &mut lines);
            assert_eq!((given.refusal, given.number), (0, 1));
            net += i64::from_le_bytes(lines[19..27].try_into().expect("eight bytes"));
            count += Book::read(book).orders.len();
        }
        assert_eq!(net, (orders - STANDING) as i64 * QTY as i64);
        assert_eq!(count, orders);
    }
}

/// Of a book of that size whose orders are all done.
fn retirement(entries: &Entries, orders: usize, requests: usize) -> f64 {
    let book = filler(orders, requests);
    assert!(book[order_at(0)].iter().any(|&byte| byte != 0));
    let archive = started(entries);
    let times = (0..ROUNDS).map(|_| {
        let (mut book, mut archive) = (book.clone(), archive.clone());
        let start = Instant::now();
        let given = entries.retire(black_box(&mut book), black_box(&mut archive));
        let time = start.elapsed().as_secs_f64() * 1e9;
        assert_eq!((given.refusal, given.number), (0, orders as u32));
        time
    });
    times.fold(f64::MAX, f64::min)
}
