//! Times, on the same events and in one process, the Rust's own handling, the Rust with its own
//! `check()` after each event, and the library if one is linked: on realistic lists, and by the
//! size of the book. The Rust is given its inputs ready made; the library reads records and writes
//! answers. Times are the thread's own, the best of all rounds. `bench [ROUNDS]`.

use std::cell::RefCell;
use std::hint::black_box;

use compare::chains::ENTRY;
use compare::entries::{Entries, library};
use compare::many::{self, MOST_SAID};
use compare::marks::PLACE;
use compare::net::{LINES, SCRATCH};
use gateway::CompactString;
use gateway::book::{Book, ClientId, Input, OrderRequest, Output};
use gateway::risk::RiskReject;
use lists::{Item, List, PROFILES, list};
use model::Machine;
use model::answer::{latin1, messages};
use model::codes;
use model::events::{self, Filled, Named};
use model::machine::{BOOK_BYTES, MOST_REQUESTS, order_request, venue};
use model::numbers::Source;
use model::record::*;

const LISTS: u64 = 20;
const EVENTS: usize = 400;
const SEED: u64 = 900_000;

/// Events in one call of `events`.
const TOGETHER: [usize; 7] = [1, 2, 5, 10, 50, 100, EVENTS];

/// Calls in a round of one event on one book.
const CALLS: usize = 200;

/// Orders and requests of the books by size.
const SIZES: [(usize, usize); 4] = [(0, 0), (10, 40), (30, 160), (64, 256)];

/// Clients, each with a symbol of its own, that 64 orders are spread over.
const PAIRS: [u16; 3] = [1, 8, 64];

/// What the Rust's book is asked for one event.
#[derive(Clone)]
enum Call {
    Enter(CompactString, ClientId, CompactString, OrderRequest),
    Handle(bool, Option<RiskReject>, Input),
}

struct Bench {
    entries: Option<Entries>,
    rounds: usize,
}

fn main() {
    let rounds = std::env::args().nth(1).map_or(60, |arg| arg.parse().expect("a number"));
    let bench = Bench { entries: library(), rounds };
    bench.realistic();
    println!("bench: ns by size of the book, best of {rounds} rounds of {CALLS} calls");
    for (orders, requests) in SIZES {
        let what = format!("{orders} orders, {requests} requests");
        bench.by_size(&what, &sized(orders, requests, usual_id));
    }
    bench.by_size("64 orders, 256 requests, ids that collide", &sized(64, 256, colliding_id));
    bench.by_size("1 order, 256 requests, each for the one before", &chained());
    PAIRS.into_iter().for_each(|pairs| bench.by_pairs(pairs));
    if bench.entries.is_none() {
        println!("  no library is linked");
    }
}

impl Bench {
    fn realistic(&self) {
        let lists: Vec<List> =
            (SEED..SEED + LISTS).map(|seed| taken(&list(&PROFILES[0], seed, EVENTS))).collect();
        let calls: Vec<Vec<Call>> = lists.iter().map(calls).collect();
        let events: usize = lists.iter().map(|list| list.items.len()).sum();
        let rounds = self.rounds;
        println!("bench: {LISTS} realistic lists, {events} events that are taken, best of {rounds} rounds");
        let (asked, one_word) = divisions(&lists);
        println!("  the divisions for prices: {asked}, in {one_word} the high word is 0");
        let timed = |check: bool| {
            let round = |calls: Vec<Vec<Call>>| calls.into_iter().for_each(|calls| rust(calls, check));
            self.best(events, || calls.clone(), round)
        };
        let (handling, checked) = (timed(false), timed(true));
        println!("  the Rust's handling            {handling:8.0} ns an event");
        println!("  the Rust with its own check()  {checked:8.0} ns an event");
        let Some(entries) = &self.entries else { return };
        let ported = self.best(events, || (), |()| lists.iter().for_each(|list| run(entries, list)));
        println!("  the library                    {ported:8.0} ns an event");
        let (of_checked, of_handling) = (ported / checked, ported / handling);
        println!("  library / Rust with check() {of_checked:.2}, library / Rust {of_handling:.2}");
        let timed = |together: usize| {
            let calls: Vec<Vec<Vec<u8>>> = lists.iter().map(|list| cut(&list.items, together)).collect();
            let mut answers = room(together);
            self.best(
                events,
                || (),
                |()| {
                    for (list, calls) in lists.iter().zip(&calls) {
                        let mut book = vec![0; BOOK_BYTES];
                        entries.start(&mut book, list.setting);
                        run_together(entries, &mut book, calls, &mut answers);
                    }
                },
            )
        };
        by_length("the realistic lists", (handling, checked), timed);
    }

    /// Two events that change little, and the rules alone, on the book that the list leaves.
    fn by_size(&self, what: &str, list: &List) {
        println!("  {what}");
        let mut machine = Machine::start(list.setting);
        for item in &list.items {
            machine.event(&item.record, 1_024).expect("a taken event");
        }
        let mut book = vec![0; BOOK_BYTES];
        if let Some(entries) = &self.entries {
            entries.start(&mut book, list.setting);
            run_on(entries, &mut book, &list.items);
        }
        for (what, draft) in little(list) {
            let calls = vec![call(&mut machine, &draft.bytes()); CALLS];
            let items = vec![item(draft); CALLS];
            let mut handled = restored(list);
            let mut timed =
                |check: bool| self.best(CALLS, || calls.clone(), |calls| rust_on(&mut handled, calls, check));
            let (handling, checked) = (timed(false), timed(true));
            let ported = self.ported(|entries| run_on(entries, &mut book, &items));
            line(
                what,
                &[("Rust", Some(handling)), ("Rust with check()", Some(checked)), ("library", ported)],
            );
            if let Some(entries) = &self.entries {
                let many: Vec<Item> = vec![items[0].clone(); EVENTS];
                by_length(what, (handling, checked), |together| {
                    let (calls, mut answers) = (cut(&many, together), room(together));
                    self.best(EVENTS, || (), |()| run_together(entries, &mut book, &calls, &mut answers))
                });
            }
            let needs = self.ported(|entries| {
                for item in &items {
                    let needs = entries.needs(black_box(&mut book), &item.record);
                    assert_eq!(black_box(needs).refusal, 0);
                }
            });
            line("what it will need", &[("library's event", ported), ("library", needs)]);
        }
        let round = |()| (0..CALLS).for_each(|_| machine.book().check_invariants());
        let checked = self.best(CALLS, || (), round);
        let ported = self.ported(|entries| {
            (0..CALLS).for_each(|_| assert_eq!(entries.check(black_box(&book)), 0));
        });
        line("the rules alone", &[("Rust's check()", Some(checked)), ("library's check", ported)]);
        self.views(&book, named().client, ported);
        self.chain(list, &book, ported);
    }

    /// The chain of the last ClOrdID that was used, beside the library's `check`.
    fn chain(&self, list: &List, book: &[u8], check: Option<f64>) {
        let used = list.items.iter().rev().filter_map(|item| Record::read_event(&item.record));
        let Some(last) =
            used.filter(|event| event.has(CL_ORD_ID)).map(|event| event.text(CL_ORD_ID).to_vec()).next()
        else {
            return;
        };
        let time = self.ported(|entries| {
            for _ in 0..CALLS {
                let (mut name, mut entries_of) = (last.clone(), [0; ENTRY * MOST_REQUESTS]);
                let given = entries.chain(black_box(book), named().client, &mut name, &mut entries_of);
                assert!(black_box(given).number > 0);
                black_box(&entries_of);
            }
        });
        line("the last ClOrdID's chain", &[("library's check", check), ("library", time)]);
    }

    /// The calls that look at a book of 64 orders, of so many clients.
    fn by_pairs(&self, pairs: u16) {
        let Some(entries) = &self.entries else { return };
        println!("  64 orders, 64 requests, {pairs} pairs of client and symbol");
        let mut book = vec![0; BOOK_BYTES];
        entries.start(&mut book, 10_000);
        run_on(entries, &mut book, &spread(pairs));
        let check = self.ported(|entries| {
            (0..CALLS).for_each(|_| assert_eq!(entries.check(black_box(&book)), 0));
        });
        self.views(&book, pairs, check);
    }

    /// The calls that look at a book, beside the library's `check` of it.
    fn views(&self, book: &[u8], client: u16, check: Option<f64>) {
        let beside = |what: &str, call: &dyn Fn(&Entries)| {
            let time = self.ported(|entries| (0..CALLS).for_each(|_| call(entries)));
            line(what, &[("library's check", check), ("library", time)]);
        };
        beside("a client's open quantity", &|entries| {
            assert_eq!(black_box(entries.open_quantity(black_box(book), client)).refusal, 0);
        });
        beside("of a client without orders", &|entries| {
            assert_eq!(black_box(entries.open_quantity(black_box(book), client + 1)).quantity, 0);
        });
        beside("the net position", &|entries| {
            let (mut scratch, mut lines) = ([0; SCRATCH], [0; LINES]);
            let given = entries.net_position(black_box(book), &mut scratch, &mut lines);
            assert_eq!(black_box(given).refusal, 0);
            black_box(&lines);
        });
        let held = RefCell::new((book.to_vec(), vec![0; PLACE], *b"MARK"));
        let mark = |call: fn(&Entries, &mut [u8], &mut [u8], &mut [u8]) -> u32, entries: &Entries| {
            let (book, places, name) = &mut *held.borrow_mut();
            assert_eq!(call(entries, book, name, places), 0);
        };
        beside("a mark set", &|entries| mark(Entries::set_mark, entries));
        beside("a return to it", &|entries| mark(Entries::return_to_mark, entries));
    }

    /// The library's time for a call, if one is linked.
    fn ported(&self, mut round: impl FnMut(&Entries)) -> Option<f64> {
        let entries = self.entries.as_ref()?;
        Some(self.best(CALLS, || (), |()| round(entries)))
    }

    /// The best round's nanoseconds an event; what a round consumes is made before it.
    fn best<T>(&self, events: usize, prepare: impl Fn() -> T, mut round: impl FnMut(T)) -> f64 {
        let times = (0..self.rounds).map(|_| {
            let prepared = prepare();
            let start = thread_seconds();
            round(prepared);
            (thread_seconds() - start) * 1e9 / events as f64
        });
        times.fold(f64::MAX, f64::min)
    }
}

/// Events that change little: one for no order, and one that asks for the first order's status.
fn little(list: &List) -> Vec<(&'static str, Draft)> {
    let mut little = vec![("an event for no order", events::gateway_cancel(b"NOBODY"))];
    if let Some(first) = list.items.first() {
        let id = Record::read_event(&first.record).expect("a booking").text(CL_ORD_ID).to_vec();
        little.push(("an order's status", events::cancel(&named(), &id, &id).mark(REDELIVERED)));
    }
    little
}

/// The events of the list that are taken: the Rust alone would go on where docs/SCOPE.md, Questions, refuses.
fn taken(list: &List) -> List {
    let mut machine = Machine::start(list.setting);
    let items = list.items.iter().filter(|item| machine.event(&item.record, item.answer_buffer).is_ok());
    List { setting: list.setting, items: items.cloned().collect() }
}

/// How many divisions the prices of the reports took, and of how many the dividend is one word.
fn divisions(lists: &[List]) -> (usize, usize) {
    let (mut asked, mut one_word) = (0, 0);
    for list in lists {
        let mut machine = Machine::start(list.setting);
        for item in &list.items {
            let read = Record::read_event(&item.record).expect("a taken event");
            let fill = machine.fill(&read).filter(|fill| fill.source() != Source::LastPx);
            let answer = machine.event(&item.record, item.answer_buffer).expect("a taken event");
            let told = messages(&answer).iter().any(|message| message.kind == REPORT_MESSAGE);
            if let Some(fill) = fill.filter(|_| told) {
                asked += 1;
                one_word += usize::from(fill.paid() >> 64 == 0);
            }
        }
    }
    (asked, one_word)
}

fn calls(list: &List) -> Vec<Call> {
    let mut machine = Machine::start(list.setting);
    let calls = list.items.iter().map(|item| {
        let call = call(&mut machine, &item.record);
        machine.event(&item.record, item.answer_buffer).expect("a taken event");
        call
    });
    calls.collect()
}

fn call(machine: &mut Machine, record: &[u8]) -> Call {
    let record = Record::read_event(record).expect("a taken event");
    match record.kind {
        BOOK => Call::Enter(
            latin1(record.text(NAME)),
            machine.client(&record),
            venue(&record),
            order_request(&record),
        ),
        _ => Call::Handle(record.has(BLOCKED), codes::verdict(record.code(VERDICT)), machine.input(&record)),
    }
}

fn rust(calls: Vec<Call>, check: bool) {
    rust_on(&mut Book::with_setting(10_000), calls, check);
}

fn rust_on(book: &mut Book, calls: Vec<Call>, check: bool) {
    let mut out: Vec<Output> = Vec::new();
    for call in calls {
        match call {
            Call::Enter(name, client, venue, request) => {
                book.enter(name, client, venue, request);
            }
            Call::Handle(blocked, verdict, input) => {
                book.judge_next(blocked, verdict);
                book.handle(input, &mut out);
            }
        }
        book.discard_changes();
        black_box(book.take_events().count());
        black_box(&out);
        out.clear();
        if check {
            book.check_invariants();
        }
    }
}

fn run(entries: &Entries, list: &List) {
    let mut book = vec![0; BOOK_BYTES];
    entries.start(&mut book, list.setting);
    run_on(entries, &mut book, &list.items);
}

fn run_on(entries: &Entries, book: &mut [u8], items: &[Item]) {
    let mut answer = vec![0; 1_024];
    for item in items {
        assert_eq!(entries.event(book, &item.record, &mut answer), 0, "a taken event");
        black_box(&answer);
    }
}

/// The records of so many events for each call of `events`.
fn cut(items: &[Item], together: usize) -> Vec<Vec<u8>> {
    items.chunks(together).map(|items| many::joined(items.iter().map(|item| &item.record[..]))).collect()
}

/// Room for the answers of so many events, whatever they say.
fn room(together: usize) -> Vec<u8> {
    vec![0; together * MOST_SAID]
}

fn run_together(entries: &Entries, book: &mut [u8], calls: &[Vec<u8>], answers: &mut [u8]) {
    for records in calls {
        let ran = entries.events_of(book, records, answers);
        assert_eq!((ran.refusal, ran.read), (0, records.len() as u64), "events that are run");
        black_box(&answers);
    }
}

/// What an event takes by how many are handed over in one call, and the longest of them as a multiple of the Rust's.
fn by_length(what: &str, rust: (f64, f64), mut timed: impl FnMut(usize) -> f64) {
    let times = TOGETHER.map(|together| (together, timed(together)));
    let shown = times.map(|(together, time)| format!("{together}: {time:.0}")).join(", ");
    let last = times[times.len() - 1].1;
    println!(
        "    {what}, by how many in one call: {shown}; the last {:.2} of Rust, {:.2} of Rust with check()",
        last / rust.0,
        last / rust.1
    );
}

/// A ClOrdID as a client counts them.
fn usual_id(number: usize) -> Vec<u8> {
    format!("CLIENT-{:08}", number * 13).into_bytes()
}

/// A ClOrdID of 16 bytes whose two halves add up to the same number for every `number`: all of them
/// fall into one cell of the port's local marks.
fn colliding_id(number: usize) -> Vec<u8> {
    let digits: Vec<u8> = format!("{number:08}").into_bytes();
    let rest = digits.iter().map(|digit| b'0' + b'9' - digit);
    digits.iter().copied().chain(rest).collect()
}

fn named() -> Named {
    Named { client: 1, symbol: b"ESZ6".to_vec(), side: b'1' }
}

fn item(draft: Draft) -> Item {
    Item { record: draft.bytes(), answer_buffer: 1_024 }
}

/// A list that leaves so many orders, acknowledged, and requests: cancels that the venue refused.
fn sized(orders: usize, requests: usize, id: fn(usize) -> Vec<u8>) -> List {
    let mut items = Vec::new();
    let name = |order: usize| format!("0A1B2C{order}").into_bytes();
    for order in 0..orders {
        items.push(item(events::book(1, &named(), &name(order), &id(order), 1_000_000, Some(10))));
        items.push(item(events::report(1, &name(order), b'0', Some(b'0'), Default::default())));
    }
    for request in orders..requests {
        let (order, number) = (request % orders, (request - orders) / orders + 1);
        let downstream = [&name(order)[..], format!("-{number}").as_bytes()].concat();
        items.push(item(events::cancel(&named(), &id(request), &id(order))));
        items.push(item(events::cancel_reject(1, &downstream, None, Some(0))));
    }
    List { setting: 10_000, items }
}

/// A list that leaves one order, acknowledged, and as many requests as there may be: cancels that the venue refused, each naming
/// the request before it.
fn chained() -> List {
    let mut items = vec![
        item(events::book(1, &named(), b"0A1B2C0", &usual_id(0), 1_000_000, Some(10))),
        item(events::report(1, b"0A1B2C0", b'0', Some(b'0'), Default::default())),
    ];
    for number in 1..MOST_REQUESTS {
        items.push(item(events::cancel(&named(), &usual_id(number), &usual_id(number - 1))));
        let downstream = format!("0A1B2C0-{number}").into_bytes();
        items.push(item(events::cancel_reject(1, &downstream, None, Some(0))));
    }
    List { setting: 10_000, items }
}

/// Sixty-four bookings, and a fill each, of so many clients; the last client's number is theirs.
fn spread(pairs: u16) -> Vec<Item> {
    let mut items = Vec::new();
    for order in 0..64 {
        let client = order % pairs + 1;
        let named = Named { client, symbol: format!("ES{client:02}Z6").into_bytes(), side: b'1' };
        let name = format!("0A1B2C{order}").into_bytes();
        let filled = Filled { last_qty: 5, last_px: 10, cum_qty: 5, avg_px: 10 };
        items.push(item(events::book(1, &named, &name, &usual_id(order.into()), 1_000_000, Some(10))));
        items.push(item(events::report(1, &name, b'F', Some(b'1'), filled)));
    }
    items
}

/// The Rust's book after the list.
fn restored(list: &List) -> Book {
    let mut book = Book::with_setting(list.setting);
    rust_on(&mut book, calls(list), false);
    book
}

/// The times that there are, and the last as a multiple of each before it.
fn line(what: &str, times: &[(&str, Option<f64>)]) {
    let times: Vec<(&str, f64)> = times.iter().filter_map(|(who, time)| Some((*who, (*time)?))).collect();
    let shown: Vec<String> = times.iter().map(|(who, time)| format!("{who} {time:.0}")).collect();
    let ratios: Vec<String> = match times.split_last() {
        Some(((last, time), before)) if last.starts_with("library") => {
            before.iter().map(|(who, other)| format!("{:.2} of {who}", time / other)).collect()
        }
        _ => Vec::new(),
    };
    println!(
        "    {what:30} {}{}{}",
        shown.join(", "),
        if ratios.is_empty() { "" } else { ": " },
        ratios.join(", ")
    );
}

#[repr(C)]
struct TimeSpec {
    seconds: i64,
    nanoseconds: i64,
}

unsafe extern "C" {
    fn clock_gettime(clock: i32, time: *mut TimeSpec) -> i32;
}

/// The processor time of this thread.
fn thread_seconds() -> f64 {
    const THREAD_CPUTIME: i32 = 3;
    let mut time = TimeSpec { seconds: 0, nanoseconds: 0 };
    // SAFETY: the call writes the two numbers that it is lent.
    let failed = unsafe { clock_gettime(THREAD_CPUTIME, &mut time) };
    assert_eq!(failed, 0, "the thread has a clock");
    time.seconds as f64 + time.nanoseconds as f64 / 1e9
}
