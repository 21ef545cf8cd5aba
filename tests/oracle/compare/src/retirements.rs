//! Lists of events with retirements at random, on a library's book, beside the Rust from which nothing is retired: each retirement
//! is the plain computation's, byte for byte; an event that names nothing retired has the Rust's answer; live orders are the
//! Rust's, archived ones stay as they went; and page, nets and open quantities over book and archives add up to the Rust's.
//! Beside that, pairs of books and archives that make each refusal, or just not.

use std::collections::{BTreeMap, HashSet};

use lists::random::Random;
use lists::{DAYS, Generator, Item, PROFILES, profile};
use model::Machine;
use model::answer::messages;
use model::machine::{ANSWER_BYTES, BOOK_BYTES, MOST_ORDERS, MOST_REQUESTS, readable};
use model::record::{
    BOOK, CANCEL, CL_ORD_ID, CLIENT, DOWNSTREAM, FIXED_TEXT, GATEWAY_CANCEL, NAME, ORIG_CL_ORD_ID, REPLACE,
    Record,
};

use crate::books;
use crate::comparison::Mismatch;
use crate::entries::{Counted, Entries};
use crate::expected::told;
use crate::keeps::{broken, opens};
use crate::layout::{self, Book, Order, Request, Text};
use crate::mirror::{self, Sending};
use crate::net;
use crate::retired::{call, gone, is_gone};
use crate::show;
use crate::views;

/// A fixed text: the client has used too many ClOrdIDs.
const TOO_MANY: u8 = 8;

/// What lists and calls came to.
#[derive(Debug, Clone, Default)]
pub struct Counts {
    pub lists: u64,
    pub events: u64,
    /// Events that named something retired and were left out.
    pub left_out: u64,
    /// Lists that ended where the Rust said 7 or 'too many requests'.
    pub ended: u64,
    pub given: BTreeMap<u32, u64>,
    pub orders: u64,
    /// Gateway cancels that named a request of an order that went.
    pub renamed: u64,
}

impl Counts {
    fn count(&mut self, given: Counted) {
        *self.given.entry(given.refusal).or_default() += 1;
        self.orders += u64::from(given.number);
    }

    pub fn print(&self) {
        let Self { events, left_out, ended, given, orders, renamed, .. } = self;
        println!(
            "  the calls of retire by what they gave {given:?}; {orders} orders moved, {renamed} links renamed"
        );
        println!(
            "  of {events} events {left_out} named something retired; {ended} lists ended at a 7 or too many requests"
        );
    }
}

/// What may not be used again: names, and clients' ClOrdIDs.
#[derive(Default)]
struct Used {
    names: HashSet<Vec<u8>>,
    keys: HashSet<(u64, Vec<u8>)>,
}

impl Used {
    fn add(&mut self, book: &Book) {
        let (orders, requests) = gone(book);
        self.names.extend(orders.iter().map(|order| order.name.text().to_vec()));
        let client = |request: &Request| book.orders[request.order as usize].client;
        let key = |request: &&Request| (client(request), request.cl_ord_id.text().to_vec());
        self.keys.extend(requests.iter().filter(|request| request.cl_ord_id.length > 0).map(key));
    }

    /// Whether an event names something retired; a downstream ClOrdID does by the order's name in front of the sign.
    fn named_by(&self, record: &Record<'_>) -> bool {
        let key = |bit: usize| self.keys.contains(&(record.number(CLIENT), record.text(bit).to_vec()));
        let name =
            |text: &[u8]| self.names.contains(text.split(|&byte| byte == b'-').next().unwrap_or_default());
        match record.kind {
            BOOK => name(record.text(NAME)) || key(CL_ORD_ID),
            CANCEL | REPLACE => key(CL_ORD_ID) || key(ORIG_CL_ORD_ID),
            GATEWAY_CANCEL => name(record.text(NAME)),
            _ => name(record.text(DOWNSTREAM)),
        }
    }
}

/// An order with its requests, links read as the downstream ClOrdIDs that they name.
#[derive(Debug, PartialEq)]
struct Told {
    order: Order,
    links: [Vec<u8>; 4],
    requests: Vec<(Request, Vec<u8>)>,
}

fn tell(book: &Book, index: usize) -> Told {
    let mut order = book.orders[index].clone();
    let named = |link: &mut u64| {
        let name = link.checked_sub(1).map(|at| book.requests[at as usize].downstream.text().to_vec());
        *link = 0;
        name.unwrap_or_default()
    };
    let own = order.orig_downstream.checked_sub(1).map(|at| book.requests[at as usize].order == index as u64);
    if own == Some(false) {
        // A request of another order, to which no event leads: what becomes of it is the plain computation's.
        order.orig_downstream = 0;
    }
    let links =
        [&mut order.current, &mut order.cancel, &mut order.pending, &mut order.orig_downstream].map(named);
    let requests = book.requests.iter().filter(|request| request.order == index as u64).map(|request| {
        let mut request = request.clone();
        request.order = 0;
        let origin = named(&mut request.origin);
        (request, origin)
    });
    Told { requests: requests.collect(), order, links }
}

/// A library's book from which done orders are retired, its archives, and the Rust, from which nothing is.
struct Run<'a> {
    entries: &'a Entries,
    random: Random,
    generator: Generator,
    sending: Sending,
    book: Vec<u8>,
    archives: Vec<Vec<u8>>,
    used: Used,
    /// Whether events led to the book; else a gateway cancel may name another order's request.
    reached: bool,
}

/// The list of that seed, from a start or, every third, from a book that was built.
pub fn compare(entries: &Entries, seed: u64, events: usize, counts: &mut Counts) -> Result<(), Mismatch> {
    let built = seed.is_multiple_of(3);
    let mut run = if built { Run::built(entries, seed) } else { Run::started(entries, seed) };
    counts.lists += 1;
    for at in 0..events {
        if run.step(counts).map_err(|what| Mismatch { at, what })? {
            counts.ended += 1;
            break;
        }
    }
    let all = run.retire(counts).and_then(|()| run.adds_up());
    all.map_err(|what| Mismatch { at: events, what })
}

impl<'a> Run<'a> {
    fn started(entries: &'a Entries, seed: u64) -> Self {
        let profiles = if seed.is_multiple_of(5) { &DAYS[..] } else { &PROFILES[..] };
        let generator = Generator::new(&profiles[seed as usize % profiles.len()], seed);
        let mut book = vec![0xA5; BOOK_BYTES];
        entries.start(&mut book, generator.setting());
        Self::new(entries, seed, generator, Sending::default(), book)
    }

    fn built(entries: &'a Entries, seed: u64) -> Self {
        let book = books::random(&mut Random::new(seed));
        let (machine, sending) = mirror::machine(&Book::read(&book));
        let generator = Generator::on(machine, profile::odd(seed), seed);
        Self { reached: false, ..Self::new(entries, seed, generator, sending, book) }
    }

    fn new(entries: &'a Entries, seed: u64, generator: Generator, sending: Sending, book: Vec<u8>) -> Self {
        let (random, used) = (Random::new(seed ^ 0x7265_7469_7265), Used::default());
        Self { entries, random, generator, sending, book, archives: Vec::new(), used, reached: true }
    }

    /// An event or a retirement; whether the Rust's tables or a client's ClOrdIDs are full, so that the list ends.
    fn step(&mut self, counts: &mut Counts) -> Result<bool, String> {
        if self.random.chance(8) {
            self.retire(counts)?;
            return self.adds_up().map(|()| false);
        }
        let (before, fresh) = (self.generator.machine().clone(), self.generator.fresh());
        let item = self.generator.next_item();
        counts.events += 1;
        let named = readable(&item.record, ANSWER_BYTES).is_ok_and(|record| self.used.named_by(&record));
        if named {
            counts.left_out += 1;
            self.generator.go_on(before, fresh);
            return Ok(false);
        }
        let found = |what: String| format!("{}: {what}", show::event(&item.record));
        self.event(before, &item).map_err(found)
    }

    fn event(&mut self, mut before: Machine, item: &Item) -> Result<bool, String> {
        let right = before.event(&item.record, item.answer_buffer);
        let too_many =
            |answer: &Vec<u8>| messages(answer).iter().any(|message| message.code(FIXED_TEXT) == TOO_MANY);
        if right == Err(7) || right.as_ref().is_ok_and(too_many) {
            return Ok(true);
        }
        let mut answer = vec![0xEE; item.answer_buffer];
        let given = match self.entries.event(&mut self.book, &item.record, &mut answer) {
            0 => Ok(told(&answer)),
            refusal => Err(refusal),
        };
        if given != right {
            let (right, given) = (show::outcome(&right), show::outcome(&given));
            return Err(format!("without retirements: {right}\nwith them: {given}"));
        }
        self.sending.follow(self.generator.machine());
        self.same_orders()?;
        match broken(&self.book) {
            Some(rule) => Err(format!("the book breaks a rule: {rule}")),
            None => Ok(false),
        }
    }

    /// The Rust's book as it would stand in bytes.
    fn whole(&self) -> Book {
        mirror::book(self.generator.machine(), &self.sending)
    }

    /// Each order of the Rust stands in the book or in an archive, with the same fields and requests.
    fn same_orders(&self) -> Result<(), String> {
        let (whole, book) = (self.whole(), Book::read(&self.book));
        let archives: Vec<Book> = self.archives.iter().map(|bytes| Book::read(bytes)).collect();
        let live =
            (0..whole.orders.len()).filter(|&at| !self.used.names.contains(whole.orders[at].name.text()));
        let live: Vec<usize> = live.collect();
        if live.len() != book.orders.len() {
            return Err(format!("{} orders stand in the book, of {}", book.orders.len(), live.len()));
        }
        for (at, &index) in live.iter().enumerate() {
            self.same("the book", tell(&whole, index), tell(&book, at))?;
        }
        for index in (0..whole.orders.len()).filter(|index| !live.contains(index)) {
            let name = &whole.orders[index].name;
            let places = archives.iter().flat_map(|archive| {
                (0..archive.orders.len())
                    .filter(|&at| archive.orders[at].name == *name)
                    .map(move |at| (archive, at))
            });
            let places: Vec<_> = places.collect();
            let [(archive, at)] = places[..] else {
                return Err(format!("{name:?} stands in archives {} times", places.len()));
            };
            self.same("an archive", tell(&whole, index), tell(archive, at))?;
        }
        Ok(())
    }

    fn same(&self, place: &str, mut right: Told, mut has: Told) -> Result<(), String> {
        if !self.reached {
            // What a gateway cancel names may be another order's request.
            right.links[3].clear();
            has.links[3].clear();
        }
        if right == has {
            return Ok(());
        }
        Err(format!("an order in {place}: without retirements {right:?}\nwith them {has:?}"))
    }

    /// Into the newest archive, or a fresh one, or one that is no book.
    fn retire(&mut self, counts: &mut Counts) -> Result<(), String> {
        let before = Book::read(&self.book);
        if self.random.chance(15) {
            self.on_others(counts)?;
        }
        let newest = if self.random.chance(60) { self.archives.pop() } else { None };
        let kept = newest.is_some();
        let mut archive = newest.unwrap_or_else(|| self.fresh());
        let given = call(self.entries, &mut self.book, &mut archive)?;
        counts.count(given);
        if given.number > 0 {
            self.used.add(&before);
            counts.renamed += renamed(&before);
        }
        if kept || given.number > 0 {
            self.archives.push(archive);
        }
        if given.refusal == 0 {
            return self.looked_at();
        }
        if !matches!(given.refusal, 17 | 18) {
            return Err(format!("retire gives {given:?}"));
        }
        let mut archive = self.fresh();
        let given = call(self.entries, &mut self.book, &mut archive)?;
        counts.count(given);
        if given.refusal != 0 {
            return Err(format!("retire into a fresh archive gives {given:?}"));
        }
        self.used.add(&before);
        self.archives.push(archive);
        self.looked_at()
    }

    fn fresh(&mut self) -> Vec<u8> {
        let mut archive = vec![0xA5; BOOK_BYTES];
        self.entries.start(&mut archive, self.random.next() as u32);
        archive
    }

    /// Every call that looks at a book says of what is left what the Rust would.
    fn looked_at(&self) -> Result<(), String> {
        for bytes in [&self.book].into_iter().chain(self.archives.last()) {
            if let Some(rule) = broken(bytes) {
                return Err(format!("a retirement breaks a rule: {rule}"));
            }
            let (machine, _) = mirror::machine(&Book::read(bytes));
            views::hold(self.entries, bytes, Some(&machine))?;
        }
        Ok(())
    }

    /// On copies: a damaged book, a damaged archive, other lengths, an archive that is a book of its own.
    fn on_others(&mut self, counts: &mut Counts) -> Result<(), String> {
        let (book, archive) =
            (self.book.clone(), self.archives.last().cloned().unwrap_or_else(|| self.fresh()));
        let mut on_copy = |mut book: Vec<u8>, mut archive: Vec<u8>| {
            call(self.entries, &mut book, &mut archive).map(|given| counts.count(given))
        };
        let damaged = |bytes: &[u8], random: &mut Random| {
            let mut bytes = bytes.to_vec();
            let at = random.below(layout::UNUSED_AT as u64) as usize;
            bytes[if random.chance(20) { at % 8 } else { at }] ^= 1 << random.below(8);
            bytes
        };
        for _ in 0..4 {
            on_copy(damaged(&book, &mut self.random), archive.clone())?;
            on_copy(book.clone(), damaged(&archive, &mut self.random))?;
        }
        for length in [0, 1, BOOK_BYTES - 1, BOOK_BYTES + 1] {
            let other = vec![0; length];
            on_copy(other.clone(), archive.clone())?;
            on_copy(book.clone(), other.clone())?;
            on_copy(other.clone(), other)?;
        }
        on_copy(book.clone(), book.clone())?;
        on_copy(book, books::random(&mut self.random))
    }

    /// Nets over book and archives are the Rust's, and a client's open quantity stands in the book alone.
    fn adds_up(&self) -> Result<(), String> {
        self.same_orders()?;
        let nets = |bytes: &Vec<u8>| net::nets(&mirror::machine(&Book::read(bytes)).0);
        let parts = self.archives.iter().chain([&self.book]).flat_map(nets);
        let sum: BTreeMap<_, _> = net::added(parts).into_iter().collect();
        let right: BTreeMap<_, _> = net::nets(self.generator.machine()).into_iter().collect();
        if sum != right {
            return Err(format!("nets over book and archives are {sum:?}, and should be {right:?}"));
        }
        let whole = self.whole();
        for (order, open) in whole.orders.iter().zip(opens(&whole)) {
            let given = self.entries.open_quantity(&self.book, order.client as u16);
            if open.is_some_and(|open| given.refusal != 0 || given.quantity != open) {
                return Err(format!(
                    "client {}'s open quantity is {given:?}, and should be {open:?}",
                    order.client
                ));
            }
        }
        Ok(())
    }
}

/// How many live orders have a gateway cancel that names a request of a done order.
fn renamed(book: &Book) -> u64 {
    let named = |order: &&Order| {
        let request = order.orig_downstream.checked_sub(1).map(|at| &book.requests[at as usize]);
        request.is_some_and(|request| is_gone(&book.orders[request.order as usize]))
    };
    book.orders.iter().filter(|order| !is_gone(order)).filter(named).count() as u64
}

// ---- pairs of books and archives

/// Pairs that make each refusal, or just not, of a book that was built.
pub fn pairs(entries: &Entries, seed: u64, counts: &mut Counts) -> Result<(), String> {
    let mut random = Random::new(seed ^ 0x7061_6972_7300);
    let bytes = if random.chance(70) {
        books::random(&mut random)
    } else {
        books::reached(profile::any(seed), seed, 200)
    };
    let book = Book::read(&bytes);
    let (orders, requests) = gone(&book);
    let (orders, requests) = (orders.len(), requests.len());
    counts.renamed += renamed(&book);
    let mut try_on = |archive: Vec<u8>| {
        let (mut copy, mut archive) = (bytes.clone(), archive);
        let given = call(entries, &mut copy, &mut archive)?;
        counts.count(given);
        Ok::<Vec<u8>, String>(archive)
    };
    // Behind what other archives hold, and a second time into the one that has them.
    let mut fresh = vec![0; BOOK_BYTES];
    entries.start(&mut fresh, 7);
    let archived = try_on(fresh)?;
    try_on(archived.clone())?;
    let there = Book::read(&archived);
    let whole = Book::read(&bytes);
    for of in [&there, &whole] {
        for change in [renamed_orders as fn(&Book) -> Book, other_clients, other_cl_ord_ids] {
            try_on(written(&change(of)))?;
            try_on(written(&other_clients(&change(of))))?;
            try_on(written(&renamed_orders(&other_cl_ord_ids(&change(of)))))?;
        }
    }
    // Just room, and one too few, in each table.
    let (free_orders, free_requests) = (MOST_ORDERS - orders, MOST_REQUESTS - requests);
    for (orders, requests) in [
        (free_orders, free_requests),
        (free_orders + 1, free_requests),
        (free_orders, free_requests + 1),
        (1, free_requests),
        (1, free_requests + 1),
        (free_orders, free_orders),
        (free_orders + 1, free_orders + 1),
        (MOST_ORDERS, MOST_REQUESTS),
    ] {
        let fits = orders <= MOST_ORDERS && requests <= MOST_REQUESTS && (1..=requests).contains(&orders);
        if fits {
            try_on(filler(orders, requests))?;
        }
    }
    Ok(())
}

/// A book's bytes, with what is stored to be found quickly.
fn written(book: &Book) -> Vec<u8> {
    let mut book = book.clone();
    book.opens = opens(&book);
    let mut bytes = vec![0; BOOK_BYTES];
    book.write(&mut bytes);
    bytes
}

/// Orders of other names, and their requests' downstream ClOrdIDs.
fn renamed_orders(book: &Book) -> Book {
    let mut book = book.clone();
    for index in 0..book.orders.len() {
        let name = format!("R{index}");
        let own = book.requests.iter_mut().filter(|request| request.order == index as u64);
        for (number, request) in own.enumerate() {
            let downstream = if number == 0 { name.clone() } else { format!("{name}-{number}") };
            request.downstream = Text::new(downstream.as_bytes());
        }
        let order = &mut book.orders[index];
        order.name = Text::new(name.as_bytes());
        order.downstream = book.requests[order.current as usize - 1].downstream;
    }
    book
}

/// Clients of other numbers, each another.
fn other_clients(book: &Book) -> Book {
    let mut book = book.clone();
    book.orders.iter_mut().for_each(|order| order.client ^= 1);
    book
}

/// Other ClOrdIDs: the last byte is another, or one more.
fn other_cl_ord_ids(book: &Book) -> Book {
    let other = |text: &Text| match text.text() {
        [] => *text,
        [first @ .., last] => Text::new(&[first, &[last ^ 1 | 0x40]].concat()),
    };
    let mut book = book.clone();
    for request in &mut book.requests {
        (request.cl_ord_id, request.orig_cl_ord_id) =
            (other(&request.cl_ord_id), other(&request.orig_cl_ord_id));
    }
    book.orders.iter_mut().for_each(|order| order.cl_ord_id = other(&order.cl_ord_id));
    book
}

/// A book of so many orders and requests, of which all but the last order have just one.
pub fn filler(orders: usize, requests: usize) -> Vec<u8> {
    let text = |text: String| Text::new(text.as_bytes());
    let none = Text::new(b"");
    let last = orders - 1;
    let request = |at: usize| {
        let (order, number) = if at < orders { (at, 0) } else { (last, at - orders + 1) };
        let cancel = number > 0;
        Request {
            order: order as u64,
            kind: if cancel { layout::GATEWAY_CANCEL } else { layout::FIRST },
            answered: cancel.into(),
            cl_ord_id: if cancel { none } else { text(format!("F{at}")) },
            orig_cl_ord_id: none,
            downstream: text(if cancel { format!("F{order}-{number}") } else { format!("F{order}") }),
            outcome: if cancel { 2 } else { 0 },
            origin: 0,
        }
    };
    let order = |index: usize| Order {
        amendments: if index == last { (requests - orders) as u64 } else { 0 },
        current: index as u64 + 1,
        cancel: if index == last && requests > orders { requests as u64 } else { 0 },
        ..filled(index)
    };
    let header = layout::Header { orders: orders as u64, requests: requests as u64, setting: 9 };
    let book = Book {
        header,
        orders: (0..orders).map(order).collect(),
        requests: (0..requests).map(request).collect(),
        opens: Vec::new(),
    };
    written(&book)
}

/// Order `index` of a filler, of a client of its own and canceled.
fn filled(index: usize) -> Order {
    let name = Text::new(format!("F{index}").as_bytes());
    let bytes = [0; layout::ORDER_BYTES];
    Order {
        client: 60_000 + index as u64,
        name,
        cl_ord_id: name,
        downstream: name,
        symbol: Text::new(b"S"),
        side: b'1'.into(),
        ord_type: b'1'.into(),
        qty: 1,
        status: b'4'.into(),
        ..Order::read(&bytes)
    }
}

#[cfg(test)]
mod tests {
    use super::*;

    #[test]
    fn fillers_keep_the_rules() {
        for (orders, requests) in [(1, 1), (1, 256), (64, 64), (64, 256), (10, 200)] {
            assert_eq!(broken(&filler(orders, requests)), None, "{orders} {requests}");
        }
    }

    #[test]
    fn changed_books_keep_the_rules() {
        let mut random = Random::new(5);
        for _ in 0..100 {
            let book = Book::read(&books::random(&mut random));
            for changed in [renamed_orders(&book), other_clients(&book)] {
                assert_eq!(broken(&written(&changed)), None);
            }
        }
    }
}
