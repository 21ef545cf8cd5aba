//! Calls the entries of the library, or of the stand-in if none is linked, with whatever a user
//! may pass: books of any length, random and damaged books, records that are cut, spoiled or random,
//! answer buffers of any length. Each call must give what docs/SCOPE.md, Questions, says, in their
//! order; a refused one has written nothing, and no call writes beside what it was lent.
//! `garbage [CALLS [SEED]]`, `garbage --faults`.

use std::collections::BTreeMap;
use std::process::ExitCode;

use compare::entries::{Counted, Entries, Ran, library};
use compare::expected::{self, Lent};
use compare::faults::Fault;
use compare::layout::{Book, Header};
use compare::many::{self, MOST_SAID, Many};
use compare::stand_in::{STAND_IN, plant};
use compare::{books, chains, needs, show, views};
use lists::damage::damage;
use lists::random::Random;
use lists::{Generator, Profile, profile};
use model::Machine;
use model::events;
use model::machine::{ANSWER_BYTES, BOOK_BYTES};
use model::record::{BITS, Shape, event_bits, shape};

/// Guard bytes on both sides of each buffer.
const GUARD: usize = 256;
const GUARDED: u8 = 0xC3;

/// Calls on one book, and records drawn for it.
const ON_ONE: u64 = 1_500;
const DRAWN: usize = 100;

/// Every so many calls of `event` one of `needs` goes before.
const NEEDS: u64 = 4;

/// After every so many calls of `event` there is one of `events`, with up to so many records.
const MANY: u64 = 40;
const RECORDS: u64 = 8;

/// Lengths this near to 0 and to a book's own are tried one by one.
const NEAR: usize = 300;

/// Whoever calls, and what the calls gave.
struct User<'a> {
    entries: &'a Entries,
    random: Random,
    full: Vec<u8>,
    many: Many<'a>,
    calls: u64,
    given: BTreeMap<u32, u64>,
}

/// A buffer with guards around it.
struct Buffer(Vec<u8>);

impl Buffer {
    fn new(bytes: &[u8]) -> Self {
        Self([&[GUARDED; GUARD], bytes, &[GUARDED; GUARD]].concat())
    }

    fn lend(&mut self) -> &mut [u8] {
        let end = self.0.len() - GUARD;
        &mut self.0[GUARD..end]
    }

    /// What was lent, if the guards stand as they were.
    fn back(&self) -> Result<&[u8], String> {
        let (before, rest) = self.0.split_at(GUARD);
        let (lent, behind) = rest.split_at(rest.len() - GUARD);
        match before.iter().chain(behind).all(|&byte| byte == GUARDED) {
            true => Ok(lent),
            false => Err("bytes beside a buffer changed".into()),
        }
    }
}

fn main() -> ExitCode {
    let args: Vec<String> = std::env::args().skip(1).collect();
    if args.first().is_some_and(|arg| arg == "--faults") {
        return find_faults();
    }
    let number = |at: usize, usual: u64| args.get(at).map_or(usual, |arg| arg.parse().expect("a number"));
    let linked = library();
    let entries = linked.unwrap_or(STAND_IN);
    let mut user = User::new(&entries, number(1, 1));
    if let Err(what) = user.run(number(0, 100_000)) {
        println!("a call differs: {what}");
        return ExitCode::FAILURE;
    }
    let compared = if linked.is_some() { "the library" } else { "the stand-in" };
    println!("  the events in calls of many {}", user.many.calls);
    println!("garbage: {compared}, {} calls, given {:?}, no difference", user.calls, user.given);
    ExitCode::SUCCESS
}

impl<'a> User<'a> {
    fn new(entries: &'a Entries, seed: u64) -> Self {
        let (random, many) = (Random::new(seed), Many::new(entries, seed));
        Self { entries, random, full: books::full(), many, calls: 0, given: BTreeMap::new() }
    }

    fn run(&mut self, calls: u64) -> Result<(), String> {
        self.nothing()?;
        self.lengths()?;
        while self.calls < calls {
            let profile = profile::any(self.random.next());
            let lent = Lent::new(self.book(profile));
            let records = self.records(&lent, profile);
            self.on_book(lent, &records)?;
        }
        Ok(())
    }

    /// Slices of no length, each pointer null.
    fn nothing(&mut self) -> Result<(), String> {
        let null = std::ptr::null_mut();
        let entries = self.entries;
        // SAFETY: nothing is lent.
        let given = unsafe {
            [
                (entries.start)(null, 0, 1),
                (entries.check)(null, 0),
                (entries.event)(null, 0, null, 0, null, 0),
                (entries.events)(null, 0, null, 0, null, 0).refusal,
                (entries.page)(null, 0, null, 0).refusal,
                (entries.open_quantity)(null, 0, 1).refusal,
                (entries.net_position)(null, 0, std::ptr::null_mut(), 0, null, 0).refusal,
                (entries.needs)(null, 0, null, 0).refusal,
                (entries.set_mark)(null, 0, null, 0, null, 0),
                (entries.return_to_mark)(null, 0, null, 0, null, 0),
                (entries.chain)(null, 0, 1, null, 0, null, 0).refusal,
            ]
        };
        let mut book = self.full.clone();
        // SAFETY: a whole book is lent, and nothing else.
        let on_book = unsafe { (entries.event)(book.as_mut_ptr(), book.len(), null, 0, null, 0) };
        let mut answer = vec![0; MOST_SAID];
        let (start, length) = (answer.as_mut_ptr(), answer.len());
        // SAFETY: a whole book and an answer buffer are lent.
        let no_record = unsafe { (entries.event)(book.as_mut_ptr(), book.len(), null, 0, start, length) };
        // SAFETY: a whole book is lent, and nothing else, then an answer buffer too.
        let no_records = unsafe {
            [(null, 0), (start, length)]
                .map(|(at, size)| (entries.events)(book.as_mut_ptr(), book.len(), null, 0, at, size))
        };
        let ran = [2, 0].map(|refusal| Ran { refusal, ..Ran::default() });
        if no_records != ran || answer.iter().any(|&byte| byte != 0) {
            return Err(format!("no records give {no_records:?}"));
        }
        // SAFETY: a whole book is lent, and nothing else.
        let no_needs = unsafe { (entries.needs)(book.as_ptr(), book.len(), null, 0).refusal };
        self.calls += 17;
        // SAFETY: a whole book is lent, and nothing else.
        let netted = unsafe {
            (entries.net_position)(book.as_ptr(), book.len(), std::ptr::null_mut(), 0, null, 0).refusal
        };
        match (given, on_book, no_record, no_needs, netted) {
            ([1, 1, 1, 1, 1, 1, 1, 1, 1, 1, 1], 2, 3, 3, 11) => self.no_places(&mut book),
            given => Err(format!("on slices of no length: {given:?}")),
        }
    }

    /// A whole book and no place, with no name and with one.
    fn no_places(&mut self, book: &mut [u8]) -> Result<(), String> {
        let (entries, null, name) = (self.entries, std::ptr::null_mut(), b"A".as_ptr());
        let (at, size) = (book.as_mut_ptr(), book.len());
        self.calls += 4;
        // SAFETY: a book is lent, and a name of one byte or nothing else.
        let given = unsafe {
            [
                (entries.set_mark)(at, size, null, 0, null, 0),
                (entries.set_mark)(at, size, name, 1, null, 0),
                (entries.return_to_mark)(at, size, null, 0, null, 0),
                (entries.return_to_mark)(at, size, name, 1, null, 0),
            ]
        };
        if given == [13, 15, 13, 14] {
            self.no_list(book)
        } else {
            Err(format!("marks without a place: {given:?}"))
        }
    }

    /// A whole book and no list, with no name, with one that nobody has, and with the first ClOrdID.
    fn no_list(&mut self, book: &mut [u8]) -> Result<(), String> {
        let (entries, null) = (self.entries, std::ptr::null_mut());
        let (at, size) = (book.as_ptr(), book.len());
        let Book { orders, requests, .. } = Book::read(book);
        let (client, name) = (orders[0].client as u16, requests[0].cl_ord_id);
        self.calls += 3;
        // SAFETY: a book is lent, and a name or nothing else.
        let given = unsafe {
            [
                (entries.chain)(at, size, client, null, 0, null, 0),
                (entries.chain)(at, size, client, b"nobody's".as_ptr(), 8, null, 0),
                (entries.chain)(at, size, client, name.bytes.as_ptr(), name.text().len(), null, 0),
            ]
        };
        let none = Counted { refusal: 0, number: 0 };
        match given {
            [one, two, Counted { refusal: 12, number: 0 }] if one == none && two == none => Ok(()),
            given => Err(format!("chains without a list: {given:?}")),
        }
    }

    /// Books of every length around 0 and around the right one, the front of a good one or longer.
    fn lengths(&mut self) -> Result<(), String> {
        let long = [&self.full[..], &self.full[..NEAR]].concat();
        let size = self.full.len();
        let record = events::gateway_cancel(b"A").bytes();
        for length in (0..=NEAR).chain(size - NEAR..=size + NEAR) {
            let lent = Lent::new(long[..length].to_vec());
            let mut book = Buffer::new(&lent.bytes);
            self.start_and_check(&lent, &mut book)?;
            let found = |what: String| format!("a book of {length} bytes: {what}");
            self.call(&lent, &mut book, &record, ANSWER_BYTES).map_err(found)?;
        }
        Ok(())
    }

    /// A book of any kind.
    fn book(&mut self, profile: &'static Profile) -> Vec<u8> {
        let (seed, events) = (self.random.next(), self.random.below(300) as usize);
        match self.random.below(9) {
            0 => self.random_book(),
            1 => {
                let mut book = books::reached(profile, seed, events);
                let length = self.length();
                book.resize(length, 0xAB);
                book
            }
            2 | 3 => books::random(&mut self.random),
            4 => {
                let mut book = books::reached(profile, seed, events);
                for _ in 0..self.random.range(1, 3) {
                    let at = self.random.below(BOOK_BYTES as u64) as usize;
                    book[at] = self.random.next() as u8;
                }
                book
            }
            5 => self.full.clone(),
            _ => books::reached(profile, seed, events),
        }
    }

    /// Records drawn for the book, or for an empty one if it does not keep its rules.
    fn records(&mut self, lent: &Lent, profile: &'static Profile) -> Vec<Vec<u8>> {
        let machine = lent.machine().cloned().unwrap_or_else(|| Machine::start(9));
        let mut generator = Generator::on(machine, profile, self.random.next());
        (0..DRAWN).map(|_| generator.next_item().record).collect()
    }

    /// Random bytes, with counts in the header that fit or not.
    fn random_book(&mut self) -> Vec<u8> {
        let random = &mut self.random;
        let mut book: Vec<u8> = (0..BOOK_BYTES).map(|_| random.next() as u8).collect();
        if random.chance(70) {
            Header { orders: random.below(66), requests: random.below(258), setting: 9 }.write(&mut book);
        }
        if random.chance(30) {
            Header { orders: 0, requests: random.below(2), setting: random.next() }.write(&mut book);
        }
        book
    }

    /// A length of a book that is not its own, mostly close to it or to 0.
    fn length(&mut self) -> usize {
        let length = match self.random.below(4) {
            0 => self.random.below(600) as usize,
            1 => self.random.below(2 * BOOK_BYTES as u64) as usize,
            _ => BOOK_BYTES - 300 + self.random.below(600) as usize,
        };
        if length == BOOK_BYTES { BOOK_BYTES + 1 } else { length }
    }

    fn on_book(&mut self, lent: Lent, records: &[Vec<u8>]) -> Result<(), String> {
        let mut book = Buffer::new(&lent.bytes);
        self.start_and_check(&lent, &mut book)?;
        for _ in 0..ON_ONE {
            let record = self.record(records);
            let buffer = self.answer_length();
            self.call(&lent, &mut book, &record, buffer).map_err(|what| {
                let orders = lent.machine().map(|machine| machine.book().order_table().len());
                let record = format!("{}\n  of bytes {}", show::event(&record), record.escape_ascii());
                let size = lent.bytes.len();
                format!("book of {size} bytes, keeping its rules with {orders:?} orders, answer buffer of {buffer}, record {record}\n{what}")
            })?;
            if self.random.below(MANY) == 0 {
                self.many(&lent, records)?;
            }
        }
        Ok(())
    }

    fn answer_length(&mut self) -> usize {
        match self.random.below(12) {
            0 => self.random.below(ANSWER_BYTES as u64) as usize,
            1 => ANSWER_BYTES - 2 + self.random.below(4) as usize,
            2 => self.random.below(5_000) as usize,
            _ => ANSWER_BYTES,
        }
    }

    /// A record that was drawn, one that is damaged, or one of no sense.
    fn record(&mut self, records: &[Vec<u8>]) -> Vec<u8> {
        let random = &mut self.random;
        let drawn = random.pick(records).clone();
        match random.below(10) {
            0 => drawn,
            1 => (0..random.below(400)).map(|_| random.next() as u8).collect(),
            2 | 3 => fields(random),
            4 | 5 => {
                let spoiled = if random.chance(50) { fields(random) } else { damage(random, &drawn) };
                damage(random, &spoiled)
            }
            6 if random.chance(2) => vec![random.next() as u8; 70_000],
            _ => damage(random, &drawn),
        }
    }

    fn call(&mut self, lent: &Lent, book: &mut Buffer, record: &[u8], buffer: usize) -> Result<(), String> {
        let fill = self.random.next() as u8;
        let (mut record_lent, mut answer) = (Buffer::new(record), Buffer::new(&vec![fill; buffer]));
        let right = lent.event(record, buffer)?;
        if buffer >= ANSWER_BYTES && self.calls.is_multiple_of(NEEDS) {
            let needed = self.entries.needs(book.lend(), record_lent.lend());
            self.calls += 1;
            needs::holds(needed, needs::right(&right, &lent.bytes))?;
            if book.back()? != lent.bytes || record_lent.back()? != record {
                return Err("needs: the book or the record changed".into());
            }
        }
        let refusal = self.entries.event(book.lend(), record_lent.lend(), answer.lend());
        self.calls += 1;
        *self.given.entry(refusal).or_default() += 1;
        let (after, told) = (book.back()?, answer.back()?);
        expected::holds(&right, refusal, (&lent.bytes, after), (&vec![fill; buffer], told))?;
        if record_lent.back()? != record {
            return Err("the record changed".into());
        }
        if refusal == 0 {
            let check = self.entries.check(after);
            book.lend().copy_from_slice(&lent.bytes);
            return if check == 0 { Ok(()) } else { Err(format!("check gives {check} after the event")) };
        }
        Ok(())
    }

    /// A call of many records, cut or with a byte wrong or not, in any room.
    fn many(&mut self, lent: &Lent, records: &[Vec<u8>]) -> Result<(), String> {
        let drawn: Vec<Vec<u8>> = (0..self.random.below(RECORDS + 1)).map(|_| self.record(records)).collect();
        let short = drawn.iter().map(|record| &record[..record.len().min(usize::from(u16::MAX))]);
        let mut joined = many::joined(short);
        if self.random.chance(30) {
            joined.truncate(self.random.below(joined.len() as u64 + 1) as usize);
        }
        if self.random.chance(20) && !joined.is_empty() {
            let at = self.random.below(joined.len() as u64) as usize;
            joined[at] = self.random.next() as u8;
        }
        let room = match self.random.below(4) {
            0 => self.answer_length(),
            1 => ANSWER_BYTES + self.random.below(4) as usize,
            _ => self.random.range(MOST_SAID as u64, RECORDS * MOST_SAID as u64) as usize,
        };
        self.calls += 1;
        let ran = self.many.call(&mut lent.bytes.clone(), &joined, room)?;
        *self.given.entry(ran.refusal).or_default() += 1;
        Ok(())
    }

    fn start_and_check(&mut self, lent: &Lent, book: &mut Buffer) -> Result<(), String> {
        let check = self.entries.check(book.lend());
        if check != u32::from(!lent.keeps()) || book.back()? != lent.bytes {
            return Err(format!("check gives {check} on {} bytes, or writes", lent.bytes.len()));
        }
        views::hold(self.entries, book.lend(), lent.machine())?;
        if let Some(machine) = lent.machine() {
            chains::hold_all(self.entries, book.lend(), machine)?;
        }
        let setting = self.random.next() as u32;
        let started = self.entries.start(book.lend(), setting);
        let after = book.back()?;
        let right = if lent.bytes.len() == BOOK_BYTES { 0 } else { 1 };
        let empty = Header { orders: 0, requests: 0, setting: setting.into() };
        let left = if right == 0 { Header::read(after) == empty } else { after == lent.bytes };
        if started != right || !left {
            return Err(format!(
                "start gives {started} on {} bytes, or leaves another book",
                lent.bytes.len()
            ));
        }
        book.lend().copy_from_slice(&lent.bytes);
        self.calls += 3;
        Ok(())
    }
}

/// A record with its kind's bits, now and then one more or less, and fields of any content.
fn fields(random: &mut Random) -> Vec<u8> {
    let kind = random.range(1, 9) as u8;
    let (required, allowed) = event_bits(kind).expect("a kind of event");
    let mut map = required | allowed & random.next() as u32;
    if random.chance(10) {
        map ^= 1 << random.below(32);
    }
    let mut record = vec![kind];
    record.extend(map.to_le_bytes());
    for bit in (0..BITS).filter(|bit| map >> bit & 1 == 1) {
        match shape(bit) {
            Shape::Number(1) => record.push(*random.pick(b"0123456789ACDEFI\x00\x01\x07\x08")),
            Shape::Number(size) => {
                let number = random.magnitude(u64::MAX);
                record.extend(&u128::from(number).to_le_bytes()[..size]);
            }
            Shape::Text(_, most) => {
                let length = random.below(most as u64 + 2);
                record.push(length as u8);
                record.extend((0..length).map(|_| *random.pick(b"ABab09-\x00\xff")));
            }
            Shape::Mark => {}
        }
    }
    record
}

fn find_faults() -> ExitCode {
    let mut missed = 0;
    for fault in Fault::BAD_INPUT {
        plant(Some(fault));
        match User::new(&STAND_IN, 1).run(60_000) {
            Err(what) => println!("  {fault:?}: {}", what.lines().last().unwrap_or_default()),
            Ok(()) => {
                println!("{fault:?} NOT FOUND");
                missed += 1;
            }
        }
    }
    plant(None);
    let all = Fault::BAD_INPUT.len();
    println!("garbage: planted faults, {} of {all} found", all - missed);
    if missed == 0 { ExitCode::SUCCESS } else { ExitCode::FAILURE }
}
