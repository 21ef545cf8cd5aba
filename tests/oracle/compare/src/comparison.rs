//! A library's calls compared with the model: what `needs` says before each event; of the event refusal, answer bytes, bytes past
//! the length, nothing written by a refused event, every field of the book by docs/LAYOUT.md and
//! no other byte of it, `check` 0, the evening page, the clients' open quantities and their nets, chains of ClOrdIDs
//! after each event, events on copies of the book, and demand 3 and the nets counted from the
//! messages; and the whole list once more in calls of `events`.

use std::panic::{AssertUnwindSafe, catch_unwind};

use lists::random::Random;
use lists::{Generator, Item, List, profile};
use model::Machine;
use model::machine::{ANSWER_BYTES, BOOK_BYTES};
use model::watch::Watched;

use crate::books;
use crate::chains;
use crate::entries::{Entries, Needs};
use crate::expected::{self, Lent};
use crate::keeps::broken;
use crate::layout::{self, Book, Header};
use crate::many;
use crate::minimize::minimize;
use crate::mirror::{self, Sending};
use crate::needs;
use crate::net::Told;
use crate::probes;
use crate::show;
use crate::tally::Tally;
use crate::views;

/// How often a list is probed.
#[derive(Debug, Clone, Copy, PartialEq, Eq)]
pub struct Probing {
    /// A few chains after every so many events.
    pub every: usize,
    /// Every chain after the last event.
    pub at_end: bool,
    /// The whole list once more, in calls of many events.
    pub many: bool,
}

const CHAINS: usize = 4;

/// Bytes after the answer buffer that are not lent.
const GUARD: usize = 64;

/// Where and how library and model differ.
#[derive(Debug, Clone, PartialEq, Eq)]
pub struct Mismatch {
    pub at: usize,
    pub what: String,
}

/// A library with its book in hand.
#[derive(Clone)]
pub struct Caller<'a> {
    entries: &'a Entries,
    pub book: Vec<u8>,
    sending: Sending,
    told: Told,
}

impl<'a> Caller<'a> {
    /// With a book that keeps its rules, and the machine that has it; the nets are told from those that it has.
    pub fn on(entries: &'a Entries, book: Vec<u8>) -> (Self, Machine) {
        let (machine, sending) = mirror::machine(&Book::read(&book));
        let told = Told::since(&machine);
        (Self { entries, book, sending, told }, machine)
    }

    /// Calls `needs`, then `event`, and compares what they give, and every byte that they write, with
    /// the model's outcome and the model's book after it.
    pub fn event(
        &mut self,
        item: (&[u8], usize),
        model: &Result<Vec<u8>, u32>,
        machine: &Machine,
    ) -> Result<(), String> {
        let (record, buffer) = item;
        let before = self.book.clone();
        let filled: Vec<u8> = (0..buffer + GUARD).map(|at| (at * 151 + record.len()) as u8).collect();
        let mut answer = filled.clone();
        let needed = self.entries.needs(&mut self.book, record);
        if self.book != before {
            return Err("needs: the book changed".into());
        }
        let refusal = self.entries.event(&mut self.book, record, &mut answer[..buffer]);
        self.sending.follow(machine);
        let right = model.clone().map(|answer| (answer, mirror::book(machine, &self.sending)));
        expected::holds(&right, refusal, (&before, &self.book), (&filled, &answer))?;
        if buffer < ANSWER_BYTES {
            self.needed_whole(needed, record, machine)?;
        } else {
            needs::holds(needed, needs::right(&right, &before))?;
        }
        match self.entries.check(&self.book) {
            0 => views::hold(self.entries, &self.book, Some(machine))?,
            check => return Err(format!("check gives {check} after the event")),
        }
        if let Ok(told) = model {
            self.told.hear(&answer[..told.len()]);
        }
        self.told.holds(self.entries, &self.book)
    }

    /// The same if the answer buffer was short: what the event needs with a whole one, on copies.
    fn needed_whole(&self, needed: Needs, record: &[u8], machine: &Machine) -> Result<(), String> {
        let mut copy = machine.clone();
        let outcome = copy.event(record, ANSWER_BYTES);
        let added = copy.book().request_table().len() - machine.book().request_table().len();
        needs::holds(needed, needs::counted(outcome.as_deref().map_err(|&refusal| refusal), added as u64))?;
        needs::holds(needed, needs::run(self.entries, &self.book, record))
    }
}

/// Runs the list through both; the first difference, if any.
pub fn compare(
    entries: &Entries,
    list: &List,
    probing: Probing,
    mut tally: Option<&mut Tally>,
) -> Result<(), Mismatch> {
    let found = |at: usize| move |what: String| Mismatch { at, what };
    lengths(entries, list.setting).map_err(found(0))?;
    let mut caller = started(entries, list.setting).map_err(found(0))?;
    let mut watched = Watched::start(list.setting);
    let mut random = Random::new(list.items.len() as u64);
    for (at, item) in list.items.iter().enumerate() {
        if let Some(tally) = &mut tally {
            tally.before(&watched.machine, &item.record);
        }
        let outcome = watched.event(&item.record, item.answer_buffer).map_err(found(at))?;
        let machine = &watched.machine;
        caller.event((&item.record, item.answer_buffer), &outcome, machine).map_err(found(at))?;
        if let Some(tally) = &mut tally {
            tally.add(&item.record, &outcome, &watched.machine);
        }
        if (at + 1) % probing.every == 0 {
            let chains = (0..CHAINS).filter_map(|_| probes::draw(&watched.machine, &mut random));
            probe(&caller, &watched.machine, chains).map_err(found(at))?;
            damaged(&caller, &item.record, &mut random).map_err(found(at))?;
            chains::hold_all(entries, &caller.book, &watched.machine).map_err(found(at))?;
        }
    }
    let last = list.items.len().saturating_sub(1);
    chains::hold_all(entries, &caller.book, &watched.machine).map_err(found(last))?;
    let chains = if probing.at_end { probes::all(&watched.machine) } else { Vec::new() };
    probe(&caller, &watched.machine, chains.into_iter()).map_err(found(last))?;
    if probing.many {
        let calls = many::holds(entries, list).map_err(found(last))?;
        tally.into_iter().for_each(|tally| tally.calls.add(calls));
    }
    Ok(())
}

/// A book that keeps its rules, built field by field, whether any events lead there or not.
pub struct Built {
    bytes: Vec<u8>,
    /// Events drawn for it.
    pub list: List,
}

impl Built {
    pub fn draw(seed: u64, events: usize) -> Self {
        let bytes = books::random(&mut Random::new(seed));
        let (machine, _) = mirror::machine(&Book::read(&bytes));
        // Not the realistic profile and the like: here most events should meet something odd.
        let profile = profile::odd(seed);
        let mut generator = Generator::on(machine, profile, seed);
        let items = (0..events).map(|_| generator.next_item()).collect();
        Self { bytes, list: List { setting: generator.setting(), items } }
    }

    /// The book with other events.
    pub fn with(&self, list: List) -> Self {
        Self { bytes: self.bytes.clone(), list }
    }
}

/// Runs the events on a built book through both. The nets and demand 3 are counted from what it holds. The Rust's
/// own `check()` asks more than docs/SCOPE.md, Rules: here the second decision of these stands alone.
pub fn compare_built(
    entries: &Entries,
    built: &Built,
    mut tally: Option<&mut Tally>,
) -> Result<(), Mismatch> {
    let found = |at: usize| move |what: String| Mismatch { at, what };
    let (mut caller, machine) = Caller::on(entries, built.bytes.clone());
    let mut watched = Watched::since(machine);
    for (at, item) in built.list.items.iter().enumerate() {
        if let Some(tally) = &mut tally {
            tally.before(&watched.machine, &item.record);
        }
        let outcome = event_since(&mut caller, &mut watched, item).map_err(found(at))?;
        if let Some(tally) = &mut tally {
            tally.add(&item.record, &outcome, &watched.machine);
        }
    }
    let last = built.list.items.len().saturating_sub(1);
    chains::hold_all(entries, &caller.book, &watched.machine).map_err(found(last))?;
    let calls = many::holds_on(entries, built.bytes.clone(), &built.list).map_err(found(last))?;
    tally.into_iter().for_each(|tally| tally.calls.add(calls));
    Ok(())
}

/// An event on a book that keeps its rules, whether events lead there or not.
pub(crate) fn event_since(
    caller: &mut Caller<'_>,
    watched: &mut Watched,
    item: &Item,
) -> Result<Result<Vec<u8>, u32>, String> {
    let handled = || watched.event(&item.record, item.answer_buffer);
    let outcome = catch_unwind(AssertUnwindSafe(handled)).map_err(|_| "the Rust panics")??;
    caller.event((&item.record, item.answer_buffer), &outcome, &watched.machine)?;
    match broken(&caller.book) {
        Some(rule) => Err(format!("the event breaks a rule: {rule}")),
        None => Ok(outcome),
    }
}

/// A book that `start` has made where other bytes were: empty, with its setting, keeping its rules.
pub fn started<'a>(entries: &'a Entries, setting: u32) -> Result<Caller<'a>, String> {
    let mut book = vec![0xA5; BOOK_BYTES];
    let (started, checked) = (entries.start(&mut book, setting), entries.check(&book));
    if (started, checked) != (0, 0) {
        return Err(format!("start gives {started}, the check after it {checked}"));
    }
    let empty = Header { orders: 0, requests: 0, setting: setting.into() };
    views::hold(entries, &book, Some(&Machine::start(setting)))?;
    match Header::read(&book) {
        header if header == empty => {
            Ok(Caller { entries, book, sending: Sending::default(), told: Told::default() })
        }
        header => Err(format!("start with setting {setting} leaves {header:?}")),
    }
}

/// Runs each chain on a copy of the book and of the model.
fn probe(
    caller: &Caller<'_>,
    machine: &Machine,
    chains: impl Iterator<Item = probes::Chain>,
) -> Result<(), String> {
    for chain in chains {
        let mut machine = machine.clone();
        let mut copy = caller.clone();
        for (at, record) in chain.iter().enumerate() {
            let outcome = machine.event(record, 1_024);
            copy.event((record, 1_024), &outcome, &machine).map_err(|what| {
                let events: Vec<String> = chain[..=at].iter().map(|record| show::event(record)).collect();
                format!("hidden state, on a copy:\n  {}\n{what}", events.join("\n  "))
            })?;
        }
    }
    Ok(())
}

/// Books of another length: start, event (before all other questions) and check give 1 and write
/// nothing.
fn lengths(entries: &Entries, setting: u32) -> Result<(), String> {
    for length in [0, 1, BOOK_BYTES - 1, BOOK_BYTES + 1] {
        let mut book = vec![0x5A; length];
        let mut answer = vec![0x5A; 10];
        let given = [
            entries.start(&mut book, setting),
            entries.event(&mut book, &[9], &mut answer),
            entries.check(&book),
        ];
        let refused = Needs { refusal: 1, ..Needs::default() };
        needs::holds(entries.needs(&mut book, &[9]), refused)?;
        if given != [1, 1, 1] || book.iter().chain(&answer).any(|&byte| byte != 0x5A) {
            return Err(format!("a book of {length} bytes: start, event, check give {given:?}, or write"));
        }
        views::hold(entries, &book, None)?;
    }
    Ok(())
}

/// A place in the book, now and then one in a word behind the tables that an order has.
fn place(book: &[u8], random: &mut Random) -> usize {
    let orders = Header::read(book).orders;
    if orders > 0 && random.chance(25) {
        return layout::OPENS_AT + random.below(orders * layout::OPEN_BYTES as u64) as usize;
    }
    random.below(BOOK_BYTES as u64) as usize
}

/// On copies with one byte changed, `check` is what the second decision says, and `event` what it
/// says and, if the book still keeps its rules, what the Rust does on that book.
fn damaged(caller: &Caller<'_>, record: &[u8], random: &mut Random) -> Result<(), String> {
    let entries = caller.entries;
    for _ in 0..CHAINS {
        let mut book = caller.book.clone();
        let at = place(&book, random);
        book[at] ^= 1 << random.below(8);
        let lent = Lent::new(book);
        let (mut book, mut answer) = (lent.bytes.clone(), vec![0; 1_024]);
        let check = entries.check(&book);
        let needed = entries.needs(&mut book, record);
        let refusal = entries.event(&mut book, record, &mut answer);
        let found = |what: String| format!("byte {at} of the book changed: {what}");
        if check != u32::from(!lent.keeps()) {
            return Err(found(format!("check gives {check}: {:?}", broken(&lent.bytes))));
        }
        views::hold(entries, &lent.bytes, lent.machine()).map_err(found)?;
        let right = lent.event(record, 1_024).map_err(found)?;
        let filled = vec![0; 1_024];
        expected::holds(&right, refusal, (&lent.bytes, &book), (&filled, &answer)).map_err(found)?;
        needs::holds(needed, needs::right(&right, &lent.bytes)).map_err(found)?;
    }
    Ok(())
}

/// A mismatch told whole: the shortest list found, and both answers.
pub fn explain(entries: &Entries, list: &List, mismatch: &Mismatch) -> String {
    let cut = List { setting: list.setting, items: list.items[..=mismatch.at].to_vec() };
    let unprobed = Probing { every: usize::MAX, at_end: false, many: true };
    let probed = Probing { every: usize::MAX, at_end: true, many: true };
    let fails = |list: &List, probing: Probing| compare(entries, list, probing, None).is_err();
    let Some(probing) = [unprobed, probed].into_iter().find(|&probing| fails(&cut, probing)) else {
        return format!("event {}: {}", mismatch.at + 1, mismatch.what);
    };
    let small = minimize(&cut, |list| fails(list, probing));
    let again = compare(entries, &small, probing, None).expect_err("the short list fails");
    format!("{}event {}: {}", show::list(&small), again.at + 1, again.what)
}

/// The same of a built book.
pub fn explain_built(entries: &Entries, built: &Built, mismatch: &Mismatch) -> String {
    let items = built.list.items[..=mismatch.at].to_vec();
    let cut = List { setting: built.list.setting, items };
    let small = minimize(&cut, |list| compare_built(entries, &built.with(list.clone()), None).is_err());
    let small = built.with(small);
    let again = compare_built(entries, &small, None).expect_err("the short list fails");
    let (book, list) = (Book::read(&small.bytes).show(), show::list(&small.list));
    format!("on the book\n{book}{list}event {}: {}", again.at + 1, again.what)
}
