//! Stands in for the ported library: the model behind the C entries, its book written by
//! docs/LAYOUT.md, with faults that can be planted in it. Each call reads the Rust's book from the
//! bytes and writes it back, so that nothing is kept between calls; but if the bytes are those of
//! the call before, what they were found to be is not worked out again.

use std::cell::{Cell, RefCell};
use std::rc::Rc;

use model::Machine;
use model::answer::bytes;
use model::machine::{ANSWER_BYTES, BOOK_BYTES};
use model::record::Record;

use crate::chaining;
use crate::chains::Requests;
use crate::entries::{Counted, Entries, Needs, Opened, Ran};
use crate::faults::{self, Fault};
use crate::keeps::broken_but;
use crate::layout::Book;
use crate::marking::{MarkFault, Marking};
use crate::mirror;
use crate::needs;
use crate::net::{self, LINES, SCRATCH};
use crate::page;
use crate::retiring::Retiring;
use crate::running::Running;

pub const STAND_IN: Entries = Entries {
    start,
    event,
    events,
    check,
    page: print,
    open_quantity,
    net_position,
    needs: need,
    set_mark,
    return_to_mark,
    chain,
    retire,
};

thread_local! {
    static FAULT: Cell<Option<Fault>> = const { Cell::new(None) };
    /// The book that question 1 was asked of last, the fault that it was asked with, and the answer.
    static ASKED: RefCell<(Vec<u8>, Option<Fault>, bool)> = const { RefCell::new((Vec::new(), None, false)) };
    /// The book that a machine was made of last, and the machine.
    static MADE: RefCell<Option<(Vec<u8>, Rc<Machine>)>> = const { RefCell::new(None) };
    /// The machine that chains were asked of last, and its requests.
    static CHAINED: RefCell<Option<(Rc<Machine>, Rc<Requests>)>> = const { RefCell::new(None) };
}

/// Plants `fault`, or none, in all that follows on this thread.
pub fn plant(fault: Option<Fault>) {
    FAULT.set(fault);
}

/// The bytes that a caller lends: none if the length is 0, whatever the pointer.
///
/// # Safety
/// `length` bytes are at `start`, lent for the time of the call and to nobody else.
unsafe fn lent<'a>(start: *mut u8, length: usize) -> &'a mut [u8] {
    if length == 0 { &mut [] } else { unsafe { std::slice::from_raw_parts_mut(start, length) } }
}

unsafe extern "C" fn start(book: *mut u8, book_len: usize, setting: u32) -> u32 {
    // SAFETY: what the caller lends.
    let book = unsafe { lent(book, book_len) };
    if book.len() != BOOK_BYTES {
        return 1;
    }
    book.fill(0);
    book[4..8].copy_from_slice(&setting.to_le_bytes());
    0
}

unsafe extern "C" fn check(book: *const u8, book_len: usize) -> u32 {
    // SAFETY: what the caller lends, and it is only read.
    let book = unsafe { lent(book.cast_mut(), book_len) };
    (!keeps(book)).into()
}

unsafe extern "C" fn print(book: *const u8, book_len: usize, out: *mut u8, out_len: usize) -> Counted {
    // SAFETY: what the caller lends, twice; the book is only read.
    let (book, out) = unsafe { (lent(book.cast_mut(), book_len), lent(out, out_len)) };
    let refused = |refusal: u32| Counted { refusal, number: 0 };
    if !keeps(book) {
        return refused(1);
    }
    let machine = machine(book);
    let page = faults::page(FAULT.get(), &machine, page::page(&machine));
    let room = if FAULT.get() == Some(Fault::EightAtJustEnough) { page.len() + 1 } else { page.len() };
    if out.len() < room {
        return refused(8);
    }
    out[..page.len()].copy_from_slice(&page);
    if FAULT.get() == Some(Fault::PagePastItsEnd) && out.len() > page.len() {
        out[page.len()] ^= 1;
    }
    Counted { refusal: 0, number: page.len() as u32 }
}

unsafe extern "C" fn open_quantity(book: *const u8, book_len: usize, client: u16) -> Opened {
    // SAFETY: what the caller lends, and it is only read.
    let book = unsafe { lent(book.cast_mut(), book_len) };
    if !keeps(book) {
        let quantity = if FAULT.get() == Some(Fault::OpenBesideRefusal) { 1 } else { 0 };
        return Opened { refusal: 1, quantity };
    }
    let book = Book::read(book);
    let place = match FAULT.get() {
        Some(Fault::OpenByLowByte) => book.orders.iter().position(|order| order.client as u8 == client as u8),
        _ => book.orders.iter().position(|order| order.client == client.into()),
    };
    Opened { refusal: 0, quantity: place.and_then(|place| book.opens[place]).unwrap_or(0) }
}

unsafe extern "C" fn net_position(
    book: *const u8,
    book_len: usize,
    scratch: *mut u64,
    count: usize,
    lines: *mut u8,
    lines_len: usize,
) -> Counted {
    // SAFETY: what the caller lends, three times; the book is only read.
    let (book, lines) = unsafe { (lent(book.cast_mut(), book_len), lent(lines, lines_len)) };
    let scratch = if count == 0 {
        &mut []
    } else {
        // SAFETY: as above.
        unsafe { std::slice::from_raw_parts_mut(scratch, count) }
    };
    net_lines(book, scratch, lines)
}

fn net_lines(book: &[u8], scratch: &mut [u64], lines: &mut [u8]) -> Counted {
    let fault = FAULT.get();
    let least = match fault {
        Some(Fault::ElevenAtJustEnough) => (SCRATCH + 1, LINES),
        Some(Fault::ElevenByNeed) => (0, 0),
        _ => (SCRATCH, LINES),
    };
    let short = scratch.len() < least.0 || lines.len() < least.1;
    let refused = |refusal: u32| {
        let number = if fault == Some(Fault::NetBesideRefusal) { 1 } else { 0 };
        Counted { refusal, number }
    };
    if fault == Some(Fault::ElevenBeforeOne) && short {
        return refused(11);
    }
    if !keeps(book) {
        return refused(1);
    }
    let machine = machine(book);
    let nets = faults::nets(fault, &machine);
    let written = faults::lines(fault, net::lines(&nets));
    if short || lines.len() < written.len() || scratch.len() < nets.len().min(SCRATCH) {
        if let (Some(Fault::NetScratchRefused), [first, ..]) = (fault, scratch) {
            *first = !*first;
        }
        return refused(11);
    }
    scratch.fill(nets.len() as u64);
    lines[..written.len()].copy_from_slice(&written);
    if fault == Some(Fault::NetPastItsEnd) {
        lines[written.len()..LINES].fill(0);
    }
    Counted { refusal: 0, number: nets.len() as u32 }
}

unsafe extern "C" fn need(book: *const u8, book_len: usize, record: *const u8, record_len: usize) -> Needs {
    // SAFETY: what the caller lends, twice; the record is only read, and the book too but for a fault.
    let (book, record) = unsafe { (lent(book.cast_mut(), book_len), lent(record.cast_mut(), record_len)) };
    let fault = FAULT.get();
    if fault == Some(Fault::NeedsThreeBeforeOne) && Record::read_event(record).is_none() {
        return Needs { refusal: 3, ..Needs::default() };
    }
    if !keeps(book) {
        return Needs { refusal: 1, ..Needs::default() };
    }
    let before = machine(book);
    let mut after = Machine::clone(&before);
    let outcome = after.event(record, ANSWER_BYTES);
    let added = after.book().request_table().len() - before.book().request_table().len();
    let right = needs::counted(outcome.as_deref().map_err(|&refusal| refusal), added as u64);
    if fault == Some(Fault::NeedsTakes) {
        handle(book, record, &mut [0; ANSWER_BYTES]);
    }
    faults::needs(fault, record, outcome.as_deref().unwrap_or_default(), right)
}

unsafe extern "C" fn set_mark(
    book: *const u8,
    book_len: usize,
    name: *const u8,
    name_len: usize,
    places: *mut u8,
    places_len: usize,
) -> u32 {
    // SAFETY: what the caller lends, three times; book and name are only read.
    let (book, name, places) = unsafe {
        (lent(book.cast_mut(), book_len), lent(name.cast_mut(), name_len), lent(places, places_len))
    };
    Marking { fault: mark_fault(), keeps: &ask }.set(book, name, places)
}

unsafe extern "C" fn return_to_mark(
    book: *mut u8,
    book_len: usize,
    name: *const u8,
    name_len: usize,
    places: *const u8,
    places_len: usize,
) -> u32 {
    // SAFETY: what the caller lends, three times; name and places are only read, but for a fault.
    let (book, name, places) = unsafe {
        (lent(book, book_len), lent(name.cast_mut(), name_len), lent(places.cast_mut(), places_len))
    };
    Marking { fault: mark_fault(), keeps: &ask }.return_to(book, name, places)
}

unsafe extern "C" fn chain(
    book: *const u8,
    book_len: usize,
    client: u16,
    name: *const u8,
    name_len: usize,
    list: *mut u8,
    list_len: usize,
) -> Counted {
    // SAFETY: what the caller lends, three times; book and name are only read.
    let (book, name, list) =
        unsafe { (lent(book.cast_mut(), book_len), lent(name.cast_mut(), name_len), lent(list, list_len)) };
    let fault = match FAULT.get() {
        Some(Fault::Chain(fault)) => Some(fault),
        _ => None,
    };
    chaining::call(fault, book, || keeps(book).then(|| requests(&machine(book))), (client, name), list)
}

unsafe extern "C" fn retire(book: *mut u8, book_len: usize, archive: *mut u8, archive_len: usize) -> Counted {
    // SAFETY: what the caller lends, twice.
    let (book, archive) = unsafe { (lent(book, book_len), lent(archive, archive_len)) };
    let fault = match FAULT.get() {
        Some(Fault::Retire(fault)) => Some(fault),
        _ => None,
    };
    Retiring { fault, keeps: &ask }.call(book, archive)
}

/// The requests of a machine, for chains.
fn requests(machine: &Rc<Machine>) -> Rc<Requests> {
    CHAINED.with_borrow_mut(|chained| match chained {
        Some((of, requests)) if Rc::ptr_eq(of, machine) => requests.clone(),
        _ => {
            let requests = Rc::new(Requests::of(machine));
            *chained = Some((machine.clone(), requests.clone()));
            requests
        }
    })
}

fn mark_fault() -> Option<MarkFault> {
    match FAULT.get() {
        Some(Fault::Mark(fault)) => Some(fault),
        _ => None,
    }
}

/// The machine that has the book, which keeps its rules.
fn machine(book: &[u8]) -> Rc<Machine> {
    MADE.with_borrow_mut(|made| match made {
        Some((of, machine)) if of == book => machine.clone(),
        _ => {
            let machine = Rc::new(mirror::machine(&Book::read(book)).0);
            *made = Some((book.to_vec(), machine.clone()));
            machine
        }
    })
}

/// Question 1, as the planted fault asks it.
fn keeps(book: &[u8]) -> bool {
    ASKED.with_borrow_mut(|asked| {
        if asked.1 != FAULT.get() || asked.0 != book {
            *asked = (book.to_vec(), FAULT.get(), ask(book));
        }
        asked.2
    })
}

fn ask(book: &[u8]) -> bool {
    let book = match FAULT.get() {
        Some(Fault::TakesLongerBooks) if book.len() > BOOK_BYTES => &book[..BOOK_BYTES],
        _ => book,
    };
    let left_out = match FAULT.get() {
        Some(Fault::RuleLeftOut(rule)) => Some(rule),
        _ => None,
    };
    broken_but(book, left_out).is_none()
}

unsafe extern "C" fn event(
    book: *mut u8,
    book_len: usize,
    record: *const u8,
    record_len: usize,
    answer: *mut u8,
    answer_len: usize,
) -> u32 {
    // SAFETY: what the caller lends, three times; the record is only read.
    let (book, record, answer) =
        unsafe { (lent(book, book_len), lent(record.cast_mut(), record_len), lent(answer, answer_len)) };
    handle(book, record, answer)
}

unsafe extern "C" fn events(
    book: *mut u8,
    book_len: usize,
    records: *const u8,
    records_len: usize,
    answers: *mut u8,
    answers_len: usize,
) -> Ran {
    // SAFETY: what the caller lends, three times; the records are only read, but for a fault.
    let (book, records, answers) =
        unsafe { (lent(book, book_len), lent(records.cast_mut(), records_len), lent(answers, answers_len)) };
    let fault = match FAULT.get() {
        Some(Fault::Many(fault)) => Some(fault),
        _ => None,
    };
    Running { fault, keeps: &keeps, event: &handle }.call(book, records, answers)
}

fn handle(book: &mut [u8], record: &[u8], answer: &mut [u8]) -> u32 {
    let fault = FAULT.get();
    if fault == Some(Fault::TwoBeforeOne) && answer.len() < ANSWER_BYTES {
        return 2;
    }
    if !keeps(book) {
        return 1;
    }
    let before = Book::read(book);
    let (mut machine, mut sending) = mirror::machine(&before);
    let outcome = match fault {
        Some(fault) => faults::event(fault, &mut machine, record, answer.len()),
        None => machine.event(record, answer.len()),
    };
    if let Ok(told) = &outcome {
        answer[..told.len()].copy_from_slice(told);
    }
    if outcome.is_ok() || fault == Some(Fault::RefusedTakes) {
        sending.follow(&machine);
        let mut after = mirror::book(&machine, &sending);
        fault.inspect(|&fault| faults::write(fault, record, &before, &mut after));
        after.write(book);
    }
    fault.inspect(|&fault| faults::scribble(fault, record, &outcome, book, answer));
    outcome.err().unwrap_or(0)
}

/// The names of all booked orders, as they were booked.
pub fn names(machine: &Machine) -> Vec<Vec<u8>> {
    let mut orders: Vec<_> = machine.book().order_table().values().collect();
    orders.sort_by_key(|order| order.id.0);
    orders.iter().map(|order| bytes(&order.name)).collect()
}
