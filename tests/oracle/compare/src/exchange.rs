//! Two clients, either order (change request 12): two records run on copies of one book, both ways
//! round, through a library's entries. What must come out is said by the bytes alone: no model is
//! asked. Pairs outside the statement's words are run too, to see that each word is needed.

use std::collections::BTreeSet;

use lists::random::Random;
use lists::{Generator, PROFILES, profile};
use model::machine::{ANSWER_BYTES, MOST_REQUESTS};
use model::record::*;

use crate::entries::Entries;
use crate::layout::{self, Book, Header};
use crate::{books, chains, mirror, probes, show};

/// Records drawn for a book: so many from a generator, and so many chains of probes.
const DRAWN: usize = 8;
const CHAINS: usize = 6;

/// Bytes that an answer buffer has beyond those that an event asks for.
const BEYOND: usize = 40;

/// What keeps a pair outside the statement; each is one of its words.
#[derive(Debug, Clone, Copy, PartialEq, Eq, PartialOrd, Ord)]
pub enum Outside {
    Booking,
    NoOrder,
    OneClient,
    NotTaken,
}

/// What was run.
#[derive(Debug, Default)]
pub struct Pairs {
    pub books: u64,
    /// Within the words, by how many requests the two added.
    pub within: [u64; 3],
    /// Outside, by the word: all, and those that part when they are exchanged.
    pub outside: [(u64, u64); 4],
}

/// The order that a record of kinds 2 to 9 concerns on a book, by its texts.
pub fn concerned(book: &Book, record: &Record<'_>) -> Option<usize> {
    let client = |order: usize| book.orders[order].client;
    let mut requests = book.requests.iter().map(|request| (request, request.order as usize));
    match record.kind {
        CANCEL | REPLACE => {
            let named = record.text(ORIG_CL_ORD_ID);
            let its = |order: usize| client(order) == record.number(CLIENT);
            requests.find(|(request, order)| request.cl_ord_id.text() == named && its(*order))
        }
        VENUE_REPORT..=SEND_AGAIN => {
            requests.find(|(request, _)| request.downstream.text() == record.text(DOWNSTREAM))
        }
        GATEWAY_CANCEL => {
            return book.orders.iter().position(|order| order.name.text() == record.text(NAME));
        }
        _ => None,
    }
    .map(|(_, order)| order)
}

/// What two records came to, one after the other.
struct Way {
    /// Refusal and written answer of each, in the order of the pair.
    calls: [(u32, Vec<u8>); 2],
    book: Vec<u8>,
}

impl Way {
    fn taken(&self) -> bool {
        self.calls.iter().all(|call| call.0 == 0)
    }
}

/// Runs the records on a copy of the book, the second first if they are turned, with answer
/// buffers full of that byte.
fn way(entries: &Entries, book: &[u8], pair: [&[u8]; 2], turned: bool, byte: u8) -> Result<Way, String> {
    let mut way = Way { calls: Default::default(), book: book.to_vec() };
    for at in if turned { [1, 0] } else { [0, 1] } {
        let mut answer = vec![byte; ANSWER_BYTES + BEYOND * usize::from(turned)];
        let refusal = entries.event(&mut way.book, pair[at], &mut answer);
        let length = match refusal {
            0 => usize::from(u16::from_le_bytes([answer[0], answer[1]])),
            _ => 0,
        };
        if answer[length.min(answer.len())..].iter().any(|&found| found != byte) {
            return Err(format!("answer bytes changed past length {length}"));
        }
        answer.truncate(length);
        way.calls[at] = (refusal, answer);
    }
    Ok(way)
}

/// The word of the statement that a pair lacks; one way round is run.
fn outside(book: &Book, pair: [&[u8]; 2], one: &Way) -> Option<Outside> {
    let read = pair.map(|record| Record::read_event(record).filter(Record::in_range));
    let [Some(first), Some(second)] = read else { return Some(Outside::NotTaken) };
    if [&first, &second].iter().any(|record| record.kind == BOOK) {
        return Some(Outside::Booking);
    }
    let (Some(i), Some(j)) = (concerned(book, &first), concerned(book, &second)) else {
        return Some(Outside::NoOrder);
    };
    if book.orders[i].client == book.orders[j].client {
        return Some(Outside::OneClient);
    }
    (!one.taken()).then_some(Outside::NotTaken)
}

/// The book with its requests t and t + 1 exchanged, and the links that name them.
fn exchanged(book: &[u8], t: usize) -> Vec<u8> {
    let mut bytes = book.to_vec();
    let (one, other) = (layout::request_at(t), layout::request_at(t + 1));
    bytes[one.clone()].copy_from_slice(&book[other.clone()]);
    bytes[other].copy_from_slice(&book[one]);
    let (low, high) = (t as u64 + 1, t as u64 + 2);
    let link = |link: u64| match link {
        link if link == low => high,
        link if link == high => low,
        link => link,
    };
    for (index, order) in Book::read(book).orders.iter_mut().enumerate() {
        order.current = link(order.current);
        order.cancel = link(order.cancel);
        order.pending = link(order.pending);
        order.orig_downstream = link(order.orig_downstream);
        order.write(&mut bytes[layout::order_at(index)]);
    }
    bytes
}

/// How many requests two events have added.
fn added(before: &[u8], after: &[u8]) -> usize {
    (Header::read(after).requests - Header::read(before).requests) as usize
}

/// Compares the two ways round with each other: the same refusals and answers, the same bytes, but
/// for the places of two requests if two were added; and the open quantities.
fn same(entries: &Entries, before: &[u8], one: &Way, two: &Way) -> Result<(), String> {
    let told = |(refusal, answer): &(u32, Vec<u8>)| match refusal {
        0 => show::outcome(&Ok(answer.clone())),
        refusal => show::outcome(&Err(*refusal)),
    };
    for (call, other) in one.calls.iter().zip(&two.calls) {
        if call != other {
            return Err(format!("answers {}\nand the other way round {}", told(call), told(other)));
        }
    }
    let book = match added(before, &one.book) {
        2 => exchanged(&one.book, Header::read(before).requests as usize),
        _ => one.book.clone(),
    };
    if book != two.book {
        return Err(layout::differences(&book, &two.book).join("\n"));
    }
    let clients: BTreeSet<u16> = Book::read(before).orders.iter().map(|order| order.client as u16).collect();
    for client in clients {
        let given = entries.open_quantity(&one.book, client);
        if given.refusal != 0 || given != entries.open_quantity(&two.book, client) {
            return Err(format!("open quantity of client {client}: {given:?}, and another"));
        }
    }
    match entries.check(&two.book) {
        0 => same_chains(entries, &one.book, &two.book),
        check => Err(format!("check gives {check} the other way round")),
    }
}

/// The chains of the last two requests that have a ClOrdID, which are those that two events may have added, by both books.
fn same_chains(entries: &Entries, one: &[u8], two: &[u8]) -> Result<(), String> {
    let book = Book::read(one);
    let names = book.requests.iter().rev().filter(|request| request.cl_ord_id.length > 0);
    for request in names.take(2) {
        let client = book.orders[request.order as usize].client as u16;
        let chain = |of: &[u8]| {
            let mut list = vec![0; MOST_REQUESTS * chains::ENTRY];
            let given = entries.chain(of, client, &mut request.cl_ord_id.text().to_vec(), &mut list);
            (given, list)
        };
        let (given, list) = chain(one);
        if given.refusal != 0 || given.number == 0 || (given, list) != chain(two) {
            return Err(format!(
                "chain of {:?} of client {client}: {given:?}, and another",
                request.cl_ord_id
            ));
        }
    }
    Ok(())
}

/// Runs a pair both ways round.
fn hold(entries: &Entries, before: &[u8], pair: [&[u8]; 2], pairs: &mut Pairs) -> Result<(), String> {
    let one = way(entries, before, pair, false, 0x5A)?;
    let two = way(entries, before, pair, true, 0xC3)?;
    let outcome = same(entries, before, &one, &two);
    match outside(&Book::read(before), pair, &one) {
        None => {
            pairs.within[added(before, &one.book)] += 1;
            outcome
        }
        Some(word) => {
            // What the words leave open may part or not.
            let counts = &mut pairs.outside[word as usize];
            *counts = (counts.0 + 1, counts.1 + u64::from(outcome.is_err()));
            Ok(())
        }
    }
}

/// Records for a book: drawn against it, chains whose later records name what the first creates, and
/// bookings.
fn records(bytes: &[u8], seed: u64) -> Vec<Vec<u8>> {
    let (machine, _) = mirror::machine(&Book::read(bytes));
    let mut random = Random::new(seed);
    let chains: Vec<probes::Chain> =
        (0..CHAINS).filter_map(|_| probes::draw(&machine, &mut random)).collect();
    let profile = profile::any(seed);
    let mut generator = Generator::on(machine, profile, seed);
    let drawn = (0..DRAWN).map(|_| generator.next_item().record);
    drawn.chain(chains.into_iter().flatten()).collect()
}

/// Runs all pairs of the records that are drawn for a book.
pub fn on_book(entries: &Entries, bytes: &[u8], seed: u64, pairs: &mut Pairs) -> Result<(), String> {
    pairs.books += 1;
    let records = records(bytes, seed);
    for (at, first) in records.iter().enumerate() {
        for second in records.iter().skip(at + 1) {
            hold(entries, bytes, [first, second], pairs).map_err(|what| {
                let (first, second) = (show::event(first), show::event(second));
                format!("{first}\n{second}\non the book\n{}{what}", Book::read(bytes).show())
            })?;
        }
    }
    Ok(())
}

/// A reached and a built book of a seed, full of any bytes where no field stands, and now and then one
/// with room for a single request.
pub fn drawn(seed: u64) -> Vec<Vec<u8>> {
    let profile = profile::any(seed);
    let events = [5, 20, 60, 150, 400][seed as usize / PROFILES.len() % 5];
    let mut drawn = vec![books::reached(profile, seed, events), books::random(&mut Random::new(seed))];
    if seed.is_multiple_of(10) {
        drawn.push(books::almost_full(seed));
    }
    drawn
}

#[cfg(test)]
mod tests {
    use super::*;

    #[test]
    fn two_requests_exchanged_twice_are_where_they_were() {
        let mut random = Random::new(1);
        let mut moved = 0;
        for _ in 0..100 {
            let book = books::random(&mut random);
            let Some(t) = (Header::read(&book).requests as usize).checked_sub(2) else { continue };
            let turned = exchanged(&book, t);
            moved += usize::from(turned != book);
            assert_eq!(exchanged(&turned, t), book);
        }
        assert!(moved > 50);
    }

    #[test]
    fn every_request_and_order_of_a_book_is_found_by_its_own_texts() {
        let mut random = Random::new(2);
        for _ in 0..50 {
            let book = Book::read(&books::random(&mut random));
            for request in &book.requests {
                let bytes = Draft::new(SEND_AGAIN)
                    .number(VENUE, 0_u8)
                    .text(DOWNSTREAM, request.downstream.text())
                    .bytes();
                let record = Record::read_event(&bytes).expect("an event");
                assert_eq!(concerned(&book, &record), Some(request.order as usize));
            }
            for (index, order) in book.orders.iter().enumerate() {
                let bytes = Draft::new(GATEWAY_CANCEL).text(NAME, order.name.text()).bytes();
                let record = Record::read_event(&bytes).expect("an event");
                assert_eq!(concerned(&book, &record), Some(index));
            }
        }
    }
}
