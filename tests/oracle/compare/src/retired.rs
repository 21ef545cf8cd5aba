//! A retirement (docs/SCOPE.md, Retirement): what `retire` must return and leave of book and archive, plainly by docs/LAYOUT.md and
//! the second decision of the rules; and a library's call compared with it, byte for byte, with guards around both.

use std::collections::HashSet;

use model::codes::is_done;
use model::machine::{MOST_ORDERS, MOST_REQUESTS};

use crate::entries::{Counted, Entries};
use crate::guards::{guarded, lend, same};
use crate::keeps::{keeps, opens};
use crate::layout::{self, Book, GATEWAY_CANCEL, Header, Order, Request};

pub fn is_gone(order: &Order) -> bool {
    is_done(order.status as u8)
}

/// Numbers from `first` on for what passes, in order.
fn numbered(passing: impl Iterator<Item = bool>, first: usize) -> Vec<Option<u64>> {
    let mut next = first as u64;
    let number = |passes: bool| {
        let number = passes.then_some(next);
        next += u64::from(passes);
        number
    };
    passing.map(number).collect()
}

/// The orders of a book that pass, with their requests, as they stand behind so many orders and requests.
pub fn part(
    book: &Book,
    passes: impl Fn(&Order) -> bool,
    (orders_before, requests_before): (usize, usize),
) -> (Vec<Order>, Vec<Request>) {
    let orders = numbered(book.orders.iter().map(passes), orders_before);
    let passing = book.requests.iter().map(|request| orders[request.order as usize].is_some());
    let requests = numbered(passing, requests_before);
    let link = |link: u64| match link {
        0 => 0,
        _ => requests[link as usize - 1].map_or(0, |number| number + 1),
    };
    // What a gateway cancel names goes along, or the order has a cancel of the gateway's, or its current request.
    let named = |index: usize, order: &Order| {
        let mut own = book.requests.iter().zip(1..);
        let own = own.find(|(request, _)| request.order == index as u64 && request.kind == GATEWAY_CANCEL);
        let own = own.map_or(order.current, |(_, link)| link);
        match order.orig_downstream {
            0 => 0,
            named if requests[named as usize - 1].is_some() => link(named),
            _ => link(own),
        }
    };
    let moved = |(index, order): (usize, &Order)| {
        orders[index].map(|_| Order {
            current: link(order.current),
            cancel: link(order.cancel),
            pending: link(order.pending),
            orig_downstream: named(index, order),
            ..order.clone()
        })
    };
    let moved_request = |request: &Request| {
        let order = orders[request.order as usize]?;
        Some(Request { order, origin: link(request.origin), ..request.clone() })
    };
    (
        book.orders.iter().enumerate().filter_map(moved).collect(),
        book.requests.iter().filter_map(moved_request).collect(),
    )
}

/// The number of the first no, if any.
fn refusal(book: &Book, archive: &Book) -> Option<u32> {
    let names: HashSet<&[u8]> = archive.orders.iter().map(|order| order.name.text()).collect();
    let key = |of: &Book, request: &Request| {
        (of.orders[request.order as usize].client, request.cl_ord_id.text().to_vec())
    };
    let by_client = |request: &&Request| request.kind != GATEWAY_CANCEL;
    let used: HashSet<(u64, Vec<u8>)> =
        archive.requests.iter().filter(by_client).map(|request| key(archive, request)).collect();
    let (orders, requests) = gone(book);
    let named = orders.iter().any(|order| names.contains(order.name.text()));
    let in_use = requests
        .iter()
        .filter(|request| by_client(request))
        .any(|request| used.contains(&key(book, request)));
    let full = archive.orders.len() + orders.len() > MOST_ORDERS
        || archive.requests.len() + requests.len() > MOST_REQUESTS;
    if named || in_use {
        return Some(17);
    }
    full.then_some(18)
}

/// The done orders, and their requests.
pub fn gone(book: &Book) -> (Vec<&Order>, Vec<&Request>) {
    let of_gone = |request: &&Request| is_gone(&book.orders[request.order as usize]);
    (
        book.orders.iter().filter(|order| is_gone(order)).collect(),
        book.requests.iter().filter(of_gone).collect(),
    )
}

/// These bytes with another book in them: rows that are not in use any more are zeros, so is each word that says nothing.
fn with(bytes: &[u8], setting: u64, orders: Vec<Order>, requests: Vec<Request>) -> Vec<u8> {
    let (mut bytes, was) = (bytes.to_vec(), Book::read(bytes));
    (orders.len()..was.orders.len()).for_each(|index| bytes[layout::order_at(index)].fill(0));
    (requests.len()..was.requests.len()).for_each(|index| bytes[layout::request_at(index)].fill(0));
    bytes[layout::OPENS_AT..layout::UNUSED_AT].fill(0);
    let header = Header { orders: orders.len() as u64, requests: requests.len() as u64, setting };
    let mut book = Book { header, orders, requests, opens: Vec::new() };
    book.opens = opens(&book);
    book.write(&mut bytes);
    bytes
}

/// What the call must return, and leave of book and archive.
pub fn right(book: &[u8], archive: &[u8]) -> (Counted, Vec<u8>, Vec<u8>) {
    let left = |refusal: u32| (Counted { refusal, number: 0 }, book.to_vec(), archive.to_vec());
    if !keeps(book) {
        return left(1);
    }
    if !keeps(archive) {
        return left(16);
    }
    let (from, to) = (Book::read(book), Book::read(archive));
    if let Some(refusal) = refusal(&from, &to) {
        return left(refusal);
    }
    let number = gone(&from).0.len() as u32;
    if number == 0 {
        return left(0);
    }
    let (orders, requests) = part(&from, |order| !is_gone(order), (0, 0));
    let book = with(book, from.header.setting, orders, requests);
    // What the archive has keeps its spare bytes: only rows behind it are written.
    let (orders, requests) = part(&from, is_gone, (to.orders.len(), to.requests.len()));
    let archive = behind(archive, &to, orders, requests);
    (Counted { refusal: 0, number }, book, archive)
}

/// An archive's bytes with rows behind those that it has.
fn behind(bytes: &[u8], was: &Book, orders: Vec<Order>, requests: Vec<Request>) -> Vec<u8> {
    let all = (
        was.orders.iter().chain(&orders).cloned().collect(),
        was.requests.iter().chain(&requests).cloned().collect(),
    );
    let mut left = with(bytes, was.header.setting, all.0, all.1);
    let kept = layout::order_at(0).start..layout::order_at(was.orders.len()).start;
    left[kept.clone()].copy_from_slice(&bytes[kept]);
    let kept = layout::request_at(0).start..layout::request_at(was.requests.len()).start;
    left[kept.clone()].copy_from_slice(&bytes[kept]);
    left
}

/// Calls, and compares the result and every byte with what they must be; book and archive are then what was left of them.
pub fn call(entries: &Entries, book: &mut Vec<u8>, archive: &mut Vec<u8>) -> Result<Counted, String> {
    let (right, book_after, archive_after) = right(book, archive);
    let (mut lent_book, mut lent_archive) = (guarded(book), guarded(archive));
    let given = entries.retire(lend(&mut lent_book), lend(&mut lent_archive));
    let found = |what: String| format!("retire: {what}");
    if given != right {
        return Err(found(format!("should give {right:?}, gives {given:?}")));
    }
    for (what, should, lent) in
        [("book", &book_after, &lent_book), ("archive", &archive_after, &lent_archive)]
    {
        same(&format!("the {what}"), should, lent).map_err(|by_byte| {
            let length = lent.len() - (guarded(&[]).len());
            let whole = length == should.len() && keeps(should);
            let mut has = lent.clone();
            let fields = if whole { layout::differences(should, lend(&mut has)) } else { Vec::new() };
            found(format!("{by_byte}\n  {}", fields.join("\n  ")))
        })?;
    }
    (*book, *archive) = (book_after, archive_after);
    Ok(given)
}
