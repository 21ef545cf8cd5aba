//! The rules that a book keeps, as docs/SCOPE.md, Rules, lists them, over the Rust's orders and requests.

use std::collections::HashSet;

use gateway::book::{Book, CancelKind, Order, OrderRequest, Origin, Sent, Status};
use gateway::{CompactString, Decimal};

use crate::answer::bytes;
use crate::machine::{MOST_ORDERS, MOST_REQUESTS};
use crate::numbers::{MAX_PRICE, MAX_QTY, price, qty};
use crate::record::is_order_name;

type BookRule = fn(&Book) -> bool;
type OrderRule = fn(&Book, &Order) -> bool;

/// The first rule that the book breaks, if any.
pub fn broken(book: &Book) -> Option<String> {
    let rules: [(&str, BookRule); 4] = [
        ("the tables hold 64 orders and 256 requests", fits),
        ("each request names a booked order", requests_name_orders),
        ("names are distinct", names_distinct),
        ("ClOrdIDs within a client are distinct", cl_ord_ids_distinct),
    ];
    let rule = rules.iter().find(|(_, kept)| !kept(book)).map(|(rule, _)| rule.to_string());
    rule.or_else(|| book.order_table().values().find_map(|order| broken_by(book, order)))
}

fn fits(book: &Book) -> bool {
    book.order_table().len() <= MOST_ORDERS && book.request_table().len() <= MOST_REQUESTS
}

fn requests_name_orders(book: &Book) -> bool {
    book.request_table().values().all(|sent| book.order(sent.order).is_some())
}

fn names_distinct(book: &Book) -> bool {
    let mut names = HashSet::new();
    book.order_table().values().all(|order| names.insert(&order.name))
}

/// A gateway cancel has no ClOrdID.
fn cl_ord_ids_distinct(book: &Book) -> bool {
    let mut used = HashSet::new();
    book.request_table().values().all(|sent| match sent.origin {
        Origin::Gateway => sent.cl_ord_id.is_empty() && sent.orig_cl_ord_id.is_none(),
        Origin::Client => {
            let client = book.order(sent.order).map(|order| order.client.session());
            used.insert((client, &sent.cl_ord_id))
        }
    })
}

/// The first rule that the order and its own requests break.
fn broken_by(book: &Book, order: &Order) -> Option<String> {
    let rules: [(&str, OrderRule); 10] = [
        ("every field is in its range", in_range),
        ("the current downstream is the first request or a replace", current_is_own),
        ("the latest cancel is a cancel", latest_is_cancel),
        ("cumulative is at most ordered, and above 0 the status is not A or 0", filled_fits),
        ("a done order has no pending terms and no gateway cancel", done_is_quiet),
        ("pending terms name an unanswered client replace", pending_is_open),
        ("requests are the amendments and one, numbered in order", numbered),
        ("tries are at most 3, and at most 2 where unsent", few_tries),
        ("an unanswered gateway cancel is the latest, tried, sent and not stuck", gateway_cancel_open),
        ("an OrigClOrdID names an earlier request of the order", origins_earlier),
    ];
    let broken = rules.iter().find(|(_, kept)| !kept(book, order));
    broken.map(|(rule, _)| format!("order {}: {rule}", order.name))
}

/// The request under `downstream`, if it is this order's.
fn own<'a>(book: &'a Book, order: &Order, downstream: &str) -> Option<&'a Sent> {
    book.sent(downstream).filter(|sent| sent.order == order.id)
}

/// The order's requests, with their downstream ClOrdIDs.
pub fn requests<'a>(book: &'a Book, order: &Order) -> impl Iterator<Item = (&'a CompactString, &'a Sent)> {
    let id = order.id;
    book.request_table().iter().filter(move |(_, sent)| sent.order == id)
}

fn in_range(book: &Book, order: &Order) -> bool {
    let name = bytes(&order.name);
    (1..=20).contains(&name.len())
        && is_order_name(&name)
        && terms_in_range(&order.request)
        && number(order.cum_qty, qty(MAX_QTY))
        && number(order.avg_px, price(MAX_PRICE))
        && order.pending.as_ref().is_none_or(|pending| {
            text(&pending.cl_ord_id, 32)
                && number(pending.qty, qty(MAX_QTY))
                && pending.price.is_none_or(|px| number(px, price(MAX_PRICE)))
        })
        && order.venue_order_id.as_ref().is_none_or(|id| text(id, 32) && *id != "NONE")
        && requests(book, order).all(|(downstream, sent)| {
            text(downstream, 32)
                && (sent.origin == Origin::Gateway || text(&sent.cl_ord_id, 32))
                && sent.orig_cl_ord_id.as_ref().is_none_or(|id| text(id, 32))
                && sent.orig_cl_ord_id.is_some() == (sent.kind.is_some() && sent.origin == Origin::Client)
        })
}

fn terms_in_range(request: &OrderRequest) -> bool {
    text(&request.cl_ord_id, 32)
        && text(&request.symbol, 16)
        && number(request.qty, qty(MAX_QTY))
        && request.price.is_none_or(|px| number(px, price(MAX_PRICE)))
}

fn number(number: Decimal, most: Decimal) -> bool {
    Decimal::ZERO <= number && number <= most
}

fn text(text: &CompactString, most: usize) -> bool {
    (1..=most).contains(&text.chars().count())
}

fn current_is_own(book: &Book, order: &Order) -> bool {
    own(book, order, &order.downstream).is_some_and(|sent| sent.kind != Some(CancelKind::Cancel))
}

fn latest_is_cancel(book: &Book, order: &Order) -> bool {
    let cancel = |latest: &CompactString| own(book, order, latest).map(|sent| sent.kind);
    order.cancel.as_ref().is_none_or(|latest| cancel(latest) == Some(Some(CancelKind::Cancel)))
}

fn filled_fits(_: &Book, order: &Order) -> bool {
    order.cum_qty <= order.request.qty
        && (order.cum_qty == Decimal::ZERO || !matches!(order.status, Status::PendingNew | Status::New))
}

fn is_done(order: &Order) -> bool {
    matches!(order.status, Status::Filled | Status::Canceled | Status::Expired | Status::Rejected)
}

fn done_is_quiet(_: &Book, order: &Order) -> bool {
    !is_done(order) || (order.pending.is_none() && order.gateway_cancel.is_none())
}

fn pending_is_open(book: &Book, order: &Order) -> bool {
    order.pending.as_ref().is_none_or(|pending| {
        own(book, order, &pending.downstream).is_some_and(|sent| {
            let replace = sent.kind == Some(CancelKind::Replace);
            replace && !sent.answered && sent.origin == Origin::Client && sent.cl_ord_id == pending.cl_ord_id
        })
    })
}

fn numbered(book: &Book, order: &Order) -> bool {
    let first = own(book, order, &order.name).is_some_and(|sent| sent.kind.is_none());
    let later = |n: u32| own(book, order, &format!("{}-{n}", order.name)).is_some_and(|s| s.kind.is_some());
    let count = requests(book, order).count();
    first && count == order.amendments as usize + 1 && (1..=order.amendments).all(later)
}

fn few_tries(_: &Book, order: &Order) -> bool {
    let most = |unsent: bool| if unsent { 2 } else { 3 };
    order.gateway_cancel.as_ref().is_none_or(|gateway| gateway.tries <= most(gateway.unsent))
}

fn gateway_cancel_open(book: &Book, order: &Order) -> bool {
    let sent_once = order.gateway_cancel.as_ref();
    let goes = sent_once.is_some_and(|gateway| gateway.tries > 0 && !gateway.unsent && !gateway.stuck);
    let mut open = requests(book, order).filter(|(_, s)| s.origin == Origin::Gateway && !s.answered);
    is_done(order) || open.all(|(downstream, _)| order.cancel.as_ref() == Some(downstream) && goes)
}

/// What stands behind the name in a downstream ClOrdID, which `numbered` has found right.
fn place(order: &Order, downstream: &str) -> u32 {
    let suffix = downstream.strip_prefix(order.name.as_str()).and_then(|rest| rest.strip_prefix('-'));
    suffix.map_or(0, |number| number.parse().expect("a number"))
}

fn origins_earlier(book: &Book, order: &Order) -> bool {
    requests(book, order).all(|(downstream, sent)| {
        sent.orig_cl_ord_id.as_ref().is_none_or(|named| {
            requests(book, order).any(|(other, of)| {
                let earlier = place(order, other) < place(order, downstream);
                earlier && of.origin == Origin::Client && of.cl_ord_id == *named
            })
        })
    })
}
