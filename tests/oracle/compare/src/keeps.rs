//! The rules of the book decided a second time, on its bytes: docs/SCOPE.md, Rules, over
//! docs/LAYOUT.md, by plain loops. It shares no code with the port. Three parts of its ranges it took
//! from the port's definitions (machine's Rules.antt): that a market order has no price, and that
//! absent pending terms and an absent gateway cancel are all zero.

use model::codes::{ORD_TYPES, SIDES, STATUSES, TIMES_IN_FORCE, is_done};
use model::machine::{BOOK_BYTES, MOST_ORDERS, MOST_REQUESTS};
use model::numbers::{MAX_PRICE, MAX_QTY};
use model::record::is_order_name;

use crate::layout::{
    Book, CLIENT_CANCEL, CLIENT_REPLACE, FIRST, GATEWAY_CANCEL, NONE, Order, Request, SENT, STUCK, Text,
    UNSENT,
};

const DONE_FOR_DAY: u64 = b'3' as u64;
const MARKET: u64 = b'1' as u64;

type Rule = (&'static str, fn(&Book) -> bool);

/// The rules in the order in which docs/SCOPE.md, Rules, names them; each holds up by itself on any book.
pub const RULES: [Rule; 23] = [
    ("counts are within their tables", counts_fit),
    ("every field of an order is in its range", orders_in_range),
    ("every field of a request is in its range", requests_in_range),
    ("each request names a booked order", requests_name_orders),
    ("the current downstream is the first request or a replace of its own", current_is_own),
    ("the latest cancel is a cancel of its own", latest_is_cancel),
    ("names and downstream ClOrdIDs are distinct", names_distinct),
    ("ClOrdIDs within a client are distinct", cl_ord_ids_distinct),
    ("cumulative is at most ordered", filled_of_ordered),
    ("above cumulative 0 the status is not A or 0", filled_is_not_new),
    ("a done order has no pending terms", done_has_no_pending),
    ("a done order has no gateway cancel", done_has_no_gateway_cancel),
    ("pending terms name an unanswered client replace of that order", pending_is_open),
    ("amendments are the request records less one", amendments_counted),
    ("downstream ClOrdIDs are the name, then the name with -1, -2 and so on", numbered),
    ("tries are at most 3", few_tries),
    ("tries are at most 2 where unsent", fewer_where_unsent),
    ("an unanswered gateway cancel of a live order is its latest cancel", open_is_latest),
    ("an unanswered gateway cancel of a live order has tries above 0, is sent and not stuck", open_is_sent),
    ("exactly the unanswered have outcome 0, and none has one above 3", outcomes_right),
    ("an OrigClOrdID names a request of its order numbered lower", origins_earlier),
    ("the origin of a request with an OrigClOrdID leads to the request that it names", origins_lead),
    ("a client's open quantity is the sum over its orders", opens_right),
];

pub fn keeps(bytes: &[u8]) -> bool {
    broken(bytes).is_none()
}

/// The first rule that the bytes break, if any.
pub fn broken(bytes: &[u8]) -> Option<&'static str> {
    broken_but(bytes, None)
}

/// The same with one rule left out: what a faulty check might do.
pub fn broken_but(bytes: &[u8], left_out: Option<usize>) -> Option<&'static str> {
    if bytes.len() != BOOK_BYTES {
        return Some("the book has 65,536 bytes");
    }
    let book = Book::read(bytes);
    let mut rules = RULES.iter().enumerate().filter(|(at, _)| Some(*at) != left_out);
    rules.find(|(_, (_, kept))| !kept(&book)).map(|(_, (rule, _))| *rule)
}

fn counts_fit(book: &Book) -> bool {
    book.header.orders <= MOST_ORDERS as u64 && book.header.requests <= MOST_REQUESTS as u64
}

/// The text stands as docs/LAYOUT.md says, and its length is in the range.
fn text(text: &Text, least: u8, most: u8) -> bool {
    let end = text.text().len();
    (least..=most).contains(&text.length) && text.bytes[end..] == [0; 32][end..]
}

fn code(code: u64, listed: &[u8]) -> bool {
    listed.iter().any(|&byte| u64::from(byte) == code)
}

/// Type, time in force (0 if there is none), quantity and price (0 if the type is market).
fn terms(ord_type: u64, time_in_force: u64, qty: u64, price: u64) -> bool {
    code(ord_type, ORD_TYPES)
        && (time_in_force == 0 || code(time_in_force, TIMES_IN_FORCE))
        && qty <= MAX_QTY
        && price <= MAX_PRICE
        && (ord_type != MARKET || price == 0)
}

fn orders_in_range(book: &Book) -> bool {
    book.orders.iter().all(|order| {
        text(&order.name, 1, 20)
            && is_order_name(order.name.text())
            && text(&order.cl_ord_id, 1, 32)
            && text(&order.downstream, 1, 32)
            && text(&order.symbol, 1, 16)
            && text(&order.venue_order_id, 0, 32)
            && code(order.side, SIDES)
            && terms(order.ord_type, order.time_in_force, order.qty, order.price)
            && code(order.status, STATUSES)
            && order.cum_qty <= MAX_QTY
            && order.avg_px <= MAX_PRICE
            && pending_in_range(order)
            && gateway_in_range(book, order)
    })
}

/// If no replace waits, the terms are zeros.
fn pending_in_range(order: &Order) -> bool {
    let (ord_type, time_in_force) = (order.pending_ord_type, order.pending_time_in_force);
    let (qty, price) = (order.pending_qty, order.pending_price);
    match order.pending {
        0 => [ord_type, time_in_force, qty, price] == [0; 4],
        _ => terms(ord_type, time_in_force, qty, price),
    }
}

/// A stage of the four, a link exactly if it is not 0, and zeros if it is.
fn gateway_in_range(book: &Book, order: &Order) -> bool {
    match order.stage {
        NONE => [order.orig_downstream, order.tries, order.refused_sends] == [0; 3],
        stage => stage <= STUCK && (1..=book.requests.len() as u64).contains(&order.orig_downstream),
    }
}

fn requests_in_range(book: &Book) -> bool {
    book.requests.iter().all(|request| {
        let amends = request.kind == CLIENT_CANCEL || request.kind == CLIENT_REPLACE;
        let clients = request.kind != GATEWAY_CANCEL;
        request.kind <= GATEWAY_CANCEL
            && request.answered <= 1
            && if clients { text(&request.cl_ord_id, 1, 32) } else { text(&request.cl_ord_id, 0, 0) }
            && if amends { text(&request.orig_cl_ord_id, 1, 32) } else { text(&request.orig_cl_ord_id, 0, 0) }
            && text(&request.downstream, 1, 32)
    })
}

fn requests_name_orders(book: &Book) -> bool {
    book.requests.iter().all(|request| request.order < book.orders.len() as u64)
}

/// The request that a link leads to, if it is the order's own.
fn own(book: &Book, order: usize, link: u64) -> Option<&Request> {
    let request = book.requests.get(link.checked_sub(1)? as usize)?;
    (request.order == order as u64).then_some(request)
}

/// Whether `rule` holds of each order and its index.
fn each(book: &Book, rule: impl Fn(usize, &Order) -> bool) -> bool {
    book.orders.iter().enumerate().all(|(index, order)| rule(index, order))
}

fn current_is_own(book: &Book) -> bool {
    each(book, |index, order| {
        own(book, index, order.current).is_some_and(|request| {
            (request.kind == FIRST || request.kind == CLIENT_REPLACE)
                && request.downstream == order.downstream
        })
    })
}

fn latest_is_cancel(book: &Book) -> bool {
    each(book, |index, order| {
        let cancels = |request: &Request| request.kind == CLIENT_CANCEL || request.kind == GATEWAY_CANCEL;
        order.cancel == 0 || own(book, index, order.cancel).is_some_and(cancels)
    })
}

/// Whether no two items are the same, each compared with each.
fn distinct<T>(items: &[T], same: impl Fn(&T, &T) -> bool) -> bool {
    items.iter().enumerate().all(|(at, one)| items[..at].iter().all(|other| !same(one, other)))
}

fn names_distinct(book: &Book) -> bool {
    distinct(&book.orders, |one, other| one.name == other.name)
        && distinct(&book.requests, |one, other| one.downstream == other.downstream)
}

/// A gateway cancel has no ClOrdID; a request's client is its order's.
fn cl_ord_ids_distinct(book: &Book) -> bool {
    let client = |request: &Request| book.orders.get(request.order as usize).map(|order| order.client);
    let clients = |request: &Request| request.kind != GATEWAY_CANCEL;
    distinct(&book.requests, |one, other| {
        one.cl_ord_id == other.cl_ord_id && clients(one) && clients(other) && client(one) == client(other)
    })
}

fn filled_of_ordered(book: &Book) -> bool {
    each(book, |_, order| order.cum_qty <= order.qty)
}

fn filled_is_not_new(book: &Book) -> bool {
    each(book, |_, order| order.cum_qty == 0 || !code(order.status, b"A0"))
}

fn done(order: &Order) -> bool {
    is_done(order.status as u8)
}

fn done_has_no_pending(book: &Book) -> bool {
    each(book, |_, order| !done(order) || order.pending == 0)
}

fn done_has_no_gateway_cancel(book: &Book) -> bool {
    each(book, |_, order| !done(order) || order.stage == NONE)
}

fn pending_is_open(book: &Book) -> bool {
    each(book, |index, order| {
        let open = |request: &Request| request.kind == CLIENT_REPLACE && request.answered == 0;
        order.pending == 0 || own(book, index, order.pending).is_some_and(open)
    })
}

/// The order's requests as they stand in the table.
fn requests(book: &Book, order: usize) -> impl Iterator<Item = &Request> {
    book.requests.iter().filter(move |request| request.order == order as u64)
}

fn amendments_counted(book: &Book) -> bool {
    each(book, |index, order| requests(book, index).count() as u64 == order.amendments + 1)
}

/// In the order of sending, and the first alone is of kind first.
fn numbered(book: &Book) -> bool {
    each(book, |index, order| {
        requests(book, index).enumerate().all(|(number, request)| {
            let suffix = request.downstream.text().strip_prefix(order.name.text());
            let right = if number == 0 { String::new() } else { format!("-{number}") };
            suffix == Some(right.as_bytes()) && (request.kind == FIRST) == (number == 0)
        })
    })
}

fn few_tries(book: &Book) -> bool {
    each(book, |_, order| order.stage == NONE || order.tries <= 3)
}

fn fewer_where_unsent(book: &Book) -> bool {
    each(book, |_, order| order.stage != UNSENT || order.tries <= 2)
}

/// The indices of the unanswered gateway cancels of live orders, with their orders.
fn open(book: &Book) -> impl Iterator<Item = (usize, &Order)> {
    let open = |request: &Request| request.kind == GATEWAY_CANCEL && request.answered == 0;
    let requests = book.requests.iter().enumerate().filter(move |(_, request)| open(request));
    let with_order =
        requests.filter_map(|(index, request)| Some((index, book.orders.get(request.order as usize)?)));
    with_order.filter(|(_, order)| !done(order))
}

fn open_is_latest(book: &Book) -> bool {
    open(book).all(|(index, order)| order.cancel == index as u64 + 1)
}

fn open_is_sent(book: &Book) -> bool {
    open(book).all(|(_, order)| order.tries > 0 && order.stage == SENT)
}

/// What an order leaves open: by its accepted terms, and nothing if it is done or done for the day.
fn leaves(order: &Order) -> u64 {
    if done(order) || order.status == DONE_FOR_DAY { 0 } else { order.qty.saturating_sub(order.cum_qty) }
}

/// The open quantity that belongs at each order's place: at a client's first order the sum over all
/// orders of that client, at others nothing.
pub fn opens(book: &Book) -> Vec<Option<u64>> {
    let mut opens = Vec::new();
    for (index, order) in book.orders.iter().enumerate() {
        let mut first = true;
        let mut sum: u64 = 0;
        for (other, counted) in book.orders.iter().enumerate() {
            if counted.client == order.client {
                first &= other >= index;
                // Past 64 bits only if a quantity is out of its range.
                sum = sum.wrapping_add(leaves(counted));
            }
        }
        opens.push(first.then_some(sum));
    }
    opens
}

fn opens_right(book: &Book) -> bool {
    book.opens == opens(book)
}

fn outcomes_right(book: &Book) -> bool {
    book.requests.iter().all(|request| {
        let answered = request.answered != 0;
        (request.outcome != 0) == answered && request.outcome <= 3
    })
}

/// The link of the request that the OrigClOrdID of the one at an index names, among those of its order that stand before it.
pub fn origin(book: &Book, index: usize) -> Option<u64> {
    let named = &book.requests[index];
    for (other, request) in book.requests[..index].iter().enumerate() {
        let own = request.order == named.order && request.kind != GATEWAY_CANCEL;
        if own && request.cl_ord_id.text() == named.orig_cl_ord_id.text() {
            return Some(other as u64 + 1);
        }
    }
    None
}

/// The indices of the requests that have an OrigClOrdID.
fn amending(book: &Book) -> impl Iterator<Item = usize> {
    (0..book.requests.len()).filter(|&index| book.requests[index].orig_cl_ord_id.length != 0)
}

fn origins_earlier(book: &Book) -> bool {
    amending(book).all(|index| origin(book, index).is_some())
}

/// If no such request stands, the rule before this one says so.
fn origins_lead(book: &Book) -> bool {
    amending(book).all(|index| origin(book, index).is_none_or(|link| book.requests[index].origin == link))
}
