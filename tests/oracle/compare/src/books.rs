//! Books by docs/LAYOUT.md: those that generated events leave, and random ones built field by field
//! that keep the rules, whether any events lead there or not.

use lists::random::Random;
use lists::{DAYS, Generator, PROFILES, draw, profile};
use model::codes::{ORD_TYPES, SIDES, STATUSES, TIMES_IN_FORCE, is_done};
use model::machine::{BOOK_BYTES, MOST_ORDERS, MOST_REQUESTS};
use model::numbers::{MAX_PRICE, MAX_QTY};

use crate::keeps::{opens, origin};
use crate::layout::{self, Book, Order, Request, Text};
use crate::mirror::{self, Sending};

/// How many clients the orders of a built book are drawn from.
const CLIENTS: [u64; 4] = [2, 4, 20, 1 << 16];

/// Symbols that more than one order of a built book may have; some differ only in zeros at the end.
const SYMBOLS: [&[u8]; 6] = [b"S", b"S\0", b"S\0\0", b"T", b"\0", b"\0\0"];

/// The first seed whose list leaves a full book with orders in every state.
const FULL_SEED: u64 = 99;

/// The bytes of a book with its clients' open quantities, and any bytes where no field stands.
fn bytes(book: &Book, random: &mut Random) -> Vec<u8> {
    let mut bytes: Vec<u8> = (0..BOOK_BYTES / 8).flat_map(|_| random.next().to_le_bytes()).collect();
    book.write(&mut bytes);
    for at in layout::spare(book) {
        bytes[at] = random.next() as u8;
    }
    bytes
}

/// The book that the list of that profile and seed leaves.
pub fn reached(profile: &'static profile::Profile, seed: u64, events: usize) -> Vec<u8> {
    let mut generator = Generator::new(profile, seed);
    let mut sending = Sending::default();
    for _ in 0..events {
        generator.next_item();
        sending.follow(generator.machine());
    }
    bytes(&mirror::book(generator.machine(), &sending), &mut Random::new(seed))
}

/// A reached book with room for one request, or as full as the list of that seed makes it.
pub fn almost_full(seed: u64) -> Vec<u8> {
    let mut generator = Generator::new(profile::named("full-tables").expect("a profile"), seed);
    let mut sending = Sending::default();
    for _ in 0..1_000 {
        if generator.machine().book().request_table().len() + 1 >= MOST_REQUESTS {
            break;
        }
        generator.next_item();
        sending.follow(generator.machine());
    }
    bytes(&mirror::book(generator.machine(), &sending), &mut Random::new(seed))
}

/// A book with both tables full and orders in every state.
pub fn full() -> Vec<u8> {
    let profile = profile::named("full-tables").expect("a profile");
    let mut books = (FULL_SEED..).map(|seed| reached(profile, seed, 700)).take(1_000);
    books.find(|bytes| varied(&Book::read(bytes))).expect("a list fills the book")
}

/// Both tables full; replaces pending, gateway cancels at every stage, orders done and live.
fn varied(book: &Book) -> bool {
    let some = |test: &dyn Fn(&Order) -> bool| book.orders.iter().any(test);
    book.orders.len() == MOST_ORDERS
        && book.requests.len() == MOST_REQUESTS
        && some(&|order| order.pending != 0)
        && (layout::UNSENT..=layout::STUCK).all(|stage| some(&|order| order.stage == stage))
        && some(&|order| is_done(order.status as u8))
        && some(&|order| order.price == 0)
}

/// Books of many sizes that events of every profile leave, the full one among them.
pub fn many(seed: u64) -> Vec<(String, Vec<u8>)> {
    let sizes = [0, 1, 2, 5, 12, 30, 80, 200, 400];
    let profiles = PROFILES.iter().chain(&DAYS).enumerate().flat_map(|(number, profile)| {
        sizes.map(|events| {
            let seed = seed + number as u64 * 10 + events as u64;
            (format!("{} events of {}, seed {seed}", events, profile.name), reached(profile, seed, events))
        })
    });
    std::iter::once(("the full book".to_string(), full())).chain(profiles).collect()
}

/// A book built field by field that keeps the rules: each order with its requests, these mingled.
pub fn random(random: &mut Random) -> Vec<u8> {
    let orders = match random.below(6) {
        0 => random.below(3),
        5 => MOST_ORDERS as u64,
        _ => random.range(1, 20),
    };
    let owners = owners(orders, random);
    let clients = *random.pick(&CLIENTS);
    let mut book = Book {
        header: layout::Header {
            orders,
            requests: owners.len() as u64,
            setting: random.magnitude(u32::MAX.into()),
        },
        orders: (0..orders).map(|index| order(index, clients, random)).collect(),
        requests: Vec::new(),
        opens: Vec::new(),
    };
    for (index, &owner) in owners.iter().enumerate() {
        let number = owners[..index].iter().filter(|&&other| other == owner).count();
        let name = book.orders[owner as usize].name.text().to_vec();
        book.requests.push(request(index, owner, number, &name, random));
    }
    (0..orders).for_each(|index| link(&mut book, index, random));
    (0..book.requests.len()).for_each(|index| settle(&mut book, index, random));
    book.opens = opens(&book);
    bytes(&book, random)
}

/// The order of each request: every order at least once.
fn owners(orders: u64, random: &mut Random) -> Vec<u64> {
    let more = if orders == 0 { 0 } else { random.below(MOST_REQUESTS as u64 + 1 - orders) };
    let more = if random.chance(20) { more } else { more.min(random.below(40)) };
    let mut owners: Vec<u64> = (0..orders).chain((0..more).map(|_| random.below(orders))).collect();
    for at in (1..owners.len()).rev() {
        owners.swap(at, random.below(at as u64 + 1) as usize);
    }
    owners
}

fn any_text(random: &mut Random, least: u64, most: u64) -> Text {
    Text::new(&draw::any_text(random, least, most))
}

fn code(codes: &[u8], random: &mut Random) -> u64 {
    draw::code(random, codes).into()
}

fn force(random: &mut Random) -> u64 {
    if random.chance(40) { 0 } else { code(TIMES_IN_FORCE, random) }
}

/// An order with its own fields; links come when the requests are there.
fn order(index: u64, clients: u64, random: &mut Random) -> Order {
    let length = random.below(17);
    let name = [draw::order_name(random, length), format!("x{index}").into_bytes()].concat();
    let ord_type = code(ORD_TYPES, random);
    let qty = random.magnitude(MAX_QTY);
    let cum_qty = if random.chance(50) { 0 } else { random.magnitude(qty) };
    let statuses = if cum_qty > 0 { &STATUSES[2..] } else { STATUSES };
    let none = Text::new(b"");
    Order {
        client: random.below(clients) * (u64::from(u16::MAX) / (clients - 1)),
        venue: random.below(3),
        name: Text::new(&name),
        cl_ord_id: any_text(random, 1, 32),
        downstream: none,
        symbol: if random.chance(50) {
            Text::new(random.pick::<&[u8]>(&SYMBOLS))
        } else {
            any_text(random, 1, 16)
        },
        venue_order_id: any_text(random, 0, 32),
        side: code(SIDES, random),
        ord_type,
        time_in_force: force(random),
        qty,
        price: if ord_type == u64::from(b'2') { random.magnitude(MAX_PRICE) } else { 0 },
        status: code(statuses, random),
        cum_qty,
        avg_px: random.magnitude(MAX_PRICE),
        exec_seq: if random.chance(5) { u64::MAX - random.below(2) } else { random.magnitude(u64::MAX) },
        amendments: 0,
        current: 0,
        cancel: 0,
        pending: 0,
        pending_qty: 0,
        pending_price: 0,
        pending_ord_type: 0,
        pending_time_in_force: 0,
        stage: layout::NONE,
        tries: 0,
        orig_downstream: 0,
        refused_sends: 0,
    }
}

/// The request of that number of its order; its ClOrdID has the index in it, so that all differ.
fn request(index: usize, owner: u64, number: usize, name: &[u8], random: &mut Random) -> Request {
    let kind = if number == 0 { layout::FIRST } else { random.range(1, 3) };
    let cl_ord_id = [format!("{index}.").into_bytes(), draw::any_text(random, 0, 28)].concat();
    let amends = kind == layout::CLIENT_CANCEL || kind == layout::CLIENT_REPLACE;
    let downstream = match number {
        0 => name.to_vec(),
        number => [name, format!("-{number}").as_bytes()].concat(),
    };
    Request {
        order: owner,
        kind,
        // What may be open is decided with the order's links.
        answered: if kind == layout::GATEWAY_CANCEL { 1 } else { random.below(2) },
        cl_ord_id: if kind == layout::GATEWAY_CANCEL { Text::new(b"") } else { Text::new(&cl_ord_id) },
        orig_cl_ord_id: if amends { any_text(random, 1, 32) } else { Text::new(b"") },
        downstream: Text::new(&downstream),
        outcome: 0,
        origin: 0,
    }
}

/// What the request came to, if it is answered, and which request of its order that stands before it its OrigClOrdID names.
fn settle(book: &mut Book, index: usize, random: &mut Random) {
    let request = &book.requests[index];
    let own = |other: &&Request| other.order == request.order && other.kind != layout::GATEWAY_CANCEL;
    let names: Vec<Text> = book.requests[..index].iter().filter(own).map(|other| other.cl_ord_id).collect();
    let outcome = if request.answered == 0 { 0 } else { random.range(1, 3) };
    let amends = request.orig_cl_ord_id.length > 0;
    let named = amends.then(|| if random.chance(50) { names[names.len() - 1] } else { *random.pick(&names) });
    let request = &mut book.requests[index];
    request.outcome = outcome;
    if let Some(named) = named {
        request.orig_cl_ord_id = named;
        book.requests[index].origin = origin(book, index).expect("it is there");
    }
}

/// Links, pending terms and gateway cancel of an order whose requests are there.
fn link(book: &mut Book, index: u64, random: &mut Random) {
    let requests = book.requests.iter().zip(1..).filter(|(request, _)| request.order == index);
    let own: Vec<(u64, u64)> = requests.map(|(request, link)| (link, request.kind)).collect();
    let pick = |kinds: &[u64], random: &mut Random| {
        let links: Vec<u64> =
            own.iter().filter(|(_, kind)| kinds.contains(kind)).map(|&(link, _)| link).collect();
        if links.is_empty() { 0 } else { *random.pick(&links) }
    };
    let current = pick(&[layout::FIRST, layout::CLIENT_REPLACE], random);
    let cancel = pick(&[layout::CLIENT_CANCEL, layout::GATEWAY_CANCEL], random);
    let pending = if random.chance(50) { pick(&[layout::CLIENT_REPLACE], random) } else { 0 };
    let downstream = book.requests[current as usize - 1].downstream;
    let order = &mut book.orders[index as usize];
    order.amendments = own.len() as u64 - 1;
    order.current = current;
    order.downstream = downstream;
    order.cancel = if random.chance(70) { cancel } else { 0 };
    if is_done(order.status as u8) {
        // The gateway's cancels of a done order may be open.
        own.iter().for_each(|&(link, _)| book.requests[link as usize - 1].answered = random.below(2));
        return;
    }
    if pending != 0 {
        order.pending = pending;
        order.pending_ord_type = code(ORD_TYPES, random);
        order.pending_qty = random.magnitude(MAX_QTY);
        order.pending_time_in_force = force(random);
        let limit = order.pending_ord_type == u64::from(b'2');
        order.pending_price = if limit { random.magnitude(MAX_PRICE) } else { 0 };
        book.requests[pending as usize - 1].answered = 0;
    }
    cancelling(book, index, random);
}

/// A gateway cancel of a live order at any stage, its request open if it is sent.
fn cancelling(book: &mut Book, index: u64, random: &mut Random) {
    if random.chance(40) {
        return;
    }
    let requests = book.requests.len() as u64;
    let order = &mut book.orders[index as usize];
    order.stage = random.range(layout::UNSENT, layout::STUCK);
    order.tries = random.below(if order.stage == layout::UNSENT { 3 } else { 4 });
    order.orig_downstream = if random.chance(60) { order.current } else { random.range(1, requests) };
    order.refused_sends = random.magnitude(u32::MAX.into());
    let open = order.stage == layout::SENT && order.tries > 0 && order.cancel != 0;
    if let Some(request) = order.cancel.checked_sub(1).map(|at| &mut book.requests[at as usize])
        && open
        && request.kind == layout::GATEWAY_CANCEL
    {
        request.answered = random.below(2);
    }
}

#[cfg(test)]
mod tests {
    use super::*;
    use crate::keeps::broken;

    #[test]
    fn built_books_keep_the_rules_and_are_read_back() {
        let mut draws = Random::new(1);
        for _ in 0..300 {
            let bytes = random(&mut draws);
            assert_eq!(broken(&bytes), None);
            let book = Book::read(&bytes);
            let (machine, sending) = mirror::machine(&book);
            assert_eq!(mirror::book(&machine, &sending), book);
        }
    }

    #[test]
    fn reached_books_keep_the_rules_and_are_read_back() {
        for (what, bytes) in many(1) {
            assert_eq!(broken(&bytes), None, "{what}");
            let book = Book::read(&bytes);
            let (machine, sending) = mirror::machine(&book);
            assert_eq!(mirror::book(&machine, &sending), book, "{what}");
        }
    }
}
