//! Damages to a book's bytes: each byte, each field at its limits, pairs, records swapped, copied
//! and moved, with the links put right and without, names that come twice, the open quantities, and
//! outcomes and origins.
//! Each is shown to a visitor and undone.

use lists::random::Random;
use model::codes::{ORD_TYPES, STATUSES};
use model::machine::{BOOK_BYTES, MOST_ORDERS};
use model::numbers::{MAX_PRICE, MAX_QTY};

use crate::keeps::{opens, origin};
use crate::layout::{self, Book, Field, Order, Request, Text};

/// Damages that nearly fit are shown so many times as often.
const MORE_NEAR: u64 = 200;

/// What is shown the damage and the damaged bytes; its error ends the showing.
pub type Visit<'a> = dyn FnMut(&str, &[u8]) -> Result<(), String> + 'a;

/// A book that is damaged in place.
pub struct Damaged<'a> {
    bytes: Vec<u8>,
    whole: Vec<u8>,
    random: Random,
    /// One damage of so many is shown, drawn by chance.
    one_in: u64,
    visit: &'a mut Visit<'a>,
}

impl<'a> Damaged<'a> {
    pub fn new(bytes: Vec<u8>, one_in: u64, seed: u64, visit: &'a mut Visit<'a>) -> Self {
        Self { whole: bytes.clone(), bytes, random: Random::new(seed), one_in, visit }
    }

    /// Shows every kind of damage.
    pub fn all(&mut self) -> Result<(), String> {
        self.show("none", |_, _| {})?;
        self.near()?;
        self.each_byte()?;
        self.each_value()?;
        self.each_field()?;
        self.pairs()?;
        self.records()?;
        self.names()?;
        self.opens()?;
        self.outcomes()
    }

    /// Calls `show` with the numbers below `end`, or with one of so many of them.
    fn each(
        &mut self,
        end: usize,
        mut show: impl FnMut(&mut Self, usize) -> Result<(), String>,
    ) -> Result<(), String> {
        let mut number = self.skipped();
        while number < end {
            show(self, number)?;
            number += 1 + self.skipped();
        }
        Ok(())
    }

    fn skipped(&mut self) -> usize {
        self.random.below(self.one_in.max(1) * 2 - 1) as usize
    }

    fn book(&self) -> Book {
        Book::read(&self.whole)
    }

    /// Shows the damage that `change` does, and undoes it.
    fn show(&mut self, what: &str, change: impl FnOnce(&mut [u8], &mut Random)) -> Result<(), String> {
        change(&mut self.bytes, &mut self.random);
        (self.visit)(what, &self.bytes)?;
        self.bytes.copy_from_slice(&self.whole);
        Ok(())
    }

    fn show_byte(&mut self, at: usize, value: u8) -> Result<(), String> {
        let was = self.bytes[at];
        self.bytes[at] = value;
        let seen =
            (self.visit)("one byte", &self.bytes).map_err(|what| format!("byte {at} made {value}: {what}"));
        self.bytes[at] = was;
        seen
    }

    /// Each byte of the book one up, one down, 0, 255, and with each bit changed.
    fn each_byte(&mut self) -> Result<(), String> {
        self.each(BOOK_BYTES * 12, |damaged, number| {
            let (at, way) = (number / 12, number % 12);
            let byte = damaged.whole[at];
            let value = match way {
                0 => byte.wrapping_add(1),
                1 => byte.wrapping_sub(1),
                2 => 0,
                3 => 255,
                way => byte ^ (1 << (way - 4)),
            };
            if value == byte { Ok(()) } else { damaged.show_byte(at, value) }
        })
    }

    /// The records in use: their fields, and where they start.
    fn in_use(&self) -> Vec<(&'static [Field], usize)> {
        let book = self.book();
        let orders = (0..book.orders.len()).map(|index| (Order::FIELDS, layout::order_at(index).start));
        let requests =
            (0..book.requests.len()).map(|index| (Request::FIELDS, layout::request_at(index).start));
        orders.chain(requests).collect()
    }

    /// The bytes that decide most, at every value: the header, codes, stages, kinds, marks, links
    /// and lengths.
    fn each_value(&mut self) -> Result<(), String> {
        let records = self.in_use().into_iter().flat_map(|(fields, start)| places(fields, start));
        let places: Vec<usize> = (0..8).chain(records).collect();
        self.each(places.len() * 256, |damaged, number| {
            let (at, value) = (places[number / 256], (number % 256) as u8);
            if damaged.whole[at] == value { Ok(()) } else { damaged.show_byte(at, value) }
        })
    }

    /// Each field of each record at and past its limits.
    fn each_field(&mut self) -> Result<(), String> {
        let book = self.book();
        let (texts, numbers) = (texts(), numbers(&book));
        let records = self.in_use();
        let fields: Vec<(&Field, usize)> = records
            .iter()
            .flat_map(|(fields, start)| fields.iter().map(move |field| (field, start + field.at)))
            .collect();
        let most = texts.len().max(numbers.len());
        self.each(fields.len() * most, |damaged, number| {
            let (field, at) = fields[number / most];
            let value = match field.bytes {
                33 => texts.get(number % most),
                _ => numbers.get(number % most),
            };
            let Some(value) = value else { return Ok(()) };
            let what = format!("{} at {at} made {:?}", field.name, value.escape_ascii().to_string());
            damaged.show(&what, |bytes, _| bytes[at..at + field.bytes].copy_from_slice(&value[..field.bytes]))
        })
    }

    /// Single fields at other values that could stand there, and what goes with them: nearly every
    /// one of these decides a rule, and so more of them are shown than of the others.
    fn near(&mut self) -> Result<(), String> {
        let book = self.book();
        let one_in = self.one_in.div_ceil(MORE_NEAR);
        for index in 0..book.orders.len() {
            for order in near_orders(&book, index) {
                if self.random.below(one_in) == 0 {
                    self.rewrite("an order nearly the same", |book| book.orders[index] = order)?;
                }
            }
        }
        for index in 0..book.requests.len() {
            for request in near_requests(&book, index) {
                if self.random.below(one_in) == 0 {
                    self.rewrite("a request nearly the same", |book| book.requests[index] = request)?;
                }
            }
        }
        Ok(())
    }

    /// Two bytes of records in use, mostly of one record.
    fn pairs(&mut self) -> Result<(), String> {
        let book = self.book();
        let (orders, requests) = (book.orders.len() as u64, book.requests.len() as u64);
        if orders == 0 {
            return Ok(());
        }
        for _ in 0..200_000 / self.one_in {
            self.show("two bytes", |bytes, random| {
                let index = random.below(orders) as usize;
                for _ in 0..2 {
                    let record = match random.below(10) {
                        0 => 0..8,
                        1..6 => layout::order_at(index),
                        _ => layout::request_at(random.below(requests) as usize),
                    };
                    let at = random.range(record.start as u64, record.end as u64 - 1) as usize;
                    bytes[at] = match random.below(4) {
                        0 => random.below(4) as u8,
                        1 => bytes[at] ^ (1 << random.below(8)),
                        2 => *random.pick(b"0123456789AECFI"),
                        _ => random.next() as u8,
                    };
                }
            })?;
        }
        Ok(())
    }

    /// Calls `show` with two different numbers below `end`, and a way below `ways`.
    fn each_two(
        &mut self,
        end: usize,
        ways: usize,
        mut show: impl FnMut(&mut Self, usize, usize, usize) -> Result<(), String>,
    ) -> Result<(), String> {
        self.each(end * end * ways, |damaged, number| {
            let (two, way) = (number / ways, number % ways);
            let (one, other) = (two / end, two % end);
            if one == other { Ok(()) } else { show(damaged, one, other, way) }
        })
    }

    /// Records swapped, copied and moved; if the links are put right, the book keeps its rules.
    fn records(&mut self) -> Result<(), String> {
        let book = self.book();
        let (orders, requests) = (book.orders.len(), book.requests.len());
        self.each_two(orders, 3, |damaged, one, other, way| match way {
            0 => damaged.rewrite("orders swapped", |book| book.orders.swap(one, other)),
            1 => damaged.rewrite("orders swapped, links put right", |book| swap_orders(book, one, other)),
            _ => damaged.rewrite("an order twice", |book| book.orders[one] = book.orders[other].clone()),
        })?;
        self.each_two(requests, 4, |damaged, one, other, way| match way {
            0 => damaged.rewrite("requests swapped", |book| book.requests.swap(one, other)),
            1 => damaged.rewrite("requests swapped, links put right", |book| swap_requests(book, one, other)),
            2 => damaged.rewrite("a request twice", |book| book.requests[one] = book.requests[other].clone()),
            _ => damaged.rewrite("a request given away", |book| {
                book.requests[one].order = book.requests[other].order;
            }),
        })?;
        self.rewrite("the last order gone", |book| book.orders.truncate(orders.saturating_sub(1)))?;
        self.rewrite("the last request gone", |book| book.requests.truncate(requests.saturating_sub(1)))?;
        self.rewrite("the last request gone, counted", |book| {
            if let Some(request) = book.requests.pop() {
                let order = &mut book.orders[request.order as usize];
                order.amendments = order.amendments.wrapping_sub(1);
            }
        })
    }

    /// Names, ClOrdIDs and downstream ClOrdIDs that another record has.
    fn names(&mut self) -> Result<(), String> {
        let book = self.book();
        self.each_two(book.orders.len(), 3, |damaged, one, other, way| match way {
            0 => damaged.rewrite("a name twice", |book| book.orders[one].name = book.orders[other].name),
            1 => damaged.rewrite("a name twice, requests named after it", |book| {
                let name = book.orders[other].name;
                rename(book, one, name.text());
            }),
            _ => damaged
                .rewrite("another's client", |book| book.orders[one].client = book.orders[other].client),
        })?;
        self.each(book.orders.len() * NAMES.len(), |damaged, number| {
            let (one, name) = (number / NAMES.len(), NAMES[number % NAMES.len()]);
            damaged.rewrite("a name, requests named after it", |book| rename(book, one, name))
        })?;
        self.each_two(book.requests.len(), 2, |damaged, one, other, way| match way {
            0 => damaged.rewrite("a ClOrdID twice", |book| {
                book.requests[one].cl_ord_id = book.requests[other].cl_ord_id;
            }),
            _ => damaged.rewrite("a downstream ClOrdID twice", |book| {
                book.requests[one].downstream = book.requests[other].downstream;
            }),
        })
    }

    /// Every open quantity with each of its bytes changed; every one as another sum that it might be
    /// taken for, or another client's; some of the words that are not in use, changed.
    fn opens(&mut self) -> Result<(), String> {
        let book = self.book();
        for index in 0..MOST_ORDERS {
            let in_use = book.opens.get(index).is_some_and(Option::is_some);
            for at in layout::open_at(index) {
                if in_use || self.random.chance(2) {
                    let value = self.whole[at] ^ self.random.range(1, 255) as u8;
                    self.show_byte(at, value)?;
                }
            }
        }
        let firsts: Vec<(usize, u64)> =
            book.opens.iter().enumerate().filter_map(|(index, open)| Some((index, (*open)?))).collect();
        for &(index, open) in &firsts {
            let client = book.orders[index].client;
            for (what, sum) in near_sums(&book, client, open) {
                let what = format!("open quantity {index} as {what}");
                self.show(&what, |bytes, _| {
                    bytes[layout::open_at(index)].copy_from_slice(&sum.to_le_bytes());
                })?;
            }
        }
        self.each_two(firsts.len(), 1, |damaged, one, other, _| {
            let (index, open) = (firsts[one].0, firsts[other].1);
            damaged.show("another's open quantity", |bytes, _| {
                bytes[layout::open_at(index)].copy_from_slice(&open.to_le_bytes());
            })
        })
    }

    /// Every outcome byte at other values, every origin as each link near it, the order's own ones and none; every OrigClOrdID
    /// changed in each of its bytes, cut and longer; and a byte of each request's spare ones, changed.
    fn outcomes(&mut self) -> Result<(), String> {
        let book = self.book();
        let one_in = self.one_in.div_ceil(MORE_NEAR);
        for (index, request) in book.requests.iter().enumerate() {
            let start = layout::request_at(index).start;
            for value in [0, 1, 2, 3, 4, 255] {
                if self.random.below(one_in) == 0 && u64::from(value) != request.outcome {
                    self.show_byte(start + 103, value)?;
                }
            }
            let own = book.requests.iter().zip(1_u64..).filter(|(other, _)| other.order == request.order);
            let near = [0, request.origin + 1, request.origin.wrapping_sub(1), index as u64 + 1, 0xFFFF];
            let high = [request.origin ^ 0x0100, request.origin ^ 0x8000];
            for link in own.map(|(_, link)| link).chain(near).chain(high) {
                if self.random.below(one_in) == 0 {
                    let link = (link as u16).to_le_bytes();
                    self.show("another origin", |bytes, _| {
                        bytes[start + 104..start + 106].copy_from_slice(&link)
                    })?;
                }
            }
            for at in start + 37..start + 70 {
                if self.random.below(one_in) == 0 {
                    let value = self.whole[at] ^ self.random.range(1, 255) as u8;
                    self.show_byte(at, value)?;
                }
            }
            if self.random.below(one_in) == 0 {
                let at = start + self.random.range(106, 127) as usize;
                self.show_byte(at, self.whole[at] ^ 1)?;
            }
        }
        Ok(())
    }

    /// Shows the book with its records rewritten, the open quantities and the requests' origins put right; and, if they
    /// differ now, with these as they were.
    fn rewrite(&mut self, what: &str, change: impl FnOnce(&mut Book)) -> Result<(), String> {
        let mut book = self.book();
        change(&mut book);
        book.header.orders = book.orders.len() as u64;
        book.header.requests = book.requests.len() as u64;
        let was = std::mem::take(&mut book.opens);
        let right = opens(&book);
        if was != right {
            self.show(&format!("{what}, open quantities as they were"), |bytes, _| book.write(bytes))?;
        }
        book.opens = right;
        let origins = origins(&book);
        if origins.iter().zip(&book.requests).any(|(origin, request)| *origin != request.origin) {
            self.show(&format!("{what}, origins as they were"), |bytes, _| book.write(bytes))?;
        }
        book.requests.iter_mut().zip(origins).for_each(|(request, origin)| request.origin = origin);
        self.show(what, |bytes, _| book.write(bytes))
    }
}

/// Sums that a client's open quantity might be taken for.
fn near_sums(book: &Book, client: u64, open: u64) -> Vec<(&'static str, u64)> {
    let sum = |part: &dyn Fn(&Order) -> u64| {
        let own = book.orders.iter().filter(|order| order.client == client);
        own.fold(0, |sum: u64, order| sum.wrapping_add(part(order)))
    };
    let rest = |order: &Order| order.qty.wrapping_sub(order.cum_qty);
    let others = book.orders.iter().filter(|order| order.client != client);
    vec![
        ("none", 0),
        ("that of cumulative", sum(&|order| order.cum_qty)),
        ("that of ordered", sum(&|order| order.qty)),
        ("with done orders", sum(&rest)),
        ("by pending terms", sum(&|order| if order.pending == 0 { rest(order) } else { order.pending_qty })),
        ("with all clients' orders", others.fold(open, |sum, order| sum.wrapping_add(rest(order)))),
        ("in 32 bits", u64::from(open as u32)),
        ("in 32 bits more", open | 1 << 63),
    ]
}

/// The order at an index with one thing about it changed: status, type, cumulative quantity, a link,
/// or its gateway cancel.
fn near_orders(book: &Book, index: usize) -> Vec<Order> {
    let order = &book.orders[index];
    let own = |(request, link): (&Request, u64)| (request.order == index as u64).then_some(link);
    let links: Vec<u64> = book.requests.iter().zip(1..).filter_map(own).chain([0]).collect();
    let mut near = Vec::new();
    let mut put = |change: &dyn Fn(&mut Order)| {
        let mut other = order.clone();
        change(&mut other);
        near.push(other);
    };
    STATUSES.iter().for_each(|&code| put(&|order| order.status = code.into()));
    ORD_TYPES.iter().for_each(|&code| put(&|order| order.ord_type = code.into()));
    [order.qty, order.qty + 1, 0, 1].iter().for_each(|&qty| put(&|order| order.cum_qty = qty));
    for link in links {
        put(&|order| order.current = link);
        put(&|order| order.cancel = link);
        put(&|order| order.pending = link);
        put(&|order| (order.pending, order.pending_ord_type) = (link, b'1'.into()));
    }
    for number in 0..=4 {
        put(&|order| order.tries = number);
        put(&|order| order.stage = number);
        put(&|order| (order.stage, order.tries, order.orig_downstream) = (number, 1, 1));
        put(&|order| (order.stage, order.tries, order.orig_downstream) = (layout::UNSENT, number, 1));
    }
    put(&|order| (order.stage, order.tries, order.orig_downstream, order.refused_sends) = (0, 0, 0, 0));
    near
}

/// The origin of each request, if its OrigClOrdID names one before it; else the one that it has.
fn origins(book: &Book) -> Vec<u64> {
    let requests = book.requests.iter().enumerate();
    requests.map(|(index, request)| origin(book, index).unwrap_or(request.origin)).collect()
}

/// The request with another mark or outcome, or of another kind with and without what goes with it; and, if it has an
/// OrigClOrdID, with another that is a request's of its order or, now and then, any request's.
fn near_requests(book: &Book, index: usize) -> Vec<Request> {
    let request = &book.requests[index];
    let settled = (0..=4).flat_map(|outcome| (0..=1).map(move |answered| (outcome, answered)));
    let settled = settled.map(|(outcome, answered)| Request { outcome, answered, ..request.clone() });
    let amends = request.orig_cl_ord_id.length > 0;
    let others = book.requests.iter().enumerate().filter(|(at, other)| {
        amends
            && other.cl_ord_id.length > 0
            && (other.order == request.order || (at + index).is_multiple_of(29))
    });
    let others = others.map(|(_, other)| Request { orig_cl_ord_id: other.cl_ord_id, ..request.clone() });
    near_kinds(request).into_iter().chain(settled).chain(others).collect()
}

fn near_kinds(request: &Request) -> Vec<Request> {
    let none = Text::new(b"");
    let first = Request { kind: layout::FIRST, orig_cl_ord_id: none, ..request.clone() };
    let gateway = Request { kind: layout::GATEWAY_CANCEL, cl_ord_id: none, ..first.clone() };
    let answered = Request { answered: 1 - request.answered, ..request.clone() };
    let kinds = (0..=4).map(|kind| Request { kind, ..request.clone() });
    [first, gateway, answered].into_iter().chain(kinds).collect()
}

/// The bytes of a record's codes, marks, links, counts and lengths.
fn places(fields: &'static [Field], start: usize) -> impl Iterator<Item = usize> {
    fields.iter().flat_map(move |field| match field.bytes {
        33 => start + field.at + 32..start + field.at + 33,
        1 | 2 => start + field.at..start + field.at + field.bytes,
        _ => 0..0,
    })
}

/// Names that an order may not have, and some that it may.
const NAMES: [&[u8]; 7] =
    [b"NONE", b"NONEx", b"a-1", b"a b", b"\xc4", b"aaaaaaaaaaaaaaaaaaaa", b"aaaaaaaaaaaaaaaaaaaaa"];

/// Texts at and past the limits that docs/SCOPE.md, Records, names for any text.
fn texts() -> Vec<Vec<u8>> {
    let mut texts: Vec<Vec<u8>> =
        [0, 1, 15, 16, 17, 19, 20, 21, 31, 32].map(|length| text(&vec![b'q'; length])).into();
    let odd: [&[u8]; 11] = [b"NONE", b"none", b"\x00", b"\xff", b"a-1", b"/", b":", b"@", b"[", b"`", b"{"];
    texts.extend(odd.map(text));
    // A length past the text, and a byte behind it.
    let (mut long, mut tail) = (text(b"q"), text(b"q"));
    long[32] = 33;
    tail[31] = 1;
    texts.extend([long, tail]);
    texts
}

/// Numbers at and past the limits of any field, in eight bytes.
fn numbers(book: &Book) -> Vec<Vec<u8>> {
    let (orders, requests) = (book.orders.len() as u64, book.requests.len() as u64);
    let mut numbers = vec![0, 1, 2, 3, 4, orders, orders + 1, requests, requests + 1, u64::MAX];
    for most in [MAX_QTY, MAX_PRICE, u64::from(u32::MAX), 1 << 32] {
        numbers.extend([most - 1, most, most + 1]);
    }
    numbers.sort_unstable();
    numbers.dedup();
    numbers.iter().map(|number| number.to_le_bytes().to_vec()).collect()
}

fn text(text: &[u8]) -> Vec<u8> {
    let Text { bytes, length } = Text::new(text);
    [&bytes[..], &[length]].concat()
}

fn swap_orders(book: &mut Book, one: usize, other: usize) {
    book.orders.swap(one, other);
    for request in &mut book.requests {
        request.order = swapped(request.order, one as u64, other as u64);
    }
}

fn swap_requests(book: &mut Book, one: usize, other: usize) {
    book.requests.swap(one, other);
    let (one, other) = (one as u64 + 1, other as u64 + 1);
    for order in &mut book.orders {
        for link in [&mut order.current, &mut order.cancel, &mut order.pending, &mut order.orig_downstream] {
            *link = swapped(*link, one, other);
        }
    }
    for request in &mut book.requests {
        request.origin = swapped(request.origin, one, other);
    }
}

fn swapped(number: u64, one: u64, other: u64) -> u64 {
    match number {
        number if number == one => other,
        number if number == other => one,
        number => number,
    }
}

/// Gives an order another name, and its requests theirs.
fn rename(book: &mut Book, index: usize, name: &[u8]) {
    let own = book.requests.iter_mut().filter(|request| request.order == index as u64);
    for (number, request) in own.enumerate() {
        let suffix = if number == 0 { String::new() } else { format!("-{number}") };
        request.downstream = Text::new(&[name, suffix.as_bytes()].concat());
    }
    let order = &mut book.orders[index];
    order.name = Text::new(name);
    order.downstream = book.requests[order.current as usize - 1].downstream;
}
