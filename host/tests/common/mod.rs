//! Days of events drawn by chance, the same each time: what the tests of this crate and of `desk` run on.
#![allow(dead_code)]

use jubafiye::{
    Amend, Book, Booking, Event, ExecType, OrdStatus, Price, Qty, RejectedRequest, Replace, RiskReject, Side,
    TimeInForce, VenueReport,
};

/// Numbers that are the same each time (splitmix64).
pub struct Numbers(pub u64);

impl Numbers {
    pub fn next(&mut self) -> u64 {
        self.0 = self.0.wrapping_add(0x9E37_79B9_7F4A_7C15);
        let a = (self.0 ^ self.0 >> 30).wrapping_mul(0xBF58_476D_1CE4_E5B9);
        let b = (a ^ a >> 27).wrapping_mul(0x94D0_49BB_1331_11EB);
        b ^ b >> 31
    }

    pub fn below(&mut self, bound: usize) -> usize {
        (self.next() % bound as u64) as usize
    }

    pub fn one_in(&mut self, bound: usize) -> bool {
        self.below(bound) == 0
    }

    pub fn pick<T: Copy>(&mut self, items: &[T]) -> T {
        items[self.below(items.len())]
    }
}

const STATUSES: [OrdStatus; 10] = [
    OrdStatus::New,
    OrdStatus::PartiallyFilled,
    OrdStatus::PartiallyFilled,
    OrdStatus::PendingCancel,
    OrdStatus::PendingReplace,
    OrdStatus::Canceled,
    OrdStatus::Filled,
    OrdStatus::Expired,
    OrdStatus::Rejected,
    OrdStatus::DoneForDay,
];

const SYMBOLS: [&[u8]; 3] = [b"WHEATH27", b"OATS", b"SOY BEAN"];

/// What is known of a request: its order's venue, side, symbol, client, its ClOrdID, its downstream, what was ordered and filled.
struct Known {
    name: Vec<u8>,
    downstream: Vec<u8>,
    cl_ord_id: Vec<u8>,
    symbol: Vec<u8>,
    client: u16,
    venue: u16,
    side: Side,
    qty: u64,
    cum: u64,
}

fn known(numbers: &mut Numbers, book: &Book) -> Option<Known> {
    let count = book.requests().count();
    let index = if count == 0 { return None } else { numbers.below(count) };
    // The later half more often: what is still open.
    let index = if numbers.one_in(2) { count - 1 - index / 2 } else { index };
    let request = book.requests().nth(index)?;
    let order = book.orders().nth(request.order)?;
    Some(Known {
        name: order.name.to_vec(),
        downstream: request.downstream.to_vec(),
        cl_ord_id: request.cl_ord_id.unwrap_or(order.cl_ord_id).to_vec(),
        symbol: order.symbol.to_vec(),
        client: order.client,
        venue: order.venue,
        side: order.side,
        qty: order.qty.0,
        cum: order.cum_qty.0,
    })
}

fn booking(numbers: &mut Numbers, number: usize) -> Vec<u8> {
    let (name, id) = (format!("G{number}"), format!("c{number}"));
    let (client, venue) = (numbers.below(3) as u16, 3 + numbers.below(2) as u16);
    let side = numbers.pick(&[Side::Buy, Side::Sell, Side::SellShort]);
    let qty = Qty::units(1 + numbers.below(100) as u64);
    let symbol = numbers.pick(&SYMBOLS);
    let mut booking = Booking::new(client, venue, side, qty, symbol).named(name.as_bytes(), id.as_bytes());
    if !numbers.one_in(4) {
        booking = booking.limit(Price::units(10 + numbers.below(5) as u64));
    }
    if numbers.one_in(3) {
        booking = booking.time_in_force(TimeInForce::Gtc);
    }
    Event::Book(booking).record()
}

fn amend(numbers: &mut Numbers, known: &Known, number: usize) -> Vec<u8> {
    let id = if numbers.one_in(8) { known.cl_ord_id.clone() } else { format!("a{number}").into_bytes() };
    let mut amend = Amend::new(known.client, &id, &known.cl_ord_id, &known.symbol, known.side);
    amend.redelivered = numbers.one_in(8);
    if numbers.one_in(2) {
        return Event::Cancel(amend).record();
    }
    let qty = Qty(known.qty + 10_000 * numbers.below(5) as u64 - 10_000 * u64::from(numbers.one_in(3)));
    let verdict = if numbers.one_in(5) { Err(RiskReject::Credit) } else { Ok(()) };
    let mut replace = Replace::new(amend, qty, verdict).limit(Price::units(10 + numbers.below(5) as u64));
    replace.blocked = numbers.one_in(8);
    Event::Replace(replace).record()
}

fn report(numbers: &mut Numbers, known: &Known) -> Vec<u8> {
    let left = known.qty.saturating_sub(known.cum);
    let rise = match numbers.below(4) {
        0 => 0,
        1 => left,
        2 => left + 10_000 * u64::from(numbers.one_in(4)),
        _ => numbers.below(left as usize + 1) as u64,
    };
    let cum = known.cum + rise;
    let exec = if rise > 0 { ExecType::Trade } else { ExecType::New };
    let price = Price(1_000_000_000 + numbers.below(500_000_000) as u128);
    let mut report = VenueReport::new(known.venue, &known.downstream, exec, Qty(cum), price);
    if !numbers.one_in(8) {
        let status = numbers.pick(&STATUSES);
        report = report.status(if rise > 0 && cum == known.qty { OrdStatus::Filled } else { status });
    }
    if rise > 0 {
        report = report.last(Qty(rise), price);
    }
    if numbers.one_in(2) {
        report = report.venue_order_id(b"V-1");
    }
    if numbers.one_in(8) {
        report = report.reason(5).text(b"said \"no\" by the venue");
    }
    Event::VenueReport(report).record()
}

fn rejected(numbers: &mut Numbers, known: &Known) -> Vec<u8> {
    let mut reject = RejectedRequest::new(known.venue, &known.downstream);
    if numbers.one_in(2) {
        reject = reject.reason(numbers.pick(&[0, 1, 99])).text(b"too late");
    }
    if numbers.one_in(4) {
        reject = reject.status(numbers.pick(&STATUSES));
    }
    Event::CancelReject(reject).record()
}

/// The record of an event that fits the book more or less; `number` makes its names new.
pub fn event(numbers: &mut Numbers, book: &Book, number: usize) -> Vec<u8> {
    let known = known(numbers, book);
    let Some(known) = known.filter(|_| !numbers.one_in(6)) else { return booking(numbers, number) };
    let (venue, downstream) = (known.venue, &known.downstream[..]);
    match numbers.below(16) {
        0..=3 => amend(numbers, &known, number),
        4..=9 => report(numbers, &known),
        10 | 11 => rejected(numbers, &known),
        12 => Event::UnknownAtVenue { venue, downstream }.record(),
        13 => Event::SendFailed { venue, downstream, text: b"session down" }.record(),
        14 => Event::SendAgain { venue, downstream }.record(),
        _ => Event::GatewayCancel { name: &known.name }.record(),
    }
}

/// A book after so many events that were drawn, and their records.
pub fn day(seed: u64, events: usize) -> (Book, Vec<Vec<u8>>) {
    let (mut numbers, mut book, mut records) = (Numbers(seed), Book::new(10_000), Vec::new());
    for number in 0..events {
        let record = event(&mut numbers, &book, number);
        drop(book.take_record(&record));
        records.push(record);
    }
    (book, records)
}
