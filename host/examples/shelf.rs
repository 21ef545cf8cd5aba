//! A day of 50,000 orders of 64 clients through a shelf, on one thread and on as many as there are cores: events a second, and what is
//! left. `cargo run --release --example shelf`.

use std::thread;
use std::time::Instant;

use jubafiye::{Booking, Event, ExecType, OrdStatus, Price, Qty, Shelf, Side, VenueReport};

const ORDERS: usize = 50_000;
const CLIENTS: usize = 64;

/// The records of the day: each order is booked, acknowledged, and filled 640 orders later.
fn day() -> Vec<u8> {
    let mut records = Vec::new();
    for number in 0..ORDERS + 640 {
        if number < ORDERS {
            let (name, client) = (format!("G{number}"), (number % CLIENTS) as u16);
            let booking = Booking::new(client, 3, Side::Buy, Qty::units(1), b"WHEATH27");
            Event::Book(booking.named(name.as_bytes(), name.as_bytes())).append(&mut records);
            let report = VenueReport::new(3, name.as_bytes(), ExecType::New, Qty(0), Price(0));
            Event::VenueReport(report.status(OrdStatus::New)).append(&mut records);
        }
        if let Some(old) = number.checked_sub(640) {
            let name = format!("G{old}");
            let fill = VenueReport::new(3, name.as_bytes(), ExecType::Trade, Qty::units(1), Price::units(10));
            let fill = fill.status(OrdStatus::Filled).last(Qty::units(1), Price::units(10));
            Event::VenueReport(fill).append(&mut records);
        }
    }
    records
}

fn main() {
    let (records, cores) = (day(), thread::available_parallelism().map_or(1, usize::from));
    for threads in [1, cores] {
        let (mut shelf, mut rest, mut events, begun) =
            (Shelf::new(100).threads(threads), &records[..], 0, Instant::now());
        // As a gateway that drains its queues: some 64 kB at a time.
        while !rest.is_empty() {
            let batch = shelf.take_all(&rest[..rest.len().min(65_536)]);
            assert!(batch.answers.iter().all(Result::is_ok));
            events += batch.answers.len();
            rest = &rest[batch.read..];
        }
        let rate = events as f64 / begun.elapsed().as_secs_f64();
        let archives: usize = shelf.books().map(|(_, _, archives)| archives.len()).sum();
        assert_eq!(shelf.orders().count(), ORDERS);
        println!(
            "{threads} threads: {events} events, {rate:.0} a second, {archives} archives of {CLIENTS} books"
        );
    }
}
