//! A small day: an order is booked, acknowledged, filled, replaced and cancelled, a bad request is refused, and each time what
//! goes out and what the client has open is printed; at the end its net position. `cargo run --example day`

use jubafiye::{
    Amend, Answer, Book, Booking, Error, Event, ExecType, OrdStatus, OrdType, Price, Qty, Replace, Side,
    VenueReport,
};

const CLIENT: u16 = 7;
const VENUE: u16 = 3;
const SYMBOL: &[u8] = b"WHEATH27";

fn booking() -> Event<'static> {
    Event::Book(Booking {
        client: CLIENT,
        venue: VENUE,
        name: b"G1",
        cl_ord_id: b"C1",
        symbol: SYMBOL,
        side: Side::Buy,
        ord_type: OrdType::Limit,
        qty: Qty::units(100),
        price: Some(Price::units(10)),
        time_in_force: None,
    })
}

/// What the venue reports under a downstream ClOrdID, all fills at 10.
fn report(downstream: &'static str, said: (ExecType, OrdStatus), cum: u64, last: u64) -> Event<'static> {
    let price = |qty: u64| if qty == 0 { Price::default() } else { Price::units(10) };
    Event::VenueReport(VenueReport {
        venue: VENUE,
        downstream: downstream.as_bytes(),
        exec_type: said.0,
        status: Some(said.1),
        last_qty: Qty::units(last),
        last_px: price(last),
        cum_qty: Qty::units(cum),
        avg_px: price(cum),
        venue_order_id: Some(b"V-1"),
        reason: None,
        text: None,
    })
}

fn amend(cl_ord_id: &'static [u8], orig_cl_ord_id: &'static [u8]) -> Amend<'static> {
    Amend { client: CLIENT, cl_ord_id, orig_cl_ord_id, symbol: SYMBOL, side: Side::Buy, redelivered: false }
}

fn replace(cl_ord_id: &'static [u8], qty: u64) -> Event<'static> {
    Event::Replace(Replace {
        amend: amend(cl_ord_id, b"C1"),
        qty: Qty::units(qty),
        verdict: Ok(()),
        ord_type: None,
        price: Some(Price::units(10)),
        time_in_force: None,
        blocked: false,
    })
}

fn day() -> Vec<(&'static str, Event<'static>)> {
    vec![
        ("the client's order is booked; the gateway sends it as G1", booking()),
        ("the venue has it", report("G1", (ExecType::New, OrdStatus::New), 0, 0)),
        ("a fill of 40", report("G1", (ExecType::Trade, OrdStatus::PartiallyFilled), 40, 40)),
        (
            "a fill of 10, and one of 20 that was missed",
            report("G1", (ExecType::Trade, OrdStatus::PartiallyFilled), 70, 10),
        ),
        ("the client asks for 60", replace(b"C2", 60)),
        ("the client asks for 80", replace(b"C3", 80)),
        ("the venue accepts it", report("G1-1", (ExecType::Replaced, OrdStatus::PartiallyFilled), 70, 0)),
        ("the client cancels", Event::Cancel(amend(b"C4", b"C3"))),
        ("the venue cancels", report("G1-2", (ExecType::Canceled, OrdStatus::Canceled), 70, 0)),
        ("a late fill", report("G1", (ExecType::Trade, OrdStatus::PartiallyFilled), 80, 10)),
        ("the same order again", booking()),
    ]
}

fn show(outcome: &Result<Answer, Error>) {
    match outcome {
        Ok(answer) => {
            answer.messages.iter().for_each(|message| println!("  {message}"));
            answer.alarms.iter().for_each(|alarm| println!("  alarm {}: {alarm}", alarm.number()));
        }
        // The book has changed: what it put out must not be lost.
        Err(Error::Unreadable(bad)) => println!("  taken, but {bad}: {:02x?}", bad.bytes()),
        Err(error) => println!("  {error}"),
    }
}

fn main() {
    let mut book = Book::new(10_000);
    for (what, event) in day() {
        println!("{what}");
        show(&book.take(&event));
        println!("  open {}", book.open_quantity(CLIENT));
    }
    for line in book.net_position() {
        println!("client {} is at {:+} in {}", line.client, line.net, line.symbol.escape_ascii());
    }
}
