//! A day as FIX: what goes out is printed as the FIX 4.4 messages that are sent, `|` for byte 1, to a client and to a venue, each
//! under its own session. `cargo run --features fix --example fix`

use std::collections::BTreeMap;
use std::error::Error;

use jubafiye::fix::{self, Extra, Header, Outgoing, Peer};
use jubafiye::{
    Amend, Book, Booking, Event, ExecType, OrdStatus, OrdType, Price, Qty, Refusal, Replace, Side,
    VenueReport, ANSWER_BYTES,
};

const SYMBOL: &[u8] = b"WHEATH27";

fn report(said: (ExecType, OrdStatus), cum: u64, last: u64, text: Option<&'static [u8]>) -> Event<'static> {
    Event::VenueReport(VenueReport {
        venue: 3,
        downstream: b"G1",
        exec_type: said.0,
        status: Some(said.1),
        last_qty: Qty::units(last),
        last_px: if last == 0 { Price::default() } else { Price(1_025_000_000) },
        cum_qty: Qty::units(cum),
        avg_px: if cum == 0 { Price::default() } else { Price(1_025_000_000) },
        venue_order_id: Some(b"V-1"),
        reason: None,
        text,
    })
}

fn amend(cl_ord_id: &'static [u8], orig_cl_ord_id: &'static [u8]) -> Amend<'static> {
    Amend { client: 7, cl_ord_id, orig_cl_ord_id, symbol: SYMBOL, side: Side::Buy, redelivered: false }
}

fn day() -> Vec<(&'static str, Event<'static>)> {
    let booking = Event::Book(Booking {
        client: 7,
        venue: 3,
        name: b"G1",
        cl_ord_id: b"C1",
        symbol: SYMBOL,
        side: Side::Buy,
        ord_type: OrdType::Limit,
        qty: Qty::units(100),
        price: Some(Price(1_025_000_000)),
        time_in_force: None,
    });
    let replace = Event::Replace(Replace {
        amend: amend(b"C2", b"C1"),
        qty: Qty::units(80),
        verdict: Ok(()),
        ord_type: None,
        price: Some(Price::units(10)),
        time_in_force: None,
        blocked: false,
    });
    vec![
        ("an order is booked, which puts nothing out", booking),
        ("after a restart it may not have been sent", Event::SendAgain { venue: 3, downstream: b"G1" }),
        ("the venue has it", report((ExecType::New, OrdStatus::New), 0, 0, None)),
        (
            "a fill of 40, with a line feed in the venue's text",
            report((ExecType::Trade, OrdStatus::PartiallyFilled), 40, 40, Some(b"filled\nby hand")),
        ),
        (
            "the venue restates the order, which is no trade",
            report((ExecType::Restated, OrdStatus::PartiallyFilled), 40, 0, None),
        ),
        ("the client asks for 80 at 10", replace),
        ("the client cancels", Event::Cancel(amend(b"C3", b"C1"))),
        ("the client cancels an order that is not known", Event::Cancel(amend(b"C4", b"C9"))),
    ]
}

/// A FIX session of the gateway with a client or a venue.
struct Session {
    target: &'static [u8],
    /// The number of the message that was sent last.
    sequence: u64,
}

/// The message as it goes out under the session of its peer; `again`: the venue may have it from before a restart.
fn message(session: &mut Session, outgoing: &Outgoing<'_>, again: bool) -> Result<Vec<u8>, Box<dyn Error>> {
    session.sequence = session.sequence.saturating_add(1);
    let (target, sequence) = (session.target, session.sequence);
    let header = Header { sender: b"GATEWAY", target, sequence, time: b"20261116-12:34:56.789" };
    let message = match outgoing.to_vec(&header) {
        // The event is taken, and what it says must be told: without the bytes that FIX does not carry.
        Err(Refusal::Text) => fix::to_vec(&fix::with_clean_text(outgoing.record), &header)?,
        message => message?,
    };
    if !again {
        return Ok(message);
    }
    let poss_resend = Extra { behind: 52, tag: 97, value: b"Y" };
    Ok(fix::with_extras(&message, &[poss_resend])?)
}

fn main() -> Result<(), Box<dyn Error>> {
    let mut book = Book::new(10_000);
    let mut sessions = BTreeMap::from([
        (Peer::Client(7), Session { target: b"DESK", sequence: 0 }),
        (Peer::Venue(3), Session { target: b"VENUE", sequence: 0 }),
    ]);
    for (what, event) in day() {
        println!("{what}");
        let mut buffer = [0; ANSWER_BYTES];
        let answer = book.take_record_into(&event.record(), &mut buffer)?;
        for outgoing in fix::outgoing(answer)? {
            let session = sessions.get_mut(&outgoing.to).ok_or("a peer without a session")?;
            let message = message(session, &outgoing, matches!(event, Event::SendAgain { .. }))?;
            println!("  {}", String::from_utf8_lossy(&message).replace('\x01', "|"));
        }
    }
    Ok(())
}
