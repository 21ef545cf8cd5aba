//! Chains of ClOrdIDs over the linked library: what each request came to, names of every length, lists of every size, the longest
//! chain, and books with another outcome or link.

use jubafiye::{
    Amend, Book, Booking, ChainEntry, Error, Event, ExecType, OrdStatus, OrdType, Outcome, Price, Qty,
    Refusal, RejectedRequest, Replace, Side, VenueReport, CHAIN_BYTES, CHAIN_ENTRY_BYTES,
};

/// Where the requests stand, and in one its outcome and its link (docs/LAYOUT.md).
const REQUESTS_AT: usize = 16_640;
const REQUEST: usize = 128;
const OUTCOME: usize = 103;
const ORIGIN: usize = 104;
const SPARE: usize = 106;

fn booking<'a>(client: u16, name: &'a [u8], cl_ord_id: &'a [u8]) -> Event<'a> {
    Event::Book(Booking {
        client,
        venue: 3,
        name,
        cl_ord_id,
        symbol: b"W",
        side: Side::Buy,
        ord_type: OrdType::Market,
        qty: Qty::units(100),
        price: None,
        time_in_force: None,
    })
}

fn report(downstream: &[u8], exec_type: ExecType, status: OrdStatus) -> Event<'_> {
    Event::VenueReport(VenueReport {
        venue: 3,
        downstream,
        exec_type,
        status: Some(status),
        last_qty: Qty(0),
        last_px: Price(0),
        cum_qty: Qty(0),
        avg_px: Price(0),
        venue_order_id: None,
        reason: None,
        text: None,
    })
}

fn amend<'a>(client: u16, cl_ord_id: &'a [u8], orig_cl_ord_id: &'a [u8]) -> Amend<'a> {
    Amend { client, cl_ord_id, orig_cl_ord_id, symbol: b"W", side: Side::Buy, redelivered: false }
}

fn cancel<'a>(cl_ord_id: &'a [u8], orig_cl_ord_id: &'a [u8]) -> Event<'a> {
    Event::Cancel(amend(7, cl_ord_id, orig_cl_ord_id))
}

fn replace<'a>(cl_ord_id: &'a [u8], orig_cl_ord_id: &'a [u8]) -> Event<'a> {
    Event::Replace(Replace {
        amend: amend(7, cl_ord_id, orig_cl_ord_id),
        qty: Qty::units(90),
        verdict: Ok(()),
        ord_type: None,
        price: None,
        time_in_force: None,
        blocked: false,
    })
}

fn refused(downstream: &[u8]) -> Event<'_> {
    let (status, venue_order_id, text) = (None, None, None);
    Event::CancelReject(RejectedRequest {
        venue: 3,
        downstream,
        status,
        venue_order_id,
        reason: Some(0),
        text,
    })
}

fn failed(downstream: &[u8]) -> Event<'_> {
    Event::SendFailed { venue: 3, downstream, text: b"down" }
}

fn taken(events: &[Event<'_>]) -> Result<Book, Error> {
    let mut book = Book::new(10_000);
    for event in events {
        drop(book.take(event)?);
    }
    Ok(book)
}

/// C1, the refused cancel C2, the accepted replace C3 of C1, the gateway's cancel, the failed cancel C4 of C3, the cancel C5 of C2
/// that is out; and another client's order.
fn book() -> Result<Book, Error> {
    taken(&[
        booking(7, b"A", b"C1"),
        report(b"A", ExecType::New, OrdStatus::New),
        cancel(b"C2", b"C1"),
        refused(b"A-1"),
        replace(b"C3", b"C1"),
        report(b"A-2", ExecType::Replaced, OrdStatus::New),
        booking(9, b"B", b"C1"),
        Event::GatewayCancel { name: b"A" },
        failed(b"A-3"),
        cancel(b"C4", b"C3"),
        failed(b"A-4"),
        cancel(b"C5", b"C2"),
    ])
}

fn chain(book: &Book, client: u16, name: &[u8]) -> Vec<(Vec<u8>, Outcome)> {
    book.chain(client, name).into_iter().map(|entry| (entry.cl_ord_id, entry.outcome)).collect()
}

fn entries(entries: &[(&str, Outcome)]) -> Vec<(Vec<u8>, Outcome)> {
    entries.iter().map(|(name, outcome)| (name.as_bytes().to_vec(), *outcome)).collect()
}

#[test]
fn each_name_back_to_the_first() -> Result<(), Error> {
    use Outcome::{Accepted, FailedToSend, Open, Refused};
    let book = book()?;
    assert_eq!(chain(&book, 7, b"C1"), entries(&[("C1", Accepted)]));
    assert_eq!(chain(&book, 7, b"C2"), entries(&[("C2", Refused), ("C1", Accepted)]));
    assert_eq!(chain(&book, 7, b"C3"), entries(&[("C3", Accepted), ("C1", Accepted)]));
    let back = [("C4", FailedToSend), ("C3", Accepted), ("C1", Accepted)];
    assert_eq!(chain(&book, 7, b"C4"), entries(&back));
    assert_eq!(chain(&book, 7, b"C5"), entries(&[("C5", Open), ("C2", Refused), ("C1", Accepted)]));
    assert_eq!(chain(&book, 9, b"C1"), entries(&[("C1", Open)]));
    assert_eq!(chain(&Book::new(10_000), 7, b"C1"), []);
    Ok(())
}

#[test]
fn an_outcome_is_set_once() -> Result<(), Error> {
    let events = [
        booking(7, b"A", b"C1"),
        report(b"A", ExecType::New, OrdStatus::New),
        cancel(b"C2", b"C1"),
        refused(b"A-1"),
        report(b"A-1", ExecType::Canceled, OrdStatus::Canceled),
    ];
    let outcome = |events: &[Event<'_>]| Ok::<_, Error>(taken(events)?.chain(7, b"C2")[0].outcome);
    assert_eq!(outcome(&events[..3])?, Outcome::Open);
    assert_eq!(outcome(&events[..4])?, Outcome::Refused);
    assert_eq!(outcome(&events)?, Outcome::Refused);
    let again = Event::SendAgain { venue: 3, downstream: b"A-1" };
    let ended = report(b"A", ExecType::Canceled, OrdStatus::Canceled);
    assert_eq!(outcome(&[events[0], events[1], events[2], ended, again])?, Outcome::Refused);
    Ok(())
}

#[test]
fn a_name_that_was_never_used_has_no_entry_whatever_its_length() -> Result<(), Error> {
    let mut book = book()?;
    let long = [b'q'; 32];
    drop(book.take(&Event::Cancel(Amend { symbol: b"W", ..amend(9, &long, b"C1") }))?);
    assert_eq!(book.chain(9, long).len(), 2);
    let mut names: Vec<Vec<u8>> = [0, 1, 31, 33, 256, 300, 512, 65_536].map(|length| vec![0; length]).into();
    for used in [&b"C5"[..], &long] {
        for more in [1, 30, 31, 254, 255, 256, 65_536] {
            names.extend([0, b'q'].map(|byte| [used, &vec![byte; more]].concat()));
        }
        names.push(used[..used.len() - 1].to_vec());
    }
    for name in names {
        for client in [7, 9, 0x0107, 0] {
            assert_eq!(book.chain_into(client, &name, &mut [])?, b"", "{} bytes", name.len());
        }
    }
    Ok(())
}

#[test]
fn short_lists_stay_and_long_ones_keep_their_end() -> Result<(), Error> {
    let book = book()?;
    let whole = 3 * CHAIN_ENTRY_BYTES;
    for length in [0, 1, 33, 34, 68, whole - 1, whole, whole + 1, CHAIN_BYTES] {
        let mut list = vec![0xA5; length];
        if length < whole {
            assert_eq!(book.chain_into(7, b"C4", &mut list), Err(Refusal::ChainList));
            assert!(list.iter().all(|&byte| byte == 0xA5));
        } else {
            let entries = book.chain_into(7, b"C4", &mut list)?;
            assert_eq!((entries.len(), &entries[..4], entries[33]), (whole, &b"\x02C4\0"[..], 3));
            assert!(list[whole..].iter().all(|&byte| byte == 0xA5));
        }
    }
    Ok(())
}

#[test]
fn the_longest_chain() -> Result<(), Error> {
    let name = |number: usize| format!("C{number}").into_bytes();
    let mut book = taken(&[booking(7, b"A", b"C0"), report(b"A", ExecType::New, OrdStatus::New)])?;
    for number in 1..256 {
        drop(book.take(&cancel(&name(number), &name(number - 1)))?);
        drop(book.take(&refused(format!("A-{number}").as_bytes()))?);
        assert_eq!(book.chain(7, name(number)).len(), number + 1);
    }
    let chain = book.chain(7, name(255));
    let names: Vec<Vec<u8>> = chain.iter().map(|entry| entry.cl_ord_id.clone()).collect();
    assert_eq!(names, (0..256).rev().map(name).collect::<Vec<_>>());
    assert!(chain[..255].iter().all(|entry| entry.outcome == Outcome::Refused));
    let mut list = [0; CHAIN_BYTES];
    assert_eq!(book.chain_into(7, name(255), &mut list[1..]), Err(Refusal::ChainList));
    assert_eq!(book.chain_into(7, name(255), &mut list)?.len(), CHAIN_BYTES);
    Ok(())
}

#[test]
fn a_book_with_another_outcome_or_link_is_refused() -> Result<(), Error> {
    let stored = book()?.into_bytes();
    // The outcomes of A, A-1, A-2, B, A-3, A-4 and A-5; the links of those with an OrigClOrdID.
    let outcomes = [1, 2, 1, 0, 3, 3, 0];
    let links = [0, 1, 1, 0, 0, 3, 2];
    for (index, (right, link)) in outcomes.into_iter().zip(links).enumerate() {
        let at = REQUESTS_AT + index * REQUEST;
        assert_eq!((stored[at + OUTCOME], stored[at + ORIGIN], stored[at + ORIGIN + 1]), (right, link, 0));
        assert!(stored[at + SPARE..at + REQUEST].iter().all(|&byte| byte == 0));
        let taken = |at: usize, value: u8| {
            let mut other = stored.clone();
            other[at] = value;
            Book::from_bytes(&other).is_ok()
        };
        for outcome in 0..=u8::MAX {
            let fits = if right == 0 { outcome == 0 } else { (1..=3).contains(&outcome) };
            assert_eq!(taken(at + OUTCOME, outcome), fits, "request {index}, outcome {outcome}");
            // Without an OrigClOrdID the link may be anything.
            assert_eq!(taken(at + ORIGIN, outcome), link == 0 || outcome == link, "request {index}");
            assert_eq!(taken(at + ORIGIN + 1, outcome), link == 0 || outcome == 0, "request {index}");
        }
    }
    Ok(())
}

#[test]
fn a_book_from_before_keeps_its_open_requests_and_no_others() -> Result<(), Error> {
    // As it was stored before there were outcomes and links.
    let before = |book: &Book| {
        let mut stored = book.as_bytes().to_vec();
        for index in 0..256 {
            let at = REQUESTS_AT + index * REQUEST;
            stored[at + OUTCOME..at + SPARE].fill(0);
        }
        stored
    };
    let open = taken(&[booking(7, b"A", b"C1"), booking(9, b"B", b"C1")])?;
    assert_eq!(Book::from_bytes(&before(&open))?.as_bytes(), open.as_bytes());
    let linked = taken(&[booking(7, b"A", b"C1"), cancel(b"C2", b"C1"), replace(b"C3", b"C2")])?;
    assert!(matches!(Book::from_bytes(&before(&linked)), Err(Refusal::Book)));
    assert_eq!(Book::carry_over(&before(&linked))?.as_bytes(), linked.as_bytes());
    assert!(matches!(Book::carry_over(&before(&book()?)), Err(Refusal::Book)));
    Ok(())
}

#[test]
fn bytes_that_are_no_entry_do_not_read() {
    let mut entry = [0; CHAIN_ENTRY_BYTES];
    entry[..33].copy_from_slice(b"\x20ABCDEFGHIJKLMNOPQRSTUVWXYZ012345");
    let read = ChainEntry::read(&entry).map(|entry| (entry.cl_ord_id, entry.outcome));
    assert_eq!(read, Some((b"ABCDEFGHIJKLMNOPQRSTUVWXYZ012345".to_vec(), Outcome::Open)));
    for end in 0..entry.len() {
        assert_eq!(ChainEntry::read(&entry[..end]), None);
    }
    for length in 33..=u8::MAX {
        let mut entry = entry;
        entry[0] = length;
        assert_eq!(ChainEntry::read(&entry), None);
    }
    for outcome in 4..=u8::MAX {
        let mut entry = entry;
        entry[33] = outcome;
        assert_eq!(ChainEntry::read(&entry), None);
    }
}
