//! A shelf over the linked library: books that do not fill, events that find their book or archive, and batches on threads that give
//! what the same events give one by one.

mod common;

use std::sync::Arc;

use common::{day, Numbers};
use jubafiye::text::{from_text, to_text};
use jubafiye::{
    Alarm, Amend, Answer, Book, Booking, Error, Event, ExecType, Message, Net, OrdStatus, Price, Qty,
    Refusal, Replace, Shelf, Side, TimeInForce, VenueReport,
};

fn booking(client: u16, name: &str, cl_ord_id: &str) -> Vec<u8> {
    let booking = Booking::new(client, 3, Side::Buy, Qty::units(100), b"WHEATH27");
    Event::Book(booking.named(name.as_bytes(), cl_ord_id.as_bytes())).record()
}

fn fill(downstream: &str) -> Vec<u8> {
    let report =
        VenueReport::new(3, downstream.as_bytes(), ExecType::Trade, Qty::units(100), Price::units(10));
    Event::VenueReport(report.status(OrdStatus::Filled).last(Qty::units(100), Price::units(10))).record()
}

fn cancel(client: u16, cl_ord_id: &str, orig: &str) -> Vec<u8> {
    let amend = Amend::new(client, cl_ord_id.as_bytes(), orig.as_bytes(), b"WHEATH27", Side::Buy);
    Event::Cancel(amend).record()
}

/// Records one after the other, each after its length.
fn joined(records: &[Vec<u8>]) -> Vec<u8> {
    let with_length = |record: &Vec<u8>| [&(record.len() as u16).to_le_bytes(), &record[..]].concat();
    records.iter().flat_map(with_length).collect()
}

/// All bytes of a shelf: each key's archives and book.
fn bytes(shelf: &Shelf) -> Vec<Vec<u8>> {
    shelf
        .books()
        .flat_map(|(_, book, archives)| {
            archives.iter().map(|archive| &**archive).chain([book]).map(|book| book.as_bytes().to_vec())
        })
        .collect()
}

#[test]
fn seventy_orders_all_filled() -> Result<(), Error> {
    let mut shelf = Shelf::new(100);
    for number in 0..70 {
        let name = format!("G{number}");
        drop(shelf.take_record(&booking(7, &name, &name))?);
        assert_eq!(shelf.take_record(&fill(&name))?.messages.len(), 1);
    }
    assert_eq!((shelf.archives(&7).len(), shelf.archives(&7)[0].orders().count()), (1, 64));
    let page = shelf.page();
    let lines: Vec<_> =
        page.lines().map(|line| String::from_utf8_lossy(&line[..20]).trim().to_owned()).collect();
    assert_eq!(lines, (0..70).map(|number| format!("G{number}")).collect::<Vec<_>>());
    let net = shelf.net_position();
    assert_eq!((net.len(), net[0].client, net[0].net), (1, 7, Net(70_000_000)));
    assert_eq!(shelf.open_quantity(7), Qty(0));
    assert_eq!((shelf.retire_all(), shelf.retire_all()), (6, 0));
    assert_eq!((shelf.archives(&7).len(), shelf.book(&7).unwrap().orders().count()), (2, 0));
    assert!(shelf.page() == page && shelf.net_position() == net);
    assert_eq!(shelf.order("G0").unwrap().status, OrdStatus::Filled);
    assert_eq!(shelf.order_of(7, "G69").unwrap().status, OrdStatus::Filled);
    assert_eq!(
        (shelf.chain(7, "G0").len(), shelf.chain(7, "G69").len(), shelf.chain(8, "G0").len()),
        (1, 1, 0)
    );
    Ok(())
}

#[test]
fn a_venues_event_finds_its_order_by_the_name_before_the_sign() -> Result<(), Error> {
    let mut shelf = Shelf::new(100);
    for (client, name) in [(7, "G1"), (8, "G11"), (9, "G2")] {
        drop(shelf.take_record(&booking(client, name, "C1"))?);
        assert_eq!(shelf.take_record(&cancel(client, "C2", "C1"))?.messages.len(), 1);
    }
    for (downstream, client) in [("G1", 7), ("G1-1", 7), ("G11-1", 8), ("G11", 8), ("G2-1", 9)] {
        let report = VenueReport::new(3, downstream.as_bytes(), ExecType::PendingCancel, Qty(0), Price(0));
        let answer = shelf.event(&Event::VenueReport(report.status(OrdStatus::PendingCancel)))?;
        assert_eq!(answer.alarms, []);
        for message in &answer.messages {
            assert!(matches!(message, Message::Report(told) if told.client == client));
        }
    }
    for downstream in ["G3", "G3-1", "G", "G1-9", "NOBODY-1"] {
        assert_eq!(shelf.take_record(&fill(downstream))?.alarms, [Alarm::UnknownOrder], "{downstream}");
    }
    assert_eq!(
        shelf.event(&Event::GatewayCancel { name: b"G11" })?,
        Book::clone(shelf.book(&8).unwrap()).take(&Event::GatewayCancel { name: b"G11" })?
    );
    // what concerns no order is answered as an empty book answers it
    for record in [cancel(7, "C9", "C8"), cancel(99, "C9", "C8"), b"no record".to_vec(), Vec::new()] {
        assert_eq!(shelf.take_record(&record), Book::new(100).take_record(&record));
    }
    Ok(())
}

#[test]
fn a_name_is_one_orders_in_all_books_and_archives() -> Result<(), Error> {
    let mut shelf = Shelf::new(100);
    let in_use = Err(Error::Refused(Refusal::InUse));
    drop(shelf.take_record(&booking(7, "G1", "C1"))?);
    assert_eq!(shelf.take_record(&booking(8, "G1", "C1")), in_use);
    drop(shelf.take_record(&booking(8, "G2", "C1"))?);
    drop(shelf.take_record(&fill("G1"))?);
    assert_eq!(shelf.retire_all(), 1);
    assert!(shelf.book(&7).unwrap().order("G1").is_none());
    // the booking delivered again, the name for another client, the ClOrdID under another name
    for (client, name, id) in [(7, "G1", "C1"), (8, "G1", "C9"), (7, "G3", "C1")] {
        assert_eq!(shelf.take_record(&booking(client, name, id)), in_use);
    }
    // one that is malformed or has no price gets its own number
    let malformed = shelf.take_record(&booking(7, "not-a-name", "C1"));
    assert_eq!(malformed, Err(Error::Refused(Refusal::Range)));
    drop(shelf.take_record(&booking(7, "G3", "C3"))?);
    // a cancel with a retired ClOrdID is a duplicate, one of a retired order too late
    for (id, orig, reason) in [("C1", "C3", 6), ("C4", "C1", 0)] {
        let answer = shelf.take_record(&cancel(7, id, orig))?;
        let [Message::CancelReject(told)] = &answer.messages[..] else { panic!("{answer:?}") };
        assert_eq!(told.reason.number(), reason);
        // The archive does not know the live order C3, and is that of C1.
        let status = if reason == 6 { OrdStatus::Rejected } else { OrdStatus::Filled };
        assert_eq!(told.status, status);
    }
    Ok(())
}

#[test]
fn a_late_report_of_a_retired_order_is_known() -> Result<(), Error> {
    let mut shelf = Shelf::new(100);
    drop(shelf.take_record(&booking(7, "G1", "C1"))?);
    drop(shelf.take_record(&fill("G1"))?);
    assert_eq!(shelf.retire_all(), 1);
    let late = VenueReport::new(3, b"G1", ExecType::Trade, Qty::units(120), Price::units(10));
    let late = Event::VenueReport(late.status(OrdStatus::Filled).last(Qty::units(20), Price::units(10)));
    let told = shelf.event(&late)?;
    let mut book = Book::new(100);
    drop(book.take_record(&booking(7, "G1", "C1"))?);
    drop(book.take_record(&fill("G1"))?);
    assert_eq!(told, book.take(&late)?);
    assert_eq!(shelf.order("G1").unwrap().cum_qty, Qty::units(100));
    let archives: Vec<_> = shelf.take_archives().into_iter().map(|(key, own)| (*key, own.len())).collect();
    assert_eq!(archives, [(7, 1)]);
    assert_eq!(shelf.event(&late)?.alarms, [Alarm::UnknownOrder]);
    Ok(())
}

#[test]
fn an_order_good_till_cancelled_lives_through_ten_retirements() -> Result<(), Error> {
    let (mut shelf, mut plain) = (Shelf::new(10_000), Book::new(10_000));
    let standing =
        Booking::new(7, 3, Side::Buy, Qty::units(100), b"OATS").named(b"GTC", b"S0").limit(Price::units(10));
    let standing = Event::Book(standing.time_in_force(TimeInForce::Gtc));
    assert_eq!(shelf.event(&standing), plain.take(&standing));
    for day in 1..=10_u16 {
        for number in 0..20 {
            let name = format!("D{day}N{number}");
            drop(shelf.take_record(&booking(7, &name, &name))?);
            drop(shelf.take_record(&fill(&name))?);
        }
        let (id, orig, downstream) = (format!("S{day}"), format!("S{}", day - 1), format!("GTC-{day}"));
        let amend = Amend::new(7, id.as_bytes(), orig.as_bytes(), b"OATS", Side::Buy);
        let replace = Replace::new(amend, Qty::units(100 + u64::from(day)), Ok(())).limit(Price::units(10));
        let before = Qty::units(u64::from(day - 1));
        let accepted =
            VenueReport::new(3, downstream.as_bytes(), ExecType::Replaced, before, Price::units(10));
        let status = if day == 1 { OrdStatus::New } else { OrdStatus::PartiallyFilled };
        let cum = Qty::units(u64::from(day));
        let part = VenueReport::new(3, downstream.as_bytes(), ExecType::Trade, cum, Price::units(10));
        let part = part.status(OrdStatus::PartiallyFilled).last(Qty::units(1), Price::units(10));
        for event in
            [Event::Replace(replace), Event::VenueReport(accepted.status(status)), Event::VenueReport(part)]
        {
            let answer = shelf.event(&event)?;
            assert_eq!(answer, plain.take(&event)?);
            assert_eq!((answer.messages.len(), answer.alarms.len()), (1, 0));
        }
        assert_eq!(shelf.retire_all(), 20);
    }
    let order = shelf.order("GTC").unwrap();
    assert_eq!(
        (order.qty, order.cum_qty, order.downstream),
        (Qty::units(110), Qty::units(10), &b"GTC-10"[..])
    );
    assert_eq!(shelf.chain(7, "S10").len(), 11);
    assert_eq!((shelf.archives(&7).len(), shelf.open_quantity(7)), (4, Qty::units(100)));
    Ok(())
}

#[test]
fn a_book_of_live_orders_alone_is_full() -> Result<(), Error> {
    let mut shelf = Shelf::new(10_000);
    for number in 0..64 {
        let name = format!("G{number}");
        drop(shelf.take_record(&booking(7, &name, &name))?);
    }
    assert_eq!(shelf.take_record(&booking(7, "H", "H")), Err(Error::Refused(Refusal::Full)));
    assert!(shelf.archives(&7).is_empty());
    let batch = shelf.take_all(&joined(&[
        booking(7, "H", "H"),
        fill("G0"),
        booking(7, "H", "H"),
        booking(7, "I", "I"),
    ]));
    let refused: Vec<_> =
        batch.answers.iter().map(|answer| answer.as_ref().err().and_then(Error::refusal)).collect();
    assert_eq!(refused, [Some(Refusal::Full), None, None, Some(Refusal::Full)]);
    assert_eq!(shelf.archives(&7)[0].orders().count(), 1);
    // another client has a book of its own
    drop(shelf.take_record(&booking(8, "J", "J"))?);
    Ok(())
}

/// The records of a morning of one client: orders booked, acknowledged, and filled or cancelled some steps later.
fn morning(orders: usize) -> Vec<Vec<u8>> {
    let mut records = Vec::new();
    for number in 0..orders + 20 {
        let name = |number: usize| format!("G{number}");
        if number < orders {
            records.push(booking(7, &name(number), &name(number)));
        }
        if let Some(old) = number.checked_sub(20) {
            if old % 5 == 0 {
                records.push(cancel(7, &format!("x{old}"), &name(old)));
                let report = format!("{}-1", name(old));
                let report = VenueReport::new(3, report.as_bytes(), ExecType::Canceled, Qty(0), Price(0));
                records.push(Event::VenueReport(report.status(OrdStatus::Canceled)).record());
            } else {
                records.push(fill(&name(old)));
            }
        }
    }
    records
}

#[test]
fn fifty_thousand_orders_through_one_book() -> Result<(), Error> {
    let records = morning(50_000);
    let mut shelf = Shelf::new(100);
    let batch = shelf.take_all(&joined(&records));
    assert_eq!(batch.answers.len(), records.len());
    assert!(batch.answers.iter().all(|answer| answer.as_ref().is_ok_and(|answer| answer.alarms.is_empty())));
    assert_eq!(shelf.page().lines().count(), 50_000);
    assert_eq!(shelf.net_position()[0].net, Net(40_000 * 100 * 10_000));
    assert!(shelf.books().all(
        |(_, book, archives)| book.keeps_rules() && archives.iter().all(|archive| archive.keeps_rules())
    ));
    // one by one it comes to the same
    let mut single = Shelf::new(100);
    let records = &records[..9_000];
    for record in records {
        drop(single.take_record(record)?);
    }
    let mut shelf = Shelf::new(100);
    assert_eq!(shelf.take_all(&joined(records)).answers.len(), records.len());
    assert!(bytes(&single) == bytes(&shelf));
    Ok(())
}

/// Days of several books, drawn one by one against a shelf's books: names of one day are not those of another.
fn days(seed: u64) -> Vec<Vec<u8>> {
    let mut numbers = Numbers(seed);
    let mut left: Vec<Vec<Vec<u8>>> = (0..5)
        .map(|own| {
            let (_, records) = day(seed * 5 + own, 500);
            records.into_iter().map(|record| renamed(&record, own)).rev().collect()
        })
        .collect();
    let mut records = Vec::new();
    while !left.is_empty() {
        let own = numbers.below(left.len());
        match left[own].pop() {
            Some(record) => records.push(record),
            None => drop(left.remove(own)),
        }
    }
    records
}

/// The event for other clients, under other names.
fn renamed(record: &[u8], own: u64) -> Vec<u8> {
    let line = to_text(record);
    let words = line.split(' ').map(|word| match word.split_once('=') {
        Some(("client", client)) => format!("client={}", client.parse::<u64>().unwrap() + 3 * own),
        Some((field @ ("name" | "downstream"), name)) => {
            format!("{field}={}", name.replacen('G', &format!("{}", (b'A' + own as u8) as char), 1))
        }
        _ => word.to_owned(),
    });
    from_text(&words.collect::<Vec<_>>().join(" ")).unwrap()
}

#[test]
fn a_batch_is_its_events_one_by_one() {
    let (mut full, mut retired) = (0, 0);
    for seed in 0..8 {
        let mut records = days(seed);
        let mut numbers = Numbers(seed);
        // bookings of names that others have, and garbage
        for _ in 0..30 {
            let at = numbers.below(records.len());
            let name = format!("{}{}", numbers.pick(&["A", "B", "C", "D", "E"]), numbers.below(500));
            let record = match numbers.below(4) {
                0 => b"no record".to_vec(),
                1 => Vec::new(),
                _ => booking(numbers.below(15) as u16, &name, &format!("z{at}")),
            };
            records.insert(at, record);
        }
        let mut single = Shelf::keyed(20, |client| client % 3);
        let expected: Vec<Result<Answer, Error>> =
            records.iter().map(|record| single.take_record(record)).collect();
        for threads in [1, 2, 3, 16] {
            let mut shelf = Shelf::keyed(20, |client| client % 3).threads(threads);
            let (all, mut at, mut answers) = (joined(&records), 0, Vec::new());
            while at < all.len() {
                let end = (at + 2 + numbers.below(20_000)).min(all.len());
                let batch = shelf.take_all(&all[at..end]);
                (at, answers) = (at + batch.read, [answers, batch.answers].concat());
            }
            assert_eq!(answers, expected, "seed {seed}, {threads} threads");
            assert!(bytes(&shelf) == bytes(&single));
        }
        full += expected.iter().filter(|answer| **answer == Err(Error::Refused(Refusal::Full))).count();
        retired += single.books().map(|(_, _, archives)| archives.len()).sum::<usize>();
    }
    assert!(retired > 20, "{full} full, {retired} archives");
}

#[test]
fn a_stored_shelf_goes_on() -> Result<(), Error> {
    let records = days(99);
    let (first, second) = records.split_at(records.len() / 2);
    let mut shelf = Shelf::new(10_000);
    drop(shelf.take_all(&joined(first)));
    assert!(shelf.retire_all() > 0);
    let mut again = Shelf::new(10_000);
    for (key, book, archives) in shelf.books() {
        let stored = archives.iter().map(|archive| Book::from_bytes(archive.as_bytes()).map(Arc::new));
        let archives = stored.collect::<Result<_, _>>()?;
        again.put(*key, Book::from_bytes(book.as_bytes())?, archives)?;
    }
    let taken = shelf.order("A1").map(|order| order.client).unwrap_or(0);
    assert_eq!(
        again.put(1_000, shelf.book(&taken).unwrap().clone(), Vec::new()).is_err(),
        shelf.book(&taken).unwrap().orders().count() > 0
    );
    assert_eq!(shelf.take_all(&joined(second)), again.take_all(&joined(second)));
    assert!(bytes(&shelf) == bytes(&again));
    Ok(())
}
