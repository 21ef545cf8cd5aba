//! Retirements over the linked library: what moves, what is refused, and that nothing else notices.

mod common;

use common::{day, Numbers};
use jubafiye::text::from_text;
use jubafiye::{Alarm, Answer, Book, Error, Marks, OrdStatus, Qty, Refusal};

/// Takes an event in its text.
fn take(book: &mut Book, line: &str) -> Result<Answer, Error> {
    book.take_record(&from_text(line).unwrap())
}

fn booked(book: &mut Book, name: &str) {
    let line = format!(
        "book client=7 venue=3 name={name} clordid=c{name} symbol=OATS side=buy ordtype=market qty=100"
    );
    drop(take(book, &line).unwrap());
}

fn filled(book: &mut Book, name: &str) {
    let terms = "exectype=trade ordstatus=filled lastqty=100 lastpx=10 cumqty=100 avgpx=10";
    assert_eq!(take(book, &format!("report venue=3 downstream={name} {terms}")).unwrap().messages.len(), 1);
}

fn names(book: &Book) -> Vec<String> {
    book.orders().map(|order| String::from_utf8_lossy(order.name).into_owned()).collect()
}

#[test]
fn done_orders_go_behind_what_the_archive_holds() -> Result<(), Error> {
    let (mut book, mut archive) = (Book::new(100), Book::new(7));
    booked(&mut archive, "A");
    for name in ["B", "C", "D", "E"] {
        booked(&mut book, name);
    }
    let replace = "replace client=7 clordid=r origclordid=cD symbol=OATS side=buy qty=50 verdict=pass";
    drop(take(&mut book, replace)?);
    filled(&mut book, "C");
    filled(&mut book, "E");
    assert_eq!(book.retire(&mut archive)?, 2);
    assert_eq!(
        (names(&book), names(&archive)),
        (vec!["B".into(), "D".into()], vec!["A".into(), "C".into(), "E".into()])
    );
    assert_eq!((book.setting(), archive.setting()), (100, 7));
    assert_eq!(book.requests().map(|request| request.order).collect::<Vec<_>>(), [0, 1, 1]);
    assert_eq!(archive.requests().map(|request| request.order).collect::<Vec<_>>(), [0, 1, 2]);
    assert_eq!(book.order("D").unwrap().pending.unwrap().request, 2);
    assert_eq!((book.open_quantity(7), archive.open_quantity(7)), (Qty::units(200), Qty::units(100)));
    assert_eq!(archive.net_position()[0].net.to_string(), "200");
    assert!(book.keeps_rules() && archive.keeps_rules());
    let before = (book.as_bytes().to_vec(), archive.as_bytes().to_vec());
    assert_eq!(book.retire(&mut archive)?, 0);
    assert_eq!(before, (book.into_bytes(), archive.into_bytes()));
    Ok(())
}

#[test]
fn either_all_done_orders_move_or_none() {
    let (mut book, mut archive) = (Book::new(10_000), Book::new(10_000));
    for number in 0..62 {
        booked(&mut archive, &format!("A{number}"));
    }
    for name in ["B", "C", "D"] {
        booked(&mut book, name);
        filled(&mut book, name);
    }
    let before = (book.clone().into_bytes(), archive.clone().into_bytes());
    assert_eq!(book.retire(&mut archive), Err(Refusal::FullArchive));
    let mut other = Book::new(10_000);
    booked(&mut other, "C");
    assert_eq!(book.retire(&mut other), Err(Refusal::InArchive));
    // another name, but a ClOrdID that the client used
    let mut used = Book::new(10_000);
    let line = "book client=7 venue=3 name=E clordid=cD symbol=OATS side=buy ordtype=market qty=1";
    drop(take(&mut used, line).unwrap());
    assert_eq!(book.retire(&mut used), Err(Refusal::InArchive));
    // another client may have used it
    let mut free = Book::new(10_000);
    drop(take(&mut free, &line.replace("client=7", "client=8")).unwrap());
    assert_eq!(before, (book.clone().into_bytes(), archive.into_bytes()));
    assert_eq!(book.retire(&mut free), Ok(3));
}

#[test]
fn a_late_report_of_a_retired_order_is_unknown_in_the_book_and_known_in_the_archive() -> Result<(), Error> {
    let (mut book, mut archive) = (Book::new(100), Book::new(100));
    booked(&mut book, "G1");
    filled(&mut book, "G1");
    assert_eq!(book.retire(&mut archive)?, 1);
    let late = "report venue=3 downstream=G1 exectype=trade ordstatus=filled lastqty=5 lastpx=10 cumqty=105 avgpx=10";
    assert_eq!(take(&mut book, late)?.alarms, [Alarm::UnknownOrder]);
    assert_eq!(
        archive.order("G1").map(|order| (order.status, order.cum_qty)),
        Some((OrdStatus::Filled, Qty::units(100)))
    );
    assert_ne!(take(&mut archive, late)?.alarms, [Alarm::UnknownOrder]);
    // the book would take the booking again: its host has to ask the archives
    booked(&mut book, "G1");
    Ok(())
}

#[test]
fn a_mark_from_before_has_the_retired_orders_again() -> Result<(), Error> {
    let (mut book, mut archive, mut marks) = (Book::new(100), Book::new(100), Marks::new(2));
    booked(&mut book, "G1");
    filled(&mut book, "G1");
    marks.set(&book, "book")?;
    marks.set(&archive, "archive")?;
    assert_eq!(book.retire(&mut archive)?, 1);
    marks.return_to(&mut book, "book")?;
    assert!(book.order("G1").is_some() && archive.order("G1").is_some());
    assert_eq!(book.retire(&mut archive), Err(Refusal::InArchive));
    // returned with the book, the archive is as it was
    marks.return_to(&mut archive, "archive")?;
    assert_eq!(book.retire(&mut archive), Ok(1));
    Ok(())
}

/// Drawn days, with and without retirements in between, each into the same archive: what concerns a retired order goes to the
/// archive. Every answer is the same byte for byte.
#[test]
fn nothing_else_notices() -> Result<(), Error> {
    let mut moved = 0;
    for seed in 0..60 {
        let (whole, records) = day(seed, 120);
        let (mut numbers, mut plain) = (Numbers(seed), Book::new(10_000));
        let (mut book, mut archive) = (Book::new(10_000), Book::new(10_000));
        for record in &records {
            if numbers.one_in(10) {
                moved += book.retire(&mut archive)?;
            }
            let answer = plain.take_record(record);
            let retired = book.clone().take_record(record);
            if retired == answer {
                drop(book.take_record(record));
            } else {
                assert_eq!(archive.take_record(record), answer, "{}", jubafiye::text::to_text(record));
            }
        }
        assert!(plain.as_bytes() == whole.as_bytes());
        let both = book.orders().count() + archive.orders().count();
        assert_eq!(both, plain.orders().count());
        for order in plain.orders() {
            let (here, there) = (book.order(order.name), archive.order(order.name));
            let found = here.or(there).unwrap();
            assert!(here.is_none() || there.is_none());
            assert_eq!(
                (found.status, found.cum_qty, found.exec_seq, found.downstream),
                (order.status, order.cum_qty, order.exec_seq, order.downstream)
            );
        }
    }
    assert!(moved > 100, "{moved} moved");
    Ok(())
}
