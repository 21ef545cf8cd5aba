//! `explain` compared with the library's `check` on damaged books, and `explain_record` with `event` on damaged records.

mod common;

use common::{day, Numbers};
use jubafiye::{explain, explain_record, Book, Error, Event, Refusal, Rule};

/// Where orders, requests and open quantities stand (docs/LAYOUT.md).
const TABLES: [(usize, usize); 3] = [(256, 256), (16_640, 128), (49_408, 8)];

/// Whether both say the same of a book, and whether it keeps its rules.
fn agrees(bytes: &[u8], what: &str) -> bool {
    let (kept, broken) = (Book::from_bytes(bytes).is_ok(), explain(bytes));
    assert_eq!(broken.is_empty(), kept, "{what}: {broken:?}");
    for found in &broken {
        assert!(!found.to_string().contains('\n') && found.at <= 65_536);
    }
    kept
}

/// The bytes of the records in use.
fn in_use(book: &Book) -> Vec<usize> {
    let counts = [book.orders().count(), book.requests().count(), book.orders().count()];
    let tables = TABLES.iter().zip(counts);
    (0..8).chain(tables.flat_map(|(&(at, bytes), count)| at..at + bytes * count)).collect()
}

#[test]
fn whole_books_break_no_rule() {
    for seed in 0..20 {
        let (book, _) = day(seed, 120);
        assert!(agrees(book.as_bytes(), &format!("seed {seed}")));
    }
}

#[test]
fn each_byte_in_use_changed() {
    let mut numbers = Numbers(5);
    let mut refused = 0;
    for seed in 0..3 {
        let (book, _) = day(100 + seed, 25);
        let mut bytes = book.as_bytes().to_vec();
        for at in in_use(&book) {
            let was = bytes[at];
            let likely = numbers.pick(b"\0\x01\x02\x03\x04012345678ACE");
            for value in [was ^ 1, likely, numbers.next() as u8] {
                bytes[at] = value;
                refused += usize::from(!agrees(&bytes, &format!("seed {seed}, byte {at} made {value}")));
            }
            bytes[at] = was;
        }
    }
    assert!(refused > 2_000, "{refused} were refused");
}

#[test]
fn records_swapped_copied_and_bytes_changed_together() {
    let mut numbers = Numbers(6);
    let (mut refused, mut kept) = (0, 0);
    for seed in 0..40 {
        let (book, _) = day(200 + seed, 60);
        let places = in_use(&book);
        for _ in 0..60 {
            let mut bytes = book.as_bytes().to_vec();
            let (table, size) = TABLES[numbers.below(3)];
            let count = if table == 16_640 { book.requests().count() } else { book.orders().count() };
            let (one, two) = (table + size * numbers.below(count), table + size * numbers.below(count));
            match numbers.below(4) {
                0 => bytes.copy_within(one..one + size, two),
                1 => (0..size).for_each(|at| bytes.swap(one + at, two + at)),
                _ => {
                    for _ in 0..2 {
                        let at = places[numbers.below(places.len())];
                        let (changed, byte) = (bytes[at] ^ 1 << numbers.below(8), numbers.next() as u8);
                        bytes[at] = numbers.pick(&[0, 1, 2, 3, changed, byte]);
                    }
                }
            }
            if agrees(&bytes, &format!("seed {seed}")) {
                kept += 1;
            } else {
                refused += 1;
            }
        }
    }
    assert!(refused > 500 && kept > 50, "{refused} refused, {kept} kept");
}

#[test]
fn other_lengths() {
    for length in [0, 1, 65_535, 65_537] {
        assert!(!agrees(&vec![0; length], "another length"));
        assert_eq!(explain(&vec![0; length])[0].rule, Rule::Length);
    }
}

#[test]
fn each_rule_by_its_damage() {
    let book: Book = {
        let mut book = Book::new(10_000);
        for line in [
            "book client=7 venue=3 name=A clordid=C1 symbol=W side=buy ordtype=limit qty=100 price=10",
            "report venue=3 downstream=A exectype=0 ordstatus=0 lastqty=0 lastpx=0 cumqty=0 avgpx=0",
            "replace client=7 clordid=C2 origclordid=C1 symbol=W side=buy ordtype=limit qty=90 price=11 verdict=pass",
            "gateway-cancel name=A",
            "book client=7 venue=3 name=B clordid=C3 symbol=W side=buy ordtype=market qty=5",
        ] {
            book.take_record(&jubafiye::text::from_text(line).unwrap()).map(drop).unwrap();
        }
        book
    };
    let (order, request, other) = (256, 16_640, 512);
    let damages: [(Rule, &[(usize, u8)]); 16] = [
        (Rule::Ranges, &[(order + 169, b'9')]),
        (Rule::Requests, &[(request + 128 * 3, 64)]),
        (Rule::Current, &[(order + 215, 0)]),
        (Rule::Cancel, &[(order + 217, 1)]),
        (Rule::Names, &[(other + 4, b'A')]),
        (Rule::Filled, &[(order + 196, 1)]),
        (Rule::Status, &[(order + 189, 1)]),
        (Rule::Done, &[(order + 188, b'4')]),
        (Rule::Pending, &[(request + 128 + 3, 1), (request + 128 + 103, 1)]),
        (Rule::Amendments, &[(order + 213, 3)]),
        (Rule::Numbers, &[(request + 128 + 72, b'7')]),
        (Rule::Tries, &[(order + 240, 4)]),
        (Rule::InFlight, &[(order + 239, 3)]),
        (Rule::OpenQuantity, &[(49_408, 1)]),
        (Rule::Outcomes, &[(request + 103, 1)]),
        (Rule::Origins, &[(request + 128 + 104, 0)]),
    ];
    assert!(agrees(book.as_bytes(), "whole"));
    for (rule, damage) in damages {
        let mut bytes = book.as_bytes().to_vec();
        damage.iter().for_each(|&(at, value)| bytes[at] = value);
        assert!(!agrees(&bytes, &rule.to_string()));
        assert!(explain(&bytes).iter().any(|broken| broken.rule == rule), "{rule}: {:?}", explain(&bytes));
    }
}

/// What the library says of a record on an empty book, as far as the record alone decides it.
fn refused(record: &[u8]) -> Option<Refusal> {
    match Book::new(10_000).take_record(record) {
        Err(Error::Refused(refusal @ (Refusal::Record | Refusal::Range))) => Some(refusal),
        _ => None,
    }
}

#[test]
fn damaged_records() {
    let mut numbers = Numbers(7);
    let mut counts = [0; 3];
    for seed in 0..20 {
        let (_, records) = day(300 + seed, 60);
        for record in records {
            for _ in 0..6 {
                let mut record = record.clone();
                for _ in 0..numbers.below(3) {
                    let at = numbers.below(record.len());
                    match numbers.below(6) {
                        0 => record.truncate(at.max(1)),
                        1 => record.insert(at, numbers.next() as u8),
                        2 => record[at.min(4)] ^= 1 << numbers.below(8),
                        3 => record[at] = numbers.next() as u8,
                        4 => record[at] = numbers.pick(b"\0\x01\x20\x21\x40\x41019NAXF\xff"),
                        _ => record.push(numbers.next() as u8),
                    }
                }
                let (said, read) = (explain_record(&record), Event::read(&record));
                let refusal = said.as_ref().err().map(|bad| bad.refusal());
                assert_eq!(refusal, refused(&record), "{record:?}: {said:?}");
                assert_eq!(read.as_ref().err(), said.as_ref().err());
                let words = refusal.map(|refusal| refusal.of_record(&record));
                assert_eq!(words, said.as_ref().err().map(ToString::to_string));
                assert_eq!(Refusal::InUse.of_record(&record), Refusal::InUse.to_string());
                if let Ok(event) = read {
                    assert_eq!(event.record(), record, "{event}");
                }
                counts[refusal.map_or(0, |refusal| refusal.number() as usize - 2)] += 1;
            }
        }
    }
    assert!(counts.iter().all(|&count| count > 100), "{counts:?}");
}

#[test]
fn each_fault_has_its_words() {
    let said = |record: &[u8]| explain_record(record).unwrap_err().fault().to_string();
    assert_eq!(said(b"\x09"), "it has not the five bytes of a kind and a map");
    assert_eq!(said(b"\x0a\0\0\0\0"), "kind 10 is none of an event, 1 to 9");
    assert_eq!(said(b"\x09\0\0\0\0"), "the field name is missing");
    assert_eq!(said(b"\x09\x05\0\0\0\0\0\x01A"), "bit 0 of the map, the field client, is none of this kind");
    assert_eq!(said(b"\x09\x04\0\0\x80\x01A"), "bit 31 of the map is none of an event");
    assert_eq!(said(b"\x09\x04\0\0\0\x02A"), "it ends within the field name");
    assert_eq!(said(b"\x09\x04\0\0\0\x01AB"), "1 bytes stand behind the last field");
    assert_eq!(said(b"\x09\x04\0\0\0\0"), "name has 0 bytes, not 1 to 20");
    assert_eq!(said(b"\x09\x04\0\0\0\x04NONE"), "an order name has letters and digits alone and is not NONE");
    let mut cancel = b"\x02\xd9\0\0\0\0\0\x01a\x01b\x01W9".to_vec();
    assert_eq!(said(&cancel), "side has the code 57 ('9'), which is not listed");
    cancel.pop();
    assert_eq!(said(&cancel), "it ends within the field side");
}
