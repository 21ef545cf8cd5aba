//! The text form of events, both ways.

mod common;

use common::{day, Numbers};
use jubafiye::text::{from_text, records, to_text};
use jubafiye::{Event, OwnedEvent, TextError};

#[test]
fn every_record_of_a_day_both_ways() {
    let mut words = std::collections::BTreeSet::new();
    for seed in 0..20 {
        for record in day(400 + seed, 150).1 {
            let line = to_text(&record);
            assert_eq!(from_text(&line).as_ref(), Ok(&record), "{line}");
            assert_eq!(line, Event::read(&record).unwrap().to_string());
            let owned: OwnedEvent = line.parse().unwrap();
            assert_eq!((owned.record(), owned.to_string()), (&record[..], line.clone()));
            assert_eq!(owned.event(), Event::read(&record).unwrap());
            words.insert(line.split(' ').next().unwrap().to_string());
        }
    }
    assert_eq!(words.len(), 9, "{words:?}");
}

#[test]
fn any_bytes_both_ways() {
    let mut numbers = Numbers(8);
    for _ in 0..5_000 {
        let length = numbers.below(40);
        let bytes: Vec<u8> = (0..length).map(|_| numbers.next() as u8).collect();
        assert_eq!(from_text(&to_text(&bytes)), Ok(bytes.clone()));
        // As a text within an event, quotes, blanks and all.
        let text = if bytes.is_empty() { b"x".to_vec() } else { bytes };
        let failed = Event::SendFailed { venue: 3, downstream: b"G1", text: &text }.record();
        assert_eq!(from_text(&to_text(&failed)), Ok(failed));
    }
}

#[test]
fn any_line_is_read_or_refused() {
    let mut numbers = Numbers(9);
    let lines: Vec<String> = day(500, 100).1.iter().map(|record| to_text(record)).collect();
    for _ in 0..10_000 {
        let mut line: Vec<char> = lines[numbers.below(lines.len())].chars().collect();
        for _ in 0..=numbers.below(3) {
            let at = numbers.below(line.len());
            line[at] = numbers.pick(&[' ', '=', '"', '\\', '#', 'x', '1', 'é', '-', '.']);
        }
        let line: String = line.into_iter().collect();
        match from_text(&line) {
            Ok(record) => assert_eq!(from_text(&to_text(&record)), Ok(record)),
            Err(why) => assert!(!why.to_string().is_empty()),
        }
    }
}

#[test]
fn what_does_not_read_is_said() {
    let why = |line: &str| from_text(line).unwrap_err().to_string();
    assert_eq!(from_text(" \t# nothing"), Err(TextError::Empty));
    assert!(why("sell 5").starts_with("\"sell\" is no event: book, cancel,"));
    assert_eq!(why("again venue=3 order=4"), "\"order\" is no field");
    assert_eq!(why("again venue=3 venue=3"), "the field venue stands there twice");
    assert_eq!(why("again venue=65536"), "venue: no number up to 65535");
    assert_eq!(why("cancel side=long"), "side: \"long\" is none of buy, sell, sell-short");
    assert_eq!(why("book qty=1.23456"), "qty: more than 4 decimals");
    assert_eq!(why("cancel redelivered=yes"), "redelivered: it has no value");
    assert_eq!(why("again downstream=\"G1"), TextError::Quote.to_string());
    assert_eq!(why("again venue=3 downstream=\"\\q\""), format!("downstream: {}", TextError::Quote));
    assert_eq!(why("record 0x"), TextError::Hex.to_string());
    assert_eq!(why("record 090"), TextError::Hex.to_string());
    assert_eq!(why("gateway-cancel name=G-1"), "an order name has letters and digits alone and is not NONE");
    assert_eq!(
        why("gateway-cancel name=G1 venue=3"),
        "bit 1 of the map, the field venue, is none of this kind"
    );
    let day = "again venue=3 downstream=G1\n\nagain\n";
    assert_eq!(
        records(day).map(|(line, record)| (line, record.is_ok())).collect::<Vec<_>>(),
        [(1, true), (3, false)]
    );
}

#[test]
fn codes_by_their_words_and_by_their_characters() {
    let one = "report venue=3 downstream=G1 exectype=trade ordstatus=done-for-day lastqty=0 lastpx=0 cumqty=0 avgpx=0";
    let two = "report avgpx=0.0 downstream=\"G1\" venue=3 ordstatus=3 exectype=F lastqty=0.00000 lastpx=0 cumqty=0 # the same";
    assert_eq!(from_text(one), from_text(two));
    assert_eq!(to_text(&from_text(two).unwrap()), one);
}
