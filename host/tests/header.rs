//! The numbers and versions of the headers compared with those of this crate; the fields' bits are compared in src/record.rs.

use jubafiye::{
    Alarm, Event, Outcome, Refusal, ANSWER_BYTES, BOOK_BYTES, CHAIN_BYTES, CHAIN_ENTRY_BYTES, LAYOUT_VERSION,
    NET_BYTES, NET_SCRATCH, PAGE_BYTES, PLACE_BYTES, SAID_BYTES, VERSION,
};

const HEADER: &str = include_str!("../include/gateway.h");

/// What stands behind a name where it is defined.
fn defined(line: &str) -> Option<&str> {
    let line = line.trim();
    line.strip_prefix("#define ").unwrap_or(line).strip_prefix("JUBAFIYE_")
}

/// The number of a name.
fn number(name: &str) -> Option<usize> {
    let after =
        HEADER.lines().filter_map(defined).find_map(|line| line.strip_prefix(name)?.strip_prefix(' '))?;
    after.trim_start_matches("= ").split([',', ' ']).next()?.parse().ok()
}

/// How many names begin so.
fn names(start: &str) -> usize {
    HEADER.lines().filter_map(defined).filter(|line| line.starts_with(start) && line.contains('=')).count()
}

#[test]
fn lengths() {
    assert_eq!((number("BOOK_BYTES"), number("ANSWER_BYTES")), (Some(BOOK_BYTES), Some(ANSWER_BYTES)));
    assert_eq!(number("SAID_BYTES"), Some(SAID_BYTES));
    assert_eq!((number("PAGE_LINE"), number("PAGE_BYTES")), (Some(PAGE_BYTES / 64), Some(PAGE_BYTES)));
    assert_eq!((number("NET_LINE"), number("NET_BYTES")), (Some(NET_BYTES / 64), Some(NET_BYTES)));
    let chain = (Some(CHAIN_ENTRY_BYTES), Some(CHAIN_BYTES));
    assert_eq!((number("CHAIN_ENTRY"), number("CHAIN_BYTES")), chain);
    assert_eq!((number("NET_SCRATCH"), number("PLACE_BYTES")), (Some(NET_SCRATCH), Some(PLACE_BYTES)));
}

#[test]
fn versions() {
    let version = |header: &'static str| {
        let mut lines = header.lines().filter_map(|line| line.strip_prefix("#define JUBAFIYE_VERSION "));
        lines.next().map(|text| text.trim_matches('"'))
    };
    assert_eq!([HEADER, include_str!("../include/fix.h")].map(version), [Some(VERSION); 2]);
    assert_eq!(number("LAYOUT_VERSION"), Some(LAYOUT_VERSION as usize));
}

#[test]
fn refusals_and_alarms() {
    let refusals = [
        ("BOOK", Refusal::Book),
        ("ANSWER_BUFFER", Refusal::AnswerBuffer),
        ("RECORD", Refusal::Record),
        ("RANGE", Refusal::Range),
        ("IN_USE", Refusal::InUse),
        ("PRICE", Refusal::Price),
        ("FULL", Refusal::Full),
        ("PAGE_BUFFER", Refusal::PageBuffer),
        ("NET_BUFFERS", Refusal::NetBuffers),
        ("CHAIN_LIST", Refusal::ChainList),
        ("MARK_NAME", Refusal::MarkName),
        ("NO_MARK", Refusal::NoMark),
        ("NO_PLACE", Refusal::NoPlace),
        ("BAD_ARCHIVE", Refusal::BadArchive),
        ("IN_ARCHIVE", Refusal::InArchive),
        ("FULL_ARCHIVE", Refusal::FullArchive),
    ];
    for (name, refusal) in refusals {
        assert_eq!(number(&format!("REFUSED_{name}")), Some(refusal.number() as usize), "{name}");
    }
    assert_eq!(names("REFUSED_"), refusals.len());
    let alarms = [
        ("STUCK_CANCEL", Alarm::StuckCancel),
        ("OVERFILL", Alarm::Overfill),
        ("UNKNOWN_ORDER", Alarm::UnknownOrder),
        ("UNKNOWN_AT_VENUE", Alarm::UnknownAtVenue),
        ("FILL_ON_DONE_ORDER", Alarm::FillOnDoneOrder),
        ("FILLED_SHORT", Alarm::FilledShort),
    ];
    for (name, alarm) in alarms {
        assert_eq!(number(&format!("ALARM_{name}")), Some(alarm.number().into()), "{name}");
    }
    assert_eq!((number("ALARM_NONE"), names("ALARM_")), (Some(0), alarms.len() + 1));
}

#[test]
fn outcomes() {
    let outcomes = [
        ("OPEN", Outcome::Open),
        ("ACCEPTED", Outcome::Accepted),
        ("REFUSED", Outcome::Refused),
        ("FAILED_TO_SEND", Outcome::FailedToSend),
    ];
    for (name, outcome) in outcomes {
        assert_eq!(number(&format!("OUTCOME_{name}")), Some(outcome.number().into()), "{name}");
        assert_eq!(Outcome::from_number(outcome.number()), Some(outcome));
    }
    assert_eq!((names("OUTCOME_"), Outcome::from_number(4)), (outcomes.len(), None));
}

#[test]
fn kinds() {
    let (venue, downstream) = (3, &b"G1"[..]);
    let events = [
        ("UNKNOWN_AT_VENUE", Event::UnknownAtVenue { venue, downstream }),
        ("SEND_FAILED", Event::SendFailed { venue, downstream, text: b"down" }),
        ("SEND_AGAIN", Event::SendAgain { venue, downstream }),
        ("GATEWAY_CANCEL", Event::GatewayCancel { name: b"G1" }),
    ];
    for (name, event) in events {
        assert_eq!(number(&format!("EVENT_{name}")), Some(event.record()[0].into()), "{name}");
    }
    let rest = ["BOOK", "CANCEL", "REPLACE", "VENUE_REPORT"].map(|name| number(&format!("EVENT_{name}")));
    assert_eq!((rest, names("EVENT_")), ([Some(1), Some(2), Some(3), Some(4)], 9));
    let messages = ["REPORT", "CANCEL_REJECT", "NEW_ORDER", "CANCEL", "REPLACE"];
    let numbers = messages.map(|name| number(&format!("MESSAGE_{name}")));
    assert_eq!((numbers, names("MESSAGE_")), ([16, 17, 18, 19, 20].map(Some), 5));
}
