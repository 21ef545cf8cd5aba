//! What requests come to, each by a short list: docs/SCOPE.md, Chains, and each near reading of it seen to be false.

use gateway::CompactString;
use model::day::*;
use model::events::{self, Filled};
use model::record::*;

/// The outcomes of the order's first requests, each of which is there.
fn outcomes<const N: usize>(day: &Day) -> [u8; N] {
    let machine = &day.0.machine;
    std::array::from_fn(|number| {
        let name = if number == 0 { "A".to_string() } else { format!("A-{number}") };
        assert!(machine.book().sent(&name).is_some(), "{name} is there");
        machine.outcomes().of(&CompactString::from(name.as_str()))
    })
}

/// A report without a fill under a downstream ClOrdID.
fn under(downstream: &str, exec_type: u8, status: Option<u8>) -> Draft {
    events::report(VENUE_1, downstream.as_bytes(), exec_type, status, Filled::default())
}

#[test]
fn a_first_request_stays_open_whatever_becomes_of_its_order() {
    for (exec_type, status) in [(b'0', b'0'), (b'4', b'4'), (b'8', b'8'), (b'C', b'C'), (b'6', b'6')] {
        let mut day = Day::booked();
        day.send(&report(exec_type, status, Filled::default()));
        assert_eq!(outcomes(&day), [0]);
    }
    let mut day = Day::booked();
    day.send(&report(b'F', b'2', fill(100, 100, UNIT, UNIT)));
    assert_eq!(outcomes(&day), [0]);
}

#[test]
fn a_first_request_fails_while_pending_new_and_not_after() {
    let failed = events::send_failed(VENUE_1, b"A", b"down");
    let mut day = Day::booked();
    day.send(&failed);
    assert_eq!(outcomes(&day), [3]);
    let mut day = Day::new();
    day.send(&failed);
    assert_eq!(outcomes(&day), [0]);
}

#[test]
fn an_accepted_replace_settles_itself_and_what_it_supersedes() {
    for (exec_type, status, told) in [
        (b'5', b'0', [1, 1]),
        (b'0', b'0', [1, 1]),
        (b'F', b'1', [1, 1]),
        (b'4', b'4', [1, 1]),
        (b'6', b'6', [1, 1]),
        (b'E', b'E', [0, 0]),
        (b'8', b'0', [0, 2]),
        (b'8', b'4', [0, 2]),
        (b'I', b'8', [0, 2]),
        (b'8', b'8', [0, 2]),
    ] {
        let mut day = Day::new();
        day.send(&replace("c2", 50));
        day.send(&under("A-1", exec_type, Some(status)));
        assert_eq!(outcomes(&day), told, "{} {}", char::from(exec_type), char::from(status));
    }
}

#[test]
fn an_exec_type_of_8_without_a_status_settles_nothing() {
    for request in [replace("c2", 50), cancel("c2")] {
        let mut day = Day::new();
        day.send(&request);
        day.send(&under("A-1", b'8', None));
        assert_eq!(outcomes(&day), [0, 0]);
    }
}

#[test]
fn a_report_that_says_unknown_is_an_event_5_and_refuses_nothing() {
    let mut day = Day::new();
    day.send(&cancel("c2"));
    day.send(&under("A-1", b'I', Some(b'8')).number(REASON, 5_u8));
    assert_eq!(outcomes(&day), [0, 0]);
}

#[test]
fn a_cancel_is_accepted_by_canceled_under_its_own_name() {
    for (downstream, exec_type, status, told) in [
        ("A-1", b'4', b'4', [0, 1]),
        ("A-1", b'I', b'4', [0, 1]),
        ("A-1", b'8', b'4', [0, 2]),
        ("A-1", b'6', b'6', [0, 0]),
        ("A-1", b'F', b'1', [0, 0]),
        ("A", b'4', b'4', [0, 0]),
    ] {
        let mut day = Day::new();
        day.send(&cancel("c2"));
        day.send(&under(downstream, exec_type, Some(status)));
        assert_eq!(outcomes(&day), told, "{downstream} {} {}", char::from(exec_type), char::from(status));
    }
}

#[test]
fn an_outcome_is_set_once() {
    let mut day = Day::new();
    day.send(&cancel("c2"));
    day.send(&refused("A-1", None, Some(0)));
    assert_eq!(outcomes(&day), [0, 2]);
    day.send(&under("A-1", b'4', Some(b'4')));
    assert_eq!((outcomes(&day), day.stands().0), ([0, 2], b'4'));
    day.send(&events::send_failed(VENUE_1, b"A-1", b"down"));
    assert_eq!(outcomes(&day), [0, 2]);
}

#[test]
fn a_request_sent_again_in_vain_is_refused_and_not_failed() {
    let mut day = Day::new();
    day.send(&cancel("c2"));
    day.send(&report(b'4', b'4', Filled::default()));
    day.send(&events::send_again(VENUE_1, b"A-1"));
    assert_eq!(outcomes(&day), [0, 2]);
    let mut day = Day::new();
    day.send(&cancel("c2"));
    day.send(&events::send_failed(VENUE_1, b"A-1", b"down"));
    assert_eq!(outcomes(&day), [0, 3]);
}

#[test]
fn a_gateway_cancel_has_an_outcome_too() {
    for (event, told) in [
        (events::send_failed(VENUE_1, b"A-1", b"down"), 3),
        (under("A-1", b'4', Some(b'4')), 1),
        (refused("A-1", None, Some(0)), 2),
        (under("A-1", b'6', Some(b'6')), 0),
    ] {
        let mut day = Day::new();
        day.send(&events::gateway_cancel(b"A"));
        day.send(&event);
        assert_eq!(outcomes(&day), [0, told]);
    }
}

#[test]
fn a_refused_event_settles_nothing() {
    let mut day = Day::new();
    day.send(&cancel("c2"));
    let reject = refused("A-1", None, Some(0)).bytes();
    assert_eq!(day.0.event(&reject, 1_023), Ok(Err(2)));
    assert_eq!(outcomes(&day), [0, 0]);
}
