//! OrdStatus 3 in reports and refusals, by small lists: the order is not done, and its leaves are 0.
//! All on an order limit 100 at 10, named A.

use model::answer::{alarms, messages};
use model::day::*;
use model::events::{self, Filled};
use model::record::*;

const SHARES: u128 = 10_000;

/// The kinds of the messages, and the alarms.
fn said(day: &mut Day, event: &Draft) -> (Vec<u8>, [u8; 2]) {
    let answer = day.outcome(event).expect("taken");
    (messages(&answer).iter().map(|message| message.kind).collect(), alarms(&answer))
}

/// The messages alone, if no alarm is raised.
fn told(day: &mut Day, event: &Draft) -> Vec<u8> {
    let (kinds, alarms) = said(day, event);
    assert_eq!(alarms, [0, 0]);
    kinds
}

fn none() -> Filled {
    Filled::default()
}

fn at(cum: u64) -> Filled {
    fill(cum, cum, 10 * UNIT, 10 * UNIT)
}

/// So much filled before, and nothing new.
fn still(cum: u64) -> Filled {
    fill(cum, 0, 0, 10 * UNIT)
}

fn under(downstream: &str, exec_type: u8, status: u8, filled: Filled) -> Draft {
    events::report(VENUE_1, downstream.as_bytes(), exec_type, Some(status), filled)
}

/// New, then done for the day.
fn ended() -> Day {
    let mut day = Day::new();
    assert_eq!(told(&mut day, &report(b'3', b'3', none())), [REPORT_MESSAGE]);
    assert_eq!(day.stands(), (b'3', 0, 0));
    day
}

#[test]
fn it_is_told_with_leaves_0_before_and_after_fills() {
    let mut day = ended();
    assert_eq!(told(&mut day, &report(b'F', b'1', at(40))), [REPORT_MESSAGE]);
    assert_eq!(day.stands(), (b'1', 40 * SHARES, 60 * SHARES));
    let bits = [ORD_STATUS, CUM_QTY, LEAVES_QTY];
    assert_eq!(day.told(&report(b'3', b'3', still(40)), bits), [b'3'.into(), 40 * SHARES, 0]);
}

#[test]
fn it_is_not_done() {
    let mut day = ended();
    assert_eq!(told(&mut day, &cancel("c2")), [CANCEL_MESSAGE]);
    assert_eq!(told(&mut day, &replace("c3", 50)), [REPLACE_MESSAGE]);
    assert_eq!(told(&mut day, &events::send_again(VENUE_1, b"A-1")), [CANCEL_MESSAGE]);
    let mut day = ended();
    assert_eq!(told(&mut day, &events::gateway_cancel(b"A")), [CANCEL_MESSAGE]);
    // A fill on it applies, up to the quantity and not to the leaves.
    let mut day = ended();
    assert_eq!(said(&mut day, &report(b'F', b'3', at(101))), (vec![], [2, 0]));
    assert_eq!(told(&mut day, &report(b'F', b'3', at(100))), [REPORT_MESSAGE]);
    assert_eq!(day.stands(), (b'3', 100 * SHARES, 0));
}

#[test]
fn another_status_follows_it() {
    for (status, filled, left) in [
        (b'0', none(), (b'0', 0, 100 * SHARES)),
        (b'1', at(40), (b'1', 40 * SHARES, 60 * SHARES)),
        (b'2', at(100), (b'2', 100 * SHARES, 0)),
        (b'4', none(), (b'4', 0, 0)),
        (b'6', none(), (b'6', 0, 100 * SHARES)),
    ] {
        let mut day = ended();
        assert_eq!(told(&mut day, &report(b'I', status, filled)), [REPORT_MESSAGE]);
        assert_eq!(day.stands(), left);
    }
    let mut day = ended();
    assert_eq!(said(&mut day, &report(b'I', b'2', none())), (vec![REPORT_MESSAGE], [6, 0]));
    assert_eq!(day.stands(), (b'0', 0, 100 * SHARES));
}

#[test]
fn it_equals_only_another_3() {
    // A New repeats no 3, a 3 no New; a 3 repeats a 3, but not by ExecType 3.
    let mut day = Day::new();
    assert_eq!(told(&mut day, &report(b'I', b'0', none())), []);
    assert_eq!(told(&mut day, &report(b'I', b'3', none())), [REPORT_MESSAGE]);
    assert_eq!(told(&mut day, &report(b'I', b'3', none())), []);
    assert_eq!(told(&mut day, &report(b'3', b'3', none())), [REPORT_MESSAGE]);
    assert_eq!(told(&mut day, &report(b'0', b'0', none())), [REPORT_MESSAGE]);
    assert_eq!(day.stands(), (b'0', 0, 100 * SHARES));
    let mut day = Day::new();
    day.send(&report(b'F', b'1', at(40)));
    assert_eq!(told(&mut day, &report(b'I', b'3', still(40))), [REPORT_MESSAGE]);
    assert_eq!(told(&mut day, &report(b'I', b'1', still(40))), [REPORT_MESSAGE]);
    assert_eq!(day.stands(), (b'1', 40 * SHARES, 60 * SHARES));
}

#[test]
fn a_fill_without_a_status_leaves_it() {
    let mut day = ended();
    let fill = events::report(VENUE_1, b"A", b'F', None, at(40));
    let bits = [ORD_STATUS, LAST_QTY, LEAVES_QTY];
    assert_eq!(day.told(&fill, bits), [b'3'.into(), 40 * SHARES, 0]);
    // And one whose status is behind: A, and New under an answered request.
    let mut day = ended();
    assert_eq!(day.told(&report(b'F', b'A', at(40)), bits), [b'3'.into(), 40 * SHARES, 0]);
    assert_eq!(told(&mut day, &report(b'A', b'A', still(40))), []);
    let mut day = ended();
    day.send(&cancel("c2"));
    day.send(&refused("A-1", None, None));
    assert_eq!(day.told(&under("A-1", b'F', b'1', at(40)), bits), [b'3'.into(), 40 * SHARES, 0]);
}

#[test]
fn behind_a_pending_cancel_or_replace_it_is_dropped() {
    let bits = [ORD_STATUS, LAST_QTY, LEAVES_QTY];
    let mut day = Day::new();
    day.send(&cancel("c2"));
    day.send(&under("A-1", b'6', b'6', none()));
    assert_eq!(told(&mut day, &report(b'3', b'3', none())), []);
    assert_eq!(day.told(&report(b'F', b'3', at(40)), bits), [b'6'.into(), 40 * SHARES, 60 * SHARES]);
    let mut day = Day::new();
    day.send(&replace("c2", 150));
    day.send(&under("A-1", b'E', b'E', none()));
    assert_eq!(told(&mut day, &report(b'3', b'3', none())), []);
    assert_eq!(day.stands().0, b'E');
}

#[test]
fn under_the_pending_replace_it_accepts() {
    for pending in [false, true] {
        let mut day = Day::new();
        day.send(&replace("c2", 150));
        if pending {
            day.send(&under("A-1", b'E', b'E', none()));
        }
        let bits = [ORD_STATUS, QTY, LEAVES_QTY];
        assert_eq!(day.told(&under("A-1", b'5', b'3', none()), bits), [b'3'.into(), 150 * SHARES, 0]);
    }
}

#[test]
fn a_refusal_sets_it_and_one_without_a_status_leaves_it() {
    for refusal in [refused("A-1", Some(b'3'), None), under("A-1", b'8', b'3', at(40))] {
        for pending in [false, true] {
            let mut day = Day::new();
            day.send(&cancel("c2"));
            if pending {
                day.send(&under("A-1", b'6', b'6', none()));
            }
            assert_eq!(day.told(&refusal, [ORD_STATUS]), [b'3'.into()]);
            assert_eq!(day.stands(), (b'3', 0, 0));
            day.send(&cancel("c3"));
            assert_eq!(day.told(&refused("A-2", None, None), [ORD_STATUS]), [b'3'.into()]);
            assert_eq!(day.stands(), (b'3', 0, 0));
        }
    }
}

#[test]
fn under_an_answered_request_and_by_a_failed_first_send_it_stays() {
    let mut day = Day::new();
    day.send(&cancel("c2"));
    day.send(&refused("A-1", None, None));
    assert_eq!(told(&mut day, &under("A-1", b'3', b'3', none())), []);
    assert_eq!(day.stands().0, b'0');
    let mut day = ended();
    assert_eq!(told(&mut day, &events::send_failed(VENUE_1, b"A", b"down")), []);
    assert_eq!(told(&mut day, &events::send_again(VENUE_1, b"A")), []);
    day.send(&cancel("c2"));
    let failed = events::send_failed(VENUE_1, b"A-1", b"down");
    assert_eq!(day.told(&failed, [ORD_STATUS]), [b'3'.into()]);
}

#[test]
fn a_cancel_is_not_answered_by_it() {
    let mut day = Day::new();
    day.send(&cancel("c2"));
    assert_eq!(told(&mut day, &under("A-1", b'4', b'3', none())), [REPORT_MESSAGE]);
    assert_eq!(told(&mut day, &events::send_again(VENUE_1, b"A-1")), [CANCEL_MESSAGE]);
}

#[test]
fn the_gateways_cancel_acked_so_is_not_told() {
    let mut day = Day::new();
    day.send(&events::gateway_cancel(b"A"));
    assert_eq!(told(&mut day, &under("A-1", b'6', b'3', none())), []);
    assert_eq!(day.stands(), (b'3', 0, 0));
    // Refused so, it is tried again.
    assert_eq!(told(&mut day, &refused("A-1", Some(b'3'), Some(99))), [CANCEL_MESSAGE]);
    assert_eq!(told(&mut day, &refused("A-2", Some(b'0'), Some(99))), [CANCEL_MESSAGE]);
    assert_eq!(day.stands(), (b'0', 0, 100 * SHARES));
}
