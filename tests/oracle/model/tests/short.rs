//! A Filled below the quantity, by reports and by refusals: the order stays live, with alarm 6. All
//! on an order limit 100 at 10, named A.

use model::answer::{alarms, messages};
use model::day::*;
use model::events::{self, Filled};
use model::record::*;

/// The kinds of the messages, and the alarms.
fn said(day: &mut Day, event: &Draft) -> (Vec<u8>, [u8; 2]) {
    let answer = day.outcome(event).expect("taken");
    (messages(&answer).iter().map(|message| message.kind).collect(), alarms(&answer))
}

fn none() -> Filled {
    Filled::default()
}

fn under(downstream: &str, exec_type: u8, status: u8, filled: Filled) -> Draft {
    events::report(VENUE_1, downstream.as_bytes(), exec_type, Some(status), filled)
}

fn at(cum: u64) -> Filled {
    fill(cum, cum, 10 * UNIT, 10 * UNIT)
}

const SHARES: u128 = 10_000;

#[test]
fn a_short_report_leaves_new_at_0_and_partially_filled_above() {
    let mut day = Day::booked();
    assert_eq!(said(&mut day, &report(b'0', b'2', none())), (vec![REPORT_MESSAGE], [6, 0]));
    assert_eq!(day.stands(), (b'0', 0, 100 * SHARES));
    assert_eq!(said(&mut day, &report(b'F', b'2', at(1))), (vec![REPORT_MESSAGE], [6, 0]));
    assert_eq!(day.stands(), (b'1', SHARES, 99 * SHARES));
    assert_eq!(said(&mut day, &report(b'F', b'2', fill(100, 99, 10 * UNIT, 10 * UNIT))).1, [0, 0]);
    assert_eq!(day.stands(), (b'2', 100 * SHARES, 0));
}

#[test]
fn a_refusal_is_judged_by_the_book_and_not_by_its_report() {
    let mut day = Day::booked();
    day.send(&cancel("c2"));
    assert_eq!(said(&mut day, &under("A-1", b'8', b'2', at(100))), (vec![REJECT_MESSAGE], [6, 0]));
    assert_eq!(day.stands(), (b'0', 0, 100 * SHARES));
}

#[test]
fn a_short_status_in_a_cancel_reject_ends_no_order() {
    let mut day = Day::booked();
    day.send(&cancel("c2"));
    assert_eq!(said(&mut day, &refused("A-1", Some(b'2'), None)), (vec![REJECT_MESSAGE], [6, 0]));
    assert_eq!(day.stands(), (b'0', 0, 100 * SHARES));
}

#[test]
fn an_accepted_replace_counts() {
    let mut day = Day::booked();
    day.send(&filled(40, 40, 10 * UNIT, 10 * UNIT));
    day.send(&replace("c2", 40));
    assert_eq!(said(&mut day, &under("A-1", b'5', b'2', fill(40, 0, 0, 10 * UNIT))).1, [0, 0]);
    assert_eq!(day.stands(), (b'2', 40 * SHARES, 0));

    let mut whole = Day::booked();
    whole.send(&filled(100, 100, 10 * UNIT, 10 * UNIT));
    whole.send(&replace("c2", 150));
    let all = fill(100, 0, 0, 10 * UNIT);
    let mut other = Day(whole.0.clone());
    assert_eq!(said(&mut whole, &under("A-1", b'5', b'2', all)).1, [6, 0]);
    assert_eq!(whole.stands(), (b'1', 100 * SHARES, 50 * SHARES));
    assert_eq!(said(&mut other, &under("A", b'I', b'2', all)).1, [0, 0]);
    assert_eq!(other.stands(), (b'2', 100 * SHARES, 0));
}

#[test]
fn nothing_ordered_is_whole() {
    let mut day = Day::booked();
    day.send(&replace("c2", 0));
    assert_eq!(said(&mut day, &under("A-1", b'5', b'2', none())).1, [0, 0]);
    assert_eq!(day.stands(), (b'2', 0, 0));
}

#[test]
fn the_questions_see_filled_as_it_came() {
    let mut day = Day::booked();
    day.send(&cancel("c2"));
    day.send(&under("A-1", b'6', b'6', none()));
    assert_eq!(said(&mut day, &report(b'F', b'2', none())), (vec![REPORT_MESSAGE], [6, 0]));
    assert_eq!(day.stands(), (b'0', 0, 100 * SHARES));
    let mut day = Day::booked();
    for _ in 0..2 {
        assert_eq!(said(&mut day, &report(b'0', b'2', none())), (vec![REPORT_MESSAGE], [6, 0]));
    }
}

#[test]
fn what_follows_goes_by_the_status_left() {
    let mut day = Day::booked();
    day.send(&events::gateway_cancel(b"A"));
    assert_eq!(said(&mut day, &under("A-1", b'6', b'2', none())), (vec![], [6, 0]));
    assert_eq!(said(&mut day, &refused("A-1", Some(b'2'), Some(99))), (vec![CANCEL_MESSAGE], [6, 0]));
    assert_eq!(said(&mut day, &refused("A-2", Some(b'2'), Some(99))), (vec![CANCEL_MESSAGE], [6, 0]));
    assert_eq!(said(&mut day, &refused("A-3", Some(b'2'), Some(99))), (vec![], [6, 1]));
    assert_eq!(day.stands().0, b'0');
}

#[test]
fn a_waiting_gateway_cancel_goes_out_behind_the_clients_refusal() {
    let mut day = Day::booked();
    day.send(&cancel("c2"));
    day.send(&events::gateway_cancel(b"A"));
    let both = (vec![REJECT_MESSAGE, CANCEL_MESSAGE], [6, 0]);
    assert_eq!(said(&mut day, &refused("A-1", Some(b'2'), None)), both);
}

#[test]
fn stuck_by_the_reason_gives_both_alarms() {
    let mut day = Day::booked();
    day.send(&events::gateway_cancel(b"A"));
    assert_eq!(said(&mut day, &refused("A-1", Some(b'2'), Some(1))), (vec![], [6, 1]));
}

#[test]
fn what_would_set_nothing_raises_nothing() {
    let mut day = Day::booked();
    day.send(&cancel("c2"));
    let elsewhere = events::report(2, b"A", b'F', Some(b'2'), at(1));
    assert_eq!(said(&mut day, &elsewhere), (vec![], [0, 0]));
    assert_eq!(said(&mut day, &report(b'F', b'2', at(101))), (vec![], [2, 0]));
    assert_eq!(said(&mut day, &refused("A", Some(b'2'), None)), (vec![], [0, 0]), "names the first request");
    day.send(&refused("A-1", None, None));
    assert_eq!(said(&mut day, &refused("A-1", Some(b'2'), None)), (vec![], [0, 0]), "answered");
    assert_eq!(said(&mut day, &report(b'F', b'2', fill(0, 1, 0, 0))), (vec![], [0, 0]), "resent");
    day.send(&report(b'4', b'4', none()));
    assert_eq!(said(&mut day, &report(b'F', b'2', at(1))), (vec![], [5, 0]), "done");
}

#[test]
fn a_full_table_refuses_the_retry() {
    let list = full();
    let mut day = Day::start(10_000);
    let (retry, before) = list.split_last().expect("a list");
    before.iter().for_each(|event| assert_eq!(day.send(event).0, 0));
    assert_eq!(day.outcome(retry), Err(7));
}

/// 256 requests, the gateway's cancel A-1 among them, and its refusal.
fn full() -> Vec<Draft> {
    let book = |name: &str, id: &str| {
        events::book(VENUE_1, &named(), name.as_bytes(), id.as_bytes(), 100 * SHARE, Some(10 * UNIT))
    };
    let mut list = vec![book("A", "c1"), events::gateway_cancel(b"A"), book("B", "b")];
    list.extend((0..253).map(|i| events::cancel(&named(), format!("d{i}").as_bytes(), b"b")));
    list.push(refused("A-1", Some(b'2'), Some(99)));
    list
}
