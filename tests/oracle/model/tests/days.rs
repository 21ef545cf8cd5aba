//! docs/SCOPE.md, Days in small, line by line, and what it states in passing, through the model.

use model::answer::{HEAD, messages};
use model::day::*;
use model::events::{self, Filled};
use model::record::*;

#[test]
fn new_then_a_fill_then_the_same_again() {
    let mut day = Day::booked();
    let new = report(b'0', b'0', Filled::default());
    assert_eq!(day.told(&new, [LAST_QTY, REPORT_SEQUENCE]), [0, 1]);
    let fill = filled(40, 40, 10 * UNIT, 10 * UNIT);
    assert_eq!(day.told(&fill, [LAST_QTY, LEAVES_QTY]), [400_000, 600_000]);
    assert_eq!(day.send(&fill), (0, 0, 0));
}

#[test]
fn a_missed_fill_has_the_rise_and_its_implied_price() {
    let mut day = Day::new();
    day.send(&filled(40, 40, 10 * UNIT, 10 * UNIT));
    let missed = filled(70, 10, 11 * UNIT, 1_030_000_000);
    assert_eq!(day.told(&missed, [LAST_QTY, FILL_PRICE]), [300_000, 1_070_000_000]);
}

#[test]
fn the_whole_quantity_applies_and_one_more_is_an_overfill() {
    let mut day = Day::new();
    let whole = filled(100, 100, 10 * UNIT, 10 * UNIT);
    assert_eq!(day.told(&whole, [CUM_QTY, LEAVES_QTY]), [1_000_000, 0]);
    let before = format!("{:?}", day.0.machine.order(b"A"));
    assert_eq!(day.send(&filled(101, 1, 10 * UNIT, 10 * UNIT)), (0, 0, 2));
    assert_eq!(format!("{:?}", day.0.machine.order(b"A")), before);
    let mut day = Day::new();
    assert_eq!(day.send(&filled(101, 101, 10 * UNIT, 10 * UNIT)), (0, 0, 2));
}

#[test]
fn a_replace_below_what_is_filled_is_refused() {
    let mut day = Day::new();
    day.send(&filled(40, 40, 10 * UNIT, 10 * UNIT));
    assert_eq!(day.told(&replace("c2", 39), [REASON, ORIGIN, FIXED_TEXT, RESPONSE_TO]), [99, 1, 3, 2]);
    assert_eq!(day.told(&replace("c2", 40), [QTY, PRICE]), [400_000, 1_000_000_000]);
}

#[test]
fn a_half_goes_up() {
    for (first, price) in [(UNIT, 100_000_002), (UNIT + 2, 100_000_001)] {
        let mut day = Day::new();
        day.send(&filled(1, 1, first, first));
        assert_eq!(day.told(&filled(3, 1, UNIT, UNIT + 1), [LAST_QTY, FILL_PRICE]), [20_000, price]);
    }
}

#[test]
fn a_quotient_that_is_not_positive_gives_the_average() {
    let mut day = Day::new();
    day.send(&filled(2, 2, UNIT, UNIT));
    assert_eq!(day.told(&filled(3, 0, 0, UNIT / 2), [LAST_QTY, FILL_PRICE]), [10_000, 50_000_000]);
}

#[test]
fn three_refused_gateway_cancels_are_stuck() {
    let mut day = Day::new();
    assert_eq!(day.send(&events::gateway_cancel(b"A")), (0, 1, 0));
    for (downstream, messages, alarm) in [("A-1", 1, 0), ("A-2", 1, 0), ("A-3", 0, 1)] {
        assert_eq!(day.send(&refused(downstream, None, Some(99))), (0, messages, alarm));
    }
    let stuck = day.0.machine.order(b"A").and_then(|order| order.gateway_cancel.clone());
    assert!(stuck.is_some_and(|gateway| gateway.stuck && gateway.tries == 3));
}

#[test]
fn one_refused_as_unknown_is_stuck() {
    let mut day = Day::new();
    day.send(&events::gateway_cancel(b"A"));
    assert_eq!(day.send(&refused("A-1", None, Some(1))), (0, 0, 1));
}

#[test]
fn request_256_fits_and_the_next_does_not() {
    let mut day = Day::booked();
    for n in 2..=256 {
        assert_eq!(day.send(&cancel(&format!("c{n}"))), (0, 1, 0), "request {n}");
    }
    assert_eq!(day.send(&cancel("c257")), (7, 0, 0));
    assert_eq!(day.send(&replace("c257", 100)), (7, 0, 0));
    assert_eq!(day.book("B", "b1"), (7, 0, 0));
    assert_eq!(day.send(&events::gateway_cancel(b"A")), (0, 0, 0), "it waits, and adds none");
    assert_eq!(day.send(&refused("A-255", None, None)), (7, 0, 0), "its resuming adds one");
}

#[test]
fn the_day_programs_lines() {
    let mut day = Day::start(10_000);
    assert_eq!(day.book("A", "c1"), (0, 0, 0));
    assert_eq!(day.send(&report(b'0', b'0', Filled::default())), (0, 1, 0));
    assert_eq!(day.send(&filled(101, 101, 10 * UNIT, 10 * UNIT)), (0, 0, 2));
}

#[test]
fn order_65_does_not_fit() {
    let mut day = Day::start(0);
    for n in 0..64 {
        assert_eq!(day.book(&format!("N{n}"), &format!("c{n}")), (0, 0, 0));
    }
    assert_eq!(day.book("N64", "c64"), (7, 0, 0));
    assert_eq!(day.book("N64", "c0"), (5, 0, 0));
    assert_eq!(day.book("N0", "c64"), (5, 0, 0));
}

#[test]
fn questions_come_in_order() {
    let mut day = Day::booked();
    let again = events::book(VENUE_1, &named(), b"A", b"c1", SHARE, Some(UNIT));
    let mut cut = again.bytes();
    cut.pop();
    let outcome = |day: &mut Day, bytes: &[u8], buffer| day.0.event(bytes, buffer).expect("watched");
    assert_eq!(outcome(&mut day, &cut, 1_023), Err(2));
    assert_eq!(outcome(&mut day, &cut, 1_024), Err(3));
    assert_eq!(outcome(&mut day, &again.clone().number(SIDE, b'3').bytes(), 1_024), Err(4));
    assert_eq!(outcome(&mut day, &again.clone().without(PRICE).bytes(), 1_024), Err(5));
    let other = again.text(NAME, "B").text(CL_ORD_ID, "b1");
    assert_eq!(outcome(&mut day, &other.clone().without(PRICE).bytes(), 1_024), Err(6));
    assert_eq!(outcome(&mut day, &other.bytes(), usize::MAX).map(|answer| answer.len()), Ok(HEAD));
}

#[test]
fn a_replaces_price_is_asked_after_all_trade_refusals() {
    let mut day = Day::new();
    let unpriced = events::replace(&named(), b"c2", b"c1", 50 * SHARE, None);
    assert_eq!(day.send(&unpriced), (6, 0, 0));
    let market = unpriced.clone().number(ORD_TYPE, b'1');
    let refused = market.clone().number(PRICE, UNIT).number(VERDICT, 7_u8);
    assert_eq!(day.told(&refused, [FIXED_TEXT]), [18]);
    assert_eq!(day.send(&refused.number(VERDICT, 0_u8)), (6, 0, 0));
    assert_eq!(day.told(&market, [ORD_TYPE, PRICE]), [u128::from(b'1'), u128::MAX]);
    assert_eq!(day.send(&unpriced.text(CL_ORD_ID, "c3")), (0, 1, 0), "a replace is pending: refused");
}

#[test]
fn after_the_last_report_sequence_comes_0() {
    let mut day = Day::booked();
    let again = events::cancel(&named(), b"c1", b"c1").mark(REDELIVERED);
    day.0.machine.set_report_sequence(b"A", u64::MAX - 1);
    for sequence in [u64::MAX.into(), 0, 1] {
        assert_eq!(day.told(&again, [REPORT_SEQUENCE]), [sequence]);
    }
}

#[test]
fn a_waiting_gateway_cancel_resumes_on_any_cancel_reject_of_its_order() {
    let start = || {
        let mut day = Day::new();
        assert_eq!(day.send(&cancel("c2")), (0, 1, 0));
        assert_eq!(day.send(&events::gateway_cancel(b"A")), (0, 0, 0));
        day
    };
    let mut day = start();
    assert_eq!(day.send(&refused("A-1", None, None)), (0, 2, 0));
    let mut day = start();
    assert_eq!(day.send(&events::send_failed(VENUE_1, b"A-1", b"down")), (0, 1, 0), "not by a failed send");
    assert_eq!(day.send(&events::cancel_reject(2, b"A-1", None, None)), (0, 1, 0), "another venue's");
}

#[test]
fn the_setting_counts_every_cl_ord_id() {
    let mut day = Day::start(2);
    day.book("A", "c1");
    assert_eq!(day.told(&cancel("c2"), [FIXED_TEXT]), [u128::MAX]);
    assert_eq!(day.told(&cancel("c3"), [FIXED_TEXT, REASON]), [8, 99]);
}

#[test]
fn texts_are_any_bytes() {
    let all: Vec<u8> = (0..=255).collect();
    let mut day = Day::new();
    for (n, text) in all.chunks(32).enumerate() {
        let cancel = events::cancel(&named(), text, b"c1");
        assert_eq!(day.send(&cancel), (0, 1, 0));
        let downstream = format!("A-{}", n + 1);
        let answer = day.outcome(&refused(&downstream, None, None).text(TEXT, text)).expect("taken");
        let message = &messages(&answer)[0];
        assert_eq!((message.text(TEXT), message.text(CL_ORD_ID)), (text, text));
    }
}
