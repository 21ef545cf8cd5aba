//! What was decided where the desk's documents were open, as docs/SCOPE.md has it, each by a short list.

use model::answer::messages;
use model::day::*;
use model::events::{self, Filled, Named};
use model::numbers::{MAX_PRICE, MAX_QTY};
use model::record::*;

const NONE: u128 = u128::MAX;

#[test]
fn a_fill_price_has_128_bits_and_is_0_where_no_report_set_it() {
    let mut day = Day::start(10_000);
    day.send(&events::book(VENUE_1, &named(), b"A", b"c1", MAX_QTY, None));
    let first = Filled { cum_qty: MAX_QTY - 1, ..Filled::default() };
    day.send(&report(b'F', b'1', first));
    let last = Filled { cum_qty: MAX_QTY, avg_px: MAX_PRICE, ..Filled::default() };
    assert_eq!(day.told(&report(b'F', b'1', last), [FILL_PRICE]), [10_u128.pow(26)]);
    assert_eq!(day.told(&cancel("c1").mark(REDELIVERED), [FILL_PRICE, LAST_QTY]), [0, 0]);
}

#[test]
fn a_text_that_came_goes_back_even_if_it_spells_a_fixed_one() {
    for (text, told) in [(Some("rejected by the venue"), [0, NONE]), (None, [NONE, 10])] {
        let mut day = Day::booked();
        day.send(&cancel("c2"));
        let refused = refused("A-1", None, None).maybe(text, |draft, text| draft.text(TEXT, text));
        assert_eq!(day.told(&refused, [TEXT, FIXED_TEXT]), told);
    }
}

#[test]
fn a_failed_first_send_is_99_ours_with_its_text_or_number_11() {
    let mut day = Day::booked();
    let failed = events::send_failed(VENUE_1, b"A", b"down");
    let told = day.told(&failed, [REASON, ORIGIN, TEXT, FIXED_TEXT, FILL_PRICE]);
    assert_eq!(told, [99, 1, 0, NONE, 0]);
    let mut day = Day::new();
    day.send(&cancel("c2"));
    day.send(&report(b'4', b'4', Filled::default()));
    let again = events::send_again(VENUE_1, b"A-1");
    assert_eq!(day.told(&again, [REASON, ORIGIN, FIXED_TEXT, RESPONSE_TO]), [99, 1, 11, 1]);
}

#[test]
fn a_reason_is_the_venues_exactly_where_it_gave_one() {
    for (reason, told) in [(Some(99), [99, 2]), (Some(u32::MAX), [u32::MAX.into(), 2]), (None, [99, 1])] {
        let mut day = Day::booked();
        day.send(&cancel("c2"));
        assert_eq!(day.told(&refused("A-1", None, reason), [REASON, ORIGIN]), told);
    }
}

#[test]
fn unknown_names_raise_alarm_3_or_nothing() {
    let mut day = Day::booked();
    for (event, alarm) in [
        (events::report(VENUE_1, b"B", b'0', None, Filled::default()), 3),
        (events::unknown_at_venue(VENUE_1, b"B"), 3),
        (refused("B", None, None), 3),
        (events::send_failed(VENUE_1, b"B", b"x"), 0),
        (events::send_again(VENUE_1, b"B"), 0),
        (events::gateway_cancel(b"B"), 0),
    ] {
        assert_eq!(day.send(&event), (0, 0, alarm));
    }
}

#[test]
fn a_reject_for_no_order_has_no_name_and_status_8() {
    let mut day = Day::booked();
    let unknown = events::cancel(&named(), b"c2", b"c9");
    let answer = day.outcome(&unknown).expect("taken");
    let message = &messages(&answer)[0];
    assert_eq!((message.has(NAME), message.code(ORD_STATUS), message.number(REASON)), (false, b'8', 1));
}

#[test]
fn a_refused_requests_cl_ord_id_stays_unused() {
    let mut day = Day::booked();
    let elsewhere = Named { side: b'2', ..named() };
    assert_eq!(day.told(&events::cancel(&elsewhere, b"c2", b"c1"), [FIXED_TEXT]), [9]);
    assert_eq!(day.book("B", "c2"), (0, 0, 0));
    assert_eq!(day.book("C", "c2"), (5, 0, 0));
}

#[test]
fn refusals_of_a_request_come_in_order() {
    let mut day = Day::start(1);
    day.book("A", "c1");
    let elsewhere = Named { side: b'2', ..named() };
    let wrong = |cl_ord_id: &[u8], orig: &[u8]| events::cancel(&elsewhere, cl_ord_id, orig);
    assert_eq!(day.told(&wrong(b"c1", b"c9"), [FIXED_TEXT, REASON]), [5, 6]);
    assert_eq!(day.told(&wrong(b"c2", b"c9"), [FIXED_TEXT, REASON]), [6, 1]);
    assert_eq!(day.told(&wrong(b"c2", b"c1"), [FIXED_TEXT, REASON]), [8, 99]);
    day.send(&report(b'4', b'4', Filled::default()));
    assert_eq!(day.told(&wrong(b"c2", b"c1"), [FIXED_TEXT, REASON]), [7, 0]);
}

#[test]
fn an_unknown_at_venue_alarm_is_raised_each_time() {
    let mut day = Day::booked();
    for _ in 0..2 {
        assert_eq!(day.send(&events::unknown_at_venue(VENUE_1, b"A")), (0, 0, 4));
        let says = report(b'I', b'8', Filled::default()).number(REASON, 5_u8);
        assert_eq!(day.send(&says), (0, 0, 4));
    }
}

#[test]
fn a_gateway_cancel_asked_again_starts_its_tries_over() {
    let mut day = Day::booked();
    day.send(&events::gateway_cancel(b"A"));
    assert_eq!(day.send(&events::gateway_cancel(b"A")), (0, 0, 0), "one is out");
    assert_eq!(day.send(&refused("A-1", None, Some(99))), (0, 1, 0));
    assert_eq!(day.send(&refused("A-2", None, Some(0))), (0, 0, 1));
    assert_eq!(day.send(&events::gateway_cancel(b"A")), (0, 1, 0));
    let tries = day.0.machine.order(b"A").and_then(|order| order.gateway_cancel.as_ref().map(|g| g.tries));
    assert_eq!(tries, Some(1));
}
