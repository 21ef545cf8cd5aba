//! Where the price of a report comes from: the source follows the rule that was used, and not the
//! value.

use model::day::*;
use model::events::{self, Filled};
use model::record::*;

/// Price and source of the only message, a report.
fn told(day: &mut Day, event: &Draft) -> (u128, u128) {
    let [price, source] = day.told(event, [FILL_PRICE, PRICE_SOURCE]);
    (price, source)
}

#[test]
fn the_reports_own_fill_is_told_at_last_px() {
    let mut day = Day::new();
    let own = told(&mut day, &filled(40, 40, 10 * UNIT, 11 * UNIT));
    assert_eq!(own, (u128::from(10 * UNIT), 1));
}

#[test]
fn a_missed_fill_is_told_at_the_quotient_also_where_that_is_last_px() {
    let mut day = Day::new();
    assert_eq!(told(&mut day, &filled(1, 1, 10 * UNIT, 10 * UNIT)), (u128::from(10 * UNIT), 1));
    assert_eq!(told(&mut day, &filled(3, 1, 10 * UNIT, 10 * UNIT)), (u128::from(10 * UNIT), 2));
    assert_eq!(told(&mut day, &filled(4, 1, 0, 10 * UNIT)), (u128::from(10 * UNIT), 2), "no LastPx");
}

#[test]
fn a_quotient_that_is_not_positive_is_told_as_the_average() {
    let mut day = Day::new();
    day.send(&filled(2, 2, UNIT, UNIT));
    assert_eq!(told(&mut day, &filled(3, 0, UNIT, UNIT / 2)), (50_000_000, 3));
    assert_eq!(told(&mut day, &filled(4, 0, UNIT, 0)), (0, 3));
}

#[test]
fn half_of_the_smallest_unit_is_1_by_the_quotient_and_less_is_the_average() {
    for (first, second, right) in
        [((3, 3), (5, 2), (1, 2)), ((97, 50), (99, 49), (1, 2)), ((3, 3), (10, 1), (1, 3))]
    {
        let mut day = Day::new();
        day.send(&filled(first.0, first.0, first.1, first.1));
        assert_eq!(told(&mut day, &filled(second.0, 0, 0, second.1)), right);
    }
}

#[test]
fn a_report_without_a_rise_has_a_source_too() {
    for (last_px, avg_px, right) in [(7, 0, (7, 1)), (7, 7, (7, 1)), (0, 7, (7, 3)), (0, 0, (0, 3))] {
        let mut day = Day::booked();
        let new = report(b'0', b'0', fill(0, 0, last_px, avg_px));
        assert_eq!(told(&mut day, &new), right);
    }
}

#[test]
fn a_report_that_answers_no_venues_report_has_source_0() {
    let mut day = Day::new();
    day.send(&filled(40, 40, 10 * UNIT, 10 * UNIT));
    assert_eq!(told(&mut day, &cancel("c1").mark(REDELIVERED)), (0, 0));
    assert_eq!(told(&mut day, &replace("c1", 50).mark(REDELIVERED)), (0, 0));
    let mut day = Day::booked();
    assert_eq!(told(&mut day, &events::send_failed(VENUE_1, b"A", b"down")), (0, 0));
}

#[test]
fn no_other_message_has_a_source() {
    let mut day = Day::booked();
    let none = u128::MAX;
    assert_eq!(day.told(&events::send_again(VENUE_1, b"A"), [PRICE_SOURCE]), [none]);
    day.send(&report(b'0', b'0', Filled::default()));
    assert_eq!(day.told(&cancel("c2"), [PRICE_SOURCE]), [none]);
    assert_eq!(day.told(&refused("A-1", None, None), [PRICE_SOURCE]), [none]);
    assert_eq!(day.told(&replace("c3", 50), [PRICE_SOURCE]), [none]);
}
