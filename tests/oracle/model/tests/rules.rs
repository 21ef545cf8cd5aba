//! Each rule of the book, demand 3 and the Rust's own check are seen to fail where they should:
//! an order is altered from outside, and the next event that is taken says so.

use gateway::book::{Order, Status};
use model::day::*;
use model::events;
use model::numbers::qty;

/// What the watch says after `alter` and an event that changes nothing.
fn said(mut day: Day, alter: impl FnOnce(&mut Order)) -> String {
    alter(day.0.machine.order_mut(b"A").expect("booked"));
    let nothing = events::gateway_cancel(b"B").bytes();
    day.0.event(&nothing, 1_024).expect_err("the alteration breaks something")
}

/// An order with a replace pending as A-1, and the gateway's cancel out as A-2.
fn busy() -> Day {
    let mut day = Day::new();
    assert_eq!(day.send(&replace("c2", 50)), (0, 1, 0));
    assert_eq!(day.send(&events::gateway_cancel(b"A")), (0, 1, 0));
    day
}

fn broken(rule: &str, alter: impl FnOnce(&mut Order)) {
    let said = said(busy(), alter);
    assert!(said.contains(rule), "{said}");
}

#[test]
fn each_rule_of_an_order() {
    broken("in its range", |order| order.request.qty = qty(1_000_000_000_001));
    broken("in its range", |order| order.request.symbol = "".into());
    broken("the first request or a replace", |order| order.downstream = "A-2".into());
    broken("the latest cancel is a cancel", |order| order.cancel = Some("A-1".into()));
    broken("at most ordered", |order| {
        (order.cum_qty, order.status) = (qty(1_000_001), Status::PartiallyFilled);
    });
    broken("is not A or 0", |order| order.cum_qty = qty(1));
    broken("no pending terms", |order| order.status = Status::Canceled);
    broken("unanswered client replace", |order| {
        order.pending.as_mut().expect("pending").downstream = "A".into();
    });
    broken("the amendments and one", |order| order.amendments = 3);
    broken("at most 3", |order| order.gateway_cancel.as_mut().expect("out").tries = 4);
    broken("tried, sent and not stuck", |order| order.gateway_cancel.as_mut().expect("out").stuck = true);
    broken("tried, sent and not stuck", |order| order.gateway_cancel = None);
}

#[test]
fn tries_are_at_most_2_where_unsent() {
    let mut day = busy();
    day.send(&events::send_failed(VENUE_1, b"A-2", b"down"));
    let said = said(day, |order| order.gateway_cancel.as_mut().expect("waiting").tries = 3);
    assert!(said.contains("at most 2 where unsent"), "{said}");
}

#[test]
fn each_part_of_demand_3() {
    let mut day = Day::new();
    day.send(&filled(40, 40, 10 * UNIT, 10 * UNIT));
    let heard = said(day, |order| order.cum_qty = qty(400_001));
    assert!(heard.contains("LastQtys add up to 400000"), "{heard}");
    let heard = said(busy(), |order| order.gateway_cancel.as_mut().expect("out").tries = 2);
    assert!(heard.contains("2 tries, 1 put out, 0 failed"), "{heard}");
    let mut day = Day::new();
    day.send(&report(b'4', b'4', Default::default()));
    let heard = said(day, |order| order.status = Status::Expired);
    assert!(heard.contains("done status 4 became C"), "{heard}");
}

#[test]
fn an_orig_cl_ord_id_names_an_earlier_request() {
    for named in ["c3", "", "c9"] {
        let mut day = busy();
        day.0.machine.sent_mut(b"A-1").expect("a request").orig_cl_ord_id = Some(named.into());
        let heard = said(day, |_| {});
        assert!(
            heard.contains(if named.is_empty() { "in its range" } else { "an earlier request" }),
            "{heard}"
        );
    }
    let mut day = busy();
    day.0.machine.sent_mut(b"A-1").expect("a request").orig_cl_ord_id = Some("c2".into());
    let heard = said(day, |_| {});
    assert!(heard.contains("an earlier request"), "{heard}");
}
