//! Probes of hidden state: short chains of events, run on copies of a book, whose answers show
//! what stands in its orders and requests.

use gateway::book::{OrdType, Order, OrderId};
use lists::random::Random;
use model::Machine;
use model::answer::{bytes, client_number};
use model::codes::side_code;
use model::done_for_day::status_of;
use model::events::{self, Filled, Named};
use model::numbers::{price_count, qty_count};
use model::record::*;

pub type Chain = Vec<Vec<u8>>;

/// A chain about one order, drawn by `random`.
pub fn draw(machine: &Machine, random: &mut Random) -> Option<Chain> {
    let booked = machine.book().order_table().len() as u64;
    let order = machine.book().order(OrderId(1 + random.below(booked.max(1))))?;
    let number = random.range(0, order.amendments.into()) as u32;
    let mut chains = of_order(order);
    chains.extend(of_request(order, number));
    let at = random.below(chains.len() as u64) as usize;
    Some(chains.swap_remove(at))
}

/// Every chain about every order and request.
pub fn all(machine: &Machine) -> Vec<Chain> {
    let booked = machine.book().order_table().len() as u64;
    let orders = (1..=booked).filter_map(|id| machine.book().order(OrderId(id)));
    orders
        .flat_map(|order| {
            let requests = (0..=order.amendments).flat_map(|number| of_request(order, number));
            of_order(order).into_iter().chain(requests)
        })
        .collect()
}

fn downstream(order: &Order, number: u32) -> Vec<u8> {
    match number {
        0 => bytes(&order.name),
        number => bytes(&format!("{}-{number}", order.name)),
    }
}

fn named(order: &Order) -> Named {
    Named {
        client: client_number(&order.client),
        symbol: bytes(&order.request.symbol),
        side: side_code(order.request.side),
    }
}

/// Its status and terms; a cancel, a replace, and the gateway's cancel refused until it is stuck.
fn of_order(order: &Order) -> Vec<Chain> {
    let (named, current, name) = (named(order), bytes(&order.request.cl_ord_id), bytes(&order.name));
    let qty = qty_count(order.request.qty);
    let price = order.request.price.map(|price| price_count(price) as u64);
    let price = if order.request.ord_type == OrdType::Limit { price } else { None };
    let venue: u16 = order.venue.parse().expect("a venue is a number");
    let status = events::cancel(&named, &current, &current).mark(REDELIVERED);
    let cancel = events::cancel(&named, b"probe 1", &current);
    let replace = events::replace(&named, b"probe 2", &current, qty, price);
    let refused = |number: u32| events::cancel_reject(venue, &downstream(order, number), None, Some(99));
    let next = order.amendments + 1;
    let refusals = [refused(next - 1), refused(next), refused(next + 1), refused(next + 2)];
    let accepted = Filled { cum_qty: qty_count(order.cum_qty), ..Filled::default() };
    let accept = events::report(venue, &downstream(order, next), b'5', Some(b'0'), accepted);
    let chain = |drafts: &[Draft]| drafts.iter().map(Draft::bytes).collect();
    let gateway_cancel = events::gateway_cancel(&name);
    vec![
        chain(std::slice::from_ref(&status)),
        chain(&[cancel.clone(), gateway_cancel.clone(), refusals[1].clone()]),
        chain(&[replace.clone(), events::send_again(venue, &downstream(order, next))]),
        chain(&[replace, accept, status]),
        chain(&refusals),
        chain(&[gateway_cancel]),
    ]
}

/// What the request is and whether it was answered.
fn of_request(order: &Order, number: u32) -> Vec<Chain> {
    let venue: u16 = order.venue.parse().expect("a venue is a number");
    let downstream = downstream(order, number);
    let cum_qty = qty_count(order.cum_qty);
    let filled = Filled { cum_qty, ..Filled::default() };
    let rise = Filled { last_qty: 1, last_px: 1, cum_qty: cum_qty + 1, avg_px: 1 };
    let status = status_of(order);
    let drafts = [
        events::send_again(venue, &downstream),
        events::send_failed(venue, &downstream, b"probe"),
        events::cancel_reject(venue, &downstream, None, Some(0)),
        events::cancel_reject(venue.wrapping_add(1), &downstream, None, None),
        events::report(venue, &downstream, b'E', Some(b'E'), filled),
        events::report(venue, &downstream, b'D', Some(status), filled),
        events::report(venue, &downstream, b'F', Some(b'1'), rise),
        events::unknown_at_venue(venue, &downstream),
    ];
    drafts.iter().map(|draft| vec![draft.bytes()]).collect()
}
