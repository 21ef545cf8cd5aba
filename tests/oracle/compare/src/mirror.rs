//! The Rust's book as docs/LAYOUT.md writes it down, and back: every field of every order and
//! request, with links for downstream ClOrdIDs.

use std::collections::HashMap;

use gateway::book::oracle::client;
use gateway::book::{
    CancelKind, GatewayCancel, OrdType, Order, OrderId, OrderRequest, Origin, Pending, Sent, Status,
    TimeInForce,
};
use gateway::{CompactString, Decimal};
use model::Machine;
use model::answer::{bytes, client_number, latin1};
use model::codes;
use model::done_for_day::{CODE, status_of, taken_as};
use model::numbers::{price, price_count, qty, qty_count};
use model::outcomes::Outcomes;

use crate::layout::{self, Book, Text};
use crate::opens;

/// The downstream ClOrdIDs of all requests in the order of sending, which the Rust does not keep.
#[derive(Debug, Clone, Default)]
pub struct Sending(Vec<CompactString>);

impl Sending {
    /// Takes in what the last event has added: at most one request.
    pub fn follow(&mut self, machine: &Machine) {
        let table = machine.book().request_table();
        if table.len() > self.0.len() {
            let mut added = table.keys().filter(|downstream| !self.0.contains(*downstream));
            self.0.extend(added.next().cloned());
        }
        assert_eq!(table.len(), self.0.len(), "an event adds at most one request");
    }
}

/// The machine's book as it should stand in the buffer.
pub fn book(machine: &Machine, sending: &Sending) -> Book {
    let requests = &sending.0;
    let links: HashMap<&str, u64> = requests.iter().map(CompactString::as_str).zip(1..).collect();
    let link = |downstream: &CompactString| links.get(downstream.as_str()).copied().expect("a request");
    let orders = machine.book().order_table().len() as u64;
    let order = |id: u64| machine.book().order(OrderId(id)).expect("orders are numbered as they are booked");
    let sent = |name: &CompactString| machine.book().sent(name).expect("a request");
    let origins = origins(requests, sent);
    let beside = |name: &CompactString| (machine.outcomes().of(name), origins(name));
    Book {
        header: layout::Header { orders, requests: requests.len() as u64, setting: machine.setting().into() },
        orders: (1..=orders).map(|id| order_record(order(id), link)).collect(),
        requests: requests.iter().map(|name| request_record(name, sent(name), beside(name))).collect(),
        opens: opens::stored(machine),
    }
}

/// The link of the request that each request's OrigClOrdID names, among those of its order; 0 without one.
fn origins<'a>(
    requests: &'a [CompactString],
    sent: impl Fn(&'a CompactString) -> &'a Sent,
) -> impl Fn(&CompactString) -> u64 {
    let key = |sent: &Sent, name: &CompactString| (sent.order, bytes(name));
    let clients = requests.iter().zip(1..).map(|(name, link)| (sent(name), link));
    let clients = clients.filter(|(sent, _)| sent.origin == Origin::Client);
    let links: HashMap<_, u64> = clients.map(|(sent, link)| (key(sent, &sent.cl_ord_id), link)).collect();
    let named = requests.iter().filter_map(|name| Some((name, sent(name).orig_cl_ord_id.as_ref()?)));
    let named: HashMap<_, u64> = named
        .map(|(name, named)| (name.clone(), links.get(&key(sent(name), named)).copied().unwrap_or(0)))
        .collect();
    move |name| named.get(name).copied().unwrap_or(0)
}

fn text(text: &CompactString) -> Text {
    Text::new(&bytes(text))
}

/// A price that is not there is 0: it stands exactly if the type is limit.
fn price_or_0(price: Option<Decimal>) -> u64 {
    price.map_or(0, |price| price_count(price) as u64)
}

fn force_or_0(time_in_force: Option<TimeInForce>) -> u64 {
    time_in_force.map_or(0, |force| codes::time_in_force_code(force).into())
}

fn order_record(order: &Order, link: impl Fn(&CompactString) -> u64) -> layout::Order {
    let (pending, gateway) = (order.pending.as_ref(), order.gateway_cancel.as_ref());
    layout::Order {
        client: client_number(&order.client).into(),
        venue: order.venue.parse().expect("a venue is a number"),
        name: text(&order.name),
        cl_ord_id: text(&order.request.cl_ord_id),
        downstream: text(&order.downstream),
        symbol: text(&order.request.symbol),
        venue_order_id: text(&order.venue_order_id.clone().unwrap_or_default()),
        side: codes::side_code(order.request.side).into(),
        ord_type: codes::ord_type_code(order.request.ord_type).into(),
        time_in_force: force_or_0(order.request.time_in_force),
        qty: qty_count(order.request.qty),
        price: price_or_0(order.request.price),
        status: status_of(order).into(),
        cum_qty: qty_count(order.cum_qty),
        avg_px: price_count(order.avg_px) as u64,
        exec_seq: order.exec_seq,
        amendments: order.amendments.into(),
        current: link(&order.downstream),
        cancel: order.cancel.as_ref().map_or(0, &link),
        pending: pending.map_or(0, |pending| link(&pending.downstream)),
        pending_qty: pending.map_or(0, |pending| qty_count(pending.qty)),
        pending_price: pending.map_or(0, |pending| price_or_0(pending.price)),
        pending_ord_type: pending.map_or(0, |pending| codes::ord_type_code(pending.ord_type).into()),
        pending_time_in_force: pending.map_or(0, |pending| force_or_0(pending.time_in_force)),
        stage: gateway.map_or(layout::NONE, stage),
        tries: gateway.map_or(0, |gateway| gateway.tries.into()),
        orig_downstream: gateway.map_or(0, |gateway| link(&gateway.orig_downstream)),
        refused_sends: gateway.map_or(0, |gateway| gateway.refused_sends.into()),
    }
}

fn stage(gateway: &GatewayCancel) -> u64 {
    match (gateway.unsent, gateway.stuck) {
        (true, false) => layout::UNSENT,
        (false, false) => layout::SENT,
        (false, true) => layout::STUCK,
        (true, true) => panic!("unsent and stuck cannot be written down"),
    }
}

/// A request's record; its outcome and its origin come beside it.
fn request_record(downstream: &CompactString, sent: &Sent, (outcome, origin): (u8, u64)) -> layout::Request {
    let kind = match (sent.origin, sent.kind) {
        (Origin::Client, None) => layout::FIRST,
        (Origin::Client, Some(CancelKind::Cancel)) => layout::CLIENT_CANCEL,
        (Origin::Client, Some(CancelKind::Replace)) => layout::CLIENT_REPLACE,
        (Origin::Gateway, Some(CancelKind::Cancel)) => layout::GATEWAY_CANCEL,
        (Origin::Gateway, _) => panic!("no such request exists"),
    };
    layout::Request {
        order: sent.order.0 - 1,
        kind,
        answered: sent.answered.into(),
        cl_ord_id: text(&sent.cl_ord_id),
        orig_cl_ord_id: text(&sent.orig_cl_ord_id.clone().unwrap_or_default()),
        downstream: text(downstream),
        outcome: outcome.into(),
        origin,
    }
}

/// The machine that has this book, which keeps its rules.
pub fn machine(book: &Book) -> (Machine, Sending) {
    let sending = Sending(book.requests.iter().map(|request| latin1(request.downstream.text())).collect());
    let downstream = |link: u64| sending.0[link as usize - 1].clone();
    let orders = book.orders.iter().zip(1..).map(|(order, id)| order_back(book, order, id, downstream));
    let requests =
        book.requests.iter().map(|request| (latin1(request.downstream.text()), sent_back(request)));
    let outcomes = sending.0.iter().cloned().zip(book.requests.iter().map(|request| request.outcome as u8));
    let outcomes = Outcomes::new(outcomes);
    (Machine::restored(book.header.setting as u32, orders.collect(), requests.collect(), outcomes), sending)
}

fn order_back(
    book: &Book,
    order: &layout::Order,
    id: u64,
    downstream: impl Fn(u64) -> CompactString,
) -> Order {
    let venue_order_id = latin1(order.venue_order_id.text());
    let pending = (order.pending != 0).then(|| pending_back(book, order, downstream(order.pending)));
    let gateway_cancel = (order.stage != layout::NONE).then(|| GatewayCancel {
        tries: order.tries as u32,
        unsent: order.stage == layout::UNSENT,
        stuck: order.stage == layout::STUCK,
        orig_downstream: downstream(order.orig_downstream),
        refused_sends: order.refused_sends as u32,
    });
    Order {
        id: OrderId(id),
        name: latin1(order.name.text()),
        client: client(order.client as u16),
        venue: latin1(order.venue.to_string().as_bytes()),
        request: request_back(order),
        downstream: latin1(order.downstream.text()),
        amendments: order.amendments as u32,
        status: status_back(order),
        cum_qty: qty(order.cum_qty),
        avg_px: price(order.avg_px),
        risk_price: Decimal::ZERO,
        pending,
        exec_seq: order.exec_seq,
        venue_order_id: (!venue_order_id.is_empty()).then_some(venue_order_id),
        cancel: (order.cancel != 0).then(|| downstream(order.cancel)),
        gateway_cancel,
    }
}

/// The pending replace; its ClOrdID is its request's.
fn pending_back(book: &Book, order: &layout::Order, downstream: CompactString) -> Pending {
    Pending {
        downstream,
        cl_ord_id: latin1(book.requests[order.pending as usize - 1].cl_ord_id.text()),
        qty: qty(order.pending_qty),
        price: price_back(order.pending_ord_type, order.pending_price),
        ord_type: codes::ord_type(order.pending_ord_type as u8),
        time_in_force: force_back(order.pending_time_in_force),
        risk_price: Decimal::ZERO,
    }
}

/// The Rust's status; for a 3 what it is taken as.
fn status_back(order: &layout::Order) -> Status {
    match order.status as u8 {
        CODE => taken_as(qty(order.cum_qty)),
        code => codes::status(code),
    }
}

fn request_back(order: &layout::Order) -> OrderRequest {
    OrderRequest {
        cl_ord_id: latin1(order.cl_ord_id.text()),
        // The mark of an order that is done for the day.
        account: (order.status == CODE.into()).then(|| latin1(&[CODE])),
        symbol: latin1(order.symbol.text()),
        side: codes::side(order.side as u8),
        ord_type: codes::ord_type(order.ord_type as u8),
        qty: qty(order.qty),
        price: price_back(order.ord_type, order.price),
        ex_destination: None,
        time_in_force: force_back(order.time_in_force),
    }
}

fn price_back(ord_type: u64, count: u64) -> Option<Decimal> {
    (codes::ord_type(ord_type as u8) == OrdType::Limit).then(|| price(count))
}

fn force_back(code: u64) -> Option<TimeInForce> {
    (code != 0).then(|| codes::time_in_force(code as u8))
}

fn sent_back(request: &layout::Request) -> Sent {
    let text = |text: &Text| latin1(text.text());
    let (origin, kind) = match request.kind {
        layout::FIRST => (Origin::Client, None),
        layout::CLIENT_CANCEL => (Origin::Client, Some(CancelKind::Cancel)),
        layout::CLIENT_REPLACE => (Origin::Client, Some(CancelKind::Replace)),
        _ => (Origin::Gateway, Some(CancelKind::Cancel)),
    };
    Sent {
        order: OrderId(request.order + 1),
        origin,
        cl_ord_id: text(&request.cl_ord_id),
        orig_cl_ord_id: (request.orig_cl_ord_id.length > 0).then(|| text(&request.orig_cl_ord_id)),
        kind,
        answered: request.answered == 1,
        sent_at: gateway::book::oracle::NO_TIME,
    }
}
