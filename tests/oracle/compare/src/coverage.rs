//! Chooses lists for what they show: which log sites of the Rust ran, which kinds of events,
//! refusals, alarms and messages came with which fields and codes, and what each kind of event met.

use std::cmp::Ordering;
use std::collections::HashSet;

use gateway::book::oracle::client;
use gateway::book::{CancelKind, Origin};
use lists::List;
use model::Machine;
use model::answer::{latin1, messages};
use model::done_for_day::status_of;
use model::numbers::qty;
use model::record::*;

/// One thing that a list shows.
#[derive(Debug, Clone, PartialEq, Eq, Hash)]
pub enum Feature {
    LogSite(&'static str, u32),
    Refused(u8, u32),
    Taken { kind: u8, alarm: u8, messages: Vec<u8> },
    Message { kind: u8, map: u32, event: u8 },
    Codes { event: u8, exec_type: u8, status: u8, told: (u8, u8) },
    Reason { fixed_text: u8, reason: u32, origin: u8 },
    Met { kind: u8, order: Met, answer: Option<(u8, Vec<u8>)> },
}

/// The order and request that an event names, as far as its handling asks.
#[derive(Debug, Clone, PartialEq, Eq, Hash)]
pub struct Met {
    status: u8,
    filled: bool,
    pending: bool,
    venue_order_id: bool,
    gateway_cancel: Option<(u32, bool, bool)>,
    /// Whether it is the gateway's, what it is, and whether it was answered.
    request: Option<(bool, Option<bool>, bool)>,
    current: bool,
    other_venue: bool,
    /// How the event's quantity stands to the booked and the ordered one.
    quantity: (Ordering, Ordering),
}

/// What the event meets in the book, if it names an order that is there.
fn met(machine: &Machine, record: &Record<'_>) -> Option<Met> {
    let book = machine.book();
    let downstream = latin1(record.text(DOWNSTREAM));
    let sent = book.sent(&downstream).filter(|_| record.has(DOWNSTREAM));
    let by_client = || {
        let client = client(record.number(CLIENT) as u16);
        book.order_by_cl_ord_id(&client, &latin1(record.text(ORIG_CL_ORD_ID)))
    };
    let by_name = || machine.order(record.text(NAME)).map(|order| order.id);
    let order = book.order(sent.map(|sent| sent.order).or_else(by_client).or_else(by_name)?)?;
    let quantity = qty(record.number(if record.has(QTY) { QTY } else { CUM_QTY }));
    Some(Met {
        status: status_of(order),
        filled: order.cum_qty > qty(0),
        pending: order.pending.is_some(),
        venue_order_id: order.venue_order_id.is_some(),
        gateway_cancel: order.gateway_cancel.as_ref().map(|g| (g.tries, g.unsent, g.stuck)),
        request: sent.map(|sent| {
            let cancel = sent.kind.map(|kind| kind == CancelKind::Cancel);
            (sent.origin == Origin::Gateway, cancel, sent.answered)
        }),
        current: downstream == order.downstream,
        other_venue: record.has(VENUE) && order.venue.as_str() != record.number(VENUE).to_string(),
        quantity: (quantity.cmp(&order.cum_qty), quantity.cmp(&order.request.qty)),
    })
}

/// The features of a list, as the model runs it.
pub fn features(list: &List) -> HashSet<Feature> {
    let before = tracing::reached();
    let mut features = HashSet::new();
    let mut machine = Machine::start(list.setting);
    for item in &list.items {
        let read = Record::read_event(&item.record).filter(Record::in_range);
        let order = read.as_ref().and_then(|record| met(&machine, record));
        let outcome = machine.event(&item.record, item.answer_buffer);
        if let Some(order) = order {
            let kinds = |answer: &Vec<u8>| messages(answer).iter().map(|message| message.kind).collect();
            let answer = outcome.as_ref().ok().map(|answer| (answer[3], kinds(answer)));
            features.insert(Feature::Met { kind: item.record[0], order, answer });
        }
        match outcome {
            Err(refusal) => {
                features.insert(Feature::Refused(item.record.first().copied().unwrap_or(0), refusal));
            }
            Ok(answer) => features.extend(told(&item.record, &answer)),
        }
    }
    for (file, line, count) in tracing::reached() {
        if !before.contains(&(file, line, count)) {
            features.insert(Feature::LogSite(file, line));
        }
    }
    features
}

fn told(record: &[u8], answer: &[u8]) -> Vec<Feature> {
    let event = Record::read_event(record).expect("the event was taken");
    let messages = messages(answer);
    let kinds = messages.iter().map(|message| message.kind).collect();
    let mut features = vec![Feature::Taken { kind: event.kind, alarm: answer[3], messages: kinds }];
    for message in &messages {
        features.push(Feature::Message { kind: message.kind, map: message.map, event: event.kind });
        features.push(Feature::Codes {
            event: event.kind,
            exec_type: event.code(EXEC_TYPE),
            status: event.code(ORD_STATUS),
            told: (message.code(EXEC_TYPE), message.code(ORD_STATUS)),
        });
        features.push(Feature::Reason {
            fixed_text: message.code(FIXED_TEXT),
            reason: message.number(REASON) as u32,
            origin: message.code(ORIGIN),
        });
    }
    features
}

/// Lists that together show all that `lists` show, or as much as `events` events can: each time
/// the list with the most new features for its length.
pub fn choose(lists: Vec<List>, events: usize) -> Vec<List> {
    let mut left: Vec<(List, HashSet<Feature>)> =
        lists.into_iter().map(|list| (features(&list), list)).map(|(shown, list)| (list, shown)).collect();
    let (mut chosen, mut count) = (Vec::new(), 0);
    loop {
        let worth = |(list, new): &(List, HashSet<Feature>)| new.len() * 1_000 / (list.items.len() + 10);
        let fits =
            |(list, new): &(List, HashSet<Feature>)| !new.is_empty() && count + list.items.len() <= events;
        let best = (0..left.len()).filter(|&at| fits(&left[at])).max_by_key(|&at| worth(&left[at]));
        let Some(best) = best else { return chosen };
        let (list, shown) = left.swap_remove(best);
        left.iter_mut().for_each(|(_, new)| new.retain(|feature| !shown.contains(feature)));
        count += list.items.len();
        chosen.push(list);
    }
}
