//! A status Filled judged a second time: the rule of docs/SCOPE.md said plainly over the event, the
//! order before and after it and the answer, without asking what the Rust would do.

use std::collections::BTreeMap;

use gateway::book::{Book, CancelKind, Order, OrderId, Origin, Sent};

use crate::answer::{alarms, latin1, messages};
use crate::codes::{is_done, status_code};
use crate::done_for_day::{self, status_of};
use crate::machine::venue;
use crate::numbers::{qty, qty_count};
use crate::record::*;
use crate::short::ALARM;

/// What a Filled may meet: each must come in the lists.
pub const MEETINGS: [&str; 16] = [
    "reported short",
    "reported short, a replace up accepted",
    "reported short, a replace down accepted",
    "reported whole",
    "reported whole, a replace accepted",
    "a client's request refused, short",
    "a gateway's cancel refused, short, sent again",
    "a gateway's cancel refused, short, stuck by the reason",
    "a gateway's cancel refused, short, stuck by the third try",
    "a request rejected by a report, short",
    "refused, whole",
    "from another venue",
    "on a done order",
    "with an overfill",
    "stale, or of an answered or first request",
    "refused with 7",
];

/// How often each came.
pub type Met = BTreeMap<&'static str, u64>;

/// An event with status Filled under a request of the book.
pub struct Filled {
    order: Order,
    sent: Sent,
    /// A refusal of a request, by event 6 or by a report.
    refusal: bool,
    event: u8,
    reason: Option<u64>,
    /// Why the event does not set its status, if it does not.
    unset: Option<&'static str>,
    accepts: bool,
}

impl Filled {
    pub fn of(book: &Book, record: &Record<'_>) -> Option<Self> {
        let filled = record.has(ORD_STATUS) && record.code(ORD_STATUS) == b'2';
        let named = latin1(record.text(DOWNSTREAM));
        let sent = book.sent(&named).filter(|_| filled)?.clone();
        let order = book.order(sent.order)?.clone();
        let rejects = record.kind == VENUE_REPORT && record.code(EXEC_TYPE) == b'8';
        let refusal = record.kind == CANCEL_REJECT || (rejects && sent.kind.is_some());
        let pending = order.pending.as_ref().filter(|pending| pending.downstream == named);
        let ordered = pending.map_or(order.request.qty, |pending| pending.qty);
        let (cum_qty, last_qty) = (qty(record.number(CUM_QTY)), record.number(LAST_QTY));
        let stale = cum_qty < order.cum_qty || (cum_qty == order.cum_qty && last_qty > 0);
        let unset = match () {
            () if order.venue != venue(record) => Some("from another venue"),
            () if is_done(status_code(order.status)) => Some("on a done order"),
            () if refusal && (sent.kind.is_none() || sent.answered) => Some(MEETINGS[14]),
            () if !refusal && stale => Some(MEETINGS[14]),
            () if !refusal && cum_qty > ordered => Some("with an overfill"),
            () => None,
        };
        let accepts = !refusal && pending.is_some();
        let reason = record.maybe(REASON, |r| r.number(REASON));
        Some(Self { order, sent, refusal, event: record.kind, reason, unset, accepts })
    }

    /// What does not hold after the event, or what it met.
    pub fn judge(&self, book: &Book, answer: &[u8]) -> Result<&'static str, String> {
        let after = book.order(self.order.id).ok_or("the order is gone")?;
        let (cum_qty, ordered) = (qty_count(after.cum_qty), qty_count(after.request.qty));
        let short = self.unset.is_none() && cum_qty < ordered;
        let left = match self.unset {
            Some(_) => status_of(&self.order),
            None if !short => b'2',
            None if cum_qty == 0 => b'0',
            None => b'1',
        };
        let kept = !short || self.keeps(after);
        let alarms = alarms(answer);
        let stuck = alarms[1] > 0;
        let right = (alarms[0] == ALARM) == short && (short || !stuck) && alarms[1] <= 1;
        let leaves =
            if is_done(left) || left == done_for_day::CODE { 0 } else { ordered.saturating_sub(cum_qty) };
        let told = messages(answer).iter().all(|message| match message.kind {
            REPORT_MESSAGE => message.code(ORD_STATUS) == left && message.number(LEAVES_QTY) == leaves,
            REJECT_MESSAGE => message.code(ORD_STATUS) == left,
            _ => true,
        });
        if status_of(after) == left && kept && right && told {
            return Ok(self.unset.unwrap_or_else(|| self.met(short, stuck)));
        }
        Err(format!("Filled on {:?}: left {after:?}, alarms {alarms:?}", self.order))
    }

    /// A short Filled ends neither pending terms nor the gateway's cancel.
    fn keeps(&self, after: &Order) -> bool {
        let refused = self.order.pending.as_ref().filter(|pending| {
            self.refusal && self.sent.cl_ord_id == pending.cl_ord_id && self.sent.origin == Origin::Client
        });
        let pending = self.accepts || refused.is_some() || after.pending == self.order.pending;
        pending && self.order.gateway_cancel.is_some() == after.gateway_cancel.is_some()
    }

    fn met(&self, short: bool, stuck: bool) -> &'static str {
        let up = |order: &Order| order.pending.as_ref().is_some_and(|new| new.qty > order.request.qty);
        let gateway = self.sent.origin == Origin::Gateway && self.sent.kind == Some(CancelKind::Cancel);
        match (self.refusal, short) {
            (true, false) => "refused, whole",
            (true, true) if self.event == VENUE_REPORT => "a request rejected by a report, short",
            (true, true) if !gateway => "a client's request refused, short",
            (true, true) if !stuck => "a gateway's cancel refused, short, sent again",
            (true, true) if self.reason.is_some_and(|reason| reason <= 1) => MEETINGS[7],
            (true, true) => MEETINGS[8],
            (false, false) if self.accepts => "reported whole, a replace accepted",
            (false, false) => "reported whole",
            (false, true) if !self.accepts => "reported short",
            (false, true) if up(&self.order) => "reported short, a replace up accepted",
            (false, true) => "reported short, a replace down accepted",
        }
    }

    /// What a refused event met.
    pub fn refused(&self, number: u32) -> Option<&'static str> {
        (number == 7).then_some("refused with 7")
    }
}

/// From the empty book on, an order that is Filled is whole.
pub fn whole(book: &Book) -> Result<(), OrderId> {
    let short = |order: &&Order| status_code(order.status) == b'2' && order.cum_qty != order.request.qty;
    book.order_table().values().find(short).map_or(Ok(()), |order| Err(order.id))
}
