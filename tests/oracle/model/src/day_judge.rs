//! A status 3 judged a second time: change request 14 said plainly over the event, the order before
//! and after it and the answer, without asking what the Rust would do. It settles status and leaves
//! wherever a 3 comes or stands; what else happens is the Rust's to decide.

use std::collections::BTreeMap;

use gateway::book::{Book, Order, OrderId, Origin, Sent};

use crate::answer::{bytes, latin1, messages};
use crate::codes::is_done;
use crate::done_for_day::{CODE, status_of};
use crate::machine::venue;
use crate::numbers::qty_count;
use crate::record::*;

/// What a 3 may meet: each must come in the lists.
pub const MEETINGS: [&str; 30] = [
    "reported at cumulative 0",
    "reported above cumulative 0",
    "reported with a fill",
    "reported on a pending cancel or replace, behind",
    "reported on a pending cancel or replace with a fill, behind",
    "reported under the pending replace, which it accepts",
    "reported again, dropped",
    "reported again and told",
    "of a client's request refused",
    "of a gateway's cancel refused",
    "of a request rejected by a report",
    "of a pending cancel or replace refused",
    "from another venue",
    "on a done order",
    "with an overfill",
    "stale, or of an answered or first request",
    "then New",
    "then PartiallyFilled",
    "then Filled, whole",
    "then Filled, short",
    "then PendingCancel or PendingReplace",
    "then done otherwise",
    "then a status behind it",
    "then a fill without a status",
    "then a refusal without a status",
    "then a cancel that goes out",
    "then a replace that goes out",
    "then a failed send",
    "then the gateway's cancel",
    "then its status asked for",
];

/// How often each came.
pub type Met = BTreeMap<&'static str, u64>;

/// The status that an event brings to an order by one of its requests.
struct Brings {
    status: Option<u8>,
    /// A refusal of a request, by event 6 or by a report.
    refusal: bool,
    /// Whether the event sets it.
    sets: bool,
    rises: bool,
    accepts: bool,
    gateway: bool,
    /// A Filled that leaves the order live.
    short: bool,
    /// Why the event would not set any status, if it would not.
    unset: Option<&'static str>,
}

/// An event on an order, as it stood before.
pub struct Judged {
    order: Order,
    event: u8,
    brings: Option<Brings>,
}

impl Judged {
    /// None if the event concerns no order.
    pub fn of(book: &Book, order: Option<OrderId>, record: &Record<'_>) -> Option<Self> {
        let order = book.order(order?)?.clone();
        let sent = book.sent(&latin1(record.text(DOWNSTREAM)));
        let report = record.kind == VENUE_REPORT && !says_unknown(record);
        let brings = sent.filter(|_| report || record.kind == CANCEL_REJECT);
        let brings = brings.map(|sent| Brings::of(&order, sent, record));
        Some(Self { order, event: record.kind, brings })
    }

    /// The status that is left, if the event or the order before it has a 3.
    fn left(&self, after: &Order) -> Option<u8> {
        let (was, cum_qty) = (status_of(&self.order), qty_count(after.cum_qty));
        let code = self.brings.as_ref().and_then(|brings| brings.status.filter(|_| brings.sets));
        let brought = self.brings.as_ref().is_some_and(|brings| brings.status == Some(CODE));
        if was != CODE && !brought {
            return None;
        }
        let short = cum_qty < qty_count(after.request.qty);
        Some(match code.unwrap_or(was) {
            b'A' | b'0' if cum_qty > 0 => b'1',
            b'2' if code.is_some() && short => b'0' + u8::from(cum_qty > 0),
            status => status,
        })
    }

    /// What does not hold after the event, or what a 3 met, if there was one.
    pub fn judge(&self, book: &Book, answer: &[u8]) -> Result<Option<&'static str>, String> {
        let after = book.order(self.order.id).ok_or("the order is gone")?;
        let status = status_of(after);
        let Some(left) = self.left(after) else {
            return if status == CODE {
                Err(format!("a 3 that nothing brought: {after:?}"))
            } else {
                Ok(None)
            };
        };
        let open = qty_count(after.request.qty) - qty_count(after.cum_qty);
        let leaves = if left == CODE || is_done(left) { 0 } else { open };
        let name = bytes(&after.name);
        let told = messages(answer).iter().all(|message| match message.kind {
            REPORT_MESSAGE => message.code(ORD_STATUS) == left && message.number(LEAVES_QTY) == leaves,
            REJECT_MESSAGE => message.text(NAME) != name || message.code(ORD_STATUS) == left,
            _ => true,
        });
        if status == left && told {
            return Ok(self.met(messages(answer).first().map(|message| message.kind)));
        }
        let (was, wanted) = (char::from(status_of(&self.order)), char::from(left));
        Err(format!("{was} before the event, should leave {wanted}, leaves {after:?}"))
    }

    fn met(&self, told: Option<u8>) -> Option<&'static str> {
        let was = status_of(&self.order);
        let Some(brings) = &self.brings else {
            return match (self.event, told) {
                (CANCEL, Some(CANCEL_MESSAGE)) => Some("then a cancel that goes out"),
                (REPLACE, Some(REPLACE_MESSAGE)) => Some("then a replace that goes out"),
                (CANCEL | REPLACE, Some(REPORT_MESSAGE)) => Some("then its status asked for"),
                (SEND_FAILED, _) => Some("then a failed send"),
                (GATEWAY_CANCEL, Some(CANCEL_MESSAGE)) => Some("then the gateway's cancel"),
                _ => None,
            };
        };
        match brings.status {
            Some(CODE) if !brings.sets && was == CODE && brings.unset.is_none() => {
                Some("reported again, dropped")
            }
            Some(CODE) if !brings.sets => Some(brings.unset.unwrap_or(MEETINGS[15])),
            Some(CODE) if was == CODE && !brings.refusal && !brings.rises => Some("reported again and told"),
            Some(CODE) => Some(brings.met_set(&self.order, self.event)),
            _ => self.met_after(brings),
        }
    }

    /// What an order that is 3 met.
    fn met_after(&self, brings: &Brings) -> Option<&'static str> {
        match brings.status {
            None if brings.rises => Some("then a fill without a status"),
            None if brings.refusal && brings.unset.is_none() => Some("then a refusal without a status"),
            Some(_) if !brings.sets && brings.unset.is_none() => Some("then a status behind it"),
            Some(_) if !brings.sets => None,
            Some(b'0') => Some("then New"),
            Some(b'1') => Some("then PartiallyFilled"),
            Some(b'2') if brings.short => Some("then Filled, short"),
            Some(b'2') => Some("then Filled, whole"),
            Some(b'6' | b'E') => Some("then PendingCancel or PendingReplace"),
            Some(b'4' | b'C' | b'8') => Some("then done otherwise"),
            _ => None,
        }
    }
}

impl Brings {
    fn of(order: &Order, sent: &Sent, record: &Record<'_>) -> Self {
        let status = record.maybe(ORD_STATUS, |r| r.code(ORD_STATUS));
        let rejected = record.kind == VENUE_REPORT
            && (status == Some(b'8') || (status.is_some() && record.code(EXEC_TYPE) == b'8'));
        let refusal = record.kind == CANCEL_REJECT || (rejected && sent.kind.is_some());
        let named = latin1(record.text(DOWNSTREAM));
        let pending = order.pending.as_ref().filter(|pending| pending.downstream == named);
        let behind = !refusal && behind(order, sent, record, pending.is_some());
        let answers = status.is_some_and(|status| status != b'E') && !behind;
        let accepts = pending.is_some() && !rejected && answers;
        let accepted = pending.filter(|_| accepts).map_or(order.request.qty, |pending| pending.qty);
        let ordered = qty_count(accepted);
        let unset = match refusal {
            _ if order.venue != venue(record) => Some("from another venue"),
            _ if is_done(status_of(order)) => Some("on a done order"),
            true => (sent.kind.is_none() || sent.answered).then_some(MEETINGS[15]),
            false => unset(order, record, ordered, behind),
        };
        // A refusal's Rejected is of the request and says nothing of the order.
        let says = status.filter(|&status| !(rejected && refusal && status == b'8'));
        let repeats = !refusal && repeats(order, record);
        let (cum_qty, booked) = (record.number(CUM_QTY), qty_count(order.cum_qty));
        Self {
            status: says,
            refusal,
            sets: says.is_some() && unset.is_none() && !behind && !repeats,
            rises: !refusal && unset.is_none_or(|met| met == MEETINGS[4]) && cum_qty > booked,
            accepts,
            gateway: sent.origin == Origin::Gateway,
            short: if refusal { booked } else { cum_qty } < ordered,
            unset,
        }
    }

    /// What a 3 that is set met.
    fn met_set(&self, order: &Order, event: u8) -> &'static str {
        match () {
            () if self.refusal && pending_status(order) => "of a pending cancel or replace refused",
            () if self.refusal && event == VENUE_REPORT => "of a request rejected by a report",
            () if self.refusal && self.gateway => "of a gateway's cancel refused",
            () if self.refusal => "of a client's request refused",
            () if self.accepts => "reported under the pending replace, which it accepts",
            () if self.rises => "reported with a fill",
            () if qty_count(order.cum_qty) > 0 => "reported above cumulative 0",
            () => "reported at cumulative 0",
        }
    }
}

/// Why a report on a live order sets no status.
fn unset(order: &Order, record: &Record<'_>, ordered: u64, behind: bool) -> Option<&'static str> {
    let (cum_qty, booked) = (record.number(CUM_QTY), qty_count(order.cum_qty));
    match () {
        () if cum_qty < booked || (cum_qty == booked && record.number(LAST_QTY) > 0) => Some(MEETINGS[15]),
        () if cum_qty.max(booked) > ordered => Some("with an overfill"),
        () if behind && pending_status(order) && cum_qty > booked => Some(MEETINGS[4]),
        () if behind && pending_status(order) => Some(MEETINGS[3]),
        () => None,
    }
}

/// A report that is answered as event 5: the venue does not know the order.
fn says_unknown(record: &Record<'_>) -> bool {
    let codes = (record.code(EXEC_TYPE), record.code(ORD_STATUS), record.number(REASON));
    codes == (b'I', b'8', 5) && record.has(REASON)
}

fn pending_status(order: &Order) -> bool {
    b"6E".contains(&status_of(order))
}

/// Whether the report's status would roll the order back. A 3 is New if the report's CumQty is 0
/// and PartiallyFilled above: both are behind a pending cancel or replace.
fn behind(order: &Order, sent: &Sent, record: &Record<'_>, pending_here: bool) -> bool {
    let Some(status) = record.maybe(ORD_STATUS, |r| r.code(ORD_STATUS)) else {
        return sent.answered && latin1(record.text(DOWNSTREAM)) != order.downstream;
    };
    let asked = match status {
        CODE if record.number(CUM_QTY) == 0 => b'0',
        CODE => b'1',
        status => status,
    };
    let current = latin1(record.text(DOWNSTREAM)) == order.downstream;
    let settled = sent.answered && !is_done(asked) && (!current || asked == b'E');
    let past_new = asked == b'A' && status_of(order) != b'A';
    let past_pending = b"01".contains(&asked) && pending_status(order) && !pending_here;
    settled || past_new || past_pending
}

/// Whether the report changes nothing; a 3 equals only another.
fn repeats(order: &Order, record: &Record<'_>) -> bool {
    latin1(record.text(DOWNSTREAM)) == order.downstream
        && record.code(ORD_STATUS) == status_of(order)
        && record.number(CUM_QTY) == qty_count(order.cum_qty)
        && record.number(LAST_QTY) == 0
        && !b"D53".contains(&record.code(EXEC_TYPE))
}
