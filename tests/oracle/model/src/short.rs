//! A Filled below the quantity, which the Rust would take for the end of the order. It leaves the
//! order live, and all else is the Rust's to decide: another status is put to it in place of the
//! Filled, one that its questions take as they take a Filled, and the status left is set after it.
//!
//! - In a refusal no question looks at the status: New is put, and the Rust leaves New at 0 and
//!   PartiallyFilled above.
//! - In a report under the pending replace New is put: it is not behind, repeats nothing and accepts.
//! - In any other report PendingCancel is put, or PendingReplace if the order is PendingCancel:
//!   neither is behind by the order's status, nor repeats it, nor accepts. The request passes for
//!   unanswered meanwhile, since of the statuses that leave an order live the Rust drops those under
//!   an answered request.

use gateway::CompactString;
use gateway::book::{Book, Order, OrderId, Output, Sent, Status};

use crate::answer::latin1;
use crate::codes::{is_done, status_code};
use crate::done_for_day;
use crate::machine::venue;
use crate::numbers::qty;
use crate::record::*;

/// Its alarm.
pub const ALARM: u8 = 6;

/// A short Filled that the event sets.
pub struct Short {
    order: OrderId,
    /// What is put to the Rust in its place.
    pub status: Status,
    /// The request that passes for unanswered meanwhile.
    answered: Option<CompactString>,
}

impl Short {
    /// None if the status is another or the event would not set it, and none if the order is
    /// whole by the cumulative quantity and an accepted replace.
    pub fn of(book: &Book, record: &Record<'_>) -> Option<Self> {
        let told = matches!(record.kind, VENUE_REPORT | CANCEL_REJECT) && record.has(ORD_STATUS);
        let named = latin1(record.text(DOWNSTREAM));
        let sent = book.sent(&named).filter(|_| told && record.code(ORD_STATUS) == b'2')?;
        let order = book.order(sent.order)?;
        if order.venue != venue(record) || is_done(status_code(order.status)) {
            return None;
        }
        if record.kind == CANCEL_REJECT || (record.code(EXEC_TYPE) == b'8' && sent.kind.is_some()) {
            return refused(order, sent);
        }
        let pending = order.pending.as_ref().filter(|pending| pending.downstream == named);
        let cum_qty = qty(record.number(CUM_QTY));
        let resent = cum_qty == order.cum_qty && record.number(LAST_QTY) > 0;
        let ordered = pending.map_or(order.request.qty, |pending| pending.qty);
        if cum_qty < order.cum_qty || resent || cum_qty >= ordered {
            return None;
        }
        let status = match order.status {
            _ if pending.is_some() => Status::New,
            Status::PendingCancel => Status::PendingReplace,
            _ => Status::PendingCancel,
        };
        Some(Self { order: order.id, status, answered: sent.answered.then_some(named) })
    }

    /// Before the Rust handles the event.
    pub fn put(&self, book: &mut Book) {
        if let Some(request) = &self.answered {
            book.set_answered(request, false);
        }
    }

    /// After it has: the status that is left, in the book and in what the client is told.
    pub fn left(&self, book: &mut Book, outputs: &mut [Output]) {
        if let Some(request) = &self.answered {
            book.set_answered(request, true);
        }
        let order = book.order_mut(self.order).expect("the order stands");
        let left = if order.cum_qty > qty(0) { Status::PartiallyFilled } else { Status::New };
        let set = if self.status == Status::New { left } else { self.status };
        assert!(order.status == set, "the Rust takes a short Filled: {order:?}");
        order.status = left;
        done_for_day::mark(order, false);
        for output in outputs {
            match output {
                Output::Report { report, .. } => report.status = left,
                Output::CancelReject { status, .. } => assert!(*status == left, "told as it is left"),
                _ => {}
            }
        }
    }
}

/// A refusal sets no cumulative quantity, and nothing if the request is the first or answered.
fn refused(order: &Order, sent: &Sent) -> Option<Short> {
    let sets = sent.kind.is_some() && !sent.answered && order.cum_qty < order.request.qty;
    sets.then_some(Short { order: order.id, status: Status::New, answered: None })
}
