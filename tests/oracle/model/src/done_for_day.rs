//! OrdStatus 3, done for the day, which the Rust does not have. All but leaves is the Rust's to
//! decide, with a 3 taken as New at CumQty 0 and as PartiallyFilled above, and equal only to another
//! 3. An order that is 3 is held as New or PartiallyFilled by its cumulative quantity, and marked in
//! its account, which docs/SCOPE.md leaves out: so the mark goes with the order wherever it goes.
//!
//! Whether the Rust sets a status cannot be seen if it sets what is held. So that it can, another
//! status is put to it in place of a 3, and in place of one that follows a 3:
//!
//! - In a refusal no question looks at the status: PendingCancel, or PendingReplace if the order
//!   is PendingCancel.
//! - In a report on an order at PendingCancel or PendingReplace, New or PartiallyFilled itself: it may
//!   be behind there, and is neither.
//! - In a report with a 3 on an order that is 3, New or PartiallyFilled itself: it may repeat, and
//!   leaves the mark whether it is set or not.
//! - In any other report PendingCancel: of the questions, `behind` asks of New, PartiallyFilled and
//!   PendingCancel only whether the request is settled, and it is not the order's status.

use gateway::book::{Book, Order, OrderId, Output, Status};
use gateway::{CompactString, Decimal};

use crate::answer::latin1;
use crate::codes::{is_done, status, status_code};
use crate::machine::venue;
use crate::numbers::qty;
use crate::record::*;

pub const CODE: u8 = b'3';

/// Whether the order is done for the day.
pub fn holds(order: &Order) -> bool {
    order.request.account.is_some()
}

/// Marks the order as done for the day, or not.
pub fn mark(order: &mut Order, done_for_day: bool) {
    order.request.account = done_for_day.then(|| CompactString::from("3"));
}

/// The order's OrdStatus.
pub fn status_of(order: &Order) -> u8 {
    if holds(order) { CODE } else { status_code(order.status) }
}

/// The order's LeavesQty: the Rust's own, but 0 while it is done for the day.
pub fn leaves_of(order: &Order) -> Decimal {
    if holds(order) { qty(0) } else { order.leaves() }
}

/// What a 3 is taken as.
pub fn taken_as(cum_qty: Decimal) -> Status {
    if cum_qty > qty(0) { Status::PartiallyFilled } else { Status::New }
}

/// Whether the order has what was put.
type Seen = fn(Status) -> bool;

/// A status that the Rust may set unseen: a 3, or one that an order which is 3 takes.
pub struct Told {
    order: OrderId,
    code: u8,
    /// What is put to the Rust in its place.
    pub status: Status,
    /// How the order's status shows that it was set; none if a 3 comes to a 3.
    seen: Option<Seen>,
}

impl Told {
    pub fn of(book: &Book, record: &Record<'_>) -> Option<Self> {
        let told = matches!(record.kind, VENUE_REPORT | CANCEL_REJECT) && record.has(ORD_STATUS);
        let named = latin1(record.text(DOWNSTREAM));
        let sent = book.sent(&named).filter(|_| told)?;
        let order = book.order(sent.order)?;
        let rejects = record.kind == VENUE_REPORT && record.code(EXEC_TYPE) == b'8';
        let refusal = record.kind == CANCEL_REJECT || (rejects && sent.kind.is_some());
        let code = record.code(ORD_STATUS);
        // A PendingNew is behind a 3, but a refusal sets it.
        let follows = holds(order) && (b"01".contains(&code) || (refusal && code == b'A'));
        let other_venue = order.venue != venue(record);
        if !(code == CODE || follows) || other_venue || is_done(status_code(order.status)) {
            return None;
        }
        let pending = matches!(order.status, Status::PendingCancel | Status::PendingReplace);
        let taken = taken_as(qty(record.number(CUM_QTY)));
        let (status, seen): (Status, Option<Seen>) = match () {
            () if refusal && order.status == Status::PendingCancel => {
                (Status::PendingReplace, Some(|left| left == Status::PendingReplace))
            }
            () if !refusal && pending => {
                (taken, Some(|left| matches!(left, Status::New | Status::PartiallyFilled)))
            }
            () if !refusal && code == CODE && holds(order) => (taken, None),
            () => (Status::PendingCancel, Some(|left| left == Status::PendingCancel)),
        };
        Some(Self { order: order.id, code, status, seen })
    }

    /// The same with New or PartiallyFilled itself put, as a 3 is taken; if it would be found equal to
    /// what it is not, the other of the two, which no other question tells apart. Whether the status is
    /// set cannot be seen then.
    pub fn plainly(book: &mut Book, record: &Record<'_>) -> Option<Self> {
        let told = Self::of(book, record)?;
        let order = book.order_mut(told.order).expect("the order stands");
        let other = |status: Status| match status {
            Status::New => Status::PartiallyFilled,
            _ => Status::New,
        };
        let cum_qty = if record.has(CUM_QTY) { qty(record.number(CUM_QTY)) } else { order.cum_qty };
        let status = match (told.code, taken_as(cum_qty)) {
            (CODE, taken) if !holds(order) && taken == order.status => other(taken),
            (CODE, taken) => taken,
            (code, _) => {
                order.status = other(status(code));
                status(code)
            }
        };
        Some(Self { status, seen: None, ..told })
    }

    /// After the Rust has handled the event: the status that is left, and the mark.
    pub fn left(&self, book: &mut Book, outputs: &mut [Output]) {
        let order = book.order_mut(self.order).expect("the order stands");
        if self.seen.is_some_and(|seen| seen(order.status)) {
            mark(order, self.code == CODE);
            order.status = match (self.code, taken_as(order.cum_qty)) {
                (b'A' | b'0', Status::PartiallyFilled) => Status::PartiallyFilled,
                (CODE, taken) => taken,
                (code, _) => status(code),
            };
        }
        for output in outputs {
            match output {
                Output::Report { report, .. } => report.status = order.status,
                Output::CancelReject { status, .. } => *status = order.status,
                _ => {}
            }
        }
    }
}

/// After any event on the order of a request: a 3 lasts until another status is set.
pub fn settle(book: &mut Book, downstream: &str) {
    let Some(id) = book.sent(downstream).map(|sent| sent.order) else { return };
    let order = book.order_mut(id).expect("a request names an order");
    if !holds(order) {
        return;
    }
    let taken = taken_as(order.cum_qty);
    if matches!(order.status, Status::New | Status::PartiallyFilled) {
        order.status = taken;
    } else {
        mark(order, false);
    }
}
