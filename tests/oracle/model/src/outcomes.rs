//! What the requests came to (change request 9), beside the Rust's book, which has no such mark: 0 until the Rust sets a
//! request's `answered`, and from then on what the event that set it makes of it. Judged a second time by what the
//! event did to the order, which asks nothing of how it was worked out.

use std::collections::HashMap;

use gateway::CompactString;
use gateway::book::{Book, CancelKind, Order, OrderId, Sent};

use crate::machine::Machine;
use crate::record::*;

pub const OPEN: u8 = 0;
pub const ACCEPTED: u8 = 1;
pub const REFUSED: u8 = 2;
pub const FAILED: u8 = 3;

/// What the requests come to whose `answered` the event sets.
fn by(event: &Record<'_>) -> u8 {
    let rejects = |bit: usize| event.has(bit) && event.code(bit) == b'8';
    match event.kind {
        SEND_FAILED => FAILED,
        VENUE_REPORT if !rejects(ORD_STATUS) && !rejects(EXEC_TYPE) => ACCEPTED,
        _ => REFUSED,
    }
}

/// The outcomes of the answered requests, by downstream ClOrdID.
#[derive(Debug, Clone, Default, PartialEq, Eq)]
pub struct Outcomes(HashMap<CompactString, u8>);

impl Outcomes {
    pub fn new(outcomes: impl IntoIterator<Item = (CompactString, u8)>) -> Self {
        Self(outcomes.into_iter().filter(|(_, outcome)| *outcome != OPEN).collect())
    }

    pub fn of(&self, downstream: &CompactString) -> u8 {
        self.0.get(downstream).copied().unwrap_or(OPEN)
    }

    /// Takes in an event that was taken: a request that is answered now and has no outcome gets it, for good.
    pub fn follow(&mut self, book: &Book, event: &Record<'_>) {
        for (downstream, _) in book.request_table().iter().filter(|(_, sent)| sent.answered) {
            if !self.0.contains_key(downstream) {
                self.0.insert(downstream.clone(), by(event));
            }
        }
    }
}

/// What stood before an event: the outcomes, which requests were answered, and each order's current downstream and ClOrdID.
pub struct Before {
    outcomes: Outcomes,
    answered: HashMap<CompactString, bool>,
    current: HashMap<OrderId, [CompactString; 2]>,
}

impl Before {
    pub fn of(machine: &Machine) -> Self {
        let (requests, orders) = (machine.book().request_table(), machine.book().order_table());
        Self {
            outcomes: machine.outcomes().clone(),
            answered: requests.iter().map(|(name, sent)| (name.clone(), sent.answered)).collect(),
            current: orders.iter().map(|(id, order)| (*id, current(order))).collect(),
        }
    }

    /// Compares the outcomes after an event with what it did: exactly the unanswered have none, one that stood stays, and
    /// of those that it settled those are accepted whose terms stand now or stood until now, and a cancel that a report
    /// says Canceled under, other than by ExecType 8; those of an event 7 failed.
    pub fn judge(&self, machine: &Machine, event: &Record<'_>) -> Result<(), String> {
        for (downstream, sent) in machine.book().request_table() {
            let right = match self.answered.get(downstream) {
                _ if !sent.answered => OPEN,
                Some(true) => self.outcomes.of(downstream),
                _ => self.settled(machine.book(), event, downstream, sent),
            };
            let outcome = machine.outcomes().of(downstream);
            if outcome != right || (outcome == OPEN) == sent.answered {
                return Err(format!("{downstream} has outcome {outcome}, by what the event did {right}"));
            }
        }
        Ok(())
    }

    fn settled(&self, book: &Book, event: &Record<'_>, downstream: &CompactString, sent: &Sent) -> u8 {
        let now = book.order(sent.order).map(current);
        let was = self.current.get(&sent.order).cloned();
        let replaces = was != now && [was, now].iter().flatten().any(|current| current[0] == *downstream);
        let cancels = sent.kind == Some(CancelKind::Cancel)
            && event.kind == VENUE_REPORT
            && event.maybe(ORD_STATUS, |event| event.code(ORD_STATUS)) == Some(b'4')
            && event.code(EXEC_TYPE) != b'8';
        match event.kind {
            _ if replaces || cancels => ACCEPTED,
            SEND_FAILED => FAILED,
            _ => REFUSED,
        }
    }
}

/// An order's current downstream and ClOrdID: an accepted replace sets both.
fn current(order: &Order) -> [CompactString; 2] {
    [order.downstream.clone(), order.request.cl_ord_id.clone()]
}
