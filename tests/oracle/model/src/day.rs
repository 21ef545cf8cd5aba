//! A small day for tests: one order named A, limit 100 at 10, at venue 1, and what the machine
//! answers on it. Every event is taken under watch.

use crate::answer::messages;
use crate::events::{self, Filled, Named};
use crate::record::*;
use crate::watch::Watched;

pub const SHARE: u64 = 10_000;
pub const UNIT: u64 = 100_000_000;
pub const VENUE_1: u16 = 1;

pub struct Day(pub Watched);

impl Default for Day {
    fn default() -> Self {
        Self::new()
    }
}

impl Day {
    pub fn start(setting: u32) -> Self {
        Self(Watched::start(setting))
    }

    pub fn booked() -> Self {
        let mut day = Self::start(10_000);
        assert_eq!(day.book("A", "c1"), (0, 0, 0));
        day
    }

    /// A star's start: New, cum 0.
    pub fn new() -> Self {
        let mut day = Self::booked();
        assert_eq!(day.send(&report(b'0', b'0', Filled::default())), (0, 1, 0));
        day
    }

    pub fn book(&mut self, name: &str, cl_ord_id: &str) -> (u32, u8, u8) {
        let order = (name.as_bytes(), cl_ord_id.as_bytes());
        self.send(&events::book(VENUE_1, &named(), order.0, order.1, 100 * SHARE, Some(10 * UNIT)))
    }

    pub fn outcome(&mut self, event: &Draft) -> Result<Vec<u8>, u32> {
        self.0.event(&event.bytes(), 1_024).expect("rules, check() and demand 3 hold")
    }

    /// Refusal, message count, and the alarm, of which there is one at most.
    pub fn send(&mut self, event: &Draft) -> (u32, u8, u8) {
        self.outcome(event).map_or_else(
            |refusal| (refusal, 0, 0),
            |answer| {
                assert_eq!(answer[4], 0, "one alarm");
                (0, answer[2], answer[3])
            },
        )
    }

    /// Numbers of the event's only message; the most of all if a field is absent.
    pub fn told<const N: usize>(&mut self, event: &Draft, bits: [usize; N]) -> [u128; N] {
        let answer = self.outcome(event).expect("taken");
        let messages = messages(&answer);
        assert_eq!(messages.len(), 1);
        bits.map(|bit| if messages[0].has(bit) { messages[0].wide(bit) } else { u128::MAX })
    }

    /// OrdStatus, CumQty and LeavesQty of the order, by a cancel sent again.
    pub fn stands(&mut self) -> (u8, u128, u128) {
        let again = events::cancel(&named(), b"c1", b"c1").mark(REDELIVERED);
        let [status, cum_qty, leaves_qty] = self.told(&again, [ORD_STATUS, CUM_QTY, LEAVES_QTY]);
        (status as u8, cum_qty, leaves_qty)
    }
}

pub fn named() -> Named {
    Named { client: 1, symbol: b"XYZ".to_vec(), side: b'1' }
}

/// A report on the order under its name.
pub fn report(exec_type: u8, status: u8, filled: Filled) -> Draft {
    events::report(VENUE_1, b"A", exec_type, Some(status), filled)
}

/// A report of `cum` shares with status 1, prices in counts.
pub fn filled(cum: u64, last: u64, last_px: u64, avg_px: u64) -> Draft {
    report(b'F', b'1', fill(cum, last, last_px, avg_px))
}

pub fn fill(cum: u64, last: u64, last_px: u64, avg_px: u64) -> Filled {
    Filled { last_qty: last * SHARE, last_px, cum_qty: cum * SHARE, avg_px }
}

pub fn replace(cl_ord_id: &str, qty: u64) -> Draft {
    events::replace(&named(), cl_ord_id.as_bytes(), b"c1", qty * SHARE, Some(10 * UNIT))
}

pub fn cancel(cl_ord_id: &str) -> Draft {
    events::cancel(&named(), cl_ord_id.as_bytes(), b"c1")
}

pub fn refused(downstream: &str, status: Option<u8>, reason: Option<u32>) -> Draft {
    events::cancel_reject(VENUE_1, downstream.as_bytes(), status, reason)
}
