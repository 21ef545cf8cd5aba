//! What comes from the venues' side: reports, refusals, sends that failed or go again, and the
//! gateway's own cancels.

use gateway::book::{CancelKind, Order};
use model::answer::bytes;
use model::codes::EXEC_TYPES;
use model::done_for_day::{self, status_of};
use model::events::{self, Filled};
use model::numbers::{MAX_QTY, price_count, qty_count};
use model::record::*;

use super::{Generator, Request};
use crate::draw;
use crate::profile::Values;

impl Generator {
    pub(super) fn report(&mut self) -> Draft {
        let order = self.order();
        let venue = self.venue(&order);
        let request = self.reported(&order);
        let said = self.said(&order, &request);
        let (exec_type, status) = self.ends_day(&order, said);
        let filled = self.filled(&order, exec_type, status);
        let downstream =
            if self.wrong() { self.unknown_downstream(&order) } else { request.downstream.clone() };
        let draft = events::report(venue, &downstream, exec_type, status, filled);
        let rejects = exec_type == b'8' || status == Some(b'8');
        self.with_details(draft, if rejects { 50 } else { 4 })
    }

    /// The request that a report comes under: mostly the current one or one that is open.
    fn reported(&mut self, order: &Order) -> Request {
        let current = bytes(&order.downstream);
        match self.random.below(3) {
            0 => self.request(order, |request| request.downstream == current),
            1 => self.request(order, |request| !request.answered && request.kind.is_some()),
            _ => self.request(order, |request| request.kind != Some(CancelKind::Cancel)),
        }
    }

    /// ExecType and OrdStatus: a venue's usual pair for that request, or any.
    fn said(&mut self, order: &Order, request: &Request) -> (u8, Option<u8>) {
        if !self.fits() {
            let status = if self.random.chance(80) { Some(self.any_status()) } else { None };
            return (draw::code(&mut self.random, EXEC_TYPES), status);
        }
        let filled = qty_count(order.cum_qty) > 0;
        let working = if filled { b'1' } else { b'0' };
        let status = status_of(order);
        let pairs: &[(u8, Option<u8>)] = match request.kind {
            None => &[(b'0', Some(b'0')), (b'F', Some(b'1')), (b'F', Some(b'1')), (b'F', Some(b'2'))],
            Some(CancelKind::Cancel) => &[
                (b'6', Some(b'6')),
                (b'4', Some(b'4')),
                (b'F', Some(b'1')),
                (b'F', Some(b'6')),
                (b'8', Some(status)),
            ],
            Some(CancelKind::Replace) => &[
                (b'E', Some(b'E')),
                (b'5', Some(working)),
                (b'5', Some(working)),
                (b'F', Some(b'1')),
                (b'8', Some(b'8')),
            ],
        };
        let rare: &[(u8, Option<u8>)] = &[
            (b'A', Some(b'A')),
            (b'D', Some(status)),
            (b'3', None),
            (b'3', Some(status)),
            (b'I', Some(status)),
            (b'I', Some(b'8')),
            (b'C', Some(b'C')),
            (b'8', Some(b'8')),
            (b'F', None),
            (b'F', Some(b'2')),
            (b'5', Some(b'2')),
            (b'8', Some(b'2')),
        ];
        let usual = if self.random.chance(12) { rare } else { pairs };
        *self.random.pick(usual)
    }

    /// What is said instead if the venue ends the order's day, says so again, or goes on after it.
    fn ends_day(&mut self, order: &Order, said: (u8, Option<u8>)) -> (u8, Option<u8>) {
        if self.profile.days == 0 || !self.random.chance(self.profile.days) {
            return said;
        }
        let three = Some(done_for_day::CODE);
        if done_for_day::holds(order) {
            return *self.random.pick(&[
                (b'0', Some(b'0')),
                (b'I', Some(b'0')),
                (b'F', Some(b'1')),
                (b'I', Some(b'1')),
                (b'F', None),
                (b'F', Some(b'2')),
                (b'4', Some(b'4')),
                (b'6', Some(b'6')),
                (b'A', Some(b'A')),
                (b'3', three),
                (b'I', three),
                (b'F', three),
            ]);
        }
        *self.random.pick(&[(b'3', three), (b'3', three), (b'F', three), (b'I', three), (said.0, three)])
    }

    /// Quantities around the booked, ordered and pending ones, and an average that goes with them.
    fn filled(&mut self, order: &Order, exec_type: u8, status: Option<u8>) -> Filled {
        let (old, ordered) = (qty_count(order.cum_qty), qty_count(order.request.qty));
        let pending = order.pending.as_ref().map_or(ordered, |pending| qty_count(pending.qty));
        let cum_qty = match exec_type {
            _ if self.wrong() => draw::near(&mut self.random, &[old, ordered, pending], 10_000),
            // A venue may say Filled below the quantity, and by the terms that are pending.
            _ if status == Some(b'2') && self.random.chance(30) => self.random.range(old, pending.max(old)),
            b'F' if status == Some(b'2') => *self.random.pick(&[ordered, ordered, pending]),
            b'F' => self.random.range(old, ordered.max(old)),
            _ if self.random.chance(90) => old,
            _ => draw::near(&mut self.random, &[old, ordered, pending], 10_000),
        };
        let rise = cum_qty.saturating_sub(old);
        let last_qty = match self.fits() {
            true => rise,
            false => *self.random.pick(&[0, rise / 2, rise, 1, rise + 1]),
        };
        let mut price = || match self.random.below(6) {
            0 => 0,
            1 => order.request.price.map_or(1, |price| price_count(price) as u64),
            _ => draw::price(&mut self.random, self.profile.values),
        };
        let (last_px, mut avg_px) = (price(), price());
        if self.profile.values == Values::Usual && self.random.chance(70) {
            avg_px = average(order, cum_qty, rise, last_px);
        }
        Filled { last_qty: last_qty.min(MAX_QTY), last_px, cum_qty, avg_px }
    }

    /// VenueOrderID, reason and text of a report or cancel reject; a reason in `reasons` percent.
    fn with_details(&mut self, mut draft: Draft, reasons: u64) -> Draft {
        if self.random.chance(35) {
            let long = draw::any_text(&mut self.random, 0, 32);
            let ids: [&[u8]; 6] = [b"V1", b"V1", b"V2", b"NONE", b"", &long];
            draft = draft.text(VENUE_ORDER_ID, self.random.pick(&ids));
        }
        if self.random.chance(reasons) {
            draft = draft.number(REASON, *self.random.pick(&[0_u32, 1, 3, 5, 5, 6, 99, u32::MAX]));
        }
        if self.random.chance(15) {
            draft = draft.text(TEXT, self.text());
        }
        draft
    }

    fn text(&mut self) -> Vec<u8> {
        match self.profile.any_texts {
            true => draw::any_text(&mut self.random, 1, 64),
            // A venue may send the very words of a fixed text.
            false => self.random.pick(&[&b"rejected by the venue"[..], b"not now", b"x"]).to_vec(),
        }
    }

    pub(super) fn unknown_at_venue(&mut self) -> Draft {
        let order = self.order();
        let venue = self.venue(&order);
        let current = bytes(&order.downstream);
        let request = self.request(&order, |request| request.downstream == current);
        let wrong = self.wrong();
        let downstream = if wrong { self.unknown_downstream(&order) } else { request.downstream };
        events::unknown_at_venue(venue, &downstream)
    }

    pub(super) fn cancel_reject(&mut self) -> Draft {
        let order = self.order();
        let venue = self.venue(&order);
        let request = match self.random.below(3) {
            0 => self.request(&order, |request| request.gateway && !request.answered),
            1 => self.request(&order, |request| request.kind.is_some() && !request.answered),
            _ => self.request(&order, |request| request.kind == Some(CancelKind::Cancel)),
        };
        let live = [b'0', b'1', b'2', status_of(&order), status_of(&order)];
        let ends_day = self.profile.days > 0 && self.random.chance(self.profile.days);
        let status = match self.random.below(5) {
            _ if ends_day => Some(*self.random.pick(b"330")),
            0 if !self.fits() => Some(self.any_status()),
            0 | 1 => Some(*self.random.pick(&live)),
            _ => None,
        };
        let wrong = self.wrong();
        let downstream = if wrong { self.unknown_downstream(&order) } else { request.downstream };
        let draft = events::cancel_reject(venue, &downstream, status, None);
        self.with_details(draft, 60)
    }

    pub(super) fn send_failed(&mut self) -> Draft {
        let order = self.order();
        let venue = self.venue(&order);
        let gateway = self.random.chance(50);
        let request = self.request(&order, |request| !request.answered && request.gateway == gateway);
        let wrong = self.wrong();
        let downstream = if wrong { self.unknown_downstream(&order) } else { request.downstream };
        events::send_failed(venue, &downstream, &self.text())
    }

    pub(super) fn send_again(&mut self) -> Draft {
        let order = self.order();
        let venue = self.venue(&order);
        let request = self.request(&order, |request| !request.answered);
        let wrong = self.wrong();
        let downstream = if wrong { self.unknown_downstream(&order) } else { request.downstream };
        events::send_again(venue, &downstream)
    }

    pub(super) fn gateway_cancel(&mut self) -> Draft {
        let name = bytes(&self.order().name);
        let unknown = draw::order_name(&mut self.random, 7);
        events::gateway_cancel(if self.wrong() { &unknown } else { &name })
    }
}

/// The average after a fill of `rise` at `last_px`, as a venue would round it down.
fn average(order: &Order, cum_qty: u64, rise: u64, last_px: u64) -> u64 {
    let old = u128::from(cum_qty - rise) * price_count(order.avg_px);
    let paid = old + u128::from(rise) * u128::from(last_px);
    if cum_qty == 0 { 0 } else { (paid / u128::from(cum_qty)) as u64 }
}
