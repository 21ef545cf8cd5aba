//! What clients send: bookings, cancels and replaces.

use gateway::book::Order;
use model::answer::{bytes, client_number};
use model::codes::{ord_type_code, side_code};
use model::events::{self, Named};
use model::numbers::{MAX_QTY, price_count, qty_count};
use model::record::*;

use super::{Generator, SYMBOLS};
use crate::draw;

impl Generator {
    fn fresh_cl_ord_id(&mut self) -> Vec<u8> {
        self.fresh += 1;
        if self.profile.any_texts && self.random.chance(70) {
            return draw::any_text(&mut self.random, 1, 32);
        }
        match self.profile.name {
            "realistic" => format!("CLIENT-{:08}", self.fresh * 13).into_bytes(),
            _ => format!("c{}", self.fresh).into_bytes(),
        }
    }

    fn symbol(&mut self) -> Vec<u8> {
        if self.profile.any_texts {
            return draw::any_text(&mut self.random, 1, 16);
        }
        self.random.pick(&SYMBOLS).to_vec()
    }

    pub(super) fn book(&mut self) -> Draft {
        self.fresh += 1;
        let client = self.random.range(1, self.profile.clients) as u16;
        let client = if self.profile.any_texts && self.random.chance(20) { u16::MAX } else { client };
        let side = draw::code(&mut self.random, b"125");
        let named = Named { client, symbol: self.symbol(), side };
        let name = self.new_name();
        let cl_ord_id = if self.wrong() { self.used_cl_ord_id() } else { self.fresh_cl_ord_id() };
        let qty = draw::qty(&mut self.random, self.profile.values);
        let limit = self.random.chance(80);
        let price = draw::price(&mut self.random, self.profile.values);
        let venue = self.random.range(1, self.profile.venues) as u16;
        let draft = events::book(venue, &named, &name, &cl_ord_id, qty, limit.then_some(price));
        let draft = match self.wrong() {
            true => draft.number(ORD_TYPE, draw::code(&mut self.random, b"12")),
            false => draft,
        };
        if self.random.chance(60) {
            draft.number(TIME_IN_FORCE, draw::code(&mut self.random, b"0134"))
        } else {
            draft
        }
    }

    fn new_name(&mut self) -> Vec<u8> {
        if self.wrong() {
            let booked = self.machine.book().order_table().len();
            return if booked > 0 { bytes(&self.order().name) } else { b"NONE".to_vec() };
        }
        match self.profile.any_texts {
            true => {
                let length = *self.random.pick(&[1, 2, 5, 19, 20]);
                draw::order_name(&mut self.random, length)
            }
            false => format!("0A1B2C{}", self.fresh).into_bytes(),
        }
    }

    /// A ClOrdID that some client has used, or nearly.
    fn used_cl_ord_id(&mut self) -> Vec<u8> {
        if self.machine.book().order_table().is_empty() {
            return self.fresh_cl_ord_id();
        }
        let order = self.order();
        self.request(&order, |request| !request.gateway).cl_ord_id
    }

    /// The client, symbol and side that a request for `order` names.
    fn named(&mut self, order: &Order) -> Named {
        let mut named = Named {
            client: client_number(&order.client),
            symbol: bytes(&order.request.symbol),
            side: side_code(order.request.side),
        };
        if self.wrong() {
            match self.random.below(3) {
                0 => named.client = self.random.range(0, self.profile.clients) as u16,
                1 => named.symbol = self.symbol(),
                _ => named.side = draw::code(&mut self.random, b"125"),
            }
        }
        named
    }

    /// A ClOrdID and OrigClOrdID for a request on `order`, and whether it is sent again.
    fn request_ids(&mut self, order: &Order) -> (Vec<u8>, Vec<u8>, bool) {
        let current = bytes(&order.request.cl_ord_id);
        let own = self.request(order, |request| !request.gateway).cl_ord_id;
        let orig = if self.fits() { current } else { own };
        let orig = if self.wrong() { self.fresh_cl_ord_id() } else { orig };
        let again = self.wrong() || self.random.chance(3);
        let cl_ord_id = match again {
            true if self.random.chance(70) => self.request(order, |request| !request.gateway).cl_ord_id,
            true => self.used_cl_ord_id(),
            false => self.fresh_cl_ord_id(),
        };
        let valid = |id: Vec<u8>| if id.is_empty() { b"c".to_vec() } else { id };
        (valid(cl_ord_id), valid(orig), again && self.random.chance(70) || self.wrong())
    }

    pub(super) fn cancel(&mut self) -> Draft {
        let order = self.order_to_amend();
        let named = self.named(&order);
        let (cl_ord_id, orig, again) = self.request_ids(&order);
        let draft = events::cancel(&named, &cl_ord_id, &orig);
        if again { draft.mark(REDELIVERED) } else { draft }
    }

    pub(super) fn replace(&mut self) -> Draft {
        let order = self.order_to_amend();
        let named = self.named(&order);
        let (cl_ord_id, orig, again) = self.request_ids(&order);
        let marks = [qty_count(order.cum_qty), qty_count(order.request.qty)];
        let qty = match self.random.below(3) {
            0 => draw::qty(&mut self.random, self.profile.values).min(MAX_QTY),
            _ => draw::near(&mut self.random, &marks, 100_000),
        };
        let qty = if self.fits() { qty.max(marks[0]) } else { qty };
        let market = ord_type_code(order.request.ord_type) == b'1';
        let same = order.request.price.map(|price| price_count(price) as u64);
        let other = draw::price(&mut self.random, self.profile.values);
        let price = if self.random.chance(40) { same } else { (!market).then_some(other) };
        let draft = events::replace(&named, &cl_ord_id, &orig, qty, price);
        let draft = if again { draft.mark(REDELIVERED) } else { draft };
        self.replace_terms(draft, market)
    }

    /// Type, time in force, verdict and blocked mark of a replace.
    fn replace_terms(&mut self, mut draft: Draft, market: bool) -> Draft {
        if self.wrong() {
            let price = draw::price(&mut self.random, self.profile.values);
            draft = if market { draft.number(PRICE, price) } else { draft.without(PRICE) };
        }
        if self.random.chance(40) {
            let other = self.random.chance(25);
            let ord_type = if market != other { b'1' } else { b'2' };
            draft = draft.number(ORD_TYPE, ord_type);
            if other && self.random.chance(80) {
                let price = draw::price(&mut self.random, self.profile.values);
                draft = if ord_type == b'1' { draft.without(PRICE) } else { draft.number(PRICE, price) };
            }
        }
        if self.random.chance(40) {
            draft = draft.number(TIME_IN_FORCE, draw::code(&mut self.random, b"0134"));
        }
        if !self.fits() || self.random.chance(4) {
            draft = draft.number(VERDICT, self.random.below(8));
        }
        if self.wrong() || self.random.chance(3) { draft.mark(BLOCKED) } else { draft }
    }
}
