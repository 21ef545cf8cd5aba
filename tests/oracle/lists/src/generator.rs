//! The generator of one list: it keeps a model of its own, looks at the orders and requests that
//! stand in it, and draws events that fit them, or nearly.

use gateway::book::{CancelKind, Order, OrderId, Origin};
use model::Machine;
use model::answer::bytes;
use model::codes::{RUST_STATUSES, STATUSES, is_done, status_code};
use model::record::*;

use crate::Item;
use crate::damage::damage;
use crate::draw;
use crate::profile::Profile;
use crate::random::Random;

mod client;
mod venue;

const ANSWER_BUFFERS: [usize; 7] = [0, 1, 1_023, 1_025, 2_048, 4_096, 65_536];
const SYMBOLS: [&[u8]; 3] = [b"ESZ6", b"NQZ6", b"CLF7"];

pub struct Generator {
    profile: &'static Profile,
    random: Random,
    machine: Machine,
    drawn: Vec<Vec<u8>>,
    fresh: u64,
}

/// A request that an event may name.
struct Request {
    downstream: Vec<u8>,
    cl_ord_id: Vec<u8>,
    kind: Option<CancelKind>,
    gateway: bool,
    answered: bool,
}

impl Generator {
    pub fn new(profile: &'static Profile, seed: u64) -> Self {
        let mut random = Random::new(seed ^ 0x6A75_6261_6669_7965);
        let setting = random.range(profile.setting.0.into(), profile.setting.1.into()) as u32;
        let machine = Machine::start(setting);
        Self { profile, random, machine, drawn: Vec::new(), fresh: 0 }
    }

    /// A generator whose lists go on from a book that is there.
    pub fn on(machine: Machine, profile: &'static Profile, seed: u64) -> Self {
        Self { profile, random: Random::new(seed), machine, drawn: Vec::new(), fresh: 0 }
    }

    /// How many names and ClOrdIDs were drawn anew.
    pub fn fresh(&self) -> u64 {
        self.fresh
    }

    /// Goes on with another book, with so many names drawn: fewer than there were, and names that were used come again.
    pub fn go_on(&mut self, machine: Machine, fresh: u64) {
        (self.machine, self.fresh) = (machine, fresh);
    }

    pub fn setting(&self) -> u32 {
        self.machine.setting()
    }

    pub fn machine(&self) -> &Machine {
        &self.machine
    }

    /// The next event, which the generator's own machine has taken or refused.
    pub fn next_item(&mut self) -> Item {
        let mut record = match self.drawn.len() as u64 {
            seen if seen > 0 && self.random.chance(self.profile.repeated) => {
                let back = self.random.below(seen.min(60));
                self.drawn[(seen - 1 - back) as usize].clone()
            }
            _ => self.draft().bytes(),
        };
        if self.random.chance(self.profile.damaged) {
            record = damage(&mut self.random, &record);
        }
        let odd = self.random.chance(self.profile.buffers);
        let answer_buffer = if odd { *self.random.pick(&ANSWER_BUFFERS) } else { 1_024 };
        // What the machine answers is not asked here; the event moves its book.
        let _ = self.machine.event(&record, answer_buffer);
        self.drawn.push(record.clone());
        Item { record, answer_buffer }
    }

    /// A whole event of a kind drawn by the profile's weights.
    fn draft(&mut self) -> Draft {
        if self.machine.book().order_table().is_empty() {
            return self.book();
        }
        let mut at = self.random.below(self.profile.weights.iter().sum());
        let kind = self.profile.weights.iter().position(|&weight| {
            let here = at < weight;
            at = at.wrapping_sub(weight);
            here
        });
        match kind.expect("a weight covers every number drawn") as u8 + 1 {
            BOOK if self.live().len() < self.profile.orders => self.book(),
            CANCEL => self.cancel(),
            REPLACE => self.replace(),
            UNKNOWN_AT_VENUE => self.unknown_at_venue(),
            CANCEL_REJECT => self.cancel_reject(),
            SEND_FAILED => self.send_failed(),
            SEND_AGAIN => self.send_again(),
            GATEWAY_CANCEL => self.gateway_cancel(),
            _ => self.report(),
        }
    }

    /// Whether this detail is as a well-behaved sender would have it.
    fn fits(&mut self) -> bool {
        self.random.chance(self.profile.fitting)
    }

    /// Whether this detail is wrong: rarer than not fitting, so that most events go deep.
    fn wrong(&mut self) -> bool {
        !self.fits() && self.random.chance(25)
    }

    /// A booked order, mostly a live one.
    fn order(&mut self) -> Order {
        let live = self.live();
        let booked = self.machine.book().order_table().len() as u64;
        let id = match self.random.chance(85) && !live.is_empty() {
            true => *self.random.pick(&live),
            false => OrderId(self.random.range(1, booked)),
        };
        self.machine.book().order(id).expect("orders are numbered as they are booked").clone()
    }

    /// An order to amend: one with nothing pending, if that fits and a few draws find one.
    fn order_to_amend(&mut self) -> Order {
        let draws = if self.fits() { 6 } else { 1 };
        let mut order = self.order();
        for _ in 1..draws {
            if !is_done(status_code(order.status))
                && order.pending.is_none()
                && order.gateway_cancel.is_none()
            {
                break;
            }
            order = self.order();
        }
        order
    }

    /// The live orders, as they were booked.
    fn live(&self) -> Vec<OrderId> {
        let book = self.machine.book();
        let ids = (1..=book.order_table().len() as u64).map(OrderId);
        ids.filter(|&id| book.order(id).is_some_and(|order| !is_done(status_code(order.status)))).collect()
    }

    /// Any status, mostly one of a live order.
    fn any_status(&mut self) -> u8 {
        let all = if self.profile.days > 0 { STATUSES } else { RUST_STATUSES };
        let codes = if self.random.chance(75) { b"A016E" } else { all };
        draw::code(&mut self.random, codes)
    }

    /// The order's requests, in their order.
    fn requests(&self, order: &Order) -> Vec<Request> {
        let names = (0..=order.amendments).map(|n| match n {
            0 => order.name.to_string(),
            n => format!("{}-{n}", order.name),
        });
        names
            .map(|downstream| {
                let sent = self.machine.book().sent(&downstream).expect("an amendment's request");
                Request {
                    downstream: bytes(&downstream),
                    cl_ord_id: bytes(&sent.cl_ord_id),
                    kind: sent.kind,
                    gateway: sent.origin == Origin::Gateway,
                    answered: sent.answered,
                }
            })
            .collect()
    }

    /// A request of the order's that `wanted` holds of, if there is one and it fits; else any.
    fn request(&mut self, order: &Order, wanted: impl Fn(&Request) -> bool) -> Request {
        let mut requests = self.requests(order);
        if self.fits() && requests.iter().any(&wanted) {
            requests.retain(wanted);
        }
        let at = self.random.below(requests.len() as u64) as usize;
        requests.swap_remove(at)
    }

    /// A downstream ClOrdID that no request bears.
    fn unknown_downstream(&mut self, order: &Order) -> Vec<u8> {
        match self.random.below(4) {
            0 => format!("{}-{}", order.name, order.amendments + 1).into_bytes(),
            1 => format!("{}-0", order.name).into_bytes(),
            2 => format!("{}-01", order.name).into_bytes(),
            _ => draw::any_text(&mut self.random, 1, 32),
        }
    }

    fn venue(&mut self, order: &Order) -> u16 {
        if self.wrong() { self.random.range(0, self.profile.venues) as u16 } else { number(&order.venue) }
    }
}

fn number(venue: &str) -> u16 {
    venue.parse().expect("a venue is a number")
}

#[cfg(test)]
mod tests {
    use super::*;
    use crate::{PROFILES, list};

    #[test]
    fn a_seed_gives_the_same_list() {
        for profile in &PROFILES {
            assert_eq!(list(profile, 3, 100), list(profile, 3, 100), "{}", profile.name);
            assert_ne!(list(profile, 3, 100), list(profile, 4, 100), "{}", profile.name);
        }
    }

    #[test]
    fn a_realistic_day_has_about_thirty_orders_and_150_requests() {
        let (mut orders, mut requests) = (0, 0);
        for seed in 0..20 {
            let mut generator = Generator::new(&PROFILES[0], seed);
            (0..400).for_each(|_| drop(generator.next_item()));
            orders += generator.machine().book().order_table().len();
            requests += generator.machine().book().request_table().len();
        }
        assert!((25..=40).contains(&(orders / 20)), "{orders} orders in 20 days");
        assert!((130..=180).contains(&(requests / 20)), "{requests} requests in 20 days");
    }
}
