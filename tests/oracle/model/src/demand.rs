//! Demand 3, counted from the messages that stand in the answers and from the events alone: an
//! order's LastQtys add up to its cumulative quantity, a done status stays, and the tries of a
//! gateway cancel are the cancel requests put out since it began, less those whose send failed.
//!
//! It is counted since a book that is there, the image (change request 10): the empty one after a
//! start, the one returned to after a return. LastQtys and what the image held are the cumulative
//! quantity; a done status of the image stays; until the gateway cancel begins again the tries are
//! the image's and the new requests, less those of both whose send failed since; a request of
//! the image that is sent again is not new.

use std::collections::{HashMap, HashSet};

use gateway::book::{Book, CancelKind, Order, Origin};

use crate::answer::{bytes, client_number, messages};
use crate::codes::{is_done, status_code};
use crate::machine::Machine;
use crate::numbers::qty_count;
use crate::record::*;
use crate::rules::requests;

/// What the image held of an order's gateway cancel, which counts until the cancel begins again.
#[derive(Debug, Clone, Default)]
struct Base {
    tries: usize,
    /// The gateway's cancel requests for the order.
    out: Vec<Vec<u8>>,
}

/// Readings of change request 10 that are near and false: a count by one of them must fail.
#[derive(Debug, Clone, Copy, PartialEq, Eq)]
pub enum Misread {
    /// A request of the image that is sent again is new.
    SentAgainIsNew,
    /// Requests of the image whose send fails since do not come off.
    HeldFailuresStay,
    /// A client's cancel of the image whose send fails comes off too.
    ClientFailuresComeOff,
    /// The image's tries count on after the gateway cancel begins again.
    HeldTriesStay,
    /// The image's tries are its gateway requests for the order.
    TriesByRequests,
    /// Any answer is a failure.
    AnsweredIsFailed,
    /// What was put out before the return counts.
    PutOutBeforeCounts,
    /// A downstream ClOrdID that was used before the return is not new after it.
    UsedBeforeIsNotNew,
    /// LastQtys told before the return count.
    ToldBeforeCounts,
    /// What the image held of an order does not count.
    HeldQtyLost,
    /// An order that was done before the return stays done.
    DoneBeforeStays,
}

impl Misread {
    pub const ALL: [Self; 11] = [
        Self::SentAgainIsNew,
        Self::HeldFailuresStay,
        Self::ClientFailuresComeOff,
        Self::HeldTriesStay,
        Self::TriesByRequests,
        Self::AnsweredIsFailed,
        Self::PutOutBeforeCounts,
        Self::UsedBeforeIsNotNew,
        Self::ToldBeforeCounts,
        Self::HeldQtyLost,
        Self::DoneBeforeStays,
    ];
}

/// What all answers since the image have said.
#[derive(Debug, Clone, Default)]
pub struct History {
    misread: Option<Misread>,
    /// The cumulative quantity that the image held, by client and order name.
    held: HashMap<(u16, Vec<u8>), u128>,
    /// The sum of LastQty by client and order name.
    told: HashMap<(u16, Vec<u8>), u128>,
    /// Every downstream ClOrdID that a request of the image or a message 19 since has borne.
    put_out: HashSet<Vec<u8>>,
    /// What the image held, by order name, until the order's gateway cancel begins again.
    base: HashMap<Vec<u8>, Base>,
    /// By order name, the gateway's cancel requests put out since its cancel last began.
    since_begun: HashMap<Vec<u8>, Vec<Vec<u8>>>,
    /// Requests whose `answered` an event 7 set.
    failed: HashSet<Vec<u8>>,
    /// The done status of each order name, from when it was set.
    done: HashMap<Vec<u8>, u8>,
}

/// What must be known of the book before an event.
#[derive(Debug, Clone, Default)]
pub struct Before {
    /// The order whose gateway cancel this event begins.
    begins: Option<Vec<u8>>,
    /// The unanswered request that this event 7 names.
    sending: Option<Vec<u8>>,
    /// The unanswered request that this event of another kind names.
    asking: Option<Vec<u8>>,
}

impl Before {
    /// A gateway cancel begins if event 9 finds the order live and none of the gateway's
    /// cancels at the venue.
    pub fn of(machine: &Machine, record: &Record<'_>) -> Self {
        let book = machine.book();
        let begins = |order: &&Order| !is_done(status_code(order.status)) && !book.gateway_cancels(order);
        let name = record.text(NAME);
        let order = machine.order(name).filter(|_| record.kind == GATEWAY_CANCEL).filter(begins);
        let downstream = record.text(DOWNSTREAM);
        let open = (answered(book, downstream) == Some(false)).then(|| downstream.to_vec());
        let (sending, asking) = if record.kind == SEND_FAILED { (open, None) } else { (None, open) };
        Self { begins: order.map(|_| name.to_vec()), sending, asking }
    }
}

fn answered(book: &Book, downstream: &[u8]) -> Option<bool> {
    book.sent(&crate::answer::latin1(downstream)).map(|sent| sent.answered)
}

impl History {
    /// Nothing told yet, from a book that is there and keeps its rules.
    pub fn since(image: &Book) -> Self {
        let orders = || image.order_table().values();
        let key = |order: &Order| (client_number(&order.client), bytes(&order.name));
        let status = |order: &Order| (bytes(&order.name), status_code(order.status));
        let base = |order: &Order| {
            let ours = requests(image, order).filter(|(_, sent)| sent.origin == Origin::Gateway);
            let tries = order.gateway_cancel.as_ref().map_or(0, |gateway| gateway.tries as usize);
            Base { tries, out: ours.map(|(downstream, _)| bytes(downstream)).collect() }
        };
        Self {
            held: orders().map(|order| (key(order), qty_count(order.cum_qty).into())).collect(),
            put_out: image.request_table().keys().map(|downstream| bytes(downstream)).collect(),
            base: orders().map(|order| (bytes(&order.name), base(order))).collect(),
            done: orders().map(status).filter(|(_, status)| is_done(*status)).collect(),
            ..Self::default()
        }
    }

    /// The count by a reading that is false, from here on.
    pub fn misread(self, misread: Option<Misread>) -> Self {
        Self { misread, ..self }
    }

    /// After a return to an image all is counted anew from it.
    pub fn returned(&self, image: &Book) -> Self {
        let mut since = Self::since(image).misread(self.misread);
        match self.misread {
            Some(Misread::SentAgainIsNew) => since.put_out.clear(),
            Some(Misread::ClientFailuresComeOff) => since.base_with_clients(image),
            Some(Misread::TriesByRequests) => {
                since.base.values_mut().for_each(|base| base.tries = base.out.len());
            }
            Some(Misread::PutOutBeforeCounts) => since.since_begun = self.since_begun.clone(),
            Some(Misread::UsedBeforeIsNotNew) => since.put_out.extend(self.put_out.iter().cloned()),
            Some(Misread::ToldBeforeCounts) => since.told = self.told.clone(),
            Some(Misread::HeldQtyLost) => since.held.clear(),
            Some(Misread::DoneBeforeStays) => since.done.extend(self.done.clone()),
            _ => {}
        }
        since
    }

    /// Counts clients' cancels of the image as the gateway's.
    fn base_with_clients(&mut self, image: &Book) {
        for order in image.order_table().values() {
            let cancels = requests(image, order).filter(|(_, sent)| sent.kind == Some(CancelKind::Cancel));
            let base = self.base.entry(bytes(&order.name)).or_default();
            base.out = cancels.map(|(downstream, _)| bytes(downstream)).collect();
        }
    }

    /// Takes in one event that was taken, and says what of demand 3 does not hold after it.
    pub fn taken(&mut self, before: Before, kind: u8, answer: &[u8], book: &Book) -> Result<(), String> {
        if let Some(name) = before.begins {
            if self.misread != Some(Misread::HeldTriesStay) {
                self.base.remove(&name);
            }
            self.since_begun.insert(name, Vec::new());
        }
        let asking = before.asking.filter(|_| self.misread == Some(Misread::AnsweredIsFailed));
        let named = before.sending.or(asking);
        if let Some(downstream) = named.filter(|name| answered(book, name) == Some(true)) {
            self.failed.insert(downstream);
        }
        for message in messages(answer) {
            self.hear(kind, &message);
        }
        book.order_table().values().try_for_each(|order| self.holds(order))
    }

    fn hear(&mut self, kind: u8, message: &Record<'_>) {
        if message.kind == REPORT_MESSAGE {
            let order = (message.number(CLIENT) as u16, message.text(NAME).to_vec());
            *self.told.entry(order).or_default() += message.wide(LAST_QTY);
        }
        let downstream = message.text(DOWNSTREAM);
        let first = message.kind == CANCEL_MESSAGE && self.put_out.insert(downstream.to_vec());
        if first && kind != CANCEL {
            let name = downstream.split(|&byte| byte == b'-').next().expect("a first part");
            self.since_begun.entry(name.to_vec()).or_default().push(downstream.to_vec());
        }
    }

    fn holds(&mut self, order: &Order) -> Result<(), String> {
        let name = bytes(&order.name);
        let key = (client_number(&order.client), name.clone());
        let of = |sums: &HashMap<(u16, Vec<u8>), u128>| sums.get(&key).copied().unwrap_or(0);
        let (told, held) = (of(&self.told), of(&self.held));
        let fail = |what: String| Err(format!("order {}: {what}", order.name));
        if told + held != qty_count(order.cum_qty).into() {
            let cum_qty = order.cum_qty;
            return fail(format!("LastQtys add up to {told}, held were {held}, cumulative is {cum_qty}"));
        }
        if order.cum_qty > order.request.qty {
            return fail(format!("{} filled of {}", order.cum_qty, order.request.qty));
        }
        let status = status_code(order.status);
        let was = self.done.get(&name).copied().unwrap_or(status);
        if was != status {
            return fail(format!("done status {} became {}", char::from(was), char::from(status)));
        }
        if is_done(status) {
            self.done.insert(name.clone(), status);
        }
        let Some(gateway) = &order.gateway_cancel else { return Ok(()) };
        let base = self.base.get(&name).cloned().unwrap_or_default();
        let new = self.since_begun.get(&name).map_or(&[][..], Vec::as_slice);
        let failed = |out: &[Vec<u8>]| out.iter().filter(|request| self.failed.contains(*request)).count();
        let held_failed = if self.misread == Some(Misread::HeldFailuresStay) { 0 } else { failed(&base.out) };
        let (tries, failed) = (gateway.tries as usize, failed(new) + held_failed);
        if tries + failed != new.len() + base.tries || tries > 3 {
            let (out, held) = (new.len(), base.tries);
            return fail(format!("{tries} tries, {out} put out, {failed} failed, {held} held"));
        }
        Ok(())
    }
}
