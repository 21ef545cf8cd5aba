//! A machine under watch: after every event the Rust's own `check()`, the book's rules, demand
//! 3 since the start or the last return, what a Filled and a 3 leave, what the requests came to, and the rules of docs/SCOPE.md, Over the Rust, are asserted. The Rust keeps the last
//! by itself in all that is run; a run in which it does not ends in an error that names the rule.

use std::panic::{AssertUnwindSafe, catch_unwind};

use gateway::book::oracle::client;
use gateway::book::{Book, Order, OrderId, Status};

use crate::answer::{alarms, latin1, messages};
use crate::day_judge::{self, Judged};
use crate::demand::{Before, History, Misread};
use crate::done_for_day;
use crate::filled::{self, Filled, Met};
use crate::machine::{ANSWER_BYTES, Machine};
use crate::numbers::Fill;
use crate::outcomes;
use crate::record::*;
use crate::rules;
use crate::short;

#[derive(Clone)]
pub struct Watched {
    pub machine: Machine,
    history: History,
    /// What events with status Filled met.
    pub met: Met,
    /// What a status 3 met.
    pub met_days: day_judge::Met,
    /// Whether a start and events lead to the book: the Rust's own `check()` asks more than the rules.
    reached: bool,
}

impl Watched {
    pub fn start(setting: u32) -> Self {
        Self::on(Machine::start(setting), History::default(), true)
    }

    /// A machine whose book keeps its rules, whether any events lead to it or not: demand 3 is
    /// counted since that book.
    pub fn since(machine: Machine) -> Self {
        let history = History::since(machine.book());
        Self::on(machine, history, false)
    }

    fn on(machine: Machine, history: History, reached: bool) -> Self {
        Self { machine, history, met: Met::new(), met_days: day_judge::Met::new(), reached }
    }

    /// The same, counted by a reading that is false.
    pub fn misread(self, misread: Option<Misread>) -> Self {
        Self { history: self.history.misread(misread), ..self }
    }

    /// Goes on with the machine of an image that was returned to.
    pub fn returned(&mut self, machine: Machine) {
        self.history = self.history.returned(machine.book());
        self.machine = machine;
        self.reached = false;
    }

    /// The event's outcome, or what does not hold after it.
    pub fn event(&mut self, record: &[u8], answer_buffer: usize) -> Result<Result<Vec<u8>, u32>, String> {
        let read = Record::read_event(record).filter(Record::in_range);
        let before = read.as_ref().map(|read| (Before::of(&self.machine, read), self.machine.fill(read)));
        let filled = read.as_ref().and_then(|read| Filled::of(self.machine.book(), read));
        let stood = outcomes::Before::of(&self.machine);
        let concerned = read.as_ref().and_then(|read| concerned(&self.machine, read));
        let book = self.machine.book();
        let judged = read.as_ref().and_then(|read| Judged::of(book, concerned, read));
        let plainly = read.as_ref().and_then(|read| self.machine.plainly(read));
        let outcome = self.machine.event(record, answer_buffer);
        if let Some((plain, after)) = plainly.filter(|_| answer_buffer >= ANSWER_BYTES) {
            same_but_status((&outcome, self.machine.book()), (&plain, after.book()))?;
        }
        self.judge(filled, &outcome)?;
        if let (Some(judged), Ok(answer)) = (judged, &outcome)
            && let Some(met) = judged.judge(self.machine.book(), answer)?
        {
            *self.met_days.entry(met).or_default() += 1;
        }
        let (Ok(answer), Some(read), Some((before, fill))) = (&outcome, &read, before) else {
            return Ok(outcome);
        };
        priced(read, fill, answer)?;
        stood.judge(&self.machine, read)?;
        let book = self.machine.book();
        if self.reached {
            rules::broken(book).map_or(Ok(()), Err)?;
        }
        self.history.taken(before, read.kind, answer, book)?;
        if self.reached {
            catch_unwind(AssertUnwindSafe(|| book.check_invariants())).map_err(|_| "the Rust's check()")?;
        }
        Ok(outcome)
    }
}

impl Watched {
    /// Alarm 6 and a second alarm come with a short Filled alone; from a start on Filled orders are whole.
    fn judge(&mut self, filled: Option<Filled>, outcome: &Result<Vec<u8>, u32>) -> Result<(), String> {
        let book = self.machine.book();
        let met = match (filled, outcome) {
            (Some(filled), Ok(answer)) => Some(filled.judge(book, answer)?),
            (Some(filled), Err(refusal)) => filled.refused(*refusal),
            (None, Ok(answer)) if alarms(answer)[0] == short::ALARM || alarms(answer)[1] > 0 => {
                return Err(format!("alarms {:?} without a Filled", alarms(answer)));
            }
            (None, _) => None,
        };
        if let Some(met) = met {
            *self.met.entry(met).or_default() += 1;
        }
        if !self.reached {
            return Ok(());
        }
        filled::whole(book).map_err(|order| format!("{order:?} is Filled and not whole"))
    }
}

/// A 3 put to the Rust as New or PartiallyFilled itself tells and leaves the same, but for status and leaves.
fn same_but_status(
    (outcome, book): (&Result<Vec<u8>, u32>, &Book),
    (plain, plain_book): (&Result<Vec<u8>, u32>, &Book),
) -> Result<(), String> {
    let blank = |message: &Record<'_>| match message.kind {
        REPORT_MESSAGE => Draft::of(message).number(ORD_STATUS, 0_u8).number(LEAVES_QTY, 0_u8).bytes(),
        REJECT_MESSAGE => Draft::of(message).number(ORD_STATUS, 0_u8).bytes(),
        _ => Draft::of(message).bytes(),
    };
    let told = |outcome: &Result<Vec<u8>, u32>| {
        let blanked =
            |answer: &Vec<u8>| (alarms(answer), messages(answer).iter().map(blank).collect::<Vec<_>>());
        outcome.as_ref().map(blanked).map_err(|&refusal| refusal)
    };
    let left = |book: &Book| {
        let mut orders: Vec<Order> = book.order_table().values().cloned().collect();
        orders.sort_by_key(|order| order.id.0);
        orders.iter_mut().for_each(|order| {
            order.status = Status::New;
            done_for_day::mark(order, false);
        });
        let mut requests: Vec<_> = book.request_table().iter().collect();
        requests.sort_by_key(|(downstream, _)| *downstream);
        format!("{orders:?} {requests:?}")
    };
    if told(outcome) == told(plain) && left(book) == left(plain_book) {
        return Ok(());
    }
    Err(format!("a 3 put plainly: {plain:?} for {outcome:?}"))
}

/// The order that an event of kind 2 to 9 is about.
fn concerned(machine: &Machine, record: &Record<'_>) -> Option<OrderId> {
    let book = machine.book();
    match record.kind {
        BOOK => None,
        CANCEL | REPLACE => {
            let client = client(record.number(CLIENT) as u16);
            book.order_by_cl_ord_id(&client, &latin1(record.text(ORIG_CL_ORD_ID)))
        }
        GATEWAY_CANCEL => machine.order(record.text(NAME)).map(|order| order.id),
        _ => book.sent(&latin1(record.text(DOWNSTREAM))).map(|sent| sent.order),
    }
}

/// In a report that answers a venue's, LastQty is the rise and the price that of its source, by
/// exact integers; in any other both are 0, and the source too.
fn priced(event: &Record<'_>, fill: Option<Fill>, answer: &[u8]) -> Result<(), String> {
    for report in messages(answer).iter().filter(|message| message.kind == REPORT_MESSAGE) {
        let told = (report.number(LAST_QTY), report.wide(FILL_PRICE), report.code(PRICE_SOURCE));
        let exact = match fill {
            Some(fill) => (fill.rise(), fill.price(), fill.source() as u8),
            None if event.kind == VENUE_REPORT => return Err("a report on no order".into()),
            None => (0, 0, 0),
        };
        if told != exact {
            return Err(format!("told {told:?}, exact is {exact:?} for {fill:?}"));
        }
    }
    Ok(())
}
