//! The machine of docs/SCOPE.md: questions 2 to 7 in their order, the nine kinds of event, and the
//! answer. The handling is the gateway's own book's; the rules of docs/SCOPE.md that the report sequence
//! goes on at 0 and that an exact half goes up stand over it here, and the source of a fill's price beside
//! it. The other rules that stand over the Rust are asserted by `watch`: the Rust keeps them.

use std::collections::{HashMap, HashSet};

use gateway::book::oracle::client;
use gateway::book::{
    Book, ClientId, GatewayEvent, Input, OrdType, OrderId, OrderRequest, Output, VenueReport,
};
use gateway::{CompactString, book};

use crate::answer::{self, Alarms, Brought, latin1};
use crate::codes;
use crate::done_for_day::{self, Told};
use crate::numbers::{Fill, price, price_count, qty, qty_count};
use crate::outcomes::Outcomes;
use crate::record::*;
use crate::short::{self, Short};

pub const BOOK_BYTES: usize = 65_536;
pub const ANSWER_BYTES: usize = 1_024;
pub const MOST_ORDERS: usize = 64;
pub const MOST_REQUESTS: usize = 256;

pub struct Machine {
    book: Book,
    setting: u32,
    clients: HashMap<u16, ClientId>,
    /// Orders whose latest report had the last sequence number, 2^64 - 1.
    at_last_sequence: HashSet<OrderId>,
    outcomes: Outcomes,
}

impl Clone for Machine {
    fn clone(&self) -> Self {
        let mut book = Book::with_setting(self.setting);
        book.set_tables(self.book.tables());
        let (clients, at_last_sequence) = (self.clients.clone(), self.at_last_sequence.clone());
        let outcomes = self.outcomes.clone();
        Self { book, setting: self.setting, clients, at_last_sequence, outcomes }
    }
}

impl Machine {
    pub fn start(setting: u32) -> Self {
        let book = Book::with_setting(setting);
        let (clients, at_last_sequence) = (HashMap::new(), HashSet::new());
        Self { book, setting, clients, at_last_sequence, outcomes: Outcomes::default() }
    }

    /// A machine whose book has these orders and requests, as a store would give them back, and what the requests came to.
    pub fn restored(
        setting: u32,
        orders: Vec<book::Order>,
        requests: Vec<(CompactString, book::Sent)>,
        outcomes: Outcomes,
    ) -> Self {
        let mut machine = Self::start(setting);
        let last = orders.iter().filter(|order| order.exec_seq == u64::MAX).map(|order| order.id);
        machine.at_last_sequence = last.collect();
        machine.book.restore_tables(orders, requests);
        machine.outcomes = outcomes;
        machine
    }

    pub fn book(&self) -> &Book {
        &self.book
    }

    pub fn setting(&self) -> u32 {
        self.setting
    }

    /// What the requests came to.
    pub fn outcomes(&self) -> &Outcomes {
        &self.outcomes
    }

    /// The order of that name.
    pub fn order(&self, name: &[u8]) -> Option<&book::Order> {
        let first = self.book.sent(&latin1(name)).filter(|sent| sent.kind.is_none())?;
        self.book.order(first.order)
    }

    /// The order of that name, to be changed from outside: for states that no short list reaches,
    /// and for planted faults.
    pub fn order_mut(&mut self, name: &[u8]) -> Option<&mut book::Order> {
        let id = self.order(name)?.id;
        self.book.order_mut(id)
    }

    /// A request, to be changed from outside.
    pub fn sent_mut(&mut self, downstream: &[u8]) -> Option<&mut book::Sent> {
        self.book.sent_mut(&latin1(downstream))
    }

    /// The answer to the event in `bytes`, or the number of the first question it fails.
    pub fn event(&mut self, bytes: &[u8], answer_buffer: usize) -> Result<Vec<u8>, u32> {
        let record = readable(bytes, answer_buffer)?;
        if record.kind == BOOK { self.booking(&record) } else { self.handle(&record) }
    }

    fn booking(&mut self, record: &Record<'_>) -> Result<Vec<u8>, u32> {
        let client = self.client(record);
        let request = order_request(record);
        let used = self.book.order_by_cl_ord_id(&client, &request.cl_ord_id).is_some();
        if used || self.order(record.text(NAME)).is_some() {
            return Err(5);
        }
        if record.has(PRICE) != (request.ord_type == OrdType::Limit) {
            return Err(6);
        }
        let full = self.book.order_table().len() == MOST_ORDERS;
        if full || self.book.request_table().len() == MOST_REQUESTS {
            return Err(7);
        }
        self.book.enter(latin1(record.text(NAME)), client, venue(record), request);
        self.book.discard_changes();
        Ok(answer::write(&[], [0, 0], Brought::default()))
    }

    /// Events 2 to 9: the book handles them, and gets its tables back if question 6 or 7 says no.
    fn handle(&mut self, record: &Record<'_>) -> Result<Vec<u8>, u32> {
        let told = Told::of(&self.book, record);
        self.handle_told(record, told)
    }

    /// The same event with a 3 put to the Rust as New or PartiallyFilled itself, on a copy: its outcome
    /// and the machine after it, right but for the order's status. None if no 3 comes or stands.
    pub fn plainly(&self, record: &Record<'_>) -> Option<(Result<Vec<u8>, u32>, Self)> {
        Told::of(&self.book, record)?;
        let mut copy = self.clone();
        let told = Told::plainly(&mut copy.book, record);
        let outcome = copy.handle_told(record, told);
        Some((outcome, copy))
    }

    fn handle_told(&mut self, record: &Record<'_>, told: Option<Told>) -> Result<Vec<u8>, u32> {
        let mut input = self.input(record);
        let short = Short::of(&self.book, record);
        let fill = self.fill(record);
        let price_fits = record.kind != REPLACE || self.price_fits(record);
        let full = self.book.request_table().len() == MOST_REQUESTS;
        let before = (!price_fits || full).then(|| self.book.tables());
        self.book.judge_next(record.has(BLOCKED), codes::verdict(record.code(VERDICT)));
        if let Some(short) = &short {
            short.put(&mut self.book);
            set_status(&mut input, short.status);
        }
        if let Some(told) = &told {
            set_status(&mut input, told.status);
        }
        let mut outputs = Vec::new();
        self.book.handle(input, &mut outputs);
        self.book.discard_changes();
        if let Some(short) = &short {
            short.left(&mut self.book, &mut outputs);
        }
        if let Some(told) = &told {
            told.left(&mut self.book, &mut outputs);
        }
        done_for_day::settle(&mut self.book, &latin1(record.text(DOWNSTREAM)));
        let alarms = self.alarms(short.is_some());
        let goes_out = outputs.iter().any(|output| matches!(output, Output::Replace { .. }));
        let refusal = match () {
            () if goes_out && !price_fits => Some(6),
            () if self.book.request_table().len() > MOST_REQUESTS => Some(7),
            () => None,
        };
        if let Some(number) = refusal {
            self.book.set_tables(before.expect("copied where a question may say no"));
            return Err(number);
        }
        self.outcomes.follow(&self.book, record);
        self.wrap_sequence(&mut outputs);
        let done_for_day = self.done_for_day(&outputs);
        let brought = Brought { text: record.maybe(TEXT, |r| r.text(TEXT)), fill, done_for_day };
        Ok(answer::write(&outputs, alarms, brought))
    }

    /// Whether the order that the client is told of is done for the day: an answer tells of one.
    fn done_for_day(&self, outputs: &[Output]) -> bool {
        let name = outputs.iter().find_map(|output| match output {
            Output::Report { report, .. } => report.order_id.clone(),
            Output::CancelReject { order_id, .. } => order_id.clone(),
            _ => None,
        });
        name.and_then(|name| self.order(&answer::bytes(&name))).is_some_and(done_for_day::holds)
    }

    /// What decides the price of a venue report's fill: the report's numbers and the order's as
    /// they stand before it.
    pub fn fill(&self, record: &Record<'_>) -> Option<Fill> {
        let named = latin1(record.text(DOWNSTREAM));
        let sent = self.book.sent(&named).filter(|_| record.kind == VENUE_REPORT)?;
        let order = self.book.order(sent.order)?;
        Some(Fill {
            last_qty: record.number(LAST_QTY),
            last_px: record.number(LAST_PX),
            cum_qty: record.number(CUM_QTY),
            avg_px: record.number(AVG_PX),
            old_cum_qty: qty_count(order.cum_qty),
            old_avg_px: price_count(order.avg_px) as u64,
        })
    }

    /// Question 6 for a replace: a price exactly if the type, the order's if it names none,
    /// is limit. A replace for no order is never asked.
    fn price_fits(&self, record: &Record<'_>) -> bool {
        let client = client(record.number(CLIENT) as u16);
        let order = self.book.order_by_cl_ord_id(&client, &latin1(record.text(ORIG_CL_ORD_ID)));
        let order = order.and_then(|id| self.book.order(id));
        let named = record.maybe(ORD_TYPE, |r| codes::ord_type(r.code(ORD_TYPE)));
        let ord_type = named.or(order.map(|order| order.request.ord_type));
        ord_type.is_none_or(|ord_type| record.has(PRICE) == (ord_type == OrdType::Limit))
    }

    /// The alarms that the event raised: a short Filled's before the one of the Rust.
    fn alarms(&mut self, short: bool) -> Alarms {
        let events: Vec<GatewayEvent> = self.book.take_events().collect();
        let raised = match &events[..] {
            [] => 0,
            [GatewayEvent::Alarm(alarm)] => answer::alarm_code(alarm.kind),
            events => panic!("more than one alarm: {events:?}"),
        };
        if short { [short::ALARM, raised] } else { [raised, 0] }
    }

    /// After the report sequence 2^64 - 1 comes 0; the Rust stays at the last number.
    fn wrap_sequence(&mut self, outputs: &mut [Output]) {
        for output in outputs {
            let Output::Report { report, .. } = output else { continue };
            let name = report.order_id.clone().expect("every reported order is booked");
            let id = self.book.sent(&name).expect("its first request").order;
            let order = self.book.order_mut(id).expect("a request names an order");
            if order.exec_seq < u64::MAX || self.at_last_sequence.insert(id) {
                continue;
            }
            self.at_last_sequence.remove(&id);
            order.exec_seq = 0;
            report.exec_id = latin1(format!("{name}.0").as_bytes());
        }
    }

    /// Sets an order's report sequence as a restored book might hold it.
    pub fn set_report_sequence(&mut self, name: &[u8], sequence: u64) {
        let order = self.order_mut(name).expect("a booked order");
        order.exec_seq = sequence;
        let id = order.id;
        self.at_last_sequence.remove(&id);
        if sequence == u64::MAX {
            self.at_last_sequence.insert(id);
        }
    }

    pub fn client(&mut self, record: &Record<'_>) -> ClientId {
        let number = record.number(CLIENT) as u16;
        self.clients.entry(number).or_insert_with(|| client(number)).clone()
    }

    /// The Rust's input for an event of kind 2 to 9.
    pub fn input(&mut self, record: &Record<'_>) -> Input {
        match record.kind {
            CANCEL => Input::Cancel {
                client: self.client(record),
                cl_ord_id: latin1(record.text(CL_ORD_ID)),
                orig_cl_ord_id: latin1(record.text(ORIG_CL_ORD_ID)),
                side: codes::side(record.code(SIDE)),
                symbol: latin1(record.text(SYMBOL)),
                redelivered: record.has(REDELIVERED),
            },
            REPLACE => self.replace(record),
            VENUE_REPORT => Input::VenueReport { venue: venue(record), report: venue_report(record) },
            UNKNOWN_AT_VENUE => Input::VenueReport { venue: venue(record), report: unknown_at_venue(record) },
            CANCEL_REJECT => Input::VenueCancelReject {
                venue: venue(record),
                downstream: latin1(record.text(DOWNSTREAM)),
                status: status(record),
                text: record.maybe(TEXT, |r| latin1(r.text(TEXT))),
                reason: record.maybe(REASON, |r| r.number(REASON) as u32),
                venue_order_id: record.maybe(VENUE_ORDER_ID, |r| latin1(r.text(VENUE_ORDER_ID))),
            },
            SEND_FAILED => Input::SendFailed {
                venue: venue(record),
                downstream: latin1(record.text(DOWNSTREAM)),
                text: latin1(record.text(TEXT)),
            },
            SEND_AGAIN => Input::Unsent { venue: venue(record), downstream: latin1(record.text(DOWNSTREAM)) },
            _ => {
                let no_order = OrderId(0);
                let order = self.order(record.text(NAME)).map_or(no_order, |order| order.id);
                Input::CancelOrder { order }
            }
        }
    }

    fn replace(&mut self, record: &Record<'_>) -> Input {
        Input::Replace {
            client: self.client(record),
            cl_ord_id: latin1(record.text(CL_ORD_ID)),
            orig_cl_ord_id: latin1(record.text(ORIG_CL_ORD_ID)),
            side: codes::side(record.code(SIDE)),
            symbol: latin1(record.text(SYMBOL)),
            qty: qty(record.number(QTY)),
            price: record.maybe(PRICE, |r| price(r.number(PRICE))),
            ord_type: record.maybe(ORD_TYPE, |r| codes::ord_type(r.code(ORD_TYPE))),
            time_in_force: record.maybe(TIME_IN_FORCE, |r| codes::time_in_force(r.code(TIME_IN_FORCE))),
            redelivered: record.has(REDELIVERED),
        }
    }
}

/// Questions 2 to 4, which need no book: the record, or the number of the first no.
pub fn readable(bytes: &[u8], answer_buffer: usize) -> Result<Record<'_>, u32> {
    if answer_buffer < ANSWER_BYTES {
        return Err(2);
    }
    let record = Record::read_event(bytes).ok_or(3_u32)?;
    if record.in_range() { Ok(record) } else { Err(4) }
}

/// The Rust's order request of a booking.
pub fn order_request(record: &Record<'_>) -> OrderRequest {
    OrderRequest {
        cl_ord_id: latin1(record.text(CL_ORD_ID)),
        account: None,
        symbol: latin1(record.text(SYMBOL)),
        side: codes::side(record.code(SIDE)),
        ord_type: codes::ord_type(record.code(ORD_TYPE)),
        qty: qty(record.number(QTY)),
        price: record.maybe(PRICE, |r| price(r.number(PRICE))),
        ex_destination: None,
        time_in_force: record.maybe(TIME_IN_FORCE, |r| codes::time_in_force(r.code(TIME_IN_FORCE))),
    }
}

pub fn venue(record: &Record<'_>) -> CompactString {
    latin1(record.number(VENUE).to_string().as_bytes())
}

fn status(record: &Record<'_>) -> Option<book::Status> {
    record.maybe(ORD_STATUS, |r| match r.code(ORD_STATUS) {
        done_for_day::CODE => done_for_day::taken_as(qty(r.number(CUM_QTY))),
        code => codes::status(code),
    })
}

/// The status of a venue's report or refusal.
fn set_status(input: &mut Input, other: book::Status) {
    match input {
        Input::VenueReport { report, .. } => report.status = Some(other),
        Input::VenueCancelReject { status, .. } => *status = Some(other),
        input => panic!("no status: {input:?}"),
    }
}

fn venue_report(record: &Record<'_>) -> VenueReport {
    VenueReport {
        downstream: latin1(record.text(DOWNSTREAM)),
        exec_type: codes::exec_type(record.code(EXEC_TYPE)),
        status: status(record),
        last_qty: qty(record.number(LAST_QTY)),
        last_px: price(record.number(LAST_PX)),
        cum_qty: qty(record.number(CUM_QTY)),
        avg_px: price(record.number(AVG_PX)),
        exec_id: CompactString::default(),
        text: record.maybe(TEXT, |r| latin1(r.text(TEXT))),
        venue_order_id: record.maybe(VENUE_ORDER_ID, |r| latin1(r.text(VENUE_ORDER_ID))),
        ord_rej_reason: record.maybe(REASON, |r| r.number(REASON) as u32),
    }
}

/// A report of which the Rust's `says_unknown_at_venue` holds: all that event 5 says.
fn unknown_at_venue(record: &Record<'_>) -> VenueReport {
    VenueReport {
        downstream: latin1(record.text(DOWNSTREAM)),
        exec_type: book::ExecType::Status,
        status: Some(book::Status::Rejected),
        last_qty: qty(0),
        last_px: price(0),
        cum_qty: qty(0),
        avg_px: price(0),
        exec_id: CompactString::default(),
        text: None,
        venue_order_id: None,
        ord_rej_reason: Some(5),
    }
}
