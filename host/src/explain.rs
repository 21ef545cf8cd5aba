//! Why a book is refused: the rules of docs/SCOPE.md, Rules, decided here a second time, with the place where each is broken. What
//! the library's `check` says is what counts; a test compares this with it. Rests on layout, kinds, read and fields.

use std::fmt;

use crate::fields::{OrdStatus, OrdType, Side, TimeInForce};
use crate::kinds::{SentKind, Stage, GATEWAY_CANCEL};
use crate::layout::{self, header, order, request, BookBytes, Raw, Spot, BOOK_BYTES, OPEN, ORDERS, REQUESTS};
use crate::list::listed;
use crate::message::line;
use crate::read::{is_order_name, MAX_PRICE, MAX_QTY};

listed! {
    /// A rule of the book (docs/SCOPE.md, Rules), by its place in that list.
    ///
    /// ```
    /// # use jubafiye::Rule;
    /// assert_eq!((Rule::Filled.number(), Rule::from_number(6)), (6, Some(Rule::Filled)));
    /// assert_eq!(Rule::Filled.to_string(), "the cumulative quantity is at most the quantity ordered");
    /// ```
    #[non_exhaustive]
    Rule: number, from_number {
        Length = 0 "a book has 65,536 bytes",
        Ranges = 1 "every field is in its range",
        Requests = 2 "each request names a booked order",
        Current = 3 "an order's current downstream is that of its first request or of a replace of its own",
        Cancel = 4 "an order's latest cancel is a cancel of its own",
        Names = 5 "names are distinct",
        Filled = 6 "the cumulative quantity is at most the quantity ordered",
        Status = 7 "above a cumulative quantity of 0 the status is not A or 0",
        Done = 8 "a done order has no pending terms and no gateway cancel",
        Pending = 9 "pending terms name an unanswered client's replace of that order",
        Amendments = 10 "an order's amendments are the number of its requests less one",
        Numbers = 11 "downstream ClOrdIDs are the name, then the name with -1, -2 and so on, the first alone a new order",
        Tries = 12 "a gateway cancel's tries are at most 3, and at most 2 if it is unsent",
        InFlight = 13 "an unanswered gateway's cancel of a live order is its latest cancel, tried, sent and not stuck",
        OpenQuantity = 14 "what is stored for a client is its open quantity",
        Outcomes = 15 "a request's outcome is 0 if it is unanswered, and 1, 2 or 3 if it is answered",
        Origins = 16 "an OrigClOrdID names an earlier request of its order, and the stored link leads to it",
    }
}

/// A rule that a book breaks, and where.
///
/// ```
/// use jubafiye::{explain, Broken, Rule, BOOK_BYTES};
///
/// let mut bytes = [0; BOOK_BYTES];
/// bytes[0] = 65;
/// let broken: &Broken = &explain(&bytes)[0];
/// assert_eq!((broken.rule, broken.place.as_str(), broken.at), (Rule::Ranges, "header, orders in use", 0));
/// ```
#[derive(Debug, Clone, PartialEq, Eq)]
#[non_exhaustive]
pub struct Broken {
    /// The rule.
    pub rule: Rule,
    /// The record and the field, with its name in docs/LAYOUT.md.
    pub place: String,
    /// The byte of the book where that field stands.
    pub at: usize,
}

impl fmt::Display for Broken {
    fn fmt(&self, f: &mut fmt::Formatter<'_>) -> fmt::Result {
        write!(f, "{} at byte {}: {}", self.place, self.at, self.rule)
    }
}

/// The rules that some bytes break as a book, in the order of docs/SCOPE.md; none exactly if `Book::from_bytes` takes them. It needs
/// no library.
///
/// ```
/// use jubafiye::{explain, Rule};
///
/// // An empty book is all zeros but for its setting.
/// let mut bytes = vec![0; 65_536];
/// assert_eq!(explain(&bytes), []);
/// bytes[0] = 65;
/// let broken = explain(&bytes);
/// assert_eq!(broken[0].to_string(), "header, orders in use at byte 0: every field is in its range");
/// assert_eq!(explain(b"no book")[0].rule, Rule::Length);
/// ```
pub fn explain(bytes: &[u8]) -> Vec<Broken> {
    let Ok(book) = <&BookBytes>::try_from(bytes) else {
        let place = format!("{} bytes in place of {BOOK_BYTES}", bytes.len());
        return vec![Broken { rule: Rule::Length, place, at: bytes.len().min(BOOK_BYTES) }];
    };
    let mut look = Look { book, found: Vec::new() };
    look.counts();
    for index in 0..look.orders() {
        look.order(index);
        look.terms(index);
        look.links(index);
        look.numbers(index);
        look.open_quantity(index);
    }
    for index in 0..look.requests() {
        look.request(index);
        look.settled(index);
        look.in_flight(index);
    }
    look.found.sort_by_key(|broken| (broken.rule.number(), broken.at));
    look.found
}

/// A book that is being looked at, and what was found.
struct Look<'a> {
    book: &'a BookBytes,
    found: Vec<Broken>,
}

impl<'a> Look<'a> {
    fn orders(&self) -> usize {
        layout::orders_in_use(self.book)
    }

    fn requests(&self) -> usize {
        layout::requests_in_use(self.book)
    }

    fn raw_order(&self, index: usize) -> Raw<'a> {
        layout::order(self.book, index)
    }

    fn raw_request(&self, index: usize) -> Raw<'a> {
        layout::request(self.book, index)
    }

    /// Notes a rule that is not kept.
    fn note(&mut self, kept: bool, rule: Rule, record: String, raw: Raw<'_>, spot: Spot) {
        if !kept {
            self.found.push(Broken { rule, place: format!("{record}, {}", spot.name), at: raw.at(spot) });
        }
    }

    fn of_order(&mut self, kept: bool, rule: Rule, index: usize, spot: Spot) {
        let raw = self.raw_order(index);
        let record = format!("order {index} ({})", line(raw.text(order::NAME).text));
        self.note(kept, rule, record, raw, spot);
    }

    fn of_request(&mut self, kept: bool, rule: Rule, index: usize, spot: Spot) {
        let raw = self.raw_request(index);
        let record = format!("request {index} ({})", line(raw.text(request::DOWNSTREAM).text));
        self.note(kept, rule, record, raw, spot);
    }

    fn counts(&mut self) {
        let raw = layout::header(self.book);
        let within = |spot, most| usize::from(raw.short(spot)) <= most;
        self.note(within(header::ORDERS, ORDERS), Rule::Ranges, "header".into(), raw, header::ORDERS);
        self.note(within(header::REQUESTS, REQUESTS), Rule::Ranges, "header".into(), raw, header::REQUESTS);
    }

    /// The ranges of an order's names and codes, and that no other order has its name.
    fn order(&mut self, index: usize) {
        let raw = self.raw_order(index);
        let texts = [
            (order::NAME, 1, 20),
            (order::CL_ORD_ID, 1, 32),
            (order::DOWNSTREAM, 1, 32),
            (order::SYMBOL, 1, 16),
            (order::VENUE_ORDER_ID, 0, 32),
        ];
        for (spot, least, most) in texts {
            self.of_order(text_fits(raw, spot, least, most), Rule::Ranges, index, spot);
        }
        let name = raw.text(order::NAME);
        self.of_order(is_order_name(name.text), Rule::Ranges, index, order::NAME);
        self.of_order(Side::from_code(raw.byte(order::SIDE)).is_some(), Rule::Ranges, index, order::SIDE);
        self.of_order(status(raw).is_some(), Rule::Ranges, index, order::STATUS);
        let same =
            |&other: &usize| raw.bytes(order::NAME) == layout::order(self.book, other).bytes(order::NAME);
        let distinct = !(0..index).any(|other| same(&other));
        self.of_order(distinct, Rule::Names, index, order::NAME);
    }

    /// An order's terms, pending terms, quantities and gateway cancel.
    fn terms(&mut self, index: usize) {
        let raw = self.raw_order(index);
        let terms = [order::ORD_TYPE, order::TIME_IN_FORCE, order::QTY, order::PRICE];
        self.ranges_of_terms(index, terms);
        let pending =
            [order::PENDING_ORD_TYPE, order::PENDING_TIME_IN_FORCE, order::PENDING_QTY, order::PENDING_PRICE];
        match raw.link(order::PENDING) {
            Some(_) => self.ranges_of_terms(index, pending),
            None => self.zeros(index, &pending),
        }
        let (qty, cum) = (raw.number(order::QTY), raw.number(order::CUM_QTY));
        self.of_order(cum <= MAX_QTY, Rule::Ranges, index, order::CUM_QTY);
        self.of_order(raw.number(order::AVG_PX) <= MAX_PRICE, Rule::Ranges, index, order::AVG_PX);
        self.of_order(cum <= qty, Rule::Filled, index, order::CUM_QTY);
        let new = matches!(raw.byte(order::STATUS), b'A' | b'0');
        self.of_order(cum == 0 || !new, Rule::Status, index, order::STATUS);
        self.gateway(index);
    }

    fn ranges_of_terms(&mut self, index: usize, [ord_type, time, qty, price]: [Spot; 4]) {
        let raw = self.raw_order(index);
        let listed = OrdType::from_code(raw.byte(ord_type));
        let time_listed = raw.byte(time) == 0 || TimeInForce::from_code(raw.byte(time)).is_some();
        let most = if listed == Some(OrdType::Market) { 0 } else { MAX_PRICE };
        self.of_order(listed.is_some(), Rule::Ranges, index, ord_type);
        self.of_order(time_listed, Rule::Ranges, index, time);
        self.of_order(raw.number(qty) <= MAX_QTY, Rule::Ranges, index, qty);
        self.of_order(raw.number(price) <= most, Rule::Ranges, index, price);
    }

    fn zeros(&mut self, index: usize, spots: &[Spot]) {
        for &spot in spots {
            let zero = self.raw_order(index).number(spot) == 0;
            self.of_order(zero, Rule::Ranges, index, spot);
        }
    }

    fn gateway(&mut self, index: usize) {
        let raw = self.raw_order(index);
        let (stage, tries) = (raw.byte(order::STAGE), raw.byte(order::TRIES));
        if stage == 0 {
            return self.zeros(index, &[order::ORIG_DOWNSTREAM, order::TRIES, order::REFUSED_SENDS]);
        }
        let named = raw.link(order::ORIG_DOWNSTREAM).is_some_and(|named| named < self.requests());
        self.of_order(Stage::from_number(stage).is_some(), Rule::Ranges, index, order::STAGE);
        self.of_order(named, Rule::Ranges, index, order::ORIG_DOWNSTREAM);
        let most = if stage == Stage::Unsent.number() { 2 } else { 3 };
        self.of_order(tries <= most, Rule::Tries, index, order::TRIES);
        self.of_order(!is_done(raw), Rule::Done, index, order::STAGE);
    }

    /// The request that a link of an order leads to, if it is the order's own.
    fn own(&self, index: usize, spot: Spot) -> Option<Raw<'a>> {
        let link = self.raw_order(index).link(spot).filter(|&link| link < self.requests())?;
        let request = self.raw_request(link);
        (usize::from(request.short(request::ORDER)) == index).then_some(request)
    }

    fn links(&mut self, index: usize) {
        let raw = self.raw_order(index);
        let current = self.own(index, order::CURRENT).is_some_and(|request| {
            let kind = SentKind::from_number(request.byte(request::KIND));
            matches!(kind, Some(SentKind::NewOrder | SentKind::ClientReplace))
                && request.bytes(request::DOWNSTREAM) == raw.bytes(order::DOWNSTREAM)
        });
        self.of_order(current, Rule::Current, index, order::CURRENT);
        let cancel = self.own(index, order::CANCEL).is_some_and(|request| {
            let kind = SentKind::from_number(request.byte(request::KIND));
            matches!(kind, Some(SentKind::ClientCancel | SentKind::GatewayCancel))
        });
        let none = raw.link(order::CANCEL).is_none();
        self.of_order(none || cancel, Rule::Cancel, index, order::CANCEL);
        let pending = self.own(index, order::PENDING).is_some_and(|request| {
            let replace = request.byte(request::KIND) == SentKind::ClientReplace.number();
            replace && request.byte(request::ANSWERED) == 0
        });
        let none = raw.link(order::PENDING).is_none();
        self.of_order(none || pending, Rule::Pending, index, order::PENDING);
        self.of_order(none || !is_done(raw), Rule::Done, index, order::PENDING);
    }

    /// How many requests an order has, and their downstream ClOrdIDs.
    fn numbers(&mut self, index: usize) {
        let name = self.raw_order(index).text(order::NAME).text;
        let own = |&at: &usize| usize::from(self.raw_request(at).short(request::ORDER)) == index;
        let own: Vec<usize> = (0..self.requests()).filter(own).collect();
        let amendments = usize::from(self.raw_order(index).short(order::AMENDMENTS));
        let counted = own.len() == amendments.saturating_add(1);
        self.of_order(counted, Rule::Amendments, index, order::AMENDMENTS);
        for (number, at) in own.into_iter().enumerate() {
            let raw = self.raw_request(at);
            let suffix = if number == 0 { String::new() } else { format!("-{number}") };
            let right = raw.text(request::DOWNSTREAM).text.strip_prefix(name) == Some(suffix.as_bytes());
            let first = raw.byte(request::KIND) == SentKind::NewOrder.number();
            self.of_request(right, Rule::Numbers, at, request::DOWNSTREAM);
            self.of_request(first == (number == 0), Rule::Numbers, at, request::KIND);
        }
    }

    fn open_quantity(&mut self, index: usize) {
        let (client, _) = leaves(self.book, index);
        if (0..index).any(|other| leaves(self.book, other).0 == client) {
            return;
        }
        let own = (0..self.orders()).map(|other| leaves(self.book, other)).filter(|other| other.0 == client);
        let sum = own.fold(0, |sum: u64, (_, leaves)| sum.wrapping_add(leaves));
        let word = layout::open(self.book, index);
        let right = word.number(OPEN) == sum;
        self.note(right, Rule::OpenQuantity, format!("client {client} (word {index})"), word, OPEN);
    }

    /// The ranges of a request, and that no other request has its ClOrdIDs.
    fn request(&mut self, index: usize) {
        let raw = self.raw_request(index);
        let kind = raw.byte(request::KIND);
        let clients = kind != SentKind::GatewayCancel.number();
        let amends = matches!(kind, 1 | 2);
        self.of_request(SentKind::from_number(kind).is_some(), Rule::Ranges, index, request::KIND);
        self.of_request(raw.byte(request::ANSWERED) <= 1, Rule::Ranges, index, request::ANSWERED);
        for (spot, has) in
            [(request::CL_ORD_ID, clients), (request::ORIG_CL_ORD_ID, amends), (request::DOWNSTREAM, true)]
        {
            let (least, most) = if has { (1, 32) } else { (0, 0) };
            self.of_request(text_fits(raw, spot, least, most), Rule::Ranges, index, spot);
        }
        let booked = usize::from(raw.short(request::ORDER)) < self.orders();
        self.of_request(booked, Rule::Requests, index, request::ORDER);
        let same = |other: Raw<'_>, spot: Spot| other.bytes(spot) == raw.bytes(spot);
        let others: Vec<Raw<'_>> = (0..index).map(|other| self.raw_request(other)).collect();
        let twice = others.iter().any(|&other| same(other, request::DOWNSTREAM));
        self.of_request(!twice, Rule::Names, index, request::DOWNSTREAM);
        let client =
            |raw: Raw<'_>| self.raw_order(usize::from(raw.short(request::ORDER))).short(order::CLIENT);
        let used = |other: Raw<'_>| {
            let clients = other.byte(request::KIND) != SentKind::GatewayCancel.number();
            clients && same(other, request::CL_ORD_ID) && client(other) == client(raw)
        };
        let twice = clients && others.into_iter().any(used);
        self.of_request(!twice, Rule::Names, index, request::CL_ORD_ID);
    }

    /// A request's outcome, and the request that its OrigClOrdID names.
    fn settled(&mut self, index: usize) {
        let raw = self.raw_request(index);
        let (answered, outcome) = (raw.byte(request::ANSWERED) != 0, raw.byte(request::OUTCOME));
        let fits = (outcome != 0) == answered && outcome <= 3;
        self.of_request(fits, Rule::Outcomes, index, request::OUTCOME);
        if raw.text(request::ORIG_CL_ORD_ID).length != 0 {
            let named = origin(self.book, index);
            self.of_request(named.is_some(), Rule::Origins, index, request::ORIG_CL_ORD_ID);
            let leads = named.is_none_or(|link| raw.short(request::ORIGIN) == link);
            self.of_request(leads, Rule::Origins, index, request::ORIGIN);
        }
    }

    fn in_flight(&mut self, index: usize) {
        let raw = self.raw_request(index);
        let gateways = raw.byte(request::KIND) == SentKind::GatewayCancel.number();
        let of = usize::from(raw.short(request::ORDER));
        if !gateways || raw.byte(request::ANSWERED) != 0 || of >= self.orders() {
            return;
        }
        let order = self.raw_order(of);
        if !is_done(order) {
            let latest = order.link(order::CANCEL) == Some(index);
            let sent = order.byte(order::STAGE) == Stage::Sent.number() && order.byte(order::TRIES) > 0;
            self.of_order(latest, Rule::InFlight, of, order::CANCEL);
            self.of_order(sent, Rule::InFlight, of, order::STAGE);
        }
    }
}

/// Whether a text stands as docs/LAYOUT.md says, with a length in its range.
fn text_fits(raw: Raw<'_>, spot: Spot, least: usize, most: usize) -> bool {
    let text = raw.text(spot);
    (least..=most).contains(&text.length) && text.clean
}

fn status(order: Raw<'_>) -> Option<OrdStatus> {
    OrdStatus::from_code(order.byte(order::STATUS))
}

fn is_done(order: Raw<'_>) -> bool {
    status(order).is_some_and(OrdStatus::is_done)
}

/// The link of the request that the OrigClOrdID of the one at an index names, among those of its order that stand before it.
pub(crate) fn origin(book: &BookBytes, index: usize) -> Option<u16> {
    let request = layout::request(book, index);
    let (order, orig) = (request.short(request::ORDER), request.text(request::ORIG_CL_ORD_ID).text);
    let own = |&other: &usize| {
        let other = layout::request(book, other);
        let gateways = other.byte(request::KIND) == GATEWAY_CANCEL;
        !gateways && other.short(request::ORDER) == order && other.text(request::CL_ORD_ID).text == orig
    };
    (0..index).find(own).and_then(|index| u16::try_from(index.saturating_add(1)).ok())
}

/// The client of the order at an index, and what the order leaves open: nothing if it is done or done for the day.
pub(crate) fn leaves(book: &BookBytes, index: usize) -> (u16, u64) {
    let order = layout::order(book, index);
    let nothing = OrdStatus::from_code(order.byte(order::STATUS)).is_some_and(OrdStatus::leaves_nothing);
    let rest = order.number(order::QTY).saturating_sub(order.number(order::CUM_QTY));
    (order.short(order::CLIENT), if nothing { 0 } else { rest })
}
