//! A look into the book: its orders and requests in types (docs/LAYOUT.md). Rests on layout, kinds,
//! book, fields and decimal.

use std::fmt;

use crate::book::Book;
use crate::chain::Outcome;
use crate::decimal::{Price, Qty};
use crate::fields::{OrdStatus, OrdType, Side, TimeInForce};
use crate::kinds::{SentKind, Stage};
use crate::layout::{self, order, request, BookBytes, Raw};
use crate::message::line;
use crate::show::shown;

/// The terms of a replace that is out and not answered.
///
/// ```
/// use jubafiye::{Amend, Book, Booking, Event, OrdType, Pending, Qty, Replace, Side};
///
/// let mut book = Book::new(10_000);
/// let booking = Booking::new(7, 3, Side::Buy, Qty::units(100), b"WHEATH27").named(b"G1", b"C1");
/// drop(book.take(&Event::Book(booking))?);
/// let amend = Amend::new(7, b"C2", b"C1", b"WHEATH27", Side::Buy);
/// drop(book.take(&Event::Replace(Replace::new(amend, Qty::units(80), Ok(()))))?);
/// let pending: Pending = book.order("G1").unwrap().pending.unwrap();
/// assert_eq!((pending.request, pending.qty, pending.ord_type), (1, Qty::units(80), OrdType::Market));
/// # Ok::<(), jubafiye::Error>(())
/// ```
#[derive(Debug, Clone, Copy, PartialEq, Eq)]
#[non_exhaustive]
pub struct Pending {
    /// The index of its request.
    pub request: usize,
    /// OrderQty(38).
    pub qty: Qty,
    /// OrdType(40).
    pub ord_type: OrdType,
    /// Price(44), exactly if the type is limit.
    pub price: Option<Price>,
    /// TimeInForce(59).
    pub time_in_force: Option<TimeInForce>,
}

/// The gateway's own cancel of an order.
///
/// ```
/// use jubafiye::{Book, Booking, Event, GatewayCancel, Qty, Side, Stage};
///
/// let mut book = Book::new(10_000);
/// let booking = Booking::new(7, 3, Side::Buy, Qty::units(100), b"WHEATH27").named(b"G1", b"C1");
/// drop(book.take(&Event::Book(booking))?);
/// drop(book.take(&Event::GatewayCancel { name: b"G1" })?);
/// let cancel: GatewayCancel = book.order("G1").unwrap().gateway_cancel.unwrap();
/// assert_eq!((cancel.stage, cancel.tries, cancel.orig_downstream), (Stage::Sent, 1, &b"G1"[..]));
/// # Ok::<(), jubafiye::Error>(())
/// ```
#[derive(Clone, Copy, PartialEq, Eq)]
#[non_exhaustive]
pub struct GatewayCancel<'a> {
    /// How far it is.
    pub stage: Stage,
    /// How often it was sent since it began, failed sends aside.
    pub tries: u8,
    /// The downstream ClOrdID that the last try named.
    pub orig_downstream: &'a [u8],
    /// How many of its sends failed.
    pub refused_sends: u32,
}

/// An order in the book.
///
/// ```
/// # use jubafiye::{Book, Booking, Event, OrdType, Side};
/// # let mut book = Book::new(10_000);
/// # book.take(&Event::Book(Booking {
/// #     client: 7, venue: 3, name: b"G1", cl_ord_id: b"C1", symbol: b"WHEATH27", side: Side::Buy,
/// #     ord_type: OrdType::Limit, qty: "100".parse()?, price: Some("10.25".parse()?), time_in_force: None,
/// # }))?;
/// let order = book.order(b"G1").unwrap();
/// assert_eq!(order.to_string(), "G1: client 7 (C1), venue 3, buy 100 WHEATH27 limit 10.25, pending new, cum 0, leaves 100");
/// # Ok::<(), Box<dyn std::error::Error>>(())
/// ```
#[derive(Clone, Copy, PartialEq, Eq)]
#[non_exhaustive]
pub struct Order<'a> {
    /// Its place among the orders, from 0, in booking order.
    pub index: usize,
    /// The client's number.
    pub client: u16,
    /// The venue's number.
    pub venue: u16,
    /// Our OrderID(37).
    pub name: &'a [u8],
    /// The client's current ClOrdID(11).
    pub cl_ord_id: &'a [u8],
    /// The ClOrdID by which the venue knows it now.
    pub downstream: &'a [u8],
    /// Symbol(55).
    pub symbol: &'a [u8],
    /// The venue's OrderID(37), once it gave one.
    pub venue_order_id: Option<&'a [u8]>,
    /// Side(54).
    pub side: Side,
    /// OrdType(40).
    pub ord_type: OrdType,
    /// TimeInForce(59).
    pub time_in_force: Option<TimeInForce>,
    /// OrderQty(38).
    pub qty: Qty,
    /// Price(44), exactly if the type is limit.
    pub price: Option<Price>,
    /// OrdStatus(39).
    pub status: OrdStatus,
    /// CumQty(14).
    pub cum_qty: Qty,
    /// AvgPx(6).
    pub avg_px: Price,
    /// The number of the report told last; 0: none yet.
    pub exec_seq: u64,
    /// Its requests beside the first.
    pub amendments: u16,
    /// The index of the request by which the venue knows it now.
    pub current: usize,
    /// The index of the cancel sent last, whoever asked for it.
    pub cancel: Option<usize>,
    /// A replace that waits for the venue's answer.
    pub pending: Option<Pending>,
    /// The gateway's own cancel, while it stands.
    pub gateway_cancel: Option<GatewayCancel<'a>>,
}

impl<'a> Order<'a> {
    /// The order at an index; none if a field has a value that no book which keeps its rules has.
    fn read(book: &'a BookBytes, index: usize) -> Option<Self> {
        let raw = layout::order(book, index);
        let text = |spot| raw.text(spot).text;
        let ord_type = OrdType::from_code(raw.byte(order::ORD_TYPE))?;
        Some(Self {
            index,
            client: raw.short(order::CLIENT),
            venue: raw.short(order::VENUE),
            name: text(order::NAME),
            cl_ord_id: text(order::CL_ORD_ID),
            downstream: text(order::DOWNSTREAM),
            symbol: text(order::SYMBOL),
            venue_order_id: Some(text(order::VENUE_ORDER_ID)).filter(|id| !id.is_empty()),
            side: Side::from_code(raw.byte(order::SIDE))?,
            ord_type,
            time_in_force: time_in_force(raw.byte(order::TIME_IN_FORCE))?,
            qty: Qty(raw.number(order::QTY)),
            price: price(ord_type, raw.number(order::PRICE)),
            status: OrdStatus::from_code(raw.byte(order::STATUS))?,
            cum_qty: Qty(raw.number(order::CUM_QTY)),
            avg_px: Price(raw.number(order::AVG_PX).into()),
            exec_seq: raw.number(order::EXEC_SEQ),
            amendments: raw.short(order::AMENDMENTS),
            current: raw.link(order::CURRENT)?,
            cancel: raw.link(order::CANCEL),
            pending: pending(raw)?,
            gateway_cancel: gateway_cancel(book, raw)?,
        })
    }

    /// LeavesQty(151): nothing if it is done or done for the day.
    ///
    /// ```
    /// # use jubafiye::{Book, Booking, Event, OrdType, Qty, Side};
    /// # let mut book = Book::new(10_000);
    /// # book.take(&Event::Book(Booking {
    /// #     client: 7, venue: 3, name: b"G1", cl_ord_id: b"C1", symbol: b"WHEATH27", side: Side::Buy,
    /// #     ord_type: OrdType::Market, qty: Qty::units(100), price: None, time_in_force: None,
    /// # }))?;
    /// assert_eq!(book.order(b"G1").unwrap().leaves_qty(), Qty::units(100));
    /// # Ok::<(), jubafiye::Error>(())
    /// ```
    pub fn leaves_qty(&self) -> Qty {
        if self.status.leaves_nothing() {
            return Qty(0);
        }
        Qty(self.qty.0.saturating_sub(self.cum_qty.0))
    }
}

/// A time in force, of which 0 is none; no value if it is not listed.
fn time_in_force(code: u8) -> Option<Option<TimeInForce>> {
    match code {
        0 => Some(None),
        code => TimeInForce::from_code(code).map(Some),
    }
}

/// The price that goes with a type.
fn price(ord_type: OrdType, count: u64) -> Option<Price> {
    (ord_type == OrdType::Limit).then(|| Price(count.into()))
}

fn pending(raw: Raw<'_>) -> Option<Option<Pending>> {
    let Some(request) = raw.link(order::PENDING) else { return Some(None) };
    let ord_type = OrdType::from_code(raw.byte(order::PENDING_ORD_TYPE))?;
    Some(Some(Pending {
        request,
        qty: Qty(raw.number(order::PENDING_QTY)),
        ord_type,
        price: price(ord_type, raw.number(order::PENDING_PRICE)),
        time_in_force: time_in_force(raw.byte(order::PENDING_TIME_IN_FORCE))?,
    }))
}

fn gateway_cancel<'a>(book: &'a BookBytes, raw: Raw<'_>) -> Option<Option<GatewayCancel<'a>>> {
    let Some(named) = raw.link(order::ORIG_DOWNSTREAM) else { return Some(None) };
    Some(Some(GatewayCancel {
        stage: Stage::from_number(raw.byte(order::STAGE))?,
        tries: raw.byte(order::TRIES),
        orig_downstream: layout::request(book, named).text(request::DOWNSTREAM).text,
        refused_sends: raw.word(order::REFUSED_SENDS),
    }))
}

/// A request in the book: something sent to a venue for an order.
///
/// ```
/// # use jubafiye::{Book, Booking, Event, OrdType, Qty, Side};
/// # let mut book = Book::new(10_000);
/// # book.take(&Event::Book(Booking {
/// #     client: 7, venue: 3, name: b"G1", cl_ord_id: b"C1", symbol: b"WHEATH27", side: Side::Buy,
/// #     ord_type: OrdType::Market, qty: Qty::units(100), price: None, time_in_force: None,
/// # }))?;
/// let requests: Vec<String> = book.requests().map(|request| request.to_string()).collect();
/// assert_eq!(requests, ["G1: new order of G1 to venue 3 (C1), open"]);
/// # Ok::<(), jubafiye::Error>(())
/// ```
#[derive(Clone, Copy, PartialEq, Eq)]
#[non_exhaustive]
pub struct Request<'a> {
    /// Its place among the requests, from 0, in the order of sending.
    pub index: usize,
    /// The index of its order.
    pub order: usize,
    /// The name of its order.
    pub order_name: &'a [u8],
    /// The client of its order.
    pub client: u16,
    /// The venue of its order.
    pub venue: u16,
    /// What it was sent as.
    pub kind: SentKind,
    /// Whether it was settled.
    pub answered: bool,
    /// What it came to: open exactly while it is not answered.
    pub outcome: Outcome,
    /// The client's ClOrdID(11); none of the gateway's cancels.
    pub cl_ord_id: Option<&'a [u8]>,
    /// The client's OrigClOrdID(41), of a cancel or replace.
    pub orig_cl_ord_id: Option<&'a [u8]>,
    /// The index of the request that the OrigClOrdID names.
    pub origin: Option<usize>,
    /// The ClOrdID(11) that the venue knows it by.
    pub downstream: &'a [u8],
}

impl<'a> Request<'a> {
    /// The request at an index; none if a field has a value that no book which keeps its rules has.
    fn read(book: &'a BookBytes, index: usize) -> Option<Self> {
        let raw = layout::request(book, index);
        let order = usize::from(raw.short(request::ORDER));
        let of = layout::order(book, order);
        let given = |spot| Some(raw.text(spot).text).filter(|text| !text.is_empty());
        Some(Self {
            index,
            order,
            order_name: of.text(order::NAME).text,
            client: of.short(order::CLIENT),
            venue: of.short(order::VENUE),
            kind: SentKind::from_number(raw.byte(request::KIND))?,
            answered: raw.byte(request::ANSWERED) != 0,
            outcome: Outcome::from_number(raw.byte(request::OUTCOME))?,
            cl_ord_id: given(request::CL_ORD_ID),
            orig_cl_ord_id: given(request::ORIG_CL_ORD_ID),
            origin: given(request::ORIG_CL_ORD_ID).and_then(|_| raw.link(request::ORIGIN)),
            downstream: raw.text(request::DOWNSTREAM).text,
        })
    }
}

impl Book {
    /// The most ClOrdIDs that a client may use, the reserve included.
    ///
    /// ```
    /// assert_eq!(jubafiye::Book::new(10_000).setting(), 10_000);
    /// ```
    pub fn setting(&self) -> u32 {
        layout::header(self.bytes()).word(layout::header::SETTING)
    }

    /// The orders, done or not, in booking order.
    ///
    /// ```
    /// assert_eq!(jubafiye::Book::new(10_000).orders().count(), 0);
    /// ```
    pub fn orders(&self) -> impl Iterator<Item = Order<'_>> {
        let book = self.bytes();
        (0..layout::orders_in_use(book)).filter_map(|index| Order::read(book, index))
    }

    /// The order of a name.
    ///
    /// ```
    /// assert!(jubafiye::Book::new(10_000).order("G1").is_none());
    /// ```
    pub fn order(&self, name: impl AsRef<[u8]>) -> Option<Order<'_>> {
        self.orders().find(|order| order.name == name.as_ref())
    }

    /// The requests, answered or not, in the order of sending.
    ///
    /// ```
    /// assert_eq!(jubafiye::Book::new(10_000).requests().count(), 0);
    /// ```
    pub fn requests(&self) -> impl Iterator<Item = Request<'_>> {
        let book = self.bytes();
        (0..layout::requests_in_use(book)).filter_map(|index| Request::read(book, index))
    }

    /// The requests to a venue that were not settled: after a restart each that may not have been sent is put to the book as
    /// [`Event::SendAgain`](crate::Event::SendAgain), which sends it again under its own ClOrdID or tells the client that it was
    /// not sent.
    ///
    /// A new order that the venue has acknowledged, so that its order is no longer PendingNew, is left out: the book would do
    /// nothing with it, and most of them are never settled.
    ///
    /// ```
    /// # use jubafiye::{Book, Booking, OrdType, Qty, Side};
    /// use jubafiye::Event;
    ///
    /// # let mut book = Book::new(10_000);
    /// # book.take(&Event::Book(Booking {
    /// #     client: 7, venue: 3, name: b"G1", cl_ord_id: b"C1", symbol: b"WHEATH27", side: Side::Buy,
    /// #     ord_type: OrdType::Market, qty: Qty::units(100), price: None, time_in_force: None,
    /// # }))?;
    /// // G1 was booked for venue 3, and may not have been sent
    /// let open: Vec<Vec<u8>> = book.unanswered(3).map(|request| request.downstream.to_vec()).collect();
    /// for downstream in &open {
    ///     let again = book.take(&Event::SendAgain { venue: 3, downstream })?;
    ///     assert_eq!(again.messages.len(), 1);
    /// }
    /// assert_eq!((open.len(), book.unanswered(4).count()), (1, 0));
    /// # Ok::<(), jubafiye::Error>(())
    /// ```
    pub fn unanswered(&self, venue: u16) -> impl Iterator<Item = Request<'_>> {
        self.requests().filter(move |request| {
            let status = layout::order(self.bytes(), request.order).byte(order::STATUS);
            let waits = request.kind != SentKind::NewOrder || status == OrdStatus::PendingNew.code();
            waits && !request.answered && request.venue == venue
        })
    }

    /// The orders whose cancel the gateway has given up: a person has to look after them.
    ///
    /// ```
    /// assert_eq!(jubafiye::Book::new(10_000).stuck().count(), 0);
    /// ```
    pub fn stuck(&self) -> impl Iterator<Item = Order<'_>> {
        self.orders().filter(|order| order.gateway_cancel.is_some_and(|cancel| cancel.stage == Stage::Stuck))
    }
}

/// A line for a person; it is no record, and may change.
impl fmt::Display for Order<'_> {
    fn fmt(&self, f: &mut fmt::Formatter<'_>) -> fmt::Result {
        let Self { client, venue, side, qty, status, cum_qty, avg_px, .. } = self;
        let (name, id, symbol) = (line(self.name), line(self.cl_ord_id), line(self.symbol));
        write!(f, "{name}: client {client} ({id}), venue {venue}, {side} {qty} {symbol} ")?;
        terms(f, self.ord_type, self.price, self.time_in_force)?;
        write!(f, ", {status}, cum {cum_qty}")?;
        if *cum_qty > Qty(0) {
            write!(f, " at {avg_px}")?;
        }
        write!(f, ", leaves {}", self.leaves_qty())?;
        if let Some(pending) = self.pending {
            write!(f, "; replace pending: {} ", pending.qty)?;
            terms(f, pending.ord_type, pending.price, pending.time_in_force)?;
        }
        match self.gateway_cancel {
            Some(cancel) => write!(f, "; gateway's cancel {}, tries {}", cancel.stage, cancel.tries),
            None => Ok(()),
        }
    }
}

/// A type, its price and a time in force.
fn terms(
    f: &mut fmt::Formatter<'_>,
    ord_type: OrdType,
    price: Option<Price>,
    time_in_force: Option<TimeInForce>,
) -> fmt::Result {
    write!(f, "{ord_type}")?;
    price.map_or(Ok(()), |price| write!(f, " {price}"))?;
    time_in_force.map_or(Ok(()), |time| write!(f, " {time}"))
}

/// A line for a person; it is no record, and may change.
impl fmt::Display for Request<'_> {
    fn fmt(&self, f: &mut fmt::Formatter<'_>) -> fmt::Result {
        let (downstream, order) = (line(self.downstream), line(self.order_name));
        write!(f, "{downstream}: {} of {order} to venue {}", self.kind, self.venue)?;
        match (self.cl_ord_id, self.orig_cl_ord_id) {
            (Some(id), Some(orig)) => write!(f, " ({} for {})", line(id), line(orig))?,
            (Some(id), None) => write!(f, " ({})", line(id))?,
            _ => {}
        }
        write!(f, ", {}", self.outcome)
    }
}

/// For a person: a heading, a line for each order and under it one for each of its requests. It may change.
impl fmt::Display for Book {
    fn fmt(&self, f: &mut fmt::Formatter<'_>) -> fmt::Result {
        let (orders, requests) = (self.orders().count(), self.requests().count());
        let setting = self.setting();
        writeln!(f, "{orders} of 64 orders, {requests} of 256 requests, {setting} ClOrdIDs for a client")?;
        for order in self.orders() {
            writeln!(f, "{order}")?;
            for request in self.requests().filter(|request| request.order == order.index) {
                writeln!(f, "    {request}")?;
            }
        }
        Ok(())
    }
}

shown!(GatewayCancel<'_> { stage, tries, orig_downstream as text, refused_sends });

shown!(Order<'_> {
    index, client, venue, name as text, cl_ord_id as text, downstream as text, symbol as text, venue_order_id as text, side,
    ord_type, time_in_force, qty, price, status, cum_qty, avg_px, exec_seq, amendments, current, cancel, pending, gateway_cancel,
});

shown!(Request<'_> {
    index, order, order_name as text, client, venue, kind, answered, outcome, cl_ord_id as text, orig_cl_ord_id as text,
    origin, downstream as text,
});
