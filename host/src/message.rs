//! What the book puts out, read from its record (docs/SCOPE.md, Answers). Rests on record, list, fields, decimal and words.

use std::fmt;

use crate::decimal::{Price, Qty};
use crate::error::Fault;
use crate::fields::{ExecType, OrdStatus, OrdType, Side, TimeInForce};
use crate::list::listed;
use crate::record::{Bit, Field, Reader};
use crate::show::shown;
use crate::words::{FixedText, Reason, Words};

/// An ExecutionReport for a client.
///
/// ```
/// # #[cfg(feature = "book")] {
/// use jubafiye::{text::from_text, Book, Message, Qty};
///
/// # let mut book = Book::new(10_000);
/// # drop(book.take_record(&from_text("book client=7 venue=3 name=G1 clordid=C1 symbol=WHEATH27 side=buy ordtype=limit qty=100 price=10.25")?)?);
/// // client 7 has an order G1 of 100; the venue reports that 40 are filled
/// let fill = "report venue=3 downstream=G1 exectype=trade ordstatus=partially-filled lastqty=40 lastpx=10 cumqty=40 avgpx=10";
/// let answer = book.take_record(&from_text(fill)?)?;
/// let [Message::Report(told)] = &answer.messages[..] else { panic!("one report goes out") };
/// assert_eq!((told.client, told.last_qty, told.leaves_qty), (7, Qty::units(40), Qty::units(60)));
/// // its ExecID(17) is G1.1
/// assert_eq!((&told.name[..], told.exec_seq), (&b"G1"[..], 1));
/// # }
/// # Ok::<(), Box<dyn std::error::Error>>(())
/// ```
#[derive(Clone, PartialEq, Eq)]
#[non_exhaustive]
pub struct Report {
    /// The client's number.
    pub client: u16,
    /// Our OrderID(37). With `exec_seq` it makes an ExecID(17) that no other report has.
    pub name: Vec<u8>,
    /// ClOrdID(11).
    pub cl_ord_id: Vec<u8>,
    /// OrigClOrdID(41).
    pub orig_cl_ord_id: Option<Vec<u8>>,
    /// Symbol(55).
    pub symbol: Vec<u8>,
    /// Side(54).
    pub side: Side,
    /// OrdType(40).
    pub ord_type: OrdType,
    /// OrderQty(38).
    pub qty: Qty,
    /// Price(44).
    pub price: Option<Price>,
    /// TimeInForce(59).
    pub time_in_force: Option<TimeInForce>,
    /// ExecType(150).
    pub exec_type: ExecType,
    /// OrdStatus(39).
    pub status: OrdStatus,
    /// LastQty(32): the rise of the cumulative quantity.
    pub last_qty: Qty,
    /// LastPx(31): the price of the rise, in a report without one the venue's LastPx or else its AvgPx.
    pub last_px: Price,
    /// Where `last_px` comes from: none in a report that answers no venue's report, in which it is 0.
    pub price_source: Option<PriceSource>,
    /// CumQty(14).
    pub cum_qty: Qty,
    /// AvgPx(6).
    pub avg_px: Price,
    /// LeavesQty(151).
    pub leaves_qty: Qty,
    /// The number of this report among the order's.
    pub exec_seq: u64,
    /// OrdRejReason(103).
    pub reason: Option<Reason>,
    /// Text(58).
    pub text: Option<Words>,
}

listed! {
    /// Which request an answer is for: CxlRejResponseTo(434).
    ///
    /// ```
    /// # use jubafiye::RequestKind;
    /// assert_eq!((RequestKind::Cancel.number(), RequestKind::from_number(2)), (1, Some(RequestKind::Replace)));
    /// assert_eq!(RequestKind::Replace.to_string(), "replace");
    /// ```
    RequestKind: number, from_number { Cancel = 1 "cancel", Replace = 2 "replace" }
}

listed! {
    /// Where the LastPx(31) of a report comes from. It follows the rule that gave the price: an implied price that happens to
    /// be the venue's LastPx is still implied.
    ///
    /// ```
    /// # use jubafiye::PriceSource;
    /// assert_eq!(PriceSource::from_number(2), Some(PriceSource::Implied));
    /// assert_eq!(PriceSource::LastPx.number(), 1);
    /// assert_eq!(PriceSource::Average.to_string(), "average");
    /// ```
    #[non_exhaustive]
    PriceSource: number, from_number {
        LastPx = 1 "the venue's LastPx",
        Implied = 2 "implied",
        Average = 3 "average",
    }
}

/// An OrderCancelReject for a client.
///
/// ```
/// # #[cfg(feature = "book")] {
/// use jubafiye::{Amend, Book, Event, Message, RequestKind, Side};
///
/// let cancel = Amend::new(7, b"C2", b"C1", b"WHEATH27", Side::Buy);
/// let answer = Book::new(10_000).take(&Event::Cancel(cancel))?;
/// let [Message::CancelReject(told)] = &answer.messages[..] else { panic!("a refusal goes out") };
/// assert_eq!((told.client, &told.cl_ord_id[..], told.response_to), (7, &b"C2"[..], RequestKind::Cancel));
/// assert_eq!((&told.name, told.text.to_string()), (&None, "unknown order".into()));
/// # }
/// # Ok::<(), jubafiye::Error>(())
/// ```
#[derive(Clone, PartialEq, Eq)]
#[non_exhaustive]
pub struct CancelReject {
    /// The client's number.
    pub client: u16,
    /// Our OrderID(37), if the order is known.
    pub name: Option<Vec<u8>>,
    /// ClOrdID(11) of the request.
    pub cl_ord_id: Vec<u8>,
    /// OrigClOrdID(41) of the request.
    pub orig_cl_ord_id: Vec<u8>,
    /// OrdStatus(39).
    pub status: OrdStatus,
    /// CxlRejReason(102).
    pub reason: Reason,
    /// CxlRejResponseTo(434).
    pub response_to: RequestKind,
    /// Text(58).
    pub text: Words,
}

/// A new order, cancel or replace for a venue.
///
/// ```
/// use jubafiye::{Answer, Message, OrdType, Qty, ToVenue};
///
/// // An answer with a new order for venue 3: G1, WHEAT, buy, market, 100.
/// let answer = Answer::read(b"\x1f\0\x01\0\0\x12\xe2\x03\0\0\x03\0\x02G1\x05WHEAT11\x40\x42\x0f\0\0\0\0\0")?;
/// let [Message::NewOrder(order)] = &answer.messages[..] else { panic!("a new order goes out") };
/// let ToVenue { venue, ord_type, qty, .. } = order;
/// assert_eq!((*venue, *ord_type, *qty), (3, OrdType::Market, Qty::units(100)));
/// assert_eq!((&order.downstream[..], &order.orig_downstream), (&b"G1"[..], &None));
/// # Ok::<(), jubafiye::BadAnswer>(())
/// ```
#[derive(Clone, PartialEq, Eq)]
#[non_exhaustive]
pub struct ToVenue {
    /// The venue's number.
    pub venue: u16,
    /// ClOrdID(11) of the message.
    pub downstream: Vec<u8>,
    /// OrigClOrdID(41) of a cancel or replace.
    pub orig_downstream: Option<Vec<u8>>,
    /// Symbol(55).
    pub symbol: Vec<u8>,
    /// Side(54).
    pub side: Side,
    /// OrdType(40).
    pub ord_type: OrdType,
    /// OrderQty(38).
    pub qty: Qty,
    /// Price(44).
    pub price: Option<Price>,
    /// TimeInForce(59).
    pub time_in_force: Option<TimeInForce>,
    /// The venue's OrderID(37), if it gave one.
    pub venue_order_id: Option<Vec<u8>>,
}

/// A message that is to go out.
///
/// ```
/// use jubafiye::{Answer, Message};
///
/// /// Where a message goes: to a client or to a venue, by number.
/// fn target(message: &Message) -> Option<(&'static str, u16)> {
///     match message {
///         Message::Report(report) => Some(("client", report.client)),
///         Message::CancelReject(reject) => Some(("client", reject.client)),
///         Message::NewOrder(order) => Some(("venue", order.venue)),
///         Message::Cancel(request) | Message::Replace(request) => Some(("venue", request.venue)),
///         _ => None,
///     }
/// }
/// // An answer with a new order for venue 3: G1, WHEAT, buy, market, 100.
/// let answer = Answer::read(b"\x1f\0\x01\0\0\x12\xe2\x03\0\0\x03\0\x02G1\x05WHEAT11\x40\x42\x0f\0\0\0\0\0")?;
/// assert_eq!(target(&answer.messages[0]), Some(("venue", 3)));
/// # Ok::<(), jubafiye::BadAnswer>(())
/// ```
#[derive(Debug, Clone, PartialEq, Eq)]
#[non_exhaustive]
pub enum Message {
    /// An ExecutionReport for a client.
    Report(Report),
    /// An OrderCancelReject for a client.
    CancelReject(CancelReject),
    /// An order that goes to its venue again.
    NewOrder(ToVenue),
    /// A cancel for a venue, the client's or the gateway's.
    Cancel(ToVenue),
    /// A replace for a venue.
    Replace(ToVenue),
}

impl Message {
    /// The number of its kind in a record, 16 to 20.
    /// ```
    /// // An answer with a new order for venue 3: G1, WHEAT, buy, market, 100.
    /// let answer = b"\x1f\0\x01\0\0\x12\xe2\x03\0\0\x03\0\x02G1\x05WHEAT11\x40\x42\x0f\0\0\0\0\0";
    /// assert_eq!(jubafiye::Answer::read(answer)?.messages[0].kind(), 18);
    /// # Ok::<(), jubafiye::BadAnswer>(())
    /// ```
    pub const fn kind(&self) -> u8 {
        match self {
            Self::Report(_) => 16,
            Self::CancelReject(_) => 17,
            Self::NewOrder(_) => 18,
            Self::Cancel(_) => 19,
            Self::Replace(_) => 20,
        }
    }

    /// The message at the front of some bytes, and what stands behind it.
    pub(crate) fn read(bytes: &[u8]) -> Result<(Self, &[u8]), Fault> {
        let mut r = Reader::new(bytes)?;
        let message = match r.kind() {
            16 => Self::Report(Report::read(&mut r)?),
            17 => Self::CancelReject(CancelReject::read(&mut r)?),
            18 => Self::NewOrder(ToVenue::read(&mut r, false)?),
            19 => Self::Cancel(ToVenue::read(&mut r, true)?),
            20 => Self::Replace(ToVenue::read(&mut r, true)?),
            kind => return Err(Fault::Kind(kind)),
        };
        Ok((message, r.end()?))
    }
}

/// A line for a log, with what matters most; it is no record, and may change.
impl fmt::Display for Message {
    fn fmt(&self, f: &mut fmt::Formatter<'_>) -> fmt::Result {
        match self {
            Self::Report(report) => write!(f, "report {report}"),
            Self::CancelReject(reject) => write!(f, "refusal {reject}"),
            Self::NewOrder(order) => write!(f, "new order {order}"),
            Self::Cancel(request) => write!(f, "cancel {request}"),
            Self::Replace(request) => write!(f, "replace {request}"),
        }
    }
}

/// As in the line of a [`Message`].
impl fmt::Display for Report {
    fn fmt(&self, f: &mut fmt::Formatter<'_>) -> fmt::Result {
        let Self { client, exec_type, status, last_qty, last_px, cum_qty, leaves_qty, .. } = self;
        write!(f, "to client {client}: {}, {exec_type}, {status}, ", line(&self.cl_ord_id))?;
        write!(f, "last {last_qty} at {last_px}")?;
        if let Some(source) = self.price_source {
            write!(f, " ({source})")?;
        }
        write!(f, ", cum {cum_qty}, leaves {leaves_qty}")?;
        if let Some(reason) = self.reason {
            write!(f, ", {reason}")?;
        }
        if let Some(text) = &self.text {
            write!(f, ", {}", line(text.to_string().as_bytes()))?;
        }
        Ok(())
    }
}

/// As in the line of a [`Message`].
impl fmt::Display for CancelReject {
    fn fmt(&self, f: &mut fmt::Formatter<'_>) -> fmt::Result {
        let Self { client, status, reason, response_to, .. } = self;
        let (id, text) = (line(&self.cl_ord_id), line(self.text.to_string().as_bytes()));
        write!(f, "of a {response_to} to client {client}: {id}, {status}, {reason}, {text}")
    }
}

/// As in the line of a [`Message`].
impl fmt::Display for ToVenue {
    fn fmt(&self, f: &mut fmt::Formatter<'_>) -> fmt::Result {
        write!(f, "to venue {}: {}", self.venue, line(&self.downstream))?;
        if let Some(orig) = &self.orig_downstream {
            write!(f, " for {}", line(orig))?;
        }
        if let Some(id) = &self.venue_order_id {
            write!(f, " (its {})", line(id))?;
        }
        write!(f, ", {} {} {}, {}", self.side, self.qty, line(&self.symbol), self.ord_type)?;
        self.price.map_or(Ok(()), |price| write!(f, " {price}"))
    }
}

/// Bytes as one line of text.
pub(crate) fn line(bytes: &[u8]) -> String {
    String::from_utf8_lossy(bytes).replace(char::is_control, " ")
}

shown!(Report {
    client, name as text, cl_ord_id as text, orig_cl_ord_id as text, symbol as text, side, ord_type, qty, price, time_in_force,
    exec_type, status, last_qty, last_px, price_source, cum_qty, avg_px, leaves_qty, exec_seq, reason, text,
});

shown!(CancelReject {
    client, name as text, cl_ord_id as text, orig_cl_ord_id as text, status, reason, response_to, text,
});

shown!(ToVenue {
    venue, downstream as text, orig_downstream as text, symbol as text, side, ord_type, qty, price, time_in_force,
    venue_order_id as text,
});

macro_rules! listed_fields {
    ($($name:ident, $from:ident;)*) => {
        $(impl Field for $name {
            fn read(r: &mut Reader<'_>, bit: Bit) -> Result<Self, Fault> {
                r.listed(bit, $name::$from)
            }
        })*
    };
}

listed_fields! {
    Side, from_code;
    OrdType, from_code;
    TimeInForce, from_code;
    ExecType, from_code;
    OrdStatus, from_code;
    FixedText, from_number;
    RequestKind, from_number;
    Origin, from_number;
    MaybeSource, from_number;
}

/// A byte for a price source or, as 0, for none.
struct MaybeSource(Option<PriceSource>);

impl MaybeSource {
    fn from_number(number: u8) -> Option<Self> {
        match number {
            0 => Some(Self(None)),
            number => PriceSource::from_number(number).map(|source| Self(Some(source))),
        }
    }
}

/// Whose a reason is.
struct Origin(fn(u32) -> Reason);

impl Origin {
    fn from_number(number: u8) -> Option<Self> {
        match number {
            1 => Some(Self(Reason::Ours)),
            2 => Some(Self(Reason::Venue)),
            _ => None,
        }
    }
}

/// A reason and a text as the low bits bring them; the high bits say whose the reason is, or bring a fixed text instead.
struct Why {
    number: Option<u32>,
    given: Option<Vec<u8>>,
}

impl Why {
    fn read(r: &mut Reader<'_>) -> Result<Self, Fault> {
        Ok(Self { number: r.maybe(Bit::REASON)?, given: r.maybe(Bit::TEXT)? })
    }

    fn whole(self, r: &mut Reader<'_>) -> Result<(Option<Reason>, Option<Words>), Fault> {
        let text = match (self.given, r.maybe(Bit::FIXED_TEXT)?) {
            (Some(_), Some(_)) => return Err(r.unexpected(Bit::FIXED_TEXT)),
            (given, fixed) => given.map(Words::Given).or(fixed.map(Words::Fixed)),
        };
        let reason = match (self.number, r.maybe(Bit::ORIGIN)?) {
            (Some(number), Some(Origin(reason))) => Some(reason(number)),
            (None, None) => None,
            (Some(_), None) => return Err(r.missing(Bit::ORIGIN)),
            (None, Some(_)) => return Err(r.missing(Bit::REASON)),
        };
        Ok((reason, text))
    }
}

impl Report {
    fn read(r: &mut Reader<'_>) -> Result<Self, Fault> {
        let mut report = Self {
            client: r.field(Bit::CLIENT)?,
            name: r.field(Bit::NAME)?,
            cl_ord_id: r.field(Bit::CL_ORD_ID)?,
            orig_cl_ord_id: r.maybe(Bit::ORIG_CL_ORD_ID)?,
            symbol: r.field(Bit::SYMBOL)?,
            side: r.field(Bit::SIDE)?,
            ord_type: r.field(Bit::ORD_TYPE)?,
            qty: r.field(Bit::QTY)?,
            price: r.maybe(Bit::PRICE)?,
            time_in_force: r.maybe(Bit::TIME_IN_FORCE)?,
            exec_type: r.field(Bit::EXEC_TYPE)?,
            status: r.field(Bit::ORD_STATUS)?,
            last_qty: r.field(Bit::LAST_QTY)?,
            cum_qty: r.field(Bit::CUM_QTY)?,
            avg_px: r.field(Bit::AVG_PX)?,
            leaves_qty: Qty::default(),
            exec_seq: 0,
            last_px: Price::default(),
            price_source: None,
            reason: None,
            text: None,
        };
        let why = Why::read(r)?;
        report.leaves_qty = r.field(Bit::LEAVES_QTY)?;
        report.exec_seq = r.field(Bit::EXEC_SEQ)?;
        report.last_px = Price(r.field(Bit::FILL_PRICE)?);
        (report.reason, report.text) = why.whole(r)?;
        let MaybeSource(source) = r.field(Bit::PRICE_SOURCE)?;
        report.price_source = source;
        Ok(report)
    }
}

impl CancelReject {
    fn read(r: &mut Reader<'_>) -> Result<Self, Fault> {
        let client = r.field(Bit::CLIENT)?;
        let name = r.maybe(Bit::NAME)?;
        let cl_ord_id = r.field(Bit::CL_ORD_ID)?;
        let orig_cl_ord_id = r.field(Bit::ORIG_CL_ORD_ID)?;
        let status = r.field(Bit::ORD_STATUS)?;
        let (reason, text) = Why::read(r)?.whole(r)?;
        let reason = reason.ok_or(r.missing(Bit::REASON))?;
        let text = text.ok_or(r.missing(Bit::TEXT))?;
        let response_to = r.field(Bit::RESPONSE_TO)?;
        Ok(Self { client, name, cl_ord_id, orig_cl_ord_id, status, reason, response_to, text })
    }
}

impl ToVenue {
    /// A new order, or the request that amends one.
    fn read(r: &mut Reader<'_>, amends: bool) -> Result<Self, Fault> {
        Ok(Self {
            venue: r.field(Bit::VENUE)?,
            downstream: r.field(Bit::DOWNSTREAM)?,
            symbol: r.field(Bit::SYMBOL)?,
            side: r.field(Bit::SIDE)?,
            ord_type: r.field(Bit::ORD_TYPE)?,
            qty: r.field(Bit::QTY)?,
            price: r.maybe(Bit::PRICE)?,
            time_in_force: r.maybe(Bit::TIME_IN_FORCE)?,
            venue_order_id: if amends { r.maybe(Bit::VENUE_ORDER_ID)? } else { None },
            orig_downstream: if amends { Some(r.field(Bit::ORIG_DOWNSTREAM)?) } else { None },
        })
    }
}
