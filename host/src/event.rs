//! Events as the gateway has them, and their records (docs/SCOPE.md, Events). Rests on record, fields, decimal and words.

use std::fmt;

use crate::decimal::{Price, Qty};
use crate::fields::{ExecType, OrdStatus, OrdType, Side, TimeInForce};
use crate::record::{Bit, Writer};
use crate::show::shown;
use crate::words::RiskReject;

/// An order that was admitted. The gateway sends it to the venue itself, under its name.
///
/// ```
/// use jubafiye::{Booking, Event, Qty, Side};
///
/// let booking = Booking::new(7, 3, Side::Buy, Qty::units(100), b"WHEATH27").named(b"G1", b"C1").limit("10.25".parse()?);
/// assert_eq!(
///     Event::Book(booking).to_string(),
///     "book client=7 venue=3 name=G1 clordid=C1 symbol=WHEATH27 side=buy ordtype=limit qty=100 price=10.25"
/// );
/// # Ok::<(), jubafiye::DecimalError>(())
/// ```
#[derive(Clone, Copy, PartialEq, Eq)]
pub struct Booking<'a> {
    /// The client's number.
    pub client: u16,
    /// The number of the venue that the order goes to.
    pub venue: u16,
    /// Our OrderID(37), 1 to 20 letters and digits: unused so far, and the root of all downstream ClOrdIDs of the order.
    pub name: &'a [u8],
    /// The client's ClOrdID(11), 1 to 32 bytes, unused by that client so far.
    pub cl_ord_id: &'a [u8],
    /// Symbol(55), 1 to 16 bytes.
    pub symbol: &'a [u8],
    /// Side(54).
    pub side: Side,
    /// OrdType(40).
    pub ord_type: OrdType,
    /// OrderQty(38).
    pub qty: Qty,
    /// Price(44), exactly if the type is limit.
    pub price: Option<Price>,
    /// TimeInForce(59), if the client named one.
    pub time_in_force: Option<TimeInForce>,
}

/// A client's cancel, and what a replace has in common with one.
///
/// ```
/// use jubafiye::{Amend, Event, Side};
///
/// let cancel = Amend::new(7, b"C2", b"C1", b"WHEATH27", Side::Buy);
/// assert_eq!(
///     Event::Cancel(cancel).to_string(),
///     "cancel client=7 clordid=C2 origclordid=C1 symbol=WHEATH27 side=buy"
/// );
/// ```
#[derive(Clone, Copy, PartialEq, Eq)]
pub struct Amend<'a> {
    /// The client's number.
    pub client: u16,
    /// ClOrdID(11) of the request.
    pub cl_ord_id: &'a [u8],
    /// OrigClOrdID(41): a ClOrdID of the order.
    pub orig_cl_ord_id: &'a [u8],
    /// Symbol(55), which must be the order's.
    pub symbol: &'a [u8],
    /// Side(54), which must be the order's.
    pub side: Side,
    /// Whether it may have been sent before (PossDupFlag, PossResend): a request already taken is answered with the order's
    /// state.
    pub redelivered: bool,
}

/// A client's replace, with what the host decides about it.
///
/// ```
/// # #[cfg(feature = "book")] {
/// use jubafiye::{Amend, Book, Event, FixedText, Message, Qty, Replace, RiskReject, Side, Words};
///
/// let replace = Replace {
///     amend: Amend {
///         client: 7,
///         cl_ord_id: b"C2",
///         orig_cl_ord_id: b"C1",
///         symbol: b"WHEATH27",
///         side: Side::Buy,
///         redelivered: false,
///     },
///     qty: Qty::units(80),
///     verdict: Err(RiskReject::Credit),
///     ord_type: None,
///     price: None,
///     time_in_force: None,
///     blocked: false,
/// };
/// // The book is empty: no such order.
/// let answer = Book::new(10_000).take(&Event::Replace(replace))?;
/// let [Message::CancelReject(told)] = &answer.messages[..] else { panic!("a refusal goes out") };
/// assert_eq!((told.reason.number(), &told.text), (1, &Words::Fixed(FixedText::UnknownOrder)));
/// # }
/// # Ok::<(), jubafiye::Error>(())
/// ```
#[derive(Debug, Clone, Copy, PartialEq, Eq)]
pub struct Replace<'a> {
    /// Who asks, and for which order.
    pub amend: Amend<'a>,
    /// The new OrderQty(38).
    pub qty: Qty,
    /// The host's risk verdict on the new terms.
    pub verdict: Result<(), RiskReject>,
    /// The new OrdType(40); the order's if there is none.
    pub ord_type: Option<OrdType>,
    /// The new Price(44), exactly if the type is then limit.
    pub price: Option<Price>,
    /// The new TimeInForce(59); the order's if there is none.
    pub time_in_force: Option<TimeInForce>,
    /// Whether an operator blocked the client: a replace may then not raise the quantity.
    pub blocked: bool,
}

/// A venue's execution report.
///
/// ```
/// use jubafiye::{Event, ExecType, OrdStatus, Price, Qty, VenueReport};
///
/// let report = VenueReport::new(3, b"G1", ExecType::Rejected, Qty(0), Price(0))
///     .status(OrdStatus::Rejected)
///     .venue_order_id(b"V-1")
///     .reason(1)
///     .text(b"unknown symbol");
/// assert_eq!(
///     Event::VenueReport(report).to_string(),
///     "report venue=3 downstream=G1 exectype=rejected ordstatus=rejected lastqty=0 lastpx=0 cumqty=0 avgpx=0 \
///      venueorderid=V-1 reason=1 text=\"unknown symbol\""
/// );
/// ```
#[derive(Clone, Copy, PartialEq, Eq)]
pub struct VenueReport<'a> {
    /// The venue that it came from.
    pub venue: u16,
    /// The downstream ClOrdID(11) that it answers.
    pub downstream: &'a [u8],
    /// ExecType(150).
    pub exec_type: ExecType,
    /// OrdStatus(39); none keeps the order's.
    pub status: Option<OrdStatus>,
    /// LastQty(32).
    pub last_qty: Qty,
    /// LastPx(31).
    pub last_px: Price,
    /// CumQty(14).
    pub cum_qty: Qty,
    /// AvgPx(6).
    pub avg_px: Price,
    /// The venue's OrderID(37).
    pub venue_order_id: Option<&'a [u8]>,
    /// OrdRejReason(103).
    pub reason: Option<u32>,
    /// Text(58), 1 to 64 bytes.
    pub text: Option<&'a [u8]>,
}

/// A venue's refusal of a cancel or replace (OrderCancelReject).
///
/// ```
/// use jubafiye::{Event, OrdStatus, RejectedRequest};
///
/// let reject =
///     RejectedRequest::new(3, b"G1-1").status(OrdStatus::Filled).venue_order_id(b"V-1").reason(0).text(b"too late");
/// assert_eq!(
///     Event::CancelReject(reject).to_string(),
///     "reject venue=3 downstream=G1-1 ordstatus=filled venueorderid=V-1 reason=0 text=\"too late\""
/// );
/// ```
#[derive(Clone, Copy, PartialEq, Eq)]
pub struct RejectedRequest<'a> {
    /// The venue that it came from.
    pub venue: u16,
    /// The downstream ClOrdID(11) of the request.
    pub downstream: &'a [u8],
    /// OrdStatus(39), the order's as the venue gives it.
    pub status: Option<OrdStatus>,
    /// The venue's OrderID(37).
    pub venue_order_id: Option<&'a [u8]>,
    /// CxlRejReason(102).
    pub reason: Option<u32>,
    /// Text(58), 1 to 64 bytes.
    pub text: Option<&'a [u8]>,
}

/// What the book is told. Texts are bytes: the book takes any.
///
/// ```
/// # #[cfg(feature = "book")] {
/// use jubafiye::{Book, Event};
///
/// let event = Event::SendFailed { venue: 3, downstream: b"G1", text: b"session down" };
/// assert!(Book::new(10_000).take(&event)?.messages.is_empty());
/// # }
/// # Ok::<(), jubafiye::Error>(())
/// ```
#[derive(Clone, Copy, PartialEq, Eq)]
pub enum Event<'a> {
    /// An admitted order is entered.
    Book(Booking<'a>),
    /// A client cancels.
    Cancel(Amend<'a>),
    /// A client replaces.
    Replace(Replace<'a>),
    /// A venue reports.
    VenueReport(VenueReport<'a>),
    /// A venue does not know an order that it was asked about.
    UnknownAtVenue {
        /// The venue that was asked.
        venue: u16,
        /// The downstream ClOrdID that was asked about.
        downstream: &'a [u8],
    },
    /// A venue refuses a cancel or replace.
    CancelReject(RejectedRequest<'a>),
    /// The venue's session could not take a message.
    SendFailed {
        /// The venue of that session.
        venue: u16,
        /// The downstream ClOrdID of the message.
        downstream: &'a [u8],
        /// Why, for the client: 1 to 64 bytes.
        text: &'a [u8],
    },
    /// A message was not sent before the gateway restarted: it goes again, or the request is refused.
    SendAgain {
        /// The venue that it was for.
        venue: u16,
        /// The downstream ClOrdID of the message.
        downstream: &'a [u8],
    },
    /// The gateway cancels an order itself.
    GatewayCancel {
        /// The order's name.
        name: &'a [u8],
    },
}

impl Event<'_> {
    /// The event's record. A field that does not fit is written so that the book refuses it by its range: a text is cut at 255
    /// bytes, and a price beyond 64 bits is the largest that they hold.
    ///
    /// ```
    /// # use jubafiye::Event;
    /// assert_eq!(Event::GatewayCancel { name: b"G1" }.record(), b"\x09\x04\0\0\0\x02G1");
    /// ```
    pub fn record(&self) -> Vec<u8> {
        let mut bytes = Vec::with_capacity(128);
        self.write(&mut bytes);
        bytes
    }

    /// Writes the event's record in place of what `bytes` holds.
    ///
    /// ```
    /// # use jubafiye::Event;
    /// let mut bytes = b"an earlier record".to_vec();
    /// let event = Event::SendAgain { venue: 3, downstream: b"G1" };
    /// event.write(&mut bytes);
    /// assert_eq!(bytes, event.record());
    /// ```
    pub fn write(&self, bytes: &mut Vec<u8>) {
        match self {
            Self::Book(booking) => booking.write(bytes),
            Self::Cancel(amend) => {
                let mut w = Writer::new(bytes, 2);
                amend.put(&mut w);
                w.mark(Bit::REDELIVERED, amend.redelivered);
            }
            Self::Replace(replace) => replace.write(bytes),
            Self::VenueReport(report) => report.write(bytes),
            Self::UnknownAtVenue { venue, downstream } => drop(naming(bytes, 5, *venue, downstream)),
            Self::CancelReject(reject) => reject.write(bytes),
            Self::SendFailed { venue, downstream, text } => {
                naming(bytes, 7, *venue, downstream).text(Bit::TEXT, text)
            }
            Self::SendAgain { venue, downstream } => drop(naming(bytes, 8, *venue, downstream)),
            Self::GatewayCancel { name } => Writer::new(bytes, 9).text(Bit::NAME, name),
        }
    }

    /// Appends the event's record behind its length in two bytes, little-endian, as `Book::take_all` and the day program read
    /// records that stand one after the other.
    ///
    /// ```
    /// # use jubafiye::Event;
    /// let mut records = Vec::new();
    /// Event::GatewayCancel { name: b"G1" }.append(&mut records);
    /// assert_eq!(records, b"\x08\0\x09\x04\0\0\0\x02G1");
    /// ```
    pub fn append(&self, records: &mut Vec<u8>) {
        let record = self.record();
        // A record of an event has fewer than 1,024 bytes, whatever its fields hold.
        let length = u16::try_from(record.len()).unwrap_or(u16::MAX);
        records.extend_from_slice(&length.to_le_bytes());
        records.extend_from_slice(&record);
    }
}

/// A record that starts with a venue and a downstream ClOrdID.
fn naming<'a>(bytes: &'a mut Vec<u8>, kind: u8, venue: u16, downstream: &[u8]) -> Writer<'a> {
    let mut w = Writer::new(bytes, kind);
    w.put(Bit::VENUE, &venue.to_le_bytes());
    w.text(Bit::DOWNSTREAM, downstream);
    w
}

impl Booking<'_> {
    fn write(&self, bytes: &mut Vec<u8>) {
        let mut w = Writer::new(bytes, 1);
        w.put(Bit::CLIENT, &self.client.to_le_bytes());
        w.put(Bit::VENUE, &self.venue.to_le_bytes());
        w.text(Bit::NAME, self.name);
        w.text(Bit::CL_ORD_ID, self.cl_ord_id);
        w.text(Bit::SYMBOL, self.symbol);
        w.put(Bit::SIDE, &[self.side.code()]);
        w.put(Bit::ORD_TYPE, &[self.ord_type.code()]);
        w.qty(Bit::QTY, self.qty);
        w.price_if(Bit::PRICE, self.price);
        w.put_if(Bit::TIME_IN_FORCE, self.time_in_force.map(TimeInForce::code));
    }
}

impl Amend<'_> {
    fn put(&self, w: &mut Writer<'_>) {
        w.put(Bit::CLIENT, &self.client.to_le_bytes());
        w.text(Bit::CL_ORD_ID, self.cl_ord_id);
        w.text(Bit::ORIG_CL_ORD_ID, self.orig_cl_ord_id);
        w.text(Bit::SYMBOL, self.symbol);
        w.put(Bit::SIDE, &[self.side.code()]);
    }
}

impl Replace<'_> {
    fn write(&self, bytes: &mut Vec<u8>) {
        let mut w = Writer::new(bytes, 3);
        self.amend.put(&mut w);
        w.put_if(Bit::ORD_TYPE, self.ord_type.map(OrdType::code));
        w.qty(Bit::QTY, self.qty);
        w.price_if(Bit::PRICE, self.price);
        w.put_if(Bit::TIME_IN_FORCE, self.time_in_force.map(TimeInForce::code));
        w.mark(Bit::REDELIVERED, self.amend.redelivered);
        w.mark(Bit::BLOCKED, self.blocked);
        w.put(Bit::VERDICT, &[self.verdict.map_or_else(RiskReject::number, |()| 0)]);
    }
}

impl VenueReport<'_> {
    fn write(&self, bytes: &mut Vec<u8>) {
        let mut w = naming(bytes, 4, self.venue, self.downstream);
        w.put(Bit::EXEC_TYPE, &[self.exec_type.code()]);
        w.put_if(Bit::ORD_STATUS, self.status.map(OrdStatus::code));
        w.qty(Bit::LAST_QTY, self.last_qty);
        w.price(Bit::LAST_PX, self.last_px);
        w.qty(Bit::CUM_QTY, self.cum_qty);
        w.price(Bit::AVG_PX, self.avg_px);
        told(&mut w, self.venue_order_id, self.reason, self.text);
    }
}

impl RejectedRequest<'_> {
    fn write(&self, bytes: &mut Vec<u8>) {
        let mut w = naming(bytes, 6, self.venue, self.downstream);
        w.put_if(Bit::ORD_STATUS, self.status.map(OrdStatus::code));
        told(&mut w, self.venue_order_id, self.reason, self.text);
    }
}

/// What a venue may add: its OrderID, a reason and a text.
fn told(w: &mut Writer<'_>, venue_order_id: Option<&[u8]>, reason: Option<u32>, text: Option<&[u8]>) {
    w.text_if(Bit::VENUE_ORDER_ID, venue_order_id);
    if let Some(reason) = reason {
        w.put(Bit::REASON, &reason.to_le_bytes());
    }
    w.text_if(Bit::TEXT, text);
}

shown!(Booking<'_> {
    client, venue, name as text, cl_ord_id as text, symbol as text, side, ord_type, qty, price, time_in_force,
});

shown!(Amend<'_> { client, cl_ord_id as text, orig_cl_ord_id as text, symbol as text, side, redelivered });

shown!(VenueReport<'_> {
    venue, downstream as text, exec_type, status, last_qty, last_px, cum_qty, avg_px, venue_order_id as text, reason, text as text,
});

shown!(RejectedRequest<'_> {
    venue, downstream as text, status, venue_order_id as text, reason, text as text,
});

/// The small events in their text form, the others field by field.
impl fmt::Debug for Event<'_> {
    fn fmt(&self, f: &mut fmt::Formatter<'_>) -> fmt::Result {
        match self {
            Self::Book(booking) => f.debug_tuple("Book").field(booking).finish(),
            Self::Cancel(amend) => f.debug_tuple("Cancel").field(amend).finish(),
            Self::Replace(replace) => f.debug_tuple("Replace").field(replace).finish(),
            Self::VenueReport(report) => f.debug_tuple("VenueReport").field(report).finish(),
            Self::CancelReject(reject) => f.debug_tuple("CancelReject").field(reject).finish(),
            small => write!(f, "Event({small})"),
        }
    }
}

#[cfg(test)]
mod tests {
    use super::*;

    const AMEND: Amend<'static> = Amend {
        client: 0x0102,
        cl_ord_id: b"c2",
        orig_cl_ord_id: b"c1",
        symbol: b"XYZ",
        side: Side::Buy,
        redelivered: true,
    };

    #[test]
    fn a_cancels_record() {
        assert_eq!(Event::Cancel(AMEND).record(), b"\x02\xd9\x00\x20\x00\x02\x01\x02c2\x02c1\x03XYZ1");
    }

    #[test]
    fn a_replaces_record() {
        let replace = Replace {
            amend: Amend { redelivered: false, ..AMEND },
            qty: Qty(1),
            verdict: Err(RiskReject::Credit),
            ord_type: Some(OrdType::Limit),
            price: Some(Price(2)),
            time_in_force: Some(TimeInForce::Ioc),
            blocked: true,
        };
        let fields = b"\x02\x01\x02c2\x02c1\x03XYZ12\x01\0\0\0\0\0\0\0\x02\0\0\0\0\0\0\x003\x07";
        assert_eq!(Event::Replace(replace).record(), [b"\x03\xd9\x0f\xc0\x00", &fields[..]].concat());
    }

    #[test]
    fn the_short_records() {
        let (venue, downstream) = (3, &b"G1"[..]);
        let records = [
            (Event::UnknownAtVenue { venue, downstream }, &b"\x05\x22\0\0\0\x03\0\x02G1"[..]),
            (Event::SendFailed { venue, downstream, text: b"t" }, b"\x07\x22\0\x10\0\x03\0\x02G1\x01t"),
            (Event::SendAgain { venue, downstream }, b"\x08\x22\0\0\0\x03\0\x02G1"),
            (Event::GatewayCancel { name: b"G1" }, b"\x09\x04\0\0\0\x02G1"),
        ];
        for (event, record) in records {
            assert_eq!(event.record(), record, "{event:?}");
        }
    }
}
