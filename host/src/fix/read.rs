//! A FIX message read: header and fields in their types (docs/FIX.md). Rests on entries, decimal, fields and message.

use std::str::{self, FromStr};

use super::{entries, Error, Header};
use crate::decimal::{Price, Qty};
use crate::fields::{ExecType, OrdStatus, OrdType, Side, TimeInForce};
use crate::message::RequestKind;

/// A message as it was read: its header, its body in types, and its fields as they came.
///
/// ```
/// use jubafiye::fix;
///
/// let message = "8=FIX.4.4|9=103|35=D|49=US|56=THEM|34=7|52=20261116-12:34:56|11=G1|55=WHEAT|54=1|40=1|\
///     38=100.0000|60=20261116-12:34:56|10=067|".replace('|', "\x01");
/// let fix::Message { header, body, fields, .. } = fix::read(message.as_bytes())?;
/// assert_eq!((header.sender, header.target, header.sequence), (&b"US"[..], &b"THEM"[..], 7));
/// assert!(matches!(body, fix::Body::NewOrder(_)));
/// assert_eq!(fields.get(38), Some(&b"100.0000"[..]));
/// # Ok::<(), fix::Error>(())
/// ```
#[derive(Debug, Clone, PartialEq, Eq)]
#[non_exhaustive]
pub struct Message<'a> {
    /// What the session gave.
    pub header: Header<'a>,
    /// The rest, by MsgType(35).
    pub body: Body<'a>,
    /// All fields, header and trailer included.
    pub fields: Fields<'a>,
}

/// What a message says, by its MsgType(35). TransactTime(60) of the last three is the header's time.
///
/// ```
/// use jubafiye::fix;
///
/// let message = "8=FIX.4.4|9=130|35=F|49=GATEWAY|56=VENUE|34=3|52=20261116-12:34:56.789|11=G1-2|55=WHEATH27|\
///     54=1|38=100.0000|37=V-1|41=G1|60=20261116-12:34:56.789|10=096|".replace('|', "\x01");
/// let told = match fix::read(message.as_bytes())?.body {
///     fix::Body::Report(_) | fix::Body::CancelReject(_) => "to a client",
///     fix::Body::NewOrder(_) | fix::Body::Cancel(_) | fix::Body::Replace(_) => "to a venue",
///     _ => "unknown here",
/// };
/// assert_eq!(told, "to a venue");
/// # Ok::<(), fix::Error>(())
/// ```
#[derive(Debug, Clone, PartialEq, Eq)]
#[non_exhaustive]
pub enum Body<'a> {
    /// 8, ExecutionReport.
    Report(Report<'a>),
    /// 9, OrderCancelReject.
    CancelReject(CancelReject<'a>),
    /// D, NewOrderSingle.
    NewOrder(NewOrder<'a>),
    /// F, OrderCancelRequest.
    Cancel(Cancel<'a>),
    /// G, OrderCancelReplaceRequest.
    Replace(Replace<'a>),
}

/// An ExecutionReport.
///
/// ```
/// use jubafiye::{fix, Price, Qty};
///
/// let message = "8=FIX.4.4|9=196|35=8|49=GATEWAY|56=DESK|34=3|52=20261116-12:34:56.789|37=G1|11=C1|55=WHEATH27|54=1|40=2|\
///     38=100.0000|44=10.25000000|150=D|39=1|32=0.0000|14=40.0000|6=10.25000000|151=60.0000|17=G1.3|31=10.25000000|10=136|".replace('|', "\x01");
/// let fix::Body::Report(told) = fix::read(message.as_bytes())?.body else { panic!("a report") };
/// assert_eq!((told.exec_id, told.exec_seq, told.cum_qty), (&b"G1.3"[..], 3, Qty::units(40)));
/// // a restatement is no trade: LastQty(32) is 0, whatever LastPx(31) is
/// assert_eq!((told.last_qty, told.last_px), (Qty(0), Price(1_025_000_000)));
/// # Ok::<(), fix::Error>(())
/// ```
#[derive(Debug, Clone, PartialEq, Eq)]
#[non_exhaustive]
pub struct Report<'a> {
    /// OrderID(37): the order's name.
    pub order_id: &'a [u8],
    /// ClOrdID(11).
    pub cl_ord_id: &'a [u8],
    /// OrigClOrdID(41).
    pub orig_cl_ord_id: Option<&'a [u8]>,
    /// Symbol(55).
    pub symbol: &'a [u8],
    /// Side(54).
    pub side: Side,
    /// OrdType(40).
    pub ord_type: OrdType,
    /// OrderQty(38).
    pub qty: Qty,
    /// Price(44).
    pub price: Option<Price>,
    /// TimeInForce(59).
    pub time_in_force: Option<TimeInForce>,
    /// ExecType(150).
    pub exec_type: ExecType,
    /// OrdStatus(39).
    pub status: OrdStatus,
    /// LastQty(32).
    pub last_qty: Qty,
    /// CumQty(14).
    pub cum_qty: Qty,
    /// AvgPx(6).
    pub avg_px: Price,
    /// OrdRejReason(103).
    pub reason: Option<u32>,
    /// Text(58): whether it was a fixed one is not carried.
    pub text: Option<&'a [u8]>,
    /// LeavesQty(151).
    pub leaves_qty: Qty,
    /// ExecID(17): the order's name, a point and the number of the report among the order's.
    pub exec_id: &'a [u8],
    /// That number.
    pub exec_seq: u64,
    /// LastPx(31).
    pub last_px: Price,
}

/// An OrderCancelReject.
///
/// ```
/// use jubafiye::{fix, RequestKind};
///
/// let message = "8=FIX.4.4|9=108|35=9|49=GATEWAY|56=DESK|34=4|52=20261116-12:34:56.789|\
///     37=NONE|11=C4|41=C9|39=8|102=1|58=unknown order|434=1|10=077|".replace('|', "\x01");
/// let fix::Body::CancelReject(told) = fix::read(message.as_bytes())?.body else { panic!("a reject") };
/// assert_eq!((told.order_id, told.cl_ord_id, told.text), (None, &b"C4"[..], &b"unknown order"[..]));
/// assert_eq!(told.response_to, RequestKind::Cancel);
/// # Ok::<(), fix::Error>(())
/// ```
#[derive(Debug, Clone, PartialEq, Eq)]
#[non_exhaustive]
pub struct CancelReject<'a> {
    /// OrderID(37): the order's name; none if FIX has `NONE`, since the reject is about no order.
    pub order_id: Option<&'a [u8]>,
    /// ClOrdID(11).
    pub cl_ord_id: &'a [u8],
    /// OrigClOrdID(41).
    pub orig_cl_ord_id: &'a [u8],
    /// OrdStatus(39).
    pub status: OrdStatus,
    /// CxlRejReason(102).
    pub reason: u32,
    /// Text(58): whether it was a fixed one is not carried.
    pub text: &'a [u8],
    /// CxlRejResponseTo(434).
    pub response_to: RequestKind,
}

/// A NewOrderSingle.
///
/// ```
/// use jubafiye::{fix, Qty, Side};
///
/// let message = "8=FIX.4.4|9=103|35=D|49=US|56=THEM|34=7|52=20261116-12:34:56|11=G1|55=WHEAT|54=1|40=1|\
///     38=100.0000|60=20261116-12:34:56|10=067|".replace('|', "\x01");
/// let fix::Body::NewOrder(order) = fix::read(message.as_bytes())?.body else { panic!("an order") };
/// assert_eq!((order.symbol, order.side, order.qty), (&b"WHEAT"[..], Side::Buy, Qty::units(100)));
/// # Ok::<(), fix::Error>(())
/// ```
#[derive(Debug, Clone, PartialEq, Eq)]
#[non_exhaustive]
pub struct NewOrder<'a> {
    /// ClOrdID(11).
    pub cl_ord_id: &'a [u8],
    /// Symbol(55).
    pub symbol: &'a [u8],
    /// Side(54).
    pub side: Side,
    /// OrdType(40).
    pub ord_type: OrdType,
    /// OrderQty(38).
    pub qty: Qty,
    /// Price(44).
    pub price: Option<Price>,
    /// TimeInForce(59).
    pub time_in_force: Option<TimeInForce>,
}

/// An OrderCancelRequest.
///
/// ```
/// use jubafiye::{fix, Qty};
///
/// let message = "8=FIX.4.4|9=130|35=F|49=GATEWAY|56=VENUE|34=3|52=20261116-12:34:56.789|11=G1-2|55=WHEATH27|\
///     54=1|38=100.0000|37=V-1|41=G1|60=20261116-12:34:56.789|10=096|".replace('|', "\x01");
/// let fix::Body::Cancel(cancel) = fix::read(message.as_bytes())?.body else { panic!("a cancel") };
/// assert_eq!((cancel.cl_ord_id, cancel.orig_cl_ord_id), (&b"G1-2"[..], &b"G1"[..]));
/// assert_eq!((cancel.order_id, cancel.qty), (Some(&b"V-1"[..]), Qty::units(100)));
/// # Ok::<(), fix::Error>(())
/// ```
#[derive(Debug, Clone, PartialEq, Eq)]
#[non_exhaustive]
pub struct Cancel<'a> {
    /// ClOrdID(11).
    pub cl_ord_id: &'a [u8],
    /// Symbol(55).
    pub symbol: &'a [u8],
    /// Side(54).
    pub side: Side,
    /// OrderQty(38): the whole quantity, not what is left.
    pub qty: Qty,
    /// OrderID(37): the venue's, if it is known.
    pub order_id: Option<&'a [u8]>,
    /// OrigClOrdID(41).
    pub orig_cl_ord_id: &'a [u8],
}

/// An OrderCancelReplaceRequest.
///
/// ```
/// use jubafiye::{fix, Qty};
///
/// let message = "8=FIX.4.4|9=149|35=G|49=GATEWAY|56=VENUE|34=2|52=20261116-12:34:56.789|11=G1-1|55=WHEATH27|\
///     54=1|40=2|38=80.0000|44=10.00000000|37=V-1|41=G1|60=20261116-12:34:56.789|10=201|".replace('|', "\x01");
/// let fix::Body::Replace(replace) = fix::read(message.as_bytes())?.body else { panic!("a replace") };
/// assert_eq!((replace.order.cl_ord_id, replace.order.qty), (&b"G1-1"[..], Qty::units(80)));
/// assert_eq!(replace.orig_cl_ord_id, b"G1");
/// # Ok::<(), fix::Error>(())
/// ```
#[derive(Debug, Clone, PartialEq, Eq)]
#[non_exhaustive]
pub struct Replace<'a> {
    /// The new terms, under the request's ClOrdID(11).
    pub order: NewOrder<'a>,
    /// OrderID(37): the venue's, if it is known.
    pub order_id: Option<&'a [u8]>,
    /// OrigClOrdID(41).
    pub orig_cl_ord_id: &'a [u8],
}

/// The fields of a message, in their order: tag and value.
///
/// ```
/// use jubafiye::fix;
///
/// let message = "8=FIX.4.4|9=103|35=D|49=US|56=THEM|34=7|52=20261116-12:34:56|11=G1|55=WHEAT|54=1|40=1|\
///     38=100.0000|60=20261116-12:34:56|10=067|".replace('|', "\x01");
/// let fields: fix::Fields = fix::read(message.as_bytes())?.fields;
/// assert_eq!((fields.get(55), fields.get(44)), (Some(&b"WHEAT"[..]), None));
/// assert_eq!(fields.iter().next(), Some((8, &b"FIX.4.4"[..])));
/// # Ok::<(), fix::Error>(())
/// ```
#[derive(Debug, Clone, PartialEq, Eq)]
pub struct Fields<'a>(Vec<(u32, &'a [u8])>);

impl<'a> Fields<'a> {
    /// The value of a tag, if it stands there.
    /// ```
    /// use jubafiye::fix;
    ///
    /// // A new order for venue 3: G1, WHEAT, buy, market, 100.
    /// let record = b"\x12\xe2\x03\0\0\x03\0\x02G1\x05WHEAT11\x40\x42\x0f\0\0\0\0\0";
    /// let header = fix::Header { sender: b"US", target: b"THEM", sequence: 7, time: b"20261116-12:34:56" };
    /// let message = fix::to_vec(record, &header).unwrap();
    /// let fields = fix::read(&message)?.fields;
    /// assert_eq!((fields.get(55), fields.get(97)), (Some(&b"WHEAT"[..]), None));
    /// # Ok::<(), fix::Error>(())
    /// ```
    pub fn get(&self, tag: u32) -> Option<&'a [u8]> {
        self.0.iter().find(|field| field.0 == tag).map(|field| field.1)
    }

    /// All fields, in their order.
    /// ```
    /// use jubafiye::fix;
    ///
    /// // A new order for venue 3: G1, WHEAT, buy, market, 100.
    /// let record = b"\x12\xe2\x03\0\0\x03\0\x02G1\x05WHEAT11\x40\x42\x0f\0\0\0\0\0";
    /// let header = fix::Header { sender: b"US", target: b"THEM", sequence: 7, time: b"20261116-12:34:56" };
    /// let message = fix::to_vec(record, &header).unwrap();
    /// let tags: Vec<u32> = fix::read(&message)?.fields.iter().map(|(tag, _)| tag).collect();
    /// assert!(tags.starts_with(&[8, 9, 35]) && tags.ends_with(&[10]));
    /// # Ok::<(), fix::Error>(())
    /// ```
    pub fn iter(&self) -> impl Iterator<Item = (u32, &'a [u8])> + '_ {
        self.0.iter().copied()
    }

    fn must(&self, tag: u32) -> Result<&'a [u8], Error> {
        self.get(tag).ok_or(Error::Unreadable { tag })
    }

    /// A value of another type than bytes, if the tag stands there.
    fn maybe<T>(&self, tag: u32, of: impl Fn(&'a [u8]) -> Option<T>) -> Result<Option<T>, Error> {
        let read = |value| of(value).ok_or(Error::Unreadable { tag });
        self.get(tag).map(read).transpose()
    }

    fn typed<T>(&self, tag: u32, of: impl Fn(&'a [u8]) -> Option<T>) -> Result<T, Error> {
        self.maybe(tag, of)?.ok_or(Error::Unreadable { tag })
    }
}

/// A value that is a text of its type.
fn parsed<T: FromStr>(value: &[u8]) -> Option<T> {
    str::from_utf8(value).ok()?.parse().ok()
}

/// A value that is one byte of a list.
fn code<T>(from: fn(u8) -> Option<T>) -> impl Fn(&[u8]) -> Option<T> {
    move |value| match value {
        [byte] => from(*byte),
        _ => None,
    }
}

fn fill_price(value: &[u8]) -> Option<Price> {
    Price::of_any_size(str::from_utf8(value).ok()?).ok()
}

fn response_to(digit: u8) -> Option<RequestKind> {
    RequestKind::from_number(digit.checked_sub(b'0')?)
}

/// Reads a message that [`write`](super::write) wrote, here or elsewhere. Bytes that no record is written as are refused with
/// [`Refusal::Record`](crate::Refusal::Record): a wrong sum or length, a field missing, doubled or out of its place, a value
/// out of its range or in another form.
///
/// ```
/// use jubafiye::{fix, OrdType, Qty, Refusal};
///
/// let message = b"8=FIX.4.4\x019=103\x0135=D\x0149=US\x0156=THEM\x0134=7\x0152=20261116-12:34:56\x01\
///     11=G1\x0155=WHEAT\x0154=1\x0140=1\x0138=100.0000\x0160=20261116-12:34:56\x0110=067\x01";
/// let read = fix::read(message)?;
/// assert_eq!((read.header.target, read.header.sequence), (&b"THEM"[..], 7));
/// let fix::Body::NewOrder(order) = read.body else { panic!("a new order") };
/// assert_eq!((order.cl_ord_id, order.ord_type, order.qty), (&b"G1"[..], OrdType::Market, Qty::units(100)));
/// assert_eq!(read.fields.get(55), Some(&b"WHEAT"[..]));
///
/// let side_nine = String::from_utf8(message.to_vec())?.replace("54=1", "54=9").replace("10=067", "10=075");
/// assert_eq!(fix::read(side_nine.as_bytes()), Err(fix::Error::Refused(Refusal::Record)));
/// # Ok::<(), Box<dyn std::error::Error>>(())
/// ```
pub fn read(message: &[u8]) -> Result<Message<'_>, Error> {
    let within =
        |(tag, value): (u32, Option<_>)| value.map(|value| (tag, value)).ok_or(Error::Unreadable { tag });
    let fields = Fields(entries::read(message)?.map(within).collect::<Result<_, _>>()?);
    let header = Header {
        sender: fields.must(49)?,
        target: fields.must(56)?,
        sequence: fields.typed(34, parsed)?,
        time: fields.must(52)?,
    };
    let body = match fields.must(35)? {
        b"8" => Body::Report(Report::of(&fields)?),
        b"9" => Body::CancelReject(CancelReject::of(&fields)?),
        b"D" => Body::NewOrder(NewOrder::of(&fields)?),
        b"F" => Body::Cancel(Cancel::of(&fields)?),
        b"G" => Body::Replace(Replace::of(&fields)?),
        _ => return Err(Error::Unreadable { tag: 35 }),
    };
    Ok(Message { header, body, fields })
}

impl<'a> Report<'a> {
    fn of(fields: &Fields<'a>) -> Result<Self, Error> {
        let sequence = |exec_id: &[u8]| parsed(exec_id.rsplit(|&byte| byte == b'.').next()?);
        Ok(Self {
            order_id: fields.must(37)?,
            cl_ord_id: fields.must(11)?,
            orig_cl_ord_id: fields.get(41),
            symbol: fields.must(55)?,
            side: fields.typed(54, code(Side::from_code))?,
            ord_type: fields.typed(40, code(OrdType::from_code))?,
            qty: fields.typed(38, parsed)?,
            price: fields.maybe(44, parsed)?,
            time_in_force: fields.maybe(59, code(TimeInForce::from_code))?,
            exec_type: fields.typed(150, code(ExecType::from_code))?,
            status: fields.typed(39, code(OrdStatus::from_code))?,
            last_qty: fields.typed(32, parsed)?,
            cum_qty: fields.typed(14, parsed)?,
            avg_px: fields.typed(6, parsed)?,
            reason: fields.maybe(103, parsed)?,
            text: fields.get(58),
            leaves_qty: fields.typed(151, parsed)?,
            exec_id: fields.must(17)?,
            exec_seq: fields.typed(17, sequence)?,
            last_px: fields.typed(31, fill_price)?,
        })
    }
}

impl<'a> CancelReject<'a> {
    fn of(fields: &Fields<'a>) -> Result<Self, Error> {
        Ok(Self {
            order_id: Some(fields.must(37)?).filter(|name| name != b"NONE"),
            cl_ord_id: fields.must(11)?,
            orig_cl_ord_id: fields.must(41)?,
            status: fields.typed(39, code(OrdStatus::from_code))?,
            reason: fields.typed(102, parsed)?,
            text: fields.must(58)?,
            response_to: fields.typed(434, code(response_to))?,
        })
    }
}

impl<'a> NewOrder<'a> {
    fn of(fields: &Fields<'a>) -> Result<Self, Error> {
        Ok(Self {
            cl_ord_id: fields.must(11)?,
            symbol: fields.must(55)?,
            side: fields.typed(54, code(Side::from_code))?,
            ord_type: fields.typed(40, code(OrdType::from_code))?,
            qty: fields.typed(38, parsed)?,
            price: fields.maybe(44, parsed)?,
            time_in_force: fields.maybe(59, code(TimeInForce::from_code))?,
        })
    }
}

impl<'a> Cancel<'a> {
    fn of(fields: &Fields<'a>) -> Result<Self, Error> {
        Ok(Self {
            cl_ord_id: fields.must(11)?,
            symbol: fields.must(55)?,
            side: fields.typed(54, code(Side::from_code))?,
            qty: fields.typed(38, parsed)?,
            order_id: fields.get(37),
            orig_cl_ord_id: fields.must(41)?,
        })
    }
}

impl<'a> Replace<'a> {
    fn of(fields: &Fields<'a>) -> Result<Self, Error> {
        Ok(Self { order: NewOrder::of(fields)?, order_id: fields.get(37), orig_cl_ord_id: fields.must(41)? })
    }
}
