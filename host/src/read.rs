//! Event records read: which field is wrong and why, and else the event in its types (docs/SCOPE.md, Records, Events, Questions 3 and
//! 4). What the library says is what counts; a test compares this with it. Rests on event, record, error, fields, decimal and words.

use std::error;
use std::fmt;

use crate::decimal::{Price, Qty};
use crate::error::{Error, Refusal};
use crate::event::{Amend, Booking, Event, RejectedRequest, Replace, VenueReport};
use crate::fields::{ExecType, OrdStatus, OrdType, Side, TimeInForce};
use crate::record::Bit;
use crate::words::RiskReject;

/// The most that a quantity and a price may be.
pub(crate) const MAX_QTY: u64 = Qty::MAX.0;
pub(crate) const MAX_PRICE: u64 = 100_000_000_000_000;

/// The bits that events have; the others are the messages' alone.
const EVENT_BITS: usize = 24;

/// The bytes of a record before its fields: the kind and the map.
const HEAD: usize = 5;

/// What a field of an event holds.
#[derive(Clone, Copy)]
pub(crate) enum Holds {
    Short,
    Word,
    Name,
    Text { least: usize, most: usize },
    Side,
    OrdType,
    TimeInForce,
    ExecType,
    OrdStatus,
    Qty,
    Price,
    Flag,
    Verdict,
}

/// The name of a field, as the text form has it, and what it holds.
pub(crate) const fn field(bit: usize) -> (&'static str, Holds) {
    const ID: Holds = Holds::Text { least: 1, most: 32 };
    match bit {
        0 => ("client", Holds::Short),
        1 => ("venue", Holds::Short),
        2 => ("name", Holds::Name),
        3 => ("clordid", ID),
        4 => ("origclordid", ID),
        5 => ("downstream", ID),
        6 => ("symbol", Holds::Text { least: 1, most: 16 }),
        7 => ("side", Holds::Side),
        8 => ("ordtype", Holds::OrdType),
        9 => ("qty", Holds::Qty),
        10 => ("price", Holds::Price),
        11 => ("timeinforce", Holds::TimeInForce),
        12 => ("exectype", Holds::ExecType),
        13 => ("ordstatus", Holds::OrdStatus),
        14 => ("lastqty", Holds::Qty),
        15 => ("lastpx", Holds::Price),
        16 => ("cumqty", Holds::Qty),
        17 => ("avgpx", Holds::Price),
        18 => ("venueorderid", Holds::Text { least: 0, most: 32 }),
        19 => ("reason", Holds::Word),
        20 => ("text", Holds::Text { least: 1, most: 64 }),
        21 => ("redelivered", Holds::Flag),
        22 => ("blocked", Holds::Flag),
        _ => ("verdict", Holds::Verdict),
    }
}

/// A kind of event: its word in the text form, the bits that it must have and those that it may have.
pub(crate) const fn kind(number: u8) -> Option<(&'static str, &'static [usize], &'static [usize])> {
    Some(match number {
        1 => ("book", &[0, 1, 2, 3, 6, 7, 8, 9], &[10, 11]),
        2 => ("cancel", &[0, 3, 4, 6, 7], &[21]),
        3 => ("replace", &[0, 3, 4, 6, 7, 9, 23], &[8, 10, 11, 21, 22]),
        4 => ("report", &[1, 5, 12, 14, 15, 16, 17], &[13, 18, 19, 20]),
        5 => ("unknown", &[1, 5], &[]),
        6 => ("reject", &[1, 5], &[13, 18, 19, 20]),
        7 => ("failed", &[1, 5, 20], &[]),
        8 => ("again", &[1, 5], &[]),
        9 => ("gateway-cancel", &[2], &[]),
        _ => return None,
    })
}

/// What is wrong with a record.
///
/// ```
/// use jubafiye::{explain_record, RecordFault};
///
/// // event 8 with a venue, and without the ClOrdID that goes again
/// let bad = explain_record(b"\x08\x02\0\0\0\x03\0").unwrap_err();
/// assert_eq!(bad.fault(), &RecordFault::Missing("downstream"));
/// assert_eq!(bad.fault().to_string(), "the field downstream is missing");
/// ```
#[derive(Debug, Clone, PartialEq, Eq)]
#[non_exhaustive]
pub enum RecordFault {
    /// It does not have the five bytes of a kind and a map.
    Short,
    /// This kind, which is none of an event.
    Kind(u8),
    /// The field of this name is missing.
    Missing(&'static str),
    /// The map has this bit, which the kind neither requires nor allows.
    NotAllowed(u32),
    /// The record ends within the field of this name.
    Cut(&'static str),
    /// So many bytes stand behind the last field.
    Over(usize),
    /// The text of this name has this length, and not one of its range.
    Length {
        /// The field.
        field: &'static str,
        /// Its length.
        length: usize,
        /// The least.
        least: usize,
        /// The most.
        most: usize,
    },
    /// An order name has another byte than a letter or digit, or is NONE.
    Name,
    /// The code of this field is not listed.
    Code {
        /// The field.
        field: &'static str,
        /// What stands there.
        code: u8,
    },
    /// The number of this field is above its largest.
    Above {
        /// The field.
        field: &'static str,
        /// What stands there, in the unit of the field.
        count: u64,
        /// The largest.
        most: u64,
    },
}

impl fmt::Display for RecordFault {
    fn fmt(&self, f: &mut fmt::Formatter<'_>) -> fmt::Result {
        match self {
            Self::Short => f.write_str("it has not the five bytes of a kind and a map"),
            Self::Kind(kind) => write!(f, "kind {kind} is none of an event, 1 to 9"),
            Self::Missing(field) => write!(f, "the field {field} is missing"),
            Self::NotAllowed(bit) => match usize::try_from(*bit).ok().filter(|bit| *bit < EVENT_BITS) {
                Some(place) => {
                    write!(f, "bit {bit} of the map, the field {}, is none of this kind", field(place).0)
                }
                None => write!(f, "bit {bit} of the map is none of an event"),
            },
            Self::Cut(field) => write!(f, "it ends within the field {field}"),
            Self::Over(bytes) => write!(f, "{bytes} bytes stand behind the last field"),
            Self::Length { field, length, least, most } => {
                write!(f, "{field} has {length} bytes, not {least} to {most}")
            }
            Self::Name => f.write_str("an order name has letters and digits alone and is not NONE"),
            Self::Code { field, code } => {
                write!(f, "{field} has the code {code} ('{}'), which is not listed", code.escape_ascii())
            }
            Self::Above { field, count, most } => write!(f, "{field} is {count}, above {most}"),
        }
    }
}

/// A record that is no event's, with the first thing that is wrong with it in the order of the questions: all that makes it not
/// read whole (3) comes before a field out of its range (4).
/// ```
/// use jubafiye::{explain_record, Event, RecordFault, Refusal};
///
/// let bad = explain_record(&Event::GatewayCancel { name: b"G 1" }.record()).unwrap_err();
/// assert_eq!((bad.fault(), bad.at(), bad.refusal()), (&RecordFault::Name, 5, Refusal::Range));
/// ```
#[derive(Debug, Clone, PartialEq, Eq)]
pub struct BadRecord {
    fault: RecordFault,
    at: usize,
}

impl BadRecord {
    /// What is wrong.
    /// [`BadRecord`] has an example.
    pub fn fault(&self) -> &RecordFault {
        &self.fault
    }

    /// The byte of the record where it is wrong.
    /// [`BadRecord`] has an example.
    pub fn at(&self) -> usize {
        self.at
    }

    /// What the book says to it: [`Refusal::Record`] or [`Refusal::Range`].
    /// [`BadRecord`] has an example.
    pub fn refusal(&self) -> Refusal {
        match self.fault {
            RecordFault::Length { .. }
            | RecordFault::Name
            | RecordFault::Code { .. }
            | RecordFault::Above { .. } => Refusal::Range,
            _ => Refusal::Record,
        }
    }
}

impl fmt::Display for BadRecord {
    fn fmt(&self, f: &mut fmt::Formatter<'_>) -> fmt::Result {
        write!(f, "{}, at byte {}: {}", self.refusal(), self.at, self.fault)
    }
}

impl error::Error for BadRecord {}

/// Which field of a record is wrong, and why; nothing is wrong exactly if a book that keeps its rules refuses the record
/// with neither 3 nor 4.
///
/// ```
/// use jubafiye::{explain_record, Event};
///
/// assert_eq!(explain_record(&Event::GatewayCancel { name: b"G1" }.record()), Ok(()));
/// let bad = explain_record(b"\x09\x04\0\0\0\x02G-").unwrap_err();
/// assert_eq!(bad.to_string(), "refused with 4: a field is out of its range, at byte 5: an order name has letters and digits alone and is not NONE");
/// ```
pub fn explain_record(record: &[u8]) -> Result<(), BadRecord> {
    Fields::read(record).map(drop)
}

impl Refusal {
    /// The refusal of a record in words. If the record itself is at fault (3 and 4), with the field: what [`explain_record`] says.
    ///
    /// ```
    /// use jubafiye::{Event, Refusal};
    ///
    /// let record = Event::GatewayCancel { name: b"" }.record();
    /// assert_eq!(
    ///     Refusal::Range.of_record(&record),
    ///     "refused with 4: a field is out of its range, at byte 5: name has 0 bytes, not 1 to 20"
    /// );
    /// assert_eq!(Refusal::InUse.of_record(&record), Refusal::InUse.to_string());
    /// ```
    pub fn of_record(self, record: &[u8]) -> String {
        match explain_record(record) {
            Err(bad) if bad.refusal() == self => bad.to_string(),
            _ => self.to_string(),
        }
    }
}

impl Error {
    /// The error of a record in words: of a refusal [`Refusal::of_record`], which names the field.
    ///
    /// ```
    /// # #[cfg(feature = "book")] {
    /// use jubafiye::{Book, Booking, Event, Qty, Side};
    ///
    /// // a booking that was not named
    /// let event = Event::Book(Booking::new(7, 3, Side::Buy, Qty::units(100), b"WHEATH27"));
    /// let why = Book::new(10_000).take(&event).unwrap_err();
    /// assert_eq!(
    ///     why.of_record(&event.record()),
    ///     "refused with 4: a field is out of its range, at byte 9: name has 0 bytes, not 1 to 20"
    /// );
    /// # }
    /// ```
    pub fn of_record(&self, record: &[u8]) -> String {
        self.refusal().map_or_else(|| self.to_string(), |refusal| refusal.of_record(record))
    }
}

/// Whether some bytes are an order name but for their number: letters and digits, not NONE.
pub(crate) fn is_order_name(name: &[u8]) -> bool {
    name.iter().all(u8::is_ascii_alphanumeric) && name != b"NONE"
}

/// The fields of a record, by their bit: where each stands and its bytes, a text without its length.
pub(crate) struct Fields<'a> {
    pub(crate) kind: u8,
    found: [Option<(usize, &'a [u8])>; EVENT_BITS],
}

impl<'a> Fields<'a> {
    /// The fields of a record that passes questions 3 and 4.
    pub(crate) fn read(record: &'a [u8]) -> Result<Self, BadRecord> {
        let fields = Self::shape(record)?;
        fields.ranges()?;
        Ok(fields)
    }

    /// The fields of a record that passes question 3.
    pub(crate) fn shape(record: &'a [u8]) -> Result<Self, BadRecord> {
        let bad = |fault, at| Err(BadRecord { fault, at });
        let Some((&[number, map @ ..], mut rest)) = record.split_first_chunk::<HEAD>() else {
            return bad(RecordFault::Short, record.len());
        };
        let map = u32::from_le_bytes(map);
        let Some((_, required, allowed)) = kind(number) else { return bad(RecordFault::Kind(number), 0) };
        let stands =
            |bit: usize| map.checked_shr(u32::try_from(bit).unwrap_or(u32::MAX)).unwrap_or(0) & 1 == 1;
        if let Some(&bit) = required.iter().find(|&&bit| !stands(bit)) {
            return bad(RecordFault::Missing(field(bit).0), 1);
        }
        if let Some(bit) =
            (0..32).find(|bit| stands(*bit) && !required.contains(bit) && !allowed.contains(bit))
        {
            return bad(RecordFault::NotAllowed(u32::try_from(bit).unwrap_or_default()), 1);
        }
        let mut fields = Self { kind: number, found: [None; EVENT_BITS] };
        for (bit, found) in fields.found.iter_mut().enumerate().filter(|(bit, _)| stands(*bit)) {
            let at = record.len().saturating_sub(rest.len());
            let (name, holds) = field(bit);
            let Some((bytes, behind)) = take(holds, rest) else { return bad(RecordFault::Cut(name), at) };
            *found = Some((at, bytes));
            rest = behind;
        }
        match rest.len() {
            0 => Ok(fields),
            over => bad(RecordFault::Over(over), record.len().saturating_sub(over)),
        }
    }

    fn ranges(&self) -> Result<(), BadRecord> {
        for (bit, found) in self.found.iter().enumerate() {
            let &Some((at, bytes)) = found else { continue };
            let (name, holds) = field(bit);
            out_of_range(name, holds, bytes).map_or(Ok(()), |fault| Err(BadRecord { fault, at }))?;
        }
        Ok(())
    }

    /// The bytes of a field, by its bit.
    pub(crate) fn get(&self, bit: usize) -> Option<&'a [u8]> {
        self.found.get(bit).copied().flatten().map(|(_, bytes)| bytes)
    }

    fn text(&self, bit: Bit) -> Option<&'a [u8]> {
        self.get(bit.place())
    }

    fn code(&self, bit: Bit) -> Option<u8> {
        self.text(bit)?.first().copied()
    }

    fn number(&self, bit: Bit) -> Option<u64> {
        self.text(bit).map(number)
    }

    fn short(&self, bit: Bit) -> Option<u16> {
        u16::try_from(self.number(bit)?).ok()
    }

    fn qty(&self, bit: Bit) -> Option<Qty> {
        self.number(bit).map(Qty)
    }

    fn price(&self, bit: Bit) -> Option<Price> {
        self.number(bit).map(|count| Price(count.into()))
    }

    /// The event of fields that are all in their ranges.
    fn event(&self) -> Option<Event<'a>> {
        let naming = || Some((self.short(Bit::VENUE)?, self.text(Bit::DOWNSTREAM)?));
        Some(match self.kind {
            1 => Event::Book(self.booking()?),
            2 => Event::Cancel(self.amend()?),
            3 => Event::Replace(self.replace()?),
            4 => Event::VenueReport(self.report()?),
            5 => naming().map(|(venue, downstream)| Event::UnknownAtVenue { venue, downstream })?,
            6 => Event::CancelReject(self.rejected()?),
            7 => {
                let ((venue, downstream), text) = (naming()?, self.text(Bit::TEXT)?);
                Event::SendFailed { venue, downstream, text }
            }
            8 => naming().map(|(venue, downstream)| Event::SendAgain { venue, downstream })?,
            _ => Event::GatewayCancel { name: self.text(Bit::NAME)? },
        })
    }

    fn booking(&self) -> Option<Booking<'a>> {
        Some(Booking {
            client: self.short(Bit::CLIENT)?,
            venue: self.short(Bit::VENUE)?,
            name: self.text(Bit::NAME)?,
            cl_ord_id: self.text(Bit::CL_ORD_ID)?,
            symbol: self.text(Bit::SYMBOL)?,
            side: Side::from_code(self.code(Bit::SIDE)?)?,
            ord_type: OrdType::from_code(self.code(Bit::ORD_TYPE)?)?,
            qty: self.qty(Bit::QTY)?,
            price: self.price(Bit::PRICE),
            time_in_force: self.code(Bit::TIME_IN_FORCE).and_then(TimeInForce::from_code),
        })
    }

    fn amend(&self) -> Option<Amend<'a>> {
        Some(Amend {
            client: self.short(Bit::CLIENT)?,
            cl_ord_id: self.text(Bit::CL_ORD_ID)?,
            orig_cl_ord_id: self.text(Bit::ORIG_CL_ORD_ID)?,
            symbol: self.text(Bit::SYMBOL)?,
            side: Side::from_code(self.code(Bit::SIDE)?)?,
            redelivered: self.text(Bit::REDELIVERED).is_some(),
        })
    }

    fn replace(&self) -> Option<Replace<'a>> {
        Some(Replace {
            amend: self.amend()?,
            qty: self.qty(Bit::QTY)?,
            verdict: RiskReject::from_number(self.code(Bit::VERDICT)?).map_or(Ok(()), Err),
            ord_type: self.code(Bit::ORD_TYPE).and_then(OrdType::from_code),
            price: self.price(Bit::PRICE),
            time_in_force: self.code(Bit::TIME_IN_FORCE).and_then(TimeInForce::from_code),
            blocked: self.text(Bit::BLOCKED).is_some(),
        })
    }

    fn report(&self) -> Option<VenueReport<'a>> {
        Some(VenueReport {
            venue: self.short(Bit::VENUE)?,
            downstream: self.text(Bit::DOWNSTREAM)?,
            exec_type: ExecType::from_code(self.code(Bit::EXEC_TYPE)?)?,
            status: self.code(Bit::ORD_STATUS).and_then(OrdStatus::from_code),
            last_qty: self.qty(Bit::LAST_QTY)?,
            last_px: self.price(Bit::LAST_PX)?,
            cum_qty: self.qty(Bit::CUM_QTY)?,
            avg_px: self.price(Bit::AVG_PX)?,
            venue_order_id: self.text(Bit::VENUE_ORDER_ID),
            reason: self.number(Bit::REASON).and_then(|reason| u32::try_from(reason).ok()),
            text: self.text(Bit::TEXT),
        })
    }

    fn rejected(&self) -> Option<RejectedRequest<'a>> {
        Some(RejectedRequest {
            venue: self.short(Bit::VENUE)?,
            downstream: self.text(Bit::DOWNSTREAM)?,
            status: self.code(Bit::ORD_STATUS).and_then(OrdStatus::from_code),
            venue_order_id: self.text(Bit::VENUE_ORDER_ID),
            reason: self.number(Bit::REASON).and_then(|reason| u32::try_from(reason).ok()),
            text: self.text(Bit::TEXT),
        })
    }
}

/// A number of at most 8 bytes.
pub(crate) fn number(bytes: &[u8]) -> u64 {
    let mut word = [0; 8];
    word.iter_mut().zip(bytes).for_each(|(to, from)| *to = *from);
    u64::from_le_bytes(word)
}

/// The bytes of a field at the front of some, a text without its length, and what stands behind it.
fn take(holds: Holds, rest: &[u8]) -> Option<(&[u8], &[u8])> {
    let (length, rest) = match holds {
        Holds::Name | Holds::Text { .. } => {
            rest.split_first().map(|(length, rest)| (usize::from(*length), rest))?
        }
        Holds::Flag => (0, rest),
        Holds::Short => (2, rest),
        Holds::Word => (4, rest),
        Holds::Qty | Holds::Price => (8, rest),
        _ => (1, rest),
    };
    rest.split_at_checked(length)
}

/// What is wrong with the value of a field.
fn out_of_range(field: &'static str, holds: Holds, bytes: &[u8]) -> Option<RecordFault> {
    let code = bytes.first().copied().unwrap_or_default();
    let listed = |listed: bool| (!listed).then_some(RecordFault::Code { field, code });
    let most = |most: u64| {
        let count = number(bytes);
        (count > most).then_some(RecordFault::Above { field, count, most })
    };
    let length = |least: usize, most: usize| {
        let length = bytes.len();
        let fits = (least..=most).contains(&length);
        (!fits).then_some(RecordFault::Length { field, length, least, most })
    };
    match holds {
        Holds::Short | Holds::Word | Holds::Flag => None,
        Holds::Name => length(1, 20).or((!is_order_name(bytes)).then_some(RecordFault::Name)),
        Holds::Text { least, most } => length(least, most),
        Holds::Side => listed(Side::from_code(code).is_some()),
        Holds::OrdType => listed(OrdType::from_code(code).is_some()),
        Holds::TimeInForce => listed(TimeInForce::from_code(code).is_some()),
        Holds::ExecType => listed(ExecType::from_code(code).is_some()),
        Holds::OrdStatus => listed(OrdStatus::from_code(code).is_some()),
        Holds::Qty => most(MAX_QTY),
        Holds::Price => most(MAX_PRICE),
        Holds::Verdict => listed(code <= 7),
    }
}

impl<'a> Event<'a> {
    /// The event of a record, with its texts in the record's bytes: the other way round of [`Event::record`].
    ///
    /// ```
    /// use jubafiye::Event;
    ///
    /// let event = Event::SendAgain { venue: 3, downstream: b"G1" };
    /// assert_eq!(Event::read(&event.record()), Ok(event));
    /// assert!(Event::read(b"no record").is_err());
    /// ```
    pub fn read(record: &'a [u8]) -> Result<Self, BadRecord> {
        let fields = Fields::read(record)?;
        fields.event().ok_or(BadRecord { fault: RecordFault::Kind(fields.kind), at: 0 })
    }
}
