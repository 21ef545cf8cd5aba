//! Judges messages by FIX 4.4 alone. Each by itself: quantities and statuses that do not go together,
//! codes and reasons that are not in its lists. And each beside what was told of its order before: ends,
//! terms, sums and ExecIDs. What the venue said, and what should have been told and was not, is not
//! asked. The Rust's answer stays; docs/DIFFERENCES.md lists each class of objection.

use std::collections::HashMap;

use model::codes::is_done;
use model::record::*;

/// A class of objection, by what FIX 4.4 says.
#[derive(Debug, Clone, Copy, PartialEq, Eq, PartialOrd, Ord, Hash)]
pub enum Objection {
    /// LeavesQty is OrderQty less CumQty, or 0 for canceled, done for the day, expired and rejected.
    Leaves,
    /// Filled is for a CumQty that is the OrderQty.
    FilledShort,
    /// PartiallyFilled is for a CumQty above 0 and below the OrderQty.
    PartiallyFilledNone,
    PartiallyFilledWhole,
    /// New and PendingNew are for a CumQty of 0.
    NewWithFills,
    /// Rejected is for an order without fills.
    RejectedWithFills,
    /// ExecType Trade goes exactly with a LastQty above 0.
    TradeWithoutFill,
    FillWithoutTrade,
    /// LastPx goes with a fill, and a fill has one above 0.
    PriceWithoutFill,
    FillWithoutPrice,
    /// AvgPx is 0 exactly without fills.
    AverageWithoutFills,
    FillsWithoutAverage,
    /// ExecType Canceled, Expired, Rejected, PendingCancel, PendingReplace, PendingNew or New
    /// comes with that OrdStatus, unless a status of higher precedence stands.
    ExecTypeAgainstStatus,
    /// OrdRejReason goes with ExecType Rejected, and is one of the list.
    ReasonWithoutReject,
    OrdRejReasonUnlisted,
    /// CxlRejReason is one of the list.
    CxlRejReasonUnlisted,
    /// Unknown order is answered with OrdStatus Rejected.
    UnknownOrderWithLiveStatus,
    /// OrderID is NONE for an unknown order, and NONE is for an unknown order alone.
    UnknownOrderWithName,
    OtherReasonWithoutName,
    /// Too late to cancel is said of an order that is done.
    TooLateWithLiveStatus,
    /// Already pending is said of an order that is PendingCancel or PendingReplace.
    AlreadyPendingWithOtherStatus,
    /// Replaced names the ClOrdID it replaced.
    ReplacedWithoutOrig,
    /// A cancel or replace is answered by its own ExecType; a fill of the order is told under the order's ClOrdID.
    TradeUnderRequest,
    /// Restated comes with an ExecRestatementReason.
    RestatedWithoutReason,
    /// An order, or a replace of one, has an OrderQty above 0.
    QtyZero,
    /// Side, OrdType, TimeInForce, ExecType and OrdStatus are of the lists.
    CodeUnlisted,
    /// That an order is Canceled, Expired or Rejected is first told by a report with that ExecType.
    EndNotToldByItsExecType,
    /// An order that was told to be done stays as it was told.
    ToldAfterEnd,
    /// ExecType New is told once, and before any fill.
    NewAgain,
    /// Other terms than those told before come with ExecType Replaced or Restated.
    TermsChangedWithoutReplaced,
    /// CumQty is what was told before and LastQty.
    CumQtyNotTheSum,
    /// An ExecID is told once.
    ExecIdAgain,
}

/// The classes that docs/DIFFERENCES.md lists.
pub const LISTED: [Objection; 24] = [
    Objection::PartiallyFilledNone,
    Objection::PartiallyFilledWhole,
    Objection::RejectedWithFills,
    Objection::TradeWithoutFill,
    Objection::PriceWithoutFill,
    Objection::FillWithoutPrice,
    Objection::AverageWithoutFills,
    Objection::FillsWithoutAverage,
    Objection::ExecTypeAgainstStatus,
    Objection::ReasonWithoutReject,
    Objection::OrdRejReasonUnlisted,
    Objection::CxlRejReasonUnlisted,
    Objection::UnknownOrderWithLiveStatus,
    Objection::UnknownOrderWithName,
    Objection::OtherReasonWithoutName,
    Objection::TooLateWithLiveStatus,
    Objection::AlreadyPendingWithOtherStatus,
    Objection::ReplacedWithoutOrig,
    Objection::TradeUnderRequest,
    Objection::RestatedWithoutReason,
    Objection::QtyZero,
    Objection::EndNotToldByItsExecType,
    Objection::NewAgain,
    Objection::TermsChangedWithoutReplaced,
];

/// FIX 4.4's values of the fields that are codes.
const CODES: [(usize, &[u8]); 5] = [
    (SIDE, b"123456789ABCDEFG"),
    (ORD_TYPE, b"12346789DEGIJKLMP"),
    (TIME_IN_FORCE, b"01234567"),
    (EXEC_TYPE, b"03456789ABCDEFGHI"),
    (ORD_STATUS, b"012346789ABCDE"),
];

const ORD_REJ_REASONS: std::ops::RangeInclusive<u64> = 0..=15;
const CXL_REJ_REASONS: [u64; 8] = [0, 1, 2, 3, 4, 5, 6, 99];

/// What was told of an order.
#[derive(Debug, Clone)]
struct Told {
    status: u8,
    cum_qty: u64,
    sequence: u64,
    terms: [u128; 4],
    /// ExecType New, or a fill.
    new: bool,
}

/// The judge of a day's messages, in the order in which they are sent.
#[derive(Debug, Clone, Default)]
pub struct Judge {
    told: HashMap<Vec<u8>, Told>,
}

impl Judge {
    /// What FIX 4.4 has against the message, by itself and beside those before it.
    pub fn hear(&mut self, message: &Record<'_>) -> Vec<Objection> {
        let mut found = objections(message);
        if !matches!(message.kind, REPORT_MESSAGE | REJECT_MESSAGE) || !message.has(NAME) {
            return found;
        }
        let told = self.told.get_mut(message.text(NAME));
        found.extend(end(told.as_deref(), message));
        if message.kind == REPORT_MESSAGE {
            found.extend(told.as_deref().map(|told| beside(told, message)).unwrap_or_default());
            self.told
                .insert(message.text(NAME).to_vec(), told_by(self.told.get(message.text(NAME)), message));
        } else if let Some(told) = told {
            told.status = message.code(ORD_STATUS);
        }
        found
    }
}

const TERMS: [usize; 4] = [QTY, PRICE, ORD_TYPE, TIME_IN_FORCE];

/// What a report leaves told of its order.
fn told_by(before: Option<&Told>, report: &Record<'_>) -> Told {
    let new = report.code(EXEC_TYPE) == b'0' || report.number(CUM_QTY) > 0;
    Told {
        status: report.code(ORD_STATUS),
        cum_qty: report.number(CUM_QTY),
        sequence: report.number(REPORT_SEQUENCE),
        terms: TERMS.map(|bit| report.wide(bit)),
        new: new || before.is_some_and(|told| told.new),
    }
}

/// An end that is told, of an order with what was told of it.
fn end(told: Option<&Told>, message: &Record<'_>) -> Vec<Objection> {
    let status = message.code(ORD_STATUS);
    let by_its_own = message.kind == REPORT_MESSAGE && message.code(EXEC_TYPE) == status;
    let first = told.is_none_or(|told| told.status != status);
    let after = told.is_some_and(|told| {
        let filled = message.kind == REPORT_MESSAGE && message.number(CUM_QTY) != told.cum_qty;
        is_done(told.status) && (status != told.status || filled)
    });
    when(&[
        (b"4C8".contains(&status) && first && !by_its_own, Objection::EndNotToldByItsExecType),
        (after, Objection::ToldAfterEnd),
    ])
}

/// A report beside what was told of its order.
fn beside(told: &Told, report: &Record<'_>) -> Vec<Objection> {
    let exec_type = report.code(EXEC_TYPE);
    let changed = TERMS.map(|bit| report.wide(bit)) != told.terms;
    when(&[
        (exec_type == b'0' && told.new, Objection::NewAgain),
        (changed && !b"5D".contains(&exec_type), Objection::TermsChangedWithoutReplaced),
        (told.cum_qty + report.number(LAST_QTY) != report.number(CUM_QTY), Objection::CumQtyNotTheSum),
        (report.number(REPORT_SEQUENCE) <= told.sequence, Objection::ExecIdAgain),
    ])
}

/// What FIX 4.4 has against the message by itself.
pub fn objections(message: &Record<'_>) -> Vec<Objection> {
    let unlisted = |(bit, codes): &(usize, &[u8])| message.has(*bit) && !codes.contains(&message.code(*bit));
    let mut objections = when(&[(CODES.iter().any(unlisted), Objection::CodeUnlisted)]);
    objections.extend(match message.kind {
        REPORT_MESSAGE => [quantities(message), fill(message), exec_type(message)].concat(),
        REJECT_MESSAGE => cancel_reject(message),
        NEW_ORDER_MESSAGE | REPLACE_MESSAGE => when(&[(message.number(QTY) == 0, Objection::QtyZero)]),
        _ => Vec::new(),
    });
    objections
}

fn when(rules: &[(bool, Objection)]) -> Vec<Objection> {
    rules.iter().filter(|(broken, _)| *broken).map(|(_, objection)| *objection).collect()
}

fn quantities(report: &Record<'_>) -> Vec<Objection> {
    let (qty, cum, leaves) = (report.number(QTY), report.number(CUM_QTY), report.number(LEAVES_QTY));
    let status = report.code(ORD_STATUS);
    let closed = b"34C8".contains(&status);
    let avg_px = report.number(AVG_PX);
    when(&[
        (leaves != if closed { 0 } else { qty - cum }, Objection::Leaves),
        (status == b'2' && cum != qty, Objection::FilledShort),
        (status == b'1' && cum == 0, Objection::PartiallyFilledNone),
        (status == b'1' && cum > 0 && cum == qty, Objection::PartiallyFilledWhole),
        (b"A0".contains(&status) && cum > 0, Objection::NewWithFills),
        (status == b'8' && cum > 0, Objection::RejectedWithFills),
        (cum == 0 && avg_px > 0, Objection::AverageWithoutFills),
        (cum > 0 && avg_px == 0, Objection::FillsWithoutAverage),
    ])
}

fn fill(report: &Record<'_>) -> Vec<Objection> {
    let (last_qty, price) = (report.number(LAST_QTY), report.wide(FILL_PRICE));
    let trade = report.code(EXEC_TYPE) == b'F';
    when(&[
        (trade && last_qty == 0, Objection::TradeWithoutFill),
        (!trade && last_qty > 0, Objection::FillWithoutTrade),
        (last_qty == 0 && price > 0, Objection::PriceWithoutFill),
        (last_qty > 0 && price == 0, Objection::FillWithoutPrice),
        (trade && report.has(ORIG_CL_ORD_ID), Objection::TradeUnderRequest),
    ])
}

/// By FIX 4.4's precedence of OrdStatus a pending cancel or replace stands over DoneForDay, and these over New.
fn exec_type(report: &Record<'_>) -> Vec<Objection> {
    let (exec_type, status) = (report.code(EXEC_TYPE), report.code(ORD_STATUS));
    let agrees = match exec_type {
        b'4' | b'C' | b'8' | b'A' => status == exec_type,
        b'0' => b"036E".contains(&status),
        b'3' => b"36E".contains(&status),
        b'6' => status == b'6',
        b'E' => b"E6".contains(&status),
        _ => true,
    };
    let reason = report.has(REASON).then(|| report.number(REASON));
    let venues = report.code(ORIGIN) == 2;
    let listed = |reason: u64| ORD_REJ_REASONS.contains(&reason) || reason == 99;
    when(&[
        (!agrees, Objection::ExecTypeAgainstStatus),
        (reason.is_some() && exec_type != b'8', Objection::ReasonWithoutReject),
        (venues && reason.is_some_and(|reason| !listed(reason)), Objection::OrdRejReasonUnlisted),
        (exec_type == b'5' && !report.has(ORIG_CL_ORD_ID), Objection::ReplacedWithoutOrig),
        // No message has one.
        (exec_type == b'D', Objection::RestatedWithoutReason),
    ])
}

fn cancel_reject(reject: &Record<'_>) -> Vec<Objection> {
    let (reason, status) = (reject.number(REASON), reject.code(ORD_STATUS));
    when(&[
        (!CXL_REJ_REASONS.contains(&reason), Objection::CxlRejReasonUnlisted),
        (reason == 1 && status != b'8', Objection::UnknownOrderWithLiveStatus),
        (reason == 1 && reject.has(NAME), Objection::UnknownOrderWithName),
        (reason != 1 && !reject.has(NAME), Objection::OtherReasonWithoutName),
        (reason == 0 && !is_done(status), Objection::TooLateWithLiveStatus),
        (reason == 3 && !b"6E".contains(&status), Objection::AlreadyPendingWithOtherStatus),
    ])
}
