//! FIX 4.4 codes as ASCII characters, in the order of the Rust's enums, and fixed text numbers.

use gateway::book::{CancelRejectReason, ExecType, OrdType, RejectReason, Side, Status, TimeInForce};
use gateway::risk::RiskReject;

pub const SIDES: &[u8] = b"125";
pub const ORD_TYPES: &[u8] = b"12";
pub const TIMES_IN_FORCE: &[u8] = b"0134";
/// Those of the Rust, then 3, done for the day, which it does not have.
pub const STATUSES: &[u8] = b"A0126E4C83";
/// Those of the Rust.
pub const RUST_STATUSES: &[u8] = b"A0126E4C8";
pub const EXEC_TYPES: &[u8] = b"A0F64E58CD3I";

const SIDE: [Side; 3] = [Side::Buy, Side::Sell, Side::SellShort];
const ORD_TYPE: [OrdType; 2] = [OrdType::Market, OrdType::Limit];
const TIME_IN_FORCE: [TimeInForce; 4] =
    [TimeInForce::Day, TimeInForce::Gtc, TimeInForce::Ioc, TimeInForce::Fok];
const STATUS: [Status; 9] = [
    Status::PendingNew,
    Status::New,
    Status::PartiallyFilled,
    Status::Filled,
    Status::PendingCancel,
    Status::PendingReplace,
    Status::Canceled,
    Status::Expired,
    Status::Rejected,
];
const EXEC_TYPE: [ExecType; 12] = [
    ExecType::PendingNew,
    ExecType::New,
    ExecType::Trade,
    ExecType::PendingCancel,
    ExecType::Canceled,
    ExecType::PendingReplace,
    ExecType::Replaced,
    ExecType::Rejected,
    ExecType::Expired,
    ExecType::Restated,
    ExecType::DoneForDay,
    ExecType::Status,
];

fn value<T: Copy>(code: u8, codes: &[u8], values: &[T]) -> T {
    let at = codes.iter().position(|&listed| listed == code).expect("question 4 asked for listed codes");
    values[at]
}

fn code<T: PartialEq>(value: T, codes: &[u8], values: &[T]) -> u8 {
    let at = values.iter().position(|listed| *listed == value).expect("every value is listed");
    codes[at]
}

pub fn side(byte: u8) -> Side {
    value(byte, SIDES, &SIDE)
}

pub fn side_code(side: Side) -> u8 {
    code(side, SIDES, &SIDE)
}

pub fn ord_type(byte: u8) -> OrdType {
    value(byte, ORD_TYPES, &ORD_TYPE)
}

pub fn ord_type_code(ord_type: OrdType) -> u8 {
    code(ord_type, ORD_TYPES, &ORD_TYPE)
}

pub fn time_in_force(byte: u8) -> TimeInForce {
    value(byte, TIMES_IN_FORCE, &TIME_IN_FORCE)
}

pub fn time_in_force_code(time_in_force: TimeInForce) -> u8 {
    code(time_in_force, TIMES_IN_FORCE, &TIME_IN_FORCE)
}

pub fn status(byte: u8) -> Status {
    value(byte, RUST_STATUSES, &STATUS)
}

pub fn status_code(status: Status) -> u8 {
    code(status, RUST_STATUSES, &STATUS)
}

pub fn exec_type(byte: u8) -> ExecType {
    value(byte, EXEC_TYPES, &EXEC_TYPE)
}

pub fn exec_type_code(exec_type: ExecType) -> u8 {
    code(exec_type, EXEC_TYPES, &EXEC_TYPE)
}

/// The verdict that an event brings: 0 passes.
pub fn verdict(number: u8) -> Option<RiskReject> {
    (number > 0).then(|| RiskReject::ALL[usize::from(number) - 1])
}

pub fn is_done(status: u8) -> bool {
    b"24C8".contains(&status)
}

/// A reason as a number and its origin: 1 ours, 2 the venue's.
pub type Reason = (u32, u8);

/// Of a report: the venue's own, or 99 for a first send that failed.
pub fn reject_reason(reason: RejectReason) -> Reason {
    match reason {
        RejectReason::Venue(reason) => (reason, 2),
        RejectReason::VenueUnavailable => (99, 1),
        reason => panic!("{reason:?} is for orders that were not booked"),
    }
}

pub fn cancel_reject_reason(reason: CancelRejectReason) -> Reason {
    match reason {
        CancelRejectReason::TooLate => (0, 1),
        CancelRejectReason::UnknownOrder => (1, 1),
        CancelRejectReason::AlreadyPending => (3, 1),
        CancelRejectReason::Duplicate => (6, 1),
        CancelRejectReason::Other => (99, 1),
        CancelRejectReason::Venue(reason) => (reason, 2),
    }
}

/// The number of a text that the Rust itself supplies.
pub fn fixed_text(text: &str) -> u8 {
    match text {
        "the gateway is cancelling the order" => 1,
        "replace pending" => 2,
        "quantity below filled quantity" => 3,
        "blocked: a replace may not raise the quantity" => 4,
        "duplicate ClOrdID" => 5,
        "unknown order" => 6,
        "order is done" => 7,
        "too many requests today" => 8,
        "side or symbol does not match" => 9,
        "rejected by the venue" => 10,
        "not sent before the gateway restarted" => 11,
        _ => {
            let verdict = RiskReject::ALL.iter().position(|reject| reject.text() == text);
            12 + verdict.unwrap_or_else(|| panic!("no fixed text {text:?}")) as u8
        }
    }
}
