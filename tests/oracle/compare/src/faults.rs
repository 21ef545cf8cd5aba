//! Faults that can be planted in the stand-in, each of which the comparison must find:
//! docs/SCOPE.md, Wrong answers, and some of their kin.

use gateway::Decimal;
use gateway::book::oracle::client;
use gateway::book::{Order, Status};
use model::Machine;
use model::answer::{HEAD, alarms, bytes, client_number, latin1, messages, of_messages};
use model::codes::{is_done, side_code, status_code};
use model::done_for_day::{self, CODE, status_of};
use model::machine::{ANSWER_BYTES, BOOK_BYTES, MOST_REQUESTS};
use model::numbers::{Fill, Source, qty_count};
use model::record::*;
use model::short;

use crate::chaining::{self, ChainFault};
use crate::entries::Needs;
use crate::layout::{self, Book, Header};
use crate::marking::MarkFault;
use crate::net::{self, Pair};
use crate::page::LINE;
use crate::retiring::RetireFault;
use crate::running::ManyFault;
use crate::stand_in::names;

#[derive(Debug, Clone, Copy, PartialEq, Eq)]
pub enum Fault {
    /// The venue's LastQty is added instead of the rise.
    AddsLastQty,
    /// The first event is done in earnest, later ones are acknowledged only.
    AcknowledgesLater,
    /// 7 is said one request early.
    SevenEarly,
    /// Tries are set to a likely number.
    LikelyTries,
    /// A refused event keeps what it changed.
    RefusedTakes,
    /// A refused event writes to the book's bytes.
    RefusedWritesBook,
    /// A refused event writes to the answer buffer.
    RefusedWritesAnswer,
    /// A byte past the answer's length is changed.
    WritesPastTheAnswer,
    /// A waiting gateway cancel resumes only after its own venue's reject.
    ResumesForOwnVenue,
    /// Overfill is judged by the old quantity when a replace is accepted.
    OverfillByOldQuantity,
    /// The venue's OrderID is lost, which only a later cancel shows.
    LosesVenueOrderId,
    /// The report sequence stands still.
    SequenceStands,
    /// A replace's time in force is not kept while it is pending.
    LosesPendingTimeInForce,
    /// The link to the current request stays where it was.
    StaleCurrentLink,
    /// The link to the latest cancel stays where it was.
    StaleCancelLink,
    /// A pending replace stays when it is answered.
    StalePending,
    /// A gateway cancel that is sent has the byte of one that is stuck.
    WrongStage,
    /// A gateway cancel names the book's first request as what it cancels.
    WrongOrigDownstream,
    /// Refused sends are not counted.
    RefusedSendsStand,
    /// An answered request is not marked.
    AnsweredNotSet,
    /// A request keeps its own ClOrdID for the one that it amends.
    OwnOrigClOrdId,
    /// The average stays what it was.
    OldAverage,
    /// The last two requests stand in the wrong order.
    RequestsSwapped,
    /// An event moves the report sequence of the first order, whichever it names.
    OtherOrderTouched,
    /// The report sequence is counted over all orders.
    SequenceOfAll,
    /// The last event's kind is written behind the words.
    LastKindWritten,
    /// The setting counts down.
    SettingLost,
    /// A spare byte of an order is written.
    SpareWritten,
    /// A byte of a request record that is not in use is written.
    NextRecordWritten,
    /// A byte behind both tables and the open quantities is written.
    UnusedWritten,
    /// The word of an order that is not its client's first is written.
    OtherWordWritten,
    /// A byte of the header behind the setting is written.
    HeaderWritten,
    /// A symbol has a byte behind its end.
    TextNotFilled,
    /// A price's source is told by which price it equals, LastPx before the average.
    SourceByPrice,
    /// A price's source is 0 if nothing was filled.
    NoSourceWithoutRise,
    /// A report that answers no venue's has the average for its price's source.
    SourceWithoutReport,
    /// A cancel reject has a price's source.
    SourceInReject,
    /// A price exactly half way goes to the even digit, as the Rust's does.
    HalfToEven,
    /// An implied price is truncated.
    Truncated,
    /// An implied price that is no half goes up too.
    AllUp,
    /// Of two alarms, 1 stands before 6.
    OneBeforeSix,
    /// New is put for a short Filled before the questions are asked.
    ShortBeforeQuestions,
    /// A short Filled ends pending terms and the gateway's cancel.
    ShortEndsPending,
    /// A refusal's Filled is judged by the CumQty of its report.
    ShortByItsReport,
    /// A 3 is no status.
    ThreeUnlisted,
    /// An order that is 3 is done: a cancel or replace is refused for it.
    ThreeIsDone,
    /// An order that is 3 leaves ordered less cumulative.
    ThreeLeaves,
    /// The open quantity counts what is left of an order that is 3.
    ThreeOpen,
    /// A 3 is equal to New: either repeats the other.
    ThreeIsNew,
    /// A 3 is taken for none of the statuses that can be behind.
    ThreeIsNeverBehind,
    /// A fill without a status takes the 3 away.
    FillEndsThree,
    /// A 3 accepts no replace.
    ThreeAcceptsNothing,
    /// A refusal leaves a 3 out.
    ThreeNotInRefusals,
    /// A cancel reject leaves a 3 out if the order is filled whole.
    ThreeNotAtWhole,
    /// A refusal without a status takes the 3 away.
    RefusalEndsThree,
    /// The page's last digit of a quantity is one higher.
    PageDigitOff,
    /// The page's leaves of a done order are ordered less cumulative.
    PageLeavesOfDone,
    /// The page has the last booked order first.
    PageReversed,
    /// The page is refused with 8 if its buffer is exactly long enough.
    EightAtJustEnough,
    /// A byte behind the page is changed.
    PagePastItsEnd,
    /// The open quantity adds up what was filled.
    OpenOfCumulative,
    /// The open quantity counts the rest of done orders.
    OpenOfDone,
    /// The open quantity goes by pending terms.
    OpenOfPending,
    /// The open quantity counts every client's orders.
    OpenOfOthers,
    /// A booking writes the open quantity of a client's first order alone.
    OpenWithoutBooking,
    /// A refusal's status leaves the open quantity as it was.
    OpenWithoutRefusal,
    /// The open quantity stands at the client's last order.
    OpenAtLast,
    /// A client is told by the low byte of its number.
    OpenByLowByte,
    /// A quantity stands beside a refusal.
    OpenBesideRefusal,
    /// Short sales are netted as purchases.
    NetShortBought,
    /// Done orders are left out of the net.
    NetWithoutDone,
    /// What was ordered is netted.
    NetOfOrdered,
    /// The net has no sign.
    NetUnsigned,
    /// Pairs whose net is 0 have no line.
    NetWithoutZero,
    /// Pairs stand by their last booking.
    NetByLastBooking,
    /// Orders of a symbol are one pair, whatever their client.
    NetOfAllClients,
    /// Orders of a client are one pair, whatever their symbol.
    NetOfAllSymbols,
    /// Symbols that differ only in zeros at their end are one.
    NetTrimmedSymbols,
    /// The net's bytes are turned round.
    NetTurnedRound,
    /// The lines that are not used are cleared.
    NetPastItsEnd,
    /// The scratch is written with a refusal.
    NetScratchRefused,
    /// A number stands beside a refusal.
    NetBesideRefusal,
    /// 11 is said if scratch and output are exactly large enough.
    ElevenAtJustEnough,
    /// 11 goes by what is to be written.
    ElevenByNeed,
    /// 11 is asked before question 1.
    ElevenBeforeOne,
    /// An answer's length is that of its messages.
    NeedsWithoutHead,
    /// The head's length stands beside a refusal.
    NeedsHeadRefused,
    /// The request that finds no room is counted beside 7.
    NeedsRequestWithSeven,
    /// The second message has the first one's fields.
    NeedsFirstForBoth,
    /// The fields of both messages stand at the first.
    NeedsFieldsAdded,
    /// A report's price source is no field.
    NeedsWithoutSource,
    /// Bookings, cancels, replaces and the gateway's cancels add a request, other events none.
    NeedsRequestByKind,
    /// Each message to a venue is a request added.
    NeedsRequestBySending,
    /// An alarm is a message.
    NeedsAlarmCounted,
    /// What an event needs is found by taking it.
    NeedsTakes,
    /// Question 3 is asked before question 1.
    NeedsThreeBeforeOne,
    /// Question 2 is asked before question 1.
    TwoBeforeOne,
    /// Question 4 is asked before question 3, of records that are a byte too long.
    FourBeforeThree,
    /// A longer book is taken for the one that it starts with.
    TakesLongerBooks,
    /// Question 1 leaves a rule of keeps.rs out.
    RuleLeftOut(usize),
    /// A fault in setting a mark or returning to it.
    Mark(MarkFault),
    /// A fault in many events in one call.
    Many(ManyFault),
    /// A fault in a retirement.
    Retire(RetireFault),
    /// A fault in what requests come to, or in their chains.
    Chain(ChainFault),
}

impl Fault {
    /// Faults that the comparison finds.
    pub const COMPARED: [Self; 96] = [
        Self::AddsLastQty,
        Self::AcknowledgesLater,
        Self::SevenEarly,
        Self::LikelyTries,
        Self::RefusedTakes,
        Self::RefusedWritesBook,
        Self::RefusedWritesAnswer,
        Self::WritesPastTheAnswer,
        Self::ResumesForOwnVenue,
        Self::OverfillByOldQuantity,
        Self::LosesVenueOrderId,
        Self::SequenceStands,
        Self::LosesPendingTimeInForce,
        Self::StaleCurrentLink,
        Self::StaleCancelLink,
        Self::StalePending,
        Self::WrongStage,
        Self::WrongOrigDownstream,
        Self::RefusedSendsStand,
        Self::AnsweredNotSet,
        Self::OwnOrigClOrdId,
        Self::OldAverage,
        Self::RequestsSwapped,
        Self::OtherOrderTouched,
        Self::SequenceOfAll,
        Self::LastKindWritten,
        Self::SettingLost,
        Self::SpareWritten,
        Self::NextRecordWritten,
        Self::UnusedWritten,
        Self::OtherWordWritten,
        Self::HeaderWritten,
        Self::TextNotFilled,
        Self::SourceByPrice,
        Self::NoSourceWithoutRise,
        Self::SourceWithoutReport,
        Self::SourceInReject,
        Self::HalfToEven,
        Self::Truncated,
        Self::AllUp,
        Self::OneBeforeSix,
        Self::ShortBeforeQuestions,
        Self::ShortEndsPending,
        Self::ShortByItsReport,
        Self::ThreeUnlisted,
        Self::ThreeIsDone,
        Self::ThreeLeaves,
        Self::ThreeOpen,
        Self::ThreeIsNew,
        Self::ThreeIsNeverBehind,
        Self::FillEndsThree,
        Self::ThreeAcceptsNothing,
        Self::ThreeNotInRefusals,
        Self::ThreeNotAtWhole,
        Self::RefusalEndsThree,
        Self::PageDigitOff,
        Self::PageLeavesOfDone,
        Self::PageReversed,
        Self::EightAtJustEnough,
        Self::PagePastItsEnd,
        Self::OpenOfCumulative,
        Self::OpenOfDone,
        Self::OpenOfPending,
        Self::OpenOfOthers,
        Self::OpenWithoutBooking,
        Self::OpenWithoutRefusal,
        Self::OpenAtLast,
        Self::OpenByLowByte,
        Self::OpenBesideRefusal,
        Self::NetShortBought,
        Self::NetWithoutDone,
        Self::NetOfOrdered,
        Self::NetUnsigned,
        Self::NetWithoutZero,
        Self::NetByLastBooking,
        Self::NetOfAllClients,
        Self::NetOfAllSymbols,
        Self::NetTrimmedSymbols,
        Self::NetTurnedRound,
        Self::NetPastItsEnd,
        Self::NetScratchRefused,
        Self::NetBesideRefusal,
        Self::ElevenAtJustEnough,
        Self::ElevenByNeed,
        Self::ElevenBeforeOne,
        Self::NeedsWithoutHead,
        Self::NeedsHeadRefused,
        Self::NeedsRequestWithSeven,
        Self::NeedsFirstForBoth,
        Self::NeedsFieldsAdded,
        Self::NeedsWithoutSource,
        Self::NeedsRequestByKind,
        Self::NeedsRequestBySending,
        Self::NeedsAlarmCounted,
        Self::NeedsTakes,
        Self::NeedsThreeBeforeOne,
    ];

    /// Faults that pairs of events find, both ways round.
    pub const EXCHANGED: [Self; 3] = [Self::OtherOrderTouched, Self::SequenceOfAll, Self::LastKindWritten];

    /// Faults that calls with bad input find.
    pub const BAD_INPUT: [Self; 6] = [
        Self::TwoBeforeOne,
        Self::FourBeforeThree,
        Self::TakesLongerBooks,
        Self::RefusedWritesBook,
        Self::RefusedWritesAnswer,
        Self::WritesPastTheAnswer,
    ];
}

const EMPTY_ANSWER: [u8; 5] = [5, 0, 0, 0, 0];
const OVERFILL_ANSWER: [u8; 5] = [5, 0, 0, 2, 0];

/// The event as the machine with that fault takes it.
pub fn event(fault: Fault, machine: &mut Machine, record: &[u8], buffer: usize) -> Result<Vec<u8>, u32> {
    let before = machine.clone();
    let outcome = machine.event(record, buffer);
    if fault == Fault::FourBeforeThree && outcome == Err(3) {
        return early_four(record);
    }
    let Some(read) = Record::read_event(record).filter(Record::in_range) else { return outcome };
    let order = named_order(&before, &read);
    match fault {
        Fault::AddsLastQty if outcome.is_ok() && read.kind == VENUE_REPORT => {
            *machine = before.clone();
            let added = order.map_or(0, |order| qty_count(order.cum_qty)) + read.number(LAST_QTY);
            machine.event(&with_cum_qty(record, added), buffer)
        }
        Fault::AcknowledgesLater if outcome.is_ok() && !before.book().order_table().is_empty() => {
            *machine = before;
            Ok(EMPTY_ANSWER.to_vec())
        }
        Fault::SevenEarly if machine.book().request_table().len() == MOST_REQUESTS => {
            let adds = before.book().request_table().len() < MOST_REQUESTS;
            *machine = before;
            if adds { Err(7) } else { machine.event(record, buffer) }
        }
        Fault::RefusedTakes if outcome.is_err() => {
            bump_sequence(machine);
            outcome
        }
        Fault::ResumesForOwnVenue if elsewhere(order, &read) && outcome.is_ok() => {
            *machine = before;
            Ok(EMPTY_ANSWER.to_vec())
        }
        Fault::OverfillByOldQuantity if outcome.is_ok() && over_old_quantity(order, &read) => {
            *machine = before;
            Ok(OVERFILL_ANSWER.to_vec())
        }
        Fault::OneBeforeSix
        | Fault::ShortBeforeQuestions
        | Fault::ShortEndsPending
        | Fault::ShortByItsReport
            if outcome.as_ref().is_ok_and(|answer| alarms(answer)[0] == short::ALARM) =>
        {
            let name = bytes(&order.expect("a Filled is under a request").name);
            filled_short(fault, machine, before, (&name, &read), outcome, buffer)
        }
        Fault::ThreeUnlisted if read.code(ORD_STATUS) == CODE => {
            *machine = before;
            Err(4)
        }
        Fault::ThreeIsDone
        | Fault::ThreeLeaves
        | Fault::ThreeIsNew
        | Fault::ThreeIsNeverBehind
        | Fault::FillEndsThree
        | Fault::ThreeAcceptsNothing
        | Fault::ThreeNotInRefusals
        | Fault::ThreeNotAtWhole
        | Fault::RefusalEndsThree
            if outcome.is_ok() =>
        {
            three(fault, machine, before, &read, outcome, buffer)
        }
        Fault::SourceByPrice
        | Fault::NoSourceWithoutRise
        | Fault::SourceWithoutReport
        | Fault::SourceInReject => outcome.map(|answer| other_source(fault, &read, &answer)),
        Fault::HalfToEven | Fault::Truncated | Fault::AllUp => match before.fill(&read) {
            Some(fill) => outcome.map(|answer| other_price(fault, &fill, &answer)),
            None => outcome,
        },
        _ => {
            spoil(fault, machine);
            outcome
        }
    }
}

/// What a fault makes of a short Filled on the order of that name.
fn filled_short(
    fault: Fault,
    machine: &mut Machine,
    before: Machine,
    (name, event): (&[u8], &Record<'_>),
    outcome: Result<Vec<u8>, u32>,
    buffer: usize,
) -> Result<Vec<u8>, u32> {
    let mut answer = outcome?;
    let [alarm, alarm2] = alarms(&answer);
    let order = machine.order_mut(name).expect("a booked order");
    match fault {
        Fault::OneBeforeSix if alarm2 > 0 => answer[3..5].copy_from_slice(&[alarm2, alarm]),
        Fault::ShortBeforeQuestions => {
            *machine = before;
            answer = machine.event(&Draft::of(event).number(ORD_STATUS, b'0').bytes(), buffer)?;
            answer[3..5].copy_from_slice(&[alarm, alarm2]);
        }
        Fault::ShortEndsPending => (order.pending, order.gateway_cancel) = (None, None),
        Fault::ShortByItsReport if event.number(CUM_QTY) >= qty_count(order.request.qty) => {
            order.status = Status::Filled;
            (order.pending, order.gateway_cancel) = (None, None);
        }
        _ => {}
    }
    Ok(answer)
}

/// What a fault makes of a 3 that an event brings, or that its order has.
fn three(
    fault: Fault,
    machine: &mut Machine,
    before: Machine,
    event: &Record<'_>,
    outcome: Result<Vec<u8>, u32>,
    buffer: usize,
) -> Result<Vec<u8>, u32> {
    if fault == Fault::ThreeLeaves {
        return outcome.map(|answer| leaving(&answer));
    }
    let Some(order) = amended_or_named(&before, event).cloned() else { return outcome };
    let (was, name) = (status_of(&order), bytes(&order.name));
    let ended = was == CODE && !event.has(ORD_STATUS);
    if fault == Fault::ThreeIsDone && was == CODE && [CANCEL, REPLACE].contains(&event.kind) {
        *machine = before;
        machine.order_mut(&name).expect("a booked order").status = Status::Canceled;
        let outcome = machine.event(&Draft::of(event).bytes(), buffer);
        machine.order_mut(&name).expect("a booked order").status = order.status;
        return outcome;
    }
    if [Fault::FillEndsThree, Fault::RefusalEndsThree].contains(&fault) && ended {
        let after = machine.order_mut(&name).expect("a booked order");
        let fill = event.kind == VENUE_REPORT && after.cum_qty > order.cum_qty;
        if fill == (fault == Fault::FillEndsThree) && (fill || event.kind == CANCEL_REJECT) {
            done_for_day::mark(after, false);
        }
        return outcome;
    }
    let Some(instead) = taken_for_three(fault, &order, event) else { return outcome };
    *machine = before;
    let outcome = machine.event(&instead, buffer);
    if fault == Fault::ThreeIsNeverBehind {
        let order = machine.order_mut(&name).expect("a booked order");
        done_for_day::mark(order, true);
        order.status = done_for_day::taken_as(order.cum_qty);
    }
    outcome
}

/// The event that a fault takes in place of one with a 3, or of one on an order that is 3.
fn taken_for_three(fault: Fault, order: &Order, event: &Record<'_>) -> Option<Vec<u8>> {
    let (was, named) = (status_of(order), latin1(event.text(DOWNSTREAM)));
    let status = event.maybe(ORD_STATUS, |event| event.code(ORD_STATUS))?;
    let here = order.pending.as_ref().is_some_and(|new| new.downstream == named);
    let refuses = event.kind == CANCEL_REJECT || event.code(EXEC_TYPE) == b'8';
    let whole = order.cum_qty == order.request.qty;
    let repeats = event.kind == VENUE_REPORT
        && named == order.downstream
        && event.number(CUM_QTY) == qty_count(order.cum_qty)
        && event.number(LAST_QTY) == 0
        && !b"D53".contains(&event.code(EXEC_TYPE));
    let other = |status: u8| Some(Draft::of(event).number(ORD_STATUS, status).bytes());
    match (fault, status) {
        (Fault::ThreeIsNew, CODE) if was == b'0' && repeats => other(b'0'),
        (Fault::ThreeIsNew, b'0') if was == CODE && repeats => other(CODE),
        (Fault::ThreeIsNeverBehind, CODE) if b"6E".contains(&was) && !here && !refuses => {
            other(if was == b'6' { b'E' } else { b'6' })
        }
        (Fault::ThreeAcceptsNothing, CODE) if here && !refuses => other(b'E'),
        (Fault::ThreeNotInRefusals, CODE) if refuses => Some(Draft::of(event).without(ORD_STATUS).bytes()),
        (Fault::ThreeNotAtWhole, CODE) if event.kind == CANCEL_REJECT && whole => {
            Some(Draft::of(event).without(ORD_STATUS).bytes())
        }
        _ => None,
    }
}

/// The answer with ordered less cumulative for the leaves of a 3.
fn leaving(answer: &[u8]) -> Vec<u8> {
    let other = |message: &Record<'_>| match (message.kind, message.code(ORD_STATUS)) {
        (REPORT_MESSAGE, CODE) => {
            Draft::of(message).number(LEAVES_QTY, message.number(QTY) - message.number(CUM_QTY))
        }
        _ => Draft::of(message),
    };
    let messages: Vec<Draft> = messages(answer).iter().map(other).collect();
    of_messages(&messages, alarms(answer))
}

/// The order that a client's event amends, or whose request a venue's event names.
fn amended_or_named<'a>(machine: &'a Machine, event: &Record<'_>) -> Option<&'a Order> {
    if ![CANCEL, REPLACE].contains(&event.kind) {
        return named_order(machine, event);
    }
    let client = client(event.number(CLIENT) as u16);
    let id = machine.book().order_by_cl_ord_id(&client, &latin1(event.text(ORIG_CL_ORD_ID)))?;
    machine.book().order(id)
}

/// The answer with the sources of its prices as the fault has them.
fn other_source(fault: Fault, event: &Record<'_>, answer: &[u8]) -> Vec<u8> {
    let other = |message: Record<'_>| {
        let draft = Draft::of(&message);
        let source = match (fault, message.kind, message.code(PRICE_SOURCE)) {
            (Fault::SourceByPrice, REPORT_MESSAGE, 1..) => by_price(event, message.wide(FILL_PRICE)) as u8,
            (Fault::NoSourceWithoutRise, REPORT_MESSAGE, _) if message.number(LAST_QTY) == 0 => 0,
            (Fault::SourceWithoutReport, REPORT_MESSAGE, 0) => Source::Average as u8,
            (Fault::SourceInReject, REJECT_MESSAGE, _) => 0,
            _ => return draft,
        };
        draft.number(PRICE_SOURCE, source)
    };
    let messages: Vec<Draft> = messages(answer).into_iter().map(other).collect();
    of_messages(&messages, alarms(answer))
}

/// The answer with the implied prices rounded as the fault has it.
fn other_price(fault: Fault, fill: &Fill, answer: &[u8]) -> Vec<u8> {
    let Some((paid, rise)) = fill.fraction().filter(|_| fill.source() != Source::LastPx) else {
        return answer.to_vec();
    };
    let (whole, twice) = (paid / rise, paid % rise * 2);
    let quotient = match fault {
        Fault::HalfToEven => whole + u128::from(twice > rise || twice == rise && whole % 2 == 1),
        Fault::Truncated => whole,
        _ => paid.div_ceil(rise),
    };
    let (price, source) = match quotient {
        0 => (fill.avg_px.into(), Source::Average),
        quotient => (quotient, Source::Quotient),
    };
    let other = |message: Record<'_>| match message.kind {
        REPORT_MESSAGE => Draft::of(&message).number(FILL_PRICE, price).number(PRICE_SOURCE, source as u8),
        _ => Draft::of(&message),
    };
    let messages: Vec<Draft> = messages(answer).into_iter().map(other).collect();
    of_messages(&messages, alarms(answer))
}

fn by_price(report: &Record<'_>, price: u128) -> Source {
    match price {
        price if price > 0 && price == report.wide(LAST_PX) => Source::LastPx,
        price if price == report.wide(AVG_PX) => Source::Average,
        _ => Source::Quotient,
    }
}

/// The answer to a record that does not read: 4 if all but its last byte would be out of range.
fn early_four(record: &[u8]) -> Result<Vec<u8>, u32> {
    let short = record.split_last().and_then(|(_, short)| Record::read_event(short));
    if short.is_some_and(|read| !read.in_range()) { Err(4) } else { Err(3) }
}

/// The order whose request a venue's event names.
fn named_order<'a>(machine: &'a Machine, record: &Record<'_>) -> Option<&'a Order> {
    let sent = machine.book().sent(&latin1(record.text(DOWNSTREAM)))?;
    machine.book().order(sent.order)
}

/// A cancel reject that comes from another venue than the order's.
fn elsewhere(order: Option<&Order>, record: &Record<'_>) -> bool {
    let venue = record.number(VENUE).to_string();
    record.kind == CANCEL_REJECT && order.is_some_and(|order| order.venue.as_str() != venue)
}

fn over_old_quantity(order: Option<&Order>, record: &Record<'_>) -> bool {
    let downstream = latin1(record.text(DOWNSTREAM));
    record.kind == VENUE_REPORT
        && order.is_some_and(|order| {
            let accepts = order.pending.as_ref().is_some_and(|pending| pending.downstream == downstream);
            accepts && record.number(CUM_QTY) > qty_count(order.request.qty)
        })
}

/// `record`, a venue report, with another CumQty.
fn with_cum_qty(record: &[u8], cum_qty: u64) -> Vec<u8> {
    let read = Record::read_event(record).expect("a venue report");
    // CumQty stands after the head, the fields below its bit, and before AvgPx.
    let before = record.len() - tail_length(&read) - 16;
    let mut bytes = record.to_vec();
    bytes[before..before + 8].copy_from_slice(&cum_qty.to_le_bytes());
    bytes
}

/// The bytes of the fields after AvgPx.
fn tail_length(record: &Record<'_>) -> usize {
    let text = |bit: usize| if record.has(bit) { 1 + record.text(bit).len() } else { 0 };
    text(VENUE_ORDER_ID) + text(TEXT) + if record.has(REASON) { 4 } else { 0 }
}

fn bump_sequence(machine: &mut Machine) {
    for name in names(machine) {
        machine.order_mut(&name).expect("a booked order").exec_seq += 1;
    }
}

/// Faults that alter what stands in the book after an event.
fn spoil(fault: Fault, machine: &mut Machine) {
    for name in names(machine) {
        let order = machine.order_mut(&name).expect("a booked order");
        match fault {
            Fault::LikelyTries => {
                if let Some(gateway) = order.gateway_cancel.as_mut().filter(|gateway| !gateway.unsent) {
                    gateway.tries = 1;
                }
            }
            Fault::LosesVenueOrderId => order.venue_order_id = None,
            Fault::SequenceStands => order.exec_seq = order.exec_seq.min(1),
            Fault::LosesPendingTimeInForce => {
                if let Some(pending) = &mut order.pending {
                    pending.time_in_force = None;
                }
            }
            _ => {}
        }
    }
}

/// Faults in how the fields of the book after an event are written.
pub fn write(fault: Fault, record: &[u8], before: &Book, after: &mut Book) {
    write_opens(fault, record, before, after);
    if let Fault::Chain(fault) = fault {
        chaining::write(fault, record, before, after);
    }
    for (was, order) in before.orders.iter().zip(&mut after.orders) {
        write_order(fault, was, order);
    }
    for (was, request) in before.requests.iter().zip(&mut after.requests) {
        if fault == Fault::AnsweredNotSet {
            request.answered = was.answered;
        }
    }
    match (fault, &mut after.requests[..]) {
        (Fault::SettingLost, _) => after.header.setting = after.header.setting.saturating_sub(1),
        (Fault::RequestsSwapped, [.., one, other]) => std::mem::swap(one, other),
        (Fault::OwnOrigClOrdId, [.., last]) if last.orig_cl_ord_id.length > 0 => {
            last.orig_cl_ord_id = last.cl_ord_id;
        }
        _ => {}
    }
    if let (Fault::OtherOrderTouched, Some(first)) = (fault, after.orders.first_mut()) {
        first.exec_seq += 1;
    }
    if fault == Fault::SequenceOfAll {
        let told = before.orders.iter().map(|order| order.exec_seq).max().unwrap_or(0);
        let moved = |(was, order): &(&layout::Order, &mut layout::Order)| was.exec_seq != order.exec_seq;
        let orders = before.orders.iter().zip(&mut after.orders);
        orders.filter(moved).for_each(|(_, order)| order.exec_seq = told.wrapping_add(1));
    }
}

/// Faults in the open quantities.
fn write_opens(fault: Fault, record: &[u8], before: &Book, after: &mut Book) {
    let kept = match fault {
        Fault::OpenWithoutBooking => BOOK,
        Fault::OpenWithoutRefusal => CANCEL_REJECT,
        _ => return add_opens(fault, after),
    };
    if record.first() == Some(&kept) {
        after.opens[..before.opens.len()].copy_from_slice(&before.opens);
    }
}

/// The open quantities as the fault adds them up.
fn add_opens(fault: Fault, after: &mut Book) {
    let part: fn(&layout::Order) -> u64 = match fault {
        Fault::OpenOfCumulative => |order| order.cum_qty,
        Fault::OpenOfDone => |order| order.qty - order.cum_qty,
        Fault::OpenOfPending => |order| match (is_done(order.status as u8), order.pending) {
            (true, _) => 0,
            (_, 0) => order.qty - order.cum_qty,
            _ => order.pending_qty.saturating_sub(order.cum_qty),
        },
        Fault::OpenOfOthers | Fault::ThreeOpen => {
            |order| if is_done(order.status as u8) { 0 } else { order.qty - order.cum_qty }
        }
        _ => return,
    };
    for (open, first) in after.opens.iter_mut().zip(&after.orders) {
        let counted = |order: &&layout::Order| fault == Fault::OpenOfOthers || order.client == first.client;
        *open = open.map(|_| after.orders.iter().filter(counted).map(part).sum());
    }
}

/// Faults that alter the printed page.
pub fn page(fault: Option<Fault>, machine: &Machine, mut page: Vec<u8>) -> Vec<u8> {
    let mut lines: Vec<&mut [u8]> = page.chunks_mut(LINE).collect();
    match fault {
        Some(Fault::PageDigitOff) => {
            lines.iter_mut().for_each(|line| line[50] = if line[50] == b'9' { b'0' } else { line[50] + 1 });
        }
        Some(Fault::PageLeavesOfDone) => {
            for (line, name) in lines.iter_mut().zip(names(machine)) {
                let mut machine = machine.clone();
                let order = machine.order_mut(&name).expect("a booked order");
                let leaves = format!("{:>14.4}", order.request.qty - order.cum_qty);
                line[65..79].copy_from_slice(leaves.as_bytes());
            }
        }
        Some(Fault::PageReversed) => {
            lines.reverse();
            return lines.concat();
        }
        _ => {}
    }
    page
}

/// The nets as the fault has them.
pub fn nets(fault: Option<Fault>, machine: &Machine) -> Vec<(Pair, i64)> {
    let mut orders: Vec<&Order> = machine.book().order_table().values().collect();
    orders.sort_by_key(|order| order.id.0);
    if fault == Some(Fault::NetByLastBooking) {
        orders.reverse();
    }
    let nets = net::added(orders.iter().map(|order| (taken_for(fault, order, &orders), part(fault, order))));
    match fault {
        Some(Fault::NetByLastBooking) => nets.into_iter().rev().collect(),
        Some(Fault::NetWithoutZero) => nets.into_iter().filter(|(_, net)| *net != 0).collect(),
        Some(Fault::NetUnsigned) => nets.into_iter().map(|(pair, net)| (pair, net.abs())).collect(),
        _ => nets,
    }
}

/// The pair of the first order that this one is taken to share its pair with.
fn taken_for(fault: Option<Fault>, order: &Order, orders: &[&Order]) -> Pair {
    let pair = |order: &Order| (client_number(&order.client), bytes(&order.request.symbol));
    let trimmed =
        |symbol: &[u8]| symbol.iter().rposition(|&byte| byte != 0).map(|last| symbol[..=last].to_vec());
    let (client, symbol) = pair(order);
    let same = |other: &Pair| match fault {
        Some(Fault::NetOfAllClients) => other.1 == symbol,
        Some(Fault::NetOfAllSymbols) => other.0 == client,
        Some(Fault::NetTrimmedSymbols) => other.0 == client && trimmed(&other.1) == trimmed(&symbol),
        _ => other.0 == client && other.1 == symbol,
    };
    orders.iter().map(|order| pair(order)).find(same).expect("the order itself")
}

/// What an order adds to its net.
fn part(fault: Option<Fault>, order: &Order) -> i64 {
    let qty = match fault {
        Some(Fault::NetOfOrdered) => order.request.qty,
        Some(Fault::NetWithoutDone) if is_done(status_code(order.status)) => Decimal::ZERO,
        _ => order.cum_qty,
    };
    let side = match (fault, side_code(order.request.side)) {
        (Some(Fault::NetShortBought), b'5') => b'1',
        (_, side) => side,
    };
    net::signed(side, qty_count(qty))
}

/// The lines as the fault writes them.
pub fn lines(fault: Option<Fault>, mut lines: Vec<u8>) -> Vec<u8> {
    if fault == Some(Fault::NetTurnedRound) {
        lines.chunks_mut(net::LINE).for_each(|line| line[19..].reverse());
    }
    lines
}

/// What an event needs as the fault counts it; the answer is empty if the event is refused.
pub fn needs(fault: Option<Fault>, record: &[u8], answer: &[u8], right: Needs) -> Needs {
    let messages = if answer.is_empty() { Vec::new() } else { messages(answer) };
    let taken = u32::from(right.refusal == 0);
    let kind = record.first().copied().unwrap_or(0);
    let mut given = right;
    match fault {
        Some(Fault::NeedsWithoutHead) => given.length -= taken * HEAD as u32,
        Some(Fault::NeedsHeadRefused) => given.length = given.length.max(HEAD as u32),
        Some(Fault::NeedsRequestWithSeven) => given.requests += u32::from(right.refusal == 7),
        Some(Fault::NeedsFirstForBoth) if messages.len() == 2 => given.fields_second = right.fields_first,
        Some(Fault::NeedsFieldsAdded) => {
            (given.fields_first, given.fields_second) = (right.fields_first + right.fields_second, 0);
        }
        Some(Fault::NeedsWithoutSource) if messages.first().is_some_and(|first| first.has(PRICE_SOURCE)) => {
            given.fields_first -= 1;
        }
        Some(Fault::NeedsRequestByKind) => {
            given.requests = taken * u32::from([BOOK, CANCEL, REPLACE, GATEWAY_CANCEL].contains(&kind));
        }
        Some(Fault::NeedsRequestBySending) => {
            let sent = messages.iter().filter(|message| message.kind >= NEW_ORDER_MESSAGE).count();
            given.requests = sent as u32 + taken * u32::from(kind == BOOK);
        }
        Some(Fault::NeedsAlarmCounted) => {
            given.messages += u32::from(answer.get(3).is_some_and(|&alarm| alarm != 0));
        }
        _ => {}
    }
    given
}

fn write_order(fault: Fault, was: &layout::Order, order: &mut layout::Order) {
    match fault {
        Fault::StaleCurrentLink => order.current = was.current,
        Fault::StaleCancelLink if was.cancel != 0 => order.cancel = was.cancel,
        Fault::StalePending if order.pending == 0 && was.pending != 0 => {
            order.pending = was.pending;
            order.pending_qty = was.pending_qty;
            order.pending_price = was.pending_price;
            order.pending_ord_type = was.pending_ord_type;
            order.pending_time_in_force = was.pending_time_in_force;
        }
        Fault::WrongStage if order.stage == layout::SENT => order.stage = layout::STUCK,
        Fault::WrongOrigDownstream if order.orig_downstream != 0 => order.orig_downstream = 1,
        Fault::RefusedSendsStand => order.refused_sends = was.refused_sends,
        Fault::OldAverage => order.avg_px = was.avg_px,
        _ => {}
    }
}

/// Faults that write bytes which no event may write.
pub fn scribble(
    fault: Fault,
    record: &[u8],
    outcome: &Result<Vec<u8>, u32>,
    book: &mut [u8],
    answer: &mut [u8],
) {
    let Header { orders, requests, .. } = Header::read(book);
    let order = layout::order_at((orders as usize).saturating_sub(1));
    let free = layout::request_at(requests as usize);
    let last = layout::open_at((orders as usize).saturating_sub(1));
    match (fault, outcome) {
        (Fault::WritesPastTheAnswer, Ok(told)) => answer[told.len()] ^= 1,
        (Fault::RefusedWritesBook, Err(_)) => book[BOOK_BYTES - 1] ^= 1,
        (Fault::RefusedWritesAnswer, Err(_)) if answer.len() >= ANSWER_BYTES => answer[0] ^= 1,
        (Fault::SpareWritten, Ok(_)) => book[order.end - 1] = 1,
        (Fault::NextRecordWritten, Ok(_)) if free.start < layout::OPENS_AT => book[free.start] ^= 1,
        (Fault::UnusedWritten, Ok(_)) => book[layout::UNUSED_AT + 5] ^= 1,
        (Fault::OtherWordWritten, Ok(_)) if Book::read(book).opens.last() == Some(&None) => {
            book[last.start] ^= 1;
        }
        (Fault::OpenAtLast, Ok(_)) => {
            let Book { orders, opens, .. } = Book::read(book);
            let Some((client, place)) = orders.last().map(|order| (order.client, orders.len() - 1)) else {
                return;
            };
            let first = orders.iter().position(|order| order.client == client).expect("it has one");
            let open = opens[first].unwrap_or(0).to_le_bytes();
            book[layout::open_at(first)].fill(0);
            book[layout::open_at(place)].copy_from_slice(&open);
        }
        (Fault::LastKindWritten, Ok(_)) => book[layout::UNUSED_AT] = record.first().copied().unwrap_or(0),
        (Fault::HeaderWritten, Ok(_)) => book[100] ^= 1,
        (Fault::TextNotFilled, Ok(_)) => book[order.start + 103 + 31] = b'x',
        _ => {}
    }
}
