//! Answers: their whole length in two bytes, the count of messages, the kinds of two alarms, then the
//! messages as records. The Rust's outputs become messages here.

use gateway::CompactString;
use gateway::book::{AlarmKind, CancelKind, ClientId, ClientReport, OrderRequest, Output, Status};

use crate::codes;
use crate::done_for_day;
use crate::numbers::{Fill, price_count, qty_count};
use crate::record::*;

pub const HEAD: usize = 5;

/// The alarms of an answer, 0 for none: the second follows the first.
pub type Alarms = [u8; 2];

/// The alarm's number.
pub fn alarm_code(kind: AlarmKind) -> u8 {
    match kind {
        AlarmKind::StuckCancel => 1,
        AlarmKind::Overfill => 2,
        AlarmKind::UnknownOrder => 3,
        AlarmKind::UnknownAtVenue => 4,
        AlarmKind::FillOnDoneOrder => 5,
        kind => panic!("{kind:?} has no event in docs/SCOPE.md"),
    }
}

/// What the event brought that its messages show and the Rust does not say.
#[derive(Debug, Clone, Copy, Default)]
pub struct Brought<'a> {
    /// Its text: it goes back as it is, while a text that the Rust supplied goes as its number.
    pub text: Option<&'a [u8]>,
    /// What decides the price of its fill, if it is a venue's report: the price's source, and the
    /// price itself at an exact half.
    pub fill: Option<Fill>,
    /// Whether the order is done for the day as it is left.
    pub done_for_day: bool,
}

impl Brought<'_> {
    /// The order's status as it is told: the Rust's, or 3.
    fn status(&self, status: Status) -> u8 {
        if self.done_for_day { done_for_day::CODE } else { codes::status_code(status) }
    }
}

/// The whole answer: all of it the Rust's, but for the price source, the price at an exact half, and
/// status and leaves of an order that is done for the day.
pub fn write(outputs: &[Output], alarms: Alarms, brought: Brought<'_>) -> Vec<u8> {
    let messages: Vec<Draft> = outputs.iter().map(|output| message(output, brought)).collect();
    of_messages(&messages, alarms)
}

/// The answer with these messages.
pub fn of_messages(messages: &[Draft], alarms: Alarms) -> Vec<u8> {
    let mut bytes = vec![0, 0, messages.len() as u8, alarms[0], alarms[1]];
    messages.iter().for_each(|message| bytes.extend(message.bytes()));
    let length = u16::try_from(bytes.len()).expect("an answer is short");
    bytes[..2].copy_from_slice(&length.to_le_bytes());
    bytes
}

/// The alarms of a whole answer.
pub fn alarms(answer: &[u8]) -> Alarms {
    [answer[3], answer[4]]
}

/// The messages of a whole answer.
pub fn messages(answer: &[u8]) -> Vec<Record<'_>> {
    let mut rest = &answer[HEAD..];
    let mut messages = Vec::new();
    while !rest.is_empty() {
        let (message, after) = Record::read(rest).expect("an answer's messages read");
        messages.push(message);
        rest = after;
    }
    assert_eq!(messages.len(), usize::from(answer[2]), "an answer counts its messages");
    messages
}

fn message(output: &Output, brought: Brought<'_>) -> Draft {
    match output {
        Output::Report { client, report } => report_message(client, report, brought),
        Output::CancelReject { .. } => reject_message(output, brought),
        Output::NewOrder { venue, downstream, request } => {
            request_message(NEW_ORDER_MESSAGE, venue, downstream, request)
        }
        Output::Cancel { venue, downstream, orig_downstream, request, venue_order_id } => {
            request_message(CANCEL_MESSAGE, venue, downstream, request)
                .text(ORIG_DOWNSTREAM, bytes(orig_downstream))
                .maybe(venue_order_id.as_ref(), |draft, id| draft.text(VENUE_ORDER_ID, bytes(id)))
        }
        Output::Replace { venue, downstream, orig_downstream, request, venue_order_id } => {
            request_message(REPLACE_MESSAGE, venue, downstream, request)
                .text(ORIG_DOWNSTREAM, bytes(orig_downstream))
                .maybe(venue_order_id.as_ref(), |draft, id| draft.text(VENUE_ORDER_ID, bytes(id)))
        }
        Output::StatusRequest { .. } => panic!("docs/SCOPE.md has no such message"),
    }
}

fn reject_message(output: &Output, brought: Brought<'_>) -> Draft {
    let Output::CancelReject {
        client,
        order_id,
        cl_ord_id,
        orig_cl_ord_id,
        response_to,
        status,
        reason,
        text,
    } = output
    else {
        panic!("a cancel reject: {output:?}");
    };
    let (reason, origin) = codes::cancel_reject_reason(*reason);
    let draft = Draft::new(REJECT_MESSAGE)
        .number(CLIENT, client_number(client))
        .text(CL_ORD_ID, bytes(cl_ord_id))
        .text(ORIG_CL_ORD_ID, bytes(orig_cl_ord_id))
        .number(ORD_STATUS, brought.status(*status))
        .number(REASON, reason)
        .number(ORIGIN, origin)
        .number(RESPONSE_TO, if *response_to == CancelKind::Cancel { 1_u8 } else { 2 })
        .maybe(order_id.as_ref(), |draft, name| draft.text(NAME, bytes(name)));
    with_text(draft, Some(text), brought.text)
}

fn report_message(client: &ClientId, report: &ClientReport, brought: Brought<'_>) -> Draft {
    let name = report.order_id.as_ref().expect("every reported order is booked");
    let (_, sequence) = report.exec_id.rsplit_once('.').expect("an ExecID is name, point, number");
    let draft = terms(Draft::new(REPORT_MESSAGE), &report.request)
        .number(CLIENT, client_number(client))
        .text(NAME, bytes(name))
        .text(CL_ORD_ID, bytes(&report.cl_ord_id))
        .maybe(report.orig_cl_ord_id.as_ref(), |draft, id| draft.text(ORIG_CL_ORD_ID, bytes(id)))
        .number(EXEC_TYPE, codes::exec_type_code(report.exec_type))
        .number(ORD_STATUS, brought.status(report.status))
        .number(LAST_QTY, qty_count(report.last_qty))
        .number(CUM_QTY, qty_count(report.cum_qty))
        .number(AVG_PX, price_count(report.avg_px))
        .number(LEAVES_QTY, if brought.done_for_day { 0 } else { qty_count(report.leaves_qty) })
        .number(REPORT_SEQUENCE, sequence.parse::<u64>().expect("a number"))
        .number(FILL_PRICE, fill_price(report, brought.fill))
        .number(PRICE_SOURCE, brought.fill.map_or(0, |fill| fill.source() as u8))
        .maybe(report.reject.map(codes::reject_reason), |draft, (reason, origin)| {
            draft.number(REASON, reason).number(ORIGIN, origin)
        });
    with_text(draft, report.text.as_ref(), brought.text)
}

/// The Rust's price, but at an exact half that of the rule.
fn fill_price(report: &ClientReport, fill: Option<Fill>) -> u128 {
    fill.filter(Fill::at_half).map_or(price_count(report.last_px), |fill| fill.price())
}

fn request_message(kind: u8, venue: &str, downstream: &str, request: &OrderRequest) -> Draft {
    let venue: u16 = venue.parse().expect("a venue is a number");
    terms(Draft::new(kind), request).number(VENUE, venue).text(DOWNSTREAM, bytes(downstream))
}

/// Fields 6 to 11.
fn terms(draft: Draft, request: &OrderRequest) -> Draft {
    draft
        .text(SYMBOL, bytes(&request.symbol))
        .number(SIDE, codes::side_code(request.side))
        .number(ORD_TYPE, codes::ord_type_code(request.ord_type))
        .number(QTY, qty_count(request.qty))
        .maybe(request.price, |draft, price| draft.number(PRICE, price_count(price)))
        .maybe(request.time_in_force.map(codes::time_in_force_code), |draft, code| {
            draft.number(TIME_IN_FORCE, code)
        })
}

fn with_text(draft: Draft, text: Option<&CompactString>, told: Option<&[u8]>) -> Draft {
    match (text, told) {
        (None, _) => draft,
        (Some(text), Some(told)) => {
            assert_eq!(bytes(text), told, "the event's text goes back as it is");
            draft.text(TEXT, told)
        }
        (Some(text), None) => draft.number(FIXED_TEXT, codes::fixed_text(text)),
    }
}

pub fn client_number(client: &ClientId) -> u16 {
    client.session().parse().expect("a client is a number")
}

/// A Latin-1 text as its bytes.
pub fn bytes(text: &str) -> Vec<u8> {
    text.chars().map(|c| u8::try_from(c).expect("every text came from bytes")).collect()
}

/// Bytes as a Latin-1 text.
pub fn latin1(bytes: &[u8]) -> CompactString {
    bytes.iter().map(|&byte| char::from(byte)).collect()
}
