//! Events, answers and lists as text, field by field, for a reader.

use lists::List;
use model::answer;
use model::record::*;

const NAMES: [&str; BITS] = [
    "client",
    "venue",
    "name",
    "ClOrdID",
    "OrigClOrdID",
    "downstream",
    "symbol",
    "side",
    "type",
    "qty",
    "price",
    "TimeInForce",
    "ExecType",
    "OrdStatus",
    "LastQty",
    "LastPx",
    "CumQty",
    "AvgPx",
    "venue OrderID",
    "reason",
    "text",
    "redelivered",
    "blocked",
    "verdict",
    "LeavesQty",
    "sequence",
    "fill price",
    "fixed text",
    "origin",
    "response-to",
    "original downstream",
    "price source",
];

const KINDS: [(u8, &str); 14] = [
    (BOOK, "book"),
    (CANCEL, "cancel"),
    (REPLACE, "replace"),
    (VENUE_REPORT, "venue report"),
    (UNKNOWN_AT_VENUE, "unknown at venue"),
    (CANCEL_REJECT, "cancel reject"),
    (SEND_FAILED, "send failed"),
    (SEND_AGAIN, "send again"),
    (GATEWAY_CANCEL, "gateway cancel"),
    (REPORT_MESSAGE, "report"),
    (REJECT_MESSAGE, "cancel reject"),
    (NEW_ORDER_MESSAGE, "new order"),
    (CANCEL_MESSAGE, "cancel"),
    (REPLACE_MESSAGE, "replace"),
];

fn kind(kind: u8) -> &'static str {
    KINDS.iter().find(|(number, _)| *number == kind).map_or("no kind", |(_, name)| name)
}

/// One record's kind and fields.
pub fn record(record: &Record<'_>) -> String {
    let mut text = format!("{} {}", record.kind, kind(record.kind));
    for bit in (0..BITS).filter(|&bit| record.has(bit)) {
        let value = match shape(bit) {
            Shape::Mark => String::new(),
            Shape::Text(..) => format!("={}", record.text(bit).escape_ascii()),
            Shape::Number(1) if record.code(bit).is_ascii_alphanumeric() => {
                format!("={}", char::from(record.code(bit)))
            }
            Shape::Number(_) => format!("={}", record.wide(bit)),
        };
        text.push_str(&format!(", {}{value}", NAMES[bit]));
    }
    text
}

/// An event's bytes: its fields if they read, else the bytes.
pub fn event(bytes: &[u8]) -> String {
    match Record::read_event(bytes) {
        Some(read) => record(&read),
        None => format!("no event: {}", bytes.escape_ascii()),
    }
}

/// A refusal, or an answer's messages and alarm.
pub fn outcome(outcome: &Result<Vec<u8>, u32>) -> String {
    let bytes = match outcome {
        Err(refusal) => return format!("refused with {refusal}"),
        Ok(bytes) => bytes,
    };
    let mut rest = bytes.get(answer::HEAD..).unwrap_or_default();
    let mut text = format!("{} bytes, head {:?}", bytes.len(), &bytes[..answer::HEAD.min(bytes.len())]);
    while let Some((message, after)) = Record::read(rest) {
        text.push_str(&format!("\n    {}", record(&message)));
        rest = after;
    }
    if !rest.is_empty() {
        text.push_str(&format!("\n    and then {}", rest.escape_ascii()));
    }
    text
}

pub fn list(list: &List) -> String {
    let mut text = format!("start with setting {}\n", list.setting);
    for (at, item) in list.items.iter().enumerate() {
        let buffer = match item.answer_buffer {
            1_024 => String::new(),
            bytes => format!(" (answer buffer of {bytes})"),
        };
        text.push_str(&format!("{}. {}{buffer}\n", at + 1, event(&item.record)));
    }
    text
}
