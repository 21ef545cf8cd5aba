//! A FIX log for a person: the proved reader's verdict on each message, with the names of the fields.

use std::error::Error;
use std::time::{Duration, Instant};

use jubafiye::{fix, ExecType, OrdStatus, OrdType, Price, Qty, RequestKind, Side, TimeInForce};

use super::{print, Done};

/// The name of a tag of the messages that the book has.
fn name(tag: &str) -> &'static str {
    match tag {
        "6" => "AvgPx",
        "8" => "BeginString",
        "9" => "BodyLength",
        "10" => "CheckSum",
        "11" => "ClOrdID",
        "14" => "CumQty",
        "17" => "ExecID",
        "31" => "LastPx",
        "32" => "LastQty",
        "34" => "MsgSeqNum",
        "35" => "MsgType",
        "37" => "OrderID",
        "38" => "OrderQty",
        "39" => "OrdStatus",
        "40" => "OrdType",
        "41" => "OrigClOrdID",
        "44" => "Price",
        "49" => "SenderCompID",
        "52" => "SendingTime",
        "54" => "Side",
        "55" => "Symbol",
        "56" => "TargetCompID",
        "58" => "Text",
        "59" => "TimeInForce",
        "60" => "TransactTime",
        "102" => "CxlRejReason",
        "103" => "OrdRejReason",
        "150" => "ExecType",
        "151" => "LeavesQty",
        "434" => "CxlRejResponseTo",
        _ => "?",
    }
}

/// Shows each message of a log, and says how many did not read.
pub fn show(log: &[u8]) -> Result<Done, Box<dyn Error>> {
    let (mut messages, mut bad) = (0, 0);
    let mut told = Instant::now();
    for (number, line) in (1..).zip(log.split(|&byte| byte == b'\n')) {
        if told.elapsed() > Duration::from_secs(1) {
            eprintln!("desk: line {number}, {bad} of {messages} messages do not read");
            told = Instant::now();
        }
        let Some(message) = message(line) else { continue };
        messages += 1;
        let read = fix::read(&message);
        let verdict = match &read {
            Ok(_) => "reads".to_string(),
            Err(why) => format!("DOES NOT READ: {}", fault(&message).unwrap_or_else(|| why.to_string())),
        };
        bad += usize::from(read.is_err());
        print(&format!("line {number}: {verdict}\n{}", fields(&message)))?;
    }
    if messages == 0 {
        return Err("no FIX message stands in it: each begins with 8=FIX".into());
    }
    print(&format!("{messages} messages, {bad} of them do not read\n"))?;
    Ok(if bad == 0 { Done::Well } else { Done::LookAtIt })
}

/// The message of a line, with byte 1 between its fields.
fn message(line: &[u8]) -> Option<Vec<u8>> {
    let at = line.windows(5).position(|part| part == b"8=FIX")?;
    let line = line.get(at..)?;
    let line = line.strip_suffix(b"\r").unwrap_or(line);
    let soh = line.contains(&1);
    Some(line.iter().map(|&byte| if byte == b'|' && !soh { 1 } else { byte }).collect())
}

fn split(message: &[u8]) -> impl Iterator<Item = (String, String)> + '_ {
    let fields = message.split(|&byte| byte == 1).filter(|field| !field.is_empty());
    fields.map(|field| {
        let text = String::from_utf8_lossy(field).replace(char::is_control, " ");
        let (tag, value) = text.split_once('=').unwrap_or((&text, ""));
        (tag.to_string(), value.to_string())
    })
}

fn fields(message: &[u8]) -> String {
    split(message).map(|(tag, value)| format!("    {tag:>4} {:<16} {value}\n", name(&tag))).collect()
}

/// What is wrong with a message: its frame, a field that no message of the book has, a field out of its place, or a value.
fn fault(message: &[u8]) -> Option<String> {
    let fields: Vec<_> = split(message).collect();
    frame(message).or_else(|| out_of_place(&fields)).or_else(|| fields.iter().find_map(bad_value))
}

/// A field with its name and tag.
fn titled(tag: &str) -> String {
    format!("{}({tag})", name(tag))
}

/// The fields between 52 and 10, by MsgType(35); one with `?` may be absent (docs/FIX.md, What is written).
fn body(kind: &str) -> Option<&'static str> {
    Some(match kind {
        "8" => "37 11 41? 55 54 40 38 44? 59? 150 39 32 14 6 103? 58? 151 17 31 58?",
        "9" => "37 11 41 39 102 58 434",
        "D" => "11 55 54 40 38 44? 59? 60",
        "F" => "11 55 54 38 37? 41 60",
        "G" => "11 55 54 40 38 44? 59? 37? 41 60",
        _ => return None,
    })
}

/// The first field that does not stand where a message of its type has it.
fn out_of_place(fields: &[(String, String)]) -> Option<String> {
    let kind = &fields.iter().find(|field| field.0 == "35")?.1;
    let Some(body) = body(kind) else { return Some(format!("MsgType(35) {kind} is none of the book's")) };
    let mut rest = fields.iter().map(|field| field.0.as_str()).peekable();
    for wanted in "8 9 35 49 56 34 52".split(' ').chain(body.split(' ')).chain(["10"]) {
        let tag = wanted.trim_end_matches('?');
        if rest.next_if_eq(&tag).is_none() && tag == wanted {
            let found = rest.peek().map_or_else(|| "the end".into(), |found| titled(found));
            return Some(format!("{found} stands in place of {}", titled(tag)));
        }
    }
    rest.next().map(|tag| format!("{} stands behind CheckSum(10)", titled(tag)))
}

/// What a value is to be, if it is something else.
fn bad_value((tag, value): &(String, String)) -> Option<String> {
    let listed = |is: fn(u8) -> bool| matches!(value.as_bytes(), [code] if is(*code));
    let decimals = |count| value.split_once('.').is_some_and(|(_, part)| part.len() == count);
    let (fits, form) = match tag.as_str() {
        "54" => (listed(|code| Side::from_code(code).is_some()), "a side"),
        "40" => (listed(|code| OrdType::from_code(code).is_some()), "an order type that the book takes"),
        "59" => {
            (listed(|code| TimeInForce::from_code(code).is_some()), "a time in force that the book takes")
        }
        "150" => (listed(|code| ExecType::from_code(code).is_some()), "an ExecType that the book has"),
        "39" => (listed(|code| OrdStatus::from_code(code).is_some()), "an OrdStatus that the book has"),
        "434" => (listed(|code| RequestKind::from_number(code.wrapping_sub(b'0')).is_some()), "1 or 2"),
        "38" | "32" | "14" | "151" => {
            (decimals(4) && value.parse::<Qty>().is_ok(), "a quantity with four decimals")
        }
        "44" | "6" => (decimals(8) && value.parse::<Price>().is_ok(), "a price with eight decimals"),
        "31" => (decimals(8), "a price with eight decimals"),
        "34" => (value.parse::<u64>().is_ok(), "a number"),
        "102" | "103" => (value.parse::<u32>().is_ok(), "a number of 32 bits"),
        _ => (!value.is_empty(), "any text but an empty one"),
    };
    (!fits).then(|| format!("{} is {value:?}, not {form}", titled(tag)))
}

/// What of a message's frame is wrong, or a field that no message of the book has.
fn frame(message: &[u8]) -> Option<String> {
    let trailer = message.windows(4).rposition(|part| part == b"\x0110=")?;
    let body = message.get(..=trailer)?;
    let sum = body.iter().fold(0u8, |sum, &byte| sum.wrapping_add(byte));
    let stated = |tag: &str| split(message).find(|field| field.0 == tag).map(|field| field.1);
    if stated("10")? != format!("{sum:03}") {
        return Some(format!("CheckSum(10) is {}, and the bytes have {sum:03}", stated("10")?));
    }
    let start = message.windows(3).position(|part| part == b"\x0135")?;
    let length = trailer.checked_sub(start)?.to_string();
    if stated("9")? != length {
        return Some(format!("BodyLength(9) is {}, and the bytes have {length}", stated("9")?));
    }
    let other = split(message).find(|(tag, _)| name(tag) == "?");
    other.map(|(tag, _)| format!("the tag {tag} is none that the book's messages have"))
}
