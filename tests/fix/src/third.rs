//! Messages of a library for third parties, QuickFIX and Wireshark, beside the fields that they were
//! written with. Rests on writer and built.

use std::fs;

use crate::built;
use crate::check::{Difference, check_write};
use crate::entries::Entries;
use crate::random::Random;
use crate::records::{REASON, Record, cut};
use crate::stored;
use crate::writer::{Field, Header, questions};

/// A message and what wrote it.
pub struct Sent {
    pub message: Vec<u8>,
    pub record: Vec<u8>,
    pub fields: Vec<Field>,
}

/// Messages that others can read: their integers have 32 bits, their times a form.
pub fn messages(entries: &Entries, drawn: u64, files: &[&str]) -> Result<Vec<Sent>, Difference> {
    let mut records: Vec<Vec<u8>> = built::ALL.iter().map(Record::bytes).collect();
    records.extend((0..drawn).map(|seed| built::draw(&mut Random::new(seed)).bytes()));
    for file in files {
        let bytes = fs::read(file).map_err(|error| format!("{file}: {error}"))?;
        let answers = stored::answers(&bytes).ok_or_else(|| format!("{file} holds no answers"))?;
        for answer in answers {
            records.extend(cut(&answer).unwrap_or_default().into_iter().map(|(_, record)| record.to_vec()));
        }
    }
    records.sort();
    records.dedup();
    let mut sent = Vec::new();
    for (number, record) in records.into_iter().filter(|record| is_readable(record)).enumerate() {
        let (second, milli) = (number / 1_000 % 60, number % 1_000);
        let time = format!("20261116-09:{:02}:{second:02}.{milli:03}", number / 60_000 % 60);
        let header = Header::new(b"GATEWAY", b"DESK-7", number as u64 + 1, time.as_bytes());
        let (Some(message), Ok(fields)) =
            (check_write(entries, &record, &header)?, questions(&record, &header))
        else {
            continue;
        };
        sent.push(Sent { message, record, fields });
    }
    Ok(sent)
}

fn is_readable(record: &[u8]) -> bool {
    Record::read(record).is_ok_and(|record| record.number(REASON) < 1 << 31)
}

/// For QuickFIX: each text after its length, each number in 4 bytes.
pub fn plain(sent: &[Sent]) -> Vec<u8> {
    let mut bytes = Vec::new();
    let text = |bytes: &mut Vec<u8>, text: &[u8]| {
        bytes.extend((text.len() as u32).to_le_bytes());
        bytes.extend(text);
    };
    for one in sent {
        text(&mut bytes, &one.message);
        text(&mut bytes, &one.record);
        bytes.extend((one.fields.len() as u32).to_le_bytes());
        for (tag, value) in &one.fields {
            bytes.extend(tag.to_le_bytes());
            text(&mut bytes, value);
        }
    }
    bytes
}

/// The tags in Wireshark's names, as columns.
pub const COLUMNS: [(u32, &str); 30] = [
    (8, "BeginString"),
    (9, "BodyLength"),
    (35, "MsgType"),
    (49, "SenderCompID"),
    (56, "TargetCompID"),
    (34, "MsgSeqNum"),
    (52, "SendingTime"),
    (37, "OrderID"),
    (11, "ClOrdID"),
    (41, "OrigClOrdID"),
    (55, "Symbol"),
    (54, "Side"),
    (40, "OrdType"),
    (38, "OrderQty"),
    (44, "Price"),
    (59, "TimeInForce"),
    (150, "ExecType"),
    (39, "OrdStatus"),
    (32, "LastQty"),
    (14, "CumQty"),
    (6, "AvgPx"),
    (103, "OrdRejReason"),
    (102, "CxlRejReason"),
    (58, "Text"),
    (151, "LeavesQty"),
    (17, "ExecID"),
    (31, "LastPx"),
    (434, "CxlRejResponseTo"),
    (60, "TransactTime"),
    (10, "CheckSum"),
];

/// For Wireshark: a capture of the messages, each a segment of one TCP stream, and the lines that
/// `tshark -T fields` must print. What it shows in another form, bytes above 126 and `\`, is left out.
pub fn capture(sent: &[Sent]) -> (Vec<u8>, Vec<u8>) {
    let mut capture = Vec::new();
    for number in [0xA1B2_C3D4, 0x0004_0002, 0, 0, 65_535, 101_u32] {
        capture.extend(number.to_le_bytes());
    }
    let mut lines = Vec::new();
    let mut sequence = 1_u32;
    let shown = |message: &[u8]| message.iter().all(|&byte| byte < 127 && byte != b'\\');
    for one in sent.iter().filter(|one| shown(&one.message)) {
        let packet = segment(sequence, &one.message);
        sequence = sequence.wrapping_add(one.message.len() as u32);
        for number in [0, 0, packet.len() as u32, packet.len() as u32] {
            capture.extend(number.to_le_bytes());
        }
        capture.extend(packet);
        let value =
            |tag: u32| one.fields.iter().find(|field| field.0 == tag).map_or(&b""[..], |field| &field.1);
        let mut columns: Vec<&[u8]> = COLUMNS.iter().map(|(tag, _)| value(*tag)).collect();
        columns.push(b"1");
        lines.extend(columns.join(&b'\t'));
        lines.push(b'\n');
    }
    (capture, lines)
}

/// A packet of IPv4 and TCP around a message.
fn segment(sequence: u32, message: &[u8]) -> Vec<u8> {
    let mut packet = vec![0x45, 0];
    packet.extend((40 + message.len() as u16).to_be_bytes());
    packet.extend([0, 0, 0, 0, 64, 6, 0, 0, 10, 0, 0, 1, 10, 0, 0, 2]);
    packet.extend(9_878_u16.to_be_bytes());
    packet.extend(9_879_u16.to_be_bytes());
    packet.extend(sequence.to_be_bytes());
    packet.extend([0, 0, 0, 1, 0x50, 0x18, 0x20, 0, 0, 0, 0, 0]);
    packet.extend(message);
    packet
}
