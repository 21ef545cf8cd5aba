//! A library in place of the proved one, made of the plain writer and reader, with faults that can be
//! planted: each must be found. Rests on the plain writer and reader.

use std::cell::Cell;
use std::slice;

use crate::changes::split;
use crate::entries::{Entries, FixFields, Place, Written};
use crate::grammar::{self, Found};
use crate::records::{Record, cut};
use crate::writer::{Field, Header, decimal, questions, spell};

macro_rules! faults {
    ($($fault:ident,)*) => {
        /// A fault.
        #[derive(Debug, Clone, Copy, PartialEq, Eq, PartialOrd, Ord)]
        pub enum Fault { $($fault),* }

        impl Fault {
            pub const ALL: &[Self] = &[$(Self::$fault),*];
        }
    };
}

faults! {
    SumModulo255,
    SumWithoutZeros,
    LengthCountsTrailer,
    LengthFromHeader,
    FixedTextBefore151,
    QtyWithoutLastZero,
    PriceOf64Bits,
    ReasonSigned,
    SequenceOf32Bits,
    ReportReasonAs102,
    RejectWithoutNone,
    ExecIdOfClOrdId,
    CancelWithType,
    CancelWithout60,
    ReportWith60,
    VerdictInSmallLetters,
    NineBeforeFour,
    TenBeforeNine,
    FiveOfEmptyOrderId,
    ByteThirtyOneTaken,
    EqualsRefused,
    HighByteRefused,
    BothTextsTaken,
    RoomOneShortTaken,
    RoomExactRefused,
    WritesWhenRefused,
    WritesPastLength,
    LengthWithRefusal,
    ReadsLeadingZero,
    ReadsSideNine,
    ReadsWrongSum,
    ReadsWrongLength,
    ReadsNoneInReport,
    ReadsOtherTime,
    ReadsOtherExecId,
    ReadsTwoTexts,
    ReadsAnyWordBehind31,
    ReadsLongSymbol,
    ReadsSwapped,
    ReadsBytesBehind,
    RefusesEquals,
    RefusesLargest,
    RefusesNoneInCancel,
    FieldsOneOff,
    FieldsWithoutTrailer,
    FieldsPastCount,
    FieldsWithRefusal,
    SecondMessageOneOff,
    CutOutOfRange,
    CutWithBytesBehind,
}

thread_local! {
    static PLANTED: Cell<Option<Fault>> = const { Cell::new(None) };
}

/// Plants a fault, or none.
pub fn plant(fault: Option<Fault>) {
    PLANTED.set(fault);
}

fn planted(fault: Fault) -> bool {
    PLANTED.get() == Some(fault)
}

pub const STAND_IN: Entries = Entries { write: fix_write, read: fix_read, message_at };

unsafe fn lent<'a>(bytes: *const u8, length: usize) -> &'a [u8] {
    if length == 0 { &[] } else { unsafe { slice::from_raw_parts(bytes, length) } }
}

unsafe extern "C" fn fix_write(
    record: *const u8,
    record_len: usize,
    sender: *const u8,
    sender_len: usize,
    target: *const u8,
    target_len: usize,
    sequence: u64,
    time: *const u8,
    time_len: usize,
    out: *mut u8,
    out_len: usize,
) -> Written {
    // SAFETY: each pointer is valid for its length, and nothing overlaps.
    let (record, header, out) = unsafe {
        let header =
            Header::new(lent(sender, sender_len), lent(target, target_len), sequence, lent(time, time_len));
        let out = if out_len == 0 { &mut [] } else { slice::from_raw_parts_mut(out, out_len) };
        (lent(record, record_len), header, out)
    };
    match message(record, &header, out.len()) {
        Ok(message) => {
            let fits = message.len().min(out.len());
            out[..fits].copy_from_slice(&message[..fits]);
            if planted(Fault::WritesPastLength) && message.len() < out.len() {
                out[message.len()] = 0;
            }
            Written { refusal: 0, length: message.len() as u64 }
        }
        Err(refusal) => {
            if planted(Fault::WritesWhenRefused) && refusal >= 9 && !out.is_empty() {
                out[0] = b'8';
            }
            Written { refusal, length: u64::from(planted(Fault::LengthWithRefusal)) }
        }
    }
}

fn message(record: &[u8], header: &Header, room: usize) -> Result<Vec<u8>, u32> {
    let shorter = Record::read(record).map(|read| read.without(20).bytes());
    let asked = match shorter {
        Ok(shorter) if planted(Fault::BothTextsTaken) => questions(&shorter, header),
        _ if planted(Fault::ByteThirtyOneTaken) => questions(record, &thirty_two(header)),
        _ => questions(record, header),
    };
    let fields = asked.map_err(|refusal| refused(refusal, record, header, room))?;
    let texts = [&header.sender, &header.target, &header.time];
    let has = |test: fn(u8) -> bool| texts.iter().any(|text| text.iter().any(|&byte| test(byte)));
    if planted(Fault::EqualsRefused) && has(|byte| byte == b'=')
        || planted(Fault::HighByteRefused) && has(|byte| byte > 127)
    {
        return Err(9);
    }
    let message = wrong(record, header, fields);
    let short = usize::from(planted(Fault::RoomOneShortTaken));
    let long = usize::from(planted(Fault::RoomExactRefused));
    if message.len() + long <= room + short { Ok(message) } else { Err(10) }
}

/// The header with byte 32 in place of 31.
fn thirty_two(header: &Header) -> Header {
    let text = |text: &[u8]| text.iter().map(|&byte| if byte == 31 { 32 } else { byte }).collect();
    Header {
        sender: text(&header.sender),
        target: text(&header.target),
        time: text(&header.time),
        sequence: header.sequence,
    }
}

fn refused(refusal: u32, record: &[u8], header: &Header, room: usize) -> u32 {
    let texts = [&header.sender, &header.target, &header.time];
    match refusal {
        4 if planted(Fault::NineBeforeFour) && texts.iter().any(|text| text.is_empty()) => 9,
        9 if planted(Fault::TenBeforeNine) && room < 100 => 10,
        9 if planted(Fault::FiveOfEmptyOrderId) && Record::read(record).is_ok_and(|read| read.has(18)) => 4,
        refusal => refusal,
    }
}

/// The message of these fields, with the fault that is planted.
fn wrong(record: &[u8], header: &Header, mut fields: Vec<Field>) -> Vec<u8> {
    let Some(fault) = PLANTED.get() else { return spell(&fields) };
    fields.pop();
    let mut body = fields.split_off(2);
    wrong_body(fault, &Record::read(record).expect("a message"), header, &mut body);
    let more = match fault {
        Fault::LengthCountsTrailer => 7,
        Fault::LengthFromHeader => spell(&fields).len(),
        _ => 0,
    };
    fields[1].1 = (spell(&body).len() + more).to_string().into_bytes();
    fields.append(&mut body);
    let sum: u32 = spell(&fields).iter().map(|&byte| u32::from(byte)).sum();
    let sum = match fault {
        Fault::SumModulo255 => format!("{:03}", sum % 255),
        Fault::SumWithoutZeros => (sum % 256).to_string(),
        _ => format!("{:03}", sum % 256),
    };
    fields.push((10, sum.into_bytes()));
    spell(&fields)
}

fn wrong_body(fault: Fault, read: &Record, header: &Header, body: &mut Vec<Field>) {
    let mut each = |tag: u32, change: &dyn Fn(&mut Field)| {
        body.iter_mut().filter(|field| field.0 == tag).for_each(change)
    };
    match (fault, read.kind) {
        (Fault::FixedTextBefore151, 16) if read.has(27) => {
            let text = body.pop().expect("58");
            let at = body.iter().position(|field| field.0 == 151).expect("151");
            body.insert(at, text);
        }
        (Fault::QtyWithoutLastZero, _) => each(38, &|field| {
            if field.1.ends_with(b"0") {
                field.1.pop();
            }
        }),
        (Fault::PriceOf64Bits, 16) => each(31, &|field| field.1 = decimal(read.number(26) % (1 << 64), 8)),
        (Fault::ReasonSigned, kind) => each(if kind == 16 { 103 } else { 102 }, &|field| {
            field.1 = (read.number(19) as u32 as i32).to_string().into_bytes();
        }),
        (Fault::SequenceOf32Bits, _) => body[3].1 = (header.sequence as u32).to_string().into_bytes(),
        (Fault::ReportReasonAs102, _) => each(103, &|field| field.0 = 102),
        (Fault::RejectWithoutNone, 17) => body.retain(|field| field.1 != b"NONE"),
        (Fault::ExecIdOfClOrdId, 16) => each(17, &|field| {
            field.1 = [read.text(3), b".", read.number(25).to_string().as_bytes()].concat();
        }),
        (Fault::CancelWithType, 19) => body.insert(8, (40, read.text(8).to_vec())),
        (Fault::CancelWithout60, 19) => drop(body.pop()),
        (Fault::ReportWith60, 16) => body.push((60, header.time.clone())),
        (Fault::VerdictInSmallLetters, _) if read.has(27) => {
            each(58, &|field| field.1.make_ascii_lowercase())
        }
        _ => {}
    }
}

unsafe extern "C" fn fix_read(message: *const u8, message_len: usize) -> FixFields {
    // SAFETY: the pointer is valid for its length.
    let message = unsafe { lent(message, message_len) };
    let mut fields = FixFields::NONE;
    let Some(mut found) = found(message) else {
        fields.refusal = 3;
        fields.tag[0] = if planted(Fault::FieldsWithRefusal) { 8 } else { 0 };
        return fields;
    };
    if planted(Fault::FieldsWithoutTrailer) {
        found.pop();
    }
    fields.count = found.len() as u32;
    let one = u64::from(planted(Fault::FieldsOneOff));
    for (at, field) in found.iter().enumerate() {
        (fields.tag[at], fields.at[at], fields.length[at]) =
            (field.tag, field.at as u64 + one, field.length as u64);
    }
    if planted(Fault::FieldsPastCount) {
        fields.at[found.len()] = message.len() as u64;
    }
    fields
}

/// What is read, with the fault that is planted: a message is refused, or read as if it were another.
fn found(message: &[u8]) -> Option<Vec<Found>> {
    let Some(fault) = PLANTED.get() else { return grammar::read(message) };
    if fault == Fault::ReadsBytesBehind && message.len() > 20 {
        return grammar::read(message).or_else(|| grammar::read(&message[..message.len() - 1]));
    }
    let fields = split(message);
    if refuses(fault, &fields) {
        return None;
    }
    let Some(other) = taken_for(fault, &fields).filter(|_| spell(&fields) == message) else {
        return grammar::read(message);
    };
    grammar::read(&spell(&other))?;
    let mut at = 0;
    let place = |(tag, value): &Field| {
        let start = at + tag.to_string().len() + 1;
        at = start + value.len() + 1;
        Found { tag: *tag, at: start, length: value.len() }
    };
    Some(fields.iter().map(place).collect())
}

fn value(fields: &[Field], tag: u32) -> &[u8] {
    fields.iter().find(|field| field.0 == tag).map_or(b"", |field| &field.1)
}

fn refuses(fault: Fault, fields: &[Field]) -> bool {
    match fault {
        Fault::RefusesEquals => value(fields, 58).contains(&b'='),
        Fault::RefusesLargest => value(fields, 38) == b"100000000.0000",
        Fault::RefusesNoneInCancel => value(fields, 35) == b"F" && value(fields, 37) == b"NONE",
        _ => false,
    }
}

/// The message that the fields are taken for, if the fault takes them for another.
fn taken_for(fault: Fault, fields: &[Field]) -> Option<Vec<Field>> {
    match fault {
        Fault::ReadsWrongSum => return Some(framed(fields, false, true)),
        Fault::ReadsWrongLength if framed(fields, false, true) == fields => {
            return Some(framed(fields, true, true));
        }
        _ => {}
    }
    let mut other = fields.to_vec();
    let mut set = |tag: u32, new: &[u8]| {
        other.iter_mut().filter(|field| field.0 == tag).for_each(|field| field.1 = new.to_vec());
    };
    let value = |tag: u32| value(fields, tag);
    let places: Vec<usize> = (0..fields.len()).filter(|&at| fields[at].0 == 58).collect();
    match (fault, value(35)) {
        (Fault::ReadsLeadingZero, _) => set(38, value(38).strip_prefix(b"0").unwrap_or_default()),
        (Fault::ReadsSideNine, _) if value(54) == b"9" => set(54, b"1"),
        (Fault::ReadsNoneInReport, b"8") if value(37) == b"NONE" => {
            set(37, b"NON");
            set(17, &[b"NON", value(17).strip_prefix(b"NONE").unwrap_or_default()].concat());
        }
        (Fault::ReadsOtherTime, _) => set(60, value(52)),
        (Fault::ReadsOtherExecId, b"8") => set(17, &[value(37), b".1"].concat()),
        (Fault::ReadsTwoTexts, b"8") if places.len() == 2 => drop(other.remove(places[1])),
        (Fault::ReadsAnyWordBehind31, b"8") if places.last() == Some(&fields.len().saturating_sub(2)) => {
            other[places[0]].1 = b"blocked".to_vec();
        }
        (Fault::ReadsLongSymbol, _) => set(55, &value(55)[..value(55).len().min(16)]),
        (Fault::ReadsSwapped, _) => {
            let at = fields.windows(2).position(|pair| pair[0].0 == 54 && pair[1].0 == 55)?;
            other.swap(at, at + 1);
        }
        _ => return None,
    }
    (framed(fields, true, true) == fields).then(|| framed(&other, true, true))
}

/// The fields with their length and their sum put right.
fn framed(fields: &[Field], length: bool, sum: bool) -> Vec<Field> {
    let mut fields = fields.to_vec();
    if fields.len() > 3 && fields[1].0 == 9 && fields[fields.len() - 1].0 == 10 {
        let last = fields.len() - 1;
        if length {
            fields[1].1 = spell(&fields[2..last]).len().to_string().into_bytes();
        }
        if sum {
            let sum: u32 = spell(&fields[..last]).iter().map(|&byte| u32::from(byte)).sum();
            fields[last].1 = format!("{:03}", sum % 256).into_bytes();
        }
    }
    fields
}

unsafe extern "C" fn message_at(answer: *const u8, answer_len: usize, number: u32) -> Place {
    // SAFETY: the pointer is valid for its length.
    let answer = unsafe { lent(answer, answer_len) };
    let nowhere = |refusal: u32| Place { refusal, at: 0, length: 0 };
    let messages = match cut(answer) {
        Ok(messages) => messages,
        Err(4) if planted(Fault::CutOutOfRange) => return nowhere(3),
        Err(refusal) => return nowhere(refusal),
    };
    if planted(Fault::CutWithBytesBehind)
        && usize::from(u16::from_le_bytes([answer[0], answer[1]])) < answer.len()
    {
        return nowhere(3);
    }
    messages.get(number as usize).map_or(nowhere(0), |(at, message)| {
        let one = u32::from(planted(Fault::SecondMessageOneOff) && number == 1);
        Place { refusal: 0, at: *at as u32 + one, length: message.len() as u32 }
    })
}
