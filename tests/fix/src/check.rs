//! What a library gives compared with the plain writer and reader, every byte of it. Rests on all but
//! the stand-in.

use crate::again::unwrite;
use crate::entries::{Entries, FixFields, Place, Written};
use crate::grammar;
use crate::records::cut;
use crate::writer::{Header, write};

/// What differs, in words.
pub type Difference = String;

/// Bytes around the room that is lent, and what they hold.
const GUARD: usize = 16;
const MARK: u8 = 0xA5;

/// Shows bytes as FIX is shown, `|` for byte 1.
pub fn shown(bytes: &[u8]) -> String {
    bytes.iter().map(|&byte| if byte == 1 { "|".into() } else { byte.escape_ascii().to_string() }).collect()
}

fn hex(bytes: &[u8]) -> String {
    bytes.iter().map(|byte| format!("{byte:02x}")).collect::<Vec<_>>().join(" ")
}

/// Writes a record into rooms of its exact length, of more, of one less and of none, and gives the
/// message if it is one.
pub fn check_write(entries: &Entries, record: &[u8], header: &Header) -> Result<Option<Vec<u8>>, Difference> {
    let message = write(record, header, usize::MAX);
    let length = message.as_ref().map_or(400, Vec::len);
    for room in [length, length + 1, length + 77, length.saturating_sub(1), length / 2, 0] {
        check_room(entries, record, header, &message, room)?;
    }
    Ok(message.ok())
}

/// Writes a record into a room of that length; `message` is what any room would hold, or the refusal.
pub fn check_room(
    entries: &Entries,
    record: &[u8],
    header: &Header,
    message: &Result<Vec<u8>, u32>,
    room: usize,
) -> Result<(), Difference> {
    let lent = (record.to_vec(), header.clone());
    let mut around = vec![MARK; GUARD + room + GUARD];
    let out = &mut around[GUARD..GUARD + room];
    let (sender, target, time) = (&lent.1.sender, &lent.1.target, &lent.1.time);
    let given = entries.write(&lent.0, sender, target, lent.1.sequence, time, out);
    let mut right = vec![MARK; GUARD + room + GUARD];
    let expected = match message {
        Ok(message) if message.len() <= room => {
            right[GUARD..GUARD + message.len()].copy_from_slice(message);
            Written { refusal: 0, length: message.len() as u64 }
        }
        Ok(_) => Written { refusal: 10, length: 0 },
        Err(refusal) => Written { refusal: *refusal, length: 0 },
    };
    let about = || {
        let header = format!("{} {} {} {}", shown(sender), shown(target), header.sequence, shown(time));
        format!("writing {} with {header:.300} into {room} bytes", hex(record))
    };
    if given != expected {
        return Err(format!("{}: should give {expected:?}, gives {given:?}", about()));
    }
    if let Some(at) = around.iter().zip(&right).position(|(is, should)| is != should) {
        let (is, should) = (&around[GUARD..GUARD + room], &right[GUARD..GUARD + room]);
        let (at, is, should) = (at as i64 - GUARD as i64, shown(is), shown(should));
        return Err(format!("{}: byte {at} differs\n  should be {should}\n  is        {is}", about()));
    }
    if lent.0 != record || lent.1 != *header {
        return Err(format!("{}: what was lent to be read has changed", about()));
    }
    Ok(())
}

/// Reads bytes; says whether they were taken.
pub fn check_read(entries: &Entries, message: &[u8]) -> Result<bool, Difference> {
    let expected = expected_fields(message)?;
    let given = entries.read(message);
    if given != expected {
        let (should, is) = (described(&expected), described(&given));
        return Err(format!("reading {}: should be {should}, is {is}", shown(message)));
    }
    Ok(expected.refusal == 0)
}

/// What a reader must give, decided twice.
fn expected_fields(message: &[u8]) -> Result<FixFields, Difference> {
    let found = grammar::read(message);
    if found.is_some() != unwrite(message).is_some() {
        return Err(format!("the two plain readers differ on {}", shown(message)));
    }
    let mut fields = FixFields::NONE;
    let Some(found) = found else {
        fields.refusal = 3;
        return Ok(fields);
    };
    fields.count = found.len() as u32;
    for (at, field) in found.into_iter().enumerate() {
        fields.tag[at] = field.tag;
        fields.at[at] = field.at as u64;
        fields.length[at] = field.length as u64;
    }
    Ok(fields)
}

fn described(fields: &FixFields) -> String {
    let places = (0..32).map(|at| (fields.tag[at], fields.at[at], fields.length[at]));
    let stands: Vec<_> = places.filter(|place| *place != (0, 0, 0)).collect();
    format!("refusal {}, count {}, {stands:?}", fields.refusal, fields.count)
}

/// Cuts an answer, or what may be none, and gives its messages.
pub fn check_cut(entries: &Entries, answer: &[u8]) -> Result<Vec<Vec<u8>>, Difference> {
    let messages = cut(answer);
    for number in [0, 1, 2, 3, 255, 256, u32::MAX] {
        let expected = match &messages {
            Ok(messages) => messages.get(number as usize).map_or(
                // No such message: no place, and no refusal.
                Place { refusal: 0, at: 0, length: 0 },
                |(at, message)| Place { refusal: 0, at: *at as u32, length: message.len() as u32 },
            ),
            Err(refusal) => Place { refusal: *refusal, at: 0, length: 0 },
        };
        let given = entries.message_at(answer, number);
        if given != expected {
            return Err(format!("message {number} of {}: should be {expected:?}, is {given:?}", hex(answer)));
        }
    }
    Ok(messages.unwrap_or_default().into_iter().map(|(_, message)| message.to_vec()).collect())
}
