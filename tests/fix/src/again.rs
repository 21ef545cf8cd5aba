//! A second decision of what some record writes: read loosely by tags, make a record, write it again,
//! compare. Rests on records and writer.

use crate::records::{FIXED, Form, NAME, ORIGIN, REASON, Record, SEQUENCE, TEXT, form};
use crate::writer::{Header, WORDS, write};

/// A record and a header that write the message, if there are such.
pub fn unwrite(message: &[u8]) -> Option<(Record, Header)> {
    // A writing ends with its sum: most changed messages end here.
    let (before, trailer) = message.split_at_checked(message.len().checked_sub(7)?)?;
    let sum = before.iter().fold(0_u8, |sum, &byte| sum.wrapping_add(byte));
    (trailer == format!("10={sum:03}\x01").as_bytes()).then_some(())?;
    let fields: Vec<(&[u8], &[u8])> = message
        .split(|&byte| byte == 1)
        .map(|field| {
            let cut = field.iter().position(|&byte| byte == b'=').unwrap_or(field.len());
            (&field[..cut], field.get(cut + 1..).unwrap_or_default())
        })
        .collect();
    let first = |tag: &str| fields.iter().find(|field| field.0 == tag.as_bytes()).map(|field| field.1);
    let sequence = count(first("34")?, 0)?.try_into().ok()?;
    let header = Header::new(first("49")?, first("56")?, sequence, first("52")?);
    let mut record = Record::new(match first("35")? {
        b"8" => 16,
        b"9" => 17,
        b"D" => 18,
        b"F" => 19,
        b"G" => 20,
        _ => return None,
    });
    fill_in(&mut record);
    let mut behind = false;
    for (tag, value) in fields {
        behind |= tag == b"31";
        put(&mut record, tag, value, behind)?;
    }
    (write(&record.bytes(), &header, usize::MAX).ok()? == message).then_some((record, header))
}

/// The fields that FIX does not carry.
fn fill_in(record: &mut Record) {
    let uncarried: &[(usize, &[u8])] = match record.kind {
        16 => &[(0, &[0, 0]), (31, &[0])],
        17 => &[(0, &[0, 0]), (ORIGIN, &[1])],
        19 => &[(1, &[0, 0]), (8, b"1")],
        _ => &[(1, &[0, 0])],
    };
    for (bit, content) in uncarried {
        record.fields[*bit] = Some(content.to_vec());
    }
}

/// The bit of a tag in a message of that kind; `behind` 31.
fn bit(kind: u8, tag: &[u8], behind: bool) -> Option<usize> {
    let to_venue = kind >= 18;
    Some(match tag {
        b"37" => [NAME, 18][usize::from(to_venue)],
        b"11" => [3, 5][usize::from(to_venue)],
        b"41" => [4, 30][usize::from(to_venue)],
        b"55" => 6,
        b"54" => 7,
        b"40" => 8,
        b"38" => 9,
        b"44" => 10,
        b"59" => 11,
        b"150" => 12,
        b"39" => 13,
        b"32" => 14,
        b"14" => 16,
        b"6" => 17,
        b"102" | b"103" => REASON,
        b"58" => [TEXT, FIXED][usize::from(behind)],
        b"151" => 24,
        b"17" => SEQUENCE,
        b"31" => 26,
        b"434" => 29,
        _ => return None,
    })
}

fn put(record: &mut Record, tag: &[u8], value: &[u8], behind: bool) -> Option<()> {
    let Some(bit) = bit(record.kind, tag, behind) else { return Some(()) };
    if record.kind == 17 && bit == NAME && value == b"NONE" {
        return Some(());
    }
    record.fields[bit] = Some(content(bit, value)?);
    if bit == REASON {
        record.fields[ORIGIN] = Some(vec![1]);
    }
    Some(())
}

/// A field's content in a record, from its value in FIX.
fn content(bit: usize, value: &[u8]) -> Option<Vec<u8>> {
    let decimals = match bit {
        9 | 14 | 16 | 24 => 4,
        10 | 17 | 26 => 8,
        _ => 0,
    };
    let number = match bit {
        FIXED => WORDS.iter().position(|word| word.as_bytes() == value)? as u128 + 1,
        29 => count(value, 0)?,
        SEQUENCE => count(value.rsplit(|&byte| byte == b'.').next()?, 0)?,
        _ if matches!(form(bit), Some(Form::Number(..))) => count(value, decimals)?,
        _ => return (value.len() < 256).then(|| value.to_vec()),
    };
    let length = match form(bit)? {
        Form::Number(length, _) => length,
        _ => 1,
    };
    let bytes = number.to_le_bytes();
    bytes[length..].iter().all(|&byte| byte == 0).then(|| bytes[..length].to_vec())
}

/// Digits with so many decimals as a count of the smallest unit, loosely.
fn count(value: &[u8], decimals: usize) -> Option<u128> {
    let text = std::str::from_utf8(value).ok()?;
    let (whole, part) = text.split_once('.').unwrap_or((text, ""));
    (part.len() == decimals).then_some(())?;
    [whole, part].concat().parse().ok()
}
