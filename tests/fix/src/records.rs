//! Records of messages, read and written plainly by docs/SCOPE.md (Records, Codes, Answers). Rests on
//! nothing.

/// The bits of the fields that are named here.
pub const NAME: usize = 2;
pub const REASON: usize = 19;
pub const TEXT: usize = 20;
pub const SEQUENCE: usize = 25;
pub const FILL_PRICE: usize = 26;
pub const FIXED: usize = 27;
pub const ORIGIN: usize = 28;

/// What a field holds.
#[derive(Debug, Clone, Copy, PartialEq, Eq)]
pub enum Form {
    /// So many bytes of a number, up to a largest one.
    Number(usize, u128),
    /// A byte of a list.
    Code(&'static [u8]),
    /// A text of so many bytes at least and at most.
    Text(usize, usize),
    /// A letters-and-digits text that is not `NONE`.
    Name,
}

/// The form of a message's field; an event's own have none.
pub fn form(bit: usize) -> Option<Form> {
    use Form::{Code, Name, Number, Text};
    Some(match bit {
        0 | 1 => Number(2, u128::MAX),
        2 => Name,
        3..=5 | 30 => Text(1, 32),
        6 => Text(1, 16),
        7 => Code(b"125"),
        8 => Code(b"12"),
        9 | 14 | 16 | 24 => Number(8, 1_000_000_000_000),
        10 | 17 => Number(8, 100_000_000_000_000),
        11 => Code(b"0134"),
        12 => Code(b"A0F64E58CD3I"),
        13 => Code(b"A0126E4C83"),
        18 => Text(0, 32),
        19 => Number(4, u128::MAX),
        20 => Text(1, 64),
        25 => Number(8, u128::MAX),
        26 => Number(16, u128::MAX),
        27 => Code(&[1, 2, 3, 4, 5, 6, 7, 8, 9, 10, 11, 12, 13, 14, 15, 16, 17, 18]),
        28 | 29 => Code(&[1, 2]),
        31 => Code(&[0, 1, 2, 3]),
        _ => return None,
    })
}

/// The bits that a message has and those that it may have, pairs and choices aside.
pub fn bits(kind: u8) -> Option<(&'static [usize], &'static [usize])> {
    Some(match kind {
        16 => (&[0, 2, 3, 6, 7, 8, 9, 12, 13, 14, 16, 17, 24, 25, 26, 31], &[4, 10, 11, 19, 20, 27, 28]),
        17 => (&[0, 3, 4, 13, 19, 28, 29], &[2, 20, 27]),
        18 => (&[1, 5, 6, 7, 8, 9], &[10, 11]),
        19 | 20 => (&[1, 5, 6, 7, 8, 9, 30], &[10, 11, 18]),
        _ => return None,
    })
}

/// Whether a message of that kind may have just these bits.
pub fn has_right_bits(kind: u8, stands: impl Fn(usize) -> bool) -> bool {
    let Some((always, maybe)) = bits(kind) else { return false };
    let listed = |bit: &usize| always.contains(bit) || maybe.contains(bit);
    always.iter().all(|&bit| stands(bit))
        && (0..32).filter(|bit| !listed(bit)).all(|bit| !stands(bit))
        && stands(REASON) == stands(ORIGIN)
        && !(stands(TEXT) && stands(FIXED))
        && (kind != 17 || stands(TEXT) || stands(FIXED))
}

/// A kind and the contents of its fields: a text without its length.
#[derive(Debug, Clone, PartialEq, Eq)]
pub struct Record {
    pub kind: u8,
    pub fields: [Option<Vec<u8>>; 32],
}

impl Record {
    pub fn new(kind: u8) -> Self {
        Self { kind, fields: Default::default() }
    }

    pub fn with(mut self, bit: usize, content: &[u8]) -> Self {
        self.fields[bit] = Some(content.to_vec());
        self
    }

    pub fn without(mut self, bit: usize) -> Self {
        self.fields[bit] = None;
        self
    }

    pub fn has(&self, bit: usize) -> bool {
        self.fields[bit].is_some()
    }

    /// A field's bytes.
    pub fn text(&self, bit: usize) -> &[u8] {
        self.fields[bit].as_deref().unwrap_or_default()
    }

    /// A field as a number.
    pub fn number(&self, bit: usize) -> u128 {
        self.text(bit).iter().rev().fold(0, |number, &byte| number << 8 | u128::from(byte))
    }

    pub fn bytes(&self) -> Vec<u8> {
        let map: u32 = (0..32).filter(|&bit| self.has(bit)).map(|bit| 1 << bit).sum();
        let mut bytes = vec![self.kind];
        bytes.extend(map.to_le_bytes());
        for (bit, content) in self.fields.iter().enumerate() {
            let Some(content) = content else { continue };
            if matches!(form(bit), Some(Form::Text(..) | Form::Name)) {
                bytes.push(content.len() as u8);
            }
            bytes.extend(content);
        }
        bytes
    }

    /// The record of these bytes, or 3, or 4.
    pub fn read(bytes: &[u8]) -> Result<Self, u32> {
        let record = Self::whole(bytes).ok_or(3_u32)?;
        if (0..32).all(|bit| record.in_range(bit)) { Ok(record) } else { Err(4) }
    }

    fn whole(bytes: &[u8]) -> Option<Self> {
        let ([kind, map @ ..], mut rest) = bytes.split_first_chunk::<5>()?;
        let map = u32::from_le_bytes(*map);
        if !has_right_bits(*kind, |bit| map >> bit & 1 == 1) {
            return None;
        }
        let mut record = Self::new(*kind);
        for bit in (0..32).filter(|bit| map >> bit & 1 == 1) {
            let length = match form(bit)? {
                Form::Number(length, _) => length,
                Form::Code(_) => 1,
                Form::Text(..) | Form::Name => {
                    let (length, behind) = rest.split_first()?;
                    rest = behind;
                    usize::from(*length)
                }
            };
            let (content, behind) = rest.split_at_checked(length)?;
            rest = behind;
            record.fields[bit] = Some(content.to_vec());
        }
        rest.is_empty().then_some(record)
    }

    fn in_range(&self, bit: usize) -> bool {
        let (Some(content), Some(form)) = (&self.fields[bit], form(bit)) else { return true };
        match form {
            Form::Number(_, largest) => self.number(bit) <= largest,
            Form::Code(list) => list.contains(&content[0]),
            Form::Text(least, most) => (least..=most).contains(&content.len()),
            Form::Name => is_name(content),
        }
    }
}

pub fn is_name(text: &[u8]) -> bool {
    (1..=20).contains(&text.len()) && text.iter().all(u8::is_ascii_alphanumeric) && text != b"NONE"
}

/// Where the messages of an answer stand, and their records, cut plainly; or 3, or 4. What stands
/// behind the answer's length is not looked at.
pub fn cut(answer: &[u8]) -> Result<Vec<(usize, &[u8])>, u32> {
    let messages = pieces(answer).ok_or(3_u32)?;
    let read: Vec<_> = messages.iter().map(|(_, message)| Record::read(message)).collect();
    match read.iter().filter_map(|read| read.as_ref().err()).min() {
        Some(refusal) => Err(*refusal),
        None => Ok(messages),
    }
}

fn pieces(answer: &[u8]) -> Option<Vec<(usize, &[u8])>> {
    let [low, high, count @ 0..=2, _, _, ..] = *answer else { return None };
    let answer = answer.get(..usize::from(u16::from_le_bytes([low, high])))?;
    let mut at = 5;
    let mut messages = Vec::new();
    for _ in 0..count {
        let length = length_of(answer.get(at..)?)?;
        messages.push((at, &answer[at..at + length]));
        at += length;
    }
    (at == answer.len()).then_some(messages)
}

/// How many bytes the record at the front of some has, by its map.
fn length_of(bytes: &[u8]) -> Option<usize> {
    let map = u32::from_le_bytes(bytes.get(1..5)?.try_into().ok()?);
    let mut at = 5;
    for bit in (0..32).filter(|bit| map >> bit & 1 == 1) {
        at += match form(bit)? {
            Form::Number(length, _) => length,
            Form::Code(_) => 1,
            Form::Text(..) | Form::Name => 1 + usize::from(*bytes.get(at)?),
        };
    }
    (at <= bytes.len()).then_some(at)
}
