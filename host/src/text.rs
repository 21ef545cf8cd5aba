//! Events as text, one line each, both ways: a day can be written in an editor, kept in a repository and shown in a review. Rests on
//! read, event, fields, decimal and words.
//!
//! A line is the event's word and its fields, `name=value`, with a blank between them:
//!
//! ```text
//! book client=7 venue=3 name=G1 clordid=C1 symbol=WHEATH27 side=buy ordtype=limit qty=100 price=10.25 timeinforce=day
//! cancel client=7 clordid=C2 origclordid=C1 symbol=WHEATH27 side=buy redelivered
//! replace client=7 clordid=C3 origclordid=C1 symbol=WHEATH27 side=buy qty=80 price=10.5 blocked verdict=pass
//! report venue=3 downstream=G1 exectype=trade ordstatus=partially-filled lastqty=40 lastpx=10.25 cumqty=40 avgpx=10.25
//! unknown venue=3 downstream=G1
//! reject venue=3 downstream=G1-1 reason=99 text="too late"
//! failed venue=3 downstream=G1 text="session down"
//! again venue=3 downstream=G1
//! gateway-cancel name=G1
//! record 0904000000024731
//! ```
//!
//! The fields may stand in any order. Codes are words, or FIX's own characters (`side=1`). A text with other bytes than letters, digits
//! and `._:/+-` stands in quotes, with `\"`, `\\` and `\xNN`. `record` has the bytes of a record that is no event's, in hexadecimal
//! digits. Behind `#` stands a comment if the `#` begins a line or follows a blank.
//!
//! ```
//! use jubafiye::text::{records, to_text};
//!
//! let day = "gateway-cancel name=G1 # at the close\nagain downstream=G1 venue=3\n";
//! let lines: Result<Vec<String>, _> = records(day).map(|(_, record)| Ok(to_text(&record?))).collect();
//! assert_eq!(lines?, ["gateway-cancel name=G1", "again venue=3 downstream=G1"]);
//! # Ok::<(), jubafiye::TextError>(())
//! ```

use std::error;
use std::fmt;
use std::str::FromStr;

use crate::decimal::{Price, Qty};
use crate::event::Event;
use crate::fields::{ExecType, OrdStatus, OrdType, Side, TimeInForce};
use crate::read::{field, kind, number, BadRecord, Fields, Holds};
use crate::words::RiskReject;

/// Why a line is no event.
///
/// ```
/// use jubafiye::{OwnedEvent, TextError};
///
/// let why = "again venu=3 downstream=G1".parse::<OwnedEvent>().unwrap_err();
/// assert_eq!(why, TextError::Field("venu".into()));
/// assert_eq!(why.to_string(), "\"venu\" is no field");
/// ```
#[derive(Debug, Clone, PartialEq, Eq)]
#[non_exhaustive]
pub enum TextError {
    /// It has no word.
    Empty,
    /// It begins with this word, which is none of an event.
    Word(String),
    /// It has this field, which is none of an event.
    Field(String),
    /// It has this field twice.
    Twice(&'static str),
    /// The value of this field does not read.
    Value {
        /// The field.
        field: &'static str,
        /// Why, and what was expected.
        why: String,
    },
    /// A quote that is not closed, or an escape that is none.
    Quote,
    /// What stands behind `record` is not hexadecimal.
    Hex,
    /// The fields read, but they make no event: one is missing, is none of this event or is out of its range.
    Record(BadRecord),
}

impl fmt::Display for TextError {
    fn fmt(&self, f: &mut fmt::Formatter<'_>) -> fmt::Result {
        match self {
            Self::Empty => f.write_str("no event stands here"),
            Self::Word(word) => write!(f, "{word:?} is no event: book, cancel, replace, report, unknown, reject, failed, again, gateway-cancel or record"),
            Self::Field(name) => write!(f, "{name:?} is no field"),
            Self::Twice(name) => write!(f, "the field {name} stands there twice"),
            Self::Value { field, why } => write!(f, "{field}: {why}"),
            Self::Quote => f.write_str("a quote is not closed, or an escape is none of \\\", \\\\ and \\xNN"),
            Self::Hex => f.write_str("the record is not in hexadecimal digits, two for each byte"),
            Self::Record(bad) => bad.fault().fmt(f),
        }
    }
}

impl error::Error for TextError {
    fn source(&self) -> Option<&(dyn error::Error + 'static)> {
        match self {
            Self::Record(bad) => Some(bad),
            _ => None,
        }
    }
}

/// An event with its own bytes, made from a record, from an [`Event`] or from a line of text. It is in its ranges: whether the book
/// takes it depends on the book alone.
///
/// ```
/// use jubafiye::{Event, OwnedEvent};
///
/// let event: OwnedEvent = "failed venue=3 downstream=G1 text=\"session down\"".parse()?;
/// assert_eq!(event.event(), Event::SendFailed { venue: 3, downstream: b"G1", text: b"session down" });
/// assert_eq!(event.to_string(), "failed venue=3 downstream=G1 text=\"session down\"");
/// # Ok::<(), jubafiye::TextError>(())
/// ```
#[derive(Clone, PartialEq, Eq, Hash)]
pub struct OwnedEvent {
    record: Vec<u8>,
}

impl OwnedEvent {
    /// The event of a record.
    ///
    /// ```
    /// use jubafiye::{Event, OwnedEvent};
    ///
    /// let record = Event::GatewayCancel { name: b"G1" }.record();
    /// assert_eq!(OwnedEvent::from_record(record.clone())?.record(), record);
    /// assert!(OwnedEvent::from_record(b"no record").is_err());
    /// # Ok::<(), jubafiye::BadRecord>(())
    /// ```
    pub fn from_record(record: impl Into<Vec<u8>>) -> Result<Self, BadRecord> {
        let record = record.into();
        Event::read(&record)?;
        Ok(Self { record })
    }

    /// The event, with its texts in these bytes.
    /// ```
    /// use jubafiye::{Event, OwnedEvent};
    ///
    /// let event: OwnedEvent = "gateway-cancel name=G1".parse()?;
    /// assert_eq!(event.event(), Event::GatewayCancel { name: b"G1" });
    /// # Ok::<(), jubafiye::TextError>(())
    /// ```
    pub fn event(&self) -> Event<'_> {
        // The record was read when this was made.
        Event::read(&self.record).unwrap_or(Event::GatewayCancel { name: b"" })
    }

    /// The event's record.
    /// [`OwnedEvent::from_record`] has an example.
    pub fn record(&self) -> &[u8] {
        &self.record
    }
}

impl TryFrom<&Event<'_>> for OwnedEvent {
    type Error = BadRecord;

    fn try_from(event: &Event<'_>) -> Result<Self, BadRecord> {
        Self::from_record(event.record())
    }
}

impl fmt::Display for OwnedEvent {
    fn fmt(&self, f: &mut fmt::Formatter<'_>) -> fmt::Result {
        f.write_str(&to_text(&self.record))
    }
}

impl fmt::Debug for OwnedEvent {
    fn fmt(&self, f: &mut fmt::Formatter<'_>) -> fmt::Result {
        write!(f, "OwnedEvent({self})")
    }
}

impl FromStr for OwnedEvent {
    type Err = TextError;

    fn from_str(line: &str) -> Result<Self, TextError> {
        Self::from_record(from_text(line)?).map_err(TextError::Record)
    }
}

/// Its text form, as [`OwnedEvent`] reads it; a field that does not fit is shown as it would be written.
impl fmt::Display for Event<'_> {
    fn fmt(&self, f: &mut fmt::Formatter<'_>) -> fmt::Result {
        let record = self.record();
        let text = Fields::shape(&record).ok().and_then(|fields| fields_text(&fields));
        f.write_str(&text.unwrap_or_else(|| hex(&record)))
    }
}

/// A record as a line of text, whatever its bytes: [`from_text`] gives these bytes back.
///
/// ```
/// use jubafiye::text::{from_text, to_text};
///
/// assert_eq!(to_text(b"\x09\x04\0\0\0\x02G1"), "gateway-cancel name=G1");
/// assert_eq!(to_text(b"\xff\0"), "record ff00");
/// assert_eq!(from_text("record ff00")?, b"\xff\0");
/// # Ok::<(), jubafiye::TextError>(())
/// ```
pub fn to_text(record: &[u8]) -> String {
    let text = Fields::read(record).ok().and_then(|fields| fields_text(&fields));
    text.unwrap_or_else(|| hex(record))
}

/// The record of a line of text. Of an event's line it passes questions 3 and 4; `record` gives any bytes.
///
/// ```
/// use jubafiye::text::from_text;
///
/// let why = from_text("again venue=3").unwrap_err();
/// assert_eq!(why.to_string(), "the field downstream is missing");
/// ```
pub fn from_text(line: &str) -> Result<Vec<u8>, TextError> {
    let tokens = tokens(line)?;
    let Some((word, rest)) = tokens.split_first() else { return Err(TextError::Empty) };
    if word == "record" {
        return rest.iter().try_fold(Vec::new(), |bytes, token| Ok([bytes, unhex(token)?].concat()));
    }
    let number = (1..=9).find(|&number| kind(number).is_some_and(|kind| kind.0 == word));
    let Some(number) = number else { return Err(TextError::Word(word.clone())) };
    let mut values: [Option<Vec<u8>>; 24] = Default::default();
    for token in rest {
        let (name, value) = token.split_once('=').unwrap_or((token, ""));
        let found = values.iter_mut().enumerate().find(|(bit, _)| field(*bit).0 == name);
        let Some((bit, place)) = found else { return Err(TextError::Field(name.into())) };
        let (name, holds) = field(bit);
        let value = written(holds, value).map_err(|why| TextError::Value { field: name, why })?;
        if place.replace(value).is_some() {
            return Err(TextError::Twice(name));
        }
    }
    let mut map: u32 = 0;
    let mut record = vec![number, 0, 0, 0, 0];
    for (bit, value) in values.iter().enumerate() {
        let Some(value) = value else { continue };
        map |= u32::try_from(bit).ok().and_then(|bit| 1u32.checked_shl(bit)).unwrap_or_default();
        record.extend_from_slice(value);
    }
    record.iter_mut().skip(1).zip(map.to_le_bytes()).for_each(|(to, from)| *to = from);
    match Fields::read(&record) {
        Ok(_) => Ok(record),
        Err(bad) => Err(TextError::Record(bad)),
    }
}

/// The records of many lines, each with its number from 1; blank lines and comments are passed over.
///
/// ```
/// use jubafiye::text::records;
///
/// let day = "# a morning\n\nagain venue=3 downstream=G1 # after the restart\n";
/// let records: Vec<_> = records(day).collect();
/// assert_eq!((records.len(), records[0].0), (1, 3));
/// assert_eq!(records[0].1, Ok(b"\x08\x22\0\0\0\x03\0\x02G1".to_vec()));
/// ```
pub fn records(text: &str) -> impl Iterator<Item = (usize, Result<Vec<u8>, TextError>)> + '_ {
    let numbered = text.lines().enumerate().map(|(at, line)| (at.saturating_add(1), from_text(line)));
    numbered.filter(|(_, record)| !matches!(record, Err(TextError::Empty)))
}

/// The parts of a line between blanks, quotes kept together, up to a comment.
fn tokens(line: &str) -> Result<Vec<String>, TextError> {
    let (mut tokens, mut token, mut quoted, mut escaped) = (Vec::new(), String::new(), false, false);
    for c in line.chars() {
        match c {
            _ if escaped => escaped = false,
            '\\' if quoted => escaped = true,
            '"' => quoted = !quoted,
            '#' if !quoted && token.is_empty() => break,
            c if c.is_whitespace() && !quoted => {
                tokens.push(std::mem::take(&mut token));
                continue;
            }
            _ => {}
        }
        token.push(c);
    }
    if quoted {
        return Err(TextError::Quote);
    }
    tokens.push(token);
    tokens.retain(|token| !token.is_empty());
    Ok(tokens)
}

/// A field's bytes in a record, its length with a text.
fn written(holds: Holds, value: &str) -> Result<Vec<u8>, String> {
    let decimal = |error: crate::decimal::DecimalError| error.to_string();
    Ok(match holds {
        Holds::Short => {
            value.parse::<u16>().map_err(|_| "no number up to 65535".to_string())?.to_le_bytes().into()
        }
        Holds::Word => {
            value.parse::<u32>().map_err(|_| "no number of 32 bits".to_string())?.to_le_bytes().into()
        }
        Holds::Name | Holds::Text { .. } => {
            let text = unquoted(value)?;
            let length = u8::try_from(text.len()).map_err(|_| "longer than 255 bytes".to_string())?;
            [vec![length], text].concat()
        }
        Holds::Qty => value.parse::<Qty>().map_err(decimal)?.0.to_le_bytes().into(),
        Holds::Price => {
            let count = value.parse::<Price>().map_err(decimal)?.0;
            u64::try_from(count).unwrap_or(u64::MAX).to_le_bytes().into()
        }
        Holds::Flag if value.is_empty() => Vec::new(),
        Holds::Flag => return Err("it has no value".into()),
        _ => vec![coded(holds, value)?],
    })
}

/// The code of a word, or of FIX's own character.
fn coded(holds: Holds, value: &str) -> Result<u8, String> {
    let all = || (0..=u8::MAX).filter_map(|code| Some((code, word(holds, code)?)));
    let same =
        |&(code, ref word): &(u8, String)| *word == value || value.as_bytes() == [character(holds, code)];
    let found = all().find(same).map(|(code, _)| code);
    found.ok_or_else(|| {
        format!("{value:?} is none of {}", all().map(|(_, word)| word).collect::<Vec<_>>().join(", "))
    })
}

/// The character of a code: a verdict's is its digit, any other is FIX's.
fn character(holds: Holds, code: u8) -> u8 {
    match holds {
        Holds::Verdict => code.saturating_add(b'0'),
        _ => code,
    }
}

/// The word of a code, with `-` in place of a blank.
fn word(holds: Holds, code: u8) -> Option<String> {
    let word = match holds {
        Holds::Side => Side::from_code(code)?.to_string(),
        Holds::OrdType => OrdType::from_code(code)?.to_string(),
        Holds::TimeInForce => TimeInForce::from_code(code)?.to_string(),
        Holds::ExecType => ExecType::from_code(code)?.to_string(),
        Holds::OrdStatus => OrdStatus::from_code(code)?.to_string(),
        Holds::Verdict if code == 0 => "pass".into(),
        Holds::Verdict => RiskReject::from_number(code)?.to_string(),
        _ => return None,
    };
    Some(word.replace(' ', "-"))
}

/// The text of fields; none if a code is not listed.
fn fields_text(fields: &Fields<'_>) -> Option<String> {
    let mut text = kind(fields.kind)?.0.to_string();
    for bit in 0..24 {
        let Some(bytes) = fields.get(bit) else { continue };
        let (name, holds) = field(bit);
        let value = match holds {
            Holds::Flag => {
                text = format!("{text} {name}");
                continue;
            }
            Holds::Short | Holds::Word => number(bytes).to_string(),
            Holds::Name | Holds::Text { .. } => quoted(bytes),
            Holds::Qty => Qty(number(bytes)).to_string(),
            Holds::Price => Price(number(bytes).into()).to_string(),
            _ => word(holds, *bytes.first()?)?,
        };
        text = format!("{text} {name}={value}");
    }
    Some(text)
}

/// A text as it stands behind `=`.
fn quoted(bytes: &[u8]) -> String {
    let plain = |byte: &u8| byte.is_ascii_alphanumeric() || b"._:/+-".contains(byte);
    if !bytes.is_empty() && bytes.iter().all(plain) {
        return bytes.iter().copied().map(char::from).collect();
    }
    let escaped = bytes.iter().map(|&byte| match byte {
        b'"' | b'\\' => format!("\\{}", char::from(byte)),
        b' '..=b'~' => char::from(byte).to_string(),
        byte => format!("\\x{byte:02x}"),
    });
    format!("\"{}\"", escaped.collect::<String>())
}

/// The bytes of what stands behind `=`.
fn unquoted(value: &str) -> Result<Vec<u8>, String> {
    let bad = || TextError::Quote.to_string();
    let Some(inner) = value.strip_prefix('"') else {
        return if value.contains(['"', '\\']) { Err(bad()) } else { Ok(value.into()) };
    };
    let mut rest = inner.strip_suffix('"').ok_or_else(bad)?.chars();
    let mut text = Vec::new();
    while let Some(c) = rest.next() {
        match (c, if c == '\\' { rest.next() } else { None }) {
            ('\\', Some(c @ ('"' | '\\'))) => text.extend(u8::try_from(c)),
            ('\\', Some('x')) => {
                let digits: String = rest.by_ref().take(2).collect();
                text.extend(unhex(&digits).map_err(|_| bad())?);
            }
            ('\\' | '"', _) => return Err(bad()),
            (c, _) => text.extend(c.to_string().bytes()),
        }
    }
    Ok(text)
}

fn hex(record: &[u8]) -> String {
    record.iter().fold("record ".into(), |text, byte| format!("{text}{byte:02x}"))
}

fn unhex(digits: &str) -> Result<Vec<u8>, TextError> {
    let digits: Option<Vec<u32>> = digits.chars().map(|digit| digit.to_digit(16)).collect();
    let digits = digits.ok_or(TextError::Hex)?;
    let byte = |pair: &[u32]| match pair {
        [high, low] => u8::try_from(high.saturating_mul(16).saturating_add(*low)).ok(),
        _ => None,
    };
    digits.chunks(2).map(byte).collect::<Option<_>>().ok_or(TextError::Hex)
}
