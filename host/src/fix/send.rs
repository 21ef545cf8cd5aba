//! An answer's messages, each with the peer that it is for and its record; and what a session may change of a message before it
//! sends it (docs/FIX.md, Sending). Rests on read and on message.

use super::{read, records, to_vec, write, Error, Header};
use crate::error::{self, BadAnswer, Fault, Refusal};
use crate::message::Message;

/// Whom a message is for, by number: each has a FIX session of its own, with its comp IDs and its sequence.
///
/// ```
/// use jubafiye::{fix::Peer, Answer};
/// use std::collections::BTreeMap;
///
/// // each peer's next MsgSeqNum(34)
/// let mut next = BTreeMap::from([(Peer::Client(7), 1), (Peer::Venue(3), 1)]);
/// // an answer with a new order for venue 3: G1, WHEAT, buy, market, 100
/// let answer = Answer::read(b"\x1f\0\x01\0\0\x12\xe2\x03\0\0\x03\0\x02G1\x05WHEAT11\x40\x42\x0f\0\0\0\0\0")?;
/// for message in &answer.messages {
///     *next.entry(Peer::of(message)).or_insert(1) += 1;
/// }
/// assert_eq!(next, BTreeMap::from([(Peer::Client(7), 1), (Peer::Venue(3), 2)]));
/// # Ok::<(), jubafiye::BadAnswer>(())
/// ```
#[derive(Debug, Clone, Copy, PartialEq, Eq, PartialOrd, Ord, Hash)]
pub enum Peer {
    /// A client: ExecutionReports and OrderCancelRejects.
    Client(u16),
    /// A venue: orders, cancels and replaces.
    Venue(u16),
}

impl Peer {
    /// The peer that a message is for.
    /// ```
    /// use jubafiye::{fix::Peer, Answer};
    ///
    /// // An answer with a new order for venue 3: G1, WHEAT, buy, market, 100.
    /// let answer = b"\x1f\0\x01\0\0\x12\xe2\x03\0\0\x03\0\x02G1\x05WHEAT11\x40\x42\x0f\0\0\0\0\0";
    /// assert_eq!(Peer::of(&Answer::read(answer)?.messages[0]), Peer::Venue(3));
    /// # Ok::<(), jubafiye::BadAnswer>(())
    /// ```
    pub const fn of(message: &Message) -> Self {
        match message {
            Message::Report(report) => Self::Client(report.client),
            Message::CancelReject(reject) => Self::Client(reject.client),
            Message::NewOrder(order) => Self::Venue(order.venue),
            Message::Cancel(request) | Message::Replace(request) => Self::Venue(request.venue),
        }
    }
}

/// A message of an answer, in its types and as the record that [`write`](super::write) takes.
///
/// ```
/// use jubafiye::fix::{self, Outgoing, Peer};
///
/// // an answer with a new order for venue 3: G1, WHEAT, buy, market, 100
/// let answer = b"\x1f\0\x01\0\0\x12\xe2\x03\0\0\x03\0\x02G1\x05WHEAT11\x40\x42\x0f\0\0\0\0\0";
/// let all: Vec<Outgoing> = fix::outgoing(answer)?.collect();
/// assert_eq!((all.len(), all[0].to, all[0].message.kind()), (1, Peer::Venue(3), 18));
/// assert_eq!(all[0].record, &answer[5..]);
/// # Ok::<(), jubafiye::Error>(())
/// ```
#[derive(Debug, Clone, PartialEq, Eq)]
#[non_exhaustive]
pub struct Outgoing<'a> {
    /// Whom it is for.
    pub to: Peer,
    /// What it says.
    pub message: Message,
    /// Its record.
    pub record: &'a [u8],
}

impl Outgoing<'_> {
    /// The whole FIX message at the front of `out`: [`write`](super::write) of its record.
    /// ```
    /// use jubafiye::fix;
    ///
    /// // An answer with a new order for venue 3: G1, WHEAT, buy, market, 100.
    /// let answer = b"\x1f\0\x01\0\0\x12\xe2\x03\0\0\x03\0\x02G1\x05WHEAT11\x40\x42\x0f\0\0\0\0\0";
    /// let header = fix::Header { sender: b"US", target: b"THEM", sequence: 7, time: b"20261116-12:34:56" };
    /// let order = fix::outgoing(answer)?.next().unwrap();
    /// let mut buffer = vec![0; header.room()];
    /// assert!(order.write(&header, &mut buffer)?.starts_with(b"8=FIX.4.4\x01"));
    /// # Ok::<(), jubafiye::Error>(())
    /// ```
    pub fn write<'a>(&self, header: &Header<'_>, out: &'a mut [u8]) -> Result<&'a [u8], Refusal> {
        write(self.record, header, out)
    }

    /// The same, into bytes of its own.
    /// [`outgoing`] has an example.
    pub fn to_vec(&self, header: &Header<'_>) -> Result<Vec<u8>, Refusal> {
        to_vec(self.record, header)
    }
}

/// The messages of an answer, in the order in which they are to be sent. They may be for different peers: the client of a
/// refused cancel, and the venue to which the gateway's own cancel goes.
///
/// [`crate::Error::Refused`] if the bytes are no answer by [`records`]; [`crate::Error::Unreadable`] if this crate does
/// not read a message that the library cut out, which the proved library never gives.
///
/// ```
/// # #[cfg(feature = "book")] {
/// use std::collections::BTreeMap;
/// use jubafiye::fix::{self, Header, Peer};
/// use jubafiye::{Amend, Book, Booking, Event, OrdType, RejectedRequest, Side, ANSWER_BYTES};
///
/// # let booking = Booking {
/// #     client: 7, venue: 3, name: b"G1", cl_ord_id: b"C1", symbol: b"WHEATH27", side: Side::Buy, ord_type: OrdType::Limit,
/// #     qty: "100".parse()?, price: Some("10.25".parse()?), time_in_force: None,
/// # };
/// # let cancel = Amend {
/// #     client: 7, cl_ord_id: b"C2", orig_cl_ord_id: b"C1", symbol: b"WHEATH27", side: Side::Buy, redelivered: false,
/// # };
/// # let too_late = RejectedRequest {
/// #     venue: 3, downstream: b"G1-1", status: None, venue_order_id: None, reason: Some(2), text: None,
/// # };
/// // A client's cancel is refused by the venue while the gateway's own waits for it.
/// let mut book = Book::new(10_000);
/// book.take(&Event::Book(booking))?;
/// book.take(&Event::Cancel(cancel))?;
/// book.take(&Event::GatewayCancel { name: b"G1" })?;
/// let mut buffer = [0; ANSWER_BYTES];
/// let answer = book.take_record_into(&Event::CancelReject(too_late).record(), &mut buffer)?;
///
/// // Each peer's TargetCompID, and the sequence number that comes next.
/// let mut sessions: BTreeMap<Peer, (&[u8], u64)> =
///     BTreeMap::from([(Peer::Client(7), (&b"DESK"[..], 1)), (Peer::Venue(3), (&b"VENUE"[..], 1))]);
/// let mut sent = Vec::new();
/// for outgoing in fix::outgoing(answer)? {
///     let (target, sequence) = sessions.get_mut(&outgoing.to).ok_or("a peer without a session")?;
///     let header = Header { sender: b"GATEWAY", target, sequence: *sequence, time: b"20261116-12:34:56.789" };
///     *sequence += 1;
///     sent.push(String::from_utf8(outgoing.to_vec(&header)?)?.replace('\x01', "|"));
/// }
/// assert!(sent[0].contains("|35=9|49=GATEWAY|56=DESK|34=1|"));
/// assert!(sent[1].contains("|35=F|49=GATEWAY|56=VENUE|34=1|"));
/// # assert_eq!(sent.len(), 2);
/// # }
/// # Ok::<(), Box<dyn std::error::Error>>(())
/// ```
pub fn outgoing(answer: &[u8]) -> Result<impl Iterator<Item = Outgoing<'_>>, error::Error> {
    let read = |record| match Message::read(record) {
        Ok((message, [])) => Ok(Outgoing { to: Peer::of(&message), message, record }),
        Ok(_) => Err(Fault::Over),
        Err(fault) => Err(fault),
    };
    let messages: Result<Vec<_>, Fault> = records(answer)?.into_iter().map(read).collect();
    Ok(messages.map_err(|fault| BadAnswer::new(answer, fault))?.into_iter())
}

/// The byte that stands in place of one below 32, as on the evening page.
const BLANK: u8 = b' ';

/// A text with a blank in place of each byte below 32: what [`Refusal::Text`] is about, an empty text aside.
///
/// ```
/// # use jubafiye::fix;
/// assert_eq!(fix::clean(b"line 1\r\nline 2 \xe9"), b"line 1  line 2 \xe9");
/// ```
pub fn clean(text: &[u8]) -> Vec<u8> {
    text.iter().map(|&byte| if byte < 32 { BLANK } else { byte }).collect()
}

/// A message's record with its text (bit 20, FIX's Text) cleaned as by [`clean`], and nothing else changed: what to write if
/// [`write`](super::write) refuses a message with [`Refusal::Text`] that the book has put out. A record without a text, and
/// bytes that are no record, are copied as they are.
/// ```
/// // A record of kind 16 with a text alone.
/// let record = b"\x10\0\0\x10\0\x03a\nb";
/// assert_eq!(jubafiye::fix::with_clean_text(record), b"\x10\0\0\x10\0\x03a b");
/// ```
pub fn with_clean_text(record: &[u8]) -> Vec<u8> {
    let mut cleaned = record.to_vec();
    if let Some(text) = text_at(record).and_then(|place| cleaned.get_mut(place)) {
        text.iter_mut().filter(|byte| **byte < 32).for_each(|byte| *byte = BLANK);
    }
    cleaned
}

/// The bit of a text that came with the event.
const TEXT: u32 = 20;

/// Where the bytes of a record's text stand.
fn text_at(record: &[u8]) -> Option<std::ops::Range<usize>> {
    let map = u32::from_le_bytes(*record.get(1..)?.first_chunk()?);
    let stands = |bit: &u32| map.checked_shr(*bit).is_some_and(|map| map & 1 == 1);
    let mut at = 5_usize;
    for bit in (0..TEXT).filter(stands) {
        at = at.checked_add(width(bit, record.get(at..)?)?)?;
    }
    let length = width(TEXT, record.get(at..)?).filter(|_| stands(&TEXT))?;
    Some(at.checked_add(1)?..at.checked_add(length)?)
}

/// How many bytes the field of a bit has that stands at the front (docs/SCOPE.md, Records); of a text its length's too.
fn width(bit: u32, bytes: &[u8]) -> Option<usize> {
    Some(match bit {
        0 | 1 => 2,
        2..=6 | 18 | 20 => usize::from(*bytes.first()?).checked_add(1)?,
        7 | 8 | 11..=13 => 1,
        19 => 4,
        _ => 8,
    })
}

/// A field that a session adds to a message: `97=Y` behind 52, say.
///
/// ```
/// use jubafiye::fix::{self, Extra};
///
/// let message = "8=FIX.4.4|9=103|35=D|49=US|56=THEM|34=7|52=20261116-12:34:56|11=G1|55=WHEAT|54=1|40=1|\
///     38=100.0000|60=20261116-12:34:56|10=067|".replace('|', "\x01");
/// // an operator entered it by hand: ManualOrderIndicator(1028), behind OrderQty(38)
/// let by_hand = Extra { behind: 38, tag: 1028, value: b"Y" };
/// let sent = fix::with_extras(message.as_bytes(), &[by_hand])?;
/// assert!(String::from_utf8_lossy(&sent).contains("\x0138=100.0000\x011028=Y\x01"));
/// # Ok::<(), fix::Error>(())
/// ```
#[derive(Debug, Clone, Copy, PartialEq, Eq, Hash)]
pub struct Extra<'a> {
    /// The tag of the field that it comes behind.
    pub behind: u32,
    /// Its tag.
    pub tag: u32,
    /// Its value, not empty and without a byte below 32.
    pub value: &'a [u8],
}

/// A message that [`write`](super::write) wrote with further fields, BodyLength(9) and CheckSum(10) made anew. An extra whose
/// `behind` is not in the message, or is 8, 9 or 10, is left out. What comes out is no message of the library any more:
/// [`read`] refuses it.
///
/// ```
/// use jubafiye::fix::{self, Extra};
///
/// // A new order for venue 3: G1, WHEAT, buy, market, 100.
/// let record = b"\x12\xe2\x03\0\0\x03\0\x02G1\x05WHEAT11\x40\x42\x0f\0\0\0\0\0";
/// let header = fix::Header { sender: b"US", target: b"THEM", sequence: 7, time: b"20261116-12:34:56" };
/// let message = fix::to_vec(record, &header)?;
/// // It goes again after a restart: PossResend.
/// let again = fix::with_extras(&message, &[Extra { behind: 52, tag: 97, value: b"Y" }])?;
/// let told = String::from_utf8(again)?.replace('\x01', "|");
/// assert!(told.starts_with("8=FIX.4.4|9=108|35=D|49=US|56=THEM|34=7|52=20261116-12:34:56|97=Y|11=G1|"));
/// assert!(told.ends_with("|60=20261116-12:34:56|10=079|"));
/// # Ok::<(), Box<dyn std::error::Error>>(())
/// ```
pub fn with_extras(message: &[u8], extras: &[Extra<'_>]) -> Result<Vec<u8>, Error> {
    let fields = read(message)?.fields;
    let mut body = Vec::new();
    for (tag, value) in fields.iter().filter(|field| ![8, 9, 10].contains(&field.0)) {
        put(&mut body, tag, value);
        extras
            .iter()
            .filter(|extra| extra.behind == tag)
            .for_each(|extra| put(&mut body, extra.tag, extra.value));
    }
    let mut whole = Vec::new();
    put(&mut whole, 8, b"FIX.4.4");
    put(&mut whole, 9, body.len().to_string().as_bytes());
    whole.append(&mut body);
    let sum = whole.iter().fold(0_u8, |sum, &byte| sum.wrapping_add(byte));
    put(&mut whole, 10, format!("{sum:03}").as_bytes());
    Ok(whole)
}

fn put(message: &mut Vec<u8>, tag: u32, value: &[u8]) {
    message.extend([tag.to_string().as_bytes(), b"=", value, b"\x01"].concat());
}
