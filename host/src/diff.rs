//! What differs between two books, field by field (docs/LAYOUT.md). Rests on layout, book, view, fields and decimal.

use std::fmt;

use crate::book::Book;
use crate::chain::Outcome;
use crate::decimal::{Price, Qty};
use crate::fields::{OrdStatus, OrdType, Side, TimeInForce};
use crate::kinds::{SentKind, Stage};
use crate::layout::{self, header, order, request, BookBytes, Raw, Shape, Spot};
use crate::message::line;

/// A field that two books have with different values.
///
/// ```
/// # use jubafiye::Book;
/// let changes = Book::new(5).diff(&Book::new(6));
/// assert_eq!(changes[0].to_string(), "header: setting: 5 -> 6");
/// ```
#[derive(Debug, Clone, PartialEq, Eq)]
#[non_exhaustive]
pub struct Change {
    /// The record: `header`, or `order` or `request` with its name.
    pub record: String,
    /// The field, by its name in docs/LAYOUT.md.
    pub field: &'static str,
    /// Its value in the first book; none if the first does not have that record.
    pub before: Option<String>,
    /// Its value in the second book; none if the second does not have that record.
    pub after: Option<String>,
}

impl fmt::Display for Change {
    fn fmt(&self, f: &mut fmt::Formatter<'_>) -> fmt::Result {
        let value = |value: &Option<String>| value.clone().unwrap_or_else(|| "not there".into());
        write!(f, "{}: {}: {} -> {}", self.record, self.field, value(&self.before), value(&self.after))
    }
}

impl Book {
    /// What differs in another book: each field of the header, of the orders and of the requests, record by record. A record that
    /// just one of them has is listed by its fields that are not 0. Open quantities follow from these fields, and spare bytes mean
    /// nothing: neither is listed.
    ///
    /// ```
    /// use jubafiye::{Book, Event};
    /// # use jubafiye::{Booking, ExecType, OrdStatus, OrdType, Price, Qty, Side, VenueReport};
    ///
    /// let mut book = Book::new(10_000);
    /// # book.take(&Event::Book(Booking {
    /// #     client: 7, venue: 3, name: b"G1", cl_ord_id: b"C1", symbol: b"WHEATH27", side: Side::Buy,
    /// #     ord_type: OrdType::Market, qty: Qty::units(100), price: None, time_in_force: None,
    /// # }))?;
    /// // G1 is booked; then its send fails
    /// let before = book.clone();
    /// book.take(&Event::SendFailed { venue: 3, downstream: b"G1", text: b"session down" })?;
    /// let changes: Vec<String> = before.diff(&book).iter().map(|change| change.to_string()).collect();
    /// assert_eq!(changes, [
    ///     "order G1: state.status: pending new -> rejected",
    ///     "order G1: state.execseq: 0 -> 1",
    ///     "request G1: answered: 0 -> 1",
    ///     "request G1: outcome: open -> failed to send",
    /// ]);
    /// # Ok::<(), jubafiye::Error>(())
    /// ```
    pub fn diff(&self, other: &Self) -> Vec<Change> {
        let (one, two) = (self.bytes(), other.bytes());
        let mut changes = Vec::new();
        let header = [Some((one, layout::header(one))), Some((two, layout::header(two)))];
        compare(&mut changes, "header".into(), &header, header::ALL);
        for index in 0..layout::orders_in_use(one).max(layout::orders_in_use(two)) {
            let has =
                |book| (index < layout::orders_in_use(book)).then(|| (book, layout::order(book, index)));
            let both = [has(one), has(two)];
            compare(&mut changes, titled("order", &both, order::NAME), &both, order::ALL);
        }
        for index in 0..layout::requests_in_use(one).max(layout::requests_in_use(two)) {
            let has =
                |book| (index < layout::requests_in_use(book)).then(|| (book, layout::request(book, index)));
            let both = [has(one), has(two)];
            compare(&mut changes, titled("request", &both, request::DOWNSTREAM), &both, request::ALL);
        }
        changes
    }
}

/// The same record of two books, none for a book that does not have it.
type Both<'a> = [Option<(&'a BookBytes, Raw<'a>)>; 2];

/// A record's title: its name, of the first book that has it.
fn titled(what: &str, both: &Both<'_>, name: Spot) -> String {
    let text = both.iter().flatten().next().map(|(_, raw)| line(raw.text(name).text));
    format!("{what} {}", text.unwrap_or_default())
}

fn compare(changes: &mut Vec<Change>, record: String, both: &Both<'_>, fields: &[Spot]) {
    for &spot in fields {
        let [before, after] =
            both.map(|one| one.map(|(book, raw)| (raw.bytes(spot), shown(book, raw, spot))));
        let differ = match (&before, &after) {
            (Some((one, _)), Some((two, _))) => one != two,
            (Some((bytes, _)), None) | (None, Some((bytes, _))) => bytes.iter().any(|&byte| byte != 0),
            (None, None) => false,
        };
        if differ {
            let value = |side: Option<(&[u8], String)>| side.map(|(_, value)| value);
            let (before, after) = (value(before), value(after));
            changes.push(Change { record: record.clone(), field: spot.name, before, after });
        }
    }
}

/// A field's value for a person.
fn shown(book: &BookBytes, raw: Raw<'_>, spot: Spot) -> String {
    let (number, byte) = (raw.number(spot), raw.byte(spot));
    let words = match spot.shape {
        Shape::Number => None,
        Shape::Text => Some(line(raw.text(spot).text)),
        Shape::Qty => Some(Qty(number).to_string()),
        Shape::Price => Some(Price(number.into()).to_string()),
        Shape::Side => Side::from_code(byte).map(|code| code.to_string()),
        Shape::OrdType => OrdType::from_code(byte).map(|code| code.to_string()),
        Shape::TimeInForce => TimeInForce::from_code(byte).map(|code| code.to_string()),
        Shape::Status => OrdStatus::from_code(byte).map(|code| code.to_string()),
        Shape::Stage => Stage::from_number(byte).map(|stage| stage.to_string()),
        Shape::Kind => SentKind::from_number(byte).map(|kind| kind.to_string()),
        Shape::Outcome => Outcome::from_number(byte).map(|outcome| outcome.to_string()),
        Shape::Link => Some(linked(book, raw.link(spot))),
    };
    match words {
        Some(words) => words,
        None if number == 0 && spot.shape != Shape::Number => "none".into(),
        None => number.to_string(),
    }
}

/// The downstream ClOrdID that a link leads to.
fn linked(book: &BookBytes, link: Option<usize>) -> String {
    let downstream = |index| line(layout::request(book, index).text(request::DOWNSTREAM).text);
    link.map_or_else(|| "none".into(), downstream)
}
