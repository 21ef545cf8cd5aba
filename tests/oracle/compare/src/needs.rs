//! What an event will need (change request 13), counted plainly from the answer that the event then gave, field by field,
//! and from the requests that stood before and after it; a library's `needs` compared with that.

use model::answer::{HEAD, messages};
use model::machine::ANSWER_BYTES;
use model::record::{BITS, Record, Shape, shape};

use crate::entries::{Entries, Needs};
use crate::expected::{Outcome, told};
use crate::layout::Header;

/// The kind and the map of a record.
const RECORD_HEAD: usize = 5;

/// The fields that stand in a message, one by one.
fn fields(message: &Record<'_>) -> u32 {
    (0..BITS).map(|bit| u32::from(message.has(bit))).sum()
}

/// The bytes that a message takes: its kind, its map and its fields.
fn size(message: &Record<'_>) -> usize {
    let field = |bit: usize| match shape(bit) {
        Shape::Number(bytes) => bytes,
        Shape::Text(..) => 1 + message.text(bit).len(),
        Shape::Mark => 0,
    };
    RECORD_HEAD + (0..BITS).filter(|&bit| message.has(bit)).map(field).sum::<usize>()
}

/// What an event needed that gave this answer, or was refused, and added so many requests.
pub fn counted(outcome: Result<&[u8], u32>, requests: u64) -> Needs {
    let messages = match outcome {
        Err(refusal) => return Needs { refusal, ..Needs::default() },
        Ok(answer) => messages(answer),
    };
    let fields = |at: usize| messages.get(at).map_or(0, fields);
    Needs {
        refusal: 0,
        length: (HEAD + messages.iter().map(size).sum::<usize>()) as u32,
        messages: messages.len() as u32,
        requests: requests as u32,
        fields_first: fields(0),
        fields_second: fields(1),
    }
}

/// What an event needs of which the Rust says how it ends.
pub fn right(outcome: &Outcome, before: &[u8]) -> Needs {
    match outcome {
        Ok((answer, after)) => {
            counted(Ok(answer), after.header.requests.saturating_sub(Header::read(before).requests))
        }
        Err(refusal) => counted(Err(*refusal), 0),
    }
}

/// What the library's own event needs, run on a copy of the book with an answer buffer of 1,024 bytes.
pub fn run(entries: &Entries, book: &[u8], record: &[u8]) -> Needs {
    let (mut copy, mut answer) = (book.to_vec(), vec![0; ANSWER_BYTES]);
    match entries.event(&mut copy, record, &mut answer) {
        0 => counted(
            Ok(&told(&answer)),
            Header::read(&copy).requests.saturating_sub(Header::read(book).requests),
        ),
        refusal => counted(Err(refusal), 0),
    }
}

/// Compares what `needs` gave with what the event needed.
pub fn holds(given: Needs, right: Needs) -> Result<(), String> {
    if given == right { Ok(()) } else { Err(format!("needs: should give {right:?}, gives {given:?}")) }
}

#[cfg(test)]
mod tests {
    use model::events::{self, Filled, Named};
    use model::record::*;

    use super::*;
    use crate::stand_in::STAND_IN;

    #[test]
    fn an_answer_is_counted_field_by_field() {
        let reject =
            Draft::new(REJECT_MESSAGE).number(CLIENT, 7_u8).text(CL_ORD_ID, "abc").number(REASON, 1_u8);
        let cancel = Draft::new(CANCEL_MESSAGE).number(VENUE, 1_u8).text(VENUE_ORDER_ID, "");
        let mut answer = [vec![0; HEAD], reject.bytes(), cancel.bytes()].concat();
        answer[2] = 2;
        let both = HEAD + 5 + 2 + 4 + 4 + 5 + 2 + 1;
        let right = Needs {
            refusal: 0,
            length: both as u32,
            messages: 2,
            requests: 1,
            fields_first: 3,
            fields_second: 2,
        };
        assert_eq!((counted(Ok(&answer), 1), answer.len()), (right, both));
        let none = Needs { length: HEAD as u32, ..Needs::default() };
        assert_eq!(counted(Ok(&[0; HEAD]), 0), none);
        assert_eq!(counted(Err(7), 1), Needs { refusal: 7, ..Needs::default() });
    }

    /// The numbers of a day in small, by hand.
    #[test]
    fn a_small_day() {
        let named = Named { client: 9, symbol: b"S".to_vec(), side: b'1' };
        let filled = Filled { last_qty: 40, last_px: 10, cum_qty: 40, avg_px: 10 };
        let events = [
            // A booking adds a request and puts nothing out; the same again is refused.
            (events::book(1, &named, b"A", b"c", 100, Some(10)), [0, HEAD as u32, 0, 1, 0, 0]),
            (events::book(1, &named, b"A", b"c", 100, Some(10)), [5, 0, 0, 0, 0, 0]),
            // A report: what each has, and a price.
            (events::report(1, b"A", b'F', Some(b'1'), filled), [0, HEAD as u32 + 90, 1, 0, 17, 0]),
            // A cancel, and the gateway's that waits behind it.
            (events::cancel(&named, b"d", b"c"), [0, HEAD as u32 + 33, 1, 1, 8, 0]),
            (events::gateway_cancel(b"A"), [0, HEAD as u32, 0, 0, 0, 0]),
            // The client's is refused: its reject, and the gateway's cancel.
            (events::cancel_reject(1, b"A-1", None, None), [0, HEAD as u32 + 21 + 33, 2, 1, 9, 8]),
        ];
        let mut book = vec![0; 65_536];
        STAND_IN.start(&mut book, 10_000);
        for (draft, [refusal, length, messages, requests, fields_first, fields_second]) in events {
            let right = Needs { refusal, length, messages, requests, fields_first, fields_second };
            let record = draft.bytes();
            assert_eq!(STAND_IN.needs(&mut book, &record), right);
            assert_eq!(run(&STAND_IN, &book, &record), right);
            STAND_IN.event(&mut book, &record, &mut [0; ANSWER_BYTES]);
        }
    }
}
