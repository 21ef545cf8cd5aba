//! Bytes that are no answer, no record or no book: nothing panics, and what does not read comes back whole.

use jubafiye::{
    Amend, Answer, Book, Booking, Event, ExecType, Fault, Message, OrdStatus, OrdType, Price, PriceSource,
    Qty, RejectedRequest, Replace, Side, TimeInForce, VenueReport, ANSWER_BYTES, BOOK_BYTES,
};

/// Numbers that are the same each time (splitmix64).
struct Numbers(u64);

impl Numbers {
    fn next(&mut self) -> u64 {
        self.0 = self.0.wrapping_add(0x9E37_79B9_7F4A_7C15);
        let a = (self.0 ^ self.0 >> 30).wrapping_mul(0xBF58_476D_1CE4_E5B9);
        let b = (a ^ a >> 27).wrapping_mul(0x94D0_49BB_1331_11EB);
        b ^ b >> 31
    }

    fn below(&mut self, bound: usize) -> usize {
        (self.next() % bound as u64) as usize
    }

    fn bytes(&mut self, length: usize) -> Vec<u8> {
        (0..length).map(|_| self.next() as u8).collect()
    }
}

/// Reads, and shows what came of it; an error has all bytes.
fn read(bytes: &[u8]) -> Option<Answer> {
    match Answer::read(bytes) {
        Ok(answer) => {
            assert!(answer.messages.len() <= 2 && answer.alarms.len() <= 2);
            answer.messages.iter().for_each(|message| assert!(!message.to_string().contains('\n')));
            Some(answer)
        }
        Err(bad) => {
            assert_eq!(bad.bytes(), bytes);
            assert!(!bad.to_string().is_empty());
            None
        }
    }
}

fn report(downstream: &[u8], status: OrdStatus, cum: u64) -> Event<'_> {
    Event::VenueReport(VenueReport {
        venue: 3,
        downstream,
        exec_type: if cum == 0 { ExecType::New } else { ExecType::Trade },
        status: Some(status),
        last_qty: Qty(3),
        last_px: Price::units(11),
        cum_qty: Qty::units(cum),
        avg_px: Price::units(10),
        venue_order_id: Some(b"V-1"),
        reason: Some(5),
        text: Some(b"said by the venue"),
    })
}

fn booking() -> Booking<'static> {
    Booking {
        client: 7,
        venue: 3,
        name: b"A",
        cl_ord_id: b"C1",
        symbol: b"W",
        side: Side::Sell,
        ord_type: OrdType::Limit,
        qty: Qty::units(100),
        price: Some(Price::units(10)),
        time_in_force: Some(TimeInForce::Day),
    }
}

fn amend(cl_ord_id: &[u8]) -> Amend<'_> {
    Amend { client: 7, cl_ord_id, orig_cl_ord_id: b"C1", symbol: b"W", side: Side::Sell, redelivered: false }
}

fn replace(cl_ord_id: &[u8]) -> Replace<'_> {
    Replace {
        amend: amend(cl_ord_id),
        qty: Qty::units(120),
        verdict: Ok(()),
        ord_type: Some(OrdType::Limit),
        price: Some(Price::units(12)),
        time_in_force: Some(TimeInForce::Gtc),
        blocked: false,
    }
}

fn refusal(downstream: &[u8]) -> RejectedRequest<'_> {
    let (status, venue_order_id) = (None, None);
    RejectedRequest { venue: 3, downstream, status, venue_order_id, reason: Some(99), text: None }
}

/// A day that brings each kind of message, and an answer with two.
fn day() -> Vec<Event<'static>> {
    vec![
        Event::Book(booking()),
        Event::SendAgain { venue: 3, downstream: b"A" },
        report(b"A", OrdStatus::New, 0),
        report(b"A", OrdStatus::PartiallyFilled, 40),
        Event::Replace(replace(b"C2")),
        // The gateway's cancel waits behind the client's, and goes when the venue refuses that.
        Event::Cancel(amend(b"C3")),
        Event::GatewayCancel { name: b"A" },
        Event::CancelReject(refusal(b"A-2")),
        report(b"A", OrdStatus::PartiallyFilled, 101),
        report(b"A", OrdStatus::Rejected, 50),
        Event::Cancel(amend(b"C4")),
        report(b"A", OrdStatus::Filled, 100),
    ]
}

/// The answers of that day, byte by byte.
fn answers() -> Vec<Vec<u8>> {
    let mut book = Book::new(10_000);
    let mut buffer = [0; ANSWER_BYTES];
    let taken = |event: Event<'_>| book.take_record_into(&event.record(), &mut buffer).unwrap().to_vec();
    day().into_iter().map(taken).collect()
}

#[test]
fn the_day_brings_each_kind_of_message() {
    let read: Vec<Answer> = answers().iter().map(|answer| read(answer).unwrap()).collect();
    let mut kinds: Vec<u8> = read.iter().flat_map(|answer| &answer.messages).map(Message::kind).collect();
    kinds.sort_unstable();
    kinds.dedup();
    assert_eq!(kinds, [16, 17, 18, 19, 20]);
    assert!(read.iter().any(|answer| answer.messages.len() == 2));
    assert!(read.iter().any(|answer| !answer.alarms.is_empty()));
}

#[test]
fn a_cut_answer_does_not_read() {
    for answer in answers() {
        for end in 0..answer.len() {
            assert_eq!(read(&answer[..end]), None, "cut at {end}");
            // The same with a length that fits.
            let mut cut = answer[..end].to_vec();
            if let Some(length) = cut.first_chunk_mut::<2>() {
                *length = (end as u16).to_le_bytes();
                assert_eq!(read(&cut), None, "cut at {end}, length and all");
            }
        }
        // What stands behind an answer is not looked at.
        assert_eq!(read(&[&answer[..], b"more"].concat()), read(&answer));
    }
}

#[test]
fn an_answer_with_one_byte_changed() {
    let mut read_still = 0;
    for answer in answers() {
        for at in 0..answer.len() {
            for value in 0..=u8::MAX {
                let mut changed = answer.clone();
                changed[at] = value;
                read_still += usize::from(read(&changed).is_some());
            }
        }
        for (at, value) in [(0, 0xFF), (1, 0xFF), (2, 3), (3, 7), (4, 7)] {
            let mut changed = answer.clone();
            changed[at] = value;
            assert_eq!(read(&changed), None, "byte {at} made {value}");
        }
    }
    assert!(read_still > 0);
}

#[test]
fn a_price_source_stands_in_every_report_and_in_no_other_message() {
    const MAP_END: usize = 9;
    let fault = |bytes: &[u8]| Answer::read(bytes).map_err(|bad| bad.fault());
    let mut kinds = Vec::new();
    for answer in answers().into_iter().filter(|answer| answer[2] == 1) {
        let kind = answer[5];
        kinds.push(kind);
        let mut changed = answer.clone();
        if kind != 16 {
            changed[MAP_END] |= 0x80;
            changed[0] += 1;
            changed.push(1);
            assert_eq!(fault(&changed), Err(Fault::Unexpected { kind, map: 1 << 31 }));
            continue;
        }
        // It is a report's last byte.
        let last = answer.len() - 1;
        for number in 0..=u8::MAX {
            changed[last] = number;
            let source = fault(&changed).map(|answer| match &answer.messages[..] {
                [Message::Report(report)] => report.price_source.map_or(0, PriceSource::number),
                messages => panic!("a report: {messages:?}"),
            });
            let code = Fault::Code { bit: 31, code: number };
            assert_eq!(source, if number <= 3 { Ok(number) } else { Err(code) });
        }
        changed[MAP_END] &= 0x7F;
        changed[0] -= 1;
        changed.truncate(last);
        assert_eq!(fault(&changed), Err(Fault::Missing { kind, bit: 31 }));
    }
    assert!([16, 17, 18, 19, 20].iter().all(|kind| kinds.contains(kind)), "{kinds:?}");
}

#[test]
fn answers_with_many_bytes_changed_moved_or_lost() {
    let (answers, mut numbers) = (answers(), Numbers(1));
    for _ in 0..40_000 {
        let mut answer = answers[numbers.below(answers.len())].clone();
        for _ in 0..=numbers.below(6) {
            let at = numbers.below(answer.len().max(1));
            match numbers.below(4) {
                0 if at < answer.len() => drop(answer.remove(at)),
                1 => answer.insert(at, numbers.next() as u8),
                2 if at < answer.len() => answer[at] ^= 1 << numbers.below(8),
                _ => answer.extend_from_within(at.min(answer.len())..),
            }
        }
        if numbers.below(2) == 0 && answer.len() >= 2 {
            let length = (answer.len() as u16).to_le_bytes();
            answer[..2].copy_from_slice(&length);
        }
        read(&answer);
    }
}

#[test]
fn random_bytes() {
    let mut numbers = Numbers(2);
    for _ in 0..40_000 {
        let bound = if numbers.below(50) == 0 { ANSWER_BYTES + 1 } else { 80 };
        let length = numbers.below(bound);
        let mut bytes = numbers.bytes(length);
        read(&bytes);
        // The same behind a head that is right: length, count, two alarms, a message's kind.
        let count = 1 + (numbers.next() & 1) as u8;
        let alarms = [(numbers.next() % 7) as u8, (numbers.next() % 7) as u8];
        let head = [length as u8, (length >> 8) as u8, count, alarms[0], alarms[1]];
        for (byte, right) in bytes.iter_mut().zip(head.into_iter().chain([16 + (numbers.next() % 5) as u8])) {
            *byte = right;
        }
        read(&bytes);
    }
}

#[test]
fn random_records_and_short_buffers() {
    let mut numbers = Numbers(3);
    let mut book = Book::new(10_000);
    for event in day() {
        for _ in 0..60 {
            let mut record = event.record();
            let at = numbers.below(record.len());
            record[at] = numbers.next() as u8;
            record.truncate(numbers.below(2 * record.len()) + 1);
            let mut buffer = vec![0; numbers.below(2 * ANSWER_BYTES)];
            if let Ok(answer) = book.take_record_into(&record, &mut buffer) {
                assert!(read(answer).is_some());
            }
            let length = numbers.below(60);
            assert!(book.take_record(&numbers.bytes(length)).is_err());
        }
        book.take(&event).ok();
    }
    assert!(book.keeps_rules());
}

#[test]
fn random_books() {
    let mut numbers = Numbers(4);
    let whole = Book::new(10_000).into_bytes();
    for _ in 0..40 {
        let length = numbers.below(2 * BOOK_BYTES);
        assert!(Book::from_bytes(&numbers.bytes(length)).is_err());
        let mut spoiled = whole.clone();
        for _ in 0..4 {
            let at = numbers.below(16_640);
            spoiled[at] = numbers.next() as u8;
        }
        if let Ok(mut book) = Book::from_bytes(&spoiled) {
            day().iter().for_each(|event| drop(book.take(event)));
            assert!(book.keeps_rules());
        }
    }
}
