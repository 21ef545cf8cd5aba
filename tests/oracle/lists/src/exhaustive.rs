//! A list in which one good record of each kind is damaged in each bit and each cut, and each of
//! its codes takes every value; and lists of every pair of codes and of every small quotient.

use model::codes;
use model::events::{self, Filled, Named};
use model::machine::MOST_ORDERS;
use model::numbers::{MAX_PRICE, MAX_QTY};
use model::record::*;

use crate::damage::{every_cut, every_flip};
use crate::{Item, List};

const SETTING: u32 = 10_000;
const CODED: [usize; 6] = [SIDE, ORD_TYPE, TIME_IN_FORCE, EXEC_TYPE, ORD_STATUS, VERDICT];

/// One record of each kind with every field that it may have, on an order that is booked first.
fn samples() -> Vec<Draft> {
    let named = Named { client: 1, symbol: b"S".to_vec(), side: b'1' };
    let filled = Filled { last_qty: 1, last_px: 1, cum_qty: 1, avg_px: 1 };
    let told = |draft: Draft| {
        draft.number(ORD_STATUS, b'1').text(VENUE_ORDER_ID, "V").number(REASON, 5_u8).text(TEXT, "t")
    };
    let book = events::book(1, &named, b"B", b"b", 9, Some(9)).number(TIME_IN_FORCE, b'0');
    let replace = events::replace(&named, b"d", b"a", 8, Some(9)).number(ORD_TYPE, b'2');
    vec![
        book,
        events::cancel(&named, b"c", b"a").mark(REDELIVERED),
        replace.number(TIME_IN_FORCE, b'1').mark(REDELIVERED).mark(BLOCKED),
        told(events::report(1, b"A", b'F', Some(b'1'), filled)),
        events::unknown_at_venue(1, b"A"),
        told(events::cancel_reject(1, b"A", Some(b'1'), Some(1))),
        events::send_failed(1, b"A", b"t"),
        events::send_again(1, b"A"),
        events::gateway_cancel(b"A"),
    ]
}

/// All lists of this module.
pub fn all() -> Vec<List> {
    let single = vec![every_damage(), every_code(), every_length(), every_range(), full(), refused_filled()];
    [single, every_pair(), every_quotient()].concat()
}

fn list(records: Vec<Vec<u8>>) -> List {
    let named = Named { client: 1, symbol: b"S".to_vec(), side: b'1' };
    let first = events::book(1, &named, b"A", b"a", 9, Some(9)).bytes();
    let items = std::iter::once(first).chain(records);
    let items = items.map(|record| Item { record, answer_buffer: 1_024 }).collect();
    List { setting: SETTING, items }
}

/// Each cut, a byte over, and each bit.
pub fn every_damage() -> List {
    list(
        samples()
            .iter()
            .flat_map(|draft| [every_cut(&draft.bytes()), every_flip(&draft.bytes())].concat())
            .collect(),
    )
}

/// Each cut, a byte over, and each bit of the kind and the map.
pub fn every_head() -> List {
    let heads = |draft: &Draft| every_flip(&draft.bytes()).into_iter().take(40);
    list(
        samples()
            .iter()
            .flat_map(|draft| every_cut(&draft.bytes()).into_iter().chain(heads(draft)))
            .collect(),
    )
}

/// The smallest and the largest record of each kind, each whole, with every bit changed and cut anywhere: required fields alone
/// and texts as short as they may be, and every field with texts as long as they may be.
pub fn every_extreme() -> List {
    let extremes = samples().into_iter().flat_map(|draft| [smallest(draft.clone()), largest(draft)]);
    list(
        extremes
            .map(|draft| draft.bytes())
            .flat_map(|record| [vec![record.clone()], every_cut(&record), every_flip(&record)].concat())
            .collect(),
    )
}

fn smallest(draft: Draft) -> Draft {
    let (required, _) = event_bits(draft.bytes()[0]).expect("a kind of event");
    let needed =
        (0..BITS).fold(draft, |draft, bit| if required >> bit & 1 == 1 { draft } else { draft.without(bit) });
    sized(needed, |least, _| least)
}

fn largest(draft: Draft) -> Draft {
    sized(draft, |_, most| most)
}

/// `draft` with each text at the length that `length` gives for its limits.
fn sized(draft: Draft, length: impl Fn(usize, usize) -> usize) -> Draft {
    (0..BITS).fold(draft, |draft, bit| match shape(bit) {
        Shape::Text(least, most) if draft.has(bit) => draft.text(bit, vec![b'x'; length(least, most)]),
        _ => draft,
    })
}

/// Each code at every value of its byte, and every kind.
pub fn every_code() -> List {
    let mut records = Vec::new();
    for draft in samples() {
        for bit in CODED.into_iter().filter(|&bit| draft.has(bit)) {
            records.extend((0..=255_u8).map(|code| draft.clone().number(bit, code).bytes()));
        }
    }
    let cancel = &samples()[usize::from(CANCEL) - 1];
    records.extend((0..=255).map(|kind| cancel.clone().of_kind(kind).bytes()));
    list(records)
}

/// Every text at every length from 0 to 255, and numbers around their limits.
pub fn every_length() -> List {
    let every: Vec<usize> = (0..=255).collect();
    list(samples().iter().flat_map(|draft| ranges(draft, |_, _| every.clone())).collect())
}

/// Texts and numbers at and beside their limits, wrong codes, and characters that a name may not
/// have: each of question 4's answers, in few events. And each kind with a price source, which only
/// messages have: question 3 says no, though the record is whole.
pub fn every_range() -> List {
    let ends = |least: usize, most: usize| vec![0, least, most, most + 1, 255];
    let mut records: Vec<Vec<u8>> = samples().iter().flat_map(|draft| ranges(draft, ends)).collect();
    for draft in samples() {
        for bit in CODED.into_iter().filter(|&bit| draft.has(bit)) {
            records.extend(b"\x00\x079:B\xb1".iter().map(|&code| draft.clone().number(bit, code).bytes()));
        }
        for text in NAMES.iter().filter(|_| draft.has(NAME)) {
            records.push(draft.clone().text(NAME, text).bytes());
        }
        records.extend([0, 1, 4_u8].map(|source| draft.clone().number(PRICE_SOURCE, source).bytes()));
    }
    list(records)
}

/// Names with the characters before and after the letters and digits, and those near NONE.
const NAMES: [&[u8]; 16] = [
    b"/", b"0", b"9", b":", b"@", b"A", b"Z", b"[", b"`", b"a", b"z", b"{", b"\xc4", b"NONE", b"none",
    b"NONE1",
];

/// `draft` with each text at the lengths that `lengths` gives for its limits, and each number at
/// 0, 1 and around its most.
fn ranges(draft: &Draft, lengths: impl Fn(usize, usize) -> Vec<usize>) -> Vec<Vec<u8>> {
    let mut records = Vec::new();
    for bit in (0..BITS).filter(|&bit| draft.has(bit)) {
        let most = match bit {
            QTY | LAST_QTY | CUM_QTY => MAX_QTY,
            PRICE | LAST_PX | AVG_PX => MAX_PRICE,
            _ => {
                let Shape::Text(least, most) = shape(bit) else { continue };
                let text = |length: usize| draft.clone().text(bit, vec![b'x'; length]).bytes();
                records.extend(lengths(least, most).into_iter().map(text));
                continue;
            }
        };
        let limits = [0, 1, most - 1, most, most + 1, u64::MAX];
        records.extend(limits.map(|number| draft.clone().number(bit, number).bytes()));
    }
    records
}

/// Two fills of one order for each choice of small quantities and averages, so that the second has
/// every small quotient: below 0, 0, whole, at a half of an even and of an odd digit, and beside one.
pub fn every_quotient() -> Vec<List> {
    let named = Named { client: 1, symbol: b"S".to_vec(), side: b'1' };
    let choices = (0..4 * 6 * 6 * 6).map(|n| (1 + n / 216, 1 + n / 36 % 6, n / 6 % 6, n % 6));
    let choices: Vec<(u64, u64, u64, u64)> = choices.collect();
    let orders = choices.chunks(MOST_ORDERS);
    let item = |draft: Draft| Item { record: draft.bytes(), answer_buffer: 1_024 };
    let list = |orders: &[(u64, u64, u64, u64)]| {
        let of = |(at, &(old, rise, first, second)): (usize, &(u64, u64, u64, u64))| {
            let name = format!("A{at}");
            let report = |cum_qty: u64, avg_px: u64| {
                let filled = Filled { last_qty: 0, last_px: 0, cum_qty, avg_px };
                events::report(1, name.as_bytes(), b'F', Some(b'1'), filled)
            };
            let book = events::book(1, &named, name.as_bytes(), name.as_bytes(), 10, Some(9));
            [book, report(old, first), report(old + rise, second)].map(item)
        };
        List { setting: SETTING, items: orders.iter().enumerate().flat_map(of).collect() }
    };
    orders.map(list).collect()
}

/// 256 requests, one of them the gateway's cancel: refused with a short Filled it would go again and
/// gets 7, and refused for good it is stuck, with two alarms.
pub fn full() -> List {
    let named = Named { client: 1, symbol: b"S".to_vec(), side: b'1' };
    let cancel = |i: u32| events::cancel(&named, format!("c{i}").as_bytes(), b"b").bytes();
    let refused = |reason: u32| events::cancel_reject(1, b"A-1", Some(b'2'), Some(reason)).bytes();
    let mut records = vec![events::gateway_cancel(b"A").bytes()];
    records.push(events::book(1, &named, b"B", b"b", 9, Some(9)).bytes());
    records.extend((0..253).map(cancel));
    records.extend([refused(99), refused(1)]);
    list(records)
}

/// A cancel that a report refuses with Filled and a CumQty that would be whole: the book's counts.
pub fn refused_filled() -> List {
    let named = Named { client: 1, symbol: b"S".to_vec(), side: b'1' };
    let whole = Filled { last_qty: 9, last_px: 1, cum_qty: 9, avg_px: 1 };
    let refused = events::report(1, b"A-1", b'8', Some(b'2'), whole);
    list(vec![events::cancel(&named, b"c", b"a").bytes(), refused.bytes()])
}

/// Every ExecType with every OrdStatus of the Rust, with and without a rise, under each kind of request: the
/// order first, a cancel, a replace, and one that the venue already settled.
pub fn every_pair() -> Vec<List> {
    let named = Named { client: 1, symbol: b"S".to_vec(), side: b'1' };
    let mut lists = Vec::new();
    for (settled, downstream) in [(false, "A"), (false, "A-1"), (false, "A-2"), (true, "A-1"), (true, "A")] {
        for &exec_type in codes::EXEC_TYPES {
            let statuses = codes::RUST_STATUSES.iter().map(|&status| Some(status)).chain([None]);
            for status in statuses {
                let mut records = vec![
                    events::cancel(&named, b"c", b"a").bytes(),
                    events::replace(&named, b"d", b"a", 8, Some(9)).bytes(),
                ];
                if settled {
                    let accept = events::report(1, b"A-2", b'5', Some(b'0'), Filled::default());
                    records.push(events::cancel_reject(1, b"A-1", None, None).bytes());
                    records.push(accept.bytes());
                }
                for cum_qty in [0, 3] {
                    let filled = Filled { last_qty: 0, last_px: 1, cum_qty, avg_px: 2 };
                    records.push(events::report(1, downstream.as_bytes(), exec_type, status, filled).bytes());
                    records.push(events::cancel(&named, b"a", b"a").mark(REDELIVERED).bytes());
                }
                lists.push(list(records));
            }
        }
    }
    lists
}
