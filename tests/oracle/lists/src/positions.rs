//! Lists about what clients hold: open quantities that move with and without a message, many clients
//! and few, the largest sums; nets of each sign, of pairs that share client or symbol, of symbols that
//! are nearly the same.

use model::codes::STATUSES;
use model::events::{self, Filled, Named};
use model::numbers::MAX_QTY;
use model::record::Draft;

use crate::{Item, List};

const SETTING: u32 = 10_000;
const VENUE: u16 = 1;

/// All lists of this module.
pub fn all() -> Vec<List> {
    let nets = vec![signs(), symbols(), pairs(b'1'), pairs(b'5'), one_pair(b'1'), one_pair(b'5')];
    [refusals(), vec![replaces(), clients(), largest()], nets].concat()
}

fn list(drafts: &[Draft]) -> List {
    let items = drafts.iter().map(|draft| Item { record: draft.bytes(), answer_buffer: 1_024 }).collect();
    List { setting: SETTING, items }
}

/// An order on one symbol: by whom, named so, so much.
fn order(client: u16, symbol: &[u8], side: u8, name: &str, qty: u64) -> Draft {
    let named = Named { client, symbol: symbol.to_vec(), side };
    events::book(VENUE, &named, name.as_bytes(), format!("c{name}").as_bytes(), qty, Some(10))
}

/// A venue's report of so much filled in all.
fn filled(name: &str, status: u8, cum_qty: u64, last_qty: u64) -> Draft {
    let filled = Filled { last_qty, last_px: 10, cum_qty, avg_px: 10 };
    events::report(VENUE, name.as_bytes(), b'F', Some(status), filled)
}

/// A request of each kind on one of three orders of two clients, refused with each status, by an event 6
/// and by a report: the status takes the open quantity away if it is done, with a cancel reject
/// alone, and for the gateway's cancel without any message.
fn refusals() -> Vec<List> {
    let named = Named { client: 2, symbol: b"S".to_vec(), side: b'1' };
    let requests = [
        events::cancel(&named, b"r", b"cB"),
        events::replace(&named, b"r", b"cB", 200, Some(10)),
        events::gateway_cancel(b"B"),
    ];
    let mut lists = Vec::new();
    for request in requests {
        for &status in STATUSES {
            let rejected = Filled { cum_qty: 40, ..Filled::default() };
            let refusals = [
                events::cancel_reject(VENUE, b"B-1", Some(status), Some(0)),
                events::report(VENUE, b"B-1", b'8', Some(status), rejected),
            ];
            for refusal in refusals {
                lists.push(list(&[
                    order(2, b"S", b'1', "A", 70),
                    order(0xFFFF, b"S", b'1', "C", 30),
                    order(2, b"S", b'1', "B", 100),
                    filled("B", b'1', 40, 40),
                    request.clone(),
                    refusal,
                    order(2, b"S", b'1', "D", 5),
                ]));
            }
        }
    }
    lists
}

/// Replaces accepted to more, to less and to what is filled; the terms count once they are accepted.
fn replaces() -> List {
    let named = Named { client: 7, symbol: b"S".to_vec(), side: b'1' };
    let mut drafts = vec![order(7, b"S", b'1', "A", 100), order(7, b"S", b'1', "B", 50)];
    let mut current = b"cA".to_vec();
    for (number, (qty, cum_qty)) in [(150, 0), (20, 10), (90, 30), (30, 30)].into_iter().enumerate() {
        let (next, downstream) = (format!("r{number}").into_bytes(), format!("A-{}", number + 1));
        drafts.push(events::replace(&named, &next, &current, qty, Some(10)));
        let accepted = Filled { cum_qty, last_qty: cum_qty, last_px: 10, avg_px: 10 };
        drafts.push(events::report(VENUE, downstream.as_bytes(), b'5', Some(b'0'), accepted));
        current = next;
    }
    list(&drafts)
}

/// Each of 64 orders another client's, those next to each other and those that share a byte; each
/// filled, cancelled or left as it is.
fn clients() -> List {
    let client = |number: u16| match number % 3 {
        0 => number,
        1 => number << 8,
        _ => u16::MAX - number,
    };
    let book =
        |number: u16| order(client(number), b"S", b'1', &format!("N{number}"), 1_000 + u64::from(number));
    let report = |number: u16| match number % 4 {
        0 => filled(&format!("N{number}"), b'2', 1_000 + u64::from(number), 5),
        1 => filled(&format!("N{number}"), b'1', number.into(), 5),
        2 => filled(&format!("N{number}"), b'4', number.into(), 5),
        _ => filled(&format!("N{number}"), b'0', 0, 0),
    };
    list(&(0..64).map(book).chain((0..64).rev().map(report)).collect::<Vec<_>>())
}

/// Both sums at their largest: 32 orders of each of two clients at the most that there is.
fn largest() -> List {
    let book = |number: u16| order(number % 2 * 0xFFFF, b"S", b'1', &format!("N{number}"), MAX_QTY);
    let report = |number: u16| filled(&format!("N{number}"), b'1', MAX_QTY - u64::from(number), 1);
    list(&(0..64).map(book).chain((0..64).map(report)).collect::<Vec<_>>())
}

/// A booking and a fill of so much, done or not.
fn held(client: u16, symbol: &[u8], side: u8, name: &str, qty: u64, status: u8) -> [Draft; 2] {
    [order(client, symbol, side, name, 100), filled(name, status, qty, qty)]
}

/// Nets above 0, 0 and below, by sales and by short sales, of done orders and live ones, for two
/// clients in two symbols.
fn signs() -> List {
    let mut drafts = Vec::new();
    let fills = [(b'1', 30, b'1'), (b'2', 30, b'4'), (b'5', 40, b'1'), (b'1', 50, b'4'), (b'1', 40, b'2')];
    for (number, (side, qty, status)) in fills.into_iter().enumerate() {
        for (client, symbol) in [(1, b"S"), (2, b"S"), (1, b"T"), (2, b"T")] {
            let name = format!("{}{client}{number}", char::from(symbol[0]));
            let qty = qty + u64::from(client == 2) * number as u64;
            drafts.extend(held(client, symbol, side, &name, qty, status));
        }
    }
    list(&drafts)
}

/// Symbols of each length of zeros, alone and behind a letter: each is its own.
fn symbols() -> List {
    let zeros = (1..=16).map(|length| vec![0; length]);
    let behind = (0..16).map(|zeros| [&b"S"[..], &vec![0; zeros]].concat());
    let symbols: Vec<Vec<u8>> = zeros.chain(behind).collect();
    let side = |number: usize| *b"125".get(number % 3).expect("a side");
    let held = symbols.iter().enumerate().flat_map(|(number, symbol)| {
        held(3, symbol, side(number), &format!("N{number}"), 1 + number as u64, b'1')
    });
    list(&held.collect::<Vec<_>>())
}

/// 64 pairs: eight clients in eight symbols, each filled otherwise.
fn pairs(side: u8) -> List {
    let held = (0..64_u16).flat_map(|number| {
        let symbol = [b'S', b'0' + (number % 8) as u8];
        held(number / 8 * 257, &symbol, side, &format!("N{number}"), number.into(), b'1')
    });
    list(&held.collect::<Vec<_>>())
}

/// One pair at its largest: 64 orders filled with the most that there is.
fn one_pair(side: u8) -> List {
    let name = |number: u16| format!("N{number}");
    let books = (0..64).map(|number| order(u16::MAX, b"SIXTEEN-LETTERS!", side, &name(number), MAX_QTY));
    let fills = (0..64).map(|number| filled(&name(number), b'2', MAX_QTY, MAX_QTY));
    list(&books.chain(fills).collect::<Vec<_>>())
}
