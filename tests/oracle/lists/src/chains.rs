//! Lists about which ClOrdID stands for which order: the longest chain that there may be, chains that branch, names that are
//! nearly the same, clients that use the same names, and every answer to a request after every other.

use model::events::{self, Filled, Named};
use model::machine::MOST_REQUESTS;
use model::record::Draft;

use crate::{Item, List};

const SETTING: u32 = 10_000;
const VENUE: u16 = 1;

/// All lists of this module.
pub fn all() -> Vec<List> {
    let single = vec![longest(), star(), branches(), nearly(), shared()];
    [single, twice()].concat()
}

fn list(drafts: &[Draft]) -> List {
    let items = drafts.iter().map(|draft| Item { record: draft.bytes(), answer_buffer: 1_024 }).collect();
    List { setting: SETTING, items }
}

fn named(client: u16) -> Named {
    Named { client, symbol: b"S".to_vec(), side: b'1' }
}

fn book(client: u16, name: &str, cl_ord_id: &[u8]) -> Draft {
    events::book(VENUE, &named(client), name.as_bytes(), cl_ord_id, 1_000, Some(10))
}

fn cancel(client: u16, cl_ord_id: &[u8], orig: &[u8]) -> Draft {
    events::cancel(&named(client), cl_ord_id, orig)
}

fn replace(client: u16, cl_ord_id: &[u8], orig: &[u8]) -> Draft {
    events::replace(&named(client), cl_ord_id, orig, 900, Some(10))
}

/// A report without a fill.
fn told(downstream: &str, exec_type: u8, status: u8) -> Draft {
    events::report(VENUE, downstream.as_bytes(), exec_type, Some(status), Filled::default())
}

fn refused(downstream: &str) -> Draft {
    events::cancel_reject(VENUE, downstream.as_bytes(), None, Some(0))
}

fn failed(downstream: &str) -> Draft {
    events::send_failed(VENUE, downstream.as_bytes(), b"down")
}

/// A request of the number, the answer that takes turns with the others, and the name that it has.
fn amended(client: u16, number: usize, name: &[u8], orig: &[u8]) -> [Draft; 2] {
    let downstream = format!("A-{number}");
    match number % 5 {
        0 => [replace(client, name, orig), told(&downstream, b'5', b'0')],
        1 => [cancel(client, name, orig), refused(&downstream)],
        2 => [cancel(client, name, orig), failed(&downstream)],
        3 => [replace(client, name, orig), told(&downstream, b'8', b'0')],
        _ => [replace(client, name, orig), failed(&downstream)],
    }
}

/// A name of the number, of every length that there is.
fn name(number: usize) -> Vec<u8> {
    let short = format!("n{number}").into_bytes();
    let length = short.len().max(number % 33);
    [short, vec![b'.'; 32]].concat()[..length].to_vec()
}

/// One order with as many requests as there may be, each for the one before it; the last stays open.
fn longest() -> List {
    let mut drafts = vec![book(7, "A", &name(0)), told("A", b'0', b'0')];
    for number in 1..MOST_REQUESTS {
        drafts.extend(amended(7, number, &name(number), &name(number - 1)));
    }
    drafts.pop();
    list(&drafts)
}

/// The same, but each request is for the first name.
fn star() -> List {
    let mut drafts = vec![book(7, "A", &name(0)), told("A", b'0', b'0')];
    for number in 1..60 {
        drafts.extend(amended(7, number, &name(number), &name(0)));
    }
    list(&drafts)
}

/// Requests for names before the last, the gateway's cancels between them.
fn branches() -> List {
    let mut drafts = vec![book(7, "A", &name(0)), told("A", b'0', b'0')];
    let mut used = vec![name(0)];
    for number in 1..60 {
        if number % 4 == 0 {
            drafts.push(events::gateway_cancel(b"A"));
            let stuck = events::cancel_reject(VENUE, format!("A-{number}").as_bytes(), None, Some(1));
            drafts.push(if number % 8 == 0 { stuck } else { failed(&format!("A-{number}")) });
            continue;
        }
        let orig = used[(number * 7) % used.len()].clone();
        drafts.extend(amended(7, number, &name(number), &orig));
        used.push(name(number));
    }
    list(&drafts)
}

/// Names that differ in zeros at their end, and those of 31 and 32 bytes that begin alike.
fn nearly() -> List {
    let zeros = (1..=32).map(|length| vec![0; length]);
    let behind = (0..32).map(|zeros| [&b"n"[..], &vec![0; zeros]].concat());
    let long = [vec![b'q'; 31], vec![b'q'; 32], [vec![b'q'; 31], vec![0]].concat()];
    let names: Vec<Vec<u8>> = zeros.chain(behind).chain(long).collect();
    let mut drafts = vec![book(7, "A", &names[0]), told("A", b'0', b'0')];
    for (number, pair) in names.windows(2).enumerate() {
        drafts.extend(amended(7, number + 1, &pair[1], &pair[0]));
    }
    list(&drafts)
}

/// Clients whose numbers share a byte, with orders whose requests have the same names; of each client two orders.
fn shared() -> List {
    let clients = [1, 0x0101, 0x0100, 0, 0xFFFF];
    let mut drafts = Vec::new();
    for (at, client) in clients.into_iter().enumerate() {
        let (one, other) = (format!("P{at}"), format!("Q{at}"));
        drafts.extend([book(client, &one, b"a"), told(&one, b'0', b'0'), book(client, &other, b"b")]);
        drafts.extend([cancel(client, b"c", b"a"), events::gateway_cancel(other.as_bytes())]);
        drafts.push(replace(client, b"d", b"b"));
        drafts.push(if at % 2 == 0 { refused(&format!("{one}-1")) } else { failed(&format!("{one}-1")) });
        drafts.push(cancel(client, b"e", b"c"));
    }
    list(&drafts)
}

/// Each request answered in each way, and then in each way again.
fn twice() -> Vec<List> {
    let requests = [cancel(7, b"r", b"a"), replace(7, b"r", b"a"), events::gateway_cancel(b"A")];
    let reports =
        [(b'4', b'4'), (b'5', b'0'), (b'8', b'4'), (b'8', b'0'), (b'8', b'8'), (b'I', b'8'), (b'6', b'6')];
    let mut answers: Vec<Draft> =
        reports.into_iter().map(|(exec_type, status)| told("A-1", exec_type, status)).collect();
    answers.extend([refused("A-1"), failed("A-1"), events::send_again(VENUE, b"A-1")]);
    answers.extend([told("A", b'4', b'4'), events::unknown_at_venue(VENUE, b"A-1")]);
    let mut lists = Vec::new();
    for request in &requests {
        for first in &answers {
            let mut drafts = vec![book(7, "A", b"a"), told("A", b'0', b'0'), request.clone(), first.clone()];
            for second in &answers {
                drafts.truncate(4);
                drafts.extend([second.clone(), cancel(7, b"s", b"r"), cancel(7, b"t", b"a"), failed("A-2")]);
                lists.push(list(&drafts));
            }
        }
    }
    lists
}
