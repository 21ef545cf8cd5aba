//! Lists about OrdStatus 3 without chance: it comes in every way to an order in every state, and
//! everything comes to an order that is 3.

use model::codes::{EXEC_TYPES, STATUSES};
use model::events::{self, Filled, Named};
use model::record::*;

use crate::{Item, List};

const SETTING: u32 = 10_000;
const DOWNSTREAMS: [&[u8]; 3] = [b"A", b"A-1", b"A-2"];

fn named() -> Named {
    Named { client: 1, symbol: b"S".to_vec(), side: b'1' }
}

fn report(downstream: &[u8], exec_type: u8, status: Option<u8>, cum_qty: u64) -> Draft {
    let filled = Filled { last_qty: 0, last_px: 1, cum_qty, avg_px: 2 };
    events::report(1, downstream, exec_type, status, filled)
}

/// A report, and then a cancel and a replace to 12 at the venue.
fn requests_after(before: &Draft) -> Vec<Draft> {
    let cancel = events::cancel(&named(), b"c", b"a");
    let replace = events::replace(&named(), b"d", b"a", 12, Some(9));
    vec![before.clone(), cancel, replace]
}

/// The order A of 9 filled whole and not done: alone, with a cancel and a replace to 12 at the venue,
/// with the gateway's cancel.
fn filled_whole() -> [Vec<Draft>; 3] {
    let whole = report(b"A", b'F', Some(b'1'), 9);
    [vec![whole.clone()], requests_after(&whole), vec![whole, events::gateway_cancel(b"A")]]
}

/// What leads to each state of the order A of 9: PendingNew, New, PartiallyFilled; with a cancel and a
/// replace to 12 at the venue, pending or not, and with both answered; with the gateway's cancel; done;
/// filled whole and not done. Behind it what the order has filled.
fn states() -> Vec<(Vec<Draft>, u64)> {
    let new = report(b"A", b'0', Some(b'0'), 0);
    let part = report(b"A", b'F', Some(b'1'), 3);
    let requests = requests_after;
    let then = |mut drafts: Vec<Draft>, more: &[Draft]| {
        drafts.extend_from_slice(more);
        drafts
    };
    let refused = events::cancel_reject(1, b"A-1", None, None);
    let accepted = report(b"A-2", b'5', Some(b'1'), 3);
    let partly = vec![
        (vec![], 0),
        (vec![new.clone()], 0),
        (vec![part.clone()], 3),
        (requests(&new), 0),
        (requests(&part), 3),
        (then(requests(&part), &[report(b"A-1", b'6', Some(b'6'), 3)]), 3),
        (then(requests(&new), &[report(b"A-2", b'E', Some(b'E'), 0)]), 0),
        (then(requests(&part), &[refused, accepted]), 3),
        (vec![part.clone(), events::gateway_cancel(b"A")], 3),
        (vec![part, report(b"A", b'4', Some(b'4'), 3)], 3),
    ];
    partly.into_iter().chain(filled_whole().map(|before| (before, 9))).collect()
}

/// Every way that a 3 comes: in a report under each request, without and with a rise and below it, and
/// in a refusal.
fn bringers() -> Vec<Draft> {
    let mut drafts = Vec::new();
    for downstream in DOWNSTREAMS {
        for exec_type in *b"30F85I" {
            drafts.extend([0, 3, 5, 9, 10, 13].map(|cum| report(downstream, exec_type, Some(b'3'), cum)));
        }
        drafts.extend(rejects(downstream));
    }
    drafts
}

/// Refusals of a request with a 3, without a reason and with each that counts for something.
fn rejects(downstream: &[u8]) -> [Draft; 3] {
    [None, Some(1), Some(99)].map(|reason| events::cancel_reject(1, downstream, Some(b'3'), reason))
}

/// What is no venue's status: requests, failed sends and sends again.
fn requests() -> Vec<Draft> {
    let mut drafts = vec![
        events::cancel(&named(), b"x", b"a"),
        events::replace(&named(), b"x", b"a", 12, Some(9)),
        events::replace(&named(), b"x", b"a", 2, Some(9)),
        events::gateway_cancel(b"A"),
    ];
    for downstream in DOWNSTREAMS {
        drafts.push(events::send_failed(1, downstream, b"t"));
        drafts.push(events::send_again(1, downstream));
        drafts.push(events::unknown_at_venue(1, downstream));
        drafts.push(events::cancel_reject(1, downstream, None, Some(99)));
    }
    drafts
}

/// Every status that may come to an order that is 3, without and with a rise.
fn followers(cum: u64) -> Vec<Draft> {
    let mut drafts = requests();
    for downstream in DOWNSTREAMS {
        for status in STATUSES.iter().map(|&status| Some(status)).chain([None]) {
            drafts.push(events::cancel_reject(1, downstream, status, None));
            for &exec_type in EXEC_TYPES {
                drafts.extend([cum, cum + 2].map(|cum| report(downstream, exec_type, status, cum)));
            }
        }
    }
    drafts
}

fn list(before: &[Draft], after: &[Draft]) -> List {
    let first = events::book(1, &named(), b"A", b"a", 9, Some(9));
    // Its status is asked for after each event that matters.
    let asked = events::cancel(&named(), b"a", b"a").mark(REDELIVERED);
    let after = after.iter().flat_map(|draft| [draft.clone(), asked.clone()]);
    let drafts = std::iter::once(first).chain(before.iter().cloned()).chain(after);
    let items = drafts.map(|draft| Item { record: draft.bytes(), answer_buffer: 1_024 }).collect();
    List { setting: SETTING, items }
}

/// A 3 in every way to every state, the same again, and a request.
pub fn every_coming() -> Vec<List> {
    let requests = requests();
    let lists = states().into_iter().flat_map(|(before, _)| {
        bringers().into_iter().enumerate().map(move |(at, draft)| (at, before.clone(), draft))
    });
    lists
        .map(|(at, before, draft)| {
            let then = requests[at % requests.len()].clone();
            list(&before, &[draft.clone(), draft, then])
        })
        .collect()
}

/// Every refusal that brings a 3 to an order that is filled whole, the same again, and a fill.
pub fn refused_whole() -> Vec<List> {
    let refusals = DOWNSTREAMS.into_iter().flat_map(|downstream| {
        let reports = [0, 9].map(|cum| report(downstream, b'8', Some(b'3'), cum));
        rejects(downstream).into_iter().chain(reports)
    });
    let fill = report(b"A", b'F', Some(b'1'), 9);
    let lists = refusals.flat_map(|draft| {
        let after = [draft.clone(), draft, fill.clone()];
        filled_whole().map(|before| list(&before, &after))
    });
    lists.collect()
}

/// Everything that may come to an order that is 3.
pub fn every_going() -> Vec<List> {
    let ended = states().into_iter().enumerate().filter(|(at, _)| [1, 2, 3, 4, 7, 8, 10, 11].contains(at));
    let lists = ended.flat_map(|(_, (mut before, cum))| {
        let current = if before.len() > 3 { DOWNSTREAMS[2] } else { DOWNSTREAMS[0] };
        before.push(report(current, b'3', Some(b'3'), cum));
        followers(cum).into_iter().map(move |draft| list(&before, &[draft]))
    });
    lists.collect()
}

/// All lists of this module.
pub fn all() -> Vec<List> {
    [every_coming(), every_going()].concat()
}
