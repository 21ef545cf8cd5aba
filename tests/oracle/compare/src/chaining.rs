//! The stand-in's outcomes and its `chain`, with faults that can be planted: one for each near reading of change request 9 that
//! a library can have.

use std::rc::Rc;

use model::record::*;

use crate::chains::{Asked, ENTRY, Requests, entries_of};
use crate::entries::Counted;
use crate::layout::{Book, GATEWAY_CANCEL, Request};

#[derive(Debug, Clone, Copy, PartialEq, Eq)]
pub enum ChainFault {
    /// A request that an event 8 ends has failed to send.
    EightFailed,
    /// A request whose send failed was refused.
    SevenRefused,
    /// A report that cancels the order settles a request again.
    SetAgain,
    /// Of a report the status alone is asked.
    ByStatus,
    /// Of a report the ExecType alone is asked.
    ByExecType,
    /// What an accepted replace supersedes is refused.
    SupersededRefused,
    /// What an accepted replace supersedes stays open.
    SupersededOpen,
    /// An answered request has no outcome.
    NotSet,
    /// A client's requests alone have an outcome.
    ClientsOnly,
    /// A request's origin is the order's first request, whichever it names.
    OriginFirst,
    /// A request's origin is the one of its order before it.
    OriginBefore,
    /// An empty name finds a gateway cancel.
    EmptyFound,
    /// The first request is left out.
    WithoutFirst,
    /// The name that was asked for is left out.
    WithoutItself,
    /// A chain goes from each request to the one of its order before it.
    ByNumber,
    /// Requests that were not accepted are passed over, but for the one that was asked for and the first.
    AcceptedOnly,
    /// A chain begins with the first.
    FirstBefore,
    /// A name's length is taken modulo 256.
    LengthModulo,
    /// A name is cut after 32 bytes.
    NameCut,
    /// Zeros at the end of a name do not count.
    ZerosCut,
    /// A name is looked for among all clients'.
    AnyClient,
    /// A client is told by the low byte of its number.
    LowByte,
    /// A name longer than 32 bytes is refused.
    LongRefused,
    /// An empty name is refused.
    EmptyRefused,
    /// The bytes behind a name in its entry are left.
    NotFilled,
    /// The outcome of the name that was asked for stands in every entry.
    OneOutcome,
    /// `answered` stands for the outcome.
    AnsweredForOutcome,
    /// 12 is said if the list is exactly long enough.
    TwelveAtJustEnough,
    /// 12 is said by the longest chain that there may be.
    TwelveByLongest,
    /// The entries for which there is room are written beside 12.
    TwelveWrites,
    /// The count of entries stands beside 12.
    CountBesideTwelve,
    /// 12 is asked before 1.
    TwelveBeforeOne,
    /// The rest of the list is cleared.
    RestCleared,
}

impl ChainFault {
    pub const ALL: [Self; 33] = [
        Self::EightFailed,
        Self::SevenRefused,
        Self::SetAgain,
        Self::ByStatus,
        Self::ByExecType,
        Self::SupersededRefused,
        Self::SupersededOpen,
        Self::NotSet,
        Self::ClientsOnly,
        Self::OriginFirst,
        Self::OriginBefore,
        Self::EmptyFound,
        Self::WithoutFirst,
        Self::WithoutItself,
        Self::ByNumber,
        Self::AcceptedOnly,
        Self::FirstBefore,
        Self::LengthModulo,
        Self::NameCut,
        Self::ZerosCut,
        Self::AnyClient,
        Self::LowByte,
        Self::LongRefused,
        Self::EmptyRefused,
        Self::NotFilled,
        Self::OneOutcome,
        Self::AnsweredForOutcome,
        Self::TwelveAtJustEnough,
        Self::TwelveByLongest,
        Self::TwelveWrites,
        Self::CountBesideTwelve,
        Self::TwelveBeforeOne,
        Self::RestCleared,
    ];
}

/// The outcomes and origins that an event leaves, as the fault has them.
pub fn write(fault: ChainFault, record: &[u8], before: &Book, after: &mut Book) {
    let Some(event) = Record::read_event(record) else { return };
    let current = |request: &Request| {
        let order = before.orders.get(request.order as usize);
        order.is_some_and(|order| order.downstream == request.downstream)
    };
    let named =
        |request: &Request| event.has(DOWNSTREAM) && request.downstream.text() == event.text(DOWNSTREAM);
    let code = |bit: usize| event.maybe(bit, |event| event.code(bit));
    for (was, request) in before.requests.iter().zip(&mut after.requests) {
        let settled = was.answered == 0 && request.answered == 1;
        let superseded = settled && current(was) && !named(was);
        let cancelled = event.kind == VENUE_REPORT && code(ORD_STATUS) == Some(b'4') && named(was);
        match fault {
            ChainFault::EightFailed if settled && event.kind == SEND_AGAIN => request.outcome = 3,
            ChainFault::SevenRefused if settled && event.kind == SEND_FAILED => request.outcome = 2,
            ChainFault::SetAgain if was.answered == 1 && cancelled => {
                let order = &before.orders[was.order as usize];
                let ends = order.status != after.orders[was.order as usize].status;
                request.outcome = if ends { 1 } else { was.outcome };
            }
            ChainFault::ByStatus
                if settled && event.kind == VENUE_REPORT && code(ORD_STATUS) != Some(b'8') =>
            {
                request.outcome = 1;
            }
            ChainFault::ByExecType
                if settled && event.kind == VENUE_REPORT && code(EXEC_TYPE) != Some(b'8') =>
            {
                request.outcome = 1;
            }
            ChainFault::SupersededRefused if superseded => request.outcome = 2,
            ChainFault::SupersededOpen if superseded => request.outcome = 0,
            ChainFault::NotSet => request.outcome = was.outcome,
            ChainFault::ClientsOnly if was.kind == GATEWAY_CANCEL => request.outcome = was.outcome,
            _ => {}
        }
    }
    if let Some((last, earlier)) = after.requests.split_last_mut()
        && last.orig_cl_ord_id.length > 0
        && earlier.len() == before.requests.len()
    {
        let mut own = earlier.iter().zip(1..).filter(|(request, _)| request.order == last.order);
        match fault {
            ChainFault::OriginFirst => last.origin = own.next().map_or(0, |(_, link)| link),
            ChainFault::OriginBefore => last.origin = own.last().map_or(0, |(_, link)| link),
            _ => {}
        }
    }
}

/// The name that the fault looks for in place of the one that is asked for.
fn asked(fault: Option<ChainFault>, book: &Book, client: u16, name: &[u8]) -> Asked {
    let name = match fault {
        Some(ChainFault::LengthModulo) => &name[..name.len() % 256],
        Some(ChainFault::NameCut) => &name[..name.len().min(32)],
        Some(ChainFault::ZerosCut) => {
            &name[..name.iter().rposition(|&byte| byte != 0).map_or(0, |last| last + 1)]
        }
        _ => name,
    };
    let bears = |request: &&Request| request.cl_ord_id.text() == name && request.kind != GATEWAY_CANCEL;
    let owner = |request: &Request| book.orders[request.order as usize].client as u16;
    let mut owners = book.requests.iter().filter(bears).map(owner);
    let client = match fault {
        Some(ChainFault::AnyClient) => owners.next().unwrap_or(client),
        Some(ChainFault::LowByte) => owners.find(|owner| *owner as u8 == client as u8).unwrap_or(client),
        _ => client,
    };
    (client, name.to_vec())
}

/// The chain as the fault has it.
fn chain(fault: Option<ChainFault>, requests: &Requests, book: &Book, asked: &Asked) -> Vec<(Vec<u8>, u8)> {
    let mut chain = requests.chain(asked);
    let at = |name: &[u8]| {
        let client = |request: &Request| book.orders[request.order as usize].client == u64::from(asked.0);
        book.requests.iter().position(|request| request.cl_ord_id.text() == name && client(request))
    };
    match fault {
        Some(ChainFault::EmptyFound) if asked.1.is_empty() => {
            chain.extend(at(b"").map(|at| (Vec::new(), book.requests[at].outcome as u8)));
        }
        Some(ChainFault::WithoutFirst) => drop(chain.pop()),
        Some(ChainFault::WithoutItself) if chain.len() > 1 => drop(chain.remove(0)),
        Some(ChainFault::ByNumber) => {
            let own = at(&asked.1).filter(|_| !chain.is_empty()).map(|last| {
                let same = move |request: &&Request| request.order == book.requests[last].order;
                book.requests[..=last]
                    .iter()
                    .rev()
                    .filter(same)
                    .filter(|request| request.cl_ord_id.length > 0)
            });
            let own = own.into_iter().flatten();
            chain = own.map(|request| (request.cl_ord_id.text().to_vec(), request.outcome as u8)).collect();
        }
        Some(ChainFault::AcceptedOnly) if chain.len() > 2 => {
            let (first, itself) = (chain.pop().expect("the first"), chain.remove(0));
            chain.retain(|(_, outcome)| *outcome == 1);
            chain.insert(0, itself);
            chain.push(first);
        }
        Some(ChainFault::FirstBefore) => chain.reverse(),
        Some(ChainFault::OneOutcome) => {
            let outcome = chain.first().map_or(0, |(_, outcome)| *outcome);
            chain.iter_mut().for_each(|entry| entry.1 = outcome);
        }
        Some(ChainFault::AnsweredForOutcome) => chain.iter_mut().for_each(|entry| entry.1 = entry.1.min(1)),
        _ => {}
    }
    chain
}

/// The call on a book, with its requests if it keeps its rules.
pub fn call(
    fault: Option<ChainFault>,
    book: &[u8],
    requests: impl FnOnce() -> Option<Rc<Requests>>,
    (client, name): (u16, &[u8]),
    list: &mut [u8],
) -> Counted {
    let refused = |refusal: u32, number: u32| Counted { refusal, number };
    if fault == Some(ChainFault::TwelveBeforeOne) && list.len() < ENTRY && !name.is_empty() {
        return refused(12, 0);
    }
    let Some(requests) = requests() else { return refused(1, 0) };
    let long = fault == Some(ChainFault::LongRefused) && name.len() > 32;
    if long || fault == Some(ChainFault::EmptyRefused) && name.is_empty() {
        return refused(12, 0);
    }
    let book = Book::read(book);
    let chain = chain(fault, &requests, &book, &asked(fault, &book, client, name));
    let written = entries_of(&chain);
    let room = match fault {
        Some(ChainFault::TwelveAtJustEnough) if !chain.is_empty() => written.len() + 1,
        Some(ChainFault::TwelveByLongest) => written.len().max((book.requests.len() * ENTRY).min(9 * ENTRY)),
        _ => written.len(),
    };
    if list.len() < room {
        if fault == Some(ChainFault::TwelveWrites) {
            let whole = list.len() / ENTRY * ENTRY;
            list[..whole].copy_from_slice(&written[..whole]);
        }
        let beside = fault == Some(ChainFault::CountBesideTwelve);
        return refused(12, if beside { chain.len() as u32 } else { 0 });
    }
    for (at, (name, outcome)) in chain.iter().enumerate() {
        let entry = &mut list[at * ENTRY..][..ENTRY];
        if fault == Some(ChainFault::NotFilled) {
            entry[0] = name.len() as u8;
            entry[1..=name.len()].copy_from_slice(name);
            entry[ENTRY - 1] = *outcome;
        } else {
            entry.copy_from_slice(&written[at * ENTRY..][..ENTRY]);
        }
    }
    if fault == Some(ChainFault::RestCleared) {
        list[written.len()..].fill(0);
    }
    Counted { refusal: 0, number: chain.len() as u32 }
}
