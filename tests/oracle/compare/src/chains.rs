//! The chain of a ClOrdID (change request 9), plainly from the Rust's own requests and what they came to; and a library's
//! `chain` compared with it: for names that a client used and for names that are nearly those, lists exactly long enough,
//! longer, a byte and an entry short, at odd addresses, with guards around them.

use std::collections::{BTreeMap, BTreeSet};

use gateway::book::Origin;
use model::Machine;
use model::answer::{bytes, client_number};
use model::machine::MOST_REQUESTS;

use crate::entries::{Counted, Entries};

/// An entry: length 1, name 32, outcome 1.
pub const ENTRY: usize = 34;
pub const NAME: usize = 32;

/// Bytes before and behind what is lent.
const GUARD: usize = 96;

/// A client and a ClOrdID.
pub type Asked = (u16, Vec<u8>);

/// What a name stands for: the OrigClOrdID of its request, and what the request came to.
#[derive(Debug, Clone, PartialEq, Eq)]
struct Of {
    before: Option<Vec<u8>>,
    outcome: u8,
}

/// The requests of clients, by client and ClOrdID, and the clients that have an order.
pub struct Requests {
    used: BTreeMap<Asked, Of>,
    clients: BTreeSet<u16>,
}

impl Requests {
    pub fn of(machine: &Machine) -> Self {
        let book = machine.book();
        let client = |sent: &gateway::book::Sent| {
            client_number(&book.order(sent.order).expect("a request names an order").client)
        };
        let sent = book.request_table().iter().filter(|(_, sent)| sent.origin == Origin::Client);
        let used = sent.map(|(downstream, sent)| {
            let before = sent.orig_cl_ord_id.as_ref().map(|name| bytes(name));
            let of = Of { before, outcome: machine.outcomes().of(downstream) };
            ((client(sent), bytes(&sent.cl_ord_id)), of)
        });
        let clients = book.order_table().values().map(|order| client_number(&order.client)).collect();
        Self { used: used.collect(), clients }
    }

    /// The names from that one back to the first, with what their requests came to.
    pub fn chain(&self, asked: &Asked) -> Vec<(Vec<u8>, u8)> {
        let mut chain = Vec::new();
        let mut next = Some(asked.clone());
        while let Some((asked, of)) = next.and_then(|asked| self.used.get(&asked).map(|of| (asked, of))) {
            assert!(chain.len() < MOST_REQUESTS, "a chain ends");
            next = of.before.clone().map(|before| (asked.0, before));
            chain.push((asked.1, of.outcome));
        }
        chain
    }
}

/// The entries of a chain.
pub fn entries_of(chain: &[(Vec<u8>, u8)]) -> Vec<u8> {
    chain.iter().flat_map(|(name, outcome)| entry(name, *outcome)).collect()
}

fn entry(name: &[u8], outcome: u8) -> [u8; ENTRY] {
    let mut entry = [0; ENTRY];
    entry[0] = name.len() as u8;
    entry[1..=name.len()].copy_from_slice(name);
    entry[ENTRY - 1] = outcome;
    entry
}

/// A number that differs if books do, for a choice.
fn chance(book: &[u8]) -> usize {
    let (words, _) = book.as_chunks::<8>();
    let mixed = words
        .iter()
        .fold(0_u64, |mixed, word| (mixed ^ u64::from_le_bytes(*word)).wrapping_mul(0x9E37_79B9_7F4A_7C15));
    (mixed >> 33) as usize
}

/// Compares `chain` on a book with the machine that has it, for one name that is used and some that are not; or with
/// refusal 1 if none is given, since the bytes are no book that keeps its rules.
pub fn holds(entries: &Entries, book: &[u8], machine: Option<&Machine>) -> Result<(), String> {
    let Some(machine) = machine else {
        let lent = [0, ENTRY - 1, ENTRY, MOST_REQUESTS * ENTRY];
        let names: [&[u8]; 3] = [b"", b"A", &[b'q'; NAME + 1]];
        return names.into_iter().try_for_each(|name| {
            lent.into_iter().try_for_each(|lent| call(entries, book, (1, name), lent, Err(1)))
        });
    };
    let requests = Requests::of(machine);
    let chance = chance(book);
    let Some(asked) = requests.used.keys().nth(chance % requests.used.len().max(1)) else {
        return ask(entries, book, &requests, &(chance as u16, b"A".to_vec()));
    };
    ask(entries, book, &requests, asked)?;
    ask(entries, book, &requests, &(asked.0, Vec::new()))?;
    let near = near(asked, chance);
    let picked = [chance % near.len(), (chance >> 8) % near.len()];
    picked.into_iter().try_for_each(|at| ask(entries, book, &requests, &near[at]))
}

/// The same for every name of every client, the empty name of every client, and names that are nearly some of them.
pub fn hold_all(entries: &Entries, book: &[u8], machine: &Machine) -> Result<(), String> {
    let requests = Requests::of(machine);
    for asked in requests.used.keys() {
        let chain = entries_of(&requests.chain(asked));
        let asked = (asked.0, &asked.1[..]);
        call(entries, book, asked, chain.len(), Ok(&chain))?;
        call(entries, book, asked, chain.len() - 1, Err(12))?;
    }
    for client in &requests.clients {
        ask(entries, book, &requests, &(*client, Vec::new()))?;
    }
    // Every name once for another client, and those of a few in every way.
    for (client, name) in requests.used.keys() {
        ask(entries, book, &requests, &(client ^ 1, name.clone()))?;
    }
    let every = requests.used.len().div_ceil(4).max(1);
    for asked in requests.used.keys().skip(chance(book) % every).step_by(every) {
        for near in near(asked, 0) {
            ask(entries, book, &requests, &near)?;
        }
        // As long as the name by its last two bytes.
        let long = [&asked.1[..], &[0; 1 << 16]].concat();
        ask(entries, book, &requests, &(asked.0, long))?;
    }
    Ok(())
}

/// What is nearly a name that is used: names of every odd length that begin with it, other clients'.
fn near((client, name): &Asked, chance: usize) -> Vec<Asked> {
    let with = |more: usize, byte: u8| [&name[..], &vec![byte; more]].concat();
    let upto = |length: usize, byte: u8| with(length.saturating_sub(name.len()), byte);
    let names = vec![
        name[..name.len() - 1].to_vec(),
        name[1..].to_vec(),
        with(1, 0),
        with(1, b'x'),
        upto(NAME, 0),
        upto(NAME, b'q'),
        upto(NAME + 1, 0),
        upto(NAME + 1, b'q'),
        vec![0; NAME],
        vec![b'q'; NAME],
        vec![0; NAME + 1],
        with(NAME, 0),
        with(256, 0),
        with(256, b'q'),
        with(512, chance as u8),
        vec![0; 256],
        upto(300, 0),
        upto(300, chance as u8),
        vec![b'q'; 300],
    ];
    let clients = [client ^ 1, client ^ 0x0100, u16::MAX - client].map(|client| (client, name.clone()));
    names.into_iter().map(|name| (*client, name)).chain(clients).collect()
}

/// The calls for one name: its list exactly long enough, longer, and, if there is a chain, short in every way.
fn ask(entries: &Entries, book: &[u8], requests: &Requests, asked: &Asked) -> Result<(), String> {
    let chain = entries_of(&requests.chain(asked));
    let length = chain.len();
    let asked = (asked.0, &asked.1[..]);
    call(entries, book, asked, length, Ok(&chain))?;
    call(entries, book, asked, length + 5 * ENTRY + 3, Ok(&chain))?;
    if chain.is_empty() {
        return Ok(());
    }
    call(entries, book, asked, length + 1, Ok(&chain))?;
    let short = [0, 1, length.saturating_sub(ENTRY), length.saturating_sub(1)];
    for lent in short.into_iter().filter(|lent| *lent < length) {
        call(entries, book, asked, lent, Err(12))?;
    }
    Ok(())
}

/// One call with a list of so many bytes, with guards around it.
fn call(
    entries: &Entries,
    book: &[u8],
    (client, name): (u16, &[u8]),
    lent: usize,
    right: Result<&[u8], u32>,
) -> Result<(), String> {
    let found = |what: String| {
        let shown = name[..name.len().min(40)].escape_ascii();
        let length = name.len();
        format!("chain of \"{shown}\" of length {length} of client {client}, with {lent} bytes: {what}")
    };
    let at = GUARD + lent % 8;
    let filled: Vec<u8> = (0..at + lent + GUARD).map(|at| (at * 109 + 3) as u8).collect();
    let (mut list, mut asked) = (filled.clone(), name.to_vec());
    let given = entries.chain(book, client, &mut asked, &mut list[at..][..lent]);
    let chain = right.unwrap_or_default();
    let wanted = Counted { refusal: right.err().unwrap_or(0), number: (chain.len() / ENTRY) as u32 };
    if given != wanted {
        return Err(found(format!("should give {wanted:?}, gives {given:?}")));
    }
    if list[at..][..chain.len()] != *chain {
        let is = list[at..].chunks(ENTRY).zip(chain.chunks(ENTRY));
        let (row, (is, should)) =
            is.enumerate().find(|(_, (is, should))| is != should).expect("an entry differs");
        let (is, should) = (is.escape_ascii(), should.escape_ascii());
        return Err(found(format!("entry {row} should be {should}, is {is}")));
    }
    if list[..at] != filled[..at] || list[at + chain.len()..] != filled[at + chain.len()..] {
        return Err(found("bytes beside the entries changed".into()));
    }
    if asked != name {
        return Err(found("the name changed".into()));
    }
    Ok(())
}

#[cfg(test)]
mod tests {
    use model::events::{self, Named};

    use super::*;
    use crate::layout::Book;
    use crate::mirror;
    use crate::stand_in::STAND_IN;

    /// A booking, a cancel that is refused, a gateway's cancel, and a cancel for the refused one.
    #[test]
    fn a_chain_goes_back_to_the_first() {
        let named = Named { client: 9, symbol: b"S".to_vec(), side: b'1' };
        let (mut book, mut answer) = (vec![0; 65_536], vec![0; 1_024]);
        STAND_IN.start(&mut book, 10_000);
        for draft in [
            events::book(1, &named, b"A", b"a", 100, Some(10)),
            events::cancel(&named, b"b", b"a"),
            events::cancel_reject(1, b"A-1", None, Some(0)),
            events::gateway_cancel(b"A"),
            events::send_failed(1, b"A-2", b"down"),
            events::cancel(&named, b"c\0", b"b"),
        ] {
            assert_eq!(STAND_IN.event(&mut book, &draft.bytes(), &mut answer), 0);
        }
        let machine = mirror::machine(&Book::read(&book)).0;
        let requests = Requests::of(&machine);
        let chain = |name: &[u8]| requests.chain(&(9, name.to_vec()));
        let back = vec![(b"c\0".to_vec(), 0), (b"b".to_vec(), 2), (b"a".to_vec(), 0)];
        assert_eq!(chain(b"c\0"), back);
        assert_eq!((chain(b"b"), chain(b"a")), (back[1..].to_vec(), back[2..].to_vec()));
        assert_eq!((chain(b""), chain(b"c"), requests.chain(&(8, b"a".to_vec()))), (vec![], vec![], vec![]));
        let entries = entries_of(&back);
        assert_eq!((entries.len(), &entries[..4], entries[33]), (3 * ENTRY, &[2, b'c', 0, 0][..], 0));
        assert_eq!((entries[34], entries[35], entries[67]), (1, b'b', 2));
        assert_eq!(holds(&STAND_IN, &book, Some(&machine)), Ok(()));
        assert_eq!(hold_all(&STAND_IN, &book, &machine), Ok(()));
    }
}
