//! The net position (change request 6), plainly from the Rust's own orders, and added up from the
//! messages that were sent; a library's `net_position` compared with both: buffers exactly large
//! enough, larger, too small, at odd addresses, with guards around them.

use std::collections::BTreeMap;

use gateway::book::Order;
use model::Machine;
use model::answer::{bytes, client_number, messages};
use model::codes::side_code;
use model::machine::MOST_ORDERS;
use model::numbers::qty_count;
use model::record::*;

use crate::entries::{Counted, Entries};

/// A line: client 2, symbol 1 and 16, net 8.
pub const LINE: usize = 27;

/// What must be lent at least: bytes for lines, and numbers for scratch.
pub const LINES: usize = MOST_ORDERS * LINE;
pub const SCRATCH: usize = 1;

/// Bytes and numbers before and behind what is lent.
const GUARD: usize = 96;

/// A client and a symbol.
pub type Pair = (u16, Vec<u8>);

/// A quantity with its sign: what is not bought is sold, short or not.
pub fn signed(side: u8, qty: u64) -> i64 {
    if side == b'1' { qty as i64 } else { -(qty as i64) }
}

/// The net of each pair that has an order, as the pairs were booked first.
pub fn nets(machine: &Machine) -> Vec<(Pair, i64)> {
    let mut orders: Vec<&Order> = machine.book().order_table().values().collect();
    orders.sort_by_key(|order| order.id.0);
    let parts = orders.into_iter().map(|order| {
        let pair = (client_number(&order.client), bytes(&order.request.symbol));
        (pair, signed(side_code(order.request.side), qty_count(order.cum_qty)))
    });
    added(parts)
}

/// The sums by pair, as the pairs come first.
pub fn added(parts: impl Iterator<Item = (Pair, i64)>) -> Vec<(Pair, i64)> {
    let mut nets: Vec<(Pair, i64)> = Vec::new();
    for (pair, net) in parts {
        match nets.iter_mut().find(|(other, _)| *other == pair) {
            Some((_, sum)) => *sum += net,
            None => nets.push((pair, net)),
        }
    }
    nets
}

/// The lines of these nets.
pub fn lines(nets: &[(Pair, i64)]) -> Vec<u8> {
    nets.iter().flat_map(|((client, symbol), net)| line(*client, symbol, *net)).collect()
}

fn line(client: u16, symbol: &[u8], net: i64) -> [u8; LINE] {
    let mut line = [0; LINE];
    line[..2].copy_from_slice(&client.to_le_bytes());
    line[2] = symbol.len() as u8;
    line[3..3 + symbol.len()].copy_from_slice(symbol);
    line[19..].copy_from_slice(&net.to_le_bytes());
    line
}

/// The nets that lines say.
fn read(lines: &[u8]) -> Vec<(Pair, i64)> {
    let pair = |line: &[u8]| (u16::from_le_bytes([line[0], line[1]]), line[3..][..line[2].into()].to_vec());
    let net = |line: &[u8]| i64::from_le_bytes(line[19..].try_into().expect("eight bytes"));
    lines.chunks(LINE).map(|line| (pair(line), net(line))).collect()
}

/// The nets that a book started with, and what the messages sent since say of each pair: LastQty of
/// every report, by its own client, symbol and side.
#[derive(Debug, Clone, Default)]
pub struct Told(BTreeMap<Pair, i64>);

impl Told {
    /// Nothing told yet, from a book that is there.
    pub fn since(machine: &Machine) -> Self {
        Self(nets(machine).into_iter().collect())
    }

    /// Takes in the messages of an answer.
    pub fn hear(&mut self, answer: &[u8]) {
        for report in messages(answer).iter().filter(|message| message.kind == REPORT_MESSAGE) {
            let pair = (report.number(CLIENT) as u16, report.text(SYMBOL).to_vec());
            *self.0.entry(pair).or_default() += signed(report.code(SIDE), report.number(LAST_QTY));
        }
    }

    /// Compares the lines that `net_position` gives with it: 0 if nothing was told, and a line
    /// for whatever was told.
    pub fn holds(&self, entries: &Entries, book: &[u8]) -> Result<(), String> {
        let (mut scratch, mut lines) = ([0; SCRATCH], [0; LINES]);
        let given = entries.net_position(book, &mut scratch, &mut lines);
        let count = given.number.min(MOST_ORDERS as u32) as usize;
        let nets = read(&lines[..count * LINE]);
        for (pair, net) in &nets {
            let told = self.0.get(pair).copied().unwrap_or(0);
            if told != *net {
                return Err(format!("net of {}: the messages say {told}, the line {net}", show(pair)));
            }
        }
        match self.0.keys().find(|pair| nets.iter().all(|(other, _)| other != *pair)) {
            Some(pair) => Err(format!("net of {}: told, and no line has it", show(pair))),
            None => Ok(()),
        }
    }
}

fn show((client, symbol): &Pair) -> String {
    format!("client {client} in \"{}\"", symbol.escape_ascii())
}

/// Compares `net_position` on a book with the machine that has it, or with refusal 1 if none
/// is given, since the bytes are no book that keeps its rules.
pub fn holds(entries: &Entries, book: &[u8], machine: Option<&Machine>) -> Result<(), String> {
    let short = [(SCRATCH - 1, LINES), (SCRATCH, LINES - 1), (0, LINES), (SCRATCH, 0), (0, 0)];
    let enough = [(SCRATCH, LINES), (SCRATCH + 1, LINES + 1), (64, LINES), (SCRATCH, 2 * LINES + 5)];
    let Some(machine) = machine else {
        return short.into_iter().chain(enough).try_for_each(|lent| call(entries, book, lent, Err(1)));
    };
    let lines = lines(&nets(machine));
    for lent in enough {
        call(entries, book, lent, Ok(&lines))?;
    }
    // What is to be written does not matter, a book without orders included.
    let needed = (SCRATCH, lines.len().min(LINES - 1));
    short.into_iter().chain([needed]).try_for_each(|lent| call(entries, book, lent, Err(11)))
}

/// One call with a scratch of so many numbers and an output of so many bytes, with guards around them.
fn call(
    entries: &Entries,
    book: &[u8],
    lent: (usize, usize),
    right: Result<&[u8], u32>,
) -> Result<(), String> {
    let found = |what: String| format!("net with {} numbers and {} bytes: {what}", lent.0, lent.1);
    let numbers: Vec<u64> = (0..lent.0 + 2 * GUARD).map(|at| at as u64 * 0x9E37_79B9_7F4A_7C15).collect();
    let at = GUARD + (lent.0 + lent.1) % 8;
    let filled: Vec<u8> = (0..at + lent.1 + GUARD).map(|at| (at * 89 + 7) as u8).collect();
    let (mut scratch, mut out) = (numbers.clone(), filled.clone());
    let given = entries.net_position(book, &mut scratch[GUARD..][..lent.0], &mut out[at..][..lent.1]);
    let lines = right.unwrap_or_default();
    let wanted = Counted { refusal: right.err().unwrap_or(0), number: (lines.len() / LINE) as u32 };
    if given != wanted {
        return Err(found(format!("should give {wanted:?}, gives {given:?}")));
    }
    if out[at..][..lines.len()] != *lines {
        let (should, is) = (read(lines), &out[at..][..lines.len()]);
        let row = is.chunks(LINE).zip(lines.chunks(LINE)).position(|(is, should)| is != should).unwrap_or(0);
        let (pair, net) = &should[row];
        let is = is[row * LINE..][..LINE].escape_ascii();
        return Err(found(format!("line {row} should be {} {net}, is {is}", show(pair))));
    }
    if out[..at] != filled[..at] || out[at + lines.len()..] != filled[at + lines.len()..] {
        return Err(found("bytes beside the lines changed".into()));
    }
    let free = if right.is_ok() { GUARD..GUARD + lent.0 } else { 0..0 };
    if (0..numbers.len()).any(|at| !free.contains(&at) && scratch[at] != numbers[at]) {
        return Err(found("numbers changed that are not lent, or with a refusal".into()));
    }
    Ok(())
}

#[cfg(test)]
mod tests {
    use model::events::{self, Filled, Named};

    use super::*;
    use crate::stand_in::STAND_IN;

    /// A short sale of 40, told and booked.
    #[test]
    fn what_is_told_is_held_against_the_lines() {
        let named = Named { client: 9, symbol: b"S".to_vec(), side: b'5' };
        let (mut book, mut answer) = (vec![0; 65_536], vec![0; 1_024]);
        let mut told = Told::default();
        let fill = Filled { last_qty: 30, last_px: 10, cum_qty: 40, avg_px: 10 };
        let drafts = [
            events::book(1, &named, b"A", b"c", 100, Some(10)),
            events::report(1, b"A", b'F', Some(b'1'), fill),
        ];
        STAND_IN.start(&mut book, 10_000);
        for draft in drafts {
            assert_eq!(told.holds(&STAND_IN, &book), Ok(()));
            assert_eq!(STAND_IN.event(&mut book, &draft.bytes(), &mut answer), 0);
        }
        let wrong = "net of client 9 in \"S\": the messages say 0, the line -40";
        assert_eq!(told.holds(&STAND_IN, &book), Err(wrong.into()));
        told.hear(&answer[..usize::from(u16::from_le_bytes([answer[0], answer[1]]))]);
        assert_eq!(told.holds(&STAND_IN, &book), Ok(()));
        STAND_IN.start(&mut book, 10_000);
        let lost = "net of client 9 in \"S\": told, and no line has it";
        assert_eq!(told.holds(&STAND_IN, &book), Err(lost.into()));
    }

    #[test]
    fn lines_are_read_back() {
        let nets: Vec<(Pair, i64)> = vec![
            ((0, b"S".to_vec()), 0),
            ((0, b"S\0".to_vec()), -1),
            ((0xFFFF, vec![b'Z'; 16]), -64_000_000_000_000),
            ((1, b"S".to_vec()), i64::MAX),
        ];
        let written = lines(&nets);
        assert_eq!((written.len(), read(&written)), (4 * LINE, nets));
        assert_eq!(
            written[LINE..2 * LINE],
            *b"\0\0\x02S\0\0\0\0\0\0\0\0\0\0\0\0\0\0\0\xff\xff\xff\xff\xff\xff\xff\xff"
        );
    }
}
