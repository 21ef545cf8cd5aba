//! The evening page (change request 1), plainly from the Rust's own orders, and a library's `page`
//! compared with it: buffers exactly long enough, a byte short, longer, at odd addresses, with guard
//! bytes around them.

use gateway::Decimal;
use gateway::book::Order;
use model::Machine;
use model::answer::bytes;
use model::done_for_day::{leaves_of, status_of};

use crate::entries::{Counted, Entries};

/// A line, with its line feed.
pub const LINE: usize = 81;

/// Bytes before and behind what is lent.
const GUARD: usize = 96;

/// The page of the machine's book: a line for each order, as they were booked.
pub fn page(machine: &Machine) -> Vec<u8> {
    let mut orders: Vec<&Order> = machine.book().order_table().values().collect();
    orders.sort_by_key(|order| order.id.0);
    orders.into_iter().flat_map(line).collect()
}

fn line(order: &Order) -> Vec<u8> {
    let mut line = [columns(&order.name, 20), columns(&order.request.symbol, 16)].concat();
    line.push(status_of(order));
    for quantity in [order.request.qty, order.cum_qty, leaves_of(order)] {
        line.extend(decimals(quantity).bytes());
    }
    line.extend(b" \n");
    assert_eq!(line.len(), LINE, "a line of the Rust's page");
    line
}

/// A text from the left, filled with blanks; a byte below 32 prints as one.
fn columns(text: &str, width: usize) -> Vec<u8> {
    let printed = bytes(text).into_iter().map(|byte| if byte < b' ' { b' ' } else { byte });
    printed.chain(std::iter::repeat(b' ')).take(width).collect()
}

/// Fourteen columns and four decimals, by Rust's own formatting.
fn decimals(quantity: Decimal) -> String {
    format!("{:>14}", format!("{quantity:.4}"))
}

/// Compares `page` on a book with the machine that has it, or with refusal 1 if none is given,
/// since the bytes are no book that keeps its rules.
pub fn holds(entries: &Entries, book: &[u8], machine: Option<&Machine>) -> Result<(), String> {
    let Some(machine) = machine else {
        return [0, 1, LINE, 64 * LINE].into_iter().try_for_each(|lent| call(entries, book, lent, 0, Err(1)));
    };
    let page = page(machine);
    let long = page.len();
    for lent in [long, long + 1, long + 2 * LINE + 5, 65 * LINE] {
        call(entries, book, lent, lent + long, Ok(&page))?;
    }
    for lent in [long.checked_sub(1), long.checked_sub(LINE), (long > 0).then_some(0)].into_iter().flatten() {
        call(entries, book, lent, lent, Err(8))?;
    }
    Ok(())
}

/// One call with a buffer of so many bytes at an address that is odd or not, and guards around it.
fn call(
    entries: &Entries,
    book: &[u8],
    lent: usize,
    turn: usize,
    right: Result<&[u8], u32>,
) -> Result<(), String> {
    let found = |what: String| format!("page into {lent} bytes: {what}");
    let at = GUARD + turn % 8;
    let filled: Vec<u8> = (0..at + lent + GUARD).map(|at| (at * 97 + 13) as u8).collect();
    let mut buffer = filled.clone();
    let given = entries.page(book, &mut buffer[at..at + lent]);
    let page = right.unwrap_or_default();
    let wanted = Counted { refusal: right.err().unwrap_or(0), number: page.len() as u32 };
    if given != wanted {
        return Err(found(format!("should give {wanted:?}, gives {given:?}")));
    }
    if buffer[at..at + page.len()] != *page {
        let (is, should) = (&buffer[at..at + page.len()], page);
        let row = is.iter().zip(should).position(|(is, should)| is != should).unwrap_or(0) / LINE;
        let show = |page: &[u8]| page[row * LINE..][..LINE].escape_ascii().to_string();
        return Err(found(format!("line {} should be\n{}\nis\n{}", row + 1, show(should), show(is))));
    }
    if buffer[..at] != filled[..at] || buffer[at + page.len()..] != filled[at + page.len()..] {
        return Err(found("bytes beside the page changed".into()));
    }
    Ok(())
}

#[cfg(test)]
mod tests {
    use model::answer::latin1;
    use model::numbers::qty;

    use super::*;
    use crate::net::{Pair, nets};

    const INPUT: &[u8] = include_bytes!("../../../../crates/evening/stdin");
    const OUTPUT: &[u8] = include_bytes!("../../../../crates/evening/stdout");

    /// A line of the net position as the program prints it: the client in 5 columns and a blank, the
    /// symbol in 16, the net in 17 with four decimals and a sign if it is not 0.
    fn net_line(((client, symbol), net): &(Pair, i64)) -> Vec<u8> {
        let sign = ["-", "", "+"][(net.signum() + 1) as usize];
        let size = format!("{sign}{:.4}", qty(net.unsigned_abs()));
        let symbol = columns(&latin1(symbol), 16);
        [format!("{client:>5} ").as_bytes(), &symbol, format!("{size:>17}\n").as_bytes()].concat()
    }

    /// The stored evening: the Rust's page after its records, and its nets below it under a heading, is
    /// what the program must print.
    #[test]
    fn the_stored_evening_is_the_rusts() {
        let mut machine = Machine::start(10_000);
        let mut rest = INPUT;
        while let Some((length, behind)) = rest.split_first_chunk() {
            let (record, after) = behind.split_at(u16::from_le_bytes(*length).into());
            machine.event(record, 1_024).expect("each event of the evening is taken");
            rest = after;
        }
        let mut right = page(&machine);
        right.extend_from_slice(b"\nNet position: client, symbol, bought less sold\n");
        right.extend(nets(&machine).iter().flat_map(net_line));
        assert_eq!(right.escape_ascii().to_string(), OUTPUT.escape_ascii().to_string());
    }
}
