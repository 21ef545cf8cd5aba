//! The open quantity of clients (change request 4), plainly from the Rust's own orders: what the book
//! stores of it, and a library's `open_quantity` compared with it, for every client of the book, those
//! next to them, and some that have no order.

use std::collections::BTreeSet;

use gateway::book::Order;
use model::Machine;
use model::answer::client_number;
use model::done_for_day::leaves_of;
use model::numbers::qty_count;

use crate::entries::{Entries, Opened};

/// Clients that are asked for on any book.
const ALWAYS: [u16; 4] = [0, 1, 0x0100, u16::MAX];

/// Each order's client and LeavesQty, by the Rust's own `leaves_qty` but for a 3, as they were booked.
fn leaves(machine: &Machine) -> Vec<(u16, u64)> {
    let mut orders: Vec<&Order> = machine.book().order_table().values().collect();
    orders.sort_by_key(|order| order.id.0);
    orders.iter().map(|order| (client_number(&order.client), qty_count(leaves_of(order)))).collect()
}

/// The client's open quantity: the sum over its orders.
fn sum(leaves: &[(u16, u64)], client: u16) -> u64 {
    leaves.iter().filter(|order| order.0 == client).map(|order| order.1).sum()
}

/// What belongs at each order's place: its client's open quantity if the order is the client's first.
pub fn stored(machine: &Machine) -> Vec<Option<u64>> {
    let leaves = leaves(machine);
    let first = |index: usize| leaves[..index].iter().all(|order| order.0 != leaves[index].0);
    (0..leaves.len()).map(|index| first(index).then(|| sum(&leaves, leaves[index].0))).collect()
}

/// Compares `open_quantity` on a book with the machine that has it, or with refusal 1 if none
/// is given, since the bytes are no book that keeps its rules.
pub fn holds(entries: &Entries, book: &[u8], machine: Option<&Machine>) -> Result<(), String> {
    let leaves = machine.map(leaves);
    let mut clients = BTreeSet::from(ALWAYS);
    for (client, _) in leaves.iter().flatten() {
        clients.extend([*client, client ^ 1, client ^ 0x0100]);
    }
    for client in clients {
        let right = match &leaves {
            Some(leaves) => Opened { refusal: 0, quantity: sum(leaves, client) },
            None => Opened { refusal: 1, quantity: 0 },
        };
        let given = entries.open_quantity(book, client);
        if given != right {
            return Err(format!("open quantity of client {client}: should give {right:?}, gives {given:?}"));
        }
    }
    Ok(())
}
