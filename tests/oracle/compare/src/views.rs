//! All calls that look at a book and change nothing, compared with the machine that has it, or
//! with refusal 1 if none is given, since the bytes are no book that keeps its rules.

use model::Machine;

use crate::entries::Entries;
use crate::{chains, net, opens, page};

type Holds = fn(&Entries, &[u8], Option<&Machine>) -> Result<(), String>;

const VIEWS: [(&str, Holds); 4] = [
    ("page", page::holds),
    ("open quantity", opens::holds),
    ("net position", net::holds),
    ("chain", chains::holds),
];

pub fn hold(entries: &Entries, book: &[u8], machine: Option<&Machine>) -> Result<(), String> {
    let before = book.to_vec();
    for (what, holds) in VIEWS {
        holds(entries, book, machine)?;
        if book != before {
            return Err(format!("{what}: the book changed"));
        }
    }
    Ok(())
}
