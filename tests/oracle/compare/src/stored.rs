//! Stored lists with the model's answers, one after another (all numbers little-endian):
//! tag 0 and a 4-byte setting starts a book; tag 1, a 2-byte length and that many bytes of record,
//! the 4-byte length of the answer buffer, the refusal as a byte and, if it is 0, a 2-byte
//! length and that many bytes of answer is an event. For the mutations alone, tag 2 and an 8-byte
//! digest is the Rust's orders and requests after the list.

use std::hash::{DefaultHasher, Hash, Hasher};

use gateway::book::Book;
use lists::{Item, List};
use model::Machine;

use crate::show;

/// The lists with what the model answers, and with a digest of each book that is left if asked.
pub fn write(lists: &[List], digests: bool) -> Vec<u8> {
    let mut bytes = Vec::new();
    for list in lists {
        bytes.push(0);
        bytes.extend(list.setting.to_le_bytes());
        let mut machine = Machine::start(list.setting);
        for item in &list.items {
            bytes.push(1);
            bytes.extend((item.record.len() as u16).to_le_bytes());
            bytes.extend(&item.record);
            bytes.extend((item.answer_buffer as u32).to_le_bytes());
            match machine.event(&item.record, item.answer_buffer) {
                Err(refusal) => bytes.push(refusal as u8),
                Ok(answer) => {
                    bytes.push(0);
                    bytes.extend((answer.len() as u16).to_le_bytes());
                    bytes.extend(&answer);
                }
            }
        }
        if digests {
            bytes.push(2);
            bytes.extend(digest(machine.book()).to_le_bytes());
        }
    }
    bytes
}

/// All orders and requests of the book, every field, as one number.
fn digest(book: &Book) -> u64 {
    let mut orders: Vec<_> = book.order_table().values().collect();
    orders.sort_by_key(|order| order.id.0);
    let mut requests: Vec<_> = book.request_table().iter().collect();
    requests.sort_by_key(|(downstream, _)| *downstream);
    let mut hasher = DefaultHasher::new();
    format!("{orders:?} {requests:?}").hash(&mut hasher);
    hasher.finish()
}

/// What a stored file holds next.
pub enum Stored {
    Start(u32),
    Event(Item, Result<Vec<u8>, u32>),
    Digest(u64),
}

/// Reads what `write` wrote.
pub struct Reader<'a>(pub &'a [u8]);

impl<'a> Reader<'a> {
    fn take(&mut self, count: usize) -> &'a [u8] {
        let (taken, rest) = self.0.split_at(count);
        self.0 = rest;
        taken
    }

    fn number(&mut self, size: usize) -> usize {
        self.take(size).iter().rev().fold(0, |number, &byte| number << 8 | usize::from(byte))
    }

    fn sized(&mut self) -> Vec<u8> {
        let length = self.number(2);
        self.take(length).to_vec()
    }
}

impl Iterator for Reader<'_> {
    type Item = Stored;

    fn next(&mut self) -> Option<Stored> {
        if self.0.is_empty() {
            return None;
        }
        match self.number(1) {
            0 => return Some(Stored::Start(self.number(4) as u32)),
            2 => return Some(Stored::Digest(self.number(8) as u64)),
            _ => {}
        }
        let record = self.sized();
        let item = Item { record, answer_buffer: self.number(4) };
        let refusal = self.number(1) as u32;
        let outcome = if refusal == 0 { Ok(self.sized()) } else { Err(refusal) };
        Some(Stored::Event(item, outcome))
    }
}

/// Compares the model with stored answers: lists and events, or the first difference.
pub fn replay(bytes: &[u8]) -> Result<(u64, u64), String> {
    replay_by(bytes, |machine, record, buffer| machine.event(record, buffer))
}

/// The same with another handling of an event.
pub fn replay_by(
    bytes: &[u8],
    event: impl Fn(&mut Machine, &[u8], usize) -> Result<Vec<u8>, u32>,
) -> Result<(u64, u64), String> {
    let (mut lists, mut events) = (0, 0);
    let mut machine = Machine::start(0);
    for stored in Reader(bytes) {
        match stored {
            Stored::Start(setting) => {
                lists += 1;
                machine = Machine::start(setting);
            }
            Stored::Digest(stored) if digest(machine.book()) == stored => {}
            Stored::Digest(_) => return Err(format!("list {lists} leaves another book")),
            Stored::Event(item, stored) => {
                events += 1;
                let now = event(&mut machine, &item.record, item.answer_buffer);
                if now != stored {
                    let (now, stored) = (show::outcome(&now), show::outcome(&stored));
                    let event = show::event(&item.record);
                    return Err(format!(
                        "list {lists}, event {events}, {event}\nstored: {stored}\nnow: {now}"
                    ));
                }
            }
        }
    }
    Ok((lists, events))
}

#[cfg(test)]
mod tests {
    use lists::{PROFILES, list};

    use super::*;
    use crate::faults::{self, Fault};

    #[test]
    fn what_is_written_is_read_and_replayed() {
        let lists: Vec<List> = PROFILES.iter().map(|profile| list(profile, 5, 60)).collect();
        assert_eq!(replay(&write(&lists, true)), Ok((10, 600)));
        let bytes = write(&lists, false);
        assert_eq!(replay(&bytes), Ok((10, 600)));
        let read: Vec<Item> = Reader(&bytes)
            .filter_map(|stored| match stored {
                Stored::Event(item, _) => Some(item),
                Stored::Start(_) | Stored::Digest(_) => None,
            })
            .collect();
        assert_eq!(read, lists.into_iter().flat_map(|list| list.items).collect::<Vec<_>>());
    }

    #[test]
    fn a_changed_answer_or_book_is_found() {
        for digest in [false, true] {
            let mut bytes = write(&[list(&PROFILES[0], 5, 60)], digest);
            let last = bytes.len() - 1;
            bytes[last] ^= 1;
            assert!(replay(&bytes).is_err());
        }
    }

    /// What a wrong handling of 3 answers is not what the stored days have.
    #[test]
    fn the_stored_days_find_a_wrong_3() {
        let days = include_bytes!("../../../replay/fixed.bin");
        assert!(replay(days).is_ok());
        let wrong = [
            Fault::ThreeUnlisted,
            Fault::ThreeIsDone,
            Fault::ThreeLeaves,
            Fault::ThreeIsNew,
            Fault::ThreeIsNeverBehind,
            Fault::FillEndsThree,
            Fault::ThreeAcceptsNothing,
            Fault::ThreeNotInRefusals,
            Fault::ThreeNotAtWhole,
            Fault::RefusalEndsThree,
        ];
        for fault in wrong {
            let replayed =
                replay_by(days, |machine, record, buffer| faults::event(fault, machine, record, buffer));
            assert!(replayed.is_err(), "{fault:?} is not found");
        }
    }
}
