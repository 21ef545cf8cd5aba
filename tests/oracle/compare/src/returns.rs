//! Lists that mix events with marks set and returned to (change request 10), on buffers that a host may have filled with
//! anything; and the comparison of a library with the model on them. Each call is compared with the plain decision, book and
//! places byte for byte. After a return the model has the image's book, and demand 3 and the nets are counted from there, by
//! the messages since alone. A mark that was set and not set again is returned to as the very book that was marked. The events
//! between two other steps run once more in one call of `events`, and must leave the same book.

use std::collections::BTreeMap;

use lists::Item;
use model::demand::Misread;
use model::machine::ANSWER_BYTES;
use model::watch::Watched;

use crate::comparison::{Caller, Mismatch, event_since, started};
use crate::entries::Entries;
use crate::many::{self, Calls, MOST_SAID, Many};
use crate::marks::{self, Call, PLACE};
use crate::minimize::shorten;
use crate::{show, views};

/// How a book that is lent for one call differs from the one in hand.
#[derive(Debug, Clone, Copy, PartialEq, Eq)]
pub enum Odd {
    /// One byte is another.
    Byte(usize, u8),
    /// It has another length.
    Length(usize),
}

#[derive(Debug, Clone, PartialEq, Eq)]
pub enum Step {
    Event(Item),
    /// A call with a name on a buffer.
    Mark(Call, Vec<u8>, usize),
    /// The same with another book, on copies of book and buffer.
    OnOther(Call, Vec<u8>, usize, Odd),
    /// The host writes these bytes to a buffer, from a byte on.
    Fill(usize, usize, Vec<u8>),
    /// The book is started again.
    Start(u32),
}

/// A start, the buffers as they are before the first step, and the steps.
#[derive(Debug, Clone, PartialEq, Eq)]
pub struct Marked {
    pub setting: u32,
    pub buffers: Vec<Vec<u8>>,
    pub steps: Vec<Step>,
}

/// What the steps were, and what the calls gave.
#[derive(Debug, Clone, Default)]
pub struct Counts {
    pub lists: u64,
    pub events: u64,
    /// Events after a return.
    pub since: u64,
    pub given: BTreeMap<(Call, u32), u64>,
    /// Returns to a mark that the list itself had set.
    pub to_marked: u64,
    /// The events once more, as many in one call as come without another step between.
    pub calls: Calls,
}

impl Counts {
    pub fn print(&self) {
        for call in [Call::Set, Call::Return] {
            let given: BTreeMap<u32, u64> = self
                .given
                .iter()
                .filter(|((of, _), _)| *of == call)
                .map(|((_, given), n)| (*given, *n))
                .collect();
            println!("  the calls of {call:?} by what they gave {given:?}");
        }
        println!(
            "  of the events {} after a return; of the returns {} to a mark set before",
            self.since, self.to_marked
        );
        println!("  the events in calls of many {}", self.calls);
    }
}

/// A library and the model along a list.
struct Run<'a> {
    entries: &'a Entries,
    caller: Caller<'a>,
    watched: Watched,
    buffers: Vec<Vec<u8>>,
    returned: bool,
    /// The book before the events since the last other step, and their records.
    between: (Vec<u8>, Vec<Vec<u8>>),
    /// The book that was marked, by buffer and name, as long as the host writes nothing there.
    set: BTreeMap<(usize, Vec<u8>), Vec<u8>>,
    misread: Option<Misread>,
}

/// Runs the list through both; the first difference, if any. With a misreading the count since a return is wrong, and
/// must be found so.
pub fn compare(
    entries: &Entries,
    list: &Marked,
    misread: Option<Misread>,
    counts: &mut Counts,
) -> Result<(), Mismatch> {
    let caller = started(entries, list.setting).map_err(|what| Mismatch { at: 0, what })?;
    let watched = Watched::start(list.setting).misread(misread);
    let (buffers, set) = (list.buffers.clone(), BTreeMap::new());
    let between = (caller.book.clone(), Vec::new());
    let mut run = Run { entries, caller, watched, buffers, returned: false, between, set, misread };
    counts.lists += 1;
    for (at, step) in list.steps.iter().enumerate() {
        run.step(step, counts).map_err(|what| Mismatch { at, what })?;
    }
    let at = list.steps.len().saturating_sub(1);
    run.together(counts).map_err(|what| Mismatch { at, what })
}

impl Run<'_> {
    fn step(&mut self, step: &Step, counts: &mut Counts) -> Result<(), String> {
        let Step::Event(item) = step else {
            self.together(counts)?;
            self.other(step, counts)?;
            self.between.0.clone_from(&self.caller.book);
            return Ok(());
        };
        counts.events += 1;
        counts.since += u64::from(self.returned);
        event_since(&mut self.caller, &mut self.watched, item)?.ok();
        // Many in one call have no short buffer: what is refused with 2 changes nothing.
        if item.answer_buffer >= ANSWER_BYTES {
            self.between.1.push(item.record.clone());
        }
        Ok(())
    }

    /// The events since the last other step in one call.
    fn together(&mut self, counts: &mut Counts) -> Result<(), String> {
        let (book, records) = &mut self.between;
        let joined = many::joined(records.iter().map(|record| &record[..]));
        let mut many = Many::new(self.entries, records.len() as u64);
        let ran = many.call(book, &joined, (records.len() + 1) * MOST_SAID)?;
        counts.calls.add(many.calls);
        if ran.events != records.len() as u64 || *book != self.caller.book {
            return Err(format!("{} events in one call: another book is left", ran.events));
        }
        records.clear();
        Ok(())
    }

    fn other(&mut self, step: &Step, counts: &mut Counts) -> Result<(), String> {
        match step {
            Step::Event(_) => Ok(()),
            Step::Mark(call, name, buffer) => self.mark(*call, name, *buffer, counts),
            Step::OnOther(call, name, buffer, odd) => {
                let (mut book, mut places) = (self.caller.book.clone(), self.buffers[*buffer].clone());
                match *odd {
                    Odd::Byte(at, byte) => book[at] = byte,
                    Odd::Length(length) => book.resize(length, 0),
                }
                let given = marks::call(self.entries, *call, &mut book, name, &mut places)?;
                *counts.given.entry((*call, given)).or_default() += 1;
                Ok(())
            }
            Step::Fill(buffer, at, bytes) => {
                self.buffers[*buffer][*at..at + bytes.len()].copy_from_slice(bytes);
                self.set.retain(|(of, _), _| of != buffer);
                Ok(())
            }
            Step::Start(setting) => {
                self.caller = started(self.entries, *setting)?;
                self.watched = Watched::start(*setting).misread(self.misread);
                self.returned = false;
                Ok(())
            }
        }
    }

    fn mark(&mut self, call: Call, name: &[u8], buffer: usize, counts: &mut Counts) -> Result<(), String> {
        let given = marks::call(self.entries, call, &mut self.caller.book, name, &mut self.buffers[buffer])?;
        *counts.given.entry((call, given)).or_default() += 1;
        let key = (buffer, name.to_vec());
        match (call, given) {
            (Call::Set, 0) => drop(self.set.insert(key, self.caller.book.clone())),
            (Call::Return, 0) => {
                if let Some(marked) = self.set.get(&key) {
                    counts.to_marked += 1;
                    if *marked != self.caller.book {
                        return Err("the book is not the one that was marked".into());
                    }
                }
                self.go_on()?;
            }
            _ => {}
        }
        Ok(())
    }

    /// After a return: the model has the image's book, and every call that looks at it says the same.
    fn go_on(&mut self) -> Result<(), String> {
        let (caller, machine) = Caller::on(self.entries, std::mem::take(&mut self.caller.book));
        self.caller = caller;
        match self.entries.check(&self.caller.book) {
            0 => views::hold(self.entries, &self.caller.book, Some(&machine))?,
            check => return Err(format!("check gives {check} after a return")),
        }
        self.watched.returned(machine);
        self.returned = true;
        Ok(())
    }
}

/// A mismatch told whole: the shortest list found.
pub fn explain(entries: &Entries, list: &Marked, mismatch: &Mismatch) -> String {
    let with = |steps: &[Step]| Marked { steps: steps.to_vec(), ..list.clone() };
    let run = |steps: &[Step]| compare(entries, &with(steps), None, &mut Counts::default());
    let few = shorten(&list.steps[..=mismatch.at], |steps| run(steps).is_err());
    let again = run(&few).expect_err("the short list fails");
    let buffers: Vec<String> = list.buffers.iter().map(|buffer| names(buffer)).collect();
    let steps: String = few.iter().zip(1..).map(|(step, at)| format!("{at}. {}\n", tell(step))).collect();
    let buffers = buffers.join("\n");
    let setting = list.setting;
    format!("start with setting {setting}, buffers\n{buffers}\n{steps}step {}: {}", again.at + 1, again.what)
}

/// The names of a buffer's places, and how many bytes are over.
fn names(buffer: &[u8]) -> String {
    let name = |place: &[u8]| format!("\"{}\"", place[..marks::NAME].escape_ascii());
    let names: Vec<String> = buffer.chunks_exact(PLACE).map(name).collect();
    format!("  [{}] and {} bytes", names.join(", "), buffer.len() % PLACE)
}

fn tell(step: &Step) -> String {
    match step {
        Step::Event(item) => show::event(&item.record),
        Step::Mark(call, name, buffer) => {
            format!("{call:?} of \"{}\" on buffer {buffer}", name.escape_ascii())
        }
        Step::OnOther(call, name, buffer, odd) => {
            format!("{call:?} of \"{}\" on buffer {buffer}, the book with {odd:?}", name.escape_ascii())
        }
        Step::Fill(buffer, at, bytes) => {
            let front = bytes[..bytes.len().min(marks::NAME)].escape_ascii();
            format!("{} bytes written to buffer {buffer} from {at} on: {front}..", bytes.len())
        }
        Step::Start(setting) => format!("start with setting {setting}"),
    }
}

#[cfg(test)]
mod tests {
    use super::*;
    use crate::faults::Fault;
    use crate::mark_lists::{drawn, fixed};
    use crate::marking::MarkFault;
    use crate::stand_in::{STAND_IN, plant};

    /// Of a list that finds a fault just the steps are told that it takes.
    #[test]
    fn a_mismatch_is_told_by_few_steps() {
        plant(Some(Fault::Mark(MarkFault::KeepsSetting)));
        let found = |list: &Marked| compare(&STAND_IN, list, None, &mut Counts::default()).err();
        let (list, mismatch) = fixed()
            .into_iter()
            .find_map(|list| found(&list).map(|mismatch| (list, mismatch)))
            .expect("found");
        let told = explain(&STAND_IN, &list, &mismatch);
        plant(None);
        assert!(told.contains("\n1. Return of \"A\" on buffer 0\nstep 1: Return of"), "{told}");
    }

    #[test]
    fn a_seed_gives_the_same_list() {
        assert_eq!(drawn(3, 40), drawn(3, 40));
        assert_ne!(drawn(3, 40), drawn(4, 40));
    }
}
