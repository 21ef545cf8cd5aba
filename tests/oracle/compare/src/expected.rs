//! What the entries must give on any bytes whatever: question 1 by the second decision of the
//! rules, questions 2 to 4 by the model's plain reader, and all else by the Rust itself, its book
//! read from the bytes. The book need not be one that events have made.

use std::panic::{AssertUnwindSafe, catch_unwind};

use model::Machine;
use model::machine::readable;

use crate::keeps::keeps;
use crate::layout::{self, Book};
use crate::mirror::{self, Sending};
use crate::show;

/// A refusal, or the answer and the book that is left.
pub type Outcome = Result<(Vec<u8>, Book), u32>;

/// Bytes lent as a book, and the machine that has it if they keep the rules.
pub struct Lent {
    pub bytes: Vec<u8>,
    machine: Option<(Machine, Sending)>,
}

impl Lent {
    pub fn new(bytes: Vec<u8>) -> Self {
        let machine = keeps(&bytes).then(|| mirror::machine(&Book::read(&bytes)));
        Self { bytes, machine }
    }

    pub fn keeps(&self) -> bool {
        self.machine.is_some()
    }

    pub fn machine(&self) -> Option<&Machine> {
        self.machine.as_ref().map(|(machine, _)| machine)
    }

    /// What `event` must give; an error if the Rust itself panics.
    pub fn event(&self, record: &[u8], answer_buffer: usize) -> Result<Outcome, String> {
        let Some((machine, sending)) = &self.machine else { return Ok(Err(1)) };
        if let Err(refusal) = readable(record, answer_buffer) {
            return Ok(Err(refusal));
        }
        let (mut machine, mut sending) = (machine.clone(), sending.clone());
        let taken = || {
            let answer = machine.event(record, answer_buffer)?;
            sending.follow(&machine);
            Ok((answer, mirror::book(&machine, &sending)))
        };
        catch_unwind(AssertUnwindSafe(taken)).map_err(|_| format!("the Rust panics: {}", show::event(record)))
    }
}

/// Compares what a call of `event` gave and left with what it must: refusal, answer, every field of
/// the book, and no other byte written anywhere. `book` and `answer` come with what they were.
pub fn holds(
    outcome: &Outcome,
    refusal: u32,
    book: (&[u8], &[u8]),
    answer: (&[u8], &[u8]),
) -> Result<(), String> {
    let ((book_before, book), (answer_before, answer)) = (book, answer);
    let given = match refusal {
        0 => Ok(told(answer)),
        refusal => Err(refusal),
    };
    let right = outcome.as_ref().map(|(answer, _)| answer.clone()).map_err(|&refusal| refusal);
    if given != right {
        let (right, given) = (show::outcome(&right), show::outcome(&given));
        return Err(format!("should be: {right}\nis: {given}"));
    }
    let length = right.map_or(0, |answer| answer.len());
    if answer[length..] != answer_before[length..] {
        return Err(format!("answer bytes changed past length {length}"));
    }
    match outcome {
        Ok((_, after)) => layout::holds(book_before, after, book),
        Err(_) if book == book_before => Ok(()),
        Err(refusal) => Err(format!("refused with {refusal}, and yet the book changed")),
    }
}

/// The answer that stands in the buffer, by its own length.
pub fn told(answer: &[u8]) -> Vec<u8> {
    let length = answer.first_chunk().map_or(0, |length| usize::from(u16::from_le_bytes(*length)));
    answer[..length.min(answer.len())].to_vec()
}
