//! The stand-in's `events`, record by record over its `event`, with faults that can be planted: one for each near reading of
//! many events in one call that a library can have.

use model::machine::ANSWER_BYTES;

use crate::entries::Ran;
use crate::expected::told;
use crate::many::MOST_SAID;

#[derive(Debug, Clone, Copy, PartialEq, Eq)]
pub enum ManyFault {
    /// The second event of a call is passed over.
    SecondSkipped,
    /// The book is not asked.
    NeverAsked,
    /// An event has the answer of the one before it.
    StaleAnswer,
    /// A byte behind what is written is changed.
    WritesBehind,
    /// A cut record is run as far as it goes.
    CutTaken,
    /// A cut record's bytes count as read.
    CutRead,
    /// A record's bytes count as read, and its length's do not.
    LengthUnread,
    /// A refused event ends the list.
    RefusedEnds,
    /// A refused event does not count.
    RefusedUncounted,
    /// A refused event says nothing.
    RefusedSilent,
    /// A record of no byte ends the list.
    EmptyEnds,
    /// Each event is run on the book that the call began with.
    FirstBook,
    /// The last event needs a byte more of room.
    RoomOfOneMore,
    /// The last event needs a byte less, and gets 1,023.
    RoomOfOneLess,
    /// Each answer takes 1,024 bytes.
    WholeAnswers,
    /// A record's length has its high byte first.
    LengthTurned,
    /// 2 is asked before 1.
    TwoBeforeOne,
    /// 2 is asked only if a whole record is there.
    TwoWithRecord,
    /// 2 is said if the answers have exactly 1,025 bytes.
    TwoAtJustEnough,
    /// Numbers stand beside a refusal.
    NumbersBesideRefusal,
    /// A refused call writes a refusal's byte.
    RefusedCallWrites,
    /// A byte of the records is written.
    RecordsWritten,
}

impl ManyFault {
    pub const ALL: [Self; 22] = [
        Self::SecondSkipped,
        Self::NeverAsked,
        Self::StaleAnswer,
        Self::WritesBehind,
        Self::CutTaken,
        Self::CutRead,
        Self::LengthUnread,
        Self::RefusedEnds,
        Self::RefusedUncounted,
        Self::RefusedSilent,
        Self::EmptyEnds,
        Self::FirstBook,
        Self::RoomOfOneMore,
        Self::RoomOfOneLess,
        Self::WholeAnswers,
        Self::LengthTurned,
        Self::TwoBeforeOne,
        Self::TwoWithRecord,
        Self::TwoAtJustEnough,
        Self::NumbersBesideRefusal,
        Self::RefusedCallWrites,
        Self::RecordsWritten,
    ];
}

type Event<'a> = dyn Fn(&mut [u8], &[u8], &mut [u8]) -> u32 + 'a;

/// The call with a fault or none, question 1, and the stand-in's `event`.
pub struct Running<'a> {
    pub fault: Option<ManyFault>,
    pub keeps: &'a dyn Fn(&[u8]) -> bool,
    pub event: &'a Event<'a>,
}

/// How far a call is.
#[derive(Default)]
struct Run {
    events: u64,
    read: usize,
    written: usize,
    last: Vec<u8>,
}

impl Running<'_> {
    fn has(&self, fault: ManyFault) -> bool {
        self.fault == Some(fault)
    }

    pub fn call(&self, book: &mut [u8], records: &mut [u8], answers: &mut [u8]) -> Ran {
        if let Some(refusal) = self.refusal(book, records, answers) {
            if let (Some(ManyFault::RefusedCallWrites), [first, ..]) = (self.fault, answers) {
                *first = !*first;
            }
            let read = if self.has(ManyFault::NumbersBesideRefusal) { records.len() as u64 } else { 0 };
            return Ran { refusal, read, ..Ran::default() };
        }
        let (mut run, begun) = (Run::default(), book.to_vec());
        let room = if self.has(ManyFault::RoomOfOneMore) { MOST_SAID + 1 } else { self.most_said() };
        while answers.len() - run.written >= room {
            let Some(record) = self.first(&records[run.read..]) else { break };
            if self.has(ManyFault::EmptyEnds) && record.is_empty() {
                break;
            }
            if self.has(ManyFault::FirstBook) {
                book.copy_from_slice(&begun);
            }
            let refused = self.one(book, record, answers, &mut run);
            run.read = (run.read + record.len() + if self.has(ManyFault::LengthUnread) { 0 } else { 2 })
                .min(records.len());
            if refused && self.has(ManyFault::RefusedEnds) {
                break;
            }
        }
        if let (Some(ManyFault::WritesBehind), Some(behind)) = (self.fault, answers.get_mut(run.written)) {
            *behind ^= 1;
        }
        if let (Some(ManyFault::RecordsWritten), [first, ..]) = (self.fault, &mut *records) {
            *first = !*first;
        }
        let read = if self.has(ManyFault::CutRead) { records.len() } else { run.read };
        Ran { refusal: 0, events: run.events, read: read as u64, written: run.written as u64 }
    }

    /// The number of the first question that is answered with no.
    fn refusal(&self, book: &[u8], records: &[u8], answers: &[u8]) -> Option<u32> {
        let broken = !self.has(ManyFault::NeverAsked) && !(self.keeps)(book);
        let least = if self.has(ManyFault::TwoAtJustEnough) { MOST_SAID + 1 } else { self.most_said() };
        let idle = self.has(ManyFault::TwoWithRecord) && self.first(records).is_none();
        let short = answers.len() < least && !idle;
        let mut questions = [(broken, 1), (short, 2)];
        if self.has(ManyFault::TwoBeforeOne) {
            questions.swap(0, 1);
        }
        questions.into_iter().find_map(|(no, number)| no.then_some(number))
    }

    /// The bytes that an event must find.
    fn most_said(&self) -> usize {
        if self.has(ManyFault::RoomOfOneLess) { ANSWER_BYTES } else { MOST_SAID }
    }

    /// The record at the front.
    fn first<'r>(&self, records: &'r [u8]) -> Option<&'r [u8]> {
        let (&length, rest) = records.split_first_chunk()?;
        let turned = self.has(ManyFault::LengthTurned);
        let length = if turned { u16::from_be_bytes(length) } else { u16::from_le_bytes(length) };
        let length = usize::from(length);
        rest.get(..if self.has(ManyFault::CutTaken) { length.min(rest.len()) } else { length })
    }

    /// An event, and whether it was refused.
    fn one(&self, book: &mut [u8], record: &[u8], answers: &mut [u8], run: &mut Run) -> bool {
        run.events += 1;
        if self.has(ManyFault::SecondSkipped) && run.events == 2 {
            return false;
        }
        let [said, answer @ ..] = &mut answers[run.written..] else { return false };
        let refusal = (self.event)(book, record, answer);
        if refusal != 0 {
            run.events -= u64::from(self.has(ManyFault::RefusedUncounted));
            if !self.has(ManyFault::RefusedSilent) {
                *said = refusal as u8;
                run.written += 1;
            }
            return true;
        }
        *said = 0;
        let fresh = told(answer);
        let mut length = fresh.len();
        if self.has(ManyFault::StaleAnswer) && !run.last.is_empty() && run.last.len() <= length {
            length = run.last.len();
            answer[..length].copy_from_slice(&run.last);
        }
        run.last = fresh;
        run.written += 1 + if self.has(ManyFault::WholeAnswers) { ANSWER_BYTES } else { length };
        false
    }
}
