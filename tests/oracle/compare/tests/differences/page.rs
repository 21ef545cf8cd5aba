//! The lists of docs/DIFFERENCES.md, read from the page itself and run on the Rust and on the library.

use std::collections::BTreeSet;

use compare::both::Both;
use compare::fix::{Judge, Objection};
use model::answer::{alarms, messages};
use model::day::*;
use model::events::{self, Filled};
use model::record::*;

const PAGE: &str = include_str!("../../../../../docs/DIFFERENCES.md");

/// A field that does not stand.
pub const NONE: u128 = u128::MAX;

/// The rows of the page that have a number and a list: number, list, and the whole line.
fn rows() -> impl Iterator<Item = (u32, &'static str, &'static str)> {
    PAGE.lines().filter_map(|line| {
        let mut cells = line.strip_prefix('|')?.split('|').map(str::trim);
        Some((cells.next()?.parse().ok()?, cells.next()?, line))
    })
}

/// The numbers of the page's rows.
pub fn numbers() -> Vec<u32> {
    rows().map(|(number, ..)| number).collect()
}

/// The judge's classes that a row names in brackets.
fn named_classes(line: &str) -> impl Iterator<Item = &str> {
    let bracketed = line.split('(').skip(1).filter_map(|rest| Some(rest.split_once(')')?.0));
    let words = bracketed.flat_map(|within| within.split(", "));
    words.filter(|word| {
        word.len() > 3 && word.chars().all(char::is_alphabetic) && word.chars().any(char::is_uppercase)
    })
}

/// All classes of the judge that the page names.
pub fn classes() -> BTreeSet<String> {
    rows().flat_map(|(_, _, line)| named_classes(line)).map(str::to_string).collect()
}

/// The fixed texts of the page: number, the words that are written, and the Rust's.
pub fn texts() -> Vec<(u8, &'static str, &'static str)> {
    let cells = |line: &'static str| {
        let mut cells = line.strip_prefix("| text ")?.split('|').map(|cell| cell.trim().trim_matches('`'));
        Some((cells.next()?.parse().ok()?, cells.next()?, cells.next()?))
    };
    PAGE.lines().filter_map(cells).collect()
}

/// What both answered to a row's list, event by event.
pub struct Row {
    pub both: Both,
    events: Vec<Draft>,
    answers: Vec<Vec<u8>>,
    requests: u32,
}

/// Runs the list of a row; every event of it is taken, and what the row names in brackets is objected to.
pub fn row(number: u32) -> Row {
    let (_, list, line) = rows().find(|row| row.0 == number).unwrap_or_else(|| panic!("no row {number}"));
    let row = run(list);
    let objected: Vec<String> =
        row.objected(&mut Judge::default()).iter().map(|class| format!("{class:?}")).collect();
    for class in named_classes(line) {
        assert!(objected.iter().any(|objection| objection == class), "row {number}, {class}: {objected:?}");
    }
    row
}

/// Runs a list that is written as on the page.
pub fn run(list: &str) -> Row {
    let mut row = Row { both: Both::start(10_000), events: Vec::new(), answers: Vec::new(), requests: 1 };
    list.split(';').for_each(|step| row.step(step.split('(').next().expect("a part").trim()));
    row
}

impl Row {
    fn step(&mut self, step: &str) {
        match step {
            "mark set" => self.both.set_mark(),
            "return" => self.both.return_to_mark(),
            step => {
                let event = self.event_of(step);
                let answer = self.both.event(&event).unwrap_or_else(|refusal| panic!("{step}: {refusal}"));
                self.events.push(event);
                self.answers.push(answer);
            }
        }
    }

    /// The event that a step of the page says: its head, and what follows it behind commas.
    fn event_of(&mut self, step: &str) -> Draft {
        let mut parts = step.split(", ");
        let head = parts.next().expect("a head");
        let said: Vec<(&str, &str)> =
            parts.map(|part| part.split_once(' ').expect("a name and a value")).collect();
        let words: Vec<&str> = head.split(' ').collect();
        match words[..] {
            ["book"] => events::book(VENUE_1, &named(), b"A", b"c1", 100 * SHARE, Some(10 * UNIT)),
            ["cancel"] => cancel(&self.next_id()),
            ["cancel", "named", id, "of", orig] => events::cancel(&named(), id.as_bytes(), orig.as_bytes()),
            ["replace", "to", qty] => replace(&self.next_id(), number(qty)),
            ["gateway", "cancel"] => events::gateway_cancel(b"A"),
            ["send", "failed", "for", downstream] => {
                events::send_failed(VENUE_1, downstream.as_bytes(), b"down")
            }
            ["cancel", "reject", "of", downstream] => said_by(refused(downstream, None, None), &said),
            ["report", exec_type, "without", "OrdStatus", "under", downstream] => {
                said_by(reported(downstream, exec_type, None, &said), &said)
            }
            ["report", exec_type, "without", "OrdStatus"] => {
                said_by(reported("A", exec_type, None, &said), &said)
            }
            ["report", codes, "under", downstream] => reported_codes(downstream, codes, &said),
            ["report", codes] => reported_codes("A", codes, &said),
            _ => panic!("no event: {step}"),
        }
    }

    /// Cancels and replaces are c2, c3 and so on.
    fn next_id(&mut self) -> String {
        self.requests += 1;
        format!("c{}", self.requests)
    }

    /// The bytes of the last event.
    pub fn event(&self) -> Vec<u8> {
        self.events.last().expect("an event").bytes()
    }

    /// What a judge objects to in all that was told.
    pub fn objected(&self, judge: &mut Judge) -> Vec<Objection> {
        let told = self.answers.iter().flat_map(|answer| messages(answer));
        told.flat_map(|message| judge.hear(&message)).collect()
    }

    /// The bytes of the last event's only message, with a field changed.
    pub fn with(&self, bit: usize, number: u128) -> Vec<u8> {
        let messages = messages(self.answers.last().expect("an event"));
        Draft::of(&messages[0]).number(bit, number).bytes()
    }

    /// The kinds of the messages of the nth event, and its alarms.
    pub fn said(&self, nth: usize) -> (Vec<u8>, [u8; 2]) {
        let answer = &self.answers[nth];
        (messages(answer).iter().map(|message| message.kind).collect(), alarms(answer))
    }

    /// The same of the last event.
    pub fn last(&self) -> (Vec<u8>, [u8; 2]) {
        self.said(self.answers.len() - 1)
    }

    /// Numbers of the nth event's only message.
    pub fn told_at<const N: usize>(&self, nth: usize, bits: [usize; N]) -> [u128; N] {
        let messages = messages(&self.answers[nth]);
        assert_eq!(messages.len(), 1, "event {nth} puts out one message");
        bits.map(|bit| if messages[0].has(bit) { messages[0].wide(bit) } else { NONE })
    }

    /// The same of the last event.
    pub fn told<const N: usize>(&self, bits: [usize; N]) -> [u128; N] {
        self.told_at(self.answers.len() - 1, bits)
    }

    /// A text of the last event's only message.
    pub fn text(&self, bit: usize) -> Vec<u8> {
        messages(self.answers.last().expect("an event"))[0].text(bit).to_vec()
    }

    /// Goes on with another step, written as on the page.
    pub fn then(mut self, step: &str) -> Self {
        self.step(step);
        self
    }

    /// Numbers of the order as it stands, by its booking's ClOrdID sent again.
    pub fn stands<const N: usize>(mut self, bits: [usize; N]) -> [u128; N] {
        let again = events::cancel(&named(), b"c1", b"c1").mark(REDELIVERED);
        self.answers.push(self.both.event(&again).expect("taken"));
        self.told(bits)
    }
}

fn number(text: &str) -> u64 {
    text.parse().unwrap_or_else(|_| panic!("no number: {text}"))
}

fn reported_codes(downstream: &str, codes: &str, said: &[(&str, &str)]) -> Draft {
    let (exec_type, status) = codes.split_once('/').expect("ExecType/OrdStatus");
    said_by(reported(downstream, exec_type, Some(status.as_bytes()[0]), said), said)
}

/// A report; quantities in shares and prices in units of money, 0 if not said.
fn reported(downstream: &str, exec_type: &str, status: Option<u8>, said: &[(&str, &str)]) -> Draft {
    let of = |name: &str| said.iter().find(|part| part.0 == name).map_or(0, |part| number(part.1));
    let filled = Filled {
        last_qty: of("LastQty") * SHARE,
        last_px: of("LastPx") * UNIT,
        cum_qty: of("CumQty") * SHARE,
        avg_px: of("AvgPx") * UNIT,
    };
    events::report(VENUE_1, downstream.as_bytes(), exec_type.as_bytes()[0], status, filled)
}

/// With the reason and, of a refusal, the OrdStatus that are said; nothing else may be.
fn said_by(draft: Draft, said: &[(&str, &str)]) -> Draft {
    said.iter().fold(draft, |draft, &(name, value)| match name {
        "reason" => draft.number(REASON, number(value)),
        "OrdStatus" => draft.number(ORD_STATUS, value.as_bytes()[0]),
        "CumQty" | "LastQty" | "LastPx" | "AvgPx" => draft,
        name => panic!("no field: {name}"),
    })
}
