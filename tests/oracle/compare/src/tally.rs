//! Counts over many events: refusals, messages, alarms, and which log sites of the Rust ran.

use std::collections::BTreeMap;

use gateway::LOG_SITES;
use model::Machine;
use model::answer::{alarms, messages};
use model::done_for_day::CODE;
use model::filled::Met;
use model::outcomes::Outcomes;
use model::record::{ORD_STATUS, PRICE_SOURCE, Record};

use crate::many::Calls;

#[derive(Debug, Clone, Default)]
pub struct Tally {
    pub lists: u64,
    pub events: u64,
    /// Taken events by kind, by alarm, messages by kind, and reports by the source of their price;
    /// refusals by number.
    pub taken: BTreeMap<u8, u64>,
    pub refused: BTreeMap<u32, u64>,
    pub messages: BTreeMap<u8, u64>,
    pub alarms: BTreeMap<[u8; 2], u64>,
    pub sources: BTreeMap<u8, u64>,
    /// Events that ask a price which the rule for a half decides, and not the Rust.
    pub halves: u64,
    /// What events with status Filled met.
    pub met: Met,
    /// What a status 3 met.
    pub met_days: Met,
    /// Taken events that added a request, by kind; the fewest and the most fields of messages, by kind.
    pub added: BTreeMap<u8, u64>,
    pub fields: BTreeMap<u8, (u32, u32)>,
    /// Events that bring a 3, and messages that tell one.
    pub days: (u64, u64),
    /// Requests by the kind of the event that settled them and what they came to.
    pub settled: BTreeMap<(u8, u8), u64>,
    /// The same events once more, many in one call.
    pub calls: Calls,
    /// The requests that stood before the event that is about to come, and what they had come to.
    requests: usize,
    outcomes: Outcomes,
}

impl Tally {
    /// An event, what it gave, and the machine after it.
    pub fn add(&mut self, record: &[u8], outcome: &Result<Vec<u8>, u32>, machine: &Machine) {
        self.events += 1;
        if machine.book().request_table().len() > self.requests {
            *self.added.entry(record[0]).or_default() += 1;
        }
        for downstream in machine.book().request_table().keys() {
            let outcome = machine.outcomes().of(downstream);
            if outcome != self.outcomes.of(downstream) {
                *self.settled.entry((record[0], outcome)).or_default() += 1;
            }
        }
        match outcome {
            Err(refusal) => *self.refused.entry(*refusal).or_default() += 1,
            Ok(answer) => {
                *self.taken.entry(record[0]).or_default() += 1;
                *self.alarms.entry(alarms(answer)).or_default() += 1;
                for message in messages(answer) {
                    *self.messages.entry(message.kind).or_default() += 1;
                    let count = message.map.count_ones();
                    let (fewest, most) = self.fields.entry(message.kind).or_insert((count, count));
                    (*fewest, *most) = (count.min(*fewest), count.max(*most));
                    self.days.1 += u64::from(message.code(ORD_STATUS) == CODE);
                    if message.has(PRICE_SOURCE) {
                        *self.sources.entry(message.code(PRICE_SOURCE)).or_default() += 1;
                    }
                }
            }
        }
    }

    /// An event that is about to come: the requests before it, and whether it is a report whose price is exactly half way.
    pub fn before(&mut self, machine: &Machine, record: &[u8]) {
        self.requests = machine.book().request_table().len();
        self.outcomes = machine.outcomes().clone();
        let read = Record::read_event(record).filter(Record::in_range);
        self.days.0 += u64::from(read.as_ref().is_some_and(|read| read.code(ORD_STATUS) == CODE));
        let fill = read.and_then(|read| machine.fill(&read));
        self.halves += u64::from(fill.is_some_and(|fill| fill.at_half()));
    }

    pub fn print(&self) {
        println!("  taken by kind {:?}", self.taken);
        println!("  refused by number {:?}", self.refused);
        println!("  messages by kind {:?}, alarms {:?}", self.messages, self.alarms);
        println!(
            "  the reports' prices by source {:?}; events that ask one at an exact half {}",
            self.sources, self.halves
        );
        println!("  the events that bring a 3, and the messages that tell one {:?}", self.days);
        println!("  the events that add a request by kind {:?}", self.added);
        println!("  the requests settled by the event's kind and what they came to {:?}", self.settled);
        println!("  the events in calls of many {}", self.calls);
        println!("  the fewest and most fields of messages by kind {:?}", self.fields);
    }
}

/// The kinds of event that settle requests, with what the requests come to.
pub const SETTLES: [(u8, u8); 5] = [(4, 1), (4, 2), (6, 2), (7, 3), (8, 2)];

/// Functions with log sites that no event of docs/SCOPE.md reaches, how many, and why.
const UNREACHABLE: [(&str, usize, &str); 8] = [
    ("set_unavailable", 2, "admission is left out"),
    ("venue_status_request", 3, "not an event of docs/SCOPE.md"),
    ("roll", 1, "days are left out"),
    ("adopt_orphaned_replace", 2, "orphans are left out"),
    ("orphan", 8, "orphans are left out"),
    ("make_orphan_pending", 1, "orphans are left out"),
    ("resolve", 2, "not an event of docs/SCOPE.md"),
    ("refuse_request", 2, "a gateway replace does not exist; an open gateway cancel is the latest cancel"),
];

/// How many log sites of the Rust ran in this process, of how many, and those that should have.
pub fn log_sites() -> (usize, usize, Vec<(&'static str, u32, &'static str)>) {
    let reached = tracing::reached();
    let ran = |file: &str, line: u32| reached.iter().any(|(path, at, _)| path.ends_with(file) && *at == line);
    let mut missed: Vec<_> = LOG_SITES.iter().copied().filter(|&(file, line, _)| !ran(file, line)).collect();
    let count = LOG_SITES.len() - missed.len();
    for (function, allowed, _) in UNREACHABLE {
        let of_function = |site: &&(&str, u32, &str)| site.2 == function;
        if missed.iter().filter(of_function).count() <= allowed {
            missed.retain(|site| site.2 != function);
        }
    }
    (count, LOG_SITES.len(), missed)
}
