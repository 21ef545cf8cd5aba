//! Records with what a reader must say of them, for the program `try_codec` of the repository. `records --write FILE` writes them,
//! `records FILE` fails if the model's reader or the Rust's answers say otherwise now.
//!
//! Items one after another: tag 1 and an event's record, tag 2 and an answer; the length in 2 bytes, the bytes, and the
//! refusal, 0, 3 or 4.

use std::process::ExitCode;

use lists::{PROFILES, exhaustive, list};
use model::answer::{HEAD, alarms, messages, of_messages};
use model::machine::Machine;
use model::record::{Draft, PRICE_SOURCE, REPORT_MESSAGE, Record};

const EVENT: u8 = 1;
const ANSWER: u8 = 2;

/// Seeds of the lists whose answers are stored, and the most answers.
const FIRST_SEED: u64 = 300_000;
const LISTS: u64 = 20;
const ANSWERS: usize = 1_500;

fn main() -> ExitCode {
    let args: Vec<String> = std::env::args().skip(1).collect();
    let (items, count) = items();
    match args.iter().map(String::as_str).collect::<Vec<_>>()[..] {
        ["--write", file] => std::fs::write(file, &items).unwrap_or_else(|error| panic!("{file}: {error}")),
        [file] if std::fs::read(file).is_ok_and(|stored| stored == items) => {}
        _ => {
            println!("records: the stored ones are not what the model says now");
            return ExitCode::FAILURE;
        }
    }
    println!("records: {count} records and answers, as stored");
    ExitCode::SUCCESS
}

fn items() -> (Vec<u8>, usize) {
    let mut items = Vec::new();
    let mut count = 0;
    let mut put = |tag: u8, bytes: &[u8], refusal: u8| {
        items.push(tag);
        items.extend((bytes.len() as u16).to_le_bytes());
        items.extend(bytes);
        items.push(refusal);
        count += 1;
    };
    for list in [exhaustive::every_extreme(), exhaustive::every_code(), exhaustive::every_range()] {
        for item in &list.items {
            put(EVENT, &item.record, refusal(&item.record));
        }
    }
    let answers = answers();
    for answer in &answers {
        put(ANSWER, answer, 0);
    }
    // An answer cut anywhere has the wrong shape.
    for answer in longest_by_kind(&answers) {
        for end in 0..answer.len() {
            put(ANSWER, &answer[..end], 3);
        }
        for (altered, refusal) in other_sources(answer) {
            put(ANSWER, &altered, refusal);
        }
    }
    (items, count)
}

/// What questions 3 and 4 say of a record.
fn refusal(record: &[u8]) -> u8 {
    match Record::read_event(record) {
        None => 3,
        Some(event) if !event.in_range() => 4,
        Some(_) => 0,
    }
}

/// Different answers of the Rust, from lists of every profile.
fn answers() -> Vec<Vec<u8>> {
    let mut answers = Vec::new();
    for seed in FIRST_SEED..FIRST_SEED + LISTS {
        let drawn = list(&PROFILES[seed as usize % PROFILES.len()], seed, 300);
        let mut machine = Machine::start(drawn.setting);
        for item in &drawn.items {
            if let Ok(answer) = machine.event(&item.record, 1_024) {
                answers.push(answer);
            }
        }
    }
    answers.sort();
    answers.dedup();
    let step = answers.len().div_ceil(ANSWERS);
    answers.into_iter().step_by(step).collect()
}

/// The answer with each message's price source altered, and what is then said of it: a report
/// without one has the wrong shape, and so has another message with one; above 3 it is out of range.
fn other_sources(answer: &[u8]) -> Vec<(Vec<u8>, u8)> {
    let drafts: Vec<Draft> = messages(answer).iter().map(Draft::of).collect();
    let mut altered = Vec::new();
    for (at, message) in messages(answer).iter().enumerate() {
        let mut put = |draft: Draft, refusal: u8| {
            let mut drafts = drafts.clone();
            drafts[at] = draft;
            altered.push((of_messages(&drafts, alarms(answer)), refusal));
        };
        let report = message.kind == REPORT_MESSAGE;
        if report {
            put(drafts[at].clone().without(PRICE_SOURCE), 3);
        }
        for source in 0..=255_u8 {
            let refusal = match source {
                _ if !report => 3,
                0..=3 => 0,
                _ => 4,
            };
            put(drafts[at].clone().number(PRICE_SOURCE, source), refusal);
        }
    }
    altered
}

/// The longest answer for each kind of first message.
fn longest_by_kind(answers: &[Vec<u8>]) -> Vec<&Vec<u8>> {
    let of_kind = |kind: u8| answers.iter().filter(move |answer| answer.get(HEAD) == Some(&kind));
    (16..=20).filter_map(|kind| of_kind(kind).max_by_key(|answer| answer.len())).collect()
}
