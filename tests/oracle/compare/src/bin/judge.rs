//! Judges every message of generated lists by FIX 4.4 and prints each class of objection with how
//! often it came and the smallest list found. `judge [LISTS]`; it fails if a class is not in
//! the list of those that docs/DIFFERENCES.md names.

use std::collections::BTreeMap;
use std::process::ExitCode;

use compare::fix::{Judge, LISTED, Objection};
use compare::{minimize::minimize, show};
use lists::{List, list, profile};
use model::Machine;
use model::answer::messages;

/// Seeds below the first are left to the other programs.
const FIRST_SEED: u64 = 500_000;
const EVENTS: usize = 60;
/// A class's smallest list is sought in that many lists that show it.
const LOOKED_AT: u64 = 12;

fn main() -> ExitCode {
    let lists = std::env::args().nth(1).map_or(500, |arg| arg.parse().expect("a number"));
    let mut found: BTreeMap<Objection, (u64, u64, List)> = BTreeMap::new();
    let (mut judged, mut events) = (0, 0);
    for seed in FIRST_SEED..FIRST_SEED + lists {
        let list = list(profile::any(seed), seed, EVENTS);
        let (counts, messages) = judge(&list);
        events += list.items.len();
        judged += messages;
        for (objection, count) in counts {
            let (total, looked, small) = found.entry(objection).or_insert((0, 0, list.clone()));
            *total += count;
            *looked += 1;
            if *looked <= LOOKED_AT {
                let shorter = minimize(&list, |list| judge(list).0.contains_key(&objection));
                if shorter.items.len() < small.items.len() {
                    *small = shorter;
                }
            }
        }
    }
    for (objection, (total, _, small)) in &found {
        println!("{objection:?}: {total} messages, smallest list:\n{}", show::list(small));
    }
    let unlisted: Vec<_> = found.keys().filter(|objection| !LISTED.contains(objection)).collect();
    println!("judge: {judged} messages of {events} events, {} classes of objection", found.len());
    if unlisted.is_empty() {
        return ExitCode::SUCCESS;
    }
    println!("not in docs/DIFFERENCES.md: {unlisted:?}");
    ExitCode::FAILURE
}

/// How often each class of objection comes in the list's messages, and how many messages it has.
fn judge(list: &List) -> (BTreeMap<Objection, u64>, u64) {
    let (mut counts, mut judged) = (BTreeMap::new(), 0);
    let (mut machine, mut judge) = (Machine::start(list.setting), Judge::default());
    for item in &list.items {
        let Ok(answer) = machine.event(&item.record, item.answer_buffer) else { continue };
        for message in messages(&answer) {
            judged += 1;
            for objection in judge.hear(&message) {
                *counts.entry(objection).or_default() += 1;
            }
        }
    }
    (counts, judged)
}
