//! Compares the static library, or the stand-in if none is linked, with the model.
//! `compare [LISTS [EVENTS [FIRST_SEED]]]` compares, on lists from a start and on as many short ones
//! from books that were built field by field; `compare --faults [LISTS]` plants each fault in the
//! stand-in and demands that the lists find it.

use std::ops::{Range, RangeInclusive};
use std::process::ExitCode;

use compare::chaining::ChainFault;
use compare::comparison::{Built, Mismatch, Probing, compare, compare_built, explain, explain_built};
use compare::entries::{Entries, library};
use compare::faults::Fault;
use compare::many;
use compare::running::ManyFault;
use compare::stand_in::{STAND_IN, plant};
use compare::tally::Tally;
use lists::{DAYS, List, PROFILES, chains, days, exhaustive, list, positions};

const PROBING: Probing = Probing { every: 25, at_end: false, many: true };
/// For faults that are not in calls of many events.
const SINGLE: Probing = Probing { many: false, ..PROBING };
/// Events on a book that was built.
const BUILT_EVENTS: usize = 60;

const WHOLE_PROBING: Probing = Probing { every: 25, at_end: true, many: true };

fn main() -> ExitCode {
    let args: Vec<String> = std::env::args().skip(1).collect();
    let faults = args.first().is_some_and(|arg| arg == "--faults");
    let numbers: Vec<u64> =
        args.iter().skip(faults.into()).map(|arg| arg.parse().expect("a number")).collect();
    let number = |at: usize, usual: u64| numbers.get(at).copied().unwrap_or(usual);
    if faults {
        return find_faults(number(0, 200));
    }
    compare_lists(number(0, 100), number(1, 400) as usize, number(2, 1))
}

fn compare_lists(lists: u64, events: usize, first: u64) -> ExitCode {
    let linked = library();
    let entries = linked.unwrap_or(STAND_IN);
    let mut tally = Tally::default();
    let differs = |origin: &str, list: &List, mismatch: &Mismatch| {
        println!("{origin}, event {}, differs:", mismatch.at + 1);
        println!("{}", explain(&entries, list, mismatch));
        ExitCode::FAILURE
    };
    for list in exhaustive::all().into_iter().chain(positions::all()).chain(chains::all()) {
        tally.lists += 1;
        if let Err(mismatch) = compare(&entries, &list, PROBING, Some(&mut tally)) {
            return differs("a list without chance", &list, &mismatch);
        }
    }
    for seed in first..first + lists {
        tally.lists += 1;
        // Every profile's first list is probed whole at its end.
        let probing = if seed - first < PROFILES.len() as u64 { WHOLE_PROBING } else { PROBING };
        if let Err((list, mismatch)) = compare_seed(&entries, seed, events, probing, &mut tally) {
            let profile = PROFILES[seed as usize % PROFILES.len()].name;
            return differs(&format!("profile {profile}, seed {seed}"), &list, &mismatch);
        }
    }
    let Some(on_days) = compare_days(&entries, events, first..first + lists.div_ceil(2)) else {
        return ExitCode::FAILURE;
    };
    let Some(on_built) = compare_built_books(&entries, first..first + lists) else {
        return ExitCode::FAILURE;
    };
    tally.print();
    on_days.print();
    on_built.print();
    let compared = if linked.is_some() { "the library" } else { "the stand-in" };
    println!(
        "compare: {compared}, {} lists, {} events, {} with 3, {} events, and {} built books, {} events, no difference",
        tally.lists, tally.events, on_days.lists, on_days.events, on_built.lists, on_built.events
    );
    ExitCode::SUCCESS
}

/// Lists about 3 and days on which venues send it; nothing if one differs.
fn compare_days(entries: &Entries, events: usize, seeds: Range<u64>) -> Option<Tally> {
    let mut tally = Tally::default();
    let drawn = seeds.map(|seed| {
        let profile = &DAYS[seed as usize % DAYS.len()];
        (format!("profile {}, seed {seed}", profile.name), list(profile, seed, events))
    });
    let about = days::all().into_iter().map(|list| ("a list about 3".to_string(), list));
    for (origin, list) in about.chain(drawn) {
        tally.lists += 1;
        if let Err(mismatch) = compare(entries, &list, PROBING, Some(&mut tally)) {
            println!("{origin}, event {}, differs:", mismatch.at + 1);
            println!("{}", explain(entries, &list, &mismatch));
            return None;
        }
    }
    Some(tally)
}

/// Short lists from books that were built; nothing if one differs.
fn compare_built_books(entries: &Entries, seeds: Range<u64>) -> Option<Tally> {
    let mut tally = Tally::default();
    for seed in seeds {
        tally.lists += 1;
        let built = Built::draw(seed, BUILT_EVENTS);
        if let Err(mismatch) = compare_built(entries, &built, Some(&mut tally)) {
            println!("built book, seed {seed}, event {}, differs:", mismatch.at + 1);
            println!("{}", explain_built(entries, &built, &mismatch));
            return None;
        }
    }
    Some(tally)
}

fn compare_seed(
    entries: &Entries,
    seed: u64,
    events: usize,
    probing: Probing,
    tally: &mut Tally,
) -> Result<(), (List, Mismatch)> {
    let list = list(&PROFILES[seed as usize % PROFILES.len()], seed, events);
    compare(entries, &list, probing, Some(tally)).map_err(|mismatch| (list, mismatch))
}

/// Where the stand-in with the fault differs. One in calls of many events leaves event by event as it is.
fn differs(fault: Fault, list: &List) -> Option<Mismatch> {
    let of_calls = |what: String| Mismatch { at: list.items.len() - 1, what };
    match fault {
        Fault::Many(_) => many::holds(&STAND_IN, list).err().map(of_calls),
        _ => compare(&STAND_IN, list, SINGLE, None).err(),
    }
}

fn find_faults(lists: u64) -> ExitCode {
    let mut missed = 0;
    let faults: Vec<Fault> = Fault::COMPARED
        .into_iter()
        .chain(ChainFault::ALL.map(Fault::Chain))
        .chain(ManyFault::ALL.map(Fault::Many))
        .collect();
    for &fault in &faults {
        plant(Some(fault));
        // A profile each, then the lists about positions, chains, quotients and a refusal, then more.
        let drawn = |seeds: RangeInclusive<u64>| {
            seeds.map(|seed| {
                (format!("seed {seed}"), list(&PROFILES[seed as usize % PROFILES.len()], seed, 400))
            })
        };
        let about = positions::all().into_iter().map(|list| ("a list about positions".into(), list));
        let halves =
            exhaustive::every_quotient().into_iter().map(|list| ("a list of quotients".into(), list));
        let filled = [("a refusal with Filled".into(), exhaustive::refused_filled())];
        let chains = chains::all().into_iter().map(|list| ("a list about chains".into(), list));
        let whole = days::refused_whole().into_iter().map(|list| ("a refusal with 3".into(), list));
        let fixed = about.chain(chains).chain(halves).chain(filled).chain(whole);
        let days = (1..=DAYS.len() as u64).map(|seed| {
            (format!("a day with 3, seed {seed}"), list(&DAYS[seed as usize % DAYS.len()], seed, 400))
        });
        let mut tried = drawn(1..=10).chain(fixed).chain(days).chain(drawn(11..=lists));
        let found = tried.find_map(|(origin, list)| differs(fault, &list).map(|mismatch| (origin, mismatch)));
        match found {
            Some((origin, mismatch)) => {
                let what: Vec<&str> = mismatch.what.lines().take(2).map(str::trim).collect();
                println!("  {fault:?}: found in {origin}, event {}: {}", mismatch.at + 1, what.join(" "));
            }
            None => {
                println!("{fault:?} NOT FOUND in {lists} lists and those about positions");
                missed += 1;
            }
        }
    }
    plant(None);
    let all = faults.len();
    println!("compare: planted faults, {} of {all} found", all - missed);
    if missed == 0 { ExitCode::SUCCESS } else { ExitCode::FAILURE }
}
