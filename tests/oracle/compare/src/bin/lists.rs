//! Runs generated lists through the model: after every event the Rust's own `check()`, the
//! book's rules, demand 3 and exact prices. `lists [LISTS [EVENTS [FIRST_SEED]]]`; a failing list is
//! printed as short as it can be made.

use std::process::ExitCode;

use compare::tally::{SETTLES, Tally, log_sites};
use compare::{minimize::minimize, show};
use lists::{DAYS, List, PROFILES, chains, days, exhaustive, list};
use model::day_judge;
use model::filled::MEETINGS;
use model::watch::Watched;

fn main() -> ExitCode {
    let numbers: Vec<u64> = std::env::args().skip(1).map(|arg| arg.parse().expect("a number")).collect();
    let number = |at: usize, usual: u64| numbers.get(at).copied().unwrap_or(usual);
    let (lists, events, first) = (number(0, 200), number(1, 400), number(2, 1));
    let mut tally = Tally::default();
    let without = (first..first + lists).map(|seed| (seed, &PROFILES[seed as usize % PROFILES.len()]));
    let with = (first..first + lists / 2).map(|seed| (seed, &DAYS[seed as usize % DAYS.len()]));
    let drawn = without.chain(with).map(|(seed, profile)| {
        (format!("profile {}, seed {seed}", profile.name), list(profile, seed, events as usize))
    });
    let about = days::all().into_iter().map(|list| ("a list about 3".to_string(), list));
    for (origin, list) in drawn.chain(about) {
        tally.lists += 1;
        if let Err((at, error)) = watch(&list, Some(&mut tally)) {
            println!("{origin}, event {}: {error}", at + 1);
            print!("{}", show::list(&minimize(&list, |list| watch(list, None).is_err())));
            return ExitCode::FAILURE;
        }
    }
    // Drawn lists seldom refuse the gateway's cancel with both a short Filled and a full table.
    watch(&exhaustive::full(), Some(&mut tally)).expect("its rules are kept");
    chains::all().iter().for_each(|list| watch(list, None).expect("its rules are kept"));
    tally.print();
    println!("  a status Filled {:?}", tally.met);
    println!("  a status 3 {:?}", tally.met_days);
    let unmet: Vec<_> = MEETINGS.iter().filter(|&&met| !tally.met.contains_key(met)).collect();
    if !tally.settled.keys().eq(SETTLES.iter()) {
        println!("requests should be settled by {SETTLES:?}");
        return ExitCode::FAILURE;
    }
    let days: Vec<_> = day_judge::MEETINGS.iter().filter(|&&met| !tally.met_days.contains_key(met)).collect();
    let (reached, all, missed) = log_sites();
    let (lists, events) = (tally.lists, tally.events);
    println!("lists: {lists} lists, {events} events, all rules kept; {reached} of {all} log sites reached");
    if missed.is_empty() && unmet.is_empty() && days.is_empty() {
        return ExitCode::SUCCESS;
    }
    println!(
        "log sites that the lists should have reached: {missed:?}; of a Filled: {unmet:?}; of a 3: {days:?}"
    );
    ExitCode::FAILURE
}

/// Runs the list under watch; the place and what does not hold, if something does not.
fn watch(list: &List, mut tally: Option<&mut Tally>) -> Result<(), (usize, String)> {
    let mut watched = Watched::start(list.setting);
    for (at, item) in list.items.iter().enumerate() {
        if let Some(tally) = &mut tally {
            tally.before(&watched.machine, &item.record);
        }
        let outcome = watched.event(&item.record, item.answer_buffer).map_err(|error| (at, error))?;
        if let Some(tally) = &mut tally {
            tally.add(&item.record, &outcome, &watched.machine);
        }
    }
    if let Some(tally) = tally {
        for (met, count) in watched.met {
            *tally.met.entry(met).or_default() += count;
        }
        for (met, count) in watched.met_days {
            *tally.met_days.entry(met).or_default() += count;
        }
    }
    Ok(())
}
