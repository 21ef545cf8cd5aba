//! Compares the marks of the static library, or of the stand-in if none is linked, with the model: lists that mix events
//! with marks set and returned to. `marks [LISTS [STEPS [FIRST_SEED]]]` compares; `marks --faults [LISTS]` plants each fault
//! in the stand-in, and each false reading in what is counted since a return, and demands that the lists find it.

use std::process::ExitCode;

use compare::comparison::Mismatch;
use compare::entries::library;
use compare::faults::Fault;
use compare::mark_lists::{drawn, fixed};
use compare::marking::MarkFault;
use compare::returns::{Counts, Marked, compare, explain};
use compare::stand_in::{STAND_IN, plant};
use model::demand::Misread;

const STEPS: usize = 150;

fn main() -> ExitCode {
    let args: Vec<String> = std::env::args().skip(1).collect();
    let faults = args.first().is_some_and(|arg| arg == "--faults");
    let numbers: Vec<u64> =
        args.iter().skip(faults.into()).map(|arg| arg.parse().expect("a number")).collect();
    let number = |at: usize, usual: u64| numbers.get(at).copied().unwrap_or(usual);
    if faults {
        return find_faults(number(0, 10));
    }
    compare_lists(number(0, 50), number(1, STEPS as u64) as usize, number(2, 1))
}

fn compare_lists(lists: u64, steps: usize, first: u64) -> ExitCode {
    let linked = library();
    let entries = linked.unwrap_or(STAND_IN);
    let mut counts = Counts::default();
    let by_hand = fixed().into_iter().map(|list| ("a list without chance".to_string(), list));
    let by_seed = (first..first + lists).map(|seed| (format!("seed {seed}"), drawn(seed, steps)));
    for (origin, list) in by_hand.chain(by_seed) {
        if let Err(mismatch) = compare(&entries, &list, None, &mut counts) {
            println!("{origin}, step {}, differs:", mismatch.at + 1);
            println!("{}", explain(&entries, &list, &mismatch));
            return ExitCode::FAILURE;
        }
    }
    counts.print();
    let compared = if linked.is_some() { "the library" } else { "the stand-in" };
    println!("marks: {compared}, {} lists, {} events, no difference", counts.lists, counts.events);
    ExitCode::SUCCESS
}

/// The first list that differs, of those without chance and of the first seeds.
fn found(lists: &[Marked], misread: Option<Misread>) -> Option<(usize, Mismatch)> {
    let differs = |list: &Marked| compare(&STAND_IN, list, misread, &mut Counts::default()).err();
    lists.iter().enumerate().find_map(|(at, list)| differs(list).map(|mismatch| (at, mismatch)))
}

fn find_faults(seeds: u64) -> ExitCode {
    let lists: Vec<Marked> = fixed().into_iter().chain((1..=seeds).map(|seed| drawn(seed, STEPS))).collect();
    let mut missed = 0;
    let mut tell = |what: String, found: Option<(usize, Mismatch)>| match found {
        Some((at, mismatch)) => {
            let said: Vec<&str> = mismatch.what.lines().take(2).map(str::trim).collect();
            println!("  {what}: found in list {at}, step {}: {}", mismatch.at + 1, said.join(" "));
        }
        None => {
            println!("{what} NOT FOUND");
            missed += 1;
        }
    };
    for fault in MarkFault::ALL {
        plant(Some(Fault::Mark(fault)));
        tell(format!("{fault:?}"), found(&lists, None));
    }
    plant(None);
    for misread in Misread::ALL {
        tell(format!("{misread:?}"), found(&lists, Some(misread)));
    }
    let all = MarkFault::ALL.len() + Misread::ALL.len();
    println!("marks: planted faults, {} of {all} found", all - missed);
    if missed == 0 { ExitCode::SUCCESS } else { ExitCode::FAILURE }
}
