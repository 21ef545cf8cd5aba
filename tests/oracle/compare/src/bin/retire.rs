//! Compares the retirements of the static library, or of the stand-in if none is linked: lists of events with retirements beside
//! the Rust, from which nothing is retired, and pairs of books and archives. `retire [LISTS [EVENTS [FIRST_SEED]]]` compares;
//! `retire --faults [LISTS]` plants each fault in the stand-in and demands that lists or pairs find it.

use std::ops::Range;
use std::process::ExitCode;

use compare::entries::{Entries, library};
use compare::faults::Fault;
use compare::retirements::{Counts, compare, pairs};
use compare::retiring::RetireFault;
use compare::stand_in::{STAND_IN, plant};

const EVENTS: u64 = 120;

fn main() -> ExitCode {
    let args: Vec<String> = std::env::args().skip(1).collect();
    let faults = args.first().is_some_and(|arg| arg == "--faults");
    let numbers: Vec<u64> =
        args.iter().skip(faults.into()).map(|arg| arg.parse().expect("a number")).collect();
    let number = |at: usize, usual: u64| numbers.get(at).copied().unwrap_or(usual);
    if faults {
        return find_faults(number(0, 60));
    }
    let linked = library();
    let (lists, events, first) = (number(0, 100), number(1, EVENTS) as usize, number(2, 1));
    let mut counts = Counts::default();
    if let Some(what) = differs(&linked.unwrap_or(STAND_IN), first..first + lists, events, &mut counts) {
        println!("{what}");
        return ExitCode::FAILURE;
    }
    counts.print();
    let compared = if linked.is_some() { "the library" } else { "the stand-in" };
    println!("retire: {compared}, {} lists, {} events, no difference", counts.lists, counts.events);
    ExitCode::SUCCESS
}

/// The first difference of lists and pairs of these seeds.
fn differs(entries: &Entries, seeds: Range<u64>, events: usize, counts: &mut Counts) -> Option<String> {
    seeds.into_iter().find_map(|seed| {
        let list = compare(entries, seed, events, counts).err();
        let list =
            list.map(|mismatch| format!("seed {seed}, step {}, differs: {}", mismatch.at + 1, mismatch.what));
        list.or_else(|| {
            pairs(entries, seed, counts).err().map(|what| format!("pairs of seed {seed} differ: {what}"))
        })
    })
}

fn find_faults(seeds: u64) -> ExitCode {
    let mut missed = 0;
    for fault in RetireFault::ALL {
        plant(Some(Fault::Retire(fault)));
        match differs(&STAND_IN, 1..seeds + 1, EVENTS as usize, &mut Counts::default()) {
            Some(what) => {
                let said: Vec<&str> = what.lines().take(2).map(str::trim).collect();
                println!("  {fault:?}: found: {}", said.join(" "));
            }
            None => {
                println!("{fault:?} NOT FOUND");
                missed += 1;
            }
        }
    }
    plant(None);
    let all = RetireFault::ALL.len();
    println!("retire: planted faults, {} of {all} found", all - missed);
    if missed == 0 { ExitCode::SUCCESS } else { ExitCode::FAILURE }
}
