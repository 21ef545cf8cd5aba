//! Two clients, either order, on the static library, or on the stand-in if none is linked.
//! `exchange [SEEDS [FIRST_SEED]]` runs pairs of records on a reached and a built book of each seed;
//! `exchange --faults [SEEDS]` plants faults in the stand-in and demands that pairs find them.

use std::process::ExitCode;

use compare::entries::{Entries, library};
use compare::exchange::{Outside, Pairs, drawn, on_book};
use compare::faults::Fault;
use compare::stand_in::{STAND_IN, plant};

const WORDS: [(Outside, &str); 4] = [
    (Outside::Booking, "with a booking"),
    (Outside::NoOrder, "where one concerns no order before both"),
    (Outside::OneClient, "of one client"),
    (Outside::NotTaken, "not both taken"),
];

fn main() -> ExitCode {
    let args: Vec<String> = std::env::args().skip(1).collect();
    let faults = args.first().is_some_and(|arg| arg == "--faults");
    let number = |at: usize, usual: u64| args.get(at).map_or(usual, |arg| arg.parse().expect("a number"));
    if faults {
        return find_faults(number(1, 20));
    }
    let linked = library();
    let mut pairs = Pairs::default();
    let (seeds, first) = (number(0, 100), number(1, 1));
    for seed in first..first + seeds {
        if let Err(what) = seed_holds(&linked.unwrap_or(STAND_IN), seed, &mut pairs) {
            println!("exchange: seed {seed}, a pair within the words parts:\n{what}");
            return ExitCode::FAILURE;
        }
    }
    let [none, one, two] = pairs.within;
    println!("  of pairs within the words {none} add no request, {one} one, {two} two");
    for (word, what) in WORDS {
        let (all, part) = pairs.outside[word as usize];
        println!("  of pairs {what} {part} of {all} part");
    }
    // Each word is seen to be needed, if enough is run.
    if seeds >= 100 && pairs.outside.iter().any(|(_, part)| *part == 0) {
        println!("exchange: of the pairs outside a word none parts");
        return ExitCode::FAILURE;
    }
    let compared = if linked.is_some() { "the library" } else { "the stand-in" };
    println!(
        "exchange: {compared}, {} books, {} pairs of two clients both ways round, none parts",
        pairs.books,
        none + one + two
    );
    ExitCode::SUCCESS
}

fn seed_holds(entries: &Entries, seed: u64, pairs: &mut Pairs) -> Result<(), String> {
    drawn(seed).iter().try_for_each(|bytes| on_book(entries, bytes, seed, pairs))
}

fn find_faults(seeds: u64) -> ExitCode {
    let mut missed = 0;
    for fault in Fault::EXCHANGED {
        plant(Some(fault));
        let mut pairs = Pairs::default();
        match (1..=seeds).find(|&seed| seed_holds(&STAND_IN, seed, &mut pairs).is_err()) {
            Some(seed) => println!("  {fault:?}: found with seed {seed}"),
            None => {
                println!("{fault:?} NOT FOUND with {seeds} seeds");
                missed += 1;
            }
        }
    }
    plant(None);
    let all = Fault::EXCHANGED.len();
    println!("exchange: planted faults, {} of {all} found", all - missed);
    if missed == 0 { ExitCode::SUCCESS } else { ExitCode::FAILURE }
}
