//! Compares the `check` of the library, or of the stand-in if none is linked, with the second
//! decision of the rules: on books that events leave, damaged in every way of damages.rs, on random
//! books built field by field, and on books of other lengths. `check [ONE_IN [SEED]]` shows one
//! damage of so many; `check --faults` leaves each rule out in turn and demands that it is missed.

use std::collections::BTreeMap;
use std::process::ExitCode;

use compare::books;
use compare::damages::Damaged;
use compare::entries::{Entries, library};
use compare::faults::Fault;
use compare::keeps::{RULES, broken};
use compare::stand_in::{STAND_IN, plant};
use lists::random::Random;

/// Random books that are built, each with some damages: so many, divided as the damages are.
const BUILT: u64 = 40_000;
const LENGTHS: usize = 300;

type Books = [(String, Vec<u8>)];

/// How many books kept the rules, and which rule the others broke first.
#[derive(Default)]
struct Tally {
    kept: u64,
    broken: BTreeMap<&'static str, u64>,
}

fn main() -> ExitCode {
    let args: Vec<String> = std::env::args().skip(1).collect();
    if args.first().is_some_and(|arg| arg == "--faults") {
        return find_faults();
    }
    let number = |at: usize, usual: u64| args.get(at).map_or(usual, |arg| arg.parse().expect("a number"));
    let linked = library();
    let mut tally = Tally::default();
    let seed = number(1, 1);
    let entries = linked.unwrap_or(STAND_IN);
    if let Err(what) = hold(&entries, &books::many(seed), number(0, 100), seed, &mut tally) {
        println!("check differs: {what}");
        return ExitCode::FAILURE;
    }
    for (rule, count) in &tally.broken {
        println!("  {count} {rule}");
    }
    let broken: u64 = tally.broken.values().sum();
    let compared = if linked.is_some() { "the library" } else { "the stand-in" };
    println!(
        "check: {compared}, {} books that keep the rules and {broken} that do not, no difference",
        tally.kept
    );
    ExitCode::SUCCESS
}

/// Shows books and damages until one is decided otherwise.
fn hold(entries: &Entries, books: &Books, one_in: u64, seed: u64, tally: &mut Tally) -> Result<(), String> {
    let mut visit = |what: &str, bytes: &[u8]| judge(entries, what, bytes, tally);
    lengths(&books[0].1, &mut visit)?;
    let mut random = Random::new(seed);
    for _ in 0..BUILT / one_in {
        let bytes = books::random(&mut random);
        Damaged::new(bytes, 20_000, random.next(), &mut visit).all()?;
    }
    for (what, bytes) in books {
        // The full book is damaged throughout, the others less.
        let one_in = if *what == "the full book" { one_in } else { one_in * 40 };
        Damaged::new(bytes.clone(), one_in, seed, &mut visit)
            .all()
            .map_err(|error| format!("{what}: {error}"))?;
    }
    Ok(())
}

fn judge(entries: &Entries, what: &str, bytes: &[u8], tally: &mut Tally) -> Result<(), String> {
    let rule = broken(bytes);
    match rule {
        None => tally.kept += 1,
        Some(rule) => *tally.broken.entry(rule).or_default() += 1,
    }
    match entries.check(bytes) {
        given if given == u32::from(rule.is_some()) => Ok(()),
        given => Err(format!("{what}: check gives {given}, the second decision: {}", rule.unwrap_or("kept"))),
    }
}

/// A book that keeps its rules, cut and with bytes behind it.
fn lengths(whole: &[u8], visit: &mut impl FnMut(&str, &[u8]) -> Result<(), String>) -> Result<(), String> {
    let long = [whole, &whole[..LENGTHS]].concat();
    for length in (0..LENGTHS).chain(whole.len() - LENGTHS..=long.len()) {
        visit("another length", &long[..length]).map_err(|what| format!("{length} bytes: {what}"))?;
    }
    Ok(())
}

fn find_faults() -> ExitCode {
    let (books, mut missed) = (books::many(1), 0);
    for (at, (rule, _)) in RULES.iter().enumerate() {
        plant(Some(Fault::RuleLeftOut(at)));
        match hold(&STAND_IN, &books, 100, 1, &mut Tally::default()) {
            Err(what) => println!("  without \"{rule}\": {}", what.lines().next().unwrap_or_default()),
            Ok(()) => {
                println!("without \"{rule}\": NOT FOUND");
                missed += 1;
            }
        }
    }
    plant(None);
    let all = RULES.len();
    println!("check: rules left out, {} of {all} found", all - missed);
    if missed == 0 { ExitCode::SUCCESS } else { ExitCode::FAILURE }
}
