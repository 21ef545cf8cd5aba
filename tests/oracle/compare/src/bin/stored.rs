//! Stored lists of the model's answers. `stored --fixed FILE` writes the list that is committed,
//! chosen for coverage; `stored --many LISTS FILE` writes many lists, for the mutations;
//! `stored FILE...` replays files and fails if the model answers otherwise now.

use std::process::ExitCode;

use compare::coverage::choose;
use compare::stored::{replay, write};
use lists::{DAYS, List, PROFILES, days, exhaustive, list};

/// Short lists that the fixed list is chosen from, their seeds, and the most events to choose.
const CHOICE: u64 = 1_500;
const FIRST_SEED: u64 = 100_000;
const EVENTS: usize = 8_000;

/// The same of the days on which venues send OrdStatus 3.
const DAY_CHOICE: u64 = 700;
const FIRST_DAY: u64 = 200_000;
const DAY_EVENTS: usize = 4_000;

fn main() -> ExitCode {
    let args: Vec<String> = std::env::args().skip(1).collect();
    match args.iter().map(String::as_str).collect::<Vec<_>>()[..] {
        ["--fixed", file] => save(file, &write(&fixed(), false)),
        ["--many", lists, file] => save(file, &write(&many(lists.parse().expect("a number")), true)),
        ref files => return replay_files(files),
    }
    ExitCode::SUCCESS
}

fn save(file: &str, bytes: &[u8]) {
    std::fs::write(file, bytes).unwrap_or_else(|error| panic!("{file}: {error}"));
    let (lists, events) = replay(bytes).expect("the model answers as it did");
    println!("{file}: {lists} lists, {events} events, {} bytes", bytes.len());
}

fn replay_files(files: &[&str]) -> ExitCode {
    for file in files {
        let bytes = std::fs::read(file).unwrap_or_else(|error| panic!("{file}: {error}"));
        match replay(&bytes) {
            Ok((lists, events)) => println!("stored: {lists} lists, {events} events, as stored"),
            Err(difference) => {
                println!("{file}: {difference}");
                return ExitCode::FAILURE;
            }
        }
    }
    ExitCode::SUCCESS
}

/// Short lists of every profile and the pairs, chosen for coverage; one list with both tables
/// full, one whose full table refuses a short Filled; each cut and each bit of the head of each kind of record; fields at and past their ranges;
/// the days with 3.
fn fixed() -> Vec<List> {
    let profile = |seed: u64| &PROFILES[seed as usize % PROFILES.len()];
    let short =
        (FIRST_SEED..FIRST_SEED + CHOICE).map(|seed| list(profile(seed), seed, 20 + (seed % 60) as usize));
    let mut lists = choose(short.chain(exhaustive::every_pair()).collect(), EVENTS);
    let full = PROFILES.iter().find(|profile| profile.name == "full-tables").expect("a profile");
    lists.push(list(full, FIRST_SEED, 420));
    lists.push(exhaustive::full());
    lists.push(exhaustive::every_head());
    lists.push(exhaustive::every_range());
    lists.extend(ended());
    lists
}

/// Short lists of the profiles with 3 and the lists about it, chosen for coverage; every refusal that
/// brings a 3 to an order that is filled whole.
fn ended() -> Vec<List> {
    let profile = |seed: u64| &DAYS[seed as usize % DAYS.len()];
    let short =
        (FIRST_DAY..FIRST_DAY + DAY_CHOICE).map(|seed| list(profile(seed), seed, 20 + (seed % 60) as usize));
    let mut lists = choose(short.chain(days::all()).collect(), DAY_EVENTS);
    lists.extend(days::refused_whole());
    lists
}

fn many(lists: u64) -> Vec<List> {
    let profile = |seed: u64| &PROFILES[seed as usize % PROFILES.len()];
    let drawn = (1..=lists).map(|seed| list(profile(seed), seed, 400));
    exhaustive::all().into_iter().chain(drawn).collect()
}
