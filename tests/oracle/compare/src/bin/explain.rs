//! Compares what the host's crate says of a book and of a record (`explain`, `explain_record`) with `check` and `event` of the library,
//! or of the stand-in if none is linked: on the damaged books of `check`, and on records that are spoiled, cut and flipped.
//! `explain [ONE_IN [RECORDS]]` shows one damage of so many, and so many records.

use std::process::ExitCode;

use compare::books;
use compare::damages::Damaged;
use compare::entries::{Entries, library};
use compare::stand_in::STAND_IN;
use lists::damage::{damage, every_cut, every_flip};
use lists::random::Random;
use lists::{Generator, profile};
use model::machine::ANSWER_BYTES;

/// Random books that are built: so many, divided as the damages are.
const BUILT: u64 = 40_000;

fn main() -> ExitCode {
    let args: Vec<String> = std::env::args().skip(1).collect();
    let number = |at: usize, usual: u64| args.get(at).map_or(usual, |arg| arg.parse().expect("a number"));
    let entries = library().unwrap_or(STAND_IN);
    let (mut kept, mut broken, mut read, mut refused) = (0, 0, 0, 0);
    let held =
        of_books(&entries, number(0, 400), &mut |good| *(if good { &mut kept } else { &mut broken }) += 1)
            .and_then(|()| {
                of_records(&entries, number(1, 20_000), &mut |good| {
                    *(if good { &mut read } else { &mut refused }) += 1
                })
            });
    if let Err(what) = held {
        println!("explain differs: {what}");
        return ExitCode::FAILURE;
    }
    let compared = if library().is_some() { "the library" } else { "the stand-in" };
    println!(
        "explain: {compared}, {kept} books that keep the rules and {broken} that do not, {read} records that read and {refused} that do \
         not, no difference"
    );
    if kept.min(broken).min(read).min(refused) == 0 { ExitCode::FAILURE } else { ExitCode::SUCCESS }
}

fn of_books(entries: &Entries, one_in: u64, count: &mut dyn FnMut(bool)) -> Result<(), String> {
    let mut visit = |what: &str, bytes: &[u8]| {
        let (kept, said) = (entries.check(bytes) == 0, jubafiye::explain(bytes));
        count(kept);
        let words = said.first().map_or("nothing".into(), ToString::to_string);
        if kept == said.is_empty() {
            Ok(())
        } else {
            Err(format!("{what}: check says {kept}, explain {words}"))
        }
    };
    let mut random = Random::new(5);
    for _ in 0..BUILT / one_in {
        let bytes = books::random(&mut random);
        Damaged::new(bytes, 20_000, random.next(), &mut visit).all()?;
    }
    for (what, bytes) in books::many(5) {
        let one_in = if what == "the full book" { one_in * 5 } else { one_in * 40 };
        Damaged::new(bytes, one_in, 5, &mut visit).all().map_err(|error| format!("{what}: {error}"))?;
    }
    Ok(())
}

fn of_records(entries: &Entries, records: u64, count: &mut dyn FnMut(bool)) -> Result<(), String> {
    let mut empty = vec![0; jubafiye::BOOK_BYTES];
    entries.start(&mut empty, 9);
    let mut said = |record: &[u8]| {
        let given = entries.event(&mut empty.clone(), record, &mut [0; ANSWER_BYTES]);
        let refusal = jubafiye::explain_record(record).map_or_else(|bad| bad.refusal().number(), |()| 0);
        count(refusal == 0);
        let agrees = if matches!(given, 3 | 4) { refusal == given } else { refusal == 0 };
        if agrees {
            Ok(())
        } else {
            Err(format!("{record:?}: event gives {given}, explain_record {refusal}"))
        }
    };
    let mut random = Random::new(6);
    let mut generator = Generator::new(profile::any(1), 6);
    for drawn in 0..records {
        if drawn % 100 == 0 {
            generator = Generator::new(profile::any(random.next()), random.next());
        }
        let record = generator.next_item().record;
        said(&record)?;
        said(&damage(&mut random, &record))?;
        if drawn % 50 == 0 {
            every_cut(&record).iter().chain(&every_flip(&record)).try_for_each(|record| said(record))?;
        }
    }
    Ok(())
}
