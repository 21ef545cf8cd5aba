//! Compares the static library, or the stand-in if none is linked, with the plain writer and
//! reader. `fix built RECORDS`, `fix cuts`, `fix answers FILE...`, `fix changed MESSAGES`; `fix third
//! RECORDS FOLDER FILE...` writes messages for QuickFIX and tshark; `fix columns` prints tshark's names
//! of the fields, `fix asked` who was asked; `fix faults` plants each fault in the stand-in and demands that it is found.

use std::fs;
use std::process::ExitCode;

use fix::check::Difference;
use fix::entries::{ASKED, ENTRIES, Entries};
use fix::stand_in::{Fault, STAND_IN, plant};
use fix::{steps, third};

fn main() -> ExitCode {
    let args: Vec<String> = std::env::args().skip(1).collect();
    let args: Vec<&str> = args.iter().map(String::as_str).collect();
    let entries = ENTRIES;
    let number = |text: &str| text.parse().expect("a number");
    let of = |told: Result<String, Difference>| told.map(|told| format!("{ASKED}, {told}"));
    let outcome = match args[..] {
        ["built", records] => of(steps::built(&entries, number(records))),
        ["answers", ref files @ ..] => of(steps::answers(&entries, files)),
        ["changed", messages] => of(steps::changed(&entries, number(messages))),
        ["third", drawn, folder, ref files @ ..] => of(third_parties(&entries, number(drawn), folder, files)),
        ["cuts"] => of(steps::cuts(&entries)),
        ["asked"] => {
            println!("{ASKED}");
            return ExitCode::SUCCESS;
        }
        ["columns"] => {
            third::COLUMNS.iter().for_each(|(_, name)| println!("fix.{name}"));
            return ExitCode::SUCCESS;
        }
        ["faults"] => find_faults(),
        _ => Err("see the head of src/bin/fix.rs".into()),
    };
    match outcome {
        Ok(told) => {
            println!("fix: {told}");
            ExitCode::SUCCESS
        }
        Err(difference) => {
            println!("{difference}");
            ExitCode::FAILURE
        }
    }
}

/// Messages for QuickFIX, `FOLDER/messages`, and for tshark, `FOLDER/capture`, with the lines that it
/// must print, `FOLDER/lines`.
fn third_parties(entries: &Entries, drawn: u64, folder: &str, files: &[&str]) -> Result<String, Difference> {
    let sent = third::messages(entries, drawn, files)?;
    let (capture, lines) = third::capture(&sent);
    for (name, bytes) in [("messages", third::plain(&sent)), ("capture", capture), ("lines", lines)] {
        let file = format!("{folder}/{name}");
        fs::write(&file, bytes).map_err(|error| format!("{file}: {error}"))?;
    }
    Ok(format!("{} messages for third parties", sent.len()))
}

fn find_faults() -> Result<String, Difference> {
    let mut missed = Vec::new();
    for &fault in Fault::ALL {
        plant(Some(fault));
        match finds(&STAND_IN, fault) {
            Some(difference) => println!("  {fault:?}: {:.150}", difference.replace('\n', " ")),
            None => missed.push(fault),
        }
    }
    plant(None);
    if !missed.is_empty() {
        return Err(format!("planted faults not found: {missed:?}"));
    }
    Ok(format!("each of {} faults planted in the stand-in found", Fault::ALL.len()))
}

/// What the step finds that is made for the fault.
fn finds(entries: &Entries, fault: Fault) -> Option<Difference> {
    let step = match fault {
        fault if fault >= Fault::SecondMessageOneOff => steps::cuts(entries),
        fault if fault >= Fault::ReadsLeadingZero => {
            steps::changed(entries, 0).and_then(|_| steps::built(entries, 0))
        }
        _ => steps::built(entries, 0),
    };
    step.err()
}
