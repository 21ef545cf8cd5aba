//! Writes generated lists with the answers of the static library, or of the stand-in if none is
//! linked, for tests/fix: `answers FILE LISTS`, in the format of stored.rs.

use compare::entries::{Entries, library};
use compare::stand_in::STAND_IN;
use lists::{List, days, exhaustive, list, profile};
use model::machine::BOOK_BYTES;

const EVENTS: usize = 400;

fn main() {
    let args: Vec<String> = std::env::args().skip(1).collect();
    let [file, lists] = &args[..] else { panic!("answers FILE LISTS") };
    let lists: u64 = lists.parse().expect("a number");
    let entries = library().unwrap_or(STAND_IN);
    let drawn = (1..=lists).map(|seed| list(profile::any(seed), seed, EVENTS));
    let mut bytes = Vec::new();
    for list in exhaustive::all().into_iter().chain(days::every_coming()).chain(drawn) {
        run(&entries, &list, &mut bytes);
    }
    std::fs::write(file, &bytes).unwrap_or_else(|error| panic!("{file}: {error}"));
    println!("answers: {} bytes", bytes.len());
}

/// The list's events, each with its refusal or its answer.
fn run(entries: &Entries, list: &List, bytes: &mut Vec<u8>) {
    let mut book = vec![0; BOOK_BYTES];
    entries.start(&mut book, list.setting);
    bytes.push(0);
    bytes.extend(list.setting.to_le_bytes());
    for item in &list.items {
        let mut answer = vec![0; item.answer_buffer];
        let refusal = entries.event(&mut book, &item.record, &mut answer);
        bytes.push(1);
        bytes.extend((item.record.len() as u16).to_le_bytes());
        bytes.extend(&item.record);
        bytes.extend((item.answer_buffer as u32).to_le_bytes());
        bytes.push(refusal as u8);
        if refusal == 0 {
            let length = u16::from_le_bytes([answer[0], answer[1]]);
            bytes.extend(length.to_le_bytes());
            bytes.extend(&answer[..length.into()]);
        }
    }
}
