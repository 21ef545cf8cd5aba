//! How many events a second go to the disk with `synchronous=FULL`: one by one, and drained. `rate FOLDER`; the folder decides which disk.

#[path = "../../host/tests/common/mod.rs"]
mod common;

use std::path::Path;
use std::time::Instant;

use desk::Journal;

fn main() -> Result<(), Box<dyn std::error::Error>> {
    let folder = std::env::args().nth(1).unwrap_or_else(|| ".".into());
    let (_, records) = common::day(1, 256);
    for drain in [1, 8, 64, 256] {
        let path = Path::new(&folder).join(format!("rate-{}.journal", std::process::id()));
        let mut journal = Journal::create(&path, 10_000)?;
        let started = Instant::now();
        let mut events = 0;
        while started.elapsed().as_secs_f64() < 2.0 {
            for some in records.chunks(drain) {
                events += journal.drain(some.iter().map(Vec::as_slice))?.len();
            }
        }
        let rate = f64::from(u32::try_from(events)?) / started.elapsed().as_secs_f64();
        println!("rate: {drain:>3} events in a transaction: {rate:.0} events a second, {events} taken");
        drop(journal);
        let opened = Instant::now();
        let seq = Journal::read(&path)?.seq();
        println!(
            "rate:     opened again after {seq} events in {:.0} ms",
            opened.elapsed().as_secs_f64() * 1_000.0
        );
        std::fs::remove_file(&path)?;
    }
    Ok(())
}
