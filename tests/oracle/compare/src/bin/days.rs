//! Writes days for the day program: `days DIR` makes, for each, `NAME.stdin`, the records
//! each after a 2-byte length, and `NAME.stdout`, what the program must print on it. The book starts
//! with the setting 10,000, the answer buffer has 1,024 bytes. `days --check STDIN STDOUT` fails
//! if the model would print something else on a stored input.

use std::path::Path;
use std::process::ExitCode;

use lists::{DAYS, Generator, PROFILES, Profile};
use model::Machine;
use model::answer::alarms;
use model::day::{SHARE, UNIT, VENUE_1, fill, filled, named, report};
use model::events;

const SETTING: u32 = 10_000;
const SEED: u64 = 700_000;

/// Every kind of event, many of them wrong or damaged.
static MIXED: Profile = Profile { setting: (SETTING, SETTING), damaged: 8, buffers: 0, ..PROFILES[1] };

/// Longer: more orders, texts of every length and byte, numbers at their limits.
static LONG: Profile = Profile { orders: 30, any_texts: true, values: PROFILES[8].values, ..MIXED };

/// A day on which venues send OrdStatus 3.
static ENDED: Profile = Profile { setting: (SETTING, SETTING), buffers: 0, ..DAYS[0] };

/// A day: its whole records, and what stands behind them, which no record is.
struct Day {
    records: Vec<Vec<u8>>,
    cut: Vec<u8>,
}

fn main() -> ExitCode {
    let args: Vec<String> = std::env::args().skip(1).collect();
    match args.iter().map(String::as_str).collect::<Vec<_>>()[..] {
        ["--check", input, output] => return check(input, output),
        [folder] => write(Path::new(folder)),
        _ => panic!("usage: days DIR, or days --check STDIN STDOUT"),
    }
    ExitCode::SUCCESS
}

fn write(folder: &Path) {
    for (name, day) in [("example", example()), ("mixed", mixed()), ("long", long()), ("ended", ended())] {
        let save = |kind: &str, bytes: &[u8]| {
            let file = folder.join(format!("{name}.{kind}"));
            std::fs::write(&file, bytes).unwrap_or_else(|error| panic!("{}: {error}", file.display()));
        };
        let (input, output) = (day.input(), day.output());
        save("stdin", &input);
        save("stdout", output.as_bytes());
        println!("days: {name}, {} bytes; {}", input.len(), counts(&output));
    }
}

fn check(input: &str, output: &str) -> ExitCode {
    let read = |file: &str| std::fs::read(file).unwrap_or_else(|error| panic!("{file}: {error}"));
    let day = Day::read(&read(input));
    let same = day.output().into_bytes() == read(output);
    println!(
        "days: {} records of {input}, {}",
        day.records.len(),
        if same { "as stored" } else { "NOT as stored" }
    );
    if same { ExitCode::SUCCESS } else { ExitCode::FAILURE }
}

/// docs/SCOPE.md, Day program: booking 100, New, then cum 101.
fn example() -> Day {
    let book = events::book(VENUE_1, &named(), b"A", b"c1", 100 * SHARE, Some(10 * UNIT));
    let new = report(b'0', b'0', fill(0, 0, 0, 0));
    let over = filled(101, 101, 10 * UNIT, 10 * UNIT);
    Day { records: [book, new, over].map(|draft| draft.bytes()).into(), cut: Vec::new() }
}

/// About 300 events; the last record is cut.
fn mixed() -> Day {
    let mut records = drawn(&MIXED, SEED, 300);
    records.insert(20, Vec::new());
    records.insert(100, vec![0xFF; 5_000]);
    let (last, whole) = records.split_last().expect("records");
    Day { records: whole.to_vec(), cut: sized(last)[..2 + last.len() / 2].to_vec() }
}

/// About 2,000 events; the last length is cut.
fn long() -> Day {
    let mut records = drawn(&LONG, SEED + 1, 2_000);
    records.insert(1, vec![7; 65_535]);
    records.insert(1_500, Vec::new());
    Day { records, cut: vec![9] }
}

/// About 600 events, 3 among their statuses.
fn ended() -> Day {
    Day { records: drawn(&ENDED, SEED + 2, 600), cut: Vec::new() }
}

fn drawn(profile: &'static Profile, seed: u64, events: usize) -> Vec<Vec<u8>> {
    let mut generator = Generator::new(profile, seed);
    (0..events).map(|_| generator.next_item().record).collect()
}

/// A record after its length.
fn sized(record: &[u8]) -> Vec<u8> {
    let length = u16::try_from(record.len()).expect("a length of two bytes");
    [&length.to_le_bytes(), record].concat()
}

impl Day {
    fn read(input: &[u8]) -> Self {
        let mut day = Self { records: Vec::new(), cut: input.to_vec() };
        while let Some((length, rest)) = day.cut.split_first_chunk() {
            let Some((record, rest)) = rest.split_at_checked(u16::from_le_bytes(*length).into()) else {
                break;
            };
            day.records.push(record.to_vec());
            day.cut = rest.to_vec();
        }
        day
    }

    fn input(&self) -> Vec<u8> {
        let mut input: Vec<u8> = self.records.iter().flat_map(|record| sized(record)).collect();
        input.extend(&self.cut);
        input
    }

    fn output(&self) -> String {
        let mut machine = Machine::start(SETTING);
        let mut lines = vec!["event refusal messages alarm alarm2".to_string()];
        for record in &self.records {
            let (refusal, messages, [alarm, alarm2]) = match machine.event(record, 1_024) {
                Ok(answer) => (0, answer[2], alarms(&answer)),
                Err(refusal) => (refusal, 0, [0, 0]),
            };
            lines.push(format!("{} {refusal} {messages} {alarm} {alarm2}", lines.len()));
        }
        if !self.cut.is_empty() {
            lines.push(format!("{} 3 0 0 0", lines.len()));
        }
        lines.iter().map(|line| format!("{line}\n")).collect()
    }
}

/// How many events were refused with each number, and how many had messages and alarms.
fn counts(output: &str) -> String {
    let numbers = |line: &str| line.split(' ').map(str::parse).collect::<Result<Vec<usize>, _>>().ok();
    let (mut refusals, mut messages, mut alarms) = ([0; 8], [0; 3], [0; 7]);
    for line in output.lines().filter_map(numbers) {
        refusals[line[1]] += 1;
        messages[line[2]] += 1;
        alarms[line[3]] += 1;
    }
    format!("refusals 0 to 7 {refusals:?}, messages 0 to 2 {messages:?}, alarms 0 to 6 {alarms:?}")
}
