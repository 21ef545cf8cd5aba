//! What each command does.

mod day;
mod fix;
mod html;

use std::error::Error;
use std::fmt;
use std::io::{self, Write};
use std::path::Path;

use desk::Journal;
use jubafiye::{explain, explain_record, text, Book, Shelf, BOOK_BYTES};

use crate::{Form, What};
use day::{Day, Step};

/// How a command ended.
pub enum Done {
    Well,
    LookAtIt,
}

type Ended = Result<Done, Box<dyn Error>>;

/// An argument that does not read: the command was called otherwise than its help says.
#[derive(Debug)]
pub struct Misused(String);

impl Misused {
    fn new(why: impl fmt::Display) -> Self {
        Self(why.to_string())
    }
}

impl fmt::Display for Misused {
    fn fmt(&self, f: &mut fmt::Formatter<'_>) -> fmt::Result {
        f.write_str(&self.0)
    }
}

impl Error for Misused {}

pub fn run(what: What) -> Ended {
    match what {
        What::Dump { book } => print(&all(&shelf_of(&book)?)),
        What::Diff { a, b } => diff(&shelf_of(&a)?, &shelf_of(&b)?),
        What::Replay { day, until } => replay(&Day::load(&day)?, until),
        What::Explain { record: Some(record), .. } => {
            said_of_record(&text::from_text(&format!("record {record}")).map_err(Misused::new)?)
        }
        What::Explain { file, .. } => explained(&day::bytes(&file.unwrap_or_default())?),
        What::Events { day, to } => events(&Day::load(&day)?, to),
        What::Fix { log } => fix::show(&day::bytes(&log)?),
        What::Page { day } => page(&shelf_of(&day)?),
        What::Html { day, output, title } => html_page(&Day::load(&day)?, output.as_deref(), &title),
        What::Create { journal, from: Some(before), .. } => next_day(&journal, &before),
        What::Create { journal, setting, .. } => {
            Journal::create(journal, setting)?;
            Ok(Done::Well)
        }
        What::Take { journal, event } => take(&journal, &event.join(" ")),
    }
}

fn print(text: &str) -> Ended {
    out(text.as_bytes())
}

/// Writes to standard output; a reader that has gone away is no error.
fn out(bytes: &[u8]) -> Ended {
    match io::stdout().write_all(bytes) {
        Err(why) if why.kind() != io::ErrorKind::BrokenPipe => Err(why.into()),
        _ => Ok(Done::Well),
    }
}

/// The book of a file with what it has retired: its bytes, or what a journal or a day comes to.
fn shelf_of(path: &Path) -> Result<Shelf<()>, Box<dyn Error>> {
    let bytes = day::bytes(path)?;
    if bytes.len() == BOOK_BYTES && !day::is_journal(&bytes) {
        let book = Book::from_bytes(&bytes).map_err(|refused| {
            let why = explain(&bytes).first().map(ToString::to_string).unwrap_or_default();
            format!("{}: {refused}: {why}", path.display())
        })?;
        return Ok(day::one_book(book)?);
    }
    Day::load(path)?.run(None, |_| Ok(()))
}

/// The book of a shelf; an empty one if no order was booked.
fn book(shelf: &Shelf<()>) -> Book {
    shelf.book(&()).cloned().unwrap_or_else(|| Book::new(shelf.setting()))
}

/// The archives under a heading each, oldest first, and then the book; the book alone if nothing was retired.
fn all(shelf: &Shelf<()>) -> String {
    let archives = (1..).zip(shelf.archives(&()));
    let archives = archives.map(|(number, archive)| format!("archive {number}, retired: {archive}\n"));
    format!("{}{}", archives.collect::<String>(), book(shelf))
}

/// What differs between two books; what they have retired is left out.
fn diff(a: &Shelf<()>, b: &Shelf<()>) -> Ended {
    let changes = book(a).diff(&book(b));
    print(&changes.iter().map(|change| format!("{change}\n")).collect::<String>())?;
    Ok(if changes.is_empty() { Done::Well } else { Done::LookAtIt })
}

fn replay(day: &Day, until: Option<u64>) -> Ended {
    let mut refused = false;
    let shelf = day.run(until, |step: &Step| {
        refused |= step.answer.is_err();
        print(&step.to_string()).map(drop)
    })?;
    print(&format!("\n{}", all(&shelf)))?;
    Ok(if refused { Done::LookAtIt } else { Done::Well })
}

fn explained(bytes: &[u8]) -> Ended {
    if bytes.len() < 1_024 {
        return said_of_record(bytes);
    }
    let broken = explain(bytes);
    if broken.is_empty() {
        return print("the book keeps its rules\n");
    }
    print(&broken.iter().map(|broken| format!("{broken}\n")).collect::<String>())?;
    Ok(Done::LookAtIt)
}

fn said_of_record(record: &[u8]) -> Ended {
    match explain_record(record) {
        Ok(()) => print(&format!("{}\n", text::to_text(record))),
        Err(bad) => {
            print(&format!("{bad}\n"))?;
            Ok(Done::LookAtIt)
        }
    }
}

/// A refused event is marked behind `#`, a comment of the text form: what is written is read as the same events.
fn events(day: &Day, to: Form) -> Ended {
    let mut written = Vec::new();
    if let Form::Records = to {
        for record in &day.records {
            written.extend(u16::try_from(record.len())?.to_le_bytes());
            written.extend(record);
        }
        return out(&written);
    }
    day.run(None, |Step { record, answer, .. }| {
        let mark = answer.as_ref().err().map(|refusal| format!(" # {}", refusal.of_record(record)));
        Ok(writeln!(written, "{}{}", text::to_text(record), mark.unwrap_or_default())?)
    })?;
    out(&written)
}

fn page(shelf: &Shelf<()>) -> Ended {
    let lines = shelf.net_position();
    let net = lines.iter().map(|line| {
        let symbol = String::from_utf8_lossy(&line.symbol).replace(char::is_control, " ");
        format!("{:>5} {symbol:<16} {:>+16}\n", line.client, line.net)
    });
    let heading = if lines.is_empty() { "" } else { "\nNet position: client, symbol, bought less sold\n" };
    print(&format!("{}{heading}{}", shelf.page(), net.collect::<String>()))
}

fn html_page(day: &Day, output: Option<&Path>, title: &str) -> Ended {
    let page = html::page(day, title)?;
    match output {
        Some(path) => std::fs::write(path, page).map_err(|why| format!("{}: {why}", path.display()))?,
        None => return print(&page),
    }
    Ok(Done::Well)
}

/// Makes a journal that begins with the live orders of another. What that one has not handed over stays there.
fn next_day(path: &Path, before: &Path) -> Ended {
    let before = Journal::read(before).map_err(|why| format!("{}: {why}", before.display()))?;
    let mut shelf = before.shelf().clone();
    shelf.retire_all();
    Journal::create_with(path, book(&shelf))?;
    match before.outbox()?.len() {
        0 => {}
        left => {
            eprintln!("desk: {left} messages of the earlier journal were not handed over, and stay there")
        }
    }
    Ok(Done::Well)
}

fn take(path: &Path, line: &str) -> Ended {
    let record = text::from_text(line).map_err(Misused::new)?;
    let taken = Journal::open(path)?.take(&record)?;
    match taken.answer {
        Ok(answer) if answer.messages.is_empty() && answer.alarms.is_empty() => {
            print(&format!("taken {}\n", taken.seq))
        }
        Ok(answer) => print(&format!("taken {}\n{answer}", taken.seq)),
        Err(refusal) => {
            print(&format!("{}\n", refusal.of_record(&record)))?;
            Ok(Done::LookAtIt)
        }
    }
}
