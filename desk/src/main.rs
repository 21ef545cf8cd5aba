//! The command of the desk: books, days, records and FIX logs for a person.

mod command;

use std::path::PathBuf;
use std::process::ExitCode;

use clap::{Parser, Subcommand, ValueEnum};

const EXAMPLES: &str = "\
Examples:
  desk dump monday.journal                 the book as it is now, each order with its requests
  desk replay monday.journal --until 120   the book after 120 events, and what was told by then
  desk diff morning.book evening.book      each field that differs
  desk explain evening.book                which rule a refused book breaks, and where
  desk explain --record 0904000000024731   what is wrong with a record
  desk events monday.journal > monday.txt  a day as text, one event a line, a refused one marked behind #
  desk events monday.txt --to records > monday.day   and back, as ./day reads it
  desk fix session.log                     a FIX log with the names of the fields
  desk page monday.txt                     the evening page and the net position
  desk html monday.journal -o monday.html  one page for the clerk, to look at and to print
  desk take monday.journal gateway-cancel name=G1   an event into a journal

A BOOK is a file of 65,536 bytes, a journal or a day. A DAY is a journal, a text with an event in each line, or records as ./day
reads them, each after its length in two bytes. `-` is standard input.

Exit status: 0 done; 1 something is to be looked at: books differ, a book or record is refused, a message does not read, an
event was refused (replay, take); 2 the command was called otherwise than --help says, or its event or record does not read; 3 a
file is not there or is none of what was asked for.";

const EVENTS: &str = "\
Events, a line each; fields may stand in any order, and `desk events` writes a day so:
  book client=7 venue=3 name=G1 clordid=C1 symbol=WHEATH27 side=buy ordtype=limit qty=100 price=10.25
  cancel client=7 clordid=C2 origclordid=C1 symbol=WHEATH27 side=buy
  replace client=7 clordid=C3 origclordid=C1 symbol=WHEATH27 side=buy qty=80 price=10.5 verdict=pass
  report venue=3 downstream=G1 exectype=trade ordstatus=filled lastqty=100 lastpx=10 cumqty=100 avgpx=10
  unknown venue=3 downstream=G1
  reject venue=3 downstream=G1-1 reason=99 text=\"too late\"
  failed venue=3 downstream=G1 text=\"session down\"
  again venue=3 downstream=G1
  gateway-cancel name=G1
  record 0904000000024731";

#[derive(Parser)]
#[command(name = "desk", version, about = "Books, days, records and FIX logs of the order book, for a person", after_help = EXAMPLES)]
struct Arguments {
    #[command(subcommand)]
    command: What,
}

#[derive(Subcommand)]
enum What {
    /// Shows a book: each order with its requests
    Dump {
        /// A book, a journal or a day; `-` is standard input
        book: PathBuf,
    },
    /// Shows each field that differs between two books
    Diff {
        /// The first book
        a: PathBuf,
        /// The second book
        b: PathBuf,
    },
    /// Runs a day: each event with what went out, and the book then
    Replay {
        /// A journal, a text or records
        day: PathBuf,
        /// Stop after this event
        #[arg(long, value_name = "N")]
        until: Option<u64>,
    },
    /// Says which rule a book breaks and where, or what is wrong with a record
    Explain {
        /// A book, or a file with one record
        #[arg(required_unless_present = "record")]
        file: Option<PathBuf>,
        /// A record in hexadecimal digits
        #[arg(long, value_name = "HEX", conflicts_with = "file")]
        record: Option<String>,
    },
    /// Writes a day as text, one event a line, a refused one marked behind `#`, or as records
    Events {
        /// A journal, a text or records
        day: PathBuf,
        /// What to write
        #[arg(long, value_enum, default_value_t = Form::Text)]
        to: Form,
    },
    /// Reads a FIX log, a message a line: names beside the tags, and what does not read pointed at
    Fix {
        /// The log; `|` may stand for byte 1, and anything before `8=FIX`
        log: PathBuf,
    },
    /// Prints the evening page and the net position of a day
    Page {
        /// A journal, a text or records, or a book
        day: PathBuf,
    },
    /// Writes one page with the day's orders, each with its line of time, and the net position
    Html {
        /// A journal, a text or records
        day: PathBuf,
        /// The file to write; standard output without it
        #[arg(short, long, value_name = "FILE")]
        output: Option<PathBuf>,
        /// The page's title
        #[arg(long, default_value = "The day's orders")]
        title: String,
    },
    /// Makes an empty journal, or one that begins with the live orders of another
    Create {
        /// The file, which must not be there
        journal: PathBuf,
        /// The most ClOrdIDs that a client may use
        #[arg(long, default_value_t = 10_000, conflicts_with = "from")]
        setting: u32,
        /// The journal of the day before, whose live orders go on
        #[arg(long, value_name = "JOURNAL")]
        from: Option<PathBuf>,
    },
    /// Takes an event into a journal: what goes out stays in its outbox
    #[command(after_help = EVENTS)]
    Take {
        /// The journal
        journal: PathBuf,
        /// The event as text
        #[arg(required = true)]
        event: Vec<String>,
    },
}

/// What a day is written as.
#[derive(Clone, Copy, ValueEnum)]
enum Form {
    /// One event a line
    Text,
    /// Each record after its length in two bytes
    Records,
}

fn main() -> ExitCode {
    match command::run(Arguments::parse().command) {
        Ok(command::Done::Well) => ExitCode::SUCCESS,
        Ok(command::Done::LookAtIt) => ExitCode::from(1),
        Err(why) => {
            eprintln!("desk: {why}");
            ExitCode::from(if why.is::<command::Misused>() { 2 } else { 3 })
        }
    }
}
