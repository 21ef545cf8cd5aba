//! A book of the Rust, under watch, and a library's beside it (the stand-in's if none is linked), for tests: every
//! event is taken by both, and answer, book and all that is asked of a book are the same.

use std::sync::LazyLock;

use model::record::Draft;
use model::watch::Watched;

use crate::comparison::{Caller, started};
use crate::entries::{Entries, library};
use crate::marks::{self, Call, PLACE};
use crate::stand_in::STAND_IN;

static ENTRIES: LazyLock<Entries> = LazyLock::new(|| library().unwrap_or(STAND_IN));

const BUFFER: usize = 1_024;
const MARK: &[u8] = b"MARK";

pub struct Both {
    watched: Watched,
    caller: Caller<'static>,
    places: Vec<u8>,
}

impl Both {
    pub fn start(setting: u32) -> Self {
        let caller = started(&ENTRIES, setting).expect("both start");
        Self { watched: Watched::start(setting), caller, places: vec![0; PLACE] }
    }

    /// The answer that both give, or the number by which both refuse.
    pub fn event(&mut self, event: &Draft) -> Result<Vec<u8>, u32> {
        let record = event.bytes();
        let outcome = self.watched.event(&record, BUFFER).expect("rules, check() and demand 3 hold");
        let same = self.caller.event((&record, BUFFER), &outcome, &self.watched.machine);
        same.unwrap_or_else(|what| panic!("the library differs: {what}"));
        outcome
    }

    /// Sets the one mark. The Rust has none: its book is read from the library's after a return.
    pub fn set_mark(&mut self) {
        self.mark(Call::Set);
    }

    pub fn return_to_mark(&mut self) {
        self.mark(Call::Return);
        let (caller, machine) = Caller::on(&ENTRIES, std::mem::take(&mut self.caller.book));
        self.caller = caller;
        self.watched.returned(machine);
    }

    fn mark(&mut self, call: Call) {
        let given = marks::call(&ENTRIES, call, &mut self.caller.book, MARK, &mut self.places);
        assert_eq!(given, Ok(0));
    }
}
