//! Seeded lists of events, drawn against the model's own book so that they meet it where it
//! stands: see `profile` for the kinds of lists.

pub mod chains;
pub mod damage;
pub mod days;
pub mod draw;
pub mod exhaustive;
pub mod generator;
pub mod positions;
pub mod profile;
pub mod random;

pub use generator::Generator;
pub use profile::{DAYS, PROFILES, Profile};

/// A start and the events after it.
#[derive(Debug, Clone, PartialEq, Eq)]
pub struct List {
    pub setting: u32,
    pub items: Vec<Item>,
}

/// An event's record and the length of its answer buffer.
#[derive(Debug, Clone, PartialEq, Eq)]
pub struct Item {
    pub record: Vec<u8>,
    pub answer_buffer: usize,
}

/// The list of that profile and seed.
pub fn list(profile: &'static Profile, seed: u64, events: usize) -> List {
    let mut generator = Generator::new(profile, seed);
    let items = (0..events).map(|_| generator.next_item()).collect();
    List { setting: generator.setting(), items }
}
