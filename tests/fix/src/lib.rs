//! What tests/fix compares a library of FIX messages with, and how.

pub mod again;
pub mod built;
pub mod changes;
pub mod check;
pub mod entries;
pub mod grammar;
pub mod random;
pub mod records;
pub mod stand_in;
pub mod steps;
pub mod stored;
pub mod third;
pub mod writer;
