//! Stand-in for `chrono`: the two types that the book names. Times are left out (docs/SCOPE.md, The book),
//! so every time here is the same one.

use std::marker::PhantomData;

use serde::Serialize;

/// The only time zone.
#[derive(Debug, Clone, Copy, PartialEq, Eq, PartialOrd, Ord, Hash, Serialize)]
pub struct Utc;

/// A time in seconds.
#[derive(Debug, Clone, Copy, PartialEq, Eq, PartialOrd, Ord, Hash, Serialize)]
pub struct DateTime<Zone> {
    seconds: i64,
    zone: PhantomData<Zone>,
}

impl DateTime<Utc> {
    pub const UNIX_EPOCH: Self = Self { seconds: 0, zone: PhantomData };
}
