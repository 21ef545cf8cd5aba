//! A safe wrapper over the proved order book: typed events in, typed messages out, refusals as an error.
//!
//! ```
//! # #[cfg(feature = "book")] {
//! use jubafiye::{Book, Booking, Event, OrdType, Side};
//!
//! let mut book = Book::new(10_000);
//! let answer = book.take(&Event::Book(Booking {
//!     client: 7,
//!     venue: 3,
//!     name: b"G1",
//!     cl_ord_id: b"C1",
//!     symbol: b"WHEATH27",
//!     side: Side::Buy,
//!     ord_type: OrdType::Limit,
//!     qty: "100".parse()?,
//!     price: Some("10.25".parse()?),
//!     time_in_force: None,
//! }))?;
//! assert!(answer.messages.is_empty() && answer.alarms.is_empty());
//! # }
//! # Ok::<(), Box<dyn std::error::Error>>(())
//! ```
//!
//! Rests on the static library `libgateway.a` and on the records of docs/SCOPE.md. Nothing here is trusted by the proofs: the
//! library takes any bytes. Nor does this crate trust the library: whatever bytes it writes and whatever number it returns,
//! nothing here panics, and an answer that does not read comes back with its bytes ([`Error::Unreadable`]).
//!
//! With the feature `fix` the module `fix` writes and reads FIX 4.4 messages; it rests on `libfix.a`.
//!
//! What the book puts out may grow: [`Message`], [`Report`], [`Alarm`], [`OrdStatus`], [`Refusal`] and others are
//! `#[non_exhaustive]`, so that a `match` on one of them has a last arm.

#![deny(missing_docs, unsafe_code)]
#![cfg_attr(
    not(test),
    deny(
        clippy::arithmetic_side_effects,
        clippy::as_conversions,
        clippy::expect_used,
        clippy::indexing_slicing,
        clippy::panic,
        clippy::unreachable,
        clippy::unwrap_used
    )
)]

mod answer;
#[cfg(feature = "book")]
mod book;
mod builders;
#[cfg(feature = "book")]
mod chain;
mod decimal;
#[cfg(feature = "book")]
mod diff;
#[cfg(feature = "book")]
mod entries;
mod error;
mod event;
mod explain;
mod fields;
#[cfg(feature = "fix")]
pub mod fix;
mod kinds;
#[cfg_attr(not(feature = "book"), allow(dead_code))] // without the library just `explain` reads books
mod layout;
mod list;
#[cfg(feature = "book")]
mod many;
#[cfg(feature = "book")]
mod marks;
mod message;
#[cfg(feature = "book")]
mod needs;
#[cfg(feature = "book")]
mod net;
#[cfg(feature = "book")]
mod open;
#[cfg(feature = "book")]
mod page;
mod read;
mod record;
#[cfg(feature = "book")]
mod retire;
#[cfg(feature = "book")]
mod shelf;
mod show;
pub mod text;
#[cfg(feature = "book")]
mod view;
mod words;

/// The version of this crate, of the headers and of the libraries (CHANGELOG.md).
///
/// ```
/// let parts: Vec<u32> = jubafiye::VERSION.split('.').map(|part| part.parse().unwrap()).collect();
/// assert_eq!(parts.len(), 3);
/// ```
pub const VERSION: &str = env!("CARGO_PKG_VERSION");

pub use answer::{Alarm, Answer};
#[cfg(feature = "book")]
pub use book::Book;
#[cfg(feature = "book")]
pub use chain::{ChainEntry, Outcome, CHAIN_BYTES, CHAIN_ENTRY_BYTES};
pub use decimal::{DecimalError, Net, Price, Qty};
#[cfg(feature = "book")]
pub use diff::Change;
#[cfg(feature = "book")]
pub use entries::{ANSWER_BYTES, SAID_BYTES};
pub use error::{BadAnswer, Error, Fault, Refusal};
pub use event::{Amend, Booking, Event, RejectedRequest, Replace, VenueReport};
pub use explain::{explain, Broken, Rule};
pub use fields::{ExecType, OrdStatus, OrdType, Side, TimeInForce};
pub use kinds::{SentKind, Stage};
pub use layout::{BOOK_BYTES, LAYOUT_VERSION};
#[cfg(feature = "book")]
pub use many::{Said, Stopped, Taken};
#[cfg(feature = "book")]
pub use marks::{Marks, PLACE_BYTES};
pub use message::{CancelReject, Message, PriceSource, Report, RequestKind, ToVenue};
#[cfg(feature = "book")]
pub use needs::Needs;
#[cfg(feature = "book")]
pub use net::{NetLine, NET_BYTES, NET_SCRATCH};
#[cfg(feature = "book")]
pub use page::{Page, PAGE_BYTES};
pub use read::{explain_record, BadRecord, RecordFault};
#[cfg(feature = "book")]
pub use shelf::{Batch, Shelf};
pub use text::{OwnedEvent, TextError};
#[cfg(feature = "book")]
pub use view::{GatewayCancel, Order, Pending, Request};
pub use words::{FixedText, Reason, RiskReject, Words};
