//! What keeps the proved order book through a crash: a [`Journal`] on SQLite with an outbox, and [`recipes`] for what the book leaves
//! to its host.
//!
//! ```
//! use desk::Journal;
//! use jubafiye::{Booking, Event, Qty, Side};
//!
//! # let folder = desk::doc_folder("lib");
//! let mut journal = Journal::create(folder.join("monday.journal"), 10_000)?;
//! let booking = Booking::new(7, 3, Side::Buy, Qty::units(100), b"WHEATH27").named(b"G1", b"C1");
//! let taken = journal.take(&Event::Book(booking).record())?;
//! assert!(taken.answer.is_ok());
//! // the event is on the disk, and so is what goes out: only now is it handed over
//! let handed = journal.hand_over(|outgoing| Ok::<(), std::io::Error>(println!("{}", outgoing.message)))?;
//! assert_eq!(handed, 1);
//! # Ok::<(), desk::Error>(())
//! ```

#![deny(missing_docs, unsafe_code)]

mod error;
mod journal;
pub mod recipes;
mod sum;

pub use error::Error;
pub use journal::{Journal, Kept, Outgoing, Taken, LAYOUT_VERSION, SNAPSHOT_EVERY};

/// A folder of its own for an example of the documentation.
#[doc(hidden)]
pub fn doc_folder(name: &str) -> std::path::PathBuf {
    let folder = std::env::temp_dir().join(format!("desk-doc-{name}-{}", std::process::id()));
    let _ = std::fs::remove_dir_all(&folder);
    let _ = std::fs::create_dir_all(&folder);
    folder
}
