//! What can go wrong with a journal. Nothing is overwritten in any of these cases.

use std::fmt;
use std::path::PathBuf;

use jubafiye::BadAnswer;
use rusqlite::ErrorCode;

/// Why a journal was not made, not opened or not written.
/// ```
/// use desk::{Error, Journal};
///
/// let why = Journal::open("no/such.journal").err().unwrap();
/// assert!(matches!(why, Error::NotThere(_)));
/// assert_eq!(why.to_string(), "no/such.journal is not there");
/// ```
#[derive(Debug)]
#[non_exhaustive]
pub enum Error {
    /// A new journal was asked for where a file is.
    AlreadyThere(PathBuf),
    /// No file is there.
    NotThere(PathBuf),
    /// Another process has it open.
    InUse,
    /// The file, or its folder, may not be written.
    ReadOnly,
    /// The disk is full. What was to be written is not, and nothing of it was sent.
    Full,
    /// The file is no journal of this crate.
    NotAJournal,
    /// The journal is of another version: the one that it has, and the one that is read here.
    Version {
        /// What the file has.
        found: i64,
        /// What is read here.
        wanted: i64,
    },
    /// The file was cut or changed: what, and where.
    Damaged(String),
    /// The library answers an event of the journal otherwise than when it was taken: it is of another version.
    AnswersOtherwise {
        /// The event's number.
        seq: u64,
    },
    /// The library took an event, and its answer does not read.
    Unreadable(BadAnswer),
    /// An earlier error left open what is on the disk: the journal is to be opened again.
    Stopped,
    /// The disk or SQLite failed in another way.
    Sql(rusqlite::Error),
    /// The session did not take a message: the text that it gave.
    Session(String),
}

impl fmt::Display for Error {
    fn fmt(&self, f: &mut fmt::Formatter<'_>) -> fmt::Result {
        match self {
            Self::AlreadyThere(path) => {
                write!(f, "{} is there already, and is not overwritten", path.display())
            }
            Self::NotThere(path) => write!(f, "{} is not there", path.display()),
            Self::InUse => f.write_str("another process has the journal open"),
            Self::ReadOnly => f.write_str("the journal or its folder may not be written"),
            Self::Full => {
                f.write_str("the disk is full: the event was not taken, and nothing of it was sent")
            }
            Self::NotAJournal => f.write_str("the file is no journal of this desk"),
            Self::Version { found, wanted } => {
                write!(f, "the journal is of version {found}, and version {wanted} is read here")
            }
            Self::Damaged(what) => write!(f, "the journal is damaged: {what}"),
            Self::AnswersOtherwise { seq } => write!(
                f,
                "the library answers event {seq} otherwise than when it was taken: it is of another version"
            ),
            Self::Unreadable(bad) => write!(f, "{bad}"),
            Self::Stopped => f.write_str("an earlier error stopped the journal: open it again"),
            Self::Sql(error) => write!(f, "{error}"),
            Self::Session(why) => write!(f, "the session did not take a message: {why}"),
        }
    }
}

impl std::error::Error for Error {
    fn source(&self) -> Option<&(dyn std::error::Error + 'static)> {
        match self {
            Self::Sql(error) => Some(error),
            Self::Unreadable(bad) => Some(bad),
            _ => None,
        }
    }
}

impl From<BadAnswer> for Error {
    fn from(bad: BadAnswer) -> Self {
        Self::Unreadable(bad)
    }
}

impl From<rusqlite::Error> for Error {
    fn from(error: rusqlite::Error) -> Self {
        match error.sqlite_error_code() {
            Some(ErrorCode::DatabaseBusy | ErrorCode::DatabaseLocked) => Self::InUse,
            Some(ErrorCode::ReadOnly | ErrorCode::CannotOpen | ErrorCode::PermissionDenied) => Self::ReadOnly,
            Some(ErrorCode::DiskFull) => Self::Full,
            Some(ErrorCode::NotADatabase) => Self::NotAJournal,
            Some(ErrorCode::DatabaseCorrupt) => Self::Damaged(error.to_string()),
            _ => Self::Sql(error),
        }
    }
}
