//! Stand-in for `turbojet`: the session's name and the field types that the book uses.
//! `Decimal` is the real one of `rust_decimal`.

use std::fmt;

mod compact;

/// A FIX session, as the acceptor names it.
pub struct SessionId {
    pub target_comp_id: String,
}

impl fmt::Display for SessionId {
    fn fmt(&self, f: &mut fmt::Formatter<'_>) -> fmt::Result {
        f.write_str(&self.target_comp_id)
    }
}

pub mod fields {
    pub use rust_decimal::Decimal;

    pub use crate::compact::CompactString;
    pub use crate::format_compact;
}

/// `format!` to a `CompactString`.
#[macro_export]
macro_rules! format_compact {
    ($($arg:tt)*) => {{
        let mut text = $crate::fields::CompactString::default();
        std::fmt::Write::write_fmt(&mut text, format_args!($($arg)*)).expect("writing to memory");
        text
    }};
}
