//! `Debug` with names and texts as text, not as numbers. Rests on nothing.

use std::fmt::{self, Debug};

/// Bytes as a text in quotes, with what is not printable escaped.
pub(crate) struct Quoted<'a>(&'a [u8]);

impl Debug for Quoted<'_> {
    fn fmt(&self, f: &mut fmt::Formatter<'_>) -> fmt::Result {
        write!(f, "\"{}\"", self.0.escape_ascii())
    }
}

/// A field that is a name or a text.
pub(crate) trait Text {
    fn quoted(&self) -> impl Debug + '_;
}

impl Text for &[u8] {
    fn quoted(&self) -> impl Debug + '_ {
        Quoted(self)
    }
}

impl Text for Vec<u8> {
    fn quoted(&self) -> impl Debug + '_ {
        Quoted(self)
    }
}

impl<T: AsRef<[u8]>> Text for Option<T> {
    fn quoted(&self) -> impl Debug + '_ {
        self.as_ref().map(|text| Quoted(text.as_ref()))
    }
}

/// `Debug` of a struct, field by field; one that is marked `as text` is quoted.
macro_rules! shown {
    ($name:ident$(<$life:lifetime>)? { $($field:ident $(as $text:ident)?),* $(,)? }) => {
        impl std::fmt::Debug for $name$(<$life>)? {
            fn fmt(&self, f: &mut std::fmt::Formatter<'_>) -> std::fmt::Result {
                let mut all = f.debug_struct(stringify!($name));
                $($crate::show::shown!(@ all, self.$field $(, $text)?);)*
                all.finish()
            }
        }
    };
    (@ $all:ident, $self:ident.$field:ident) => {
        $all.field(stringify!($field), &$self.$field)
    };
    (@ $all:ident, $self:ident.$field:ident, text) => {
        $all.field(stringify!($field), &$crate::show::Text::quoted(&$self.$field))
    };
}

pub(crate) use shown;
