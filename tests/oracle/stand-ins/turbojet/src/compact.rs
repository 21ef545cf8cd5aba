//! Stand-in for `compact_str`'s string: up to 30 bytes stand in the value itself, longer ones on
//! the heap, so that the book's clones cost about what they cost in the gateway.

use std::borrow::Borrow;
use std::cmp::Ordering;
use std::fmt;
use std::hash::{Hash, Hasher};
use std::ops::Deref;

use serde::{Serialize, Serializer};

const INLINE: usize = 30;

#[derive(Clone)]
enum Held {
    Inline { len: u8, bytes: [u8; INLINE] },
    Heap(String),
}

#[derive(Clone)]
pub struct CompactString(Held);

impl CompactString {
    pub fn as_str(&self) -> &str {
        match &self.0 {
            // SAFETY: `push` copies whole `str`s, one after another, and counts their bytes.
            Held::Inline { len, bytes } => unsafe { std::str::from_utf8_unchecked(&bytes[..*len as usize]) },
            Held::Heap(text) => text,
        }
    }

    fn push(&mut self, more: &str) {
        match &mut self.0 {
            Held::Inline { len, bytes } if *len as usize + more.len() <= INLINE => {
                let start = *len as usize;
                bytes[start..start + more.len()].copy_from_slice(more.as_bytes());
                *len += more.len() as u8;
            }
            Held::Inline { .. } => self.0 = Held::Heap([self.as_str(), more].concat()),
            Held::Heap(text) => text.push_str(more),
        }
    }
}

impl Default for CompactString {
    fn default() -> Self {
        Self(Held::Inline { len: 0, bytes: [0; INLINE] })
    }
}

impl From<&str> for CompactString {
    fn from(text: &str) -> Self {
        let mut compact = Self::default();
        compact.push(text);
        compact
    }
}

impl FromIterator<char> for CompactString {
    fn from_iter<T: IntoIterator<Item = char>>(chars: T) -> Self {
        let mut compact = Self::default();
        chars.into_iter().for_each(|c| compact.push(c.encode_utf8(&mut [0; 4])));
        compact
    }
}

impl Deref for CompactString {
    type Target = str;

    fn deref(&self) -> &str {
        self.as_str()
    }
}

impl AsRef<str> for CompactString {
    fn as_ref(&self) -> &str {
        self
    }
}

impl Borrow<str> for CompactString {
    fn borrow(&self) -> &str {
        self
    }
}

impl PartialEq for CompactString {
    fn eq(&self, other: &Self) -> bool {
        self.as_str() == other.as_str()
    }
}

impl Eq for CompactString {}

impl PartialEq<str> for CompactString {
    fn eq(&self, other: &str) -> bool {
        self.as_str() == other
    }
}

impl PartialEq<&str> for CompactString {
    fn eq(&self, other: &&str) -> bool {
        self.as_str() == *other
    }
}

impl PartialEq<CompactString> for str {
    fn eq(&self, other: &CompactString) -> bool {
        self == other.as_str()
    }
}

impl PartialEq<CompactString> for &str {
    fn eq(&self, other: &CompactString) -> bool {
        *self == other.as_str()
    }
}

impl PartialOrd for CompactString {
    fn partial_cmp(&self, other: &Self) -> Option<Ordering> {
        Some(self.cmp(other))
    }
}

impl Ord for CompactString {
    fn cmp(&self, other: &Self) -> Ordering {
        self.as_str().cmp(other.as_str())
    }
}

impl Hash for CompactString {
    fn hash<H: Hasher>(&self, state: &mut H) {
        self.as_str().hash(state)
    }
}

impl fmt::Write for CompactString {
    fn write_str(&mut self, text: &str) -> fmt::Result {
        self.push(text);
        Ok(())
    }
}

impl fmt::Display for CompactString {
    fn fmt(&self, f: &mut fmt::Formatter<'_>) -> fmt::Result {
        f.write_str(self)
    }
}

impl fmt::Debug for CompactString {
    fn fmt(&self, f: &mut fmt::Formatter<'_>) -> fmt::Result {
        fmt::Debug::fmt(self.as_str(), f)
    }
}

impl Serialize for CompactString {
    fn serialize<S: Serializer>(&self, serializer: S) -> Result<S::Ok, S::Error> {
        serializer.serialize_str(self)
    }
}
