//! The functions of libfix.a, and the one place of `fix` with unsafe code. Rests on include/fix.h (docs/FIX.md).

use super::Header;
use crate::error::Refusal;

/// The most fields of a message that the library tells of.
pub(super) const FIELDS: usize = 32;

mod c {
    use super::FIELDS;

    #[repr(C)]
    pub struct Written {
        pub refusal: u32,
        pub length: u64,
    }

    #[repr(C)]
    pub struct FixFields {
        pub refusal: u32,
        pub count: u32,
        pub tag: [u32; FIELDS],
        pub at: [u64; FIELDS],
        pub length: [u64; FIELDS],
    }

    #[repr(C)]
    pub struct Place {
        pub refusal: u32,
        pub at: u32,
        pub length: u32,
    }

    extern "C" {
        #[link_name = "jubafiye_fix_write"]
        pub fn fix_write(
            record: *const u8,
            record_len: usize,
            sender: *const u8,
            sender_len: usize,
            target: *const u8,
            target_len: usize,
            sequence: u64,
            time: *const u8,
            time_len: usize,
            out: *mut u8,
            out_len: usize,
        ) -> Written;
        #[link_name = "jubafiye_fix_read"]
        pub fn fix_read(message: *const u8, message_len: usize) -> FixFields;
        #[link_name = "jubafiye_message_at"]
        pub fn message_at(answer: *const u8, answer_len: usize, n: u32) -> Place;
    }
}

/// Writes a message to the front of a buffer and gives its length; a refused call has changed nothing.
#[allow(unsafe_code)]
pub(super) fn write(record: &[u8], header: &Header<'_>, out: &mut [u8]) -> Result<usize, Refusal> {
    let Header { sender, target, sequence, time } = *header;
    // SAFETY: five slices, each with its own length; `out` overlaps none of them, since it is lent as `&mut`.
    let written = unsafe {
        c::fix_write(
            record.as_ptr(),
            record.len(),
            sender.as_ptr(),
            sender.len(),
            target.as_ptr(),
            target.len(),
            sequence,
            time.as_ptr(),
            time.len(),
            out.as_mut_ptr(),
            out.len(),
        )
    };
    Refusal::of(written.refusal)?;
    // A length that is past the address space is past any buffer.
    Ok(usize::try_from(written.length).unwrap_or(usize::MAX))
}

/// The fields of a message, in their order: tag and value; nothing in place of one that is past the message.
#[allow(unsafe_code)]
pub(super) fn read(message: &[u8]) -> Result<impl Iterator<Item = (u32, Option<&[u8]>)>, Refusal> {
    // SAFETY: the pointer and the length are those of one slice, which the function only reads.
    let found = unsafe { c::fix_read(message.as_ptr(), message.len()) };
    Refusal::of(found.refusal)?;
    let count = usize::try_from(found.count).unwrap_or(usize::MAX);
    let places = found.tag.into_iter().zip(found.at.into_iter().zip(found.length));
    Ok(places.take(count).map(|(tag, (at, length))| (tag, part(message, at, length))))
}

/// The record of message `n` of an answer; nothing if the answer has no such message.
#[allow(unsafe_code)]
pub(super) fn message_at(answer: &[u8], n: u32) -> Result<Option<&[u8]>, Refusal> {
    // SAFETY: the pointer and the length are those of one slice, which the function only reads.
    let place = unsafe { c::message_at(answer.as_ptr(), answer.len(), n) };
    Refusal::of(place.refusal)?;
    Ok(part(answer, place.at.into(), place.length.into()).filter(|record| !record.is_empty()))
}

/// So many bytes from there on, if they are there.
fn part(bytes: &[u8], at: u64, length: u64) -> Option<&[u8]> {
    let (at, length) = (usize::try_from(at).ok()?, usize::try_from(length).ok()?);
    bytes.get(at..)?.get(..length)
}
