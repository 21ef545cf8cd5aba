//! The C entries: a library's, if one is linked, else the stand-in's. Rests on the stand-in.

use crate::stand_in::STAND_IN;

#[repr(C)]
#[derive(Debug, Clone, Copy, PartialEq, Eq)]
pub struct Written {
    pub refusal: u32,
    pub length: u64,
}

#[repr(C)]
#[derive(Debug, Clone, Copy, PartialEq, Eq)]
pub struct FixFields {
    pub refusal: u32,
    pub count: u32,
    pub tag: [u32; 32],
    pub at: [u64; 32],
    pub length: [u64; 32],
}

impl FixFields {
    pub const NONE: Self = Self { refusal: 0, count: 0, tag: [0; 32], at: [0; 32], length: [0; 32] };
}

#[repr(C)]
#[derive(Debug, Clone, Copy, PartialEq, Eq)]
pub struct Place {
    pub refusal: u32,
    pub at: u32,
    pub length: u32,
}

pub type Write = unsafe extern "C" fn(
    *const u8,
    usize,
    *const u8,
    usize,
    *const u8,
    usize,
    u64,
    *const u8,
    usize,
    *mut u8,
    usize,
) -> Written;
pub type Read = unsafe extern "C" fn(*const u8, usize) -> FixFields;
pub type MessageAt = unsafe extern "C" fn(*const u8, usize, u32) -> Place;

#[derive(Debug, Clone, Copy)]
pub struct Entries {
    pub write: Write,
    pub read: Read,
    pub message_at: MessageAt,
}

// Each call lends whole slices for its time, which is all that an entry may touch.
impl Entries {
    pub fn write(
        &self,
        record: &[u8],
        sender: &[u8],
        target: &[u8],
        sequence: u64,
        time: &[u8],
        out: &mut [u8],
    ) -> Written {
        unsafe {
            (self.write)(
                pointer(record),
                record.len(),
                pointer(sender),
                sender.len(),
                pointer(target),
                target.len(),
                sequence,
                pointer(time),
                time.len(),
                if out.is_empty() { std::ptr::null_mut() } else { out.as_mut_ptr() },
                out.len(),
            )
        }
    }

    pub fn read(&self, message: &[u8]) -> FixFields {
        unsafe { (self.read)(pointer(message), message.len()) }
    }

    pub fn message_at(&self, answer: &[u8], number: u32) -> Place {
        unsafe { (self.message_at)(pointer(answer), answer.len(), number) }
    }
}

/// A slice of no length has no bytes, so that any pointer will do.
fn pointer(bytes: &[u8]) -> *const u8 {
    if bytes.is_empty() { std::ptr::null() } else { bytes.as_ptr() }
}

/// The entries that the linked library has, if one is linked; the stand-in's in place of others.
#[allow(clippy::needless_update)] // it is needed if an entry is lacking
pub const ENTRIES: Entries = Entries {
    #[cfg(library = "fix_write")]
    write: c::fix_write,
    #[cfg(library = "fix_read")]
    read: c::fix_read,
    #[cfg(library = "message_at")]
    message_at: c::message_at,
    ..STAND_IN
};

/// Who was asked, in words.
pub const ASKED: &str =
    match (cfg!(library = "fix_write"), cfg!(library = "fix_read"), cfg!(library = "message_at")) {
        (true, true, true) => "the library",
        (true, false, true) => "the library, and the stand-in for its reader",
        (false, false, false) => "the stand-in",
        _ => "the library, and the stand-in for what it lacks",
    };

#[cfg(any(library = "fix_write", library = "fix_read", library = "message_at"))]
mod c {
    unsafe extern "C" {
        #[cfg(library = "fix_write")]
        pub fn fix_write(
            record: *const u8,
            record_len: usize,
            sender: *const u8,
            sender_len: usize,
            target: *const u8,
            target_len: usize,
            sequence: u64,
            time: *const u8,
            time_len: usize,
            out: *mut u8,
            out_len: usize,
        ) -> super::Written;
        #[cfg(library = "fix_read")]
        pub fn fix_read(message: *const u8, message_len: usize) -> super::FixFields;
        #[cfg(library = "message_at")]
        pub fn message_at(answer: *const u8, answer_len: usize, number: u32) -> super::Place;
    }
}
