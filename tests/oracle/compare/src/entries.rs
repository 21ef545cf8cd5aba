//! The C entries: a library's, if one is linked, else the stand-in's.

pub type Start = unsafe extern "C" fn(*mut u8, usize, u32) -> u32;
pub type Event = unsafe extern "C" fn(*mut u8, usize, *const u8, usize, *mut u8, usize) -> u32;
pub type Check = unsafe extern "C" fn(*const u8, usize) -> u32;

pub type Page = unsafe extern "C" fn(*const u8, usize, *mut u8, usize) -> Counted;
pub type OpenQuantity = unsafe extern "C" fn(*const u8, usize, u16) -> Opened;
pub type NetPosition = unsafe extern "C" fn(*const u8, usize, *mut u64, usize, *mut u8, usize) -> Counted;
pub type SetMark = unsafe extern "C" fn(*const u8, usize, *const u8, usize, *mut u8, usize) -> u32;
pub type ReturnToMark = unsafe extern "C" fn(*mut u8, usize, *const u8, usize, *const u8, usize) -> u32;
pub type ChainCall = unsafe extern "C" fn(*const u8, usize, u16, *const u8, usize, *mut u8, usize) -> Counted;
pub type EventsCall = unsafe extern "C" fn(*mut u8, usize, *const u8, usize, *mut u8, usize) -> Ran;
pub type RetireCall = unsafe extern "C" fn(*mut u8, usize, *mut u8, usize) -> Counted;
pub type NeedsCall = unsafe extern "C" fn(*const u8, usize, *const u8, usize) -> Needs;

/// A refusal, or 0 and the number that was asked for.
#[repr(C)]
#[derive(Debug, Clone, Copy, PartialEq, Eq)]
pub struct Counted {
    pub refusal: u32,
    pub number: u32,
}

/// A refusal, or 0 and a client's open quantity.
#[repr(C)]
#[derive(Debug, Clone, Copy, PartialEq, Eq)]
pub struct Opened {
    pub refusal: u32,
    pub quantity: u64,
}

/// A refusal, or 0 and what many events in one call came to: how many were run, the bytes of the records that they took, and
/// the bytes of the answers that they wrote.
#[repr(C)]
#[derive(Debug, Clone, Copy, PartialEq, Eq, Default)]
pub struct Ran {
    pub refusal: u32,
    pub events: u64,
    pub read: u64,
    pub written: u64,
}

/// A refusal, or 0 and what an event will need: its answer's length, the message and request records that it adds, and
/// the fields of each message.
#[repr(C)]
#[derive(Debug, Clone, Copy, PartialEq, Eq, Default)]
pub struct Needs {
    pub refusal: u32,
    pub length: u32,
    pub messages: u32,
    pub requests: u32,
    pub fields_first: u32,
    pub fields_second: u32,
}

#[derive(Debug, Clone, Copy)]
pub struct Entries {
    pub start: Start,
    pub event: Event,
    pub events: EventsCall,
    pub check: Check,
    pub page: Page,
    pub open_quantity: OpenQuantity,
    pub net_position: NetPosition,
    pub needs: NeedsCall,
    pub set_mark: SetMark,
    pub return_to_mark: ReturnToMark,
    pub chain: ChainCall,
    pub retire: RetireCall,
}

// Each call lends whole slices for its time, which is all that an entry may touch.
impl Entries {
    pub fn start(&self, book: &mut [u8], setting: u32) -> u32 {
        unsafe { (self.start)(book.as_mut_ptr(), book.len(), setting) }
    }

    pub fn event(&self, book: &mut [u8], record: &[u8], answer: &mut [u8]) -> u32 {
        let (record, record_len) = (record.as_ptr(), record.len());
        unsafe {
            (self.event)(book.as_mut_ptr(), book.len(), record, record_len, answer.as_mut_ptr(), answer.len())
        }
    }

    /// Many records that cannot be written, as the bench has them.
    pub fn events_of(&self, book: &mut [u8], records: &[u8], answers: &mut [u8]) -> Ran {
        let (at, length) = (answers.as_mut_ptr(), answers.len());
        unsafe { (self.events)(book.as_mut_ptr(), book.len(), records.as_ptr(), records.len(), at, length) }
    }

    /// The records are lent as ones that may be written, so that a library that does is seen.
    pub fn events(&self, book: &mut [u8], records: &mut [u8], answers: &mut [u8]) -> Ran {
        let (at, length) = (answers.as_mut_ptr(), answers.len());
        unsafe {
            (self.events)(book.as_mut_ptr(), book.len(), records.as_mut_ptr(), records.len(), at, length)
        }
    }

    pub fn check(&self, book: &[u8]) -> u32 {
        unsafe { (self.check)(book.as_ptr(), book.len()) }
    }

    pub fn page(&self, book: &[u8], out: &mut [u8]) -> Counted {
        unsafe { (self.page)(book.as_ptr(), book.len(), out.as_mut_ptr(), out.len()) }
    }

    pub fn open_quantity(&self, book: &[u8], client: u16) -> Opened {
        unsafe { (self.open_quantity)(book.as_ptr(), book.len(), client) }
    }

    pub fn net_position(&self, book: &[u8], scratch: &mut [u64], lines: &mut [u8]) -> Counted {
        let (numbers, count) = (scratch.as_mut_ptr(), scratch.len());
        unsafe {
            (self.net_position)(book.as_ptr(), book.len(), numbers, count, lines.as_mut_ptr(), lines.len())
        }
    }

    /// The book is lent as one that may be written, so that a library that does is seen.
    pub fn needs(&self, book: &mut [u8], record: &[u8]) -> Needs {
        unsafe { (self.needs)(book.as_mut_ptr(), book.len(), record.as_ptr(), record.len()) }
    }

    /// All three are lent as slices that may be written, so that a library that does is seen.
    pub fn set_mark(&self, book: &mut [u8], name: &mut [u8], places: &mut [u8]) -> u32 {
        let (at, length) = (places.as_mut_ptr(), places.len());
        unsafe { (self.set_mark)(book.as_mut_ptr(), book.len(), name.as_mut_ptr(), name.len(), at, length) }
    }

    /// The same.
    pub fn return_to_mark(&self, book: &mut [u8], name: &mut [u8], places: &mut [u8]) -> u32 {
        let (at, length) = (places.as_mut_ptr(), places.len());
        unsafe {
            (self.return_to_mark)(book.as_mut_ptr(), book.len(), name.as_mut_ptr(), name.len(), at, length)
        }
    }

    /// The name is lent as one that may be written, so that a library that does is seen.
    pub fn chain(&self, book: &[u8], client: u16, name: &mut [u8], list: &mut [u8]) -> Counted {
        let (at, length) = (list.as_mut_ptr(), list.len());
        unsafe { (self.chain)(book.as_ptr(), book.len(), client, name.as_mut_ptr(), name.len(), at, length) }
    }

    pub fn retire(&self, book: &mut [u8], archive: &mut [u8]) -> Counted {
        let (at, length) = (archive.as_mut_ptr(), archive.len());
        unsafe { (self.retire)(book.as_mut_ptr(), book.len(), at, length) }
    }
}

#[cfg(library)]
mod linked {
    use super::{Counted, Needs, Opened, Ran};

    unsafe extern "C" {
        pub fn start(book: *mut u8, book_len: usize, setting: u32) -> u32;
        pub fn event(
            book: *mut u8,
            book_len: usize,
            record: *const u8,
            record_len: usize,
            answer: *mut u8,
            answer_len: usize,
        ) -> u32;
        pub fn events(
            book: *mut u8,
            book_len: usize,
            records: *const u8,
            records_len: usize,
            answers: *mut u8,
            answers_len: usize,
        ) -> Ran;
        pub fn check(book: *const u8, book_len: usize) -> u32;
        pub fn page(book: *const u8, book_len: usize, out: *mut u8, out_len: usize) -> Counted;
        pub fn open_quantity(book: *const u8, book_len: usize, client: u16) -> Opened;
        pub fn net_position(
            book: *const u8,
            book_len: usize,
            scratch: *mut u64,
            count: usize,
            lines: *mut u8,
            lines_len: usize,
        ) -> Counted;
        pub fn needs(book: *const u8, book_len: usize, record: *const u8, record_len: usize) -> Needs;
        pub fn set_mark(
            book: *const u8,
            book_len: usize,
            name: *const u8,
            name_len: usize,
            places: *mut u8,
            places_len: usize,
        ) -> u32;
        pub fn return_to_mark(
            book: *mut u8,
            book_len: usize,
            name: *const u8,
            name_len: usize,
            places: *const u8,
            places_len: usize,
        ) -> u32;
        pub fn chain(
            book: *const u8,
            book_len: usize,
            client: u16,
            name: *const u8,
            name_len: usize,
            list: *mut u8,
            list_len: usize,
        ) -> Counted;
        pub fn retire(book: *mut u8, book_len: usize, archive: *mut u8, archive_len: usize) -> Counted;
    }
}

/// The entries of the static library that this program was built with.
#[cfg(library)]
pub fn library() -> Option<Entries> {
    Some(Entries {
        start: linked::start,
        event: linked::event,
        events: linked::events,
        check: linked::check,
        page: linked::page,
        open_quantity: linked::open_quantity,
        net_position: linked::net_position,
        needs: linked::needs,
        set_mark: linked::set_mark,
        return_to_mark: linked::return_to_mark,
        chain: linked::chain,
        retire: linked::retire,
    })
}

#[cfg(not(library))]
pub fn library() -> Option<Entries> {
    None
}
