//! The static library's functions, and the one place with unsafe code. Rests on include/gateway.h (docs/SCOPE.md, Entries).
//!
//! A further call of the library is three things: its C function in `c`, a safe function under it, and a method of `Book`.

use crate::error::Refusal;
pub(crate) use crate::layout::{BookBytes, BOOK_BYTES, ORDERS, REQUESTS};
use crate::needs::Needs;

/// The bytes that an answer buffer must have at least.
///
/// ```
/// use jubafiye::{Book, Event, Refusal, ANSWER_BYTES};
///
/// let record = Event::UnknownAtVenue { venue: 3, downstream: b"G1" }.record();
/// let mut book = Book::new(10_000);
/// assert_eq!(book.take_record_into(&record, &mut [0; ANSWER_BYTES])?, [5, 0, 0, 3, 0]);
/// assert_eq!(book.take_record_into(&record, &mut [0; ANSWER_BYTES - 1]), Err(Refusal::AnswerBuffer));
/// # Ok::<(), Refusal>(())
/// ```
pub const ANSWER_BYTES: usize = 1_024;

/// The most bytes that one of many events says, its refusal and an answer: a call goes on as long as there is room for it.
///
/// ```
/// use jubafiye::{Book, Refusal, ANSWER_BYTES, SAID_BYTES};
///
/// assert_eq!(SAID_BYTES, 1 + ANSWER_BYTES);
/// let short = Book::new(10_000).take_all(&[], &mut [0; SAID_BYTES - 1]).map(|taken| taken.events());
/// assert_eq!(short, Err(Refusal::AnswerBuffer));
/// ```
pub const SAID_BYTES: usize = 1_025;

/// A line of the evening page, with its line feed.
pub(crate) const PAGE_LINE: usize = 81;

/// A line of the net position, the lines of any book, and the numbers that the scratch must have at least.
pub(crate) const NET_LINE: usize = 27;
pub(crate) const NET_LINES: usize = NET_LINE * ORDERS;
pub(crate) const NET_NUMBERS: usize = 1;

/// A place of a mark: 32 bytes for a name, which has 16 letters at most, and the image of a book.
pub(crate) const MARK_NAME: usize = 32;
pub(crate) const MARK_LETTERS: usize = 16;
pub(crate) const MARK_PLACE: usize = MARK_NAME + BOOK_BYTES;

/// An entry of a chain: a ClOrdID as its length and 32 bytes, and an outcome.
pub(crate) const CHAIN_ENTRY: usize = 34;

/// The library's functions, in the copy with a prefix that build.rs links.
mod c {
    /// A refusal, or 0 and the number that was asked for.
    #[repr(C)]
    pub struct Counted {
        pub refusal: u32,
        pub number: u32,
    }

    /// A refusal, or 0 and a client's open quantity.
    #[repr(C)]
    pub struct Opened {
        pub refusal: u32,
        pub quantity: u64,
    }

    /// A refusal, or 0 and what many events in one call came to.
    #[repr(C)]
    pub struct Ran {
        pub refusal: u32,
        pub events: u64,
        pub read: u64,
        pub written: u64,
    }

    /// A refusal, or 0 and what an event will need.
    #[repr(C)]
    pub struct Needs {
        pub refusal: u32,
        pub length: u32,
        pub messages: u32,
        pub requests: u32,
        pub fields_first: u32,
        pub fields_second: u32,
    }

    extern "C" {
        #[link_name = "jubafiye_start"]
        pub fn start(book: *mut u8, book_len: usize, setting: u32) -> u32;
        #[link_name = "jubafiye_event"]
        pub fn event(
            book: *mut u8,
            book_len: usize,
            record: *const u8,
            record_len: usize,
            answer: *mut u8,
            answer_len: usize,
        ) -> u32;
        #[link_name = "jubafiye_events"]
        pub fn events(
            book: *mut u8,
            book_len: usize,
            records: *const u8,
            records_len: usize,
            answers: *mut u8,
            answers_len: usize,
        ) -> Ran;
        #[link_name = "jubafiye_check"]
        pub fn check(book: *const u8, book_len: usize) -> u32;
        #[link_name = "jubafiye_page"]
        pub fn page(book: *const u8, book_len: usize, out: *mut u8, out_len: usize) -> Counted;
        #[link_name = "jubafiye_open_quantity"]
        pub fn open_quantity(book: *const u8, book_len: usize, client: u16) -> Opened;
        #[link_name = "jubafiye_net_position"]
        pub fn net_position(
            book: *const u8,
            book_len: usize,
            scratch: *mut u64,
            count: usize,
            lines: *mut u8,
            lines_len: usize,
        ) -> Counted;
        #[link_name = "jubafiye_set_mark"]
        pub fn set_mark(
            book: *const u8,
            book_len: usize,
            name: *const u8,
            name_len: usize,
            places: *mut u8,
            places_len: usize,
        ) -> u32;
        #[link_name = "jubafiye_return_to_mark"]
        pub fn return_to_mark(
            book: *mut u8,
            book_len: usize,
            name: *const u8,
            name_len: usize,
            places: *const u8,
            places_len: usize,
        ) -> u32;
        #[link_name = "jubafiye_needs"]
        pub fn needs(book: *const u8, book_len: usize, record: *const u8, record_len: usize) -> Needs;
        #[link_name = "jubafiye_chain"]
        pub fn chain(
            book: *const u8,
            book_len: usize,
            client: u16,
            name: *const u8,
            name_len: usize,
            list: *mut u8,
            list_len: usize,
        ) -> Counted;
        #[link_name = "jubafiye_retire"]
        pub fn retire(book: *mut u8, book_len: usize, archive: *mut u8, archive_len: usize) -> Counted;
    }
}

/// Makes an empty book.
#[allow(unsafe_code)]
pub(crate) fn start(book: &mut BookBytes, setting: u32) -> Result<(), Refusal> {
    // SAFETY: the pointer and the length are those of one slice, lent for the call alone.
    Refusal::of(unsafe { c::start(book.as_mut_ptr(), book.len(), setting) })
}

/// Takes a record and writes the answer to the front of its buffer; a refused one has changed neither book nor buffer.
#[allow(unsafe_code)]
pub(crate) fn event(book: &mut BookBytes, record: &[u8], answer: &mut [u8]) -> Result<(), Refusal> {
    // SAFETY: three slices that do not overlap, since two of them are lent as `&mut`; each with its own length.
    Refusal::of(unsafe {
        c::event(
            book.as_mut_ptr(),
            book.len(),
            record.as_ptr(),
            record.len(),
            answer.as_mut_ptr(),
            answer.len(),
        )
    })
}

/// Runs many records, each after its length, and gives how many were run, the bytes of them that were read and those that were
/// written of the answers; a refused call has changed neither book nor answers.
#[allow(unsafe_code)]
pub(crate) fn events(
    book: &mut BookBytes,
    records: &[u8],
    answers: &mut [u8],
) -> Result<[usize; 3], Refusal> {
    // SAFETY: three slices that do not overlap, since two of them are lent as `&mut`; each with its own length.
    let ran = unsafe {
        c::events(
            book.as_mut_ptr(),
            book.len(),
            records.as_ptr(),
            records.len(),
            answers.as_mut_ptr(),
            answers.len(),
        )
    };
    Refusal::of(ran.refusal)?;
    // A number that is past the address space is past any buffer.
    Ok([ran.events, ran.read, ran.written].map(|number| usize::try_from(number).unwrap_or(usize::MAX)))
}

/// Whether a book keeps its rules.
#[allow(unsafe_code)]
pub(crate) fn check(book: &BookBytes) -> Result<(), Refusal> {
    // SAFETY: the pointer and the length are those of one slice, which the function only reads.
    Refusal::of(unsafe { c::check(book.as_ptr(), book.len()) })
}

/// Prints the evening page to the front of its buffer and gives its length; a refused call has changed nothing.
#[allow(unsafe_code)]
pub(crate) fn page(book: &BookBytes, out: &mut [u8]) -> Result<usize, Refusal> {
    // SAFETY: two slices that do not overlap, since one of them is lent as `&mut`; each with its own length.
    let counted = unsafe { c::page(book.as_ptr(), book.len(), out.as_mut_ptr(), out.len()) };
    Refusal::of(counted.refusal)?;
    // A number that is past the address space is past any buffer.
    Ok(usize::try_from(counted.number).unwrap_or(usize::MAX))
}

/// A client's open quantity, a count of 1/10,000.
#[allow(unsafe_code)]
pub(crate) fn open_quantity(book: &BookBytes, client: u16) -> Result<u64, Refusal> {
    // SAFETY: the pointer and the length are those of one slice, which the function only reads.
    let opened = unsafe { c::open_quantity(book.as_ptr(), book.len(), client) };
    Refusal::of(opened.refusal)?;
    Ok(opened.quantity)
}

/// Writes the net position to the front of its buffer and gives how many lines it has; a refused call has changed nothing.
#[allow(unsafe_code)]
pub(crate) fn net_position(
    book: &BookBytes,
    scratch: &mut [u64],
    lines: &mut [u8],
) -> Result<usize, Refusal> {
    // SAFETY: three slices that do not overlap, since two of them are lent as `&mut`; each with its own length.
    let counted = unsafe {
        c::net_position(
            book.as_ptr(),
            book.len(),
            scratch.as_mut_ptr(),
            scratch.len(),
            lines.as_mut_ptr(),
            lines.len(),
        )
    };
    Refusal::of(counted.refusal)?;
    // A number that is past the address space is past any buffer.
    Ok(usize::try_from(counted.number).unwrap_or(usize::MAX))
}

/// Sets a mark in a buffer of places; a refused call has changed nothing.
#[allow(unsafe_code)]
pub(crate) fn set_mark(book: &BookBytes, name: &[u8], places: &mut [u8]) -> Result<(), Refusal> {
    // SAFETY: three slices, of which the one that is written overlaps no other, since it is lent as `&mut`; each with its length.
    Refusal::of(unsafe {
        c::set_mark(book.as_ptr(), book.len(), name.as_ptr(), name.len(), places.as_mut_ptr(), places.len())
    })
}

/// Makes the book the image of a mark; a refused call has changed nothing.
#[allow(unsafe_code)]
pub(crate) fn return_to_mark(book: &mut BookBytes, name: &[u8], places: &[u8]) -> Result<(), Refusal> {
    // SAFETY: three slices, of which the one that is written overlaps no other, since it is lent as `&mut`; each with its length.
    Refusal::of(unsafe {
        c::return_to_mark(
            book.as_mut_ptr(),
            book.len(),
            name.as_ptr(),
            name.len(),
            places.as_ptr(),
            places.len(),
        )
    })
}

/// What the event in a record will need, or the refusal that it would get.
#[allow(unsafe_code)]
pub(crate) fn needs(book: &BookBytes, record: &[u8]) -> Result<Needs, Refusal> {
    // SAFETY: two slices, each with its own length, which the function only reads.
    let needs = unsafe { c::needs(book.as_ptr(), book.len(), record.as_ptr(), record.len()) };
    Refusal::of(needs.refusal)?;
    Ok(Needs {
        length: needs.length,
        messages: needs.messages,
        requests: needs.requests,
        fields_first: needs.fields_first,
        fields_second: needs.fields_second,
    })
}

/// Writes the chain of a ClOrdID to the front of its list and gives how many entries it has; a refused call has changed nothing.
#[allow(unsafe_code)]
pub(crate) fn chain(book: &BookBytes, client: u16, name: &[u8], list: &mut [u8]) -> Result<usize, Refusal> {
    // SAFETY: three slices, of which the one that is written overlaps no other, since it is lent as `&mut`; each with its length.
    let counted = unsafe {
        c::chain(book.as_ptr(), book.len(), client, name.as_ptr(), name.len(), list.as_mut_ptr(), list.len())
    };
    Refusal::of(counted.refusal)?;
    // A number that is past the address space is past any buffer.
    Ok(usize::try_from(counted.number).unwrap_or(usize::MAX))
}

/// Moves the done orders to the archive and gives how many they were; a refused call has changed nothing.
#[allow(unsafe_code)]
pub(crate) fn retire(book: &mut BookBytes, archive: &mut BookBytes) -> Result<u32, Refusal> {
    // SAFETY: two slices that do not overlap, since both are lent as `&mut`; each with its own length.
    let counted = unsafe { c::retire(book.as_mut_ptr(), book.len(), archive.as_mut_ptr(), archive.len()) };
    Refusal::of(counted.refusal)?;
    Ok(counted.number)
}
