//! Marks to come back to (change request 10): which place a call writes or takes, or its refusal, plainly from the bytes
//! and the second decision of the rules; and a library's `set_mark` and `return_to_mark` compared with it, byte for byte,
//! with guards around book, name and places.

use model::machine::BOOK_BYTES;

use crate::entries::Entries;
use crate::guards::{guarded, lend, same};
use crate::keeps::keeps;

/// A place: a name filled with zeros, then the image of a book.
pub const NAME: usize = 32;
pub const PLACE: usize = NAME + BOOK_BYTES;

#[derive(Debug, Clone, Copy, PartialEq, Eq, PartialOrd, Ord)]
pub enum Call {
    Set,
    Return,
}

/// A name as a place has it.
pub fn filled(name: &[u8]) -> [u8; NAME] {
    let mut filled = [0; NAME];
    filled[..name.len()].copy_from_slice(name);
    filled
}

/// The first byte of the place that a call writes or takes, or the refusal.
pub fn right(call: Call, book: &[u8], name: &[u8], places: &[u8]) -> Result<usize, u32> {
    if !keeps(book) {
        return Err(1);
    }
    if name.is_empty() || name.len() > 16 || !name.iter().all(u8::is_ascii_alphanumeric) {
        return Err(13);
    }
    let whole: Vec<&[u8]> = places.chunks_exact(PLACE).collect();
    let first = |test: &dyn Fn(&[u8]) -> bool| whole.iter().position(|place| test(place));
    let of_name = |place: &[u8]| place[..NAME] == filled(name);
    let free = |place: &[u8]| place[..NAME] == [0; NAME];
    let place = match call {
        Call::Set => first(&of_name).or_else(|| first(&free)).ok_or(15),
        Call::Return => first(&|place| of_name(place) && keeps(&place[NAME..])).ok_or(14),
    };
    place.map(|place| place * PLACE)
}

/// What a call must leave of book and places.
pub fn after(call: Call, book: &[u8], name: &[u8], places: &[u8], at: usize) -> (Vec<u8>, Vec<u8>) {
    let (mut book, mut places) = (book.to_vec(), places.to_vec());
    let place = &mut places[at..at + PLACE];
    match call {
        Call::Set => {
            place[..NAME].copy_from_slice(&filled(name));
            place[NAME..].copy_from_slice(&book);
        }
        Call::Return => book.copy_from_slice(&place[NAME..]),
    }
    (book, places)
}

/// Calls, and compares the refusal and every byte with what they must be; book and places are then what was left of them.
pub fn call(
    entries: &Entries,
    call: Call,
    book: &mut Vec<u8>,
    name: &[u8],
    places: &mut Vec<u8>,
) -> Result<u32, String> {
    let right = right(call, book, name, places);
    let (mut lent_book, mut lent_name, mut lent_places) = (guarded(book), guarded(name), guarded(places));
    let slices = (lend(&mut lent_book), lend(&mut lent_name), lend(&mut lent_places));
    let given = match call {
        Call::Set => entries.set_mark(slices.0, slices.1, slices.2),
        Call::Return => entries.return_to_mark(slices.0, slices.1, slices.2),
    };
    let refusal = right.err().unwrap_or(0);
    let found = |what: String| {
        let (whole, rest) = (places.len() / PLACE, places.len() % PLACE);
        let name = name.escape_ascii();
        format!("{call:?} of \"{name}\" on {whole} places and {rest} bytes: {what}")
    };
    if given != refusal {
        return Err(found(format!("should give {refusal}, gives {given}")));
    }
    let (book_after, places_after) = match right {
        Ok(at) => after(call, book, name, places, at),
        Err(_) => (book.clone(), places.clone()),
    };
    same("the book", &book_after, &lent_book).map_err(found)?;
    same("the places", &places_after, &lent_places).map_err(found)?;
    same("the name", name, &lent_name).map_err(found)?;
    (*book, *places) = (book_after, places_after);
    Ok(refusal)
}

#[cfg(test)]
mod tests {
    use super::*;

    /// A book that keeps its rules, empty with that setting, and one that does not.
    fn image(setting: u8) -> Vec<u8> {
        let mut image = vec![0; BOOK_BYTES];
        image[4] = setting;
        image
    }

    fn broken() -> Vec<u8> {
        vec![0xFF; BOOK_BYTES]
    }

    fn places(places: &[(&[u8], Vec<u8>)]) -> Vec<u8> {
        places.iter().flat_map(|(name, image)| [&filled(name)[..], image].concat()).collect()
    }

    /// The number of the place, or the refusal.
    fn at(call: Call, name: &[u8], places: &[u8]) -> Result<usize, u32> {
        right(call, &image(9), name, places).map(|at| at / PLACE)
    }

    #[test]
    fn a_mark_goes_to_the_first_place_of_its_name_else_to_the_first_free_one() {
        let free_first = places(&[(b"", image(1)), (b"A", image(2)), (b"A", image(3))]);
        assert_eq!(at(Call::Set, b"A", &free_first), Ok(1));
        assert_eq!(at(Call::Set, b"B", &free_first), Ok(0));
        let damaged = places(&[(b"A", broken()), (b"A", image(2)), (b"", broken())]);
        assert_eq!(at(Call::Set, b"A", &damaged), Ok(0));
        assert_eq!(at(Call::Set, b"B", &damaged), Ok(2));
        let nobodys = places(&[(b"A\0B", image(1)), (b"SEVENTEENletters1", image(2)), (b"\0A", image(3))]);
        assert_eq!(at(Call::Set, b"A", &nobodys), Err(15));
    }

    #[test]
    fn a_return_takes_the_first_of_its_name_whose_image_keeps_the_rules() {
        let damaged = places(&[(b"A", broken()), (b"A", image(2)), (b"A", image(3))]);
        assert_eq!(at(Call::Return, b"A", &damaged), Ok(1));
        assert_eq!(at(Call::Return, b"a", &damaged), Err(14));
        let nobodys = places(&[(b"A\0B", image(1)), (b"", image(2)), (b"AB", image(3))]);
        assert_eq!(at(Call::Return, b"A", &nobodys), Err(14));
    }

    #[test]
    fn a_last_part_is_no_place() {
        let whole = places(&[(b"A", image(1))]);
        for length in [0, 1, NAME, PLACE - 1] {
            assert_eq!(at(Call::Set, b"A", &whole[..length]), Err(15));
            assert_eq!(at(Call::Return, b"A", &whole[..length]), Err(14));
        }
    }

    #[test]
    fn questions_come_in_order() {
        assert_eq!(right(Call::Set, &broken(), b"", &[]), Err(1));
        assert_eq!(right(Call::Return, &image(1)[1..], b"-", &[]), Err(1));
        for name in [&b""[..], b"SEVENTEENletters1", b"A\0", b"\0", b"a b", b"\xc4"] {
            assert_eq!([at(Call::Set, name, &[]), at(Call::Return, name, &[])], [Err(13); 2]);
        }
        for name in [&b"NONE"[..], b"SIXTEENletters16", b"0", b"z"] {
            assert_eq!([at(Call::Set, name, &[]), at(Call::Return, name, &[])], [Err(15), Err(14)]);
        }
    }
}
