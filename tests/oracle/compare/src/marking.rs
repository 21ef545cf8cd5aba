//! The stand-in's `set_mark` and `return_to_mark`, place by place and byte by byte, with faults that can be planted: one for
//! each near reading of change request 10 that a library can have.

use model::codes::is_done;
use model::machine::BOOK_BYTES;

use crate::layout::{self, Book};
use crate::marks::{NAME, PLACE};

#[derive(Debug, Clone, Copy, PartialEq, Eq)]
pub enum MarkFault {
    /// 13 is asked before 1.
    ThirteenBeforeOne,
    /// 14 and 15 are asked before 13.
    ThirteenLast,
    /// A return does not ask 1: it would rescue a damaged book.
    ReturnsFromBroken,
    /// A set does not ask 1: it marks a damaged book.
    SetsBroken,
    /// NONE is no name.
    NoneRefused,
    /// A name has at most 15 characters.
    FifteenAtMost,
    /// A name may have 17 characters.
    SeventeenTaken,
    /// An empty name is one.
    EmptyTaken,
    /// Zeros at the end of a name are cut.
    ZerosCut,
    /// A name may have any character.
    AnyCharacter,
    /// Case does not count.
    Caseless,
    /// A place is of each name that its own begins with.
    ByPrefix,
    /// A place's name ends at its first zero.
    ByFirstZero,
    /// A place is free if its first byte is zero.
    FreeByFirstByte,
    /// A place is free if its name is malformed.
    FreeWhereMalformed,
    /// A free place has no byte in its image.
    FreeIsEmpty,
    /// A mark goes to a free place before one of its name.
    FreeFirst,
    /// A mark does not go to a place of its name whose image is damaged.
    PastDamaged,
    /// A mark goes to the last place of its name.
    LastOfName,
    /// A mark goes to every place of its name.
    EveryOfName,
    /// A mark that is set cannot be set again.
    SetOnce,
    /// 15 if no place is free, though one is of the name.
    FifteenWithoutFree,
    /// A last part that is shorter than a place is one.
    LastPartTaken,
    /// A set writes the records in use alone.
    SetsUsed,
    /// A refused set writes the first byte.
    RefusedSetWrites,
    /// A return takes the first place of its name or none.
    FirstOrNone,
    /// A return takes a damaged image.
    TakesDamaged,
    /// A return takes an image whose counts are within their tables.
    RulesByCounts,
    /// A return takes the last place of its name.
    ReturnsToLast,
    /// A return to a free place that has an image.
    ReturnsToFree,
    /// A return writes the records in use alone.
    ReturnsUsed,
    /// A return leaves the report sequences where they were.
    KeepsSequence,
    /// A return leaves a done order done.
    KeepsDone,
    /// A return leaves the setting.
    KeepsSetting,
    /// A return counts the image's tries from its requests.
    RecountsTries,
    /// A return leaves orders and requests that the image lacks.
    KeepsLater,
    /// A mark that was returned to is free.
    UsedUp,
    /// A return puts the book in the image's place.
    Swaps,
    /// A refused return writes the book's last byte.
    RefusedReturnWrites,
}

impl MarkFault {
    pub const ALL: [Self; 39] = [
        Self::ThirteenBeforeOne,
        Self::ThirteenLast,
        Self::ReturnsFromBroken,
        Self::SetsBroken,
        Self::NoneRefused,
        Self::FifteenAtMost,
        Self::SeventeenTaken,
        Self::EmptyTaken,
        Self::ZerosCut,
        Self::AnyCharacter,
        Self::Caseless,
        Self::ByPrefix,
        Self::ByFirstZero,
        Self::FreeByFirstByte,
        Self::FreeWhereMalformed,
        Self::FreeIsEmpty,
        Self::FreeFirst,
        Self::PastDamaged,
        Self::LastOfName,
        Self::EveryOfName,
        Self::SetOnce,
        Self::FifteenWithoutFree,
        Self::LastPartTaken,
        Self::SetsUsed,
        Self::RefusedSetWrites,
        Self::FirstOrNone,
        Self::TakesDamaged,
        Self::RulesByCounts,
        Self::ReturnsToLast,
        Self::ReturnsToFree,
        Self::ReturnsUsed,
        Self::KeepsSequence,
        Self::KeepsDone,
        Self::KeepsSetting,
        Self::RecountsTries,
        Self::KeepsLater,
        Self::UsedUp,
        Self::Swaps,
        Self::RefusedReturnWrites,
    ];
}

/// The two calls with a fault or none, and question 1.
pub struct Marking<'a> {
    pub fault: Option<MarkFault>,
    pub keeps: &'a dyn Fn(&[u8]) -> bool,
}

impl Marking<'_> {
    fn has(&self, fault: MarkFault) -> bool {
        self.fault == Some(fault)
    }

    fn well_formed(&self, name: &[u8]) -> bool {
        let name = self.cut(name);
        let most = match self.fault {
            Some(MarkFault::FifteenAtMost) => 15,
            Some(MarkFault::SeventeenTaken) => 17,
            _ => 16,
        };
        let least = usize::from(!self.has(MarkFault::EmptyTaken));
        let mut letters = true;
        for &byte in name {
            letters &= byte.is_ascii_alphabetic() || byte.is_ascii_digit();
        }
        (least..=most).contains(&name.len())
            && (letters || self.has(MarkFault::AnyCharacter))
            && !(self.has(MarkFault::NoneRefused) && name == b"NONE")
    }

    fn cut<'n>(&self, name: &'n [u8]) -> &'n [u8] {
        let end = name.iter().rposition(|&byte| byte != 0).map_or(0, |last| last + 1);
        if self.has(MarkFault::ZerosCut) { &name[..end] } else { name }
    }

    /// Whether a place's name is this one.
    fn is_of(&self, place: &[u8], name: &[u8]) -> bool {
        let name = self.cut(name);
        let (place, length) = (&place[..NAME], name.len().min(NAME));
        let (front, rest) = place.split_at(length);
        match self.fault {
            Some(MarkFault::ByPrefix) => front == name,
            Some(MarkFault::ByFirstZero) => place.split(|&byte| byte == 0).next() == Some(name),
            Some(MarkFault::Caseless) => front.eq_ignore_ascii_case(name) && is_zero(rest),
            _ => front == name && is_zero(rest),
        }
    }

    fn is_free(&self, place: &[u8]) -> bool {
        match self.fault {
            Some(MarkFault::FreeByFirstByte) => place[0] == 0,
            Some(MarkFault::FreeWhereMalformed) => {
                let end = place[..NAME].iter().rposition(|&byte| byte != 0).map_or(0, |last| last + 1);
                !self.well_formed(&place[..end])
            }
            Some(MarkFault::FreeIsEmpty) => is_zero(place),
            _ => is_zero(&place[..NAME]),
        }
    }

    /// The number of the first question that is answered with no.
    fn refusal(&self, broken: bool, malformed: bool, none: Option<u32>) -> Option<u32> {
        let mut questions = [(broken, 1), (malformed, 13), (none.is_some(), none.unwrap_or(0))];
        match self.fault {
            Some(MarkFault::ThirteenBeforeOne) => questions.swap(0, 1),
            Some(MarkFault::ThirteenLast) => questions.swap(1, 2),
            _ => {}
        }
        questions.into_iter().find(|(no, _)| *no).map(|(_, number)| number)
    }

    pub fn set(&self, book: &[u8], name: &[u8], places: &mut [u8]) -> u32 {
        let broken = match self.fault {
            Some(MarkFault::SetsBroken) => book.len() != BOOK_BYTES,
            _ => !(self.keeps)(book),
        };
        let found = self.set_places(name, places);
        let none = found.is_empty().then_some(15);
        if let Some(number) = self.refusal(broken, !self.well_formed(name), none) {
            if let (true, Some(first)) = (self.has(MarkFault::RefusedSetWrites), places.first_mut()) {
                *first ^= 1;
            }
            return number;
        }
        for at in found {
            let end = places.len().min(at + PLACE);
            self.write(&mut places[at..end], book, self.cut(name));
        }
        0
    }

    fn write(&self, place: &mut [u8], book: &[u8], name: &[u8]) {
        let (front, image) = place.split_at_mut(NAME.min(place.len()));
        for (at, byte) in front.iter_mut().enumerate() {
            *byte = name.get(at).copied().unwrap_or(0);
        }
        if self.has(MarkFault::SetsUsed) {
            Book::read(book).write(image);
        } else {
            image.iter_mut().zip(book).for_each(|(byte, of_book)| *byte = *of_book);
        }
    }

    /// Where a mark goes: one place, or none; with a fault more.
    fn set_places(&self, name: &[u8], places: &[u8]) -> Vec<usize> {
        let (mut own, mut free) = (Vec::new(), Vec::new());
        let mut at = 0;
        while at + PLACE <= places.len() {
            let place = &places[at..at + PLACE];
            let passed = self.has(MarkFault::PastDamaged) && !(self.keeps)(&place[NAME..]);
            if self.is_of(place, name) && !passed {
                own.push(at);
            } else if self.is_free(place) {
                free.push(at);
            }
            at += PLACE;
        }
        let part = &places[at..];
        if self.has(MarkFault::LastPartTaken) && part.len() >= NAME {
            let kind = if self.is_of(part, name) { &mut own } else { &mut free };
            kind.extend((self.is_of(part, name) || self.is_free(part)).then_some(at));
        }
        match self.fault {
            Some(MarkFault::FreeFirst) => free.extend(own),
            Some(MarkFault::SetOnce) if !own.is_empty() => free.clear(),
            Some(MarkFault::FifteenWithoutFree) if free.is_empty() => {}
            Some(MarkFault::EveryOfName) if !own.is_empty() => return own,
            Some(MarkFault::LastOfName) if !own.is_empty() => free = own.split_off(own.len() - 1),
            _ => free = own.into_iter().chain(free).collect(),
        }
        free.truncate(1);
        free
    }

    pub fn return_to(&self, book: &mut [u8], name: &[u8], places: &mut [u8]) -> u32 {
        let broken = match self.fault {
            Some(MarkFault::ReturnsFromBroken) => book.len() != BOOK_BYTES,
            _ => !(self.keeps)(book),
        };
        let found = self.return_place(name, places);
        let none = found.is_none().then_some(14);
        if let Some(number) = self.refusal(broken, !self.well_formed(name), none) {
            if let (true, Some(last)) = (self.has(MarkFault::RefusedReturnWrites), book.last_mut()) {
                *last ^= 1;
            }
            return number;
        }
        let at = found.expect("a place was found");
        let before = book.to_vec();
        let (front, image) = places[at..at + PLACE].split_at_mut(NAME);
        match self.fault {
            Some(MarkFault::ReturnsUsed) => Book::read(image).write(book),
            _ => book.iter_mut().zip(&*image).for_each(|(byte, of_image)| *byte = *of_image),
        }
        self.keep(&before, book);
        match self.fault {
            Some(MarkFault::UsedUp) => front.fill(0),
            Some(MarkFault::Swaps) => image.copy_from_slice(&before),
            _ => {}
        }
        0
    }

    fn return_place(&self, name: &[u8], places: &[u8]) -> Option<usize> {
        let (mut found, mut at) = (None, 0);
        while at + PLACE <= places.len() {
            let place = &places[at..at + PLACE];
            let image = &place[NAME..];
            let own = self.is_of(place, name) || self.has(MarkFault::ReturnsToFree) && self.is_free(place);
            let taken = match self.fault {
                Some(MarkFault::TakesDamaged) => true,
                Some(MarkFault::RulesByCounts) => {
                    let header = layout::Header::read(image);
                    header.orders <= 64 && header.requests <= 256
                }
                _ => (self.keeps)(image),
            };
            let first = found.is_none() || self.has(MarkFault::ReturnsToLast);
            if own && taken && first {
                found = Some(at);
            }
            if own && self.has(MarkFault::FirstOrNone) {
                return found;
            }
            at += PLACE;
        }
        found
    }

    /// What the fault leaves of the book as it was before a return.
    fn keep(&self, before: &[u8], bytes: &mut [u8]) {
        let faults = [MarkFault::KeepsSequence, MarkFault::KeepsDone, MarkFault::KeepsSetting];
        let others = [MarkFault::RecountsTries, MarkFault::KeepsLater];
        if !faults.iter().chain(&others).any(|&fault| self.has(fault)) {
            return;
        }
        let (was, mut book) = (Book::read(before), Book::read(bytes));
        let gateways = |index: usize, book: &Book| {
            let ours = |request: &&layout::Request| request.kind == layout::GATEWAY_CANCEL;
            book.requests.iter().filter(ours).filter(|request| request.order == index as u64).count() as u64
        };
        for index in 0..book.orders.len() {
            let tries = gateways(index, &book);
            let order = &mut book.orders[index];
            let same = was.orders.iter().find(|other| other.name == order.name);
            match (self.fault, same) {
                (Some(MarkFault::KeepsSequence), Some(same)) => {
                    order.exec_seq = order.exec_seq.max(same.exec_seq)
                }
                (Some(MarkFault::KeepsDone), Some(same)) if is_done(same.status as u8) => {
                    order.status = same.status
                }
                (Some(MarkFault::RecountsTries), _) if order.stage != layout::NONE => order.tries = tries,
                _ => {}
            }
        }
        match self.fault {
            Some(MarkFault::KeepsSetting) => book.header.setting = was.header.setting,
            Some(MarkFault::KeepsLater) if was.orders.len() > book.orders.len() => book = was,
            _ => {}
        }
        book.write(bytes);
    }
}

fn is_zero(bytes: &[u8]) -> bool {
    bytes.iter().all(|&byte| byte == 0)
}
