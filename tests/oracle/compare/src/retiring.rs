//! The stand-in's `retire`, by the rows' bytes, with faults that can be planted: one for each near reading of a retirement that a
//! library can have. It shares no code with the plain computation that it is compared with.

use std::ops::Range;

use model::codes::is_done;
use model::machine::{MOST_ORDERS, MOST_REQUESTS};

use crate::entries::Counted;
use crate::layout::{OPENS_AT, UNUSED_AT, open_at, order_at, request_at};

#[derive(Debug, Clone, Copy, PartialEq, Eq)]
pub enum RetireFault {
    /// The archive is not asked.
    ArchiveNotAsked,
    /// It is asked only if an order is done.
    ArchiveAskedIfDone,
    /// 16 is asked before 1.
    SixteenBeforeOne,
    /// 18 is asked before 17.
    EighteenBeforeSeventeen,
    /// Names alone are looked for in the archive.
    NamesAlone,
    /// ClOrdIDs alone are.
    ClOrdIdsAlone,
    /// Another client's ClOrdID counts as used.
    AnyClients,
    /// Live orders' names and ClOrdIDs count as well.
    LiveCount,
    /// Room is counted for orders alone.
    OrdersAlone,
    /// Room is counted for requests alone.
    RequestsAlone,
    /// 18 is said if all have just room.
    EighteenAtJustEnough,
    /// As many go as there is room for.
    SomeMove,
    /// A done order's later requests stay.
    FirstRequestsAlone,
    /// A live order that is filled goes too.
    LiveGoes,
    /// Canceled orders stay.
    CanceledStay,
    /// The orders that go come in front of what the archive holds.
    InFront,
    /// They go last first.
    LastFirst,
    /// A link to the current request is not moved.
    CurrentStays,
    /// Nor that to the latest cancel.
    CancelStays,
    /// Nor that to the pending replace.
    PendingStays,
    /// Nor what the gateway cancel names.
    NamedStays,
    /// What the gateway cancel names becomes the current request if it goes away.
    NamedCurrent,
    /// It becomes the latest of the gateway's cancels.
    NamedLatest,
    /// An origin is not moved.
    OriginStays,
    /// Links are moved by the number of orders that go.
    LinksByOrders,
    /// A request's order is not moved.
    OrderStays,
    /// Open quantities go with their rows.
    OpensWithRows,
    /// Words that say nothing stay.
    WordsStay,
    /// The rows that become free keep their bytes.
    RowsStay,
    /// The archive gets the book's setting.
    SettingGoes,
    /// The number counts requests.
    CountsRequests,
    /// A number stands beside a refusal.
    NumberBesideRefusal,
    /// A refused call has written the archive.
    RefusedWrites,
    /// With none done the words are cleared.
    NoneDoneWrites,
    /// An outcome is lost.
    OutcomeLost,
}

impl RetireFault {
    pub const ALL: [Self; 35] = [
        Self::ArchiveNotAsked,
        Self::ArchiveAskedIfDone,
        Self::SixteenBeforeOne,
        Self::EighteenBeforeSeventeen,
        Self::NamesAlone,
        Self::ClOrdIdsAlone,
        Self::AnyClients,
        Self::LiveCount,
        Self::OrdersAlone,
        Self::RequestsAlone,
        Self::EighteenAtJustEnough,
        Self::SomeMove,
        Self::FirstRequestsAlone,
        Self::LiveGoes,
        Self::CanceledStay,
        Self::InFront,
        Self::LastFirst,
        Self::CurrentStays,
        Self::CancelStays,
        Self::PendingStays,
        Self::NamedStays,
        Self::NamedCurrent,
        Self::NamedLatest,
        Self::OriginStays,
        Self::LinksByOrders,
        Self::OrderStays,
        Self::OpensWithRows,
        Self::WordsStay,
        Self::RowsStay,
        Self::SettingGoes,
        Self::CountsRequests,
        Self::NumberBesideRefusal,
        Self::RefusedWrites,
        Self::NoneDoneWrites,
        Self::OutcomeLost,
    ];
}

/// The call with a fault or none, and question 1.
pub struct Retiring<'a> {
    pub fault: Option<RetireFault>,
    pub keeps: &'a dyn Fn(&[u8]) -> bool,
}

/// Where an order's links stand in its row.
const CURRENT: usize = 215;
const CANCEL: usize = 217;
const PENDING: usize = 219;
const NAMED: usize = 241;
/// An order's status, and its quantities.
const STATUS: usize = 188;
const QTY: usize = 172;
const CUM_QTY: usize = 189;
/// A request's kind, its OrigClOrdID's length, its outcome and its origin.
const KIND: usize = 2;
const ORIG_LENGTH: usize = 69;
const OUTCOME: usize = 103;
const ORIGIN: usize = 104;

fn word(row: &[u8], at: usize) -> usize {
    usize::from(u16::from_le_bytes([row[at], row[at + 1]]))
}

fn put(row: &mut [u8], at: usize, word: usize) {
    row[at..at + 2].copy_from_slice(&(word as u16).to_le_bytes());
}

fn quantity(row: &[u8], at: usize) -> u64 {
    u64::from_le_bytes(row[at..at + 8].try_into().expect("eight bytes"))
}

/// A text of a row: its bytes and its length.
fn text(row: &[u8], at: usize) -> &[u8] {
    &row[at..at + usize::from(row[at + 32])]
}

/// A book's rows.
struct Rows {
    orders: Vec<Vec<u8>>,
    requests: Vec<Vec<u8>>,
}

impl Rows {
    fn of(book: &[u8]) -> Self {
        let rows = |count: usize, at: fn(usize) -> Range<usize>| {
            (0..count).map(|index| book[at(index)].to_vec()).collect()
        };
        Self { orders: rows(word(book, 0), order_at), requests: rows(word(book, 2), request_at) }
    }

    fn client(&self, request: &[u8]) -> usize {
        word(&self.orders[word(request, 0)], 0)
    }
}

impl Retiring<'_> {
    fn has(&self, fault: RetireFault) -> bool {
        self.fault == Some(fault)
    }

    /// Whether the order of that row goes.
    fn goes(&self, order: &[u8]) -> bool {
        let filled = quantity(order, CUM_QTY) == quantity(order, QTY);
        if self.has(RetireFault::CanceledStay) && order[STATUS] == b'4' {
            return false;
        }
        is_done(order[STATUS]) || (self.has(RetireFault::LiveGoes) && filled)
    }

    pub fn call(&self, book: &mut [u8], archive: &mut [u8]) -> Counted {
        let refused = |refusal: u32| {
            let number = u32::from(self.has(RetireFault::NumberBesideRefusal));
            Counted { refusal, number }
        };
        if let Some(refusal) = self.asked(book, archive) {
            return refused(refusal);
        }
        let rows = Rows::of(book);
        let goes: Vec<bool> = rows.orders.iter().map(|order| self.goes(order)).collect();
        if let Some(refusal) = self.unfit(&rows, &goes, archive) {
            if self.has(RetireFault::RefusedWrites) && archive.len() > UNUSED_AT {
                archive[UNUSED_AT] ^= 1;
            }
            return refused(refusal);
        }
        let number = goes.iter().filter(|goes| **goes).count();
        if !(self.keeps)(archive) {
            // Only with a fault, which the number shows.
            return Counted { refusal: 0, number: number as u32 };
        }
        if number == 0 {
            if self.has(RetireFault::NoneDoneWrites) {
                let behind = open_at(word(book, 0)).start;
                book[behind..UNUSED_AT].fill(0);
            }
            return Counted { refusal: 0, number: 0 };
        }
        let setting: [u8; 4] = book[4..8].try_into().expect("four bytes");
        let requests = rows.requests.iter().filter(|request| goes[word(request, 0)]).count();
        let words = book[OPENS_AT..UNUSED_AT].to_vec();
        self.moved(&rows, &goes, archive);
        self.emptied(book);
        let stays: Vec<bool> = goes.iter().map(|goes| !goes).collect();
        self.moved(&rows, &stays, book);
        if self.has(RetireFault::OpensWithRows) {
            let stay: Vec<usize> = (0..stays.len()).filter(|&index| stays[index]).collect();
            let kept = stay.iter().flat_map(|index| words[index * 8..][..8].to_vec()).collect::<Vec<u8>>();
            book[OPENS_AT..OPENS_AT + kept.len()].copy_from_slice(&kept);
        }
        if self.has(RetireFault::SettingGoes) {
            archive[4..8].copy_from_slice(&setting);
        }
        Counted {
            refusal: 0,
            number: (if self.has(RetireFault::CountsRequests) { requests } else { number }) as u32,
        }
    }

    /// Whether both are books that keep their rules.
    fn asked(&self, book: &[u8], archive: &[u8]) -> Option<u32> {
        let bad_book = !(self.keeps)(book);
        let any_done = || Rows::of(book).orders.iter().any(|order| self.goes(order));
        let idle = self.has(RetireFault::ArchiveAskedIfDone) && !bad_book && !any_done();
        let bad_archive = !idle && !self.has(RetireFault::ArchiveNotAsked) && !(self.keeps)(archive);
        let mut questions = [(bad_book, 1), (bad_archive, 16)];
        if self.has(RetireFault::SixteenBeforeOne) {
            questions.swap(0, 1);
        }
        questions.into_iter().find_map(|(no, number)| no.then_some(number))
    }

    /// Whether all that goes may stand in the archive, and has room there.
    fn unfit(&self, rows: &Rows, goes: &[bool], archive: &[u8]) -> Option<u32> {
        if !(self.keeps)(archive) {
            return None;
        }
        let there = Rows::of(archive);
        let counts = |order: usize| goes[order] || self.has(RetireFault::LiveCount);
        let named = (0..rows.orders.len())
            .filter(|&order| counts(order))
            .any(|order| there.orders.iter().any(|other| text(other, 4) == text(&rows.orders[order], 4)));
        let used = rows.requests.iter().filter(|request| counts(word(request, 0)) && request[KIND] != 3).any(
            |request| {
                there.requests.iter().any(|other| {
                    let alike = text(other, 4) == text(request, 4);
                    alike
                        && (self.has(RetireFault::AnyClients) || there.client(other) == rows.client(request))
                })
            },
        );
        let named = named && !self.has(RetireFault::ClOrdIdsAlone);
        let used = used && !self.has(RetireFault::NamesAlone);
        let more = usize::from(self.has(RetireFault::EighteenAtJustEnough));
        let orders = goes.iter().filter(|goes| **goes).count();
        let requests = rows.requests.iter().filter(|request| goes[word(request, 0)]).count();
        let no_room =
            there.orders.len() + orders + more > MOST_ORDERS && !self.has(RetireFault::RequestsAlone);
        let no_room = no_room
            || (there.requests.len() + requests + more > MOST_REQUESTS
                && !self.has(RetireFault::OrdersAlone));
        let mut questions = [(named || used, 17), (no_room && !self.has(RetireFault::SomeMove), 18)];
        if self.has(RetireFault::EighteenBeforeSeventeen) {
            questions.swap(0, 1);
        }
        questions.into_iter().find_map(|(no, number)| no.then_some(number))
    }

    /// No row in use, all of them zeros.
    fn emptied(&self, book: &mut [u8]) {
        if !self.has(RetireFault::RowsStay) {
            (0..word(book, 0)).for_each(|index| book[order_at(index)].fill(0));
            (0..word(book, 2)).for_each(|index| book[request_at(index)].fill(0));
        }
        book[..4].fill(0);
    }

    /// The rows of the orders that pass, behind what a book holds, and then all words.
    fn moved(&self, rows: &Rows, passes: &[bool], into: &mut [u8]) {
        let (orders, requests) = (word(into, 0), word(into, 2));
        let mut order: Vec<usize> = (0..rows.orders.len()).filter(|&index| passes[index]).collect();
        if self.has(RetireFault::LastFirst) {
            order.reverse();
        }
        order.truncate(MOST_ORDERS.saturating_sub(orders));
        let mine = |request: &Vec<u8>| {
            let first = request[KIND] == 0 || !self.has(RetireFault::FirstRequestsAlone);
            order.contains(&word(request, 0)) && first
        };
        let mut asked: Vec<usize> =
            (0..rows.requests.len()).filter(|&index| mine(&rows.requests[index])).collect();
        asked.truncate(MOST_REQUESTS.saturating_sub(requests));
        let link = |link: usize| match link {
            0 => 0,
            _ if self.has(RetireFault::LinksByOrders) => {
                link.saturating_sub(passes.iter().filter(|passes| !**passes).count()).max(1)
            }
            _ => asked.iter().position(|&index| index + 1 == link).map_or(0, |at| requests + at + 1),
        };
        for (at, &index) in order.iter().enumerate() {
            let row = self.order_row(rows, index, &link);
            into[order_at(orders + at)].copy_from_slice(&row);
        }
        for (at, &index) in asked.iter().enumerate() {
            let mut row = rows.requests[index].clone();
            row[106..].fill(0);
            let own = order.iter().position(|&order| order == word(&row, 0)).expect("an order that passes");
            if !self.has(RetireFault::OrderStays) {
                put(&mut row, 0, orders + own);
            }
            let origin = if row[ORIG_LENGTH] == 0 { 0 } else { word(&row, ORIGIN) };
            put(&mut row, ORIGIN, if self.has(RetireFault::OriginStays) { origin } else { link(origin) });
            if self.has(RetireFault::OutcomeLost) {
                row[OUTCOME] = row[OUTCOME].min(1);
            }
            into[request_at(requests + at)].copy_from_slice(&row);
        }
        put(into, 0, orders + order.len());
        put(into, 2, requests + asked.len());
        if self.has(RetireFault::InFront) && orders > 0 {
            self.turned(into, orders, order.len());
        }
        self.words(into);
    }

    fn order_row(&self, rows: &Rows, index: usize, link: &dyn Fn(usize) -> usize) -> Vec<u8> {
        let mut row = rows.orders[index].clone();
        row[247..].fill(0);
        let named = word(&row, NAMED);
        let own = |request: &&Vec<u8>| word(request, 0) == index && request[KIND] == 3;
        let of_gateway: Vec<usize> =
            (0..rows.requests.len()).filter(|&at| own(&&rows.requests[at])).map(|at| at + 1).collect();
        let mut other = of_gateway.first().copied();
        if self.has(RetireFault::NamedLatest) {
            other = of_gateway.last().copied();
        }
        if self.has(RetireFault::NamedCurrent) {
            other = None;
        }
        let other = other.unwrap_or(word(&row, CURRENT));
        let goes_along = named == 0 || link(named) != 0;
        if !self.has(RetireFault::NamedStays) {
            put(&mut row, NAMED, link(if goes_along { named } else { other }));
        }
        for (at, stays) in [
            (CURRENT, RetireFault::CurrentStays),
            (CANCEL, RetireFault::CancelStays),
            (PENDING, RetireFault::PendingStays),
        ] {
            let moved = link(word(&row, at));
            if !self.has(stays) {
                put(&mut row, at, moved);
            }
        }
        row
    }

    /// The orders behind the first `count` come in front of them.
    fn turned(&self, book: &mut [u8], count: usize, more: usize) {
        let (first, last) = (order_at(0).start, order_at(count + more).start);
        book[first..last].rotate_left(order_at(count).start - first);
        for request in 0..word(book, 2) {
            let row = &mut book[request_at(request)];
            let order = word(row, 0);
            put(row, 0, if order < count { order + more } else { order - count });
        }
    }

    fn words(&self, book: &mut [u8]) {
        let count = word(book, 0);
        let orders: Vec<Vec<u8>> = (0..count).map(|index| book[order_at(index)].to_vec()).collect();
        let open = |order: &Vec<u8>| match order[STATUS] {
            b'3' => 0,
            status if is_done(status) => 0,
            _ => quantity(order, QTY) - quantity(order, CUM_QTY),
        };
        for index in 0..MOST_ORDERS {
            let client = orders.get(index).map(|order| word(order, 0));
            let is_first = orders.iter().position(|order| Some(word(order, 0)) == client) == Some(index);
            let sum: u64 = orders.iter().filter(|order| Some(word(order, 0)) == client).map(open).sum();
            if is_first || !self.has(RetireFault::WordsStay) {
                let word = if is_first { sum } else { 0 };
                book[open_at(index)].copy_from_slice(&word.to_le_bytes());
            }
        }
    }
}
