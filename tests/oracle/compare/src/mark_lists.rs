//! The lists of returns.rs: every pair of kinds of places, every kind of name, books and buffers of odd lengths, the lists by
//! which near readings of change request 10 are false, and lists drawn by chance.

use lists::random::Random;
use lists::{Generator, Item, draw, profile};
use model::Machine;
use model::events::{self, Filled, Named};
use model::machine::BOOK_BYTES;
use model::record::Draft;

use crate::layout::{Book, open_at};
use crate::marks::{self, Call, NAME, PLACE, filled};
use crate::mirror::{self, Sending};
use crate::returns::{Marked, Odd, Step};
use crate::{books, layout};

const SETTING: u32 = 10_000;

/// Names that are ones, and some that are none.
const NAMES: [&[u8]; 27] = [
    b"A",
    b"a",
    b"Z",
    b"z",
    b"0",
    b"9",
    b"AB",
    b"NONE",
    b"none",
    b"SIXTEENletters16",
    b"1234567890123456",
    b"/",
    b":",
    b"@",
    b"[",
    b"`",
    b"{",
    b"SEVENTEENletters1",
    b"",
    b"\0",
    b"A\0",
    b"\0A",
    b"A-1",
    b"A ",
    b"\xc4",
    b"A\xe9",
    &[0; NAME],
];

/// All lists without chance.
pub fn fixed() -> Vec<Marked> {
    let mut lists = near();
    lists.extend([odd_names(), odd_books(), no_places(), whole_day()]);
    lists.extend(every_pair());
    lists
}

fn event(draft: &Draft) -> Step {
    Step::Event(Item { record: draft.bytes(), answer_buffer: 1_024 })
}

fn set(name: &[u8], buffer: usize) -> Step {
    Step::Mark(Call::Set, name.to_vec(), buffer)
}

fn return_to(name: &[u8], buffer: usize) -> Step {
    Step::Mark(Call::Return, name.to_vec(), buffer)
}

fn place(name: &[u8], image: &[u8]) -> Vec<u8> {
    let mut place = name.to_vec();
    place.resize(NAME, 0);
    place.extend(image);
    place
}

// ---- images

/// A book that events lead to, one that was built, and the empty one of no setting, all whose bytes are zero.
fn good() -> [Vec<u8>; 3] {
    let reached = books::reached(profile::named("mixed").expect("a profile"), 5, 40);
    [reached, books::random(&mut Random::new(11)), vec![0; BOOK_BYTES]]
}

/// The same book with more orders than there are, and with an open quantity that is off by one.
fn bad() -> [Vec<u8>; 2] {
    let [reached, ..] = good();
    let (mut full, mut off) = (reached.clone(), reached);
    full[0] = 0xFF;
    off[open_at(0).start] ^= 1;
    [full, off]
}

// ---- places

/// A place of each kind: free, of a name with a good image or a bad one, and of nobody.
fn kinds() -> Vec<Vec<u8>> {
    let [reached, built, zero] = good();
    let [full, off] = bad();
    let bytes: Vec<u8> = (0..BOOK_BYTES).map(|at| (at * 7 + 1) as u8).collect();
    let mut far = place(b"A", &reached);
    far[NAME - 1] = 1;
    vec![
        place(b"", &zero),
        place(b"", &reached),
        place(b"", &bytes),
        place(b"A", &reached),
        place(b"A", &built),
        place(b"A", &zero),
        place(b"A", &full),
        place(b"A", &off),
        place(b"a", &reached),
        place(b"AB", &built),
        place(b"\0A", &reached),
        place(b"A\0B", &built),
        place(b"SEVENTEENletters1", &reached),
        place(b"A-1", &built),
        far,
    ]
}

/// What may stand behind the last whole place: nothing, or bytes that begin a place of that name or a free one.
fn parts() -> Vec<Vec<u8>> {
    let [reached, ..] = good();
    let (own, free) = (place(b"A", &reached), place(b"", &reached));
    vec![vec![], vec![0], own[..NAME].to_vec(), own[..PLACE - 1].to_vec(), free[..PLACE - 1].to_vec()]
}

/// Two places of every two kinds: a return, a set and a return again; and three of one kind and another.
fn every_pair() -> Vec<Marked> {
    let (kinds, parts) = (kinds(), parts());
    let list = |(at, first): (usize, &Vec<u8>)| {
        let buffer = |(number, second): (usize, &Vec<u8>)| {
            let part = &parts[(at + number) % parts.len()];
            let third = if (at * kinds.len() + number) % 4 == 0 { &second[..] } else { &[] };
            [first, &second[..], third, part].concat()
        };
        let buffers: Vec<Vec<u8>> = kinds.iter().enumerate().map(buffer).collect();
        let calls = |buffer: usize| [return_to(b"A", buffer), set(b"A", buffer), return_to(b"A", buffer)];
        let steps = booked().into_iter().chain((0..buffers.len()).flat_map(calls)).collect();
        Marked { setting: SETTING, buffers, steps }
    };
    kinds.iter().enumerate().map(list).collect()
}

/// Every name, on places of some of them and a free one.
fn odd_names() -> Marked {
    let [reached, built, _] = good();
    let long = [vec![b'A'; 257], [&b"A"[..], &[0; NAME - 1]].concat(), vec![b'A'; 65_537]];
    let names: Vec<Vec<u8>> = NAMES.iter().map(|name| name.to_vec()).chain(long).collect();
    let own = |name: &Vec<u8>| if name.len() <= NAME { place(name, &reached) } else { place(b"A", &built) };
    let buffers: Vec<Vec<u8>> =
        names.iter().map(|name| [own(name), place(b"", &built), place(b"A", &built)].concat()).collect();
    let calls = names.iter().enumerate().flat_map(|(at, name)| [return_to(name, at), set(name, at)]);
    Marked { setting: SETTING, buffers, steps: booked().into_iter().chain(calls).collect() }
}

/// Damaged books and books of another length: 1 comes before all else.
fn odd_books() -> Marked {
    let [reached, ..] = good();
    let buffers = vec![[place(b"A", &reached), place(b"", &reached)].concat(), Vec::new()];
    let odd = [
        Odd::Byte(0, 0xFF),
        Odd::Byte(2, 0),
        Odd::Byte(open_at(0).start, 1),
        Odd::Byte(layout::UNUSED_AT + 9, 0x33),
        Odd::Length(0),
        Odd::Length(1),
        Odd::Length(BOOK_BYTES - 1),
        Odd::Length(BOOK_BYTES + 1),
    ];
    let mut steps = booked();
    for odd in odd {
        for name in [&b"A"[..], b"B", b"", b"A-1"] {
            for (call, buffer) in [(Call::Set, 0), (Call::Return, 0), (Call::Set, 1), (Call::Return, 1)] {
                steps.push(Step::OnOther(call, name.to_vec(), buffer, odd));
            }
        }
    }
    Marked { setting: SETTING, buffers, steps }
}

/// Buffers without a place: 15 and 14, or 13.
fn no_places() -> Marked {
    let mut steps = booked();
    for buffer in 0..parts().len() {
        for name in [&b"A"[..], b"B", b"", b"A-1"] {
            steps.extend([return_to(name, buffer), set(name, buffer)]);
        }
    }
    Marked { setting: SETTING, buffers: parts(), steps }
}

// ---- lists about one order

fn named() -> Named {
    Named { client: 1, symbol: b"S".to_vec(), side: b'1' }
}

fn book(name: &[u8], cl_ord_id: &[u8]) -> Step {
    event(&events::book(1, &named(), name, cl_ord_id, 100, Some(10)))
}

fn report(exec_type: u8, status: u8, cum_qty: u64) -> Step {
    // LastQty stands with a fill alone: with no rise the report would be stale.
    let last_qty = if exec_type == b'F' { 10 } else { 0 };
    let filled = Filled { last_qty, last_px: 10, cum_qty, avg_px: 10 };
    event(&events::report(1, b"A", exec_type, Some(status), filled))
}

fn nine() -> Step {
    event(&events::gateway_cancel(b"A"))
}

fn failed(downstream: &[u8]) -> Step {
    event(&events::send_failed(1, downstream, b"down"))
}

fn refused(downstream: &[u8], reason: u32) -> Step {
    event(&events::cancel_reject(1, downstream, None, Some(reason)))
}

fn cancel() -> Step {
    event(&events::cancel(&named(), b"c2", b"c1"))
}

/// An order named A, acknowledged.
fn booked() -> Vec<Step> {
    vec![book(b"A", b"c1"), report(b'0', b'0', 0)]
}

/// The lists by which near readings are false: events, a mark, events, a return, events.
fn near() -> Vec<Marked> {
    let again = || event(&events::send_again(1, b"A-1"));
    let lists: Vec<[Vec<Step>; 3]> = vec![
        [vec![nine()], vec![], vec![again()]],
        [vec![nine()], vec![], vec![failed(b"A-1")]],
        [vec![cancel(), nine()], vec![], vec![failed(b"A-1"), nine()]],
        [vec![nine(), refused(b"A-1", 1)], vec![], vec![nine()]],
        [vec![nine(), failed(b"A-1")], vec![], vec![again()]],
        [vec![nine()], vec![], vec![refused(b"A-1", 99)]],
        [vec![], vec![nine()], vec![nine()]],
        [vec![report(b'F', b'1', 40)], vec![report(b'F', b'1', 90)], vec![report(b'F', b'1', 70)]],
        [vec![], vec![report(b'4', b'4', 0)], vec![report(b'F', b'1', 70)]],
        [vec![report(b'4', b'4', 0)], vec![book(b"B", b"b")], vec![book(b"B", b"b"), report(b'F', b'1', 70)]],
        [vec![nine()], vec![refused(b"A-1", 99), refused(b"A-2", 99)], vec![refused(b"A-1", 99)]],
    ];
    let marked = |[before, between, after]: [Vec<Step>; 3]| {
        let (mark, back) = (vec![set(b"M", 0)], vec![return_to(b"M", 0)]);
        let steps = [booked(), before, mark, between, back, after].concat();
        Marked { setting: SETTING, buffers: vec![vec![0; PLACE]], steps }
    };
    lists.into_iter().map(marked).collect()
}

/// Marks set over one another, returned to from books of other settings, and a damaged one set anew.
fn whole_day() -> Marked {
    let steps = vec![
        vec![set(b"empty", 0)],
        booked(),
        vec![set(b"M", 0), nine(), failed(b"A-1"), set(b"N", 0), nine(), set(b"M2", 0)],
        vec![report(b'F', b'1', 40), report(b'4', b'4', 40), book(b"B", b"b"), return_to(b"M", 0)],
        vec![book(b"B", b"b"), nine(), refused(b"A-1", 0), return_to(b"N", 0), nine(), return_to(b"M2", 0)],
        vec![Step::Start(7), set(b"M2", 0), return_to(b"M", 0), set(b"M2", 0), return_to(b"empty", 0)],
        vec![Step::Fill(0, 2 * PLACE + NAME, vec![0xFF; 2]), return_to(b"N", 0), set(b"N", 0)],
        booked(),
        vec![return_to(b"N", 0), set(b"other", 0)],
    ];
    Marked { setting: SETTING, buffers: vec![vec![0; 3 * PLACE + NAME]], steps: steps.concat() }
}

// ---- by chance

/// Draws a list: what it needs to know of the book is the model's.
struct Drawing {
    random: Random,
    generator: Generator,
    sending: Sending,
    buffers: Vec<Vec<u8>>,
    /// How many names were drawn when a mark was set.
    fresh: Vec<u64>,
    steps: Vec<Step>,
}

/// The list of that seed, of so many steps.
pub fn drawn(seed: u64, steps: usize) -> Marked {
    let mut random = Random::new(seed ^ 0x6D61_726B);
    let generator = Generator::new(profile::any(seed), seed);
    let buffers: Vec<Vec<u8>> = (0..2).map(|_| buffer(&mut random)).collect();
    let (first, setting) = (buffers.clone(), generator.setting());
    let (sending, fresh) = (Sending::default(), vec![0]);
    let mut drawing = Drawing { random, generator, sending, buffers, fresh, steps: Vec::new() };
    while drawing.steps.len() < steps {
        drawing.step();
    }
    Marked { setting, buffers: first, steps: drawing.steps }
}

/// A buffer of up to three places, most of them free.
fn buffer(random: &mut Random) -> Vec<u8> {
    let mut bytes = Vec::new();
    for _ in 0..random.range(1, 3) {
        bytes.extend(if random.chance(60) { vec![0; PLACE] } else { any_place(random) });
    }
    bytes.extend(random.pick(&parts()));
    bytes
}

/// A place with any name and any image.
fn any_place(random: &mut Random) -> Vec<u8> {
    let name = any_name(random);
    let image = match random.below(5) {
        0 => books::random(random),
        1 => (0..BOOK_BYTES / 8).flat_map(|_| random.next().to_le_bytes()).collect(),
        2 => good()[random.below(3) as usize].clone(),
        3 => bad()[random.below(2) as usize].clone(),
        _ => books::reached(profile::any(random.next()), random.next(), 60),
    };
    place(&name[..name.len().min(NAME)], &image)
}

/// Mostly one of few names.
fn any_name(random: &mut Random) -> Vec<u8> {
    match random.below(20) {
        0 => random.pick(&NAMES).to_vec(),
        1 => draw::any_text(random, 0, 20),
        2 => {
            let length = random.range(1, 17);
            draw::order_name(random, length)
        }
        _ => random.pick(&[&b"A"[..], b"a", b"AB"]).to_vec(),
    }
}

impl Drawing {
    fn step(&mut self) {
        match self.random.below(100) {
            0..=7 => self.mark(Call::Set),
            8..=17 => self.mark(Call::Return),
            18..=20 => self.on_other(),
            21..=24 => self.fill(),
            25 if self.random.chance(30) => self.start(),
            _ => {
                let item = self.generator.next_item();
                self.sending.follow(self.generator.machine());
                self.steps.push(Step::Event(item));
            }
        }
    }

    fn buffer(&mut self) -> usize {
        self.random.below(self.buffers.len() as u64) as usize
    }

    /// The book, but for bytes that no field has.
    fn book(&self) -> Vec<u8> {
        let mut bytes = vec![0; BOOK_BYTES];
        mirror::book(self.generator.machine(), &self.sending).write(&mut bytes);
        bytes
    }

    fn mark(&mut self, call: Call) {
        let (name, buffer, book) = (any_name(&mut self.random), self.buffer(), self.book());
        if let Ok(at) = marks::right(call, &book, &name, &self.buffers[buffer]) {
            match call {
                Call::Set => {
                    self.buffers[buffer][at..at + PLACE].copy_from_slice(&place(&filled(&name), &book));
                    self.fresh.push(self.generator.fresh());
                }
                Call::Return => {
                    let image = Book::read(&self.buffers[buffer][at + NAME..at + PLACE]);
                    let (machine, sending) = mirror::machine(&image);
                    self.go_on(machine, sending);
                }
            }
        }
        self.steps.push(Step::Mark(call, name, buffer));
    }

    /// Goes on with another book; often with names that were drawn before.
    fn go_on(&mut self, machine: Machine, sending: Sending) {
        let fresh =
            if self.random.chance(60) { *self.random.pick(&self.fresh) } else { self.generator.fresh() };
        self.generator.go_on(machine, fresh);
        self.sending = sending;
    }

    fn on_other(&mut self) {
        let call = if self.random.chance(50) { Call::Set } else { Call::Return };
        let (name, buffer) = (any_name(&mut self.random), self.buffer());
        let odd = match self.random.below(3) {
            0 => Odd::Length(self.random.below(2 * BOOK_BYTES as u64) as usize),
            _ => Odd::Byte(self.random.below(50_000) as usize, self.random.next() as u8),
        };
        self.steps.push(Step::OnOther(call, name, buffer, odd));
    }

    /// The host fills a place anew, or changes a byte of one.
    fn fill(&mut self) {
        let buffer = self.buffer();
        let count = (self.buffers[buffer].len() / PLACE) as u64;
        let at = self.random.below(count) as usize * PLACE;
        let (at, bytes) = match self.random.below(4) {
            0 | 1 => (at, any_place(&mut self.random)),
            2 => (at, vec![0; NAME]),
            // A count of orders that no table has, or a byte of the name.
            _ => (at + self.random.pick(&[NAME, 0, 1, 20]), vec![self.random.next() as u8 | 0x80]),
        };
        self.buffers[buffer][at..at + bytes.len()].copy_from_slice(&bytes);
        self.steps.push(Step::Fill(buffer, at, bytes));
    }

    fn start(&mut self) {
        let setting = self.random.below(300) as u32;
        self.go_on(Machine::start(setting), Sending::default());
        self.steps.push(Step::Start(setting));
    }
}
