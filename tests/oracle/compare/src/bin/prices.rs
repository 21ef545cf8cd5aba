//! Writes tests/prices/vectors.bin: stored answers of the Rust's `fill_price`, asked through the
//! book's own report handling and each compared with the exact fraction; at an exact half the fraction
//! alone, rounded up. `prices FILE` writes the file, `prices --check FILE` compares one with what is
//! answered now.

use std::process::ExitCode;

use gateway::CompactString;
use gateway::book::oracle::client;
use gateway::book::{
    Book, ExecType, Input, OrdType, OrderId, OrderRequest, Output, Side, Status, VenueReport,
};
use lists::random::Random;
use model::numbers::{Fill, MAX_PRICE, MAX_QTY, Source, price, price_count, qty};

const SEED: u64 = 44;
const VECTORS: usize = 12_000;
const NEAR_HALF: usize = 4_400;
const NEAR_HALF_WIDE: usize = 1_400;
const WIDE: usize = 1_600;
const NOT_POSITIVE: usize = 900;
const NO_RISE: usize = 500;
const OWN_FILL: usize = 700;

fn main() -> ExitCode {
    let args: Vec<String> = std::env::args().skip(1).collect();
    let bytes = vectors();
    match args.iter().map(String::as_str).collect::<Vec<_>>()[..] {
        ["--check", file] => {
            let same = std::fs::read(file).is_ok_and(|stored| stored == bytes);
            println!("prices: {} vectors, {}", VECTORS, if same { "as stored" } else { "NOT as stored" });
            if same { ExitCode::SUCCESS } else { ExitCode::FAILURE }
        }
        [file] => {
            std::fs::write(file, bytes).unwrap_or_else(|error| panic!("{file}: {error}"));
            ExitCode::SUCCESS
        }
        _ => panic!("usage: prices [--check] FILE"),
    }
}

/// Whose answer a vector has: the Rust's, which the exact fraction confirms, or at an exact half the
/// fraction's, rounded up.
const BY_RUST: u64 = 0;
const HALF_UP: u64 = 1;

/// All vectors, 80 bytes each, after the counts that the file owes have been asserted.
fn vectors() -> Vec<u8> {
    let mut random = Random::new(SEED);
    let mut rust = Rust::new();
    let fills = fills(&mut random);
    assert_eq!(fills.len(), VECTORS);
    let mut bytes = Vec::new();
    let mut counts = Counts::default();
    for fill in &fills {
        let (price, told) = (fill.price(), rust.fill_price(fill));
        assert!(fill.at_half() || told == price, "the Rust and the exact fraction differ: {fill:?}");
        counts.add(fill, price);
        counts.other += usize::from(told != price);
        let Fill { last_qty, last_px, cum_qty, avg_px, old_cum_qty, old_avg_px } = *fill;
        for number in [last_qty, last_px, cum_qty, avg_px, old_cum_qty, old_avg_px, fill.rise()] {
            bytes.extend(number.to_le_bytes());
        }
        bytes.extend(price.to_le_bytes());
        bytes.extend(if fill.at_half() { HALF_UP } else { BY_RUST }.to_le_bytes());
    }
    assert!(counts.near_half * 3 >= VECTORS && counts.wide * 5 >= VECTORS, "{counts:?}");
    println!("prices: {VECTORS} vectors, all exact: {counts:?}");
    bytes
}

/// How many vectors took each way.
#[derive(Debug, Default)]
struct Counts {
    no_rise: usize,
    own_fill: usize,
    quotient: usize,
    average: usize,
    half: usize,
    near_half: usize,
    wide: usize,
    /// Of the halves, those that the Rust has otherwise.
    other: usize,
}

impl Counts {
    fn add(&mut self, fill: &Fill, price: u128) {
        let rest = rest_of(fill).filter(|_| !own_fill_told(fill));
        let (way, source) = match rest {
            _ if fill.rise() == 0 && fill.last_px > 0 => (&mut self.no_rise, Source::LastPx),
            _ if fill.rise() == 0 => (&mut self.no_rise, Source::Average),
            _ if own_fill_told(fill) => (&mut self.own_fill, Source::LastPx),
            Some(_) if positive(fill) => (&mut self.quotient, Source::Quotient),
            _ => (&mut self.average, Source::Average),
        };
        assert_eq!(fill.source(), source, "{fill:?}");
        *way += 1;
        let from_half = rest.filter(|_| fill.rise() > 1).map(|rest| (2 * rest).abs_diff(fill.rise()));
        assert_eq!(fill.at_half(), from_half == Some(0), "{fill:?}");
        self.half += usize::from(fill.at_half());
        self.near_half += usize::from(from_half.is_some_and(|distance| distance <= 2));
        self.wide += usize::from(price > u64::MAX.into());
    }
}

fn own_fill_told(fill: &Fill) -> bool {
    fill.rise() > 0 && fill.rise() == fill.last_qty && fill.last_px > 0
}

/// Whether the quotient rounds to more than 0.
fn positive(fill: &Fill) -> bool {
    amount(fill).is_some_and(|paid| paid * 2 >= fill.rise().into())
}

fn fills(random: &mut Random) -> Vec<Fill> {
    let mut fills = limits();
    for (count, draw) in [
        (NEAR_HALF, near_half as fn(&mut Random) -> Fill),
        (NEAR_HALF_WIDE, near_half_wide),
        (WIDE, wide),
        (NOT_POSITIVE, not_positive),
        (NO_RISE, no_rise),
        (OWN_FILL, own_fill),
    ] {
        fills.extend((0..count).map(|_| draw(random)));
    }
    while fills.len() < VECTORS {
        fills.push(any(random));
    }
    fills
}

/// Every choice of 0, 1 and the most, if a report could bring it.
fn limits() -> Vec<Fill> {
    let (qtys, prices) = ([0, 1, MAX_QTY], [0, 1, MAX_PRICE]);
    let mut fills = Vec::new();
    for n in 0..3_usize.pow(6) {
        let at = |place: u32| n / 3_usize.pow(place) % 3;
        fills.push(Fill {
            last_qty: qtys[at(0)],
            last_px: prices[at(1)],
            cum_qty: qtys[at(2)],
            avg_px: prices[at(3)],
            old_cum_qty: qtys[at(4)],
            old_avg_px: prices[at(5)],
        });
    }
    fills.retain(can_apply);
    fills
}

/// A report below the booked CumQty, or with a fill that does not raise it, is dropped before any
/// price is asked.
fn can_apply(fill: &Fill) -> bool {
    fill.cum_qty >= fill.old_cum_qty && (fill.rise() > 0 || fill.last_qty == 0)
}

fn any(random: &mut Random) -> Fill {
    loop {
        let fill = Fill {
            last_qty: random.magnitude(MAX_QTY),
            last_px: random.magnitude(MAX_PRICE),
            cum_qty: random.magnitude(MAX_QTY),
            avg_px: random.magnitude(MAX_PRICE),
            old_cum_qty: random.magnitude(MAX_QTY),
            old_avg_px: random.magnitude(MAX_PRICE),
        };
        if can_apply(&fill) && fill.rise() > 0 {
            return fill;
        }
    }
}

fn no_rise(random: &mut Random) -> Fill {
    let fill = any(random);
    let last_px = if random.chance(50) { 0 } else { fill.last_px };
    Fill { last_qty: 0, last_px, old_cum_qty: fill.cum_qty, ..fill }
}

/// The report's own fill, now and then without its price.
fn own_fill(random: &mut Random) -> Fill {
    let fill = any(random);
    let last_px = if random.chance(30) { 0 } else { fill.last_px };
    Fill { last_qty: fill.rise(), last_px, ..fill }
}

/// The old amount above the new, equal to it, or below it by about half the rise.
fn not_positive(random: &mut Random) -> Fill {
    if random.chance(50) {
        let fill = any(random);
        let old_avg_px = fill.avg_px.max(fill.old_avg_px);
        return Fill { last_px: 0, avg_px: fill.avg_px.min(fill.old_avg_px), old_avg_px, ..fill };
    }
    loop {
        let rise = (2 + random.magnitude(MAX_QTY / 8)) * 2;
        let old_cum_qty = 1 + random.magnitude(MAX_QTY / 4);
        let paid = *random.pick(&[0, 1, rise / 2 - 1, rise / 2, rise / 2 + 1]);
        if let Some(fill) = with_amount(old_cum_qty, rise, paid) {
            return fill;
        }
    }
}

/// Averages for which the new amount less the old is exactly `paid`.
fn with_amount(old_cum_qty: u64, rise: u64, paid: u64) -> Option<Fill> {
    let cum_qty = old_cum_qty + rise;
    let (new, old, paid) = (i128::from(cum_qty), i128::from(old_cum_qty), i128::from(paid));
    let avg_px = divided(paid, new, old)?;
    let old_avg_px = u64::try_from((new * avg_px - paid) / old).ok()?;
    let avg_px = u64::try_from(avg_px).ok()?;
    let fill = Fill { last_qty: 0, last_px: 0, cum_qty, avg_px, old_cum_qty, old_avg_px };
    (avg_px <= MAX_PRICE && old_avg_px <= MAX_PRICE).then_some(fill)
}

fn wide(random: &mut Random) -> Fill {
    let cum_qty = MAX_QTY - random.magnitude(MAX_QTY / 2);
    let rise = 1 + random.magnitude(1_000_000);
    Fill {
        last_qty: random.magnitude(MAX_QTY),
        last_px: 0,
        cum_qty,
        avg_px: MAX_PRICE - random.magnitude(MAX_PRICE / 2),
        old_cum_qty: cum_qty - rise,
        old_avg_px: random.magnitude(MAX_PRICE / 4),
    }
}

/// An exact half, or one unit of the amount beside it.
fn near_half(random: &mut Random) -> Fill {
    let rise = 3 + random.magnitude(MAX_QTY / 4);
    let rest = half_of(random, rise);
    loop {
        let cum_qty = rise + random.magnitude(MAX_QTY - rise);
        let old_avg_px = random.magnitude(MAX_PRICE);
        let low = random.magnitude(MAX_PRICE - rise);
        if let Some(fill) = with_rest(cum_qty, rise, old_avg_px, low, rest) {
            return fill;
        }
    }
}

fn near_half_wide(random: &mut Random) -> Fill {
    loop {
        let rise = 3 + random.magnitude(2_000_000);
        let rest = half_of(random, rise);
        let cum_qty = MAX_QTY - random.magnitude(MAX_QTY / 8);
        let low = MAX_PRICE / 2 + random.below(MAX_PRICE / 4);
        let old_avg_px = random.magnitude(MAX_PRICE / 8);
        if let Some(fill) = with_rest(cum_qty, rise, old_avg_px, low, rest) {
            return fill;
        }
    }
}

fn half_of(random: &mut Random, rise: u64) -> u64 {
    if rise.is_multiple_of(2) { rise / 2 - 1 + random.below(3) } else { rise / 2 + random.below(2) }
}

/// The lowest average from `low` on for which (new amount less old) leaves `rest` by `rise`.
fn with_rest(cum_qty: u64, rise: u64, old_avg_px: u64, low: u64, rest: u64) -> Option<Fill> {
    let old_cum_qty = cum_qty - rise;
    let (m, a) = (i128::from(rise), i128::from(cum_qty % rise));
    let old = i128::from(old_cum_qty) * i128::from(old_avg_px) % m;
    let from_low = (i128::from(rest) + old - a * i128::from(low)).rem_euclid(m);
    let steps = divided(from_low, a, m)?;
    let avg_px = low + u64::try_from(steps).ok()?;
    let fill = Fill { last_qty: 0, last_px: 0, cum_qty, avg_px, old_cum_qty, old_avg_px };
    (avg_px <= MAX_PRICE && rest_of(&fill) == Some(rest)).then_some(fill)
}

/// The least x with a * x = b modulo m.
fn divided(b: i128, a: i128, m: i128) -> Option<i128> {
    let (g, x) = gcd(a, m);
    (b % g == 0).then(|| (b / g * x).rem_euclid(m / g))
}

/// The greatest common divisor g of a and m, and x with a * x = g modulo m.
fn gcd(a: i128, m: i128) -> (i128, i128) {
    let (mut r, mut s) = ((a, m), (1, 0));
    while r.1 != 0 {
        let q = r.0 / r.1;
        r = (r.1, r.0 - q * r.1);
        s = (s.1, s.0 - q * s.1);
    }
    (r.0, s.0)
}

/// The new amount less the old, unless it is negative.
fn amount(fill: &Fill) -> Option<u128> {
    let new = u128::from(fill.cum_qty) * u128::from(fill.avg_px);
    new.checked_sub(u128::from(fill.old_cum_qty) * u128::from(fill.old_avg_px))
}

fn rest_of(fill: &Fill) -> Option<u64> {
    let rise = Some(u128::from(fill.rise())).filter(|&rise| rise > 0)?;
    Some((amount(fill)? % rise) as u64)
}

/// A book with one order, whose fill state is set before each question.
struct Rust {
    book: Book,
    order: OrderId,
}

impl Rust {
    fn new() -> Self {
        let mut book = Book::with_setting(1);
        let request = OrderRequest {
            cl_ord_id: "1".into(),
            account: None,
            symbol: "S".into(),
            side: Side::Buy,
            ord_type: OrdType::Market,
            qty: qty(MAX_QTY),
            price: None,
            ex_destination: None,
            time_in_force: None,
        };
        let order = book.enter("A".into(), client(1), "1".into(), request);
        Self { book, order }
    }

    fn fill_price(&mut self, fill: &Fill) -> u128 {
        let order = self.book.order_mut(self.order).expect("booked above");
        (order.status, order.cum_qty, order.avg_px) =
            (Status::PartiallyFilled, qty(fill.old_cum_qty), price(fill.old_avg_px));
        let report = VenueReport {
            downstream: "A".into(),
            exec_type: ExecType::Trade,
            status: None,
            last_qty: qty(fill.last_qty),
            last_px: price(fill.last_px),
            cum_qty: qty(fill.cum_qty),
            avg_px: price(fill.avg_px),
            exec_id: CompactString::default(),
            text: None,
            venue_order_id: None,
            ord_rej_reason: None,
        };
        let mut out = Vec::new();
        self.book.handle(Input::VenueReport { venue: "1".into(), report }, &mut out);
        self.book.discard_changes();
        match &out[..] {
            [Output::Report { report, .. }] => price_count(report.last_px),
            _ => panic!("{fill:?} is not told: {out:?}"),
        }
    }
}
