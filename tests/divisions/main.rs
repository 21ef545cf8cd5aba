//! The two divisions of `wide` and the price of a fill, which is what ships, called as C functions, against
//! 128-bit integers, and their time.
//! `divisions [INPUTS [ROUNDS]]`: README.md says what is drawn and what is measured.

use std::hint::black_box;
use std::process::ExitCode;

/// The divisions in a round of the bench.
const MILLION: usize = 1_000_000;

/// Two words, the low one first, as the library returns them.
#[repr(C)]
#[derive(Clone, Copy)]
struct Words([u64; 2]);

/// A price in two words and its source, as the library returns them.
#[repr(C)]
#[derive(Clone, Copy)]
struct Price {
    words: Words,
    source: u64,
}

#[link(name = "try_divisions", kind = "static")]
unsafe extern "C" {
    fn divide_plain(n: u64, d: u64) -> u64;
    fn divide_long(low: u64, high: u64, d: u64) -> Words;
    fn divide_either(low: u64, high: u64, d: u64) -> Words;
    fn price_of(
        lastqty: u64,
        lastpx: u64,
        cumqty: u64,
        avgpx: u64,
        oldcum: u64,
        oldavg: u64,
        rise: u64,
    ) -> Price;
}

// The entries take any numbers and touch no memory.
fn plain(n: u64, d: u64) -> u64 {
    unsafe { divide_plain(n, d) }
}

fn long(n: u128, d: u64) -> u128 {
    number(unsafe { divide_long(n as u64, (n >> 64) as u64, d) })
}

fn either(n: u128, d: u64) -> u128 {
    number(unsafe { divide_either(n as u64, (n >> 64) as u64, d) })
}

fn price(fill: &Fill) -> (u128, u64) {
    let &Fill { lastqty, lastpx, cumqty, avgpx, oldcum, oldavg, rise } = fill;
    let Price { words, source } = unsafe { price_of(lastqty, lastpx, cumqty, avgpx, oldcum, oldavg, rise) };
    (number(words), source)
}

fn number(Words([low, high]): Words) -> u128 {
    u128::from(low) | u128::from(high) << 64
}

/// `n / d` to the nearest, a half up; 0 if `d` is 0.
fn exact(n: u128, d: u64) -> u128 {
    let d = u128::from(d);
    if d == 0 { 0 } else { n / d + u128::from(n % d * 2 >= d) }
}

/// Wrong divisions that the inputs must tell from the exact one.
const FAULTS: [(&str, fn(u128, u64) -> u128); 5] = [
    ("a half to the even digit", |n, d| {
        let (whole, twice, d) = parts(n, d);
        whole + u128::from(twice > d || twice == d && whole % 2 == 1)
    }),
    ("truncated", |n, d| parts(n, d).0),
    ("no half and yet up", |n, d| parts(n, d).0 + u128::from(parts(n, d).1 > 0)),
    ("the rest's double in one word", |n, d| {
        let (whole, twice, d) = parts(n, d);
        whole + u128::from(u128::from(twice as u64) >= d)
    }),
    ("the single word where the high word is 1", |n, d| match n >> 64 {
        1 => exact(n & u128::from(u64::MAX), d),
        _ => exact(n, d),
    }),
];

/// The whole quotient, twice the rest, and the divisor; 0, 0 and 1 for a divisor of 0.
fn parts(n: u128, d: u64) -> (u128, u128, u128) {
    match u128::from(d) {
        0 => (0, 0, 1),
        d => (n / d, n % d * 2, d),
    }
}

/// splitmix64.
struct Random(u64);

impl Random {
    fn next(&mut self) -> u64 {
        self.0 = self.0.wrapping_add(0x9E37_79B9_7F4A_7C15);
        let mut z = self.0;
        z = (z ^ (z >> 30)).wrapping_mul(0xBF58_476D_1CE4_E5B9);
        z = (z ^ (z >> 27)).wrapping_mul(0x94D0_49BB_1331_11EB);
        z ^ (z >> 31)
    }

    fn below(&mut self, most: u64) -> u64 {
        self.next() % most
    }

    /// A number of any length in bits, at times the least or the largest of it.
    fn word(&mut self) -> u64 {
        let bits = self.below(65) as u32;
        let most = u64::MAX.checked_shr(64 - bits).unwrap_or(0);
        match self.below(8) {
            0 => most,
            1 => most / 2 + 1,
            _ => self.next() & most,
        }
    }

    /// A divisor: at times 0, and often one whose highest bit is set, so that a rest's double may
    /// pass one word.
    fn divisor(&mut self) -> u64 {
        match self.below(50) {
            0 => 0,
            1..10 => self.next() | 1 << 63,
            _ => self.word(),
        }
    }
}

/// An input: of 30 ten beside a half, six at the border of one word, the rest of any length.
fn draw(random: &mut Random, at: usize) -> (u128, u64) {
    match at % 30 {
        0..10 => beside_half(random, at % 2 == 0),
        10..16 => {
            let n = (1_u128 << 64) - 4 + u128::from(random.below(8));
            (n, random.divisor())
        }
        kind => {
            let high = if kind % 2 == 0 { 0 } else { random.word() };
            (u128::from(high) << 64 | u128::from(random.word()), random.divisor())
        }
    }
}

/// A dividend that leaves half of its divisor, or one less, or one more; of one word if asked.
fn beside_half(random: &mut Random, one_word: bool) -> (u128, u64) {
    loop {
        let d = random.divisor().max(2);
        let most = if one_word { u64::MAX / d } else { u64::MAX };
        let whole = u128::from(random.word().min(most));
        let rest = if d % 2 == 0 { d / 2 - 1 + random.below(3) } else { d / 2 + random.below(2) };
        let n = whole * u128::from(d) + u128::from(rest);
        if !one_word || n >> 64 == 0 {
            return (n, d);
        }
    }
}

/// What was drawn.
#[derive(Default)]
struct Counts {
    inputs: usize,
    beside_half: usize,
    border: usize,
    one_word: usize,
    by_zero: usize,
    double_over: usize,
}

impl Counts {
    fn add(&mut self, n: u128, d: u64) {
        let (_, twice, _) = parts(n, d);
        self.inputs += 1;
        self.beside_half += usize::from(d > 1 && twice.abs_diff(d.into()) <= 2);
        self.border += usize::from(n.abs_diff(1 << 64) <= 4);
        self.one_word += usize::from(n >> 64 == 0);
        self.by_zero += usize::from(d == 0);
        self.double_over += usize::from(twice >> 64 != 0);
    }
}

/// What the price of a fill is asked with.
#[derive(Clone, Copy, Debug)]
struct Fill {
    lastqty: u64,
    lastpx: u64,
    cumqty: u64,
    avgpx: u64,
    oldcum: u64,
    oldavg: u64,
    rise: u64,
}

impl Fill {
    /// What was paid since the last report, 0 if less was paid.
    fn paid(&self) -> u128 {
        let product = |a: u64, b: u64| u128::from(a) * u128::from(b);
        product(self.cumqty, self.avgpx).saturating_sub(product(self.oldcum, self.oldavg))
    }

    fn by_last_px(&self) -> bool {
        self.lastpx > 0 && (self.rise == 0 || self.rise == self.lastqty)
    }

    /// The price and its source: LastPx, else the quotient if it is above 0, else AvgPx.
    fn exact(&self) -> (u128, u64) {
        match exact(self.paid(), self.rise) {
            _ if self.by_last_px() => (self.lastpx.into(), 1),
            0 => (self.avgpx.into(), 3),
            quotient => (quotient, 2),
        }
    }
}

/// Wrong prices that the fills must tell from the exact one.
const WRONG: [(&str, fn(&Fill) -> (u128, u64)); 4] = [
    ("LastPx whatever the rise", |f| if f.lastpx > 0 { (f.lastpx.into(), 1) } else { f.exact() }),
    ("a quotient of 0 kept", |f| if f.by_last_px() { f.exact() } else { (exact(f.paid(), f.rise), 2) }),
    ("what was paid in one word", |f| match exact(f.paid() & u128::from(u64::MAX), f.rise) {
        _ if f.by_last_px() => f.exact(),
        0 => (f.avgpx.into(), 3),
        quotient => (quotient, 2),
    }),
    ("the average's source for a quotient", |f| match f.exact() {
        (price, 2) if price == u128::from(f.avgpx) => (price, 3),
        right => right,
    }),
];

/// A fill: as a day has it, at the border of one word, or of numbers of any length.
fn draw_fill(random: &mut Random, at: usize) -> Fill {
    let mut fill = match at % 4 {
        0 | 1 => common_fill(random),
        2 => {
            let rise = 1 + random.below(1 << 20);
            let avgpx = u64::MAX / rise - 1 + random.below(3);
            Fill {
                lastqty: random.below(rise),
                lastpx: random.word(),
                cumqty: rise,
                avgpx,
                oldcum: 0,
                oldavg: 0,
                rise,
            }
        }
        _ => Fill {
            lastqty: random.word(),
            lastpx: random.word(),
            cumqty: random.word(),
            avgpx: random.word(),
            oldcum: random.word(),
            oldavg: random.word(),
            rise: random.divisor(),
        },
    };
    match random.below(6) {
        0 => fill.lastqty = fill.rise,
        1 => fill.lastpx = 0,
        2 => fill.rise = 0,
        _ => (),
    }
    fill
}

/// A rise of up to 1,000 shares on up to 1,000, at averages of up to 1,000: LastQty is not the rise.
fn common_fill(random: &mut Random) -> Fill {
    let (oldcum, rise) = (random.below(10_000_000), 1 + random.below(10_000_000));
    let (oldavg, avgpx) = (random.below(100_000_000_000), random.below(100_000_000_000));
    Fill { lastqty: rise - 1, lastpx: avgpx, cumqty: oldcum + rise, avgpx, oldcum, oldavg, rise }
}

/// The price of drawn fills; the first that differs, if any.
fn test_prices(fills: usize) -> Result<(), String> {
    let mut random = Random(13);
    let (mut sources, mut one_word) = ([0_usize; 4], 0_usize);
    let mut found = [0_usize; WRONG.len()];
    for at in 0..fills {
        let fill = draw_fill(&mut random, at);
        let (given, right) = (price(&fill), fill.exact());
        if given != right {
            return Err(format!("the price of {fill:?} is {given:?}, should be {right:?}"));
        }
        for ((_, wrong), found) in WRONG.iter().zip(&mut found) {
            *found += usize::from(wrong(&fill) != right);
        }
        sources[right.1 as usize] += 1;
        one_word += usize::from(right.1 == 2 && fill.paid() >> 64 == 0);
    }
    let [_, last, quotient, average] = sources;
    println!(
        "divisions: {fills} prices of fills, all exact: {last} by LastPx, {quotient} by the quotient ({one_word} of one word), {average} by the average"
    );
    for ((what, _), found) in WRONG.iter().zip(found) {
        println!("  {what}: told by {found} of them");
        if found == 0 {
            return Err(format!("{what} is not told from the right price"));
        }
    }
    if [last, one_word, quotient - one_word, average].iter().any(|&n| n * 50 < fills) {
        return Err("too few prices of one kind".into());
    }
    Ok(())
}

/// Both divisions on drawn inputs; the first that differs, if any.
fn test(inputs: usize) -> Result<(), String> {
    let mut random = Random(7);
    let mut counts = Counts::default();
    let mut found = [0_usize; FAULTS.len()];
    for at in 0..inputs {
        let (n, d) = draw(&mut random, at);
        let right = exact(n, d);
        let one_word = (n >> 64 == 0).then(|| u128::from(plain(n as u64, d)));
        for (what, given) in [("long", Some(long(n, d))), ("either", Some(either(n, d))), ("plain", one_word)]
        {
            if given.is_some_and(|given| given != right) {
                return Err(format!("{what}: {n} by {d} is {given:?}, should be {right}"));
            }
        }
        for ((_, fault), found) in FAULTS.iter().zip(&mut found) {
            *found += usize::from(fault(n, d) != right);
        }
        counts.add(n, d);
    }
    let Counts { inputs, beside_half, border, one_word, by_zero, double_over } = counts;
    println!(
        "divisions: {inputs} inputs, all exact: {one_word} of one word, by both; {beside_half} at or beside a half, {border} at the border of one word, {by_zero} by 0, {double_over} whose rest's double passes one word"
    );
    for ((what, _), found) in FAULTS.iter().zip(found) {
        println!("  {what}: told by {found} of them");
        if found == 0 {
            return Err(format!("{what} is not told from the right division"));
        }
    }
    if beside_half * 3 < inputs || border * 5 < inputs {
        return Err("too few beside a half or at the border of one word".into());
    }
    Ok(())
}

/// A million dividends of one word, with their divisors.
fn million(draw: impl Fn(&mut Random) -> (u64, u64)) -> Vec<(u64, u64)> {
    let mut random = Random(11);
    (0..MILLION).map(|_| draw(&mut random)).collect()
}

/// What a rise of up to 1,000 shares at a price of up to 1,000 comes to, a little off.
fn common(random: &mut Random) -> (u64, u64) {
    let rise = 1 + random.below(10_000_000);
    (rise * random.below(100_000_000_000) + random.below(rise), rise)
}

fn any(random: &mut Random) -> (u64, u64) {
    (random.word(), random.word())
}

/// Prints the times. Common prices must take the single word, and it must be faster: no contract sees which division is used.
fn bench(rounds: usize) -> Result<(), String> {
    println!("bench: a million divisions, the same for each, in one thread; ms, best of {rounds} rounds");
    for (what, inputs) in [("common prices", million(common)), ("words of any length", million(any))] {
        let [by_plain, by_long, by_either] = by_turns(
            rounds,
            [
                &|| round(&inputs, |(n, d)| plain(n, d)),
                &|| round(&inputs, |(n, d)| long(n.into(), d) as u64),
                &|| round(&inputs, |(n, d)| either(n.into(), d) as u64),
            ],
        );
        let ratio = by_long / by_plain;
        println!(
            "  the {what}: single word {by_plain:.2}, two words {by_long:.2}, whichever {by_either:.2}; two words / single {ratio:.2}"
        );
        if what == "common prices" && by_plain.max(by_either) * 2.0 > by_long {
            return Err("the single word is not what a common price takes, or it is no faster".into());
        }
    }
    Ok(())
}

/// The time of the price that ships. It must be below that of the two-word division alone: a price that took that division for a
/// common fill would be above it.
fn bench_price(rounds: usize) -> Result<(), String> {
    let mut random = Random(17);
    let mut fills = Vec::with_capacity(MILLION);
    while fills.len() < MILLION {
        let fill = common_fill(&mut random);
        if fill.exact().1 == 2 && fill.paid() >> 64 == 0 {
            fills.push(fill);
        }
    }
    let divisions: Vec<(u64, u64)> = fills.iter().map(|fill| (fill.paid() as u64, fill.rise)).collect();
    let [by_price, by_plain, by_long] = by_turns(
        rounds,
        [
            &|| round(&fills, |fill| price(&fill).0 as u64),
            &|| round(&divisions, |(n, d)| plain(n, d)),
            &|| round(&divisions, |(n, d)| long(n.into(), d) as u64),
        ],
    );
    println!(
        "  the implied prices of common fills: whole price {by_price:.2}, its division alone by the single word {by_plain:.2}, by two words {by_long:.2}"
    );
    if by_price > by_long {
        return Err(
            "a whole price takes longer than the two-word division alone: it does not take the single word"
                .into(),
        );
    }
    Ok(())
}

/// Milliseconds of each one's best round. The rounds go by turns, so that a slow while of the machine meets all of them.
fn by_turns<const N: usize>(rounds: usize, ones: [&dyn Fn() -> f64; N]) -> [f64; N] {
    let mut best = [f64::MAX; N];
    for _ in 0..rounds {
        for (best, one) in best.iter_mut().zip(ones) {
            *best = best.min(one());
        }
    }
    best
}

/// Milliseconds of a round.
fn round<T: Copy>(inputs: &[T], divide: impl Fn(T) -> u64) -> f64 {
    let start = thread_seconds();
    let sum = inputs.iter().fold(0_u64, |sum, &input| sum.wrapping_add(divide(input)));
    let time = thread_seconds() - start;
    black_box(sum);
    time * 1e3
}

#[repr(C)]
struct TimeSpec {
    seconds: i64,
    nanoseconds: i64,
}

unsafe extern "C" {
    fn clock_gettime(clock: i32, time: *mut TimeSpec) -> i32;
}

/// The processor time of this thread.
fn thread_seconds() -> f64 {
    const THREAD_CPUTIME: i32 = 3;
    let mut time = TimeSpec { seconds: 0, nanoseconds: 0 };
    // SAFETY: the call writes the two numbers that it is lent.
    let failed = unsafe { clock_gettime(THREAD_CPUTIME, &mut time) };
    assert_eq!(failed, 0, "the thread has a clock");
    time.seconds as f64 + time.nanoseconds as f64 / 1e9
}

fn main() -> ExitCode {
    let numbers: Vec<usize> = std::env::args().skip(1).map(|arg| arg.parse().expect("a number")).collect();
    let number = |at: usize, usual: usize| numbers.get(at).copied().unwrap_or(usual);
    let (inputs, rounds) = (number(0, 6_000_000), number(1, 30));
    let run = || {
        test(inputs)?;
        test_prices(inputs / 2)?;
        bench(rounds)?;
        bench_price(rounds)
    };
    match run() {
        Ok(()) => ExitCode::SUCCESS,
        Err(why) => {
            println!("divisions: {why}");
            ExitCode::FAILURE
        }
    }
}
