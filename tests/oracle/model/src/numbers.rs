//! The counts of docs/SCOPE.md, The book, and the book's `Decimal`: a quantity is a count of 1/10,000, a price a
//! count of 10^-8.

use gateway::Decimal;

pub const MAX_QTY: u64 = 1_000_000_000_000;
pub const MAX_PRICE: u64 = 100_000_000_000_000;

const QTY_PLACES: u32 = 4;
const PRICE_PLACES: u32 = 8;

pub fn qty(count: u64) -> Decimal {
    Decimal::from_i128_with_scale(count.into(), QTY_PLACES)
}

pub fn price(count: u64) -> Decimal {
    Decimal::from_i128_with_scale(count.into(), PRICE_PLACES)
}

pub fn qty_count(qty: Decimal) -> u64 {
    count(qty, QTY_PLACES).try_into().expect("a quantity fits 64 bits")
}

pub fn price_count(price: Decimal) -> u128 {
    count(price, PRICE_PLACES)
}

/// `decimal` as a count of 10^-`places`; it must be whole and not negative.
fn count(decimal: Decimal, places: u32) -> u128 {
    let exact = decimal.normalize();
    assert!(exact.scale() <= places, "{decimal} has more than {places} places");
    let count = exact.mantissa() * 10_i128.pow(places - exact.scale());
    count.try_into().unwrap_or_else(|_| panic!("{decimal} is negative"))
}

/// What docs/SCOPE.md, Fill price, says, by exact integers: the numbers that decide it.
#[derive(Debug, Clone, Copy, PartialEq, Eq)]
pub struct Fill {
    pub last_qty: u64,
    pub last_px: u64,
    pub cum_qty: u64,
    pub avg_px: u64,
    pub old_cum_qty: u64,
    pub old_avg_px: u64,
}

/// Where a fill's price comes from, by its number in a report. 0 stands there for none: the price
/// was not set by a venue's report.
#[derive(Debug, Clone, Copy, PartialEq, Eq)]
#[repr(u8)]
pub enum Source {
    LastPx = 1,
    Quotient = 2,
    Average = 3,
}

impl Fill {
    pub fn rise(&self) -> u64 {
        self.cum_qty.saturating_sub(self.old_cum_qty)
    }

    /// Which of docs/SCOPE.md's three prices it is, by the rule alone: equal prices say nothing.
    pub fn source(&self) -> Source {
        let rise = self.rise();
        if self.last_px > 0 && (rise == 0 || rise == self.last_qty) {
            return Source::LastPx;
        }
        if self.quotient() > 0 { Source::Quotient } else { Source::Average }
    }

    pub fn price(&self) -> u128 {
        match self.source() {
            Source::LastPx => self.last_px.into(),
            Source::Quotient => self.quotient(),
            Source::Average => self.avg_px.into(),
        }
    }

    /// Whether the price is decided by a quotient exactly half way between two eighth places: there
    /// the rule of docs/SCOPE.md stands over the Rust, whose price is not asked.
    pub fn at_half(&self) -> bool {
        let half = |(paid, rise): (u128, u128)| paid % rise * 2 == rise;
        self.source() != Source::LastPx && self.fraction().is_some_and(half)
    }

    /// The exact fraction of docs/SCOPE.md, Fill price, rounded to eight places, a half up; 0 if nothing
    /// rose or it is below 0.
    fn quotient(&self) -> u128 {
        self.fraction().map_or(0, |(paid, rise)| paid / rise + u128::from(paid % rise * 2 >= rise))
    }

    /// What was paid since and the rise that divides it, if something rose.
    pub fn fraction(&self) -> Option<(u128, u128)> {
        Some((self.paid(), self.rise().into())).filter(|&(_, rise)| rise > 0)
    }

    /// What was paid since: 0 if that is below 0.
    pub fn paid(&self) -> u128 {
        let new = u128::from(self.cum_qty) * u128::from(self.avg_px);
        new.saturating_sub(u128::from(self.old_cum_qty) * u128::from(self.old_avg_px))
    }
}

#[cfg(test)]
mod tests {
    use super::*;

    const FILL: Fill = Fill { last_qty: 0, last_px: 0, cum_qty: 0, avg_px: 0, old_cum_qty: 0, old_avg_px: 0 };

    #[test]
    fn counts_are_exact() {
        assert_eq!(qty_count(qty(MAX_QTY)), MAX_QTY);
        assert_eq!(price_count(price(MAX_PRICE)), u128::from(MAX_PRICE));
        assert_eq!(price_count(price(1)), 1);
        assert_eq!(qty(1).to_string(), "0.0001");
    }

    #[test]
    fn the_scopes_prices() {
        let missed = Fill {
            last_qty: 100_000,
            last_px: 1_100_000_000,
            cum_qty: 700_000,
            avg_px: 1_030_000_000,
            old_cum_qty: 400_000,
            old_avg_px: 1_000_000_000,
        };
        assert_eq!(missed.price(), 1_070_000_000);
        let tie = Fill { cum_qty: 30_000, avg_px: 100_000_001, old_cum_qty: 10_000, ..FILL };
        assert_eq!(Fill { old_avg_px: 100_000_000, ..tie }.price(), 100_000_002);
        assert_eq!(Fill { old_avg_px: 100_000_002, ..tie }.price(), 100_000_001);
        let below = Fill { cum_qty: 30_000, avg_px: 50_000_000, old_cum_qty: 20_000, ..FILL };
        assert_eq!(Fill { old_avg_px: 100_000_000, ..below }.price(), 50_000_000);
    }

    #[test]
    fn a_source_goes_by_the_rule_and_not_by_the_price() {
        let told = |fill: Fill| (fill.price(), fill.source());
        // No rise: LastPx if above 0, else AvgPx, also at 0.
        assert_eq!(told(Fill { last_px: 7, avg_px: 7, ..FILL }), (7, Source::LastPx));
        assert_eq!(told(Fill { last_qty: 5, last_px: 7, ..FILL }), (7, Source::LastPx));
        assert_eq!(told(Fill { avg_px: 7, ..FILL }), (7, Source::Average));
        assert_eq!(told(FILL), (0, Source::Average));
        // A rise at prices that are all equal.
        let level = Fill { last_px: 10, avg_px: 10, old_avg_px: 10, old_cum_qty: 1, cum_qty: 3, ..FILL };
        assert_eq!(told(Fill { last_qty: 2, ..level }), (10, Source::LastPx));
        assert_eq!(told(Fill { last_qty: 1, ..level }), (10, Source::Quotient));
        // A quotient of 0, of a half, below 0, and whole.
        assert_eq!(told(Fill { last_qty: 1, avg_px: 0, old_avg_px: 0, ..level }), (0, Source::Average));
        let half = Fill { cum_qty: 5, avg_px: 2, old_cum_qty: 3, old_avg_px: 3, ..FILL };
        assert_eq!(told(half), (1, Source::Quotient));
        assert_eq!(told(Fill { old_avg_px: 4, ..half }), (2, Source::Average));
        assert_eq!(told(Fill { old_avg_px: 2, ..half }), (2, Source::Quotient));
    }

    #[test]
    fn a_half_is_told_from_what_is_beside_it_and_goes_up() {
        let half = Fill { cum_qty: 5, avg_px: 2, old_cum_qty: 3, old_avg_px: 3, ..FILL };
        for (fill, price, at_half) in [
            (half, 1, true),
            (Fill { cum_qty: 3, avg_px: 1, old_cum_qty: 1, old_avg_px: 0, ..FILL }, 2, true),
            (Fill { cum_qty: 4, avg_px: 1, old_cum_qty: 1, old_avg_px: 0, ..FILL }, 1, false),
            (Fill { cum_qty: 5, avg_px: 1, old_cum_qty: 2, old_avg_px: 0, ..FILL }, 2, false),
            (Fill { last_px: 7, last_qty: 2, ..half }, 7, false),
            (Fill { cum_qty: 3, ..half }, 2, false),
        ] {
            assert_eq!((fill.price(), fill.at_half()), (price, at_half), "{fill:?}");
        }
    }
}
