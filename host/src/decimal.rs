//! Quantities and prices: counts of a small unit, and the same as decimals (docs/SCOPE.md, The book). Rests on nothing.

use std::fmt;
use std::iter::{repeat, Sum};
use std::str::FromStr;

/// A quantity: a count of 1/10,000, at most [`Qty::MAX`] in an event.
///
/// As text it is a decimal number, read and shown exactly.
///
/// ```
/// use jubafiye::{DecimalError, Qty};
///
/// let qty: Qty = "12.5".parse()?;
/// assert_eq!(qty, Qty(125_000));
/// assert_eq!(qty.to_string(), "12.5");
/// assert_eq!("12.50000".parse(), Ok(qty));
/// assert_eq!("0.00001".parse::<Qty>(), Err(DecimalError::TooManyDecimals { most: 4 }));
/// assert_eq!("100000000.0001".parse::<Qty>(), Err(DecimalError::TooLarge { most: 100_000_000 }));
/// # Ok::<(), DecimalError>(())
/// ```
#[derive(Debug, Clone, Copy, PartialEq, Eq, PartialOrd, Ord, Hash, Default)]
pub struct Qty(
    /// The count of 1/10,000.
    pub u64,
);

/// A net quantity: a count of 1/10,000 with a sign, below 0 if more was sold than bought.
///
/// As text it is a decimal number, shown exactly.
///
/// ```
/// use jubafiye::Net;
///
/// assert_eq!(Net(-125_000).to_string(), "-12.5");
/// assert_eq!(Net(0).to_string(), "0");
/// assert_eq!(format!("{:+}", Net(70_000)), "+7");
/// ```
#[derive(Debug, Clone, Copy, PartialEq, Eq, PartialOrd, Ord, Hash, Default)]
pub struct Net(
    /// The count of 1/10,000.
    pub i64,
);

/// A price: a count of 10^-8, at most [`Price::MAX`] in an event. A fill price that the book works out may pass 64 bits.
///
/// As text it is a decimal number, read and shown exactly.
///
/// ```
/// use jubafiye::{DecimalError, Price};
///
/// let price: Price = "10.7".parse()?;
/// assert_eq!(price, Price(1_070_000_000));
/// assert_eq!(price.to_string(), "10.7");
/// assert_eq!("-1".parse::<Price>(), Err(DecimalError::Unexpected { at: 0, found: '-' }));
/// # Ok::<(), DecimalError>(())
/// ```
#[derive(Debug, Clone, Copy, PartialEq, Eq, PartialOrd, Ord, Hash, Default)]
pub struct Price(
    /// The count of 10^-8.
    pub u128,
);

/// Checked arithmetic on counts, and their sum.
macro_rules! counted {
    ($($name:ident: $count:ident, $one:literal)*) => {
        $(
            impl $name {
                /// The sum of two, if the bits hold it.
                ///
                /// ```
                #[doc = concat!("# use jubafiye::", stringify!($name), ";")]
                #[doc = concat!("let one = ", stringify!($name), "(", stringify!($one), ");")]
                #[doc = concat!("assert_eq!(one.checked_add(one), Some(", stringify!($name), "(2 * ", stringify!($one), ")));")]
                #[doc = concat!("assert_eq!(", stringify!($name), "(", stringify!($count), "::MAX).checked_add(", stringify!($name), "(1)), None);")]
                /// ```
                pub const fn checked_add(self, other: Self) -> Option<Self> {
                    match self.0.checked_add(other.0) {
                        Some(count) => Some(Self(count)),
                        None => None,
                    }
                }

                /// The first less the second, if the bits hold it.
                ///
                /// ```
                #[doc = concat!("# use jubafiye::", stringify!($name), ";")]
                #[doc = concat!("assert_eq!(", stringify!($name), "(3).checked_sub(", stringify!($name), "(1)), Some(", stringify!($name), "(2)));")]
                #[doc = concat!("assert_eq!(", stringify!($name), "(", stringify!($count), "::MIN).checked_sub(", stringify!($name), "(1)), None);")]
                /// ```
                pub const fn checked_sub(self, other: Self) -> Option<Self> {
                    match self.0.checked_sub(other.0) {
                        Some(count) => Some(Self(count)),
                        None => None,
                    }
                }
            }

            /// The sum, or the largest that the bits hold if they do not hold it.
            impl Sum for $name {
                fn sum<I: Iterator<Item = Self>>(all: I) -> Self {
                    all.fold(Self::default(), |sum, one| Self(sum.0.saturating_add(one.0)))
                }
            }
        )*
    };
}

/// Why a text is no quantity or no price.
/// ```
/// use jubafiye::{DecimalError, Qty};
///
/// assert_eq!("".parse::<Qty>(), Err(DecimalError::NoDigit));
/// assert!("1.00005".parse::<Qty>().is_err() && "1.00000".parse::<Qty>().is_ok());
/// ```
#[derive(Debug, Clone, Copy, PartialEq, Eq, Hash)]
#[non_exhaustive]
pub enum DecimalError {
    /// It has no digit.
    NoDigit,
    /// It has a character that is neither a digit nor the first point: a sign, a blank, an exponent.
    Unexpected {
        /// The byte where it stands, from 0.
        at: usize,
        /// The character.
        found: char,
    },
    /// It has more decimals than the unit, zeros at its end aside.
    TooManyDecimals {
        /// The unit's: 4 for a quantity, 8 for a price.
        most: usize,
    },
    /// It is above what an event may bring.
    TooLarge {
        /// The largest, in whole units.
        most: u64,
    },
}

impl fmt::Display for DecimalError {
    fn fmt(&self, f: &mut fmt::Formatter<'_>) -> fmt::Result {
        match self {
            Self::NoDigit => f.write_str("no digit"),
            Self::Unexpected { at, found } => write!(f, "{found:?} at byte {at} in place of a digit"),
            Self::TooManyDecimals { most } => write!(f, "more than {most} decimals"),
            Self::TooLarge { most } => write!(f, "above {most}"),
        }
    }
}

impl std::error::Error for DecimalError {}

impl Qty {
    /// The most that an event may bring: 10^12, or 100,000,000 whole units.
    ///
    /// ```
    /// # #[cfg(feature = "book")] {
    /// use jubafiye::{Book, Booking, Event, Qty, Refusal, Side};
    ///
    /// let book = Book::new(10_000);
    /// let order = |qty| Event::Book(Booking::new(7, 3, Side::Buy, qty, b"WHEATH27").named(b"G1", b"C1"));
    /// assert!(book.needs(&order(Qty::MAX)).is_ok());
    /// assert_eq!(book.needs(&order(Qty(Qty::MAX.0 + 1))), Err(Refusal::Range));
    /// # }
    /// ```
    pub const MAX: Self = Self(1_000_000_000_000);

    const DECIMALS: usize = 4;

    /// Whole units; as many as 64 bits hold, which the book refuses.
    ///
    /// ```
    /// # use jubafiye::Qty;
    /// assert_eq!(Qty::units(100).to_string(), "100");
    /// ```
    pub const fn units(units: u64) -> Self {
        Self(units.saturating_mul(10_000))
    }

    /// So many ten-thousandths of a unit.
    ///
    /// ```
    /// # use jubafiye::Qty;
    /// assert_eq!(Qty::ten_thousandths(100).to_string(), "0.01");
    /// ```
    pub const fn ten_thousandths(count: u64) -> Self {
        Self(count)
    }
}

counted! {
    Qty: u64, 1
    Net: i64, -1
    Price: u128, 1
}

impl Price {
    /// So many counts of 10^-8.
    ///
    /// ```
    /// # use jubafiye::Price;
    /// assert_eq!(Price::hundred_millionths(25_000_000).to_string(), "0.25");
    /// ```
    pub const fn hundred_millionths(count: u128) -> Self {
        Self(count)
    }

    /// The most that an event may bring: 10^14, or 1,000,000 whole units.
    ///
    /// ```
    /// # #[cfg(feature = "book")] {
    /// use jubafiye::{Book, Booking, Event, Price, Qty, Refusal, Side};
    ///
    /// let book = Book::new(10_000);
    /// let booking = Booking::new(7, 3, Side::Buy, Qty::units(100), b"WHEATH27").named(b"G1", b"C1");
    /// assert!(book.needs(&Event::Book(booking.limit(Price::MAX))).is_ok());
    /// assert_eq!(book.needs(&Event::Book(booking.limit(Price(Price::MAX.0 + 1)))), Err(Refusal::Range));
    /// # }
    /// ```
    pub const MAX: Self = Self(100_000_000_000_000);

    const DECIMALS: usize = 8;

    /// A price of any size, as a fill price may be.
    #[cfg(feature = "fix")]
    pub(crate) fn of_any_size(text: &str) -> Result<Self, DecimalError> {
        read(text, Self::DECIMALS).map(Self)
    }

    /// Whole units of money.
    /// ```
    /// # use jubafiye::Price;
    /// assert_eq!(Price::units(10), "10".parse()?);
    /// # Ok::<(), jubafiye::DecimalError>(())
    /// ```
    #[allow(clippy::as_conversions)] // to a wider type, where `from` is not const
    pub const fn units(units: u64) -> Self {
        Self((units as u128).saturating_mul(100_000_000))
    }
}

/// A decimal number as FIX writes it, without a sign: `100`, `0.5`, also `007.50`, `7.` and `.5`. Nothing is rounded: more
/// than 4 decimals are refused, zeros at the end aside, and so is what lies above [`Qty::MAX`].
impl FromStr for Qty {
    type Err = DecimalError;

    fn from_str(text: &str) -> Result<Self, DecimalError> {
        let count = read(text, Self::DECIMALS)?;
        let fits = u64::try_from(count).ok().map(Self).filter(|qty| *qty <= Self::MAX);
        fits.ok_or(DecimalError::TooLarge { most: 100_000_000 })
    }
}

/// As a quantity, but with up to 8 decimals, and at most [`Price::MAX`].
impl FromStr for Price {
    type Err = DecimalError;

    fn from_str(text: &str) -> Result<Self, DecimalError> {
        let price = Self(read(text, Self::DECIMALS)?);
        Some(price).filter(|price| *price <= Self::MAX).ok_or(DecimalError::TooLarge { most: 1_000_000 })
    }
}

/// With the decimals that it has: `100`, `0.5`. A precision changes nothing: a part would be another number.
impl fmt::Display for Qty {
    fn fmt(&self, f: &mut fmt::Formatter<'_>) -> fmt::Result {
        show(f, true, u128::from(self.0), Self::DECIMALS)
    }
}

/// With the sign and the decimals that it has: `-40`, `0.5`. A precision changes nothing: a part would be another number.
impl fmt::Display for Net {
    fn fmt(&self, f: &mut fmt::Formatter<'_>) -> fmt::Result {
        show(f, self.0 >= 0, u128::from(self.0.unsigned_abs()), Qty::DECIMALS)
    }
}

/// With the decimals that it has: `10`, `10.7`. A precision changes nothing: a part would be another number.
impl fmt::Display for Price {
    fn fmt(&self, f: &mut fmt::Formatter<'_>) -> fmt::Result {
        show(f, true, self.0, Self::DECIMALS)
    }
}

/// The count that a text says; `u128::MAX` if 128 bits do not hold it.
fn read(text: &str, decimals: usize) -> Result<u128, DecimalError> {
    let point = text.find('.');
    let other = text.char_indices().find(|&(at, c)| !c.is_ascii_digit() && point != Some(at));
    if let Some((at, found)) = other {
        return Err(DecimalError::Unexpected { at, found });
    }
    let (whole, part) = text.split_once('.').unwrap_or((text, ""));
    if whole.is_empty() && part.is_empty() {
        return Err(DecimalError::NoDigit);
    }
    if part.trim_end_matches('0').len() > decimals {
        return Err(DecimalError::TooManyDecimals { most: decimals });
    }
    let part = part.chars().chain(repeat('0')).take(decimals);
    let digits = whole.chars().chain(part).filter_map(|c| c.to_digit(10));
    Ok(digits.fold(0, |count: u128, digit| count.saturating_mul(10).saturating_add(u128::from(digit))))
}

/// Shows a count, below 0 or not, as whole units and the decimals that it has.
fn show(f: &mut fmt::Formatter<'_>, positive: bool, count: u128, decimals: usize) -> fmt::Result {
    let digits = format!("{count:0width$}", width = decimals.saturating_add(1));
    let at = digits.len().saturating_sub(decimals);
    let (whole, part) = digits.split_at_checked(at).unwrap_or((&digits, ""));
    match part.trim_end_matches('0') {
        "" => f.pad_integral(positive, "", whole),
        part => f.pad_integral(positive, "", &format!("{whole}.{part}")),
    }
}

#[cfg(test)]
mod tests {
    use super::*;

    #[test]
    fn shown_exactly() {
        assert_eq!(Qty(0).to_string(), "0");
        assert_eq!(Qty(1).to_string(), "0.0001");
        assert_eq!(Qty(10_500).to_string(), "1.05");
        assert_eq!(Qty::MAX.to_string(), "100000000");
        assert_eq!(Qty(u64::MAX).to_string(), "1844674407370955.1615");
        assert_eq!(Net(i64::MIN).to_string(), "-922337203685477.5808");
        assert_eq!(
            format!("[{:>8}] [{:08}] [{}]", Net(-1), Net(-10_500), Net(1)),
            "[ -0.0001] [-0001.05] [0.0001]"
        );
        assert_eq!(Price(1).to_string(), "0.00000001");
        assert_eq!(Price::units(u64::MAX), Price(1_844_674_407_370_955_161_500_000_000));
        assert_eq!(Price(u128::MAX).to_string(), "3402823669209384634633746074317.68211455");
        assert_eq!(format!("[{:>8}] [{:<6}] [{:.1}]", Qty(125_000), Qty(1), Price(1_070_000_000)), {
            "[    12.5] [0.0001] [10.7]"
        });
    }

    #[test]
    fn what_is_shown_is_read() {
        let edges = [0, 1, 9, 10, 99, 100, 9_999, 10_000, 10_001, 99_999_999, 100_000_000, 100_000_001];
        let below =
            (0..=14).flat_map(|power| [10u128.pow(power), 10u128.pow(power) - 1, 10u128.pow(power) + 1]);
        let mut step = 7u128;
        let spread = (0..20_000).map(|_| {
            step = step * 6_364_136_223_846_793_005 % 100_000_000_000_001;
            step
        });
        for count in edges.into_iter().chain(below).chain(spread).filter(|&count| count <= Price::MAX.0) {
            assert_eq!(Price(count).to_string().parse(), Ok(Price(count)));
            let qty = Qty(u64::try_from(count).unwrap());
            let read = qty.to_string().parse();
            assert_eq!(
                read,
                if qty <= Qty::MAX { Ok(qty) } else { Err(DecimalError::TooLarge { most: 100_000_000 }) }
            );
        }
    }

    #[test]
    fn read_exactly() {
        for text in ["7.5", "007.5", "7.50", "7.5000", "7.50000", "7.500000000000"] {
            assert_eq!(text.parse(), Ok(Qty(75_000)), "{text}");
        }
        for (text, count) in
            [("7.", 70_000), (".5", 5_000), ("0", 0), ("0.0000", 0), ("100000000", 1_000_000_000_000)]
        {
            assert_eq!(text.parse(), Ok(Qty(count)), "{text}");
        }
        assert_eq!("1000000.00000000".parse(), Ok(Price::MAX));
        assert_eq!(format!("{}1", "0".repeat(400)).parse(), Ok(Price::units(1)));
    }

    #[test]
    fn counts_are_added_and_taken_away() {
        assert_eq!([Qty(1), Qty(2)].into_iter().sum::<Qty>(), Qty(3));
        assert_eq!([Qty(u64::MAX), Qty(2)].into_iter().sum::<Qty>(), Qty(u64::MAX));
        assert_eq!([Net(-1), Net(-2)].into_iter().sum::<Net>(), Net(-3));
        assert_eq!((Qty(1).checked_sub(Qty(2)), Net(1).checked_sub(Net(2))), (None, Some(Net(-1))));
        assert_eq!(Qty(100), Qty::ten_thousandths(100));
    }

    #[test]
    fn what_does_not_fit_is_refused() {
        let qty = |text: &str| text.parse::<Qty>();
        for text in ["", "."] {
            assert_eq!(qty(text), Err(DecimalError::NoDigit), "{text}");
        }
        let unexpected = [
            ("-1", 0, '-'),
            ("+1", 0, '+'),
            (" 1", 0, ' '),
            ("1e3", 1, 'e'),
            ("1.2.3", 3, '.'),
            ("1,5", 1, ','),
        ];
        for (text, at, found) in
            unexpected.into_iter().chain([("1_0", 1, '_'), ("1.é", 2, 'é'), ("٣", 0, '٣')])
        {
            assert_eq!(qty(text), Err(DecimalError::Unexpected { at, found }), "{text}");
        }
        for text in ["1.00001", "1.000010", "0.12345678"] {
            assert_eq!(qty(text), Err(DecimalError::TooManyDecimals { most: 4 }), "{text}");
        }
        let long = "9".repeat(60);
        for text in ["100000000.0001", "100000001", &long] {
            assert_eq!(qty(text), Err(DecimalError::TooLarge { most: 100_000_000 }), "{text}");
        }
        assert_eq!("1000000.00000001".parse::<Price>(), Err(DecimalError::TooLarge { most: 1_000_000 }));
        assert_eq!("0.000000001".parse::<Price>(), Err(DecimalError::TooManyDecimals { most: 8 }));
        let why = qty("1x").map_err(|error| error.to_string());
        assert_eq!(why, Err("'x' at byte 1 in place of a digit".into()));
    }
}
