//! Reasons and texts of refusals, by their numbers (docs/SCOPE.md, Answers). Rests on list.

use std::fmt;

use crate::list::listed;
use crate::show::Text;

listed! {
    /// Why the host's risk check refused a replace: the verdicts 1 to 7.
    ///
    /// ```
    /// # use jubafiye::RiskReject;
    /// assert_eq!(RiskReject::Credit.number(), 7);
    /// assert_eq!(RiskReject::from_number(0), None);
    /// ```
    RiskReject: number, from_number {
        Symbol = 1 "symbol",
        OrderQty = 2 "order quantity",
        NoReferencePrice = 3 "no reference price",
        Notional = 4 "notional",
        PriceBand = 5 "price band",
        SelfTrade = 6 "self trade",
        Credit = 7 "credit",
    }
}

impl std::error::Error for RiskReject {}

/// A reason code, and whose it is.
///
/// ```
/// use jubafiye::Reason;
///
/// let passed_on = Reason::Venue(2);
/// assert!(passed_on != Reason::Ours(2));
/// assert_eq!((passed_on.number(), passed_on.to_string()), (2, "the venue's reason 2".into()));
/// ```
#[derive(Debug, Clone, Copy, PartialEq, Eq, Hash)]
pub enum Reason {
    /// The book's own: CxlRejReason 0, 1, 3, 6 or 99, and 99 for an order that could not be sent.
    Ours(u32),
    /// The venue's, passed on.
    Venue(u32),
}

impl Reason {
    /// The code, for OrdRejReason(103) or CxlRejReason(102).
    ///
    /// ```
    /// # use jubafiye::Reason;
    /// assert_eq!(Reason::Venue(2).number(), 2);
    /// assert_eq!(Reason::Venue(2).to_string(), "the venue's reason 2");
    /// ```
    pub const fn number(self) -> u32 {
        match self {
            Self::Ours(number) | Self::Venue(number) => number,
        }
    }
}

impl fmt::Display for Reason {
    fn fmt(&self, f: &mut fmt::Formatter<'_>) -> fmt::Result {
        match self {
            Self::Ours(number) => write!(f, "our reason {number}"),
            Self::Venue(number) => write!(f, "the venue's reason {number}"),
        }
    }
}

/// A text: one that came with the event, or one of the book's fixed texts.
///
/// ```
/// use jubafiye::{FixedText, Words};
///
/// assert_eq!(Words::Given(b"session down".to_vec()).to_string(), "session down");
/// assert_eq!(Words::Fixed(FixedText::Done).to_string(), "order is done");
/// ```
#[derive(Clone, PartialEq, Eq, Hash)]
pub enum Words {
    /// The event's own, byte for byte.
    Given(Vec<u8>),
    /// The book's.
    Fixed(FixedText),
}

/// The texts that the book itself supplies. It puts out their numbers; the words here are the Rust's, those of a risk verdict
/// this crate's.
///
/// ```
/// use jubafiye::{FixedText, RiskReject};
///
/// assert_eq!(FixedText::BelowFilled.number(), 3);
/// assert_eq!(FixedText::BelowFilled.to_string(), "quantity below filled quantity");
/// assert_eq!(FixedText::from_number(18), Some(FixedText::Risk(RiskReject::Credit)));
/// ```
#[derive(Debug, Clone, Copy, PartialEq, Eq, Hash)]
pub enum FixedText {
    /// 1: the gateway is cancelling the order.
    GatewayCancelling,
    /// 2: a replace is pending.
    ReplacePending,
    /// 3: the new quantity is below the filled one.
    BelowFilled,
    /// 4: the client is blocked, and the replace would raise the quantity.
    Blocked,
    /// 5: the ClOrdID was used before.
    Duplicate,
    /// 6: no such order.
    UnknownOrder,
    /// 7: the order is done.
    Done,
    /// 8: the client has used up its ClOrdIDs.
    TooManyRequests,
    /// 9: the side or the symbol is not the order's.
    SideOrSymbol,
    /// 10: the venue rejected it and gave no text.
    RejectedByVenue,
    /// 11: it was not sent before the gateway restarted.
    NotSentBeforeRestart,
    /// 12 to 18: a risk verdict, 1 to 7.
    Risk(RiskReject),
}

impl FixedText {
    /// Its number, 1 to 18.
    /// ```
    /// assert_eq!(jubafiye::FixedText::Done.number(), 7);
    /// ```
    pub const fn number(self) -> u8 {
        match self {
            Self::GatewayCancelling => 1,
            Self::ReplacePending => 2,
            Self::BelowFilled => 3,
            Self::Blocked => 4,
            Self::Duplicate => 5,
            Self::UnknownOrder => 6,
            Self::Done => 7,
            Self::TooManyRequests => 8,
            Self::SideOrSymbol => 9,
            Self::RejectedByVenue => 10,
            Self::NotSentBeforeRestart => 11,
            Self::Risk(reject) => reject.number().saturating_add(11),
        }
    }

    /// The text of a number, 1 to 18.
    /// ```
    /// use jubafiye::FixedText;
    ///
    /// assert_eq!(FixedText::from_number(7), Some(FixedText::Done));
    /// assert_eq!(FixedText::from_number(19), None);
    /// ```
    pub fn from_number(number: u8) -> Option<Self> {
        Some(match number {
            1 => Self::GatewayCancelling,
            2 => Self::ReplacePending,
            3 => Self::BelowFilled,
            4 => Self::Blocked,
            5 => Self::Duplicate,
            6 => Self::UnknownOrder,
            7 => Self::Done,
            8 => Self::TooManyRequests,
            9 => Self::SideOrSymbol,
            10 => Self::RejectedByVenue,
            11 => Self::NotSentBeforeRestart,
            _ => return RiskReject::from_number(number.checked_sub(11)?).map(Self::Risk),
        })
    }
}

impl fmt::Display for FixedText {
    fn fmt(&self, f: &mut fmt::Formatter<'_>) -> fmt::Result {
        f.pad(match self {
            Self::GatewayCancelling => "the gateway is cancelling the order",
            Self::ReplacePending => "replace pending",
            Self::BelowFilled => "quantity below filled quantity",
            Self::Blocked => "blocked: a replace may not raise the quantity",
            Self::Duplicate => "duplicate ClOrdID",
            Self::UnknownOrder => "unknown order",
            Self::Done => "order is done",
            Self::TooManyRequests => "too many requests today",
            Self::SideOrSymbol => "side or symbol does not match",
            Self::RejectedByVenue => "rejected by the venue",
            Self::NotSentBeforeRestart => "not sent before the gateway restarted",
            Self::Risk(reject) => return f.pad(&format!("over a risk limit: {reject}")),
        })
    }
}

impl fmt::Debug for Words {
    fn fmt(&self, f: &mut fmt::Formatter<'_>) -> fmt::Result {
        match self {
            Self::Given(text) => f.debug_tuple("Given").field(&text.quoted()).finish(),
            Self::Fixed(text) => f.debug_tuple("Fixed").field(text).finish(),
        }
    }
}

/// As FIX's Text(58); bytes that are no UTF-8 are replaced.
impl fmt::Display for Words {
    fn fmt(&self, f: &mut fmt::Formatter<'_>) -> fmt::Result {
        match self {
            Self::Given(text) => f.pad(&String::from_utf8_lossy(text)),
            Self::Fixed(text) => text.fmt(f),
        }
    }
}

#[cfg(test)]
mod tests {
    use super::*;

    #[test]
    fn the_texts_by_number() {
        assert_eq!((FixedText::from_number(0), FixedText::from_number(19)), (None, None));
        assert_eq!(FixedText::from_number(12), Some(FixedText::Risk(RiskReject::Symbol)));
        for number in 1..=18 {
            assert_eq!(FixedText::from_number(number).map(FixedText::number), Some(number));
        }
    }

    #[test]
    fn words_are_shown() {
        assert_eq!(Words::Given(b"not now".to_vec()).to_string(), "not now");
        assert_eq!(Words::Given(b"\xff".to_vec()).to_string(), "\u{fffd}");
        assert_eq!(Words::Fixed(FixedText::ReplacePending).to_string(), "replace pending");
        assert_eq!(FixedText::Risk(RiskReject::Credit).to_string(), "over a risk limit: credit");
    }
}
