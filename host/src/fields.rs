//! FIX 4.4's codes, as far as the book takes them (docs/SCOPE.md, Codes). Rests on list.

use crate::list::listed;

listed! {
    /// Side(54).
    ///
    /// ```
    /// # use jubafiye::Side;
    /// assert_eq!(Side::from_code(b'5'), Some(Side::SellShort));
    /// assert_eq!(Side::Buy.code(), b'1');
    /// assert_eq!(Side::from_code(b'3'), None);
    /// ```
    Side: code, from_code { Buy = b'1' "buy", Sell = b'2' "sell", SellShort = b'5' "sell short" }
}

listed! {
    /// OrdType(40).
    ///
    /// ```
    /// # use jubafiye::OrdType;
    /// assert_eq!((OrdType::Limit.code(), OrdType::from_code(b'1')), (b'2', Some(OrdType::Market)));
    /// // a stop order, which the book does not take
    /// assert_eq!(OrdType::from_code(b'3'), None);
    /// ```
    OrdType: code, from_code { Market = b'1' "market", Limit = b'2' "limit" }
}

listed! {
    /// TimeInForce(59).
    ///
    /// ```
    /// # use jubafiye::TimeInForce;
    /// assert_eq!((TimeInForce::Gtc.code(), TimeInForce::from_code(b'0')), (b'1', Some(TimeInForce::Day)));
    /// assert_eq!(TimeInForce::Ioc.to_string(), "immediate or cancel");
    /// ```
    TimeInForce: code, from_code {
        Day = b'0' "day",
        Gtc = b'1' "good till cancel",
        Ioc = b'3' "immediate or cancel",
        Fok = b'4' "fill or kill",
    }
}

listed! {
    /// OrdStatus(39).
    ///
    /// ```
    /// # use jubafiye::OrdStatus;
    /// assert!(OrdStatus::Expired.is_done() && !OrdStatus::PendingCancel.is_done());
    /// assert!(OrdStatus::DoneForDay.leaves_nothing() && !OrdStatus::DoneForDay.is_done());
    /// assert_eq!((OrdStatus::Filled.code(), OrdStatus::from_code(b'A')), (b'2', Some(OrdStatus::PendingNew)));
    /// assert_eq!(OrdStatus::PartiallyFilled.to_string(), "partially filled");
    /// ```
    #[non_exhaustive]
    OrdStatus: code, from_code {
        PendingNew = b'A' "pending new",
        New = b'0' "new",
        PartiallyFilled = b'1' "partially filled",
        Filled = b'2' "filled",
        PendingCancel = b'6' "pending cancel",
        PendingReplace = b'E' "pending replace",
        Canceled = b'4' "canceled",
        Expired = b'C' "expired",
        Rejected = b'8' "rejected",
        DoneForDay = b'3' "done for day",
    }
}

listed! {
    /// ExecType(150).
    ///
    /// ```
    /// # use jubafiye::ExecType;
    /// assert_eq!((ExecType::Trade.code(), ExecType::from_code(b'5')), (b'F', Some(ExecType::Replaced)));
    /// // a fill of FIX before 4.3, which the book does not take
    /// assert_eq!(ExecType::from_code(b'2'), None);
    /// ```
    ExecType: code, from_code {
        PendingNew = b'A' "pending new",
        New = b'0' "new",
        Trade = b'F' "trade",
        PendingCancel = b'6' "pending cancel",
        Canceled = b'4' "canceled",
        PendingReplace = b'E' "pending replace",
        Replaced = b'5' "replaced",
        Rejected = b'8' "rejected",
        Expired = b'C' "expired",
        Restated = b'D' "restated",
        DoneForDay = b'3' "done for day",
        Status = b'I' "order status",
    }
}

impl OrdStatus {
    /// Whether an order with it has ended: the book keeps such a status.
    /// ```
    /// use jubafiye::OrdStatus;
    ///
    /// assert!(OrdStatus::Filled.is_done() && !OrdStatus::DoneForDay.is_done());
    /// ```
    pub const fn is_done(self) -> bool {
        matches!(self, Self::Filled | Self::Canceled | Self::Expired | Self::Rejected)
    }

    /// Whether an order with it has a LeavesQty of 0, whatever was filled: done, or done for the day. The latter is live all
    /// the same: it may be cancelled and replaced, fills count, and a later report may set another status.
    /// ```
    /// use jubafiye::OrdStatus;
    ///
    /// assert!(OrdStatus::DoneForDay.leaves_nothing() && !OrdStatus::PartiallyFilled.leaves_nothing());
    /// ```
    pub const fn leaves_nothing(self) -> bool {
        self.is_done() || matches!(self, Self::DoneForDay)
    }
}

#[cfg(test)]
mod tests {
    use super::*;

    #[test]
    fn the_codes_are_fixs() {
        fn codes<T>(from: fn(u8) -> Option<T>, to: fn(T) -> u8) -> Vec<u8> {
            (0..=u8::MAX).filter(|&code| from(code).is_some_and(|value| to(value) == code)).collect()
        }
        assert_eq!(codes(Side::from_code, Side::code), b"125");
        assert_eq!(codes(OrdType::from_code, OrdType::code), b"12");
        assert_eq!(codes(TimeInForce::from_code, TimeInForce::code), b"0134");
        assert_eq!(codes(OrdStatus::from_code, OrdStatus::code), b"0123468ACE");
        assert_eq!(codes(ExecType::from_code, ExecType::code), b"034568ACDEFI");
    }
}
