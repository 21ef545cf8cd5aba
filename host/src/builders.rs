//! The large events built step by step, so that a further field breaks nobody: what has no safe default is asked for first. Rests on
//! event, fields, decimal and words.

use crate::decimal::{Price, Qty};
use crate::event::{Amend, Booking, RejectedRequest, Replace, VenueReport};
use crate::fields::{ExecType, OrdStatus, OrdType, Side, TimeInForce};
use crate::words::RiskReject;

impl<'a> Booking<'a> {
    /// A market order without names yet: [`Booking::named`] gives them, and without them the book refuses it.
    ///
    /// ```
    /// # #[cfg(feature = "book")] {
    /// use jubafiye::{Book, Booking, Event, Qty, Side, TimeInForce};
    ///
    /// let booking = Booking::new(7, 3, Side::Buy, Qty::units(100), b"WHEATH27").named(b"G1", b"C1");
    /// let booking = booking.limit("10.25".parse()?).time_in_force(TimeInForce::Day);
    /// assert!(Book::new(10_000).take(&Event::Book(booking))?.messages.is_empty());
    /// # }
    /// # Ok::<(), Box<dyn std::error::Error>>(())
    /// ```
    pub const fn new(client: u16, venue: u16, side: Side, qty: Qty, symbol: &'a [u8]) -> Self {
        Self {
            client,
            venue,
            name: b"",
            cl_ord_id: b"",
            symbol,
            side,
            ord_type: OrdType::Market,
            qty,
            price: None,
            time_in_force: None,
        }
    }

    /// Under this name of ours and this ClOrdID of the client's.
    /// [`Booking::new`] has an example.
    #[must_use]
    pub const fn named(self, name: &'a [u8], cl_ord_id: &'a [u8]) -> Self {
        Self { name, cl_ord_id, ..self }
    }

    /// As a limit order at this price.
    /// [`Booking::new`] has an example.
    #[must_use]
    pub const fn limit(self, price: Price) -> Self {
        Self { ord_type: OrdType::Limit, price: Some(price), ..self }
    }

    /// With this time in force.
    /// [`Booking::new`] has an example.
    #[must_use]
    pub const fn time_in_force(self, time_in_force: TimeInForce) -> Self {
        Self { time_in_force: Some(time_in_force), ..self }
    }
}

impl<'a> Amend<'a> {
    /// A client's cancel, or what a replace has in common with one.
    ///
    /// ```
    /// use jubafiye::{Amend, Side};
    ///
    /// let cancel = Amend::new(7, b"C2", b"C1", b"WHEATH27", Side::Buy);
    /// assert!(!cancel.redelivered && cancel.redelivered().redelivered);
    /// ```
    pub const fn new(
        client: u16,
        cl_ord_id: &'a [u8],
        orig_cl_ord_id: &'a [u8],
        symbol: &'a [u8],
        side: Side,
    ) -> Self {
        Self { client, cl_ord_id, orig_cl_ord_id, symbol, side, redelivered: false }
    }

    /// Marked as one that may have been sent before.
    /// [`Amend::new`] has an example.
    #[must_use]
    pub const fn redelivered(self) -> Self {
        Self { redelivered: true, ..self }
    }
}

impl<'a> Replace<'a> {
    /// A replace of the quantity alone, with the risk verdict on it.
    ///
    /// ```
    /// use jubafiye::{Amend, OrdType, Price, Qty, Replace, Side};
    ///
    /// let amend = Amend::new(7, b"C2", b"C1", b"WHEATH27", Side::Buy);
    /// let replace = Replace::new(amend, Qty::units(80), Ok(())).limit(Price::units(10)).blocked();
    /// assert_eq!((replace.ord_type, replace.blocked), (Some(OrdType::Limit), true));
    /// ```
    pub const fn new(amend: Amend<'a>, qty: Qty, verdict: Result<(), RiskReject>) -> Self {
        Self { amend, qty, verdict, ord_type: None, price: None, time_in_force: None, blocked: false }
    }

    /// To a limit order at this price.
    /// [`Replace::new`] has an example.
    #[must_use]
    pub const fn limit(self, price: Price) -> Self {
        Self { ord_type: Some(OrdType::Limit), price: Some(price), ..self }
    }

    /// To a market order.
    /// ```
    /// use jubafiye::{Amend, OrdType, Qty, Replace, Side};
    ///
    /// let amend = Amend::new(7, b"C2", b"C1", b"WHEATH27", Side::Buy);
    /// let replace = Replace::new(amend, Qty::units(80), Ok(())).market();
    /// assert_eq!((replace.ord_type, replace.price), (Some(OrdType::Market), None));
    /// ```
    #[must_use]
    pub const fn market(self) -> Self {
        Self { ord_type: Some(OrdType::Market), price: None, ..self }
    }

    /// To this time in force.
    /// ```
    /// use jubafiye::{Amend, Qty, Replace, Side, TimeInForce};
    ///
    /// let amend = Amend::new(7, b"C2", b"C1", b"WHEATH27", Side::Buy);
    /// let replace = Replace::new(amend, Qty::units(80), Ok(())).time_in_force(TimeInForce::Gtc);
    /// assert_eq!(replace.time_in_force, Some(TimeInForce::Gtc));
    /// ```
    #[must_use]
    pub const fn time_in_force(self, time_in_force: TimeInForce) -> Self {
        Self { time_in_force: Some(time_in_force), ..self }
    }

    /// Of a client that an operator blocked.
    /// [`Replace::new`] has an example.
    #[must_use]
    pub const fn blocked(self) -> Self {
        Self { blocked: true, ..self }
    }
}

impl<'a> VenueReport<'a> {
    /// A report without a fill of its own: the cumulative quantity and the average price as the venue gives them.
    ///
    /// ```
    /// use jubafiye::{ExecType, OrdStatus, Price, Qty, VenueReport};
    ///
    /// let fill = VenueReport::new(3, b"G1", ExecType::Trade, Qty::units(40), Price::units(10))
    ///     .status(OrdStatus::PartiallyFilled)
    ///     .last(Qty::units(40), Price::units(10))
    ///     .venue_order_id(b"V-1");
    /// assert_eq!((fill.last_qty, fill.reason), (Qty::units(40), None));
    /// ```
    pub const fn new(
        venue: u16,
        downstream: &'a [u8],
        exec_type: ExecType,
        cum_qty: Qty,
        avg_px: Price,
    ) -> Self {
        Self {
            venue,
            downstream,
            exec_type,
            status: None,
            last_qty: Qty(0),
            last_px: Price(0),
            cum_qty,
            avg_px,
            venue_order_id: None,
            reason: None,
            text: None,
        }
    }

    /// With this fill: LastQty and LastPx.
    /// [`VenueReport::new`] has an example.
    #[must_use]
    pub const fn last(self, last_qty: Qty, last_px: Price) -> Self {
        Self { last_qty, last_px, ..self }
    }
}

impl<'a> RejectedRequest<'a> {
    /// A refusal that says nothing else.
    ///
    /// ```
    /// use jubafiye::RejectedRequest;
    ///
    /// let reject = RejectedRequest::new(3, b"G1-1").reason(99).text(b"too late");
    /// assert_eq!((reject.status, reject.reason), (None, Some(99)));
    /// ```
    pub const fn new(venue: u16, downstream: &'a [u8]) -> Self {
        Self { venue, downstream, status: None, venue_order_id: None, reason: None, text: None }
    }
}

macro_rules! what_a_venue_may_add {
    ($($name:ident)*) => {
        $(impl<'a> $name<'a> {
            /// With this OrdStatus.
            #[doc = concat!("[`", stringify!($name), "`] has an example.")]
            #[must_use]
            pub const fn status(self, status: OrdStatus) -> Self {
                Self { status: Some(status), ..self }
            }

            /// With the venue's OrderID.
            #[doc = concat!("[`", stringify!($name), "`] has an example.")]
            #[must_use]
            pub const fn venue_order_id(self, venue_order_id: &'a [u8]) -> Self {
                Self { venue_order_id: Some(venue_order_id), ..self }
            }

            /// With this reason.
            #[doc = concat!("[`", stringify!($name), "`] has an example.")]
            #[must_use]
            pub const fn reason(self, reason: u32) -> Self {
                Self { reason: Some(reason), ..self }
            }

            /// With this text, 1 to 64 bytes.
            #[doc = concat!("[`", stringify!($name), "`] has an example.")]
            #[must_use]
            pub const fn text(self, text: &'a [u8]) -> Self {
                Self { text: Some(text), ..self }
            }
        })*
    };
}

what_a_venue_may_add!(VenueReport RejectedRequest);
