//! What an event concerns, by the names that its record bears. Rests on event.

use crate::event::{Amend, Event};

/// The names by which a shelf finds the book or archive that an event goes to.
#[derive(Clone, Copy, PartialEq, Eq, Debug)]
pub(crate) enum Concern<'a> {
    /// A new order of a client.
    Booking { client: u16, name: &'a [u8], cl_ord_id: &'a [u8] },
    /// A client's cancel or replace.
    Amendment { client: u16, cl_ord_id: &'a [u8], orig_cl_ord_id: &'a [u8] },
    /// The order of a name, at its venue or at the gateway.
    Order(&'a [u8]),
    /// Nothing: no record of an event.
    Nothing,
}

impl<'a> Concern<'a> {
    pub(crate) fn of(record: &'a [u8]) -> Self {
        match Event::read(record) {
            Ok(Event::Book(booking)) => {
                Self::Booking { client: booking.client, name: booking.name, cl_ord_id: booking.cl_ord_id }
            }
            Ok(Event::Cancel(amend)) => Self::amendment(amend),
            Ok(Event::Replace(replace)) => Self::amendment(replace.amend),
            Ok(Event::VenueReport(report)) => Self::under(report.downstream),
            Ok(Event::CancelReject(reject)) => Self::under(reject.downstream),
            Ok(
                Event::UnknownAtVenue { downstream, .. }
                | Event::SendFailed { downstream, .. }
                | Event::SendAgain { downstream, .. },
            ) => Self::under(downstream),
            Ok(Event::GatewayCancel { name }) => Self::Order(name),
            Err(_) => Self::Nothing,
        }
    }

    fn amendment(amend: Amend<'a>) -> Self {
        let Amend { client, cl_ord_id, orig_cl_ord_id, .. } = amend;
        Self::Amendment { client, cl_ord_id, orig_cl_ord_id }
    }

    /// The order of a downstream ClOrdID: its name is what stands before the sign, which no name has.
    fn under(downstream: &'a [u8]) -> Self {
        Self::Order(downstream.split(|&byte| byte == b'-').next().unwrap_or(downstream))
    }
}

#[cfg(test)]
mod tests {
    use super::*;

    #[test]
    fn a_venues_event_concerns_the_order_before_the_sign() {
        for (downstream, name) in
            [("G1", "G1"), ("G1-1", "G1"), ("G12-255", "G12"), ("G1-1-2", "G1"), ("-1", "")]
        {
            let record = Event::SendAgain { venue: 3, downstream: downstream.as_bytes() }.record();
            assert_eq!(Concern::of(&record), Concern::Order(name.as_bytes()), "{downstream}");
        }
        assert_eq!(Concern::of(&Event::GatewayCancel { name: b"G1" }.record()), Concern::Order(b"G1"));
        assert_eq!(Concern::of(&Event::GatewayCancel { name: b"not-a-name" }.record()), Concern::Nothing);
        assert_eq!(Concern::of(b"no record"), Concern::Nothing);
    }
}
