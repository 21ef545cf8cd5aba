//! Kinds of requests and stages of a gateway cancel, as they stand in the book (docs/LAYOUT.md). Rests on list.

use crate::list::listed;

listed! {
    /// What a request in the book was sent as.
    ///
    /// ```
    /// use jubafiye::SentKind;
    ///
    /// assert_eq!(SentKind::from_number(3), Some(SentKind::GatewayCancel));
    /// assert_eq!((SentKind::NewOrder.number(), SentKind::NewOrder.to_string()), (0, "new order".into()));
    /// ```
    SentKind: number, from_number {
        NewOrder = 0 "new order",
        ClientCancel = 1 "client's cancel",
        ClientReplace = 2 "client's replace",
        GatewayCancel = 3 "gateway's cancel",
    }
}

/// The kind of the gateway's cancels, as it stands in a request.
pub(crate) const GATEWAY_CANCEL: u8 = SentKind::GatewayCancel.number();

listed! {
    /// How far the gateway's own cancel of an order is.
    ///
    /// ```
    /// use jubafiye::Stage;
    ///
    /// assert_eq!((Stage::Sent.number(), Stage::from_number(3)), (2, Some(Stage::Stuck)));
    /// assert_eq!(Stage::Stuck.to_string(), "given up");
    /// ```
    Stage: number, from_number {
        Unsent = 1 "waits to be sent",
        Sent = 2 "sent",
        Stuck = 3 "given up",
    }
}
