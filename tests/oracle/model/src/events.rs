//! The nine kinds of event as drafts with their required fields.

use crate::record::*;

/// What a client names an order by in a request.
#[derive(Debug, Clone, PartialEq, Eq)]
pub struct Named {
    pub client: u16,
    pub symbol: Vec<u8>,
    pub side: u8,
}

/// A venue report's quantities and prices.
#[derive(Debug, Clone, Copy, PartialEq, Eq, Default)]
pub struct Filled {
    pub last_qty: u64,
    pub last_px: u64,
    pub cum_qty: u64,
    pub avg_px: u64,
}

/// A market order; a price makes it a limit order.
pub fn book(venue: u16, named: &Named, name: &[u8], cl_ord_id: &[u8], qty: u64, price: Option<u64>) -> Draft {
    let ord_type = if price.is_some() { b'2' } else { b'1' };
    Draft::new(BOOK)
        .number(CLIENT, named.client)
        .number(VENUE, venue)
        .text(NAME, name)
        .text(CL_ORD_ID, cl_ord_id)
        .text(SYMBOL, &named.symbol)
        .number(SIDE, named.side)
        .number(ORD_TYPE, ord_type)
        .number(QTY, qty)
        .maybe(price, |draft, price| draft.number(PRICE, price))
}

pub fn cancel(named: &Named, cl_ord_id: &[u8], orig_cl_ord_id: &[u8]) -> Draft {
    request(CANCEL, named, cl_ord_id, orig_cl_ord_id)
}

/// A replace that passes the risk checks.
pub fn replace(
    named: &Named,
    cl_ord_id: &[u8],
    orig_cl_ord_id: &[u8],
    qty: u64,
    price: Option<u64>,
) -> Draft {
    request(REPLACE, named, cl_ord_id, orig_cl_ord_id)
        .number(QTY, qty)
        .number(VERDICT, 0_u8)
        .maybe(price, |draft, price| draft.number(PRICE, price))
}

fn request(kind: u8, named: &Named, cl_ord_id: &[u8], orig_cl_ord_id: &[u8]) -> Draft {
    Draft::new(kind)
        .number(CLIENT, named.client)
        .text(CL_ORD_ID, cl_ord_id)
        .text(ORIG_CL_ORD_ID, orig_cl_ord_id)
        .text(SYMBOL, &named.symbol)
        .number(SIDE, named.side)
}

pub fn report(venue: u16, downstream: &[u8], exec_type: u8, status: Option<u8>, filled: Filled) -> Draft {
    naming(VENUE_REPORT, venue, downstream)
        .number(EXEC_TYPE, exec_type)
        .maybe(status, |draft, status| draft.number(ORD_STATUS, status))
        .number(LAST_QTY, filled.last_qty)
        .number(LAST_PX, filled.last_px)
        .number(CUM_QTY, filled.cum_qty)
        .number(AVG_PX, filled.avg_px)
}

pub fn unknown_at_venue(venue: u16, downstream: &[u8]) -> Draft {
    naming(UNKNOWN_AT_VENUE, venue, downstream)
}

pub fn cancel_reject(venue: u16, downstream: &[u8], status: Option<u8>, reason: Option<u32>) -> Draft {
    naming(CANCEL_REJECT, venue, downstream)
        .maybe(status, |draft, status| draft.number(ORD_STATUS, status))
        .maybe(reason, |draft, reason| draft.number(REASON, reason))
}

pub fn send_failed(venue: u16, downstream: &[u8], text: &[u8]) -> Draft {
    naming(SEND_FAILED, venue, downstream).text(TEXT, text)
}

pub fn send_again(venue: u16, downstream: &[u8]) -> Draft {
    naming(SEND_AGAIN, venue, downstream)
}

pub fn gateway_cancel(name: &[u8]) -> Draft {
    Draft::new(GATEWAY_CANCEL).text(NAME, name)
}

fn naming(kind: u8, venue: u16, downstream: &[u8]) -> Draft {
    Draft::new(kind).number(VENUE, venue).text(DOWNSTREAM, downstream)
}
