//! Stand-in for the gateway's `risk` module, which docs/SCOPE.md leaves out. A replace event brings
//! its verdict; the book finds it here instead of asking for it.

use std::collections::{BTreeMap, HashMap};

use serde::Serialize;
use turbojet::fields::{CompactString, Decimal};

use crate::book::{ClientId, OrderId, Side};

/// The risk verdicts 1 to 7, in their order.
#[derive(Debug, Clone, Copy, PartialEq, Eq)]
pub enum RiskReject {
    Symbol,
    OrderQty,
    NoReferencePrice,
    Notional,
    PriceBand,
    SelfTrade,
    Credit,
}

impl RiskReject {
    pub const ALL: [Self; 7] = [
        Self::Symbol,
        Self::OrderQty,
        Self::NoReferencePrice,
        Self::Notional,
        Self::PriceBand,
        Self::SelfTrade,
        Self::Credit,
    ];

    pub fn text(self) -> &'static str {
        match self {
            Self::Symbol => "risk: symbol",
            Self::OrderQty => "risk: order quantity",
            Self::NoReferencePrice => "risk: no reference price",
            Self::Notional => "risk: notional",
            Self::PriceBand => "risk: price band",
            Self::SelfTrade => "risk: self-trade",
            Self::Credit => "risk: credit",
        }
    }
}

#[derive(Debug, Clone, Default, PartialEq, Eq, Serialize)]
pub struct Limits;

#[derive(Debug, Clone, Default)]
pub struct Config {
    pub defaults: Limits,
    pub by_comp_id: BTreeMap<CompactString, Limits>,
}

impl Config {
    pub fn limits(&self, comp_id: &str) -> &Limits {
        self.by_comp_id.get(comp_id).unwrap_or(&self.defaults)
    }
}

/// A new order or replace to be judged.
pub struct Proposed<'a> {
    pub client: &'a ClientId,
    pub symbol: &'a CompactString,
    pub venue: &'a CompactString,
    pub side: Side,
    pub qty: Decimal,
    pub leaves: Decimal,
    pub price: Option<Decimal>,
    pub replaces: Option<OrderId>,
}

/// What a live order counts for.
pub struct Exposure {
    pub client: ClientId,
    pub symbol: CompactString,
    pub venue: CompactString,
    pub side: Side,
    pub price: Option<Decimal>,
    pub notional: Decimal,
}

/// The verdict that the replace event in hand brings, if it is a refusal.
#[derive(Debug, Default)]
pub struct State {
    pub verdict: Option<RiskReject>,
    references: HashMap<CompactString, Decimal>,
}

pub fn check(_limits: &Limits, _proposed: &Proposed<'_>, state: &State) -> Result<(), RiskReject> {
    state.verdict.map_or(Ok(()), Err)
}

pub fn notional(_qty: Decimal, _price: Decimal) -> Decimal {
    Decimal::ZERO
}

impl State {
    pub fn risk_price(&self, _symbol: &CompactString, _price: Option<Decimal>) -> Decimal {
        Decimal::ZERO
    }

    pub fn track(&mut self, _id: OrderId, _exposure: Option<Exposure>) {}

    pub fn fill(
        &mut self,
        _client: &ClientId,
        _symbol: &CompactString,
        _qty: Decimal,
        _price: Decimal,
        _reference: Option<Decimal>,
    ) {
    }

    pub fn new_day(&mut self, _client: &ClientId) {}

    pub fn restore(
        &mut self,
        references: HashMap<CompactString, Decimal>,
        _filled: HashMap<ClientId, Decimal>,
    ) {
        self.references = references;
    }

    pub fn check(&self, _exposures: impl Iterator<Item = (OrderId, Exposure)>) {}

    pub fn reference(&self, symbol: &str) -> Option<Decimal> {
        self.references.get(symbol).copied()
    }

    pub fn references(&self) -> &HashMap<CompactString, Decimal> {
        &self.references
    }

    pub fn filled(&self, _client: &ClientId) -> Decimal {
        Decimal::ZERO
    }

    pub fn sessions(&self) -> impl Iterator<Item = (&ClientId, Decimal, Decimal)> {
        std::iter::empty()
    }
}
