//! The profiles: what kinds of events a list has and how far it strays from a usual day.

/// Which quantities and prices are drawn.
#[derive(Debug, Clone, Copy, PartialEq, Eq)]
pub enum Values {
    /// Whole shares and ticks.
    Usual,
    /// 0, 1, the most and their neighbours, and any magnitude.
    Edges,
}

#[derive(Debug, Clone, Copy, PartialEq, Eq)]
pub struct Profile {
    pub name: &'static str,
    /// Clients and venues are drawn from this many.
    pub clients: u64,
    pub venues: u64,
    /// No booking is drawn if this many orders are live.
    pub orders: usize,
    /// The setting is drawn from this range.
    pub setting: (u32, u32),
    /// How often each kind of event, 1 to 9, is drawn.
    pub weights: [u64; 9],
    /// Percent of details that are as a well-behaved client or venue would send them.
    pub fitting: u64,
    /// Percent of records that are damaged.
    pub damaged: u64,
    /// Percent of records that came before.
    pub repeated: u64,
    /// Percent of answer buffers that are not 1,024 bytes.
    pub buffers: u64,
    pub values: Values,
    /// Whether texts are of every length and byte.
    pub any_texts: bool,
    /// Percent of reports and refusals that end an order's day or, if it is ended, go on.
    pub days: u64,
}

const MIXED: Profile = Profile {
    name: "mixed",
    clients: 3,
    venues: 3,
    orders: 12,
    setting: (40, 200),
    weights: [8, 12, 16, 36, 2, 12, 5, 6, 7],
    fitting: 70,
    damaged: 1,
    repeated: 5,
    buffers: 1,
    values: Values::Usual,
    any_texts: false,
    days: 0,
};

pub const PROFILES: [Profile; 10] = [
    // A usual day: about 30 orders and 150 requests after 400 events.
    Profile {
        name: "realistic",
        clients: 4,
        venues: 3,
        orders: 20,
        setting: (10_000, 10_000),
        weights: [12, 30, 40, 48, 0, 12, 1, 0, 4],
        fitting: 98,
        damaged: 0,
        repeated: 1,
        buffers: 0,
        ..MIXED
    },
    MIXED,
    // Replaces accepted, refused and crossed with fills, on few orders.
    Profile { name: "replaces", orders: 4, weights: [4, 4, 30, 50, 1, 12, 2, 6, 1], fitting: 75, ..MIXED },
    // Gateway cancels refused, failed, waiting and resumed.
    Profile {
        name: "gateway-cancels",
        orders: 5,
        clients: 2,
        weights: [4, 8, 6, 16, 1, 40, 10, 8, 20],
        fitting: 72,
        ..MIXED
    },
    // Failed sends told twice, and sends again of every kind.
    Profile { name: "sends", orders: 8, weights: [10, 16, 16, 14, 0, 8, 22, 24, 10], fitting: 65, ..MIXED },
    // Few orders that end often: late reports and fills on done orders.
    Profile { name: "reports", orders: 6, weights: [12, 8, 8, 76, 6, 6, 1, 2, 2], fitting: 35, ..MIXED },
    // Settings that a client soon reaches.
    Profile { name: "small-settings", setting: (0, 12), orders: 10, ..MIXED },
    // Both tables full.
    Profile {
        name: "full-tables",
        orders: 70,
        setting: (300, 300),
        weights: [36, 96, 16, 10, 1, 12, 2, 2, 8],
        fitting: 94,
        ..MIXED
    },
    // Quantities and prices at 0, 1 and their limits; texts of every length and byte.
    Profile { name: "limits", values: Values::Edges, any_texts: true, orders: 20, ..MIXED },
    // Records damaged in each bit, each cut, each code; answer buffers of every kind.
    Profile { name: "damaged", damaged: 60, buffers: 15, any_texts: true, ..MIXED },
];

/// Days on which venues send OrdStatus 3, which the Rust does not have; of the others it comes only in
/// records that are damaged.
pub const DAYS: [Profile; 7] = [
    Profile { name: "days", days: 25, ..MIXED },
    Profile { name: "days, realistic", days: 12, ..PROFILES[0] },
    Profile { name: "days, replaces", days: 30, ..PROFILES[2] },
    Profile { name: "days, gateway-cancels", days: 35, ..PROFILES[3] },
    Profile { name: "days, sends", days: 45, ..PROFILES[4] },
    Profile { name: "days, reports", days: 30, ..PROFILES[5] },
    Profile { name: "days, limits", days: 25, ..PROFILES[8] },
];

/// Of the profiles without 3 and those with it, the one for a seed.
pub fn any(seed: u64) -> &'static Profile {
    at(seed as usize % ALL)
}

/// The same, but not the realistic one without 3: most events meet something odd.
pub fn odd(seed: u64) -> &'static Profile {
    at(1 + seed as usize % (ALL - 1))
}

const ALL: usize = PROFILES.len() + DAYS.len();

fn at(at: usize) -> &'static Profile {
    if at < PROFILES.len() { &PROFILES[at] } else { &DAYS[at - PROFILES.len()] }
}

/// The profile of that name.
pub fn named(name: &str) -> Option<&'static Profile> {
    PROFILES.iter().find(|profile| profile.name == name)
}
