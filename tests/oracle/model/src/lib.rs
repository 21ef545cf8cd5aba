//! The machine of docs/SCOPE.md over the gateway's own book: written from the desk's documents alone, it shares
//! no code with the port.

pub mod answer;
pub mod codes;
pub mod day;
pub mod day_judge;
pub mod demand;
pub mod done_for_day;
pub mod events;
pub mod filled;
pub mod machine;
pub mod numbers;
pub mod outcomes;
pub mod record;
pub mod rules;
pub mod short;
pub mod watch;

pub use machine::Machine;
