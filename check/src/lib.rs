//! Compares the proved library with plain Rust and the second implementation, call by call, over random and
//! hostile input, and checks the claim of demand 3 after each call of a run.

pub mod balances;
pub mod compare;
pub mod draw;
pub mod events;
pub mod hostile;
pub mod hours;
pub mod lead_times;
pub mod ledger;
pub mod peer_calls;
pub mod runs;
pub mod seen;
pub mod stocks;
pub mod tally;
pub mod views;
pub mod world;

pub use peer::under_way::Wrong;
