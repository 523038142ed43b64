//! The margin engine for callers in Rust: a safe wrapper of its static library (`bindings/include/domirelash.h`).
//!
//! A [`House`] owns its two tables and is changed by calls alone. Every call brings a [`Model`], which can be made
//! only through the library's checks. [`Lent`] makes the same calls on tables that lie elsewhere and may hold anything.
//! What a call asks, changes and answers is in `docs/CALLS.md`; what the figures mean, in `docs/RULES.md`.

#![deny(unsafe_op_in_unsafe_fn)]

mod house;
mod lent;
mod model;
mod names;
mod raw;
mod refused;
mod rows;

pub use house::{House, Report};
pub use lent::Lent;
pub use model::{Model, Numbers, Single};
pub use names::{Benchmark, Family, Restriction, Side};
pub use refused::{question, Refused};
pub use rows::{
    Answer, FamilyRow, HouseRow, Levels, MarketAnswer, Marks, Record, Security, Trade, MOST_ACCOUNTS, PLACES,
    SECURITIES,
};
