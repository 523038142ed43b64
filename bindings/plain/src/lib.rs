//! The rules of the margin engine in ordinary Rust, written from docs/RULES.md and docs/CALLS.md alone.
//!
//! A [`House`] holds the number of accounts and the market state. With every call the caller lends it a
//! [`Model`] and the two tables, records and trade places, which an accepted call changes in place.

mod flags;
mod house;
mod margin;
mod market;
mod model;
mod refusal;
mod tables;

pub use house::{restriction, AccountCall, Answer, Call, House, MarketAnswer, Reply};
pub use market::{Averages, Day, Family, Listing, Market, MarketCall, Thresholds};
pub use model::{Knots, Model, Numbers, Refused, Table};
pub use refusal::Refusal;
pub use tables::{Record, Trade, ACCOUNTS, PLACES, SECURITIES};
