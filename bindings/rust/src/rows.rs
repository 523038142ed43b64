//! The plain rows of the header, in its layout. Every number in them may be any number.

use std::mem::{align_of, offset_of, size_of};

/// The most accounts of a house.
pub const MOST_ACCOUNTS: u32 = 32;
/// Places for trades of one account.
pub const PLACES: usize = 64;
/// Securities, counted from 0.
pub const SECURITIES: usize = 32;

/// A trade, or all zeros for a free place. Account `i` has the places `64 * i` to `64 * i + 63`.
#[repr(C)]
#[derive(Clone, Copy, Debug, Default, PartialEq, Eq)]
pub struct Trade {
    pub number: u32,
    /// 0 MIBOR, 1 MIOIS, 2 MIFOR, 3 modified MIFOR.
    pub benchmark: u8,
    /// 0 pay, 1 receive.
    pub side: u8,
    /// A month, counted from January 2000 as 0.
    pub maturity: u16,
    /// In lakh.
    pub notional: u32,
    /// In 0.0001 per cent.
    pub rate: u32,
}

/// The concentration levels of a family, each 0 to 2.
#[repr(C)]
#[derive(Clone, Copy, Debug, Default, PartialEq, Eq)]
pub struct Levels {
    pub initial: u8,
    pub gross: u8,
}

/// The record of an account; account 0 is the house's own. Amounts are in paise.
#[repr(C)]
#[derive(Clone, Copy, Debug, Default, PartialEq, Eq)]
pub struct Record {
    pub cash: u64,
    pub obligation: u64,
    pub available: u64,
    pub shortfall: u64,
    pub lots: [u32; SECURITIES],
    /// MIBOR and MIOIS.
    pub overnight: Levels,
    /// MIFOR and modified MIFOR.
    pub forward: Levels,
    pub trades: u8,
    pub own: u8,
    pub second: u8,
}

#[repr(C)]
#[derive(Clone, Copy, Debug, Default, PartialEq, Eq)]
pub struct Security {
    /// Paise per Rs 100 of face.
    pub price: u32,
    /// Per cent.
    pub haircut: u32,
    /// 0 no, 1 yes.
    pub listed: u8,
}

/// What is known of a family of benchmarks.
#[repr(C)]
#[derive(Clone, Copy, Debug, Default, PartialEq, Eq)]
pub struct FamilyRow {
    /// Average of initial margin, read where averages are given.
    pub initial: u64,
    /// Average of gross notional, read where averages are given.
    pub gross: u64,
    /// The per cent in force, in tenths.
    pub volatility: u32,
    /// Millionths, read where thresholds are given.
    pub triggers: [u32; 5],
    /// Calm marks in millionths, read where thresholds are given.
    pub marks: [u32; 5],
    /// 0 nothing, 1 averages, 2 thresholds, 3 both.
    pub given: u8,
    /// The last slot checked since the last close, 0 for none.
    pub slot: u8,
    pub checks: u8,
    /// 1 while every return was below its calm mark, else 0.
    pub calm: u8,
}

/// How many accounts a house has, and the market. It is plain memory: every call checks it anew.
#[repr(C)]
#[derive(Clone, Copy, Debug, Default, PartialEq, Eq)]
pub struct HouseRow {
    /// MIBOR and MIOIS.
    pub overnight: FamilyRow,
    /// MIFOR and modified MIFOR.
    pub forward: FamilyRow,
    pub accounts: u32,
    /// The set of the model in force.
    pub set: u32,
    /// The step-up.
    pub percent: u32,
    pub month: u16,
    pub securities: [Security; SECURITIES],
}

/// The answer of an account call.
#[repr(C)]
#[derive(Clone, Copy, Debug, Default, PartialEq, Eq)]
pub struct Answer {
    /// 0 if accepted, else the number of the refusal.
    pub number: u8,
    /// 0 none, 1 own flag, 2 second flag, 3 both.
    pub restriction: u8,
    pub obligation: u64,
    pub available: u64,
    pub shortfall: u64,
}

/// The answer of a market call.
#[repr(C)]
#[derive(Clone, Copy, Debug, Default, PartialEq, Eq)]
pub struct MarketAnswer {
    /// 0 if accepted, else the number of the refusal.
    pub number: u8,
    pub month: u16,
    pub set: u32,
    /// Volatility per cent of the family, in tenths.
    pub overnight: u32,
    pub forward: u32,
}

/// The triggers and calm marks of a family, in millionths.
#[repr(C)]
#[derive(Clone, Copy, Debug, Default, PartialEq, Eq)]
pub struct Marks {
    pub triggers: [u32; 5],
    pub calm: [u32; 5],
}

impl Answer {
    pub fn accepted(&self) -> bool {
        self.number == 0
    }
}

impl MarketAnswer {
    pub fn accepted(&self) -> bool {
        self.number == 0
    }
}

impl Record {
    /// 0 none, 1 own flag, 2 second flag, 3 both.
    pub fn restriction(&self) -> u8 {
        u8::from(self.own == 1) + if self.second == 1 { 2 } else { 0 }
    }
}

const _: () = {
    assert!(size_of::<Trade>() == 16 && align_of::<Trade>() == 4);
    assert!(offset_of!(Trade, benchmark) == 4 && offset_of!(Trade, side) == 5);
    assert!(offset_of!(Trade, maturity) == 6);
    assert!(offset_of!(Trade, notional) == 8 && offset_of!(Trade, rate) == 12);

    assert!(size_of::<Levels>() == 2 && offset_of!(Levels, gross) == 1);

    assert!(size_of::<Record>() == 168 && align_of::<Record>() == 8);
    assert!(offset_of!(Record, obligation) == 8 && offset_of!(Record, available) == 16);
    assert!(offset_of!(Record, shortfall) == 24 && offset_of!(Record, lots) == 32);
    assert!(offset_of!(Record, overnight) == 160 && offset_of!(Record, forward) == 162);
    assert!(offset_of!(Record, trades) == 164 && offset_of!(Record, own) == 165);
    assert!(offset_of!(Record, second) == 166);

    assert!(size_of::<Security>() == 12 && offset_of!(Security, haircut) == 4);
    assert!(offset_of!(Security, listed) == 8);

    assert!(size_of::<FamilyRow>() == 64 && offset_of!(FamilyRow, gross) == 8);
    assert!(offset_of!(FamilyRow, volatility) == 16 && offset_of!(FamilyRow, triggers) == 20);
    assert!(offset_of!(FamilyRow, marks) == 40 && offset_of!(FamilyRow, given) == 60);
    assert!(offset_of!(FamilyRow, slot) == 61 && offset_of!(FamilyRow, checks) == 62);
    assert!(offset_of!(FamilyRow, calm) == 63);

    assert!(size_of::<HouseRow>() == 528 && align_of::<HouseRow>() == 8);
    assert!(offset_of!(HouseRow, forward) == 64 && offset_of!(HouseRow, accounts) == 128);
    assert!(offset_of!(HouseRow, set) == 132 && offset_of!(HouseRow, percent) == 136);
    assert!(offset_of!(HouseRow, month) == 140 && offset_of!(HouseRow, securities) == 144);

    assert!(size_of::<Answer>() == 32 && offset_of!(Answer, restriction) == 1);
    assert!(offset_of!(Answer, obligation) == 8 && offset_of!(Answer, available) == 16);
    assert!(offset_of!(Answer, shortfall) == 24);

    assert!(size_of::<MarketAnswer>() == 16 && offset_of!(MarketAnswer, month) == 2);
    assert!(offset_of!(MarketAnswer, set) == 4 && offset_of!(MarketAnswer, overnight) == 8);
    assert!(offset_of!(MarketAnswer, forward) == 12);

    assert!(size_of::<Marks>() == 40 && offset_of!(Marks, calm) == 20);
};
