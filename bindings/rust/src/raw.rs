//! The functions of the header, and its two structs that hold pointers. Nothing here leaves the crate.

use crate::rows::{Answer, HouseRow, MarketAnswer, Marks, Record, Trade};
use std::mem::{align_of, offset_of, size_of};

pub(crate) const TABLE: u32 = 0;
pub(crate) const KNOTS: u32 = 1;

#[repr(C)]
#[derive(Clone, Copy)]
pub(crate) struct Numbers {
    pub kind: u32,
    pub sets: u32,
    pub scenarios: u32,
    pub rates: *const u32,
    pub rates_len: usize,
    pub ticks: *const u32,
    pub ticks_len: usize,
    pub changes: *const i32,
    pub changes_len: usize,
}

#[repr(C)]
#[derive(Clone, Copy)]
pub(crate) struct Model {
    pub joined: u32,
    pub first: Numbers,
    pub second: Numbers,
}

#[repr(C)]
#[derive(Clone, Copy)]
pub(crate) struct Returns {
    pub of: [u32; 5],
}

const _: () = {
    assert!(size_of::<Numbers>() == 64 && align_of::<Numbers>() == 8);
    assert!(offset_of!(Numbers, sets) == 4 && offset_of!(Numbers, scenarios) == 8);
    assert!(offset_of!(Numbers, rates) == 16 && offset_of!(Numbers, rates_len) == 24);
    assert!(offset_of!(Numbers, ticks) == 32 && offset_of!(Numbers, ticks_len) == 40);
    assert!(offset_of!(Numbers, changes) == 48 && offset_of!(Numbers, changes_len) == 56);
    assert!(size_of::<Model>() == 136 && align_of::<Model>() == 8);
    assert!(offset_of!(Model, first) == 8 && offset_of!(Model, second) == 72);
    assert!(size_of::<Returns>() == 20);
    assert!(size_of::<usize>() == 8);
};

/// Declares calls that begin with a house, a model and the two tables.
macro_rules! calls {
    ($($house:tt $name:ident($($argument:ident: $type:ty),*) -> $answer:ty;)*) => {
        unsafe extern "C" {
            $(pub fn $name(
                house: calls!(@ $house),
                model: Model,
                records: *mut Record,
                records_len: usize,
                trades: *mut Trade,
                trades_len: usize,
                $($argument: $type),*
            ) -> $answer;)*
        }
    };
    (@ reads) => { *const HouseRow };
    (@ writes) => { *mut HouseRow };
}

calls! {
    reads domirelash_new_trade(account: u32, trade: Trade) -> Answer;
    reads domirelash_end_trade(account: u32, number: u32) -> Answer;
    reads domirelash_lodge_cash(account: u32, amount: u64) -> Answer;
    reads domirelash_draw_cash(account: u32, amount: u64) -> Answer;
    reads domirelash_lodge_security(account: u32, security: u32, lots: u32) -> Answer;
    reads domirelash_draw_security(account: u32, security: u32, lots: u32) -> Answer;
    reads domirelash_show(account: u32) -> Answer;
    writes domirelash_set(set: u32) -> MarketAnswer;
    writes domirelash_price(security: u32, price: u32, haircut: u32, listed: u32) -> MarketAnswer;
    writes domirelash_step_up(percent: u32) -> MarketAnswer;
    writes domirelash_averages(family: u32, initial: u64, gross: u64) -> MarketAnswer;
    writes domirelash_thresholds(family: u32, marks: Marks) -> MarketAnswer;
    writes domirelash_volatility(family: u32, slot: u32, returns: Returns) -> MarketAnswer;
    writes domirelash_close() -> MarketAnswer;
    writes domirelash_month(month: u16) -> MarketAnswer;
}

unsafe extern "C" {
    pub fn domirelash_check_table(numbers: Numbers, place: *mut usize) -> u32;
    pub fn domirelash_check_knots(numbers: Numbers, place: *mut usize) -> u32;
    pub safe fn domirelash_check_joined(first: u32, second: u32) -> u32;
    pub fn domirelash_open(
        house: *mut HouseRow,
        accounts: u32,
        month: u16,
        records: *mut Record,
        records_len: usize,
        trades: *mut Trade,
        trades_len: usize,
    ) -> u8;
}
