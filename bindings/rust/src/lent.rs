//! Calls on tables that lie elsewhere and may hold anything.

use crate::model::Model;
use crate::raw;
use crate::rows::{Answer, HouseRow, MarketAnswer, Marks, Record, Trade};

/// A house and its two tables, lent for some calls. Any numbers may stand in all three, and the tables may have any
/// lengths: a call answers them.
#[derive(Debug)]
pub struct Lent<'t> {
    pub house: &'t mut HouseRow,
    pub records: &'t mut [Record],
    pub trades: &'t mut [Trade],
}

macro_rules! calls {
    ($($(#[$doc:meta])* $name:ident, $raw:ident($($argument:ident: $type:ty),*) -> $answer:ty;)*) => {
        impl Lent<'_> {
            $($(#[$doc])*
            pub fn $name(&mut self, model: &Model<'_>, $($argument: $type),*) -> $answer {
                // SAFETY: house, records and trades are exclusive borrows, so they are aligned, initialised, good for
                // the lengths given, apart from each other and from the model's numbers, and nobody else reads or
                // writes them. The model's numbers passed their checks and are as they were then (see `Model`), and
                // the model stays borrowed until the call returns.
                unsafe {
                    raw::$raw(
                        self.house,
                        model.raw(),
                        self.records.as_mut_ptr(),
                        self.records.len(),
                        self.trades.as_mut_ptr(),
                        self.trades.len(),
                        $($argument.into()),*
                    )
                }
            })*
        }
    };
}

calls! {
    /// A new trade.
    new_trade, domirelash_new_trade(account: u32, trade: Trade) -> Answer;
    /// The first trade of that number goes.
    end_trade, domirelash_end_trade(account: u32, number: u32) -> Answer;
    /// Cash comes in, in paise.
    lodge_cash, domirelash_lodge_cash(account: u32, amount: u64) -> Answer;
    /// Cash goes out, in paise.
    draw_cash, domirelash_draw_cash(account: u32, amount: u64) -> Answer;
    /// Lots of a security come in.
    lodge_security, domirelash_lodge_security(account: u32, security: u32, lots: u32) -> Answer;
    /// Lots of a security go out.
    draw_security, domirelash_draw_security(account: u32, security: u32, lots: u32) -> Answer;
    /// Nothing but the settlement that every accepted call makes.
    show, domirelash_show(account: u32) -> Answer;
    /// The set of the model in force.
    set, domirelash_set(set: u32) -> MarketAnswer;
    /// What is published of a security: paise per Rs 100 of face, per cent of haircut, listed 0 or 1.
    price, domirelash_price(security: u32, price: u32, haircut: u32, listed: u32) -> MarketAnswer;
    /// The step-up.
    step_up, domirelash_step_up(percent: u32) -> MarketAnswer;
    /// The averages of a family: of initial margin, of gross notional.
    averages, domirelash_averages(family: impl Into<u32>, initial: u64, gross: u64) -> MarketAnswer;
    /// The triggers and calm marks of a family.
    thresholds, domirelash_thresholds(family: impl Into<u32>, marks: Marks) -> MarketAnswer;
    /// A volatility check: five returns in millionths.
    volatility, domirelash_volatility(family: impl Into<u32>, slot: u32, returns: [u32; 5]) -> MarketAnswer;
    /// The end of the day.
    close, domirelash_close() -> MarketAnswer;
    /// The current month.
    month, domirelash_month(month: u16) -> MarketAnswer;
}

impl From<[u32; 5]> for raw::Returns {
    fn from(of: [u32; 5]) -> Self {
        raw::Returns { of }
    }
}

impl Lent<'_> {
    /// Opens the house, whatever stood in it and in the tables: 0, or 29, 30, 1.
    pub fn open(&mut self, accounts: u32, month: u16) -> u8 {
        // SAFETY: house, records and trades are exclusive borrows, so they are aligned, initialised, good for the
        // lengths given, apart from each other, and nobody else reads or writes them.
        unsafe {
            raw::domirelash_open(
                self.house,
                accounts,
                month,
                self.records.as_mut_ptr(),
                self.records.len(),
                self.trades.as_mut_ptr(),
                self.trades.len(),
            )
        }
    }
}
