//! A house that owns its tables.

use crate::lent::Lent;
use crate::model::Model;
use crate::names::Restriction;
use crate::refused::Refused;
use crate::rows::{
    Answer, FamilyRow, HouseRow, MarketAnswer, Marks, Record, Security, Trade, MOST_ACCOUNTS, PLACES,
};
use std::fmt;

/// A house, its records and its trades. They are changed by calls alone.
#[derive(Clone, Debug, PartialEq, Eq)]
pub struct House {
    row: HouseRow,
    records: Vec<Record>,
    trades: Vec<Trade>,
}

macro_rules! calls {
    ($($(#[$doc:meta])* $name:ident($($argument:ident: $type:ty),*) -> $answer:ty;)*) => {
        impl House {
            $($(#[$doc])*
            pub fn $name(&mut self, model: &Model<'_>, $($argument: $type),*) -> $answer {
                self.lent().$name(model, $($argument),*)
            })*
        }
    };
}

calls! {
    /// A new trade.
    new_trade(account: u32, trade: Trade) -> Answer;
    /// The first trade of that number goes.
    end_trade(account: u32, number: u32) -> Answer;
    /// Cash comes in, in paise.
    lodge_cash(account: u32, amount: u64) -> Answer;
    /// Cash goes out, in paise.
    draw_cash(account: u32, amount: u64) -> Answer;
    /// Lots of a security come in.
    lodge_security(account: u32, security: u32, lots: u32) -> Answer;
    /// Lots of a security go out.
    draw_security(account: u32, security: u32, lots: u32) -> Answer;
    /// Nothing but the settlement that every accepted call makes.
    show(account: u32) -> Answer;
    /// The set of the model in force.
    set(set: u32) -> MarketAnswer;
    /// What is published of a security: paise per Rs 100 of face, per cent of haircut, listed 0 or 1.
    price(security: u32, price: u32, haircut: u32, listed: u32) -> MarketAnswer;
    /// The step-up.
    step_up(percent: u32) -> MarketAnswer;
    /// The averages of a family: of initial margin in paise, of gross notional in lakh.
    averages(family: impl Into<u32>, initial: u64, gross: u64) -> MarketAnswer;
    /// The triggers and calm marks of a family.
    thresholds(family: impl Into<u32>, marks: Marks) -> MarketAnswer;
    /// A volatility check: five returns in millionths.
    volatility(family: impl Into<u32>, slot: u32, returns: [u32; 5]) -> MarketAnswer;
    /// The end of the day.
    close() -> MarketAnswer;
    /// The current month.
    month(month: u16) -> MarketAnswer;
}

impl House {
    /// A new house; else 29 or 30.
    pub fn open(accounts: u32, month: u16) -> Result<Self, Refused> {
        // More accounts than a house may have are refused before the tables are looked at.
        let rows = if accounts <= MOST_ACCOUNTS { accounts as usize } else { 0 };
        let mut house = House {
            row: HouseRow::default(),
            records: vec![Record::default(); rows],
            trades: vec![Trade::default(); PLACES * rows],
        };
        match house.lent().open(accounts, month) {
            0 => Ok(house),
            number => Err(Refused { number, place: None }),
        }
    }

    fn lent(&mut self) -> Lent<'_> {
        Lent { house: &mut self.row, records: &mut self.records, trades: &mut self.trades }
    }

    pub fn accounts(&self) -> u32 {
        self.row.accounts
    }

    /// The records, the house's own first.
    pub fn records(&self) -> &[Record] {
        &self.records
    }

    /// The record of an account, if the house has it.
    pub fn record(&self, account: u32) -> Option<&Record> {
        self.records.get(account as usize)
    }

    /// The trades of an account, the one accepted first in front, if the house has it.
    pub fn trades(&self, account: u32) -> Option<&[Trade]> {
        let used = usize::from(self.record(account)?.trades);
        self.trades.chunks_exact(PLACES).nth(account as usize)?.get(..used)
    }

    pub fn current_month(&self) -> u16 {
        self.row.month
    }

    pub fn set_in_force(&self) -> u32 {
        self.row.set
    }

    pub fn step_up_in_force(&self) -> u32 {
        self.row.percent
    }

    /// What is known of a family.
    pub fn family(&self, family: crate::names::Family) -> &FamilyRow {
        match family {
            crate::names::Family::Overnight => &self.row.overnight,
            crate::names::Family::Forward => &self.row.forward,
        }
    }

    /// The securities, counted from 0.
    pub fn securities(&self) -> &[Security] {
        &self.row.securities
    }

    /// The records as a table to be written: a heading, and a line for each account.
    pub fn report(&self) -> Report<'_> {
        Report { records: &self.records }
    }
}

/// The records as a table.
#[derive(Clone, Copy, Debug)]
pub struct Report<'h> {
    records: &'h [Record],
}

impl fmt::Display for Report<'_> {
    fn fmt(&self, to: &mut fmt::Formatter<'_>) -> fmt::Result {
        writeln!(
            to,
            "{:<7} {:>19} {:>19} {:>19}  {:<11} {:>6}",
            "account", "obligation", "available", "shortfall", "restriction", "trades"
        )?;
        for (account, record) in self.records.iter().enumerate() {
            let restriction = match Restriction::of(record.restriction()) {
                Some(Restriction::Own) => "own",
                Some(Restriction::Second) => "second",
                Some(Restriction::Both) => "both",
                _ => "none",
            };
            writeln!(
                to,
                "{account:>7} {:>19} {:>19} {:>19}  {restriction:<11} {:>6}",
                record.obligation, record.available, record.shortfall, record.trades
            )?;
        }
        Ok(())
    }
}
