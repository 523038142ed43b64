//! The steps of a list, and how they are printed.

use std::fmt;

use plain::{AccountCall, Call, MarketCall};

/// How the numbers of a model are drawn.
#[derive(Clone, Copy, Debug, PartialEq, Eq)]
pub enum Shape {
    /// All zeros.
    Nothing,
    /// Changes from -3 to 3, so that losses tie.
    Small,
    /// Rates about 6.5 per cent and changes of some hundred rupees.
    Usual,
    /// As far apart as can be.
    Extreme,
    /// Anything in range.
    Any,
}

/// What is wrong in the numbers of a model.
#[derive(Clone, Copy, Debug, PartialEq, Eq)]
pub enum Flaw {
    /// One of the three lists is longer or shorter.
    Length { list: u8, by: i8 },
    /// One number of a list is another.
    Number { list: u8, at: u64, value: i64 },
    /// One of each of the last two lists is another.
    Two { at: u64, tick: u32, change: i32 },
}

/// The numbers of a table or knot model.
#[derive(Clone, Debug, PartialEq, Eq)]
pub struct Spec {
    pub knots: bool,
    pub sets: u32,
    pub scenarios: u32,
    pub shape: Shape,
    pub seed: u64,
    pub flaw: Option<Flaw>,
}

/// What a caller alters in the tables, or in the house that it holds for the library.
#[derive(Clone, Copy, Debug, PartialEq, Eq)]
pub enum Change {
    Cash {
        account: u32,
        value: u64,
    },
    Obligation {
        account: u32,
        value: u64,
    },
    Available {
        account: u32,
        value: u64,
    },
    Shortfall {
        account: u32,
        value: u64,
    },
    Lots {
        account: u32,
        security: u8,
        value: u32,
    },
    Level {
        account: u32,
        which: u8,
        value: u8,
    },
    Count {
        account: u32,
        value: u8,
    },
    Own {
        account: u32,
        value: u8,
    },
    Second {
        account: u32,
        value: u8,
    },
    Number {
        account: u32,
        place: u8,
        value: u32,
    },
    Benchmark {
        account: u32,
        place: u8,
        value: u8,
    },
    Side {
        account: u32,
        place: u8,
        value: u8,
    },
    Maturity {
        account: u32,
        place: u8,
        value: u16,
    },
    Notional {
        account: u32,
        place: u8,
        value: u32,
    },
    Rate {
        account: u32,
        place: u8,
        value: u32,
    },
    /// So many trades at random in place of those that stood.
    Fill {
        account: u32,
        count: u8,
        seed: u64,
    },
    Records {
        length: usize,
    },
    Trades {
        length: usize,
    },
    House {
        field: HouseField,
        value: u64,
    },
}

/// A field of the house in plain memory.
#[derive(Clone, Copy, Debug, PartialEq, Eq)]
pub enum HouseField {
    Accounts,
    Percent,
    Month,
    Volatility,
    Given,
    Slot,
    Checks,
    Calm,
    Average,
    Trigger,
    Mark,
    Price,
    Haircut,
    Listed,
}

#[derive(Clone, Debug, PartialEq, Eq)]
pub enum Step {
    /// An opening with tables of these lengths.
    Open {
        accounts: u32,
        month: u16,
        records: usize,
        trades: usize,
    },
    Make {
        slot: usize,
        spec: Spec,
    },
    /// Two models joined, with question 34 or without.
    Join {
        slot: usize,
        first: Spec,
        second: Spec,
        ask: bool,
    },
    /// A call with the model of a slot. The changes come first, and are taken back after 1 and 255.
    Call {
        slot: usize,
        changes: Vec<Change>,
        call: Call,
    },
}

impl fmt::Display for Spec {
    fn fmt(&self, to: &mut fmt::Formatter<'_>) -> fmt::Result {
        let kind = if self.knots { "knot" } else { "table" };
        write!(to, "{kind} {} {} (numbers: {:?}, seed {}", self.sets, self.scenarios, self.shape, self.seed)?;
        match self.flaw {
            Some(flaw) => write!(to, ", then {flaw:?})"),
            None => write!(to, ")"),
        }
    }
}

struct Words<'a>(&'a [u32]);

impl fmt::Display for Words<'_> {
    fn fmt(&self, to: &mut fmt::Formatter<'_>) -> fmt::Result {
        self.0.iter().try_for_each(|number| write!(to, " {number}"))
    }
}

impl fmt::Display for Step {
    fn fmt(&self, to: &mut fmt::Formatter<'_>) -> fmt::Result {
        match self {
            Step::Open { accounts, month, records, trades } => {
                write!(to, "open {accounts} {month}    # {records} records, {trades} places")
            }
            Step::Make { slot, spec } => write!(to, "model {slot} {spec}"),
            Step::Join { slot, first, second, ask } => {
                let how = if *ask { "" } else { " without asking" };
                write!(to, "model {slot} joined{how} {first} and {second}")
            }
            Step::Call { slot, changes, call } => {
                for change in changes {
                    write!(to, "[{change:?}] ")?;
                }
                write_call(to, call)?;
                write!(to, "    # model {slot}")
            }
        }
    }
}

fn write_call(to: &mut fmt::Formatter<'_>, call: &Call) -> fmt::Result {
    match *call {
        Call::Account { account, call } => match call {
            AccountCall::Trade(it) => write!(
                to,
                "trade {account} {} {} {} {} {} {}",
                it.number, it.benchmark, it.side, it.maturity, it.notional, it.fixed_rate
            ),
            AccountCall::End { number } => write!(to, "end {account} {number}"),
            AccountCall::LodgeCash { amount } => write!(to, "lodge-cash {account} {amount}"),
            AccountCall::DrawCash { amount } => write!(to, "draw-cash {account} {amount}"),
            AccountCall::LodgeSecurity { security, lots } => {
                write!(to, "lodge-security {account} {security} {lots}")
            }
            AccountCall::DrawSecurity { security, lots } => {
                write!(to, "draw-security {account} {security} {lots}")
            }
            AccountCall::Show => write!(to, "show {account}"),
        },
        Call::Market(call) => match call {
            MarketCall::Set { set } => write!(to, "set {set}"),
            MarketCall::Price { security, price, haircut, listed } => {
                write!(to, "price {security} {price} {haircut} {listed}")
            }
            MarketCall::StepUp { per_cent } => write!(to, "step-up {per_cent}"),
            MarketCall::Averages { family, margin, gross } => {
                write!(to, "averages {family} {margin} {gross}")
            }
            MarketCall::Thresholds { family, triggers, calm_marks } => {
                write!(to, "thresholds {family}{}{}", Words(&triggers), Words(&calm_marks))
            }
            MarketCall::Check { family, slot, returns } => {
                write!(to, "check {family} {slot}{}", Words(&returns))
            }
            MarketCall::Close => write!(to, "close"),
            MarketCall::Month { month } => write!(to, "month {month}"),
        },
    }
}
