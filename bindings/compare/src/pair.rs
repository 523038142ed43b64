//! Both sides together: each step is played on both, and all that they answer and hold is compared.

use std::fmt::Debug;

use domirelash::{FamilyRow, Record};
use plain::{Family, Reply};

use crate::sides::{row_of, Library, Plain};
use crate::steps::Step;

pub struct Pair {
    pub library: Library,
    pub plain: Plain,
    opened: bool,
}

/// What differs after a step.
#[derive(Clone, Debug)]
pub struct Difference {
    pub what: String,
    pub library: String,
    pub plain: String,
}

fn same<T: PartialEq + Debug>(what: &str, library: T, plain: T) -> Result<(), Box<Difference>> {
    if library == plain {
        return Ok(());
    }
    let (library, plain) = (format!("{library:?}"), format!("{plain:?}"));
    Err(Box::new(Difference { what: what.into(), library, plain }))
}

pub fn number_of(reply: Reply) -> u8 {
    match reply {
        Reply::Account(answer) => answer.number,
        Reply::Market(answer) => answer.number,
    }
}

impl Pair {
    pub fn new() -> Self {
        Pair { library: Library::new(), plain: Plain::new(), opened: false }
    }

    /// Plays a step; the number that both answered, or the first difference. A call before any opening is left out.
    pub fn play(&mut self, step: &Step) -> Result<Option<u8>, Box<Difference>> {
        match step {
            Step::Open { accounts, month, records, trades } => {
                let saved = (self.library.copy(), self.plain.copy());
                self.library.resize(*records, *trades);
                self.plain.resize(*records, *trades);
                let before = (self.library.copy(), self.plain.copy());
                let number = self.library.open(*accounts, *month);
                same("number", number, self.plain.open(*accounts, *month))?;
                if number == 0 {
                    self.opened = true;
                    self.same_state()?;
                } else {
                    self.unchanged(&before)?;
                    self.library.put_back(saved.0);
                    self.plain.put_back(saved.1);
                }
                Ok(Some(number))
            }
            Step::Make { slot, spec } => {
                let made = self.library.make(*slot, spec);
                same("number and place", made, self.plain.make(*slot, spec))?;
                Ok(Some(made.0))
            }
            Step::Join { slot, first, second, ask } => {
                let made = self.library.join(*slot, [first, second], *ask);
                same("number and place", made, self.plain.join(*slot, [first, second], *ask))?;
                Ok(Some(made.0))
            }
            Step::Call { slot, changes, call } => {
                if !self.opened {
                    return Ok(None);
                }
                let saved = (!changes.is_empty()).then(|| (self.library.copy(), self.plain.copy()));
                for &change in changes {
                    self.library.alter(change);
                    self.plain.alter(change);
                }
                let before = saved.is_some().then(|| (self.library.copy(), self.plain.copy()));
                let reply = self.library.answer(*slot, *call);
                same("answer", reply, self.plain.answer(*slot, *call))?;
                let number = number_of(reply);
                match (saved, before) {
                    (Some(saved), Some(before)) if number == 1 || number == 255 => {
                        self.unchanged(&before)?;
                        self.library.put_back(saved.0);
                        self.plain.put_back(saved.1);
                    }
                    _ => self.same_state()?,
                }
                Ok(Some(number))
            }
        }
    }

    #[allow(clippy::type_complexity)]
    fn unchanged(
        &self,
        before: &(
            (domirelash::HouseRow, Vec<Record>, Vec<domirelash::Trade>),
            (plain::House, Vec<plain::Record>, Vec<plain::Trade>),
        ),
    ) -> Result<(), Box<Difference>> {
        let unchanged = (self.library.copy() == before.0, self.plain.copy() == before.1);
        same("whether a refused call left house and tables as they were", unchanged.0, unchanged.1)?;
        same("whether a refused call left house and tables as they were", unchanged.0, true)
    }

    fn same_state(&self) -> Result<(), Box<Difference>> {
        let (library, plain) = (&self.library, &self.plain);
        let (house, market) = (&library.house, plain.house.market());
        same("accounts", house.accounts, plain.house.accounts())?;
        same("month", house.month, market.month)?;
        same("set", house.set, market.set)?;
        same("step-up", house.percent, market.step_up)?;
        same_family("family 0", &house.overnight, &market.families[0])?;
        same_family("family 1", &house.forward, &market.families[1])?;
        for (at, (row, listing)) in house.securities.iter().zip(&market.listings).enumerate() {
            let row = (row.price, row.haircut, row.listed);
            let listing = (listing.price, listing.haircut, u8::from(listing.listed));
            if row != listing {
                same(&format!("security {at}"), row, listing)?;
            }
        }
        same("length of the records", library.records.len(), plain.records.len())?;
        same("length of the trade places", library.trades.len(), plain.trades.len())?;
        for (at, (row, record)) in library.records.iter().zip(&plain.records).enumerate() {
            let record = record_row(record);
            if *row != record {
                same(&format!("record {at}"), *row, record)?;
            }
        }
        for (at, (row, trade)) in library.trades.iter().zip(&plain.trades).enumerate() {
            let trade = row_of(trade);
            if *row != trade {
                same(&format!("place {} of account {}", at % 64, at / 64), *row, trade)?;
            }
        }
        Ok(())
    }
}

fn same_family(what: &str, row: &FamilyRow, family: &Family) -> Result<(), Box<Difference>> {
    let averages = (row.given & 1 == 1).then_some((row.initial, row.gross));
    let thresholds = (row.given & 2 == 2).then_some((row.triggers, row.marks));
    let library = (row.volatility, averages, thresholds, row.slot.into(), row.checks.into(), row.calm == 1);
    let averages = family.averages.map(|it| (it.margin, it.gross));
    let thresholds = family.thresholds.map(|it| (it.triggers, it.calm_marks));
    let day = family.day;
    same(what, library, (family.volatility, averages, thresholds, day.last, day.checks, day.calm))
}

fn record_row(record: &plain::Record) -> Record {
    let [initial, gross, forward_initial, forward_gross] = record.levels;
    Record {
        cash: record.cash,
        obligation: record.obligation,
        available: record.available,
        shortfall: record.shortfall,
        lots: record.lots,
        overnight: domirelash::Levels { initial, gross },
        forward: domirelash::Levels { initial: forward_initial, gross: forward_gross },
        trades: record.trades,
        own: record.own_flag.into(),
        second: record.second_flag.into(),
    }
}
