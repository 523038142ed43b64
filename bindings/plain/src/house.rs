//! A house and its calls: what each asks and changes, and the settlement after it.

use crate::flags::{own_flag, second_flag};
use crate::margin::Figures;
use crate::market::{Market, MarketCall, LAST_MONTH};
use crate::model::Model;
use crate::refusal::{ask, number, Refusal};
use crate::tables::{
    lengths_fit, places, places_mut, tables_keep, Record, Trade, ACCOUNTS, MOST_CASH, MOST_LOTS,
    MOST_NOTIONAL, MOST_RATE, PLACES, SECURITIES,
};

/// A call on one account.
#[derive(Clone, Copy, Debug, PartialEq, Eq)]
pub enum AccountCall {
    Trade(Trade),
    End { number: u32 },
    LodgeCash { amount: u64 },
    DrawCash { amount: u64 },
    LodgeSecurity { security: u32, lots: u32 },
    DrawSecurity { security: u32, lots: u32 },
    Show,
}

/// Any call but an opening.
#[derive(Clone, Copy, Debug, PartialEq, Eq)]
pub enum Call {
    Account { account: u32, call: AccountCall },
    Market(MarketCall),
}

/// The answer to an account call.
#[derive(Clone, Copy, Debug, Default, PartialEq, Eq)]
pub struct Answer {
    /// 0 if accepted, else the refusal.
    pub number: u8,
    pub obligation: u64,
    pub available: u64,
    pub shortfall: u64,
    /// 0 none, 1 own flag, 2 second flag, 3 both.
    pub restriction: u8,
}

/// The answer to a market call.
#[derive(Clone, Copy, Debug, Default, PartialEq, Eq)]
pub struct MarketAnswer {
    /// 0 if accepted, else the refusal.
    pub number: u8,
    pub set: u32,
    pub month: u16,
    /// The volatility per cent of each family, in tenths.
    pub volatility: [u32; 2],
}

#[derive(Clone, Copy, Debug, PartialEq, Eq)]
pub enum Reply {
    Account(Answer),
    Market(MarketAnswer),
}

/// The number of accounts and the market state.
#[derive(Clone, Debug, PartialEq, Eq)]
pub struct House {
    accounts: u32,
    market: Market,
}

impl Default for House {
    fn default() -> Self {
        House::unopened()
    }
}

/// The restriction of an account as a number, as its record holds it.
pub fn restriction(record: &Record) -> u8 {
    u8::from(record.own_flag) + if record.second_flag { 2 } else { 0 }
}

/// Whether an account is restricted. The house has no second flag: one in its record does not restrict it.
fn is_restricted(account: usize, record: &Record) -> bool {
    record.own_flag || (account != 0 && record.second_flag)
}

/// The sum of the constituents' stored shortfalls.
fn stored_cover(records: &[Record]) -> u64 {
    records[1..].iter().map(|record| record.shortfall).sum()
}

/// The trades that an account has.
fn standing<'a>(record: &Record, trades: &'a [Trade], account: usize) -> &'a [Trade] {
    &places(trades, account)[..usize::from(record.trades)]
}

/// Puts trades into the places of an account, and zeros behind them.
fn put_trades(record: &mut Record, places: &mut [Trade], trades: &[Trade]) {
    let (used, free) = places.split_at_mut(trades.len());
    used.copy_from_slice(trades);
    free.fill(Trade::default());
    record.trades = trades.len() as u8;
}

/// Stores figures in a record, and the own flag that comes of them.
fn store(record: &mut Record, figures: &Figures) {
    record.levels = figures.levels;
    record.obligation = figures.obligation;
    record.available = figures.available;
    record.shortfall = figures.shortfall();
    record.own_flag = own_flag(record.own_flag, figures.obligation, figures.available);
}

fn settle_second_flags(records: &mut [Record]) {
    let (house, constituents) = records.split_at_mut(1);
    house[0].second_flag = false;
    for record in constituents {
        record.second_flag =
            second_flag(record.second_flag, house[0].own_flag, record.obligation, record.available);
    }
}

impl House {
    /// A house that was never opened is like one opened with 1 account in month 0.
    pub fn unopened() -> Self {
        House { accounts: 1, market: Market::new(0) }
    }

    pub fn accounts(&self) -> u32 {
        self.accounts
    }

    pub fn market(&self) -> &Market {
        &self.market
    }

    /// The market as a market call answers it, with number 0.
    pub fn stand(&self) -> MarketAnswer {
        self.market_answer(0)
    }

    /// Opens the house anew; the answer is 0 or the refusal.
    pub fn open(&mut self, accounts: u32, month: u16, records: &mut [Record], trades: &mut [Trade]) -> u8 {
        number(self.try_open(accounts, month, records, trades))
    }

    fn try_open(
        &mut self,
        accounts: u32,
        month: u16,
        records: &mut [Record],
        trades: &mut [Trade],
    ) -> Result<(), Refusal> {
        ask((1..=ACCOUNTS).contains(&accounts), Refusal::Accounts)?;
        ask(month <= LAST_MONTH, Refusal::OpeningMonth)?;
        ask(lengths_fit(accounts, records, trades), Refusal::Tables)?;
        records.fill(Record::default());
        trades.fill(Trade::default());
        *self = House { accounts, market: Market::new(month) };
        Ok(())
    }

    pub fn answer(
        &mut self,
        model: &Model,
        records: &mut [Record],
        trades: &mut [Trade],
        call: Call,
    ) -> Reply {
        match call {
            Call::Account { account, call } => {
                Reply::Account(self.answer_account(model, records, trades, account, call))
            }
            Call::Market(call) => Reply::Market(self.answer_market(model, records, trades, call)),
        }
    }

    fn answer_account(
        &self,
        model: &Model,
        records: &mut [Record],
        trades: &mut [Trade],
        account: u32,
        call: AccountCall,
    ) -> Answer {
        let found = ask(tables_keep(self.accounts, records, trades), Refusal::Tables)
            .and_then(|()| ask(account < self.accounts, Refusal::Account));
        if let Err(refusal) = found {
            return Answer { number: refusal.number(), ..Answer::default() };
        }
        let account = account as usize;
        let outcome = self.act(model, records, trades, account, call);
        let record = &records[account];
        Answer {
            number: number(outcome),
            obligation: record.obligation,
            available: record.available,
            shortfall: record.shortfall,
            restriction: restriction(record),
        }
    }

    /// Asks a call's questions after the first two on a copy of the account, and puts the copy into the tables
    /// if all are answered with yes.
    fn act(
        &self,
        model: &Model,
        records: &mut [Record],
        trades: &mut [Trade],
        account: usize,
        call: AccountCall,
    ) -> Result<(), Refusal> {
        let before = records[account];
        let mut record = before;
        let mut standing = standing(&record, trades, account).to_vec();
        self.change(&mut record, &mut standing, call)?;

        let cover = if account == 0 { stored_cover(records) } else { 0 };
        let figures = Figures::of(&self.market, model, &record, &standing, cover);
        match call {
            AccountCall::Trade(_) if is_restricted(account, &before) => {
                ask(figures.obligation < before.obligation, Refusal::ObligationNotLower)?
            }
            AccountCall::Trade(_) => ask(figures.covered(), Refusal::TradeNotCovered)?,
            AccountCall::DrawCash { .. } | AccountCall::DrawSecurity { .. } => {
                ask(figures.covered(), Refusal::DrawNotCovered)?
            }
            _ => {}
        }

        put_trades(&mut record, places_mut(trades, account), &standing);
        store(&mut record, &figures);
        records[account] = record;
        if account != 0 {
            self.settle_house(model, records, trades);
        }
        settle_second_flags(records);
        Ok(())
    }

    /// The questions of a call that need no margin, and its change.
    fn change(
        &self,
        record: &mut Record,
        standing: &mut Vec<Trade>,
        call: AccountCall,
    ) -> Result<(), Refusal> {
        match call {
            AccountCall::Trade(trade) => {
                let months = u32::from(self.market.month)..=u32::from(self.market.month) + 120;
                ask(trade.benchmark <= 3, Refusal::Benchmark)?;
                ask(trade.side <= 1, Refusal::Side)?;
                ask((1..=MOST_NOTIONAL).contains(&trade.notional), Refusal::Notional)?;
                ask(trade.fixed_rate <= MOST_RATE, Refusal::FixedRate)?;
                ask(months.contains(&u32::from(trade.maturity)), Refusal::Maturity)?;
                let free = standing.iter().all(|other| other.number != trade.number);
                ask(free, Refusal::NumberTaken)?;
                ask(standing.len() < PLACES, Refusal::AccountFull)?;
                standing.push(trade);
            }
            AccountCall::End { number } => {
                let place = standing.iter().position(|trade| trade.number == number);
                standing.remove(place.ok_or(Refusal::NoSuchTrade)?);
            }
            AccountCall::LodgeCash { amount } => {
                ask((1..=MOST_CASH).contains(&amount), Refusal::Amount)?;
                ask(record.cash + amount <= MOST_CASH, Refusal::TotalTooHigh)?;
                record.cash += amount;
            }
            AccountCall::DrawCash { amount } => {
                ask((1..=MOST_CASH).contains(&amount), Refusal::Amount)?;
                ask(record.cash >= amount, Refusal::NotHeld)?;
                record.cash -= amount;
            }
            AccountCall::LodgeSecurity { security, lots } => {
                ask((security as usize) < SECURITIES, Refusal::Security)?;
                ask((1..=MOST_LOTS).contains(&lots), Refusal::Lots)?;
                let held = &mut record.lots[security as usize];
                ask(*held + lots <= MOST_LOTS, Refusal::TotalTooHigh)?;
                *held += lots;
            }
            AccountCall::DrawSecurity { security, lots } => {
                ask((security as usize) < SECURITIES, Refusal::Security)?;
                ask((1..=MOST_LOTS).contains(&lots), Refusal::Lots)?;
                let held = &mut record.lots[security as usize];
                ask(*held >= lots, Refusal::NotHeld)?;
                *held -= lots;
            }
            AccountCall::Show => {}
        }
        Ok(())
    }

    fn answer_market(
        &mut self,
        model: &Model,
        records: &mut [Record],
        trades: &mut [Trade],
        call: MarketCall,
    ) -> MarketAnswer {
        let outcome = ask(tables_keep(self.accounts, records, trades), Refusal::Tables)
            .and_then(|()| self.market.act(model, call));
        if outcome.is_ok() {
            if let MarketCall::Month { month } = call {
                mature(records, trades, month);
            }
            self.settle_all(model, records, trades);
        }
        self.market_answer(number(outcome))
    }

    fn market_answer(&self, number: u8) -> MarketAnswer {
        MarketAnswer {
            number,
            set: self.market.set,
            month: self.market.month,
            volatility: self.market.families.map(|family| family.volatility),
        }
    }

    fn settle_all(&self, model: &Model, records: &mut [Record], trades: &[Trade]) {
        for account in 1..records.len() {
            self.settle(model, records, trades, account, 0);
        }
        self.settle_house(model, records, trades);
        settle_second_flags(records);
    }

    fn settle_house(&self, model: &Model, records: &mut [Record], trades: &[Trade]) {
        let cover = stored_cover(records);
        self.settle(model, records, trades, 0, cover);
    }

    fn settle(&self, model: &Model, records: &mut [Record], trades: &[Trade], account: usize, cover: u64) {
        let record = &mut records[account];
        let standing = standing(record, trades, account);
        let figures = Figures::of(&self.market, model, record, standing, cover);
        store(record, &figures);
    }
}

/// Ends the trades of every account that matured before a month.
fn mature(records: &mut [Record], trades: &mut [Trade], month: u16) {
    for (record, places) in records.iter_mut().zip(trades.chunks_exact_mut(PLACES)) {
        let mut standing = places[..usize::from(record.trades)].to_vec();
        standing.retain(|trade| trade.maturity >= month);
        put_trades(record, places, &standing);
    }
}

#[cfg(test)]
mod tests {
    use super::*;
    use crate::model::tests::zeros;

    struct Desk {
        house: House,
        model: Model,
        records: Vec<Record>,
        trades: Vec<Trade>,
    }

    impl Desk {
        fn open(accounts: u32) -> Desk {
            let mut desk = Desk {
                house: House::unopened(),
                model: Model::table(zeros(121, 1, 20)).unwrap(),
                records: vec![Record { own_flag: true, ..Record::default() }; accounts as usize],
                trades: vec![Trade { number: 9, ..Trade::default() }; PLACES * accounts as usize],
            };
            let number = desk.house.open(accounts, 300, &mut desk.records, &mut desk.trades);
            assert_eq!(number, 0);
            assert!(desk.records.iter().all(|record| *record == Record::default()));
            assert!(desk.trades.iter().all(|trade| *trade == Trade::default()));
            desk
        }

        fn account(&mut self, account: u32, call: AccountCall) -> (u8, u64, u64, u64, u8) {
            let call = Call::Account { account, call };
            match self.house.answer(&self.model, &mut self.records, &mut self.trades, call) {
                Reply::Account(it) => (it.number, it.obligation, it.available, it.shortfall, it.restriction),
                Reply::Market(_) => panic!("a market answer"),
            }
        }

        fn market(&mut self, call: MarketCall) -> MarketAnswer {
            let call = Call::Market(call);
            match self.house.answer(&self.model, &mut self.records, &mut self.trades, call) {
                Reply::Market(answer) => answer,
                Reply::Account(_) => panic!("an account answer"),
            }
        }
    }

    fn trade(number: u32, side: u8, notional: u32) -> AccountCall {
        AccountCall::Trade(Trade { number, side, maturity: 312, notional, ..Trade::default() })
    }

    /// The worked example of docs/EVENT_FILE.md.
    #[test]
    fn worked_example() {
        let mut desk = Desk::open(2);
        let lodge = AccountCall::LodgeCash { amount: 6_000_000 };
        assert_eq!(desk.account(1, lodge), (0, 0, 6_000_000, 0, 0));
        assert_eq!(desk.account(1, trade(7, 0, 100)), (0, 5_000_000, 6_000_000, 0, 0));
        let draw = AccountCall::DrawCash { amount: 1_500_000 };
        assert_eq!(desk.account(1, draw), (16, 5_000_000, 6_000_000, 0, 0));
        let draw = AccountCall::DrawCash { amount: 1_000_000 };
        assert_eq!(desk.account(1, draw), (0, 5_000_000, 5_000_000, 0, 1));
        assert_eq!(desk.account(2, draw), (2, 0, 0, 0, 0));
    }

    /// The two lists of docs/ISOLATION.md, section 6.
    #[test]
    fn a_restriction_that_goes_and_comes_back() {
        for back in [false, true] {
            let mut desk = Desk::open(3);
            let million = 1_000_000;
            let lodge = AccountCall::LodgeCash { amount: 20 * million };
            assert_eq!(desk.account(2, lodge), (0, 0, 20_000_000, 0, 0));
            assert_eq!(desk.account(2, trade(1, 0, 370)), (0, 18_500_000, 20_000_000, 0, 0));
            desk.account(0, AccountCall::LodgeCash { amount: million });
            desk.account(0, trade(1, 0, 20));
            assert!(desk.records[0].own_flag && desk.records[2].second_flag);
            assert_eq!(desk.account(2, trade(2, 1, 50)), (0, 16_000_000, 20_000_000, 0, 2));
            if back {
                desk.account(0, AccountCall::LodgeCash { amount: million });
                assert!(!desk.records[0].own_flag && !desk.records[2].second_flag);
                desk.account(0, AccountCall::DrawCash { amount: million });
                assert!(desk.records[0].own_flag && !desk.records[2].second_flag);
            }
            let (show, last) = if back {
                ((0, 16_000_000, 20_000_000, 0, 0), (0, 16_050_000, 20_000_000, 0, 0))
            } else {
                ((0, 16_000_000, 20_000_000, 0, 2), (10, 16_000_000, 20_000_000, 0, 2))
            };
            assert_eq!(desk.account(2, AccountCall::Show), show);
            assert_eq!(desk.account(2, trade(3, 0, 1)), last);
        }
    }

    #[test]
    fn the_cover_goes_to_the_house() {
        let mut desk = Desk::open(3);
        for account in [1, 2] {
            desk.account(account, AccountCall::LodgeCash { amount: 5_000_000 });
            desk.account(account, trade(1, 0, 100));
        }
        desk.account(2, AccountCall::LodgeCash { amount: 95_000_000 });
        let answer = desk.market(MarketCall::StepUp { per_cent: 10 });
        assert_eq!((answer.number, answer.month), (0, 300));
        assert_eq!(desk.records[1].shortfall, 500_000);
        assert_eq!(desk.records[2].shortfall, 0);
        assert_eq!(desk.records[0].obligation, 500_000);
        assert_eq!(desk.records[0].shortfall, 500_000);
        assert!(desk.records[0].own_flag);
    }

    #[test]
    fn ends_close_up() {
        let mut desk = Desk::open(1);
        desk.account(0, AccountCall::LodgeCash { amount: MOST_CASH });
        for number in 0..64 {
            assert_eq!(desk.account(0, trade(number, 0, number + 1)).0, 0);
        }
        assert_eq!(desk.account(0, trade(64, 0, 1)).0, 9);
        assert_eq!(desk.account(0, AccountCall::End { number: 10 }).0, 0);
        assert_eq!(desk.account(0, AccountCall::End { number: 10 }).0, 12);
        assert_eq!(desk.records[0].trades, 63);
        assert_eq!((desk.trades[10].number, desk.trades[62].number), (11, 63));
        assert_eq!(desk.trades[63], Trade::default());
        assert_eq!(desk.market(MarketCall::Month { month: 313 }).number, 0);
        assert!(desk.trades.iter().all(|trade| *trade == Trade::default()));
    }

    #[test]
    fn a_refused_call_changes_nothing() {
        let mut desk = Desk::open(2);
        desk.records[1].cash = MOST_CASH + 1;
        let (house, records) = (desk.house.clone(), desk.records.clone());
        assert_eq!(desk.account(1, AccountCall::Show), (1, 0, 0, 0, 0));
        assert_eq!(desk.market(MarketCall::Month { month: 301 }).number, 1);
        assert_eq!(desk.house.open(33, 300, &mut desk.records, &mut desk.trades), 29);
        assert_eq!(desk.house.open(0, 300, &mut desk.records, &mut desk.trades), 29);
        assert_eq!(desk.house.open(1, 1200, &mut desk.records, &mut desk.trades), 30);
        assert_eq!(desk.house.open(1, 1199, &mut desk.records, &mut desk.trades), 1);
        assert_eq!((&desk.house, &desk.records), (&house, &records));
    }
}
