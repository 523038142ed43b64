//! The same house on all four sides, and calls that are timed on each.

use std::time::Duration;

use domirelash::{HouseRow, Lent, Model, Numbers, Record, Trade, PLACES};
use plain::{AccountCall, Call, MarketCall, Reply};

use crate::clock;
use crate::fast::Fast;
use crate::rules::{self, Method};
use crate::same::Same;

pub const ACCOUNTS: usize = 32;
pub const MONTH: u16 = 300;

/// Random numbers from a seed.
pub struct Source(pub u64);

impl Source {
    pub fn below(&mut self, limit: u64) -> u64 {
        self.0 = self.0.wrapping_mul(6_364_136_223_846_793_005).wrapping_add(1_442_695_040_888_963_407);
        (self.0 >> 33) % limit
    }
}

/// The numbers of a table model of one set.
pub struct Table {
    pub scenarios: usize,
    rates: Vec<u32>,
    ticks: Vec<u32>,
    pub changes: Vec<i32>,
}

impl Table {
    pub fn new(scenarios: usize) -> Self {
        let source = &mut Source(scenarios as u64);
        Table {
            scenarios,
            rates: (0..484).map(|_| 64_500 + source.below(1001) as u32).collect(),
            ticks: (0..484).map(|_| 5_000 + source.below(5_000) as u32).collect(),
            changes: (0..484 * scenarios).map(|_| source.below(100_001) as i32 - 50_000).collect(),
        }
    }

    fn library(&self) -> Model<'_> {
        let numbers =
            Numbers::new(1, self.scenarios as u32, &self.rates[..], &self.ticks[..], &self.changes[..]);
        Model::table(numbers).expect("all in range")
    }

    fn plain(&self) -> plain::Model {
        plain::Model::table(plain::Numbers {
            sets: 1,
            scenarios: self.scenarios as u32,
            rates: self.rates.clone(),
            ticks: self.ticks.clone(),
            changes: self.changes.clone(),
        })
        .expect("all in range")
    }

    fn rules(&self) -> rules::Table<'_> {
        rules::Table {
            sets: 1,
            scenarios: self.scenarios,
            rates: &self.rates,
            ticks: &self.ticks,
            changes: &self.changes,
        }
    }
}

/// A call that is timed.
#[derive(Clone, Copy)]
pub enum Timed {
    /// A price; every other time another one.
    Price,
    /// A trade of account 1.
    Trade(Trade),
    /// One paisa into account 1.
    LodgeCash,
}

/// An answer, the same for all calls and sides.
type Told = (u8, u64, u64, u64, u64);

struct Library<'a> {
    model: Model<'a>,
    house: HouseRow,
    records: Vec<Record>,
    trades: Vec<Trade>,
}

struct Plain {
    model: plain::Model,
    house: plain::House,
    records: Vec<plain::Record>,
    trades: Vec<plain::Trade>,
}

/// A side of `rules`, whichever method its calls use.
#[derive(Clone)]
struct Rules<'a> {
    table: rules::Table<'a>,
    house: rules::House,
    records: Vec<Record>,
    trades: Vec<Trade>,
}

/// How many sides there are: the engine, plain, fast and same.
pub const SIDES: usize = 4;

/// A house of 32 accounts, on four sides.
pub struct Desk<'a> {
    library: Library<'a>,
    plain: Plain,
    fast: Rules<'a>,
    same: Rules<'a>,
    turn: u32,
    /// Of reading the clock, taken off each time.
    cost: Duration,
}

/// The times of a call on each side, of many rounds.
#[derive(Default)]
pub struct Times([Vec<Duration>; SIDES]);

impl Times {
    fn at(&self, side: usize, share: usize) -> f64 {
        let mut times = self.0[side].clone();
        times.sort();
        times[times.len() / share].as_secs_f64() * 1e6
    }

    /// The median of a side, in microseconds.
    pub fn median(&self, side: usize) -> f64 {
        self.at(side, 2)
    }

    /// The time below which a tenth of a side's times lie, in microseconds.
    pub fn tenth(&self, side: usize) -> f64 {
        self.at(side, 10)
    }
}

/// Trades of an account, spread over the benchmarks and all residuals.
fn trades(account: usize, count: usize) -> Vec<Trade> {
    let source = &mut Source(account as u64);
    (0..count)
        .map(|at| Trade {
            number: at as u32,
            benchmark: (at % 4) as u8,
            side: source.below(2) as u8,
            maturity: MONTH + source.below(121) as u16,
            notional: 1 + source.below(5_000) as u32,
            rate: 64_500 + source.below(1001) as u32,
        })
        .collect()
}

fn plain_trade(trade: &Trade) -> plain::Trade {
    plain::Trade {
        number: trade.number,
        benchmark: trade.benchmark,
        side: trade.side,
        maturity: trade.maturity,
        notional: trade.notional,
        fixed_rate: trade.rate,
    }
}

impl Rules<'_> {
    fn play<M: Method>(&mut self, call: Timed, quote: [u32; 3]) -> (Told, Duration) {
        let Rules { table, house, records, trades } = self;
        let start = clock::now();
        let answer = match call {
            Timed::Price => {
                let it = house.price::<M>(table, records, trades, 3, quote);
                let time = clock::now() - start;
                return (
                    (it.number, it.set.into(), it.month.into(), it.overnight.into(), it.forward.into()),
                    time,
                );
            }
            Timed::Trade(trade) => house.new_trade::<M>(table, records, trades, 1, trade),
            Timed::LodgeCash => house.lodge_cash::<M>(table, records, trades, 1, 1),
        };
        let time = clock::now() - start;
        (
            (answer.number, answer.obligation, answer.available, answer.shortfall, answer.restriction.into()),
            time,
        )
    }
}

impl<'a> Desk<'a> {
    /// Each constituent has so many trades, half of the most cash, and lots of security 3.
    pub fn new(table: &'a Table, count: usize) -> Self {
        let mut house = HouseRow::default();
        let mut records = vec![Record::default(); ACCOUNTS];
        let mut places = vec![Trade::default(); PLACES * ACCOUNTS];
        let mut plain_house = plain::House::unopened();
        let mut plain_records = vec![plain::Record::default(); ACCOUNTS];
        let mut plain_places = vec![plain::Trade::default(); PLACES * ACCOUNTS];
        let opened = Lent { house: &mut house, records: &mut records, trades: &mut places }
            .open(ACCOUNTS as u32, MONTH);
        assert_eq!(opened, 0);
        let opened = plain_house.open(ACCOUNTS as u32, MONTH, &mut plain_records, &mut plain_places);
        assert_eq!(opened, 0);
        for account in 0..ACCOUNTS {
            let trades = if account == 0 { Vec::new() } else { trades(account, count) };
            records[account].cash = 50_000_000_000_000;
            records[account].lots[3] = 1_000;
            records[account].trades = trades.len() as u8;
            plain_records[account].cash = records[account].cash;
            plain_records[account].lots[3] = 1_000;
            plain_records[account].trades = trades.len() as u8;
            for (at, trade) in trades.into_iter().enumerate() {
                plain_places[PLACES * account + at] = plain_trade(&trade);
                places[PLACES * account + at] = trade;
            }
        }
        let fast = Rules {
            table: table.rules(),
            house: rules::House::new(ACCOUNTS, MONTH),
            records: records.clone(),
            trades: places.clone(),
        };
        let plain =
            Plain { model: table.plain(), house: plain_house, records: plain_records, trades: plain_places };
        let library = Library { model: table.library(), house, records, trades: places };
        let same = fast.clone();
        let mut desk = Desk { library, plain, fast, same, turn: 0, cost: clock::cost() };
        desk.round(Timed::Price, &mut Times::default(), 0);
        desk
    }

    fn quote(&self) -> [u32; 3] {
        [9_800 + self.turn % 2, 4, 1]
    }

    fn library(&mut self, call: Timed) -> (Told, Duration) {
        let [price, haircut, listed] = self.quote();
        let Library { model, house, records, trades } = &mut self.library;
        let mut lent = Lent { house, records, trades };
        let start = clock::now();
        let answer = match call {
            Timed::Price => {
                let it = lent.price(model, 3, price, haircut, listed);
                let time = clock::now() - start;
                return (
                    (it.number, it.set.into(), it.month.into(), it.overnight.into(), it.forward.into()),
                    time,
                );
            }
            Timed::Trade(trade) => lent.new_trade(model, 1, trade),
            Timed::LodgeCash => lent.lodge_cash(model, 1, 1),
        };
        let time = clock::now() - start;
        (
            (answer.number, answer.obligation, answer.available, answer.shortfall, answer.restriction.into()),
            time,
        )
    }

    fn plain(&mut self, call: Timed) -> (Told, Duration) {
        let [price, haircut, listed] = self.quote();
        let call = match call {
            Timed::Price => Call::Market(MarketCall::Price { security: 3, price, haircut, listed }),
            Timed::Trade(trade) => {
                Call::Account { account: 1, call: AccountCall::Trade(plain_trade(&trade)) }
            }
            Timed::LodgeCash => Call::Account { account: 1, call: AccountCall::LodgeCash { amount: 1 } },
        };
        let Plain { model, house, records, trades } = &mut self.plain;
        let start = clock::now();
        let reply = house.answer(model, records, trades, call);
        let time = clock::now() - start;
        let told = match reply {
            Reply::Market(it) => {
                let [overnight, forward] = it.volatility;
                (it.number, it.set.into(), it.month.into(), overnight.into(), forward.into())
            }
            Reply::Account(it) => {
                (it.number, it.obligation, it.available, it.shortfall, it.restriction.into())
            }
        };
        (told, time)
    }

    /// One round: each side once, in an order that turns. All must answer alike and leave like tables.
    fn round(&mut self, call: Timed, times: &mut Times, order: usize) {
        let quote = self.quote();
        let mut told = [(0, 0, 0, 0, 0); SIDES];
        for place in 0..SIDES {
            let side = (place + order) % SIDES;
            let (answer, time) = match side {
                0 => self.library(call),
                1 => self.plain(call),
                2 => self.fast.play::<Fast>(call, quote),
                _ => self.same.play::<Same>(call, quote),
            };
            told[side] = answer;
            times.0[side].push(time.saturating_sub(self.cost));
        }
        assert_eq!(told[0].0, 0, "the call is refused");
        assert!(told.iter().all(|answer| *answer == told[0]), "the answers differ: {told:?}");
        self.assert_same();
        self.turn += 1;
    }

    fn assert_same(&self) {
        let (library, plain) = (&self.library, &self.plain);
        for side in [&self.fast, &self.same] {
            assert!(library.records == side.records && library.trades == side.trades, "the tables differ");
        }
        for (row, record) in library.records.iter().zip(&plain.records) {
            let levels = [row.overnight.initial, row.overnight.gross, row.forward.initial, row.forward.gross];
            let of_library = (row.cash, row.obligation, row.available, row.shortfall, row.lots, levels);
            let of_plain = (
                record.cash,
                record.obligation,
                record.available,
                record.shortfall,
                record.lots,
                record.levels,
            );
            assert!(of_library == of_plain, "the records differ");
            let flags = (row.trades, row.own == 1, row.second == 1);
            assert!(flags == (record.trades, record.own_flag, record.second_flag), "the records differ");
        }
        let same = library.trades.iter().zip(&plain.trades).all(|(row, trade)| plain_trade(row) == *trade);
        assert!(same, "the places differ");
    }

    /// So many rounds of a call. A trade is taken back after each.
    pub fn time(&mut self, call: Timed, rounds: usize) -> Times {
        let mut times = Times::default();
        let (records, trades) = (self.library.records.clone(), self.library.trades.clone());
        let (plain_records, plain_trades) = (self.plain.records.clone(), self.plain.trades.clone());
        // A first round warms up.
        self.round(call, &mut Times::default(), 0);
        for round in 0..rounds {
            if let Timed::Trade(_) = call {
                self.library.records.copy_from_slice(&records);
                self.library.trades.copy_from_slice(&trades);
                self.plain.records.copy_from_slice(&plain_records);
                self.plain.trades.copy_from_slice(&plain_trades);
                for side in [&mut self.fast, &mut self.same] {
                    side.records.copy_from_slice(&records);
                    side.trades.copy_from_slice(&trades);
                }
            }
            self.round(call, &mut times, round);
        }
        times
    }

    /// Trades that stand, and groups of account, benchmark and residual whose notionals do not net to 0.
    pub fn groups(&self) -> (usize, usize) {
        let mut trades = 0;
        let mut groups = 0;
        for (record, places) in self.library.records.iter().zip(self.library.trades.chunks_exact(PLACES)) {
            let used = &places[..usize::from(record.trades)];
            trades += used.len();
            let mut nets = vec![0_i64; 484];
            for trade in used {
                let cell = 121 * usize::from(trade.benchmark) + usize::from(trade.maturity - MONTH);
                let notional = i64::from(trade.notional);
                nets[cell] += if trade.side == 0 { notional } else { -notional };
            }
            groups += nets.iter().filter(|&&net| net != 0).count();
        }
        (trades, groups)
    }
}
