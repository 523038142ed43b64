//! The calls that are timed, once more, in safe Rust that takes nothing from a heap and copies no rows. The trades of one
//! residual are netted. How values at risk are worked out from there is left to a `Method`.

use domirelash::{Answer, MarketAnswer, Record, Trade, PLACES, SECURITIES};

pub const MOST_SCENARIOS: usize = 1000;
const BENCHMARKS: usize = 4;
const RESIDUALS: usize = 121;
const BUCKETS: usize = 20;
const MOST_CASH: u64 = 100_000_000_000_000;
const MOST_LOTS: u32 = 1_000_000;
const MOST_NOTIONAL: u32 = 1_000_000;
const MOST_RATE: u32 = 200_000;
const MOST_FIGURE: u64 = 3_000_000_000_000_000;
const MOST_HOUSE_FIGURE: u64 = 96_000_000_000_000_000;

/// The numbers of a table model that has passed its check.
#[derive(Clone, Copy)]
pub struct Table<'a> {
    pub sets: u32,
    pub scenarios: usize,
    pub rates: &'a [u32],
    pub ticks: &'a [u32],
    pub changes: &'a [i32],
}

impl<'a> Table<'a> {
    fn cell(&self, set: u32, benchmark: usize, residual: usize) -> Option<usize> {
        (set < self.sets).then(|| (set as usize * BENCHMARKS + benchmark) * RESIDUALS + residual)
    }

    fn changes(&self, set: u32, benchmark: usize) -> Option<Changes<'a>> {
        let first = self.cell(set, benchmark, 0)? * self.scenarios;
        let rows = &self.changes[first..][..RESIDUALS * self.scenarios];
        Some(Changes { rows, scenarios: self.scenarios })
    }
}

#[derive(Clone, Copy, Default)]
struct Family {
    volatility: u32,
    averages: Option<(u64, u64)>,
}

#[derive(Clone, Copy, Default)]
struct Security {
    price: u32,
    haircut: u32,
    listed: bool,
}

/// The number of accounts and the market.
#[derive(Clone, Copy)]
pub struct House {
    accounts: usize,
    month: u16,
    set: u32,
    step_up: u32,
    families: [Family; 2],
    securities: [Security; SECURITIES],
}

/// What a trade that is asked for would make of an account's trades.
#[derive(Clone, Copy)]
struct Standing<'a> {
    trades: &'a [Trade],
    more: Option<&'a Trade>,
}

struct Figures {
    levels: [u8; 4],
    obligation: u64,
    available: u64,
}

/// The trades of one benchmark, netted by residual.
#[derive(Clone, Copy)]
pub struct Nets {
    by_residual: [i32; RESIDUALS],
    /// The residuals whose net is not 0, as bits.
    standing: u128,
}

/// The changes of one benchmark.
#[derive(Clone, Copy)]
pub struct Changes<'a> {
    rows: &'a [i32],
    pub scenarios: usize,
}

/// The values at risk of a benchmark's trades: of each residual and of each bucket, added up, and as a whole.
#[derive(Clone, Copy, Default)]
pub struct Risks {
    pub residuals: u64,
    pub buckets: u64,
    pub whole: u64,
}

/// How values at risk are worked out, and room for it.
pub trait Method {
    fn new() -> Self;
    fn risks(&mut self, nets: &Nets, changes: Changes) -> Risks;
}

/// Sums over the trades of one benchmark.
struct Book {
    nets: Nets,
    minimum: i64,
    marks: i64,
}

const EMPTY: Book = Book { nets: Nets { by_residual: [0; RESIDUALS], standing: 0 }, minimum: 0, marks: 0 };

fn band(residual: usize) -> i64 {
    match residual {
        0..=36 => 50_000,
        37..=60 => 100_000,
        _ => 175_000,
    }
}

/// The residuals of a bucket, as bits.
fn bucket(at: usize) -> u128 {
    let width = if at == BUCKETS - 1 { 7 } else { 6 };
    ((1 << width) - 1) << (6 * at)
}

/// The residuals that are given as bits, from the lowest.
pub fn residuals(mut left: u128) -> impl Iterator<Item = usize> {
    std::iter::from_fn(move || {
        (left != 0).then(|| {
            let residual = left.trailing_zeros() as usize;
            left &= left - 1;
            residual
        })
    })
}

impl Nets {
    pub fn net(&self, residual: usize) -> i32 {
        self.by_residual[residual]
    }

    /// The residuals whose net is not 0, as bits.
    pub fn standing(&self) -> u128 {
        self.standing
    }

    /// Those of each bucket that has some.
    pub fn buckets(&self) -> impl Iterator<Item = u128> {
        let standing = self.standing;
        (0..BUCKETS).map(move |at| standing & bucket(at)).filter(|&bits| bits != 0)
    }

    fn drop_zeros(&mut self) {
        for residual in residuals(self.standing) {
            if self.by_residual[residual] == 0 {
                self.standing &= !(1 << residual);
            }
        }
    }
}

impl<'a> Changes<'a> {
    /// The changes of a residual, where they lie.
    pub fn of(&self, residual: usize) -> &'a [i32] {
        &self.rows[residual * self.scenarios..][..self.scenarios]
    }

    /// Which of the highest losses is the value at risk.
    pub fn k(&self) -> usize {
        (self.scenarios / 100).max(1)
    }
}

impl Book {
    fn add(&mut self, trade: &Trade, residual: usize, rate: u32, tick: u32) {
        let pay = trade.side == 0;
        let notional = if pay { trade.notional as i32 } else { -(trade.notional as i32) };
        self.nets.by_residual[residual] += notional;
        self.nets.standing |= 1 << residual;
        let signed = i64::from(notional);
        self.minimum += signed * band(residual);
        let difference = i64::from(rate) - i64::from(trade.rate);
        self.marks += (signed * difference * i64::from(tick)).div_euclid(1000);
    }

    /// Value at risk of the benchmark and its spread charge, added.
    fn risk<M: Method>(&self, changes: Option<Changes>, method: &mut M) -> u64 {
        let Risks { residuals, buckets, whole } =
            changes.map_or(Risks::default(), |changes| method.risks(&self.nets, changes));
        let spread = 2 * residuals.saturating_sub(buckets) + buckets.saturating_sub(whole);
        whole + spread.div_ceil(10)
    }
}

fn level(before: u8, value: u64, average: u64) -> u8 {
    if 100 * value > 15 * average || before == 2 && 100 * value >= 13 * average {
        2
    } else if before > 0 {
        u8::from(100 * value >= 6 * average)
    } else {
        u8::from(100 * value > 8 * average)
    }
}

fn own_flag(before: u8, obligation: u64, available: u64) -> u8 {
    if obligation == 0 || 100 * obligation < 90 * available {
        0
    } else {
        u8::from(before == 1 || 100 * obligation > 95 * available)
    }
}

fn second_flag(before: u8, house: u8, obligation: u64, available: u64) -> u8 {
    if house == 0 || obligation == 0 || 100 * obligation < 70 * available {
        0
    } else {
        u8::from(before == 1 || 100 * obligation > 90 * available)
    }
}

fn record_keeps(record: &Record, house: bool) -> bool {
    let most = if house { MOST_HOUSE_FIGURE } else { MOST_FIGURE };
    let levels =
        [record.overnight.initial, record.overnight.gross, record.forward.initial, record.forward.gross];
    record.cash <= MOST_CASH
        && record.lots.iter().fold(true, |all, &lots| all & (lots <= MOST_LOTS))
        && levels.iter().all(|&level| level <= 2)
        && usize::from(record.trades) <= PLACES
        && record.obligation <= most
        && record.available <= MOST_FIGURE
        && record.shortfall <= most
        && record.own <= 1
        && record.second <= 1
}

fn tables_keep(accounts: usize, records: &[Record], trades: &[Trade]) -> bool {
    if records.len() != accounts || trades.len() != PLACES * accounts {
        return false;
    }
    let (places, _) = trades.as_chunks::<PLACES>();
    records.iter().zip(places).enumerate().all(|(account, (record, places))| {
        record_keeps(record, account == 0) && {
            let (used, free) = places.split_at(usize::from(record.trades));
            let keeps = |it: &Trade| {
                (it.benchmark <= 3)
                    & (it.side <= 1)
                    & (it.notional.wrapping_sub(1) < MOST_NOTIONAL)
                    & (it.rate <= MOST_RATE)
            };
            // As the fields lie in a row, so that each half is read at once.
            let bits = |it: &Trade| {
                let first = u64::from(it.number)
                    | u64::from(it.benchmark) << 32
                    | u64::from(it.side) << 40
                    | u64::from(it.maturity) << 48;
                first | u64::from(it.notional) | u64::from(it.rate) << 32
            };
            used.iter().fold(true, |all, it| all & keeps(it))
                && free.iter().fold(0, |all, it| all | bits(it)) == 0
        }
    })
}

fn standing<'a>(record: &Record, trades: &'a [Trade], account: usize) -> Standing<'a> {
    Standing { trades: &trades[PLACES * account..][..usize::from(record.trades)], more: None }
}

fn stored_cover(records: &[Record]) -> u64 {
    records[1..].iter().map(|record| record.shortfall).sum()
}

fn store(record: &mut Record, figures: &Figures) {
    let [initial, gross, forward_initial, forward_gross] = figures.levels;
    (record.overnight.initial, record.overnight.gross) = (initial, gross);
    (record.forward.initial, record.forward.gross) = (forward_initial, forward_gross);
    record.obligation = figures.obligation;
    record.available = figures.available;
    record.shortfall = figures.obligation.saturating_sub(figures.available);
    record.own = own_flag(record.own, figures.obligation, figures.available);
}

fn settle_second_flags(records: &mut [Record]) {
    let (house, constituents) = records.split_at_mut(1);
    house[0].second = 0;
    for record in constituents {
        record.second = second_flag(record.second, house[0].own, record.obligation, record.available);
    }
}

fn answer(number: u8, record: &Record) -> Answer {
    Answer {
        number,
        restriction: record.restriction(),
        obligation: record.obligation,
        available: record.available,
        shortfall: record.shortfall,
    }
}

impl House {
    /// A house just opened.
    pub fn new(accounts: usize, month: u16) -> Self {
        House {
            accounts,
            month,
            set: 0,
            step_up: 0,
            families: [Family::default(); 2],
            securities: [Security::default(); SECURITIES],
        }
    }

    fn figures<M: Method>(
        &self,
        table: &Table,
        record: &Record,
        standing: Standing,
        cover: u64,
        method: &mut M,
    ) -> Figures {
        let mut books = [EMPTY; BENCHMARKS];
        let mut gross = [0; 2];
        for trade in standing.trades.iter().chain(standing.more) {
            let benchmark = usize::from(trade.benchmark & 3);
            let residual = usize::from(trade.maturity.saturating_sub(self.month).min(120));
            let cell = table.cell(self.set, benchmark, residual);
            let (rate, tick) = cell.map_or((0, 0), |cell| (table.rates[cell], table.ticks[cell]));
            books[benchmark].add(trade, residual, rate, tick);
            gross[benchmark / 2] += u64::from(trade.notional);
        }

        let (mut margins, mut credit) = (0, 0);
        let mut initial = [0; 2];
        for (benchmark, book) in books.iter_mut().enumerate() {
            if book.nets.standing == 0 {
                continue;
            }
            book.nets.drop_zeros();
            let risk = book.risk(table.changes(self.set, benchmark), method);
            let base = risk.max(book.minimum.unsigned_abs());
            let margin = base + (base * u64::from(self.step_up)).div_ceil(100);
            initial[benchmark / 2] += margin;
            margins += margin + book.marks.min(0).unsigned_abs();
            credit += 95 * book.marks.max(0).unsigned_abs() / 100;
        }

        let before =
            [record.overnight.initial, record.overnight.gross, record.forward.initial, record.forward.gross];
        let mut levels = [0; 4];
        for (at, family) in self.families.iter().enumerate() {
            if let Some((margin, notional)) = family.averages {
                levels[2 * at] = level(before[2 * at], initial[at], margin);
                levels[2 * at + 1] = level(before[2 * at + 1], gross[at], notional);
            }
            let per_cent = [0, 15, 20][usize::from(levels[2 * at].max(levels[2 * at + 1]))];
            margins += (initial[at] * u64::from(family.volatility)).div_ceil(1000);
            margins += (initial[at] * per_cent).div_ceil(100);
        }

        let securities = self.securities.iter().zip(&record.lots).map(|(security, &lots)| {
            let worth = u64::from(security.price) * u64::from(100 - security.haircut);
            if security.listed {
                u64::from(lots) * worth
            } else {
                0
            }
        });
        let collateral = record.cash + securities.sum::<u64>();
        Figures { levels, obligation: margins + cover, available: collateral + credit }
    }

    fn settle<M: Method>(
        &self,
        table: &Table,
        records: &mut [Record],
        trades: &[Trade],
        account: usize,
        method: &mut M,
    ) {
        let cover = if account == 0 { stored_cover(records) } else { 0 };
        let record = &mut records[account];
        let standing = standing(record, trades, account);
        let figures = self.figures(table, record, standing, cover, method);
        store(record, &figures);
    }

    /// The settlement after a change of one account.
    fn settle_after<M: Method>(
        &self,
        table: &Table,
        records: &mut [Record],
        trades: &[Trade],
        account: usize,
        method: &mut M,
    ) {
        if account != 0 {
            self.settle(table, records, trades, 0, method);
        }
        settle_second_flags(records);
    }

    pub fn price<M: Method>(
        &mut self,
        table: &Table,
        records: &mut [Record],
        trades: &mut [Trade],
        security: u32,
        [price, haircut, listed]: [u32; 3],
    ) -> MarketAnswer {
        let number = if !tables_keep(self.accounts, records, trades) {
            1
        } else if security as usize >= SECURITIES {
            17
        } else if !(1..=30_000).contains(&price) || haircut > 100 || listed > 1 {
            20
        } else {
            self.securities[security as usize] = Security { price, haircut, listed: listed == 1 };
            let method = &mut M::new();
            for account in 1..records.len() {
                self.settle(table, records, trades, account, method);
            }
            self.settle(table, records, trades, 0, method);
            settle_second_flags(records);
            0
        };
        MarketAnswer {
            number,
            month: self.month,
            set: self.set,
            overnight: self.families[0].volatility,
            forward: self.families[1].volatility,
        }
    }

    pub fn lodge_cash<M: Method>(
        &self,
        table: &Table,
        records: &mut [Record],
        trades: &mut [Trade],
        account: u32,
        amount: u64,
    ) -> Answer {
        if !tables_keep(self.accounts, records, trades) {
            return Answer { number: 1, ..Answer::default() };
        }
        let account = account as usize;
        let Some(record) = records.get_mut(account) else {
            return Answer { number: 2, ..Answer::default() };
        };
        if !(1..=MOST_CASH).contains(&amount) {
            return answer(13, record);
        }
        if record.cash + amount > MOST_CASH {
            return answer(14, record);
        }
        record.cash += amount;
        let method = &mut M::new();
        self.settle(table, records, trades, account, method);
        self.settle_after(table, records, trades, account, method);
        answer(0, &records[account])
    }

    pub fn new_trade<M: Method>(
        &self,
        table: &Table,
        records: &mut [Record],
        trades: &mut [Trade],
        account: u32,
        trade: Trade,
    ) -> Answer {
        if !tables_keep(self.accounts, records, trades) {
            return Answer { number: 1, ..Answer::default() };
        }
        let account = account as usize;
        let Some(&record) = records.get(account) else {
            return Answer { number: 2, ..Answer::default() };
        };
        let standing = standing(&record, trades, account);
        let number = if trade.benchmark > 3 {
            3
        } else if trade.side > 1 {
            4
        } else if !(1..=MOST_NOTIONAL).contains(&trade.notional) {
            5
        } else if trade.rate > MOST_RATE {
            6
        } else if trade.maturity < self.month || trade.maturity > self.month + 120 {
            7
        } else if standing.trades.iter().any(|other| other.number == trade.number) {
            8
        } else if standing.trades.len() == PLACES {
            9
        } else {
            0
        };
        if number != 0 {
            return answer(number, &record);
        }
        let method = &mut M::new();
        let cover = if account == 0 { stored_cover(records) } else { 0 };
        let asked = Standing { more: Some(&trade), ..standing };
        let figures = self.figures(table, &record, asked, cover, method);
        let restricted = record.own == 1 || account != 0 && record.second == 1;
        if restricted && figures.obligation >= record.obligation {
            return answer(10, &record);
        }
        if !restricted && figures.available < figures.obligation {
            return answer(11, &record);
        }
        trades[PLACES * account + usize::from(record.trades)] = trade;
        records[account].trades += 1;
        store(&mut records[account], &figures);
        self.settle_after(table, records, trades, account, method);
        answer(0, &records[account])
    }
}
