//! Steps at random, steered by what stands, so that most calls are accepted, or refused by one of the last questions.

use plain::{AccountCall, Call, MarketCall, Record, Trade, PLACES};

use crate::numbers::SLOTS;
use crate::random::Source;
use crate::sides::Plain;
use crate::steps::{Change, Flaw, HouseField, Shape, Spec, Step};

const MOST_CASH: u64 = 100_000_000_000_000;
const MOST_FIGURE: u64 = 3_000_000_000_000_000;
const MOST_HOUSE_FIGURE: u64 = 96_000_000_000_000_000;
const MOST_AVERAGE: u64 = 10_000_000_000_000_000;
/// Knots, bounds of bands and of buckets, and places beside them.
const RESIDUALS: [u64; 30] = [
    0, 1, 2, 3, 4, 5, 6, 7, 9, 11, 12, 18, 24, 30, 35, 36, 37, 47, 48, 59, 60, 61, 83, 84, 85, 113, 114, 118,
    119, 120,
];

/// One run: an opening and what follows, with tastes of its own.
pub struct Run {
    first: bool,
    /// The slot used most.
    slot: usize,
    /// The highest notional drawn.
    notional: u64,
    /// Whether models may have many scenarios.
    large: bool,
    making: usize,
}

impl Run {
    pub fn new(source: &mut Source) -> Self {
        Run {
            first: true,
            slot: source.below(SLOTS as u64) as usize,
            notional: source.of(&[3, 40, 1_000, 30_000, 1_000_000]),
            large: source.one_in(8),
            making: 0,
        }
    }

    pub fn next(&mut self, plain: &Plain, source: &mut Source) -> Step {
        if self.first {
            self.first = false;
            let accounts = match source.below(20) {
                0 | 1 => 1,
                2..=12 => source.between(2, 4),
                13..=18 => source.between(5, 9),
                _ => 32,
            } as u32;
            let month =
                if source.one_in(6) { source.of(&[0, 1198, 1190]) } else { source.below(1190) } as u16;
            return open(accounts, month);
        }
        if self.making < SLOTS {
            self.making += 1;
            return self.make(self.making - 1, source);
        }
        match source.below(1000) {
            0..=5 => bad_opening(plain, source),
            6..=20 => self.make(source.below(SLOTS as u64) as usize, source),
            21..=27 => self.bad_making(source),
            _ => {
                let slot = if source.percent(80) { self.slot } else { source.below(SLOTS as u64) as usize };
                let changes = if source.percent(5) { changes(plain, source) } else { Vec::new() };
                Step::Call { slot, changes, call: self.call(plain, slot, source) }
            }
        }
    }

    fn spec(&self, source: &mut Source) -> Spec {
        let most = if self.large { 1000 } else { 40 };
        let scenarios = match source.below(10) {
            0 => 1,
            1 if self.large => source.of(&[99, 100, 199, 200, 201, 299, 300, 1000]),
            _ => source.between(1, most),
        } as u32;
        Spec {
            knots: source.percent(45),
            sets: if source.one_in(12) { source.between(1, 8) } else { source.between(1, 3) } as u32,
            scenarios,
            shape: source.of(&[
                Shape::Nothing,
                Shape::Small,
                Shape::Usual,
                Shape::Usual,
                Shape::Usual,
                Shape::Extreme,
                Shape::Any,
            ]),
            seed: source.below(1_000_000),
            flaw: None,
        }
    }

    fn make(&self, slot: usize, source: &mut Source) -> Step {
        if source.percent(35) {
            let (first, mut second) = (self.spec(source), self.spec(source));
            let mut ask = true;
            if first.scenarios + second.scenarios > 1000 {
                if source.one_in(2) {
                    second.scenarios = (1000 - first.scenarios).max(1);
                }
                ask = source.one_in(2);
            }
            Step::Join { slot, first, second, ask }
        } else {
            Step::Make { slot, spec: self.spec(source) }
        }
    }

    fn bad_making(&self, source: &mut Source) -> Step {
        let mut spec = self.spec(source);
        spec.scenarios = spec.scenarios.min(60);
        let most_change = if spec.knots { 20_000 } else { 2_000_000 };
        match source.below(8) {
            0 => spec.sets = source.of(&[0, 9, u32::MAX]),
            1 => spec.scenarios = source.of(&[0, 1001, u32::MAX]),
            2 | 3 => {
                spec.flaw =
                    Some(Flaw::Length { list: source.below(3) as u8, by: source.of(&[-1, 1, -100, 100]) })
            }
            4 => {
                let (first, second) = (self.spec(source), self.spec(source));
                let first = Spec { scenarios: source.between(1, 1000) as u32, sets: 1, ..first };
                let second = Spec { scenarios: 1001 - first.scenarios, sets: 1, ..second };
                return Step::Join { slot: source.below(SLOTS as u64) as usize, first, second, ask: true };
            }
            5 => {
                spec.flaw = Some(Flaw::Two {
                    at: source.next(),
                    tick: source.of(&[100_000, 100_001]),
                    change: source.of(&[most_change, most_change + 1, -most_change - 1, i32::MIN]),
                })
            }
            _ => {
                let list = source.below(3) as u8;
                let most = [200_000, 100_000, i64::from(most_change)][usize::from(list)];
                let value = source.of(&[most, most + 1, -most, -most - 1, i64::from(i32::MIN), -1]);
                spec.flaw = Some(Flaw::Number { list, at: source.next(), value });
            }
        }
        Step::Make { slot: source.below(SLOTS as u64) as usize, spec }
    }

    fn call(&self, plain: &Plain, slot: usize, source: &mut Source) -> Call {
        let accounts = plain.house.accounts();
        // The house often, and the first constituents more often than the others.
        let account = if source.one_in(90) {
            source.of(&[accounts, accounts + 1, u32::MAX])
        } else if source.one_in(5) {
            0
        } else {
            let most = if source.percent(70) { accounts.min(4) } else { accounts };
            source.below(u64::from(most)) as u32
        };
        let place = (account as usize).min(accounts as usize - 1);
        let desk = Desk {
            plain,
            slot,
            month: plain.house.market().month,
            house: place == 0,
            record: &plain.records[place],
            trades: &plain.trades[PLACES * place..][..usize::from(plain.records[place].trades)],
        };
        let of = |call| Call::Account { account, call };
        match source.below(100) {
            0..=29 => of(AccountCall::Trade(self.trade(&desk, source))),
            30..=35 => of(AccountCall::End { number: desk.number(15, source) }),
            36..=44 => of(AccountCall::LodgeCash { amount: desk.to_lodge(source) }),
            45..=54 => of(AccountCall::DrawCash { amount: desk.to_draw(source) }),
            55..=60 => {
                let security = security(source);
                of(AccountCall::LodgeSecurity { security, lots: desk.lots_to_lodge(security, source) })
            }
            61..=66 => {
                let security = desk.security_held(source);
                of(AccountCall::DrawSecurity { security, lots: desk.lots_to_draw(security, source) })
            }
            67..=70 => of(AccountCall::Show),
            71..=95 => Call::Market(market_call(&desk, source)),
            _ => Call::Market(desk.check(source)),
        }
    }

    fn trade(&self, desk: &Desk, source: &mut Source) -> Trade {
        let mut trade = self.good_trade(desk, source);
        let wrong = if source.percent(10) { source.of(&[1, 1, 2, 3]) } else { 0 };
        for _ in 0..wrong {
            match source.below(7) {
                0 => trade.benchmark = source.of(&[4, 5, 255]),
                1 => trade.side = source.of(&[2, 3, 255]),
                2 => trade.notional = source.of(&[0, 1_000_000, 1_000_001, u32::MAX]),
                3 => trade.fixed_rate = source.of(&[200_000, 200_001, u32::MAX]),
                4 => trade.maturity = desk.month.saturating_sub(1),
                5 => trade.maturity = desk.month + 121,
                _ => trade.maturity = source.of(&[0, 65_535, desk.month + 120, desk.month]),
            }
        }
        trade
    }

    fn good_trade(&self, desk: &Desk, source: &mut Source) -> Trade {
        let number = if source.one_in(25) { desk.number(80, source) } else { desk.free_number(source) };
        // The other side of a trade that stands, which lowers the obligation as a rule.
        let restricted = desk.record.own_flag || desk.record.second_flag;
        if !desk.trades.is_empty() && source.percent(if restricted { 60 } else { 15 }) {
            let other = source.of(desk.trades);
            let notional = match source.below(3) {
                0 => other.notional,
                1 => source.between(1, other.notional.into()) as u32,
                _ => other.notional.saturating_sub(1).max(1),
            };
            return Trade { number, side: 1 - other.side, notional, ..other };
        }
        let residual = if source.percent(60) { source.of(&RESIDUALS) } else { source.below(121) };
        let benchmark = source.below(4) as u8;
        let free = desk.record.available.saturating_sub(desk.record.obligation);
        let notional = if source.percent(50) {
            // About what the account can bear.
            (free / source.of(&[50_000, 100_000, 175_000, 300_000])).clamp(1, self.notional)
        } else {
            source.of_any_size(self.notional)
        };
        // Multiples of these make figures of which 70, 90, 95 or a hundred thirteenths are whole.
        let multiple = source.of(&[1, 39, 63, 1197]);
        let notional = if notional >= multiple { notional - notional % multiple } else { notional } as u32;
        let market = desk.plain.house.market();
        let rate = desk.plain.models[desk.slot].rate(market.set, benchmark.into(), residual as u32);
        let fixed_rate = match source.below(6) {
            0 => source.below(200_001) as u32,
            1 => rate,
            _ => (rate + source.below(41) as u32).saturating_sub(20).min(200_000),
        };
        Trade {
            number,
            benchmark,
            side: source.below(2) as u8,
            maturity: desk.month + residual as u16,
            notional,
            fixed_rate,
        }
    }
}

fn open(accounts: u32, month: u16) -> Step {
    Step::Open { accounts, month, records: accounts as usize, trades: PLACES * accounts as usize }
}

fn bad_opening(plain: &Plain, source: &mut Source) -> Step {
    let accounts = plain.house.accounts();
    let good = open(accounts, source.below(1200) as u16);
    let Step::Open { mut month, mut records, mut trades, .. } = good else { return good };
    let mut accounts = accounts;
    if source.one_in(4) {
        records += 1;
    }
    match source.below(6) {
        0 => accounts = source.of(&[0, 33, u32::MAX]),
        1 => month = source.of(&[1200, 65_535]),
        2 => records = source.of(&[records + 1, records - 1]),
        3 => trades = source.of(&[trades + 1, trades - 1, trades + 64, 0]),
        4 => (accounts, month) = (33, 1200),
        _ => accounts = accounts % 32 + 1,
    }
    Step::Open { accounts, month, records, trades }
}

fn security(source: &mut Source) -> u32 {
    if source.one_in(20) {
        source.of(&[32, 33, u32::MAX])
    } else {
        source.of(&[0, 1, 2, 31, 7])
    }
}

/// An account, and what stands in it.
struct Desk<'a> {
    plain: &'a Plain,
    slot: usize,
    month: u16,
    house: bool,
    record: &'a Record,
    trades: &'a [Trade],
}

impl Desk<'_> {
    /// The number of a trade that stands, so many times in a hundred, else any.
    fn number(&self, percent: u64, source: &mut Source) -> u32 {
        if !self.trades.is_empty() && source.percent(percent.max(70)) {
            source.of(self.trades).number
        } else {
            source.of(&[0, 5, 77, u32::MAX])
        }
    }

    fn free_number(&self, source: &mut Source) -> u32 {
        let mut number = if source.one_in(30) { u32::MAX - 100 } else { source.below(60) as u32 };
        while self.trades.iter().any(|trade| trade.number == number) {
            number += 1;
        }
        number
    }

    /// An available figure at which something turns.
    fn target(&self, source: &mut Source) -> u64 {
        let obligation = self.record.obligation;
        // A house at its obligation is restricted, and its constituents' second flags matter.
        let per_cent = if self.house && source.one_in(2) { 100 } else { source.of(&[100, 95, 90, 70]) };
        let at = obligation.saturating_mul(100).div_ceil(per_cent);
        (at + source.of(&[0, 1, 1, 2])).saturating_sub(1)
    }

    fn amount(&self, wanted: Option<u64>, source: &mut Source) -> u64 {
        match (wanted, source.below(40)) {
            (_, 0) => source.of(&[0, MOST_CASH, MOST_CASH + 1, u64::MAX]),
            (Some(amount), 1..=29) => amount,
            _ => source.of_any_size(MOST_CASH),
        }
    }

    fn to_lodge(&self, source: &mut Source) -> u64 {
        let short = self.target(source).checked_sub(self.record.available).filter(|&amount| amount > 0);
        let room = MOST_CASH.saturating_sub(self.record.cash);
        let wanted = if source.one_in(30) { Some(room + source.below(2)) } else { short };
        self.amount(wanted, source)
    }

    fn to_draw(&self, source: &mut Source) -> u64 {
        let spare = self.record.available.checked_sub(self.target(source)).filter(|&amount| amount > 0);
        let wanted = if source.one_in(12) {
            Some(self.record.cash + source.below(2))
        } else {
            spare.map(|amount| amount.min(self.record.cash.max(1)))
        };
        self.amount(wanted, source)
    }

    /// What a lot of a security is worth after the haircut.
    fn worth(&self, security: u32) -> u64 {
        let listings = &self.plain.house.market().listings;
        listings
            .get(security as usize)
            .filter(|it| it.listed)
            .map_or(0, |it| u64::from(it.price) * u64::from(100 - it.haircut))
    }

    fn lots(&self, wanted: Option<u64>, source: &mut Source) -> u32 {
        match (wanted, source.below(30)) {
            (_, 0) => source.of(&[0, 1_000_000, 1_000_001, u32::MAX]),
            (Some(lots), 1..=19) => lots.clamp(1, 1_000_000) as u32,
            _ => source.of_any_size(1_000_000) as u32,
        }
    }

    fn lots_to_lodge(&self, security: u32, source: &mut Source) -> u32 {
        let held = self.record.lots.get(security as usize).copied().unwrap_or(0);
        if source.one_in(30) {
            return 1_000_000 - held + source.below(2) as u32;
        }
        let short = self.target(source).saturating_sub(self.record.available);
        let wanted = short.checked_div(self.worth(security)).map(|lots| lots + source.below(2));
        self.lots(wanted, source)
    }

    /// A security of which the account has lots, if there is one.
    fn security_held(&self, source: &mut Source) -> u32 {
        let held = (0..32).filter(|&at| self.record.lots[at as usize] > 0).collect::<Vec<u32>>();
        if held.is_empty() || source.one_in(10) {
            security(source)
        } else {
            source.of(&held)
        }
    }

    fn lots_to_draw(&self, security: u32, source: &mut Source) -> u32 {
        let held = self.record.lots.get(security as usize).copied().unwrap_or(0);
        if source.one_in(8) {
            return held + source.below(2) as u32;
        }
        let spare = self.record.available.saturating_sub(self.target(source));
        let wanted = spare.checked_div(self.worth(security)).map(|lots| lots + source.below(2));
        let most = wanted.map(|lots| lots.min(held.into()));
        if most.is_none() && held > 0 {
            return source.between(1, held.into()) as u32;
        }
        self.lots(most, source)
    }

    fn family(&self, source: &mut Source) -> u32 {
        if source.one_in(40) {
            source.of(&[2, 3, u32::MAX])
        } else {
            source.below(2) as u32
        }
    }

    /// Averages at which a level of this account turns.
    fn averages(&self, source: &mut Source) -> MarketCall {
        let family = self.family(source);
        let gross = self.trades.iter().filter(|trade| u32::from(trade.benchmark) / 2 == family);
        let gross: u64 = gross.map(|trade| u64::from(trade.notional)).sum();
        let mut about = |value: u64| {
            if source.one_in(25) {
                return source.of(&[0, 1, MOST_AVERAGE, MOST_AVERAGE + 1, u64::MAX]);
            }
            let at = (100 * value.min(MOST_FIGURE)) / source.of(&[15, 13, 8, 6]);
            (at + source.of(&[0, 1, 1, 2])).saturating_sub(1).clamp(1, MOST_AVERAGE)
        };
        MarketCall::Averages { family, margin: about(self.record.obligation), gross: about(gross) }
    }

    fn check(&self, source: &mut Source) -> MarketCall {
        let family = self.family(source);
        let state = self.plain.house.market().families[family.min(1) as usize];
        let calm = source.percent(60);
        let mut returns = [0; 5];
        if let Some(thresholds) = state.thresholds {
            for (at, now) in returns.iter_mut().enumerate() {
                let (trigger, mark) = (thresholds.triggers[at], thresholds.calm_marks[at]);
                *now = if calm {
                    mark - 1
                } else {
                    match source.below(6) {
                        0 => mark,
                        1 => trigger,
                        2 => trigger + 1,
                        3 => mark - 1,
                        _ => (trigger / 20 * source.between(18, 70) as u32 + source.below(3) as u32)
                            .saturating_sub(1),
                    }
                    .min(1_000_000)
                };
            }
            if calm && source.one_in(8) {
                let at = source.below(5) as usize;
                returns[at] = thresholds.calm_marks[at];
            }
        }
        if source.one_in(40) {
            returns[source.below(5) as usize] = source.of(&[1_000_000, 1_000_001, u32::MAX]);
        }
        let slot = match source.below(30) {
            0 => source.of(&[0, 5, u32::MAX]),
            1 => state.day.last,
            2..=4 => state.day.last + 2,
            _ => state.day.last % 4 + 1,
        };
        MarketCall::Check { family, slot, returns }
    }
}

fn market_call(desk: &Desk, source: &mut Source) -> MarketCall {
    match source.below(26) {
        0..=2 => {
            let sets = desk.plain.models[desk.slot].sets();
            let set = if source.one_in(8) {
                source.of(&[sets, 8, u32::MAX])
            } else {
                source.below(sets.into()) as u32
            };
            MarketCall::Set { set }
        }
        3..=6 => {
            let mut call = [
                security(source),
                source.of_any_size(30_000) as u32,
                source.below(101) as u32,
                u32::from(!source.one_in(5)),
            ];
            if source.one_in(6) {
                match source.below(3) {
                    0 => call[1] = source.of(&[0, 1, 30_000, 30_001, u32::MAX]),
                    1 => call[2] = source.of(&[0, 100, 101, u32::MAX]),
                    _ => call[3] = source.of(&[2, 256, u32::MAX]),
                }
            }
            let [security, price, haircut, listed] = call;
            MarketCall::Price { security, price, haircut, listed }
        }
        7 | 8 => {
            let per_cent = match source.below(8) {
                0 => source.of(&[100, 101, u32::MAX]),
                1..=3 => 0,
                _ => source.below(101) as u32,
            };
            MarketCall::StepUp { per_cent }
        }
        9..=12 => desk.averages(source),
        13..=15 => thresholds(desk, source),
        16..=20 => desk.check(source),
        21..=23 => MarketCall::Close,
        _ => {
            let maturity = desk.trades.iter().map(|trade| trade.maturity).find(|&at| at >= desk.month);
            let month = match (source.below(20), maturity) {
                (0, _) => source.of(&[0, desk.month, desk.month.saturating_sub(1), 1200, 65_535]),
                (1, _) => desk.month + source.between(1, 60) as u16,
                (2..=8, Some(maturity)) => maturity.saturating_add(source.below(2) as u16),
                _ => desk.month + source.between(1, 4) as u16,
            };
            MarketCall::Month { month }
        }
    }
}

fn thresholds(desk: &Desk, source: &mut Source) -> MarketCall {
    let family = desk.family(source);
    let most = source.of(&[20, 300, 10_000, 1_000_000]);
    let mut triggers = [0; 5].map(|_| source.between(1, most) as u32);
    if source.one_in(3) {
        triggers = [most as u32; 5];
    }
    let mut calm_marks = triggers.map(|trigger| match source.below(3) {
        0 => trigger,
        _ => source.between(1, trigger.into()) as u32,
    });
    if source.one_in(10) {
        let at = source.below(5) as usize;
        match source.below(3) {
            0 => triggers[at] = source.of(&[0, 1_000_001, u32::MAX]),
            1 => calm_marks[at] = source.of(&[0, 1_000_001, u32::MAX]),
            _ => calm_marks[at] = triggers[at] + 1,
        }
    }
    MarketCall::Thresholds { family, triggers, calm_marks }
}

/// What a caller alters before a call: a number up to its limit, at it, or one beyond.
fn changes(plain: &Plain, source: &mut Source) -> Vec<Change> {
    let records = plain.records.len();
    let account = source.below(records as u64) as u32;
    let used = plain.records[account as usize].trades;
    let most = if account == 0 { MOST_HOUSE_FIGURE } else { MOST_FIGURE };
    let far = source.one_in(2);
    // Beyond the limit in one case of two, else within it.
    let figure = |most: u64, source: &mut Source| match (far, source.below(4)) {
        (true, 0) => u64::MAX,
        (true, _) => most + 1,
        (false, 0) => most,
        (false, _) => source.of_any_size(most),
    };
    let byte = |most: u8, source: &mut Source| match (far, source.below(4)) {
        (true, 0) => 255,
        (true, _) => most + 1,
        (false, _) => source.below(u64::from(most) + 1) as u8,
    };
    // A place in use, or beyond those.
    let place = if used > 0 && source.one_in(2) { source.below(used.into()) as u8 } else { used.min(63) };
    let word = |most: u64, source: &mut Source| figure(most, source).min(u64::from(u32::MAX)) as u32;
    vec![match source.below(24) {
        0 => Change::Cash { account, value: figure(MOST_CASH, source) },
        1 => Change::Obligation { account, value: figure(most, source) },
        2 => Change::Available { account, value: figure(MOST_FIGURE, source) },
        3 => Change::Shortfall { account, value: figure(most, source) },
        4 => Change::Lots { account, security: source.below(32) as u8, value: word(1_000_000, source) },
        5 => Change::Level { account, which: source.below(4) as u8, value: byte(2, source) },
        6 => Change::Count {
            account,
            value: if far { source.of(&[65, 255, used + 1]) } else { used.saturating_sub(1) },
        },
        7 | 8 => Change::Own { account, value: byte(1, source) },
        9 | 10 => Change::Second { account, value: byte(1, source) },
        11 => Change::Number { account, place, value: source.of(&[0, 5, 77]) },
        12 => Change::Benchmark { account, place, value: byte(3, source) },
        13 => Change::Side { account, place, value: byte(1, source) },
        14 => {
            let month = plain.house.market().month + source.below(125) as u16;
            Change::Maturity { account, place, value: source.of(&[0, 65_535, month]) }
        }
        15 => {
            let value = if source.one_in(3) { 0 } else { word(1_000_000, source) };
            Change::Notional { account, place, value }
        }
        16 => Change::Rate { account, place, value: word(200_000, source) },
        17 | 18 => Change::Fill {
            account,
            count: source.of(&[1, 5, 20, 62, 63, 64, 64]),
            seed: source.below(1_000_000),
        },
        19 => Change::Records { length: source.of(&[records + 1, records - 1, 0, 33]) },
        20 => {
            let length = PLACES * records;
            Change::Trades { length: source.of(&[length + 1, length - 1, length + 64, length - 64, 0]) }
        }
        _ => {
            let (field, value) = source.of(&[
                (HouseField::Accounts, 0),
                (HouseField::Accounts, 33),
                (HouseField::Accounts, u64::MAX),
                (HouseField::Percent, 101),
                (HouseField::Month, 1200),
                (HouseField::Volatility, 1001),
                (HouseField::Given, 4),
                (HouseField::Given, 255),
                (HouseField::Slot, 5),
                (HouseField::Checks, 5),
                (HouseField::Calm, 2),
                (HouseField::Average, 0),
                (HouseField::Average, MOST_AVERAGE + 1),
                (HouseField::Trigger, 0),
                (HouseField::Trigger, 1_000_001),
                (HouseField::Mark, 0),
                (HouseField::Mark, 6),
                (HouseField::Price, 30_001),
                (HouseField::Haircut, 101),
                (HouseField::Listed, 2),
                (HouseField::Listed, 255),
            ]);
            Change::House { field, value }
        }
    }]
}
