//! The two sides: the library through its wrapper, and the rules in ordinary Rust.

use domirelash::{FamilyRow, HouseRow, Lent, Levels, Marks, Record, Single, Trade};
use plain::{AccountCall, Answer, Call, MarketAnswer, MarketCall, Reply, PLACES};

use crate::numbers::{Numbers, SLOTS};
use crate::random::Source;
use crate::steps::{Change, HouseField, Shape, Spec};

/// The making of a model, answered: its number, and a place with 33.
pub type Made = (u8, Option<usize>);

/// The model of a slot before one is made.
pub const FIRST: Spec =
    Spec { knots: true, sets: 1, scenarios: 1, shape: Shape::Nothing, seed: 0, flaw: None };

/// The trades with which a caller fills an account.
fn fill(count: u8, seed: u64) -> Vec<plain::Trade> {
    let source = &mut Source::new(seed);
    let month = source.below(1300) as u16;
    let most = source.of_any_size(1_000_000);
    (0..count)
        .map(|_| plain::Trade {
            number: source.below(90) as u32,
            benchmark: source.below(4) as u8,
            side: source.below(2) as u8,
            maturity: month + source.below(140) as u16,
            notional: source.between(1, most) as u32,
            fixed_rate: source.of(&[0, 64_900, 65_000, 65_100, 200_000]),
        })
        .collect()
}

pub struct Library {
    pub house: HouseRow,
    pub records: Vec<Record>,
    pub trades: Vec<Trade>,
    models: Vec<domirelash::Model<'static>>,
}

impl Library {
    pub fn new() -> Self {
        let model =
            domirelash::Model::from(Self::single(&FIRST, FIRST.numbers()).expect("zeros are in range"));
        Library {
            house: HouseRow::default(),
            records: Vec::new(),
            trades: Vec::new(),
            models: vec![model; SLOTS],
        }
    }

    fn lent(&mut self) -> Lent<'_> {
        Lent { house: &mut self.house, records: &mut self.records, trades: &mut self.trades }
    }

    /// Makes the tables as long as asked; what is new in them is anything.
    pub fn resize(&mut self, records: usize, trades: usize) {
        let record = Record { cash: u64::MAX, own: 2, second: 255, trades: 65, ..Record::default() };
        self.records.resize(records, record);
        self.trades.resize(trades, Trade { side: 9, ..Trade::default() });
    }

    pub fn open(&mut self, accounts: u32, month: u16) -> u8 {
        self.lent().open(accounts, month)
    }

    fn single(spec: &Spec, numbers: Numbers) -> Result<Single<'static>, Made> {
        let Numbers { sets, scenarios, rates, ticks, changes } = numbers;
        let numbers = domirelash::Numbers::new(sets, scenarios, rates, ticks, changes);
        let made = if spec.knots { Single::knots(numbers) } else { Single::table(numbers) };
        made.map_err(|refused| (refused.number, refused.place))
    }

    pub fn make(&mut self, slot: usize, spec: &Spec) -> Made {
        match Self::single(spec, spec.numbers()) {
            Ok(single) => {
                self.models[slot] = single.into();
                (0, None)
            }
            Err(made) => made,
        }
    }

    pub fn join(&mut self, slot: usize, specs: [&Spec; 2], ask: bool) -> Made {
        let [first, second] = specs.map(|spec| Self::single(spec, spec.numbers()));
        let (first, second) = match (first, second) {
            (Ok(first), Ok(second)) => (first, second),
            (Err(made), _) | (_, Err(made)) => return made,
        };
        let model = if ask {
            match domirelash::Model::joined(first, second) {
                Ok(model) => model,
                Err(refused) => return (refused.number, refused.place),
            }
        } else {
            domirelash::Model::joined_and_cut(first, second)
        };
        self.models[slot] = model;
        (0, None)
    }

    pub fn answer(&mut self, slot: usize, call: Call) -> Reply {
        let model = &self.models[slot];
        let lent = &mut Lent { house: &mut self.house, records: &mut self.records, trades: &mut self.trades };
        match call {
            Call::Account { account, call } => {
                let answer = match call {
                    AccountCall::Trade(it) => lent.new_trade(model, account, row_of(&it)),
                    AccountCall::End { number } => lent.end_trade(model, account, number),
                    AccountCall::LodgeCash { amount } => lent.lodge_cash(model, account, amount),
                    AccountCall::DrawCash { amount } => lent.draw_cash(model, account, amount),
                    AccountCall::LodgeSecurity { security, lots } => {
                        lent.lodge_security(model, account, security, lots)
                    }
                    AccountCall::DrawSecurity { security, lots } => {
                        lent.draw_security(model, account, security, lots)
                    }
                    AccountCall::Show => lent.show(model, account),
                };
                Reply::Account(Answer {
                    number: answer.number,
                    obligation: answer.obligation,
                    available: answer.available,
                    shortfall: answer.shortfall,
                    restriction: answer.restriction,
                })
            }
            Call::Market(call) => {
                let answer = match call {
                    MarketCall::Set { set } => lent.set(model, set),
                    MarketCall::Price { security, price, haircut, listed } => {
                        lent.price(model, security, price, haircut, listed)
                    }
                    MarketCall::StepUp { per_cent } => lent.step_up(model, per_cent),
                    MarketCall::Averages { family, margin, gross } => {
                        lent.averages(model, family, margin, gross)
                    }
                    MarketCall::Thresholds { family, triggers, calm_marks } => {
                        lent.thresholds(model, family, Marks { triggers, calm: calm_marks })
                    }
                    MarketCall::Check { family, slot, returns } => {
                        lent.volatility(model, family, slot, returns)
                    }
                    MarketCall::Close => lent.close(model),
                    MarketCall::Month { month } => lent.month(model, month),
                };
                Reply::Market(MarketAnswer {
                    number: answer.number,
                    set: answer.set,
                    month: answer.month,
                    volatility: [answer.overnight, answer.forward],
                })
            }
        }
    }

    fn record(&mut self, account: u32) -> Option<&mut Record> {
        self.records.get_mut(account as usize)
    }

    fn place(&mut self, account: u32, place: u8) -> Option<&mut Trade> {
        self.trades.get_mut(PLACES * account as usize + usize::from(place))
    }

    pub fn alter(&mut self, change: Change) {
        let nothing = &mut Record::default();
        let nowhere = &mut Trade::default();
        match change {
            Change::Cash { account, value } => self.record(account).unwrap_or(nothing).cash = value,
            Change::Obligation { account, value } => {
                self.record(account).unwrap_or(nothing).obligation = value
            }
            Change::Available { account, value } => self.record(account).unwrap_or(nothing).available = value,
            Change::Shortfall { account, value } => self.record(account).unwrap_or(nothing).shortfall = value,
            Change::Lots { account, security, value } => {
                self.record(account).unwrap_or(nothing).lots[usize::from(security)] = value
            }
            Change::Level { account, which, value } => {
                let record = self.record(account).unwrap_or(nothing);
                let Levels { initial, gross } =
                    if which < 2 { &mut record.overnight } else { &mut record.forward };
                *(if which % 2 == 0 { initial } else { gross }) = value;
            }
            Change::Count { account, value } => self.record(account).unwrap_or(nothing).trades = value,
            Change::Own { account, value } => self.record(account).unwrap_or(nothing).own = value,
            Change::Second { account, value } => self.record(account).unwrap_or(nothing).second = value,
            Change::Number { account, place, value } => {
                self.place(account, place).unwrap_or(nowhere).number = value
            }
            Change::Benchmark { account, place, value } => {
                self.place(account, place).unwrap_or(nowhere).benchmark = value
            }
            Change::Side { account, place, value } => {
                self.place(account, place).unwrap_or(nowhere).side = value
            }
            Change::Maturity { account, place, value } => {
                self.place(account, place).unwrap_or(nowhere).maturity = value
            }
            Change::Notional { account, place, value } => {
                self.place(account, place).unwrap_or(nowhere).notional = value
            }
            Change::Rate { account, place, value } => {
                self.place(account, place).unwrap_or(nowhere).rate = value
            }
            Change::Fill { account, count, seed } => {
                if let Some(places) = self.trades.chunks_exact_mut(PLACES).nth(account as usize) {
                    places.fill(Trade::default());
                    for (place, trade) in places.iter_mut().zip(fill(count, seed)) {
                        *place = row_of(&trade);
                    }
                    self.records[account as usize].trades = count;
                }
            }
            Change::Records { length } => self.records.resize(length, Record::default()),
            Change::Trades { length } => self.trades.resize(length, Trade::default()),
            Change::House { field, value } => alter_house(&mut self.house, field, value),
        }
    }

    /// The house and both tables, to be put back.
    pub fn copy(&self) -> (HouseRow, Vec<Record>, Vec<Trade>) {
        (self.house, self.records.clone(), self.trades.clone())
    }

    pub fn put_back(&mut self, copy: (HouseRow, Vec<Record>, Vec<Trade>)) {
        (self.house, self.records, self.trades) = copy;
    }
}

fn alter_house(house: &mut HouseRow, field: HouseField, value: u64) {
    let family = &mut house.forward;
    match field {
        HouseField::Accounts => house.accounts = value as u32,
        HouseField::Percent => house.percent = value as u32,
        HouseField::Month => house.month = value as u16,
        HouseField::Volatility => family.volatility = value as u32,
        HouseField::Given => family.given = value as u8,
        HouseField::Slot => family.slot = value as u8,
        HouseField::Checks => family.checks = value as u8,
        HouseField::Calm => house.overnight.calm = value as u8,
        HouseField::Average => *family = FamilyRow { given: 1, initial: 1, gross: value, ..*family },
        HouseField::Trigger => {
            *family = FamilyRow { given: 2, triggers: [value as u32; 5], marks: [1; 5], ..*family }
        }
        HouseField::Mark => {
            let marks = [5, 5, 5, 5, value as u32];
            *family = FamilyRow { given: 2, triggers: [5; 5], marks, ..*family }
        }
        HouseField::Price => house.securities[7].price = value as u32,
        HouseField::Haircut => house.securities[31].haircut = value as u32,
        HouseField::Listed => house.securities[0].listed = value as u8,
    }
}

pub fn row_of(trade: &plain::Trade) -> Trade {
    Trade {
        number: trade.number,
        benchmark: trade.benchmark,
        side: trade.side,
        maturity: trade.maturity,
        notional: trade.notional,
        rate: trade.fixed_rate,
    }
}

/// The rules in ordinary Rust. Their flags are either set or clear, so a flag of another number is kept as a note,
/// and so is a house that is none.
pub struct Plain {
    pub house: plain::House,
    pub records: Vec<plain::Record>,
    pub trades: Vec<plain::Trade>,
    flags_fit: bool,
    is_house: bool,
    pub models: Vec<plain::Model>,
}

impl Plain {
    pub fn new() -> Self {
        let model = Self::single(&FIRST, FIRST.numbers()).expect("zeros are in range");
        Plain {
            house: plain::House::unopened(),
            records: Vec::new(),
            trades: Vec::new(),
            flags_fit: true,
            is_house: true,
            models: vec![model; SLOTS],
        }
    }

    /// Makes the tables as long as asked; what is new in them is anything.
    pub fn resize(&mut self, records: usize, trades: usize) {
        let record = plain::Record { cash: u64::MAX, trades: 65, ..plain::Record::default() };
        self.records.resize(records, record);
        self.trades.resize(trades, plain::Trade { side: 9, ..plain::Trade::default() });
    }

    pub fn open(&mut self, accounts: u32, month: u16) -> u8 {
        self.house.open(accounts, month, &mut self.records, &mut self.trades)
    }

    fn single(spec: &Spec, numbers: Numbers) -> Result<plain::Model, Made> {
        let Numbers { sets, scenarios, rates, ticks, changes } = numbers;
        let numbers = plain::Numbers { sets, scenarios, rates, ticks, changes };
        let made = if spec.knots { plain::Model::knots(numbers) } else { plain::Model::table(numbers) };
        made.map_err(|refused| (refused.number, refused.place))
    }

    pub fn make(&mut self, slot: usize, spec: &Spec) -> Made {
        match Self::single(spec, spec.numbers()) {
            Ok(model) => {
                self.models[slot] = model;
                (0, None)
            }
            Err(made) => made,
        }
    }

    pub fn join(&mut self, slot: usize, specs: [&Spec; 2], ask: bool) -> Made {
        let [first, second] = specs.map(|spec| Self::single(spec, spec.numbers()));
        let (first, second) = match (first, second) {
            (Ok(first), Ok(second)) => (first, second),
            (Err(made), _) | (_, Err(made)) => return made,
        };
        let model = if ask {
            match plain::Model::joined(first, second) {
                Ok(model) => model,
                Err(refused) => return (refused.number, refused.place),
            }
        } else {
            plain::Model::Joined(Box::new(first), Box::new(second))
        };
        self.models[slot] = model;
        (0, None)
    }

    pub fn answer(&mut self, slot: usize, call: Call) -> Reply {
        let number = match (self.is_house, self.flags_fit) {
            (false, _) => 255,
            (true, false) => 1,
            (true, true) => {
                return self.house.answer(&self.models[slot], &mut self.records, &mut self.trades, call)
            }
        };
        match call {
            Call::Account { .. } => Reply::Account(Answer { number, ..Answer::default() }),
            Call::Market(_) if number == 1 => Reply::Market(MarketAnswer { number, ..self.house.stand() }),
            Call::Market(_) => Reply::Market(MarketAnswer { number, ..MarketAnswer::default() }),
        }
    }

    fn record(&mut self, account: u32) -> Option<&mut plain::Record> {
        self.records.get_mut(account as usize)
    }

    fn place(&mut self, account: u32, place: u8) -> Option<&mut plain::Trade> {
        self.trades.get_mut(PLACES * account as usize + usize::from(place))
    }

    pub fn alter(&mut self, change: Change) {
        let nothing = &mut plain::Record::default();
        let nowhere = &mut plain::Trade::default();
        match change {
            Change::Cash { account, value } => self.record(account).unwrap_or(nothing).cash = value,
            Change::Obligation { account, value } => {
                self.record(account).unwrap_or(nothing).obligation = value
            }
            Change::Available { account, value } => self.record(account).unwrap_or(nothing).available = value,
            Change::Shortfall { account, value } => self.record(account).unwrap_or(nothing).shortfall = value,
            Change::Lots { account, security, value } => {
                self.record(account).unwrap_or(nothing).lots[usize::from(security)] = value
            }
            Change::Level { account, which, value } => {
                self.record(account).unwrap_or(nothing).levels[usize::from(which)] = value
            }
            Change::Count { account, value } => self.record(account).unwrap_or(nothing).trades = value,
            Change::Own { account, value } => {
                if let Some(record) = self.record(account) {
                    record.own_flag = value == 1;
                    self.flags_fit &= value <= 1;
                }
            }
            Change::Second { account, value } => {
                if let Some(record) = self.record(account) {
                    record.second_flag = value == 1;
                    self.flags_fit &= value <= 1;
                }
            }
            Change::Number { account, place, value } => {
                self.place(account, place).unwrap_or(nowhere).number = value
            }
            Change::Benchmark { account, place, value } => {
                self.place(account, place).unwrap_or(nowhere).benchmark = value
            }
            Change::Side { account, place, value } => {
                self.place(account, place).unwrap_or(nowhere).side = value
            }
            Change::Maturity { account, place, value } => {
                self.place(account, place).unwrap_or(nowhere).maturity = value
            }
            Change::Notional { account, place, value } => {
                self.place(account, place).unwrap_or(nowhere).notional = value
            }
            Change::Rate { account, place, value } => {
                self.place(account, place).unwrap_or(nowhere).fixed_rate = value
            }
            Change::Fill { account, count, seed } => {
                if let Some(places) = self.trades.chunks_exact_mut(PLACES).nth(account as usize) {
                    places.fill(plain::Trade::default());
                    for (place, trade) in places.iter_mut().zip(fill(count, seed)) {
                        *place = trade;
                    }
                    self.records[account as usize].trades = count;
                }
            }
            Change::Records { length } => self.records.resize(length, plain::Record::default()),
            Change::Trades { length } => self.trades.resize(length, plain::Trade::default()),
            Change::House { .. } => self.is_house = false,
        }
    }

    /// The house and both tables, to be put back.
    pub fn copy(&self) -> (plain::House, Vec<plain::Record>, Vec<plain::Trade>) {
        (self.house.clone(), self.records.clone(), self.trades.clone())
    }

    pub fn put_back(&mut self, copy: (plain::House, Vec<plain::Record>, Vec<plain::Trade>)) {
        (self.house, self.records, self.trades) = copy;
        self.flags_fit = true;
        self.is_house = true;
    }
}
