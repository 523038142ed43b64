//! Calls on random tables, lawful or not, with figures as large as they can be: nothing overflows, a refused call
//! changes nothing, and what an accepted one leaves passes question 1 and rests.

use plain::{AccountCall, Call, House, MarketCall, Model, Numbers, Record, Reply, Trade, PLACES};

struct Source(u64);

impl Source {
    fn next(&mut self) -> u64 {
        self.0 ^= self.0 << 13;
        self.0 ^= self.0 >> 7;
        self.0 ^= self.0 << 17;
        self.0
    }

    fn below(&mut self, limit: u64) -> u64 {
        self.next() % limit
    }

    /// Mostly a number up to the highest, often the highest itself.
    fn up_to(&mut self, highest: u64) -> u64 {
        match self.below(8) {
            0 => 0,
            1..=3 => highest,
            _ => self.below(highest + 1),
        }
    }

    /// A number of one to so many, at times one outside.
    fn about(&mut self, highest: u64) -> u64 {
        match self.below(60) {
            0 => 0,
            1 => highest + 1,
            2 => u64::MAX,
            _ => self.up_to(highest).max(1),
        }
    }

    fn trade(&mut self) -> Trade {
        Trade {
            number: self.below(80) as u32,
            benchmark: self.below(4) as u8,
            side: self.below(2) as u8,
            maturity: self.up_to(65_535) as u16,
            notional: self.up_to(1_000_000).max(1) as u32,
            fixed_rate: self.up_to(200_000) as u32,
        }
    }

    fn tables(&mut self, accounts: usize) -> (Vec<Record>, Vec<Trade>) {
        let mut records = vec![Record::default(); accounts];
        let mut trades = vec![Trade::default(); PLACES * accounts];
        for (account, record) in records.iter_mut().enumerate() {
            let most = if account == 0 { 96_000_000_000_000_000 } else { 3_000_000_000_000_000 };
            record.cash = self.up_to(100_000_000_000_000);
            record.lots = [0; 32].map(|_| self.up_to(1_000_000) as u32);
            record.levels = [0; 4].map(|_| self.below(3) as u8);
            record.trades = self.up_to(64) as u8;
            record.obligation = self.up_to(most);
            record.available = self.up_to(3_000_000_000_000_000);
            record.shortfall = self.up_to(most);
            record.own_flag = self.below(2) == 0;
            record.second_flag = self.below(2) == 0;
            for place in &mut trades[PLACES * account..][..usize::from(record.trades)] {
                *place = self.trade();
            }
        }
        // At times one field out of its range.
        match self.below(40) {
            0 => records[accounts - 1].trades = self.next() as u8,
            1 => records[0].obligation = u64::MAX,
            2 => records[accounts - 1].shortfall = u64::MAX,
            3 => trades[PLACES * accounts - 1].notional = u32::MAX,
            4 => records[0].levels[3] = 3,
            5 => records[0].cash = u64::MAX,
            6 => records[0].lots[31] = u32::MAX,
            7 => drop(records.pop()),
            8 => drop(trades.pop()),
            _ => {}
        }
        (records, trades)
    }

    fn call(&mut self) -> Call {
        let account = self.below(5) as u32;
        let of = |call| Call::Account { account, call };
        match self.below(17) {
            0..=2 => {
                let maturity = 300 + self.below(122) as u16;
                of(AccountCall::Trade(Trade { maturity, ..self.trade() }))
            }
            3 => of(AccountCall::End { number: self.below(80) as u32 }),
            4 => of(AccountCall::LodgeCash { amount: self.about(100_000_000_000_000) }),
            5 => of(AccountCall::DrawCash { amount: self.about(100_000_000_000_000) }),
            6 => of(AccountCall::LodgeSecurity {
                security: self.about(31) as u32,
                lots: self.about(1_000_000) as u32,
            }),
            7 => of(AccountCall::DrawSecurity {
                security: self.about(31) as u32,
                lots: self.about(1_000_000) as u32,
            }),
            8 => of(AccountCall::Show),
            9 => Call::Market(MarketCall::Set { set: self.below(3) as u32 }),
            10 => Call::Market(MarketCall::Price {
                security: self.about(31) as u32,
                price: self.about(30_000) as u32,
                haircut: self.up_to(100) as u32,
                listed: self.below(8).min(1) as u32,
            }),
            11 => Call::Market(MarketCall::StepUp { per_cent: self.about(100) as u32 }),
            12 => Call::Market(MarketCall::Averages {
                family: self.below(2) as u32,
                margin: self.about(10_000_000_000_000_000),
                gross: self.about(10_000_000_000_000_000),
            }),
            13 => Call::Market(MarketCall::Thresholds {
                family: self.below(2) as u32,
                triggers: [self.about(1_000_000) as u32; 5],
                calm_marks: [1; 5],
            }),
            14 => Call::Market(MarketCall::Check {
                family: self.below(2) as u32,
                slot: self.about(4) as u32,
                returns: [0; 5].map(|_| self.about(1_000_000) as u32),
            }),
            15 => Call::Market(MarketCall::Close),
            _ => Call::Market(MarketCall::Month { month: self.below(1300) as u16 }),
        }
    }
}

fn numbers(cells: usize, scenarios: usize, most: i32, source: &mut Source) -> Numbers {
    Numbers {
        sets: 1,
        scenarios: scenarios as u32,
        rates: (0..cells).map(|_| source.up_to(200_000) as u32).collect(),
        ticks: (0..cells).map(|_| source.up_to(100_000) as u32).collect(),
        changes: (0..cells * scenarios).map(|_| if source.below(2) == 0 { most } else { -most }).collect(),
    }
}

fn number(reply: Reply) -> u8 {
    match reply {
        Reply::Account(answer) => answer.number,
        Reply::Market(answer) => answer.number,
    }
}

#[test]
fn any_tables() {
    let source = &mut Source(88_172_645_463_325_252);
    let table = Model::table(numbers(484, 3, 2_000_000, source)).unwrap();
    let knots = Model::knots(numbers(48, 5, 20_000, source)).unwrap();
    let joined = Model::joined(table.clone(), knots.clone()).unwrap();
    let models = [table, knots, joined];

    let mut accepted = 0;
    for _ in 0..1_500 {
        let accounts = 1 + source.below(4) as usize;
        let mut house = House::unopened();
        let (mut records, mut trades) =
            (vec![Record::default(); accounts], vec![Trade::default(); PLACES * accounts]);
        assert_eq!(house.open(accounts as u32, 300, &mut records, &mut trades), 0);
        let (mut records, mut trades) = source.tables(accounts);
        for _ in 0..6 {
            let before = (house.clone(), records.clone(), trades.clone());
            let model = &models[source.below(3) as usize];
            let call = source.call();
            let reply = house.answer(model, &mut records, &mut trades, call);
            if number(reply) != 0 {
                assert_eq!(before, (house.clone(), records.clone(), trades.clone()), "{call:?}");
                continue;
            }
            accepted += 1;
            let after = (records.clone(), trades.clone());
            let account = match call {
                Call::Account { account, .. } => account,
                Call::Market(_) => 0,
            };
            let show = Call::Account { account, call: AccountCall::Show };
            assert_eq!(number(house.answer(model, &mut records, &mut trades, show)), 0, "{call:?}");
            assert_eq!(after, (records.clone(), trades.clone()), "{call:?}");
        }
    }
    assert!(accepted > 3_000, "{accepted}");
}
