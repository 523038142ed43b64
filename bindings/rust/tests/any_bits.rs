//! Calls on houses and tables of any bits and any lengths: none goes wrong, and a refused one changes nothing.

use domirelash::{
    FamilyRow, House, HouseRow, Lent, Levels, Marks, Model, Numbers, Record, Security, Single, Trade,
};

struct Source(u64);

impl Source {
    fn bits(&mut self) -> u64 {
        self.0 ^= self.0 << 13;
        self.0 ^= self.0 >> 7;
        self.0 ^= self.0 << 17;
        // Few bits as often as many.
        self.0.wrapping_mul(0x2545_f491_4f6c_dd1d) >> (self.0 % 64)
    }

    fn trade(&mut self) -> Trade {
        Trade {
            number: self.bits() as u32,
            benchmark: self.bits() as u8,
            side: self.bits() as u8,
            maturity: self.bits() as u16,
            notional: self.bits() as u32,
            rate: self.bits() as u32,
        }
    }

    fn levels(&mut self) -> Levels {
        Levels { initial: self.bits() as u8, gross: self.bits() as u8 }
    }

    fn record(&mut self) -> Record {
        Record {
            cash: self.bits(),
            obligation: self.bits(),
            available: self.bits(),
            shortfall: self.bits(),
            lots: [0; 32].map(|_| self.bits() as u32),
            overnight: self.levels(),
            forward: self.levels(),
            trades: self.bits() as u8,
            own: self.bits() as u8,
            second: self.bits() as u8,
        }
    }

    fn family(&mut self) -> FamilyRow {
        FamilyRow {
            initial: self.bits(),
            gross: self.bits(),
            volatility: self.bits() as u32,
            triggers: [0; 5].map(|_| self.bits() as u32),
            marks: [0; 5].map(|_| self.bits() as u32),
            given: self.bits() as u8,
            slot: self.bits() as u8,
            checks: self.bits() as u8,
            calm: self.bits() as u8,
        }
    }

    fn house(&mut self) -> HouseRow {
        HouseRow {
            overnight: self.family(),
            forward: self.family(),
            accounts: self.bits() as u32,
            set: self.bits() as u32,
            percent: self.bits() as u32,
            month: self.bits() as u16,
            securities: [Security::default(); 32].map(|_| Security {
                price: self.bits() as u32,
                haircut: self.bits() as u32,
                listed: self.bits() as u8,
            }),
        }
    }

    fn five(&mut self) -> [u32; 5] {
        [0; 5].map(|_| self.bits() as u32)
    }

    /// One of the fifteen calls, with any arguments; its number.
    fn call(&mut self, lent: &mut Lent, model: &Model) -> u8 {
        let (a, b, c, d) = (self.bits() as u32, self.bits() as u32, self.bits() as u32, self.bits() as u32);
        match self.bits() % 16 {
            0 => lent.new_trade(model, a, self.trade()).number,
            1 => lent.end_trade(model, a, b).number,
            2 => lent.lodge_cash(model, a, self.bits()).number,
            3 => lent.draw_cash(model, a, self.bits()).number,
            4 => lent.lodge_security(model, a, b, c).number,
            5 => lent.draw_security(model, a, b, c).number,
            6 => lent.show(model, a).number,
            7 => lent.set(model, a).number,
            8 => lent.price(model, a, b, c, d).number,
            9 => lent.step_up(model, a).number,
            10 => lent.averages(model, a, self.bits(), self.bits()).number,
            11 => lent.thresholds(model, a, Marks { triggers: self.five(), calm: self.five() }).number,
            12 => lent.volatility(model, a, b, self.five()).number,
            13 => lent.close(model).number,
            14 => lent.month(model, a as u16).number,
            _ => lent.open(a, b as u16),
        }
    }
}

fn knots(source: &mut Source) -> Single<'static> {
    let rates = (0..48).map(|_| (source.bits() % 200_001) as u32).collect::<Vec<_>>();
    let ticks = (0..48).map(|_| (source.bits() % 100_001) as u32).collect::<Vec<_>>();
    let shocks = (0..480).map(|_| (source.bits() % 40_001) as i32 - 20_000).collect::<Vec<_>>();
    Single::knots(Numbers::new(1, 10, rates, ticks, shocks)).unwrap()
}

#[test]
fn any_bits() {
    let source = &mut Source(0x9e37_79b9_7f4a_7c15);
    let models = [Model::from(knots(source)), Model::joined(knots(source), knots(source)).unwrap()];
    let mut seen = [0; 256];
    for round in 0..20_000 {
        let accounts = source.bits() % 4;
        // A lawful house, or any bits; and then one of the two others so, too.
        let mut house = source.house();
        let mut records = vec![Record::default(); accounts as usize];
        let mut trades = vec![Trade::default(); 64 * accounts as usize];
        if round % 4 != 0 {
            Lent { house: &mut house, records: &mut records, trades: &mut trades }.open(accounts as u32, 300);
        }
        match source.bits() % 8 {
            0 => records.iter_mut().for_each(|record| *record = source.record()),
            1 => trades.iter_mut().for_each(|trade| *trade = source.trade()),
            2 => records.resize(source.bits() as usize % 40, Record::default()),
            3 => trades.resize(source.bits() as usize % 4096, Trade::default()),
            _ => {}
        }
        for _ in 0..4 {
            let before = (house, records.clone(), trades.clone());
            let mut lent = Lent { house: &mut house, records: &mut records, trades: &mut trades };
            let number = source.call(&mut lent, &models[round % 2]);
            seen[usize::from(number)] += 1;
            assert!(number == 0 || before == (house, records.clone(), trades.clone()), "refused by {number}");
        }
    }
    assert!(seen[0] > 1_000 && seen[1] > 1_000 && seen[255] > 1_000, "{seen:?}");
}

#[test]
fn makings() {
    let zeros = |cells, scenarios| Numbers::new(1, scenarios, vec![0; cells], vec![0; cells], vec![0; cells]);
    let number =
        |numbers: Numbers<'static>| Model::table(numbers).map(drop).map_err(|it| (it.number, it.place));
    assert_eq!(number(Numbers::default()), Err((31, None)));
    assert_eq!(number(zeros(484, 2)), Err((32, None)));
    assert_eq!(number(zeros(484, 1)), Ok(()));
    let mut numbers = zeros(484, 1);
    numbers.changes.to_mut()[3] = -2_000_001;
    assert_eq!(number(numbers), Err((33, Some(971))));

    let rates = [0; 48];
    let borrowed = || Single::knots(Numbers::new(1, 1, &rates[..], &rates[..], &[0; 48][..])).unwrap();
    assert!(Model::joined(borrowed(), borrowed()).is_ok());
}

#[test]
fn a_house_of_its_own() {
    assert_eq!(House::open(33, 0).unwrap_err().number, 29);
    assert_eq!(House::open(0, 0).unwrap_err().number, 29);
    assert_eq!(House::open(u32::MAX, 0).unwrap_err().number, 29);
    assert_eq!(House::open(1, 1200).unwrap_err().number, 30);
    let model = Model::knots(Numbers::new(1, 1, vec![0; 48], vec![0; 48], vec![0; 48])).unwrap();
    let mut house = House::open(2, 300).unwrap();
    assert!(house.lodge_cash(&model, 1, 5_000_000).accepted());
    let trade = Trade::new(7, 0, 0, 312, 100, 0);
    assert!(house.new_trade(&model, 1, trade).accepted());
    assert_eq!(
        (house.trades(1), house.trades(0), house.trades(2)),
        (Some(&[trade][..]), Some(&[][..]), None)
    );
    assert_eq!(house.record(1).map(|record| (record.obligation, record.restriction())), Some((5_000_000, 1)));
}
