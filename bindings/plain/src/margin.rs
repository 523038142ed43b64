//! From the trades and collateral of one account to its obligation.

use crate::flags::level;
use crate::market::{Family, Market};
use crate::model::Model;
use crate::tables::{Record, Trade};

/// The figures of one account.
#[derive(Clone, Copy, Debug, PartialEq, Eq)]
pub(crate) struct Figures {
    pub levels: [u8; 4],
    pub obligation: u64,
    pub available: u64,
}

impl Figures {
    pub fn of(market: &Market, model: &Model, record: &Record, trades: &[Trade], cover: u64) -> Self {
        let benchmarks = [0, 1, 2, 3].map(|benchmark| Benchmark::of(market, model, trades, benchmark));

        let mut levels = [0; 4];
        let mut charges = 0;
        for (index, family) in market.families.iter().enumerate() {
            let margin = benchmarks[2 * index].initial + benchmarks[2 * index + 1].initial;
            let gross = trades
                .iter()
                .filter(|trade| usize::from(trade.benchmark) / 2 == index)
                .map(|trade| u64::from(trade.notional))
                .sum();
            let before = [record.levels[2 * index], record.levels[2 * index + 1]];
            let after = settle_levels(family, before, margin, gross);
            levels[2 * index..][..2].copy_from_slice(&after);
            charges += volatility_margin(family, margin) + concentration_charge(after, margin);
        }

        let margins: u64 = benchmarks.iter().map(|it| it.initial + it.mark_loss).sum();
        let credit: u64 = benchmarks.iter().map(|it| it.credit).sum();
        Figures {
            levels,
            obligation: margins + charges + cover,
            available: record.cash + market.securities(&record.lots) + credit,
        }
    }

    pub fn shortfall(&self) -> u64 {
        self.obligation.saturating_sub(self.available)
    }

    pub fn covered(&self) -> bool {
        self.available >= self.obligation
    }
}

/// What the trades of one benchmark come to.
#[derive(Clone, Copy, Debug, Default, PartialEq, Eq)]
struct Benchmark {
    initial: u64,
    mark_loss: u64,
    credit: u64,
}

impl Benchmark {
    fn of(market: &Market, model: &Model, trades: &[Trade], benchmark: u8) -> Self {
        let residual = |trade: &Trade| trade.residual(market.month);
        let mut trades: Vec<&Trade> = trades.iter().filter(|trade| trade.benchmark == benchmark).collect();
        if trades.is_empty() {
            return Benchmark::default();
        }
        trades.sort_by_key(|trade| residual(trade));
        let benchmark = u32::from(benchmark);

        let risk = |group: &[&Trade]| {
            let mut losses = vec![0; model.scenarios() as usize];
            for trade in group {
                let weight = -trade.signed_notional();
                model.add_changes(market.set, benchmark, residual(trade), weight, &mut losses);
            }
            value_at_risk(&mut losses)
        };
        let by_residual = trades.chunk_by(|a, b| residual(a) == residual(b)).map(risk).sum();
        let by_bucket = trades.chunk_by(|a, b| bucket(residual(a)) == bucket(residual(b))).map(risk).sum();
        let all = risk(&trades);

        let minimum = trades
            .iter()
            .map(|trade| trade.signed_notional() * band(residual(trade)))
            .sum::<i64>()
            .unsigned_abs();
        let base = minimum.max(all + spread(by_residual, by_bucket, all));

        let marks: i64 = trades
            .iter()
            .map(|trade| {
                let residual = residual(trade);
                mark(
                    trade,
                    model.rate(market.set, benchmark, residual),
                    model.tick(market.set, benchmark, residual),
                )
            })
            .sum();
        Benchmark {
            initial: stepped_up(base, market.step_up),
            mark_loss: marks.min(0).unsigned_abs(),
            credit: 95 * marks.max(0).unsigned_abs() / 100,
        }
    }
}

/// The k-th highest loss, or 0 if that is negative.
fn value_at_risk(losses: &mut [i64]) -> u64 {
    let k = (losses.len() / 100).max(1);
    let (_, kth, _) = losses.select_nth_unstable_by(k - 1, |a, b| b.cmp(a));
    (*kth).max(0).unsigned_abs()
}

fn bucket(residual: u32) -> u32 {
    (residual / 6).min(19)
}

/// Minimum margin in paise per lakh.
fn band(residual: u32) -> i64 {
    match residual {
        0..=36 => 50_000,
        37..=60 => 100_000,
        _ => 175_000,
    }
}

fn spread(by_residual: u64, by_bucket: u64, all: u64) -> u64 {
    (2 * by_residual.saturating_sub(by_bucket) + by_bucket.saturating_sub(all)).div_ceil(10)
}

fn stepped_up(base: u64, per_cent: u32) -> u64 {
    base + (base * u64::from(per_cent)).div_ceil(100)
}

fn mark(trade: &Trade, rate: u32, tick: u32) -> i64 {
    let difference = i64::from(rate) - i64::from(trade.fixed_rate);
    (trade.signed_notional() * difference * i64::from(tick)).div_euclid(1000)
}

fn settle_levels(family: &Family, before: [u8; 2], margin: u64, gross: u64) -> [u8; 2] {
    family.averages.map_or([0, 0], |averages| {
        [level(before[0], margin, averages.margin), level(before[1], gross, averages.gross)]
    })
}

fn volatility_margin(family: &Family, margin: u64) -> u64 {
    (margin * u64::from(family.volatility)).div_ceil(1000)
}

fn concentration_charge(levels: [u8; 2], margin: u64) -> u64 {
    let per_cent = match levels[0].max(levels[1]) {
        0 => 0,
        1 => 15,
        _ => 20,
    };
    (margin * per_cent).div_ceil(100)
}

#[cfg(test)]
mod tests {
    use super::*;
    use crate::model::tests::zeros;

    fn trade(side: u8, maturity: u16, notional: u32) -> Trade {
        Trade { side, maturity, notional, ..Trade::default() }
    }

    fn initial(trades: &[Trade]) -> u64 {
        let model = Model::table(zeros(121, 1, 20)).unwrap();
        Benchmark::of(&Market::new(300), &model, trades, 0).initial
    }

    #[test]
    fn minimum_margins() {
        let offset = [trade(0, 336, 1_000_000), trade(1, 360, 200_000)];
        assert_eq!(initial(&offset), 30_000_000_000);
        assert_eq!(initial(&[trade(0, 336, 100)]), 5_000_000);
        assert_eq!(initial(&[trade(0, 337, 100)]), 10_000_000);
        assert_eq!(initial(&[trade(0, 360, 100)]), 10_000_000);
        assert_eq!(initial(&[trade(0, 361, 100)]), 17_500_000);
    }

    #[test]
    fn values_at_risk() {
        let mut losses = vec![0; 200];
        losses[..3].copy_from_slice(&[9, 5, 9]);
        assert_eq!(value_at_risk(&mut losses), 9);
        assert_eq!(value_at_risk(&mut [-1]), 0);
        assert_eq!(value_at_risk(&mut [3; 1000]), 3);
    }

    /// The example of section 6.3.
    #[test]
    fn spread_charge() {
        let mut numbers = zeros(121, 1, 200);
        for (residual, losses) in [(1, [100, 0, 0, 0]), (3, [0, 100, 0, 0]), (6, [-60, 0, 50, 50])] {
            for (scenario, loss) in losses.into_iter().enumerate() {
                numbers.changes[residual * 200 + scenario] = -loss;
            }
        }
        let model = Model::table(numbers).unwrap();
        let trades = [trade(0, 301, 1), trade(0, 303, 1), trade(0, 306, 1)];
        let risk = |group: &[Trade]| {
            let mut losses = vec![0; 200];
            for trade in group {
                model.add_changes(0, 0, trade.residual(300), -1, &mut losses);
            }
            value_at_risk(&mut losses)
        };
        let x = risk(&trades[..1]) + risk(&trades[1..2]) + risk(&trades[2..]);
        let z = risk(&trades[..2]) + risk(&trades[2..]);
        let y = risk(&trades);
        assert_eq!((x, z, y), (50, 150, 50));
        assert_eq!(spread(x, z, y), 10);
        assert_eq!((bucket(5), bucket(6), bucket(114), bucket(120)), (0, 1, 19, 19));
    }

    #[test]
    fn step_up() {
        assert_eq!(stepped_up(5_000_001, 7), 5_350_002);
    }

    #[test]
    fn marks() {
        assert_eq!(mark(&trade(0, 0, 1), 1, 500), 0);
        assert_eq!(mark(&trade(1, 0, 1), 1, 500), -1);

        let mut numbers = zeros(121, 1, 20);
        numbers.rates.fill(65_500);
        numbers.ticks.fill(10_000);
        let model = Model::table(numbers).unwrap();
        let pay = Trade { fixed_rate: 65_000, ..trade(0, 312, 100) };
        assert_eq!(mark(&pay, 65_500, 10_000), 500_000);
        assert_eq!(Benchmark::of(&Market::new(300), &model, &[pay], 0).credit, 475_000);
        let receive = Trade { side: 1, ..pay };
        assert_eq!(Benchmark::of(&Market::new(300), &model, &[receive], 0).mark_loss, 500_000);
    }
}
