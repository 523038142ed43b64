//! Margin models: tables, knots, and two models joined.

use crate::refusal::Refusal;
use crate::tables::MOST_RATE;

const MOST_SETS: u32 = 8;
const MOST_SCENARIOS: u32 = 1_000;
const MOST_TICK: u32 = 100_000;
const MOST_CHANGE: u32 = 2_000_000;
const MOST_SHOCK: u32 = 20_000;
const BENCHMARKS: usize = 4;
const RESIDUALS: usize = 121;
/// The residuals at which a knot model gives its numbers.
const KNOTS: [u32; 12] = [0, 1, 3, 6, 9, 12, 24, 36, 48, 60, 84, 120];

/// A making that was refused; a number out of range comes with its place.
#[derive(Clone, Copy, Debug, PartialEq, Eq)]
pub struct Refused {
    pub number: u8,
    pub place: Option<usize>,
}

impl From<Refusal> for Refused {
    fn from(refusal: Refusal) -> Self {
        Refused { number: refusal.number(), place: None }
    }
}

/// The numbers from which a table or knot model is made.
#[derive(Clone, Debug, Default, PartialEq, Eq)]
pub struct Numbers {
    pub sets: u32,
    pub scenarios: u32,
    pub rates: Vec<u32>,
    pub ticks: Vec<u32>,
    /// Changes of a table model, shocks of a knot model.
    pub changes: Vec<i32>,
}

impl Numbers {
    /// Question 31.
    pub fn check_counts(sets: u32, scenarios: u32) -> Result<(), Refused> {
        if (1..=MOST_SETS).contains(&sets) && (1..=MOST_SCENARIOS).contains(&scenarios) {
            Ok(())
        } else {
            Err(Refusal::Counts.into())
        }
    }

    fn check(&self, columns: usize, most_change: u32) -> Result<(), Refused> {
        Numbers::check_counts(self.sets, self.scenarios)?;
        let cells = self.sets as usize * BENCHMARKS * columns;
        if self.rates.len() != cells
            || self.ticks.len() != cells
            || self.changes.len() != cells * self.scenarios as usize
        {
            return Err(Refusal::Lengths.into());
        }
        let rate = self.rates.iter().position(|&rate| rate > MOST_RATE);
        let tick = || self.ticks.iter().position(|&tick| tick > MOST_TICK).map(|at| cells + at);
        let change = || {
            let at = self.changes.iter().position(|change| change.unsigned_abs() > most_change);
            at.map(|at| 2 * cells + at)
        };
        match rate.or_else(tick).or_else(change) {
            None => Ok(()),
            place => Err(Refused { number: Refusal::Range.number(), place }),
        }
    }

    /// Where the numbers of a column stand.
    fn cell(&self, columns: usize, set: u32, benchmark: u32, column: usize) -> usize {
        (set as usize * BENCHMARKS + benchmark as usize) * columns + column
    }

    /// The changes (or shocks) of a cell, one for each scenario.
    fn changes_of(&self, cell: usize) -> &[i32] {
        let scenarios = self.scenarios as usize;
        &self.changes[cell * scenarios..][..scenarios]
    }

    fn knows(&self, set: u32, benchmark: u32, residual: u32) -> bool {
        set < self.sets && (benchmark as usize) < BENCHMARKS && (residual as usize) < RESIDUALS
    }
}

/// A table model: its numbers have passed their check.
#[derive(Clone, Debug, PartialEq, Eq)]
pub struct Table(Numbers);

impl Table {
    pub fn new(numbers: Numbers) -> Result<Self, Refused> {
        numbers.check(RESIDUALS, MOST_CHANGE)?;
        Ok(Table(numbers))
    }

    fn cell(&self, set: u32, benchmark: u32, residual: u32) -> Option<usize> {
        self.0
            .knows(set, benchmark, residual)
            .then(|| self.0.cell(RESIDUALS, set, benchmark, residual as usize))
    }

    fn rate(&self, set: u32, benchmark: u32, residual: u32) -> u32 {
        self.cell(set, benchmark, residual).map_or(0, |cell| self.0.rates[cell])
    }

    fn tick(&self, set: u32, benchmark: u32, residual: u32) -> u32 {
        self.cell(set, benchmark, residual).map_or(0, |cell| self.0.ticks[cell])
    }

    fn add_changes(&self, set: u32, benchmark: u32, residual: u32, weight: i64, sums: &mut [i64]) {
        if let Some(cell) = self.cell(set, benchmark, residual) {
            for (sum, &change) in sums.iter_mut().zip(self.0.changes_of(cell)) {
                *sum += weight * i64::from(change);
            }
        }
    }
}

/// A knot model: its numbers have passed their check.
#[derive(Clone, Debug, PartialEq, Eq)]
pub struct Knots(Numbers);

/// Where a residual stands between two cells of a knot model.
#[derive(Clone, Copy)]
struct Between {
    low: usize,
    high: usize,
    past: i32,
    width: i32,
}

impl Between {
    /// The value between two, rounded down.
    fn value(self, low: i32, high: i32) -> i32 {
        low + ((high - low) * self.past).div_euclid(self.width)
    }
}

impl Knots {
    pub fn new(numbers: Numbers) -> Result<Self, Refused> {
        numbers.check(KNOTS.len(), MOST_SHOCK)?;
        Ok(Knots(numbers))
    }

    fn between(&self, set: u32, benchmark: u32, residual: u32) -> Option<Between> {
        if !self.0.knows(set, benchmark, residual) {
            return None;
        }
        let cell = |knot| self.0.cell(KNOTS.len(), set, benchmark, knot);
        let (low, high) = match KNOTS.binary_search(&residual) {
            Ok(knot) => return Some(Between { low: cell(knot), high: cell(knot), past: 0, width: 1 }),
            Err(knot) => (knot - 1, knot),
        };
        Some(Between {
            low: cell(low),
            high: cell(high),
            past: (residual - KNOTS[low]) as i32,
            width: (KNOTS[high] - KNOTS[low]) as i32,
        })
    }

    fn rate(&self, set: u32, benchmark: u32, residual: u32) -> u32 {
        self.value(&self.0.rates, set, benchmark, residual)
    }

    fn tick(&self, set: u32, benchmark: u32, residual: u32) -> u32 {
        self.value(&self.0.ticks, set, benchmark, residual)
    }

    fn value(&self, values: &[u32], set: u32, benchmark: u32, residual: u32) -> u32 {
        self.between(set, benchmark, residual).map_or(0, |between| {
            between.value(values[between.low] as i32, values[between.high] as i32) as u32
        })
    }

    fn add_changes(&self, set: u32, benchmark: u32, residual: u32, weight: i64, sums: &mut [i64]) {
        let Some(between) = self.between(set, benchmark, residual) else {
            return;
        };
        let tick = i64::from(self.tick(set, benchmark, residual));
        let low = self.0.changes_of(between.low);
        let high = self.0.changes_of(between.high);
        for ((sum, &low), &high) in sums.iter_mut().zip(low).zip(high) {
            let shock = i64::from(between.value(low, high));
            *sum += weight * (shock * tick).div_euclid(1000);
        }
    }
}

/// A margin model. Outside its counts it gives 0.
#[derive(Clone, Debug, PartialEq, Eq)]
pub enum Model {
    Table(Table),
    Knots(Knots),
    /// The scenarios of the first, then those of the second, at most 1,000 together.
    Joined(Box<Model>, Box<Model>),
}

impl Model {
    pub fn table(numbers: Numbers) -> Result<Self, Refused> {
        Table::new(numbers).map(Model::Table)
    }

    pub fn knots(numbers: Numbers) -> Result<Self, Refused> {
        Knots::new(numbers).map(Model::Knots)
    }

    pub fn joined(first: Model, second: Model) -> Result<Self, Refused> {
        if first.scenarios() + second.scenarios() > MOST_SCENARIOS {
            return Err(Refusal::TooManyScenarios.into());
        }
        Ok(Model::Joined(Box::new(first), Box::new(second)))
    }

    pub fn sets(&self) -> u32 {
        match self {
            Model::Table(Table(numbers)) | Model::Knots(Knots(numbers)) => numbers.sets,
            Model::Joined(first, second) => first.sets().min(second.sets()),
        }
    }

    pub fn scenarios(&self) -> u32 {
        match self {
            Model::Table(Table(numbers)) | Model::Knots(Knots(numbers)) => numbers.scenarios,
            Model::Joined(first, second) => (first.scenarios() + second.scenarios()).min(MOST_SCENARIOS),
        }
    }

    pub fn rate(&self, set: u32, benchmark: u32, residual: u32) -> u32 {
        match self {
            Model::Table(table) => table.rate(set, benchmark, residual),
            Model::Knots(knots) => knots.rate(set, benchmark, residual),
            Model::Joined(first, _) if set < self.sets() => first.rate(set, benchmark, residual),
            Model::Joined(..) => 0,
        }
    }

    pub fn tick(&self, set: u32, benchmark: u32, residual: u32) -> u32 {
        match self {
            Model::Table(table) => table.tick(set, benchmark, residual),
            Model::Knots(knots) => knots.tick(set, benchmark, residual),
            Model::Joined(first, _) if set < self.sets() => first.tick(set, benchmark, residual),
            Model::Joined(..) => 0,
        }
    }

    pub fn change(&self, set: u32, benchmark: u32, residual: u32, scenario: u32) -> i32 {
        let mut changes = vec![0; self.scenarios() as usize];
        self.add_changes(set, benchmark, residual, 1, &mut changes);
        changes.get(scenario as usize).map_or(0, |&change| change as i32)
    }

    /// Adds `weight` times the change to the sum of each scenario.
    pub(crate) fn add_changes(&self, set: u32, benchmark: u32, residual: u32, weight: i64, sums: &mut [i64]) {
        match self {
            Model::Table(table) => table.add_changes(set, benchmark, residual, weight, sums),
            Model::Knots(knots) => knots.add_changes(set, benchmark, residual, weight, sums),
            Model::Joined(first, second) => {
                if set < self.sets() {
                    let cut = sums.len().min(first.scenarios() as usize);
                    let (front, back) = sums.split_at_mut(cut);
                    first.add_changes(set, benchmark, residual, weight, front);
                    second.add_changes(set, benchmark, residual, weight, back);
                }
            }
        }
    }
}

#[cfg(test)]
pub(crate) mod tests {
    use super::*;

    pub(crate) fn zeros(columns: usize, sets: u32, scenarios: u32) -> Numbers {
        let cells = sets as usize * BENCHMARKS * columns;
        Numbers {
            sets,
            scenarios,
            rates: vec![0; cells],
            ticks: vec![0; cells],
            changes: vec![0; cells * scenarios as usize],
        }
    }

    fn refused(number: u8, place: Option<usize>) -> Refused {
        Refused { number, place }
    }

    #[test]
    fn values_between_knots() {
        let mut numbers = zeros(12, 1, 1);
        numbers.rates[1] = 10;
        numbers.rates[2] = 5;
        numbers.changes[3] = -7;
        numbers.changes[4] = -3;
        numbers.ticks[3] = 1000;
        numbers.ticks[4] = 1000;
        // A shock of -5 at tick value 1,001, at residual 24 of benchmark 1.
        numbers.changes[12 + 6] = -5;
        numbers.ticks[12 + 6] = 1001;
        let model = Model::knots(numbers).unwrap();
        assert_eq!(model.rate(0, 0, 1), 10);
        assert_eq!(model.rate(0, 0, 2), 7);
        assert_eq!(model.rate(0, 0, 3), 5);
        assert_eq!(model.change(0, 0, 6, 0), -7);
        assert_eq!(model.change(0, 0, 7, 0), -6);
        assert_eq!(model.change(0, 0, 8, 0), -5);
        assert_eq!(model.change(0, 0, 9, 0), -3);
        assert_eq!(model.change(0, 1, 24, 0), -6);
    }

    #[test]
    fn makings() {
        assert_eq!(Model::table(zeros(121, 0, 1)), Err(refused(31, None)));
        assert_eq!(Model::table(zeros(121, 9, 1)), Err(refused(31, None)));
        assert_eq!(Model::knots(zeros(12, 1, 1001)), Err(refused(31, None)));
        assert_eq!(Model::knots(zeros(121, 1, 1)), Err(refused(32, None)));
        let mut numbers = zeros(121, 2, 3);
        numbers.changes[5] = 2_000_001;
        assert_eq!(Model::table(numbers.clone()), Err(refused(33, Some(4 * 484 + 5))));
        numbers.ticks[7] = 100_001;
        assert_eq!(Model::table(numbers.clone()), Err(refused(33, Some(2 * 484 + 7))));
        numbers.rates[9] = 200_001;
        assert_eq!(Model::table(numbers), Err(refused(33, Some(9))));
        let mut numbers = zeros(12, 1, 1);
        numbers.changes[0] = i32::MIN;
        assert_eq!(Model::knots(numbers), Err(refused(33, Some(96))));
    }

    #[test]
    fn joined_models() {
        let table = |sets, scenarios, change| {
            let mut numbers = zeros(121, sets, scenarios);
            numbers.rates.fill(change as u32);
            numbers.changes.fill(change);
            Model::table(numbers).unwrap()
        };
        let model = Model::joined(table(2, 2, 1), table(1, 3, 2)).unwrap();
        assert_eq!((model.sets(), model.scenarios()), (1, 5));
        let changes = |set| (0..6).map(|at| model.change(set, 3, 120, at)).collect::<Vec<_>>();
        assert_eq!(changes(0), [1, 1, 2, 2, 2, 0]);
        assert_eq!(changes(1), [0; 6]);
        assert_eq!((model.rate(0, 0, 0), model.rate(1, 0, 0)), (1, 0));
        assert_eq!((model.rate(0, 4, 0), model.rate(0, 0, 121)), (0, 0));

        let (first, second) = (table(1, 600, 1), table(1, 600, 2));
        assert_eq!(Model::joined(first.clone(), second.clone()), Err(refused(34, None)));
        let cut = Model::Joined(Box::new(first), Box::new(second));
        assert_eq!(cut.scenarios(), 1000);
        assert_eq!((cut.change(0, 0, 0, 999), cut.change(0, 0, 0, 1000)), (2, 0));
    }
}
