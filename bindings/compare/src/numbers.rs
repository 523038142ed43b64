//! The numbers of a model from its description.

use crate::random::Source;
use crate::steps::{Flaw, Shape, Spec};

pub const SLOTS: usize = 3;

#[derive(Clone, Debug, Default)]
pub struct Numbers {
    pub sets: u32,
    pub scenarios: u32,
    pub rates: Vec<u32>,
    pub ticks: Vec<u32>,
    pub changes: Vec<i32>,
}

impl Spec {
    pub fn numbers(&self) -> Numbers {
        let source = &mut Source::new(self.seed);
        // Counts out of range come with short tables.
        let counts_fit = (1..=8).contains(&self.sets) && (1..=1000).contains(&self.scenarios);
        let cells = if counts_fit { self.sets as usize * if self.knots { 48 } else { 484 } } else { 1 };
        let changes = if counts_fit { cells * self.scenarios as usize } else { 1 };
        let most = if self.knots { 20_000 } else { 2_000_000 };
        let mut numbers = Numbers {
            sets: self.sets,
            scenarios: self.scenarios,
            rates: (0..cells).map(|_| self.shape.rate(source)).collect(),
            ticks: (0..cells).map(|_| self.shape.tick(source)).collect(),
            changes: (0..changes).map(|_| self.shape.change(most, source)).collect(),
        };
        if let Some(flaw) = self.flaw {
            numbers.spoil(flaw);
        }
        numbers
    }
}

impl Shape {
    fn rate(self, source: &mut Source) -> u32 {
        match self {
            Shape::Nothing => 0,
            Shape::Small => source.below(4) as u32,
            Shape::Usual => 64_500 + source.below(1001) as u32,
            Shape::Extreme => source.of(&[0, 200_000]),
            Shape::Any => source.below(200_001) as u32,
        }
    }

    fn tick(self, source: &mut Source) -> u32 {
        match self {
            Shape::Nothing => 0,
            Shape::Small => source.below(1200) as u32,
            Shape::Usual => source.below(12_000) as u32,
            Shape::Extreme => source.of(&[0, 100_000]),
            Shape::Any => source.below(100_001) as u32,
        }
    }

    fn change(self, most: i32, source: &mut Source) -> i32 {
        let about = |source: &mut Source, most: i32| source.below(2 * most as u64 + 1) as i32 - most;
        match self {
            Shape::Nothing => 0,
            Shape::Small => about(source, 3),
            Shape::Usual => about(source, most / 40),
            Shape::Extreme => source.of(&[-most, most]),
            Shape::Any => about(source, most),
        }
    }
}

fn resize<T: Copy + Default>(list: &mut Vec<T>, by: i8) {
    list.resize(list.len().saturating_add_signed(by.into()), T::default());
}

impl Numbers {
    fn spoil(&mut self, flaw: Flaw) {
        let at = |at: u64, length: usize| at as usize % length;
        match flaw {
            Flaw::Length { list: 0, by } => resize(&mut self.rates, by),
            Flaw::Length { list: 1, by } => resize(&mut self.ticks, by),
            Flaw::Length { by, .. } => resize(&mut self.changes, by),
            Flaw::Number { list: 0, at: place, value } => {
                let place = at(place, self.rates.len());
                self.rates[place] = value as u32;
            }
            Flaw::Number { list: 1, at: place, value } => {
                let place = at(place, self.ticks.len());
                self.ticks[place] = value as u32;
            }
            Flaw::Number { at: place, value, .. } => {
                let place = at(place, self.changes.len());
                self.changes[place] = value as i32;
            }
            Flaw::Two { at: place, tick, change } => {
                let (first, second) = (at(place, self.ticks.len()), at(place, self.changes.len()));
                self.ticks[first] = tick;
                self.changes[second] = change;
            }
        }
    }
}
