//! Margin models, made through the library's checks alone.

use crate::raw;
use crate::refused::Refused;
use std::borrow::Cow;
use std::ptr;

/// The numbers of a table or knot model, owned or borrowed. Nothing is checked yet.
#[derive(Clone, Debug, Default)]
pub struct Numbers<'a> {
    pub sets: u32,
    pub scenarios: u32,
    pub rates: Cow<'a, [u32]>,
    pub ticks: Cow<'a, [u32]>,
    /// Changes of a table model, shocks of a knot model.
    pub changes: Cow<'a, [i32]>,
}

impl<'a> Numbers<'a> {
    /// Each list may be a `Vec`, which is then owned, or a slice.
    pub fn new(
        sets: u32,
        scenarios: u32,
        rates: impl Into<Cow<'a, [u32]>>,
        ticks: impl Into<Cow<'a, [u32]>>,
        changes: impl Into<Cow<'a, [i32]>>,
    ) -> Self {
        Numbers { sets, scenarios, rates: rates.into(), ticks: ticks.into(), changes: changes.into() }
    }

    /// The struct of the header. Its pointers are good while `self` is borrowed.
    fn raw(&self, kind: u32) -> raw::Numbers {
        raw::Numbers {
            kind,
            sets: self.sets,
            scenarios: self.scenarios,
            rates: self.rates.as_ptr(),
            rates_len: self.rates.len(),
            ticks: self.ticks.as_ptr(),
            ticks_len: self.ticks.len(),
            changes: self.changes.as_ptr(),
            changes_len: self.changes.len(),
        }
    }
}

/// A table or knot model: its numbers have passed their check. They cannot be reached any more, and a borrowed
/// slice of plain numbers cannot change while it is borrowed, so they stay as they were then.
#[derive(Clone, Debug)]
pub struct Single<'a> {
    kind: u32,
    numbers: Numbers<'a>,
}

impl<'a> Single<'a> {
    /// A table model; else 31, 32 or 33.
    pub fn table(numbers: Numbers<'a>) -> Result<Self, Refused> {
        Self::checked(raw::TABLE, raw::domirelash_check_table, numbers)
    }

    /// A knot model; else 31, 32 or 33.
    pub fn knots(numbers: Numbers<'a>) -> Result<Self, Refused> {
        Self::checked(raw::KNOTS, raw::domirelash_check_knots, numbers)
    }

    fn checked(
        kind: u32,
        check: unsafe extern "C" fn(raw::Numbers, *mut usize) -> u32,
        numbers: Numbers<'a>,
    ) -> Result<Self, Refused> {
        let mut place = 0;
        // SAFETY: the three lists are slices of the lengths given, borrowed until the check returns; the place is a
        // variable of this function, apart from them.
        let number = unsafe { check(numbers.raw(kind), &mut place) };
        match number {
            0 => Ok(Single { kind, numbers }),
            33 => Err(Refused { number: 33, place: Some(place) }),
            _ => Err(Refused { number: number as u8, place: None }),
        }
    }

    pub fn sets(&self) -> u32 {
        self.numbers.sets
    }

    pub fn scenarios(&self) -> u32 {
        self.numbers.scenarios
    }
}

/// A margin model: one, or two joined.
#[derive(Clone, Debug)]
pub struct Model<'a> {
    first: Single<'a>,
    second: Option<Single<'a>>,
}

impl<'a> Model<'a> {
    /// A table model; else 31, 32 or 33.
    pub fn table(numbers: Numbers<'a>) -> Result<Self, Refused> {
        Single::table(numbers).map(Self::from)
    }

    /// A knot model; else 31, 32 or 33.
    pub fn knots(numbers: Numbers<'a>) -> Result<Self, Refused> {
        Single::knots(numbers).map(Self::from)
    }

    /// The scenarios of the first, then those of the second; else 34.
    pub fn joined(first: Single<'a>, second: Single<'a>) -> Result<Self, Refused> {
        match raw::domirelash_check_joined(first.scenarios(), second.scenarios()) {
            0 => Ok(Self::joined_and_cut(first, second)),
            number => Err(Refused { number: number as u8, place: None }),
        }
    }

    /// The same without the question: scenarios past 1,000 are left out.
    pub fn joined_and_cut(first: Single<'a>, second: Single<'a>) -> Self {
        Model { first, second: Some(second) }
    }

    /// The struct of the header. It may be handed to a call while `self` is borrowed: both singles have passed their
    /// checks, and are as they were then.
    pub(crate) fn raw(&self) -> raw::Model {
        let none = raw::Numbers {
            kind: raw::TABLE,
            sets: 0,
            scenarios: 0,
            rates: ptr::null(),
            rates_len: 0,
            ticks: ptr::null(),
            ticks_len: 0,
            changes: ptr::null(),
            changes_len: 0,
        };
        raw::Model {
            joined: u32::from(self.second.is_some()),
            first: self.first.numbers.raw(self.first.kind),
            second: self.second.as_ref().map_or(none, |second| second.numbers.raw(second.kind)),
        }
    }
}

impl<'a> From<Single<'a>> for Model<'a> {
    fn from(first: Single<'a>) -> Self {
        Model { first, second: None }
    }
}
