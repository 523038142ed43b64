//! The market state, and what the market calls ask of it and change.

use crate::model::Model;
use crate::refusal::{ask, Refusal};
use crate::tables::SECURITIES;

pub(crate) const LAST_MONTH: u16 = 1199;
const MOST_PRICE: u32 = 30_000;
const MOST_AVERAGE: u64 = 10_000_000_000_000_000;
const MOST_MILLIONTHS: u32 = 1_000_000;
const MOST_TENTHS: u32 = 1000;
const SLOTS: u32 = 4;

/// A call that changes the market.
#[derive(Clone, Copy, Debug, PartialEq, Eq)]
pub enum MarketCall {
    Set { set: u32 },
    Price { security: u32, price: u32, haircut: u32, listed: u32 },
    StepUp { per_cent: u32 },
    Averages { family: u32, margin: u64, gross: u64 },
    Thresholds { family: u32, triggers: [u32; 5], calm_marks: [u32; 5] },
    Check { family: u32, slot: u32, returns: [u32; 5] },
    Close,
    Month { month: u16 },
}

#[derive(Clone, Copy, Debug, PartialEq, Eq)]
pub struct Averages {
    pub margin: u64,
    pub gross: u64,
}

#[derive(Clone, Copy, Debug, PartialEq, Eq)]
pub struct Thresholds {
    pub triggers: [u32; 5],
    pub calm_marks: [u32; 5],
}

impl Thresholds {
    fn lawful(&self) -> bool {
        let in_range = |mark: &u32| (1..=MOST_MILLIONTHS).contains(mark);
        self.triggers.iter().all(in_range)
            && self.calm_marks.iter().all(in_range)
            && self.calm_marks.iter().zip(&self.triggers).all(|(calm, trigger)| calm <= trigger)
    }

    fn calm(&self, returns: &[u32; 5]) -> bool {
        returns.iter().zip(&self.calm_marks).all(|(now, calm)| now < calm)
    }

    /// The volatility per cent that a check calls for, in tenths, if it calls for one.
    fn volatility(&self, returns: &[u32; 5]) -> Option<u32> {
        let pairs = || returns.iter().zip(&self.triggers);
        if pairs().filter(|(now, trigger)| now > trigger).count() < 2 {
            return None;
        }
        // Rounding up keeps the order, so the highest ratio has the highest rounded per cent.
        let highest = pairs().map(|(now, trigger)| 5 * (20 * now).div_ceil(*trigger)).max()?;
        Some((5 * (highest - 100)).min(MOST_TENTHS))
    }
}

/// The slots of a family checked since the last close.
#[derive(Clone, Copy, Debug, PartialEq, Eq)]
pub struct Day {
    pub last: u32,
    pub checks: u32,
    /// Whether all returns were below their calm marks.
    pub calm: bool,
}

impl Day {
    const NEW: Day = Day { last: 0, checks: 0, calm: true };
}

#[derive(Clone, Copy, Debug, PartialEq, Eq)]
pub struct Family {
    /// In tenths of a per cent.
    pub volatility: u32,
    pub averages: Option<Averages>,
    pub thresholds: Option<Thresholds>,
    pub day: Day,
}

impl Family {
    const NEW: Family = Family { volatility: 0, averages: None, thresholds: None, day: Day::NEW };

    fn check(&mut self, slot: u32, returns: [u32; 5]) -> Result<(), Refusal> {
        ask(returns.iter().all(|&now| now <= MOST_MILLIONTHS), Refusal::Returns)?;
        let thresholds = self.thresholds.ok_or(Refusal::NoThresholds)?;
        ask((1..=SLOTS).contains(&slot) && slot > self.day.last, Refusal::Slot)?;
        self.day.last = slot;
        self.day.checks += 1;
        self.day.calm &= thresholds.calm(&returns);
        if let Some(volatility) = thresholds.volatility(&returns) {
            self.volatility = self.volatility.max(volatility);
        }
        Ok(())
    }

    fn close(&mut self) {
        if self.day.checks == SLOTS && self.day.calm {
            self.volatility = 0;
        }
        self.day = Day::NEW;
    }
}

/// What is published of a security.
#[derive(Clone, Copy, Debug, Default, PartialEq, Eq)]
pub struct Listing {
    pub price: u32,
    pub haircut: u32,
    pub listed: bool,
}

/// The market state of a house.
#[derive(Clone, Debug, PartialEq, Eq)]
pub struct Market {
    pub month: u16,
    pub set: u32,
    pub step_up: u32,
    pub families: [Family; 2],
    pub listings: [Listing; SECURITIES],
}

impl Market {
    pub(crate) fn new(month: u16) -> Self {
        let listings = [Listing::default(); SECURITIES];
        Market { month, set: 0, step_up: 0, families: [Family::NEW; 2], listings }
    }

    /// The value of lots of each security after the haircut, in paise.
    pub(crate) fn securities(&self, lots: &[u32; SECURITIES]) -> u64 {
        self.listings
            .iter()
            .zip(lots)
            .filter(|(listing, _)| listing.listed)
            .map(|(it, &lots)| u64::from(lots) * u64::from(it.price) * u64::from(100 - it.haircut))
            .sum()
    }

    fn family(&mut self, family: u32) -> Result<&mut Family, Refusal> {
        self.families.get_mut(family as usize).ok_or(Refusal::Family)
    }

    /// Asks a call's questions after the first, and makes its change if all are answered with yes.
    pub(crate) fn act(&mut self, model: &Model, call: MarketCall) -> Result<(), Refusal> {
        match call {
            MarketCall::Set { set } => {
                ask(set < model.sets(), Refusal::Set)?;
                self.set = set;
            }
            MarketCall::Price { security, price, haircut, listed } => {
                let listing = self.listings.get_mut(security as usize).ok_or(Refusal::Security)?;
                let in_range = (1..=MOST_PRICE).contains(&price) && haircut <= 100 && listed <= 1;
                ask(in_range, Refusal::Price)?;
                *listing = Listing { price, haircut, listed: listed == 1 };
            }
            MarketCall::StepUp { per_cent } => {
                ask(per_cent <= 100, Refusal::StepUp)?;
                self.step_up = per_cent;
            }
            MarketCall::Averages { family, margin, gross } => {
                let family = self.family(family)?;
                let range = 1..=MOST_AVERAGE;
                ask(range.contains(&margin) && range.contains(&gross), Refusal::Averages)?;
                family.averages = Some(Averages { margin, gross });
            }
            MarketCall::Thresholds { family, triggers, calm_marks } => {
                let family = self.family(family)?;
                let thresholds = Thresholds { triggers, calm_marks };
                ask(thresholds.lawful(), Refusal::Thresholds)?;
                family.thresholds = Some(thresholds);
            }
            MarketCall::Check { family, slot, returns } => {
                self.family(family)?.check(slot, returns)?;
            }
            MarketCall::Close => self.families.iter_mut().for_each(Family::close),
            MarketCall::Month { month } => {
                ask(self.month < month && month <= LAST_MONTH, Refusal::Month)?;
                self.month = month;
            }
        }
        Ok(())
    }
}

#[cfg(test)]
mod tests {
    use super::*;

    #[test]
    fn checks() {
        let thresholds = Thresholds { triggers: [10_000; 5], calm_marks: [1; 5] };
        for (returns, tenths) in [
            ([13_226, 13_226, 0, 0, 0], Some(175)),
            ([13_500, 13_500, 0, 0, 0], Some(175)),
            ([10_001, 10_001, 0, 0, 0], Some(25)),
            ([30_000, 10_001, 0, 0, 0], Some(1000)),
            ([90_000, 0, 0, 0, 0], None),
            ([20_000, 10_000, 0, 0, 0], None),
        ] {
            assert_eq!(thresholds.volatility(&returns), tenths, "{returns:?}");
        }
        let least = Thresholds { triggers: [1; 5], calm_marks: [1; 5] };
        assert_eq!(least.volatility(&[1_000_000; 5]), Some(1000));
    }

    #[test]
    fn days() {
        let marks = Thresholds { triggers: [10; 5], calm_marks: [5; 5] };
        let mut family = Family { thresholds: Some(marks), volatility: 25, ..Family::NEW };
        for slot in 2..=4 {
            family.check(slot, [4; 5]).unwrap();
        }
        family.close();
        assert_eq!(family.volatility, 25);
        for slot in 1..=4 {
            family.check(slot, [4; 5]).unwrap();
            assert_eq!(family.check(slot, [4; 5]), Err(Refusal::Slot));
        }
        family.close();
        assert_eq!(family.volatility, 0);
    }

    #[test]
    fn collateral_of_a_security() {
        let mut market = Market::new(0);
        market.listings[3] = Listing { price: 9850, haircut: 4, listed: true };
        let mut lots = [0; SECURITIES];
        lots[3] = 10;
        lots[4] = 10;
        assert_eq!(market.securities(&lots), 9_456_000);
    }
}
