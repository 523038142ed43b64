//! The two tables that a caller lends, and their limits.

/// The most accounts of a house.
pub const ACCOUNTS: u32 = 32;
/// Trade places of one account.
pub const PLACES: usize = 64;
/// Number of securities.
pub const SECURITIES: usize = 32;

pub(crate) const MOST_CASH: u64 = 100_000_000_000_000;
pub(crate) const MOST_LOTS: u32 = 1_000_000;
pub(crate) const MOST_NOTIONAL: u32 = 1_000_000;
pub(crate) const MOST_RATE: u32 = 200_000;
const MOST_FIGURE: u64 = 3_000_000_000_000_000;
const MOST_HOUSE_FIGURE: u64 = 96_000_000_000_000_000;

/// What is kept of one account.
#[derive(Clone, Copy, Debug, Default, PartialEq, Eq)]
pub struct Record {
    /// Paise lodged.
    pub cash: u64,
    /// Lots lodged of each security.
    pub lots: [u32; SECURITIES],
    /// For each family the level of its initial margin, then that of its gross notional.
    pub levels: [u8; 4],
    /// How many trades the account has.
    pub trades: u8,
    pub obligation: u64,
    pub available: u64,
    pub shortfall: u64,
    pub own_flag: bool,
    pub second_flag: bool,
}

/// A trade place. In a place not in use every field is zero.
#[derive(Clone, Copy, Debug, Default, PartialEq, Eq)]
pub struct Trade {
    pub number: u32,
    pub benchmark: u8,
    /// 0 pays the fixed rate, 1 receives it.
    pub side: u8,
    pub maturity: u16,
    /// In lakh.
    pub notional: u32,
    pub fixed_rate: u32,
}

impl Trade {
    /// The notional, negative if the trade receives the fixed rate.
    pub(crate) fn signed_notional(&self) -> i64 {
        let notional = i64::from(self.notional);
        if self.side == 0 {
            notional
        } else {
            -notional
        }
    }

    /// The months left, from 0 to 120.
    pub(crate) fn residual(&self, month: u16) -> u32 {
        u32::from(self.maturity.saturating_sub(month)).min(120)
    }

    fn keeps_limits(&self) -> bool {
        self.benchmark <= 3
            && self.side <= 1
            && (1..=MOST_NOTIONAL).contains(&self.notional)
            && self.fixed_rate <= MOST_RATE
    }
}

impl Record {
    fn keeps_limits(&self, house: bool) -> bool {
        let most = if house { MOST_HOUSE_FIGURE } else { MOST_FIGURE };
        self.cash <= MOST_CASH
            && self.lots.iter().all(|&lots| lots <= MOST_LOTS)
            && self.levels.iter().all(|&level| level <= 2)
            && usize::from(self.trades) <= PLACES
            && self.obligation <= most
            && self.available <= MOST_FIGURE
            && self.shortfall <= most
    }
}

/// The places of an account.
pub(crate) fn places(trades: &[Trade], account: usize) -> &[Trade] {
    &trades[PLACES * account..][..PLACES]
}

/// The places of an account, to be changed.
pub(crate) fn places_mut(trades: &mut [Trade], account: usize) -> &mut [Trade] {
    &mut trades[PLACES * account..][..PLACES]
}

/// Are both tables as long as a house of so many accounts needs them?
pub(crate) fn lengths_fit(accounts: u32, records: &[Record], trades: &[Trade]) -> bool {
    let accounts = accounts as usize;
    records.len() == accounts && trades.len() == PLACES * accounts
}

/// Question 1.
pub(crate) fn tables_keep(accounts: u32, records: &[Record], trades: &[Trade]) -> bool {
    lengths_fit(accounts, records, trades)
        && records.iter().zip(trades.chunks_exact(PLACES)).enumerate().all(|(account, (record, places))| {
            record.keeps_limits(account == 0) && {
                let (used, free) = places.split_at(usize::from(record.trades));
                used.iter().all(Trade::keeps_limits) && free.iter().all(|place| *place == Trade::default())
            }
        })
}

#[cfg(test)]
mod tests {
    use super::*;

    #[test]
    fn limits_of_question_1() {
        let trade = Trade { notional: 1, ..Trade::default() };
        let mut records = vec![Record::default(); 2];
        let mut trades = vec![Trade::default(); 128];
        assert!(tables_keep(2, &records, &trades));
        assert!(!tables_keep(1, &records, &trades));
        assert!(!tables_keep(2, &records, &trades[1..]));

        trades[64] = trade;
        assert!(!tables_keep(2, &records, &trades));
        records[1].trades = 1;
        assert!(tables_keep(2, &records, &trades));
        records[1].trades = 255;
        assert!(!tables_keep(2, &records, &trades));
        records[1].trades = 1;

        records[0].obligation = MOST_HOUSE_FIGURE;
        records[0].available = MOST_FIGURE;
        assert!(tables_keep(2, &records, &trades));
        records[0].available += 1;
        assert!(!tables_keep(2, &records, &trades));
        records[0].available = 0;
        records[1].shortfall = MOST_FIGURE + 1;
        assert!(!tables_keep(2, &records, &trades));
    }

    #[test]
    fn residuals_are_bounded() {
        let trade = |maturity| Trade { maturity, ..Trade::default() };
        assert_eq!(trade(299).residual(300), 0);
        assert_eq!(trade(300).residual(300), 0);
        assert_eq!(trade(420).residual(300), 120);
        assert_eq!(trade(65_535).residual(300), 120);
    }
}
