/// Why a call is refused: the question that was answered with no.
#[derive(Clone, Copy, Debug, PartialEq, Eq)]
#[repr(u8)]
pub enum Refusal {
    Tables = 1,
    Account = 2,
    Benchmark = 3,
    Side = 4,
    Notional = 5,
    FixedRate = 6,
    Maturity = 7,
    NumberTaken = 8,
    AccountFull = 9,
    ObligationNotLower = 10,
    TradeNotCovered = 11,
    NoSuchTrade = 12,
    Amount = 13,
    TotalTooHigh = 14,
    NotHeld = 15,
    DrawNotCovered = 16,
    Security = 17,
    Lots = 18,
    Set = 19,
    Price = 20,
    StepUp = 21,
    Family = 22,
    Averages = 23,
    Thresholds = 24,
    Returns = 25,
    NoThresholds = 26,
    Slot = 27,
    Month = 28,
    Accounts = 29,
    OpeningMonth = 30,
    Counts = 31,
    Lengths = 32,
    Range = 33,
    TooManyScenarios = 34,
}

impl Refusal {
    pub fn number(self) -> u8 {
        self as u8
    }
}

/// Asks one question.
pub(crate) fn ask(yes: bool, otherwise: Refusal) -> Result<(), Refusal> {
    if yes {
        Ok(())
    } else {
        Err(otherwise)
    }
}

/// The number of an answer: 0 if accepted.
pub(crate) fn number(outcome: Result<(), Refusal>) -> u8 {
    outcome.err().map_or(0, Refusal::number)
}
