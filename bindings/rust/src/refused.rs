//! Refusals, and the question behind each number.

use std::error::Error;
use std::fmt;

/// An opening or a making that was refused.
#[derive(Clone, Copy, Debug, PartialEq, Eq)]
pub struct Refused {
    pub number: u8,
    /// With 33: the place of the first number out of range, counted from 0 through rates, ticks and changes as one
    /// list.
    pub place: Option<usize>,
}

impl fmt::Display for Refused {
    fn fmt(&self, to: &mut fmt::Formatter<'_>) -> fmt::Result {
        write!(to, "refused by question {}: {}", self.number, question(self.number))?;
        match self.place {
            Some(place) => write!(to, " (place {place})"),
            None => Ok(()),
        }
    }
}

impl Error for Refused {}

/// The question whose answer was no, for the number of an answer.
pub fn question(number: u8) -> &'static str {
    match number {
        0 => "(accepted)",
        1 => "both tables have exactly the right lengths, all within limits, flags 0 or 1?",
        2 => "does the house have this account?",
        3 => "benchmark 0 to 3?",
        4 => "side 0 (pay) or 1 (receive)?",
        5 => "notional 1 to 1,000,000?",
        6 => "fixed rate at most 200,000?",
        7 => "maturity between the current month and 120 months later?",
        8 => "is the trade number free in this account?",
        9 => "fewer than 64 trades?",
        10 => "restricted account: would the obligation be lower than the stored one?",
        11 => "unrestricted account: would available reach obligation?",
        12 => "does the account have a trade of this number?",
        13 => "amount 1 to 10^14?",
        14 => "does the total stay within the limit?",
        15 => "does the account hold what is drawn?",
        16 => "would available reach obligation after the draw?",
        17 => "security below 32?",
        18 => "lots 1 to 1,000,000?",
        19 => "set below the model's sets?",
        20 => "price 1 to 30,000, haircut at most 100, listed 0 or 1?",
        21 => "step-up at most 100?",
        22 => "family 0 or 1?",
        23 => "both averages 1 to 10^16?",
        24 => "triggers and calm marks 1 to 1,000,000, no calm mark above its trigger?",
        25 => "returns at most 1,000,000?",
        26 => "has the family thresholds?",
        27 => "slot 1 to 4, and above the family's last one that day?",
        28 => "month later than the current one, at most 1199?",
        29 => "accounts 1 to 32?",
        30 => "month at most 1199?",
        31 => "sets 1 to 8, scenarios 1 to 1,000?",
        32 => "are the tables as long as sets and scenarios call for?",
        33 => "is every number in range?",
        34 => "do both models together have at most 1,000 scenarios?",
        255 => "is this a house at all?",
        _ => "(no such question)",
    }
}
