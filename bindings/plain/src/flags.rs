//! The flags that remember, and the levels that remember.

/// The own flag after settling, from the one before.
pub(crate) fn own_flag(before: bool, obligation: u64, available: u64) -> bool {
    if obligation == 0 || 100 * obligation < 90 * available {
        false
    } else {
        before || 100 * obligation > 95 * available
    }
}

/// The second flag of a constituent after settling, from the one before.
pub(crate) fn second_flag(before: bool, house_restricted: bool, obligation: u64, available: u64) -> bool {
    if !house_restricted || obligation == 0 || 100 * obligation < 70 * available {
        false
    } else {
        before || 100 * obligation > 90 * available
    }
}

/// A concentration level after settling, from the one before.
pub(crate) fn level(before: u8, value: u64, average: u64) -> u8 {
    if 100 * value > 15 * average || before == 2 && 100 * value >= 13 * average {
        2
    } else if before > 0 {
        u8::from(100 * value >= 6 * average)
    } else {
        u8::from(100 * value > 8 * average)
    }
}

#[cfg(test)]
mod tests {
    use super::*;

    #[test]
    fn own_flags() {
        let mut flag = false;
        for (obligation, after) in [(95, false), (96, true), (90, true), (89, false)] {
            flag = own_flag(flag, obligation, 100);
            assert_eq!(flag, after, "{obligation}");
        }
        assert!(!own_flag(true, 0, 0));
    }

    #[test]
    fn second_flags() {
        let (mut own, mut second) = (false, false);
        for (obligation, house, after) in [
            (91, false, (false, false)),
            (91, true, (false, true)),
            (96, true, (true, true)),
            (90, true, (true, true)),
            (89, true, (false, true)),
            (70, true, (false, true)),
            (69, true, (false, false)),
            (75, true, (false, false)),
        ] {
            own = own_flag(own, obligation, 100);
            second = second_flag(second, house, obligation, 100);
            assert_eq!((own, second), after, "{obligation}");
        }
    }

    #[test]
    fn levels() {
        for (before, value, after) in
            [(0, 80, 0), (0, 81, 1), (0, 150, 1), (0, 151, 2), (2, 130, 2), (2, 129, 1)]
        {
            assert_eq!(level(before, value, 1000), after, "{before} {value}");
        }
        // The table of section 6.9, at its bounds.
        for (value, after) in [
            (1501, [2, 2, 2]),
            (1500, [1, 1, 2]),
            (1300, [1, 1, 2]),
            (1299, [1, 1, 1]),
            (801, [1, 1, 1]),
            (800, [0, 1, 1]),
            (600, [0, 1, 1]),
            (599, [0, 0, 0]),
        ] {
            assert_eq!([0, 1, 2].map(|before| level(before, value, 10_000)), after, "{value}");
        }
    }
}
