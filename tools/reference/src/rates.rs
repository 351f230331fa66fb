//! Daily rates, in units of 1/10^10, from annual rates in thousandths of a percent.
//! They are rounded to the nearest unit (document 02, Req 02).

use std::sync::OnceLock;

use crate::big::Natural;
use crate::refusal::Refusal;

pub const HIGHEST_ANNUAL: u64 = 4_000;

/// The daily rate of an annual one, searched for when it is first asked for.
pub fn daily(annual: u64) -> Result<u64, Refusal> {
    static FOUND: [OnceLock<u64>; HIGHEST_ANNUAL as usize + 1] =
        [const { OnceLock::new() }; HIGHEST_ANNUAL as usize + 1];
    if annual > HIGHEST_ANNUAL {
        return Err(Refusal::Rate);
    }
    Ok(*FOUND[annual as usize].get_or_init(|| match annual {
        0 => 0,
        _ => search(annual),
    }))
}

/// The largest whole d with (2 × 10^10 + 2d − 1)^365 ≤ 2^365 × (100,000 + annual)
/// × 10^3645, for an annual rate above 0.
fn search(annual: u64) -> u64 {
    let limit = limit(annual);
    // 0 is within the limit: half a unit less than nothing a day is less than
    // any annual rate. 2,000,000 is beyond it: 365 such days come to over 7.2
    // percent, and the highest annual rate is 4 percent. Halve the distance until
    // they touch.
    let (mut within, mut beyond) = (0, 2_000_000);
    while beyond - within > 1 {
        let middle = (within + beyond) / 2;
        if half_a_unit_below(middle) <= limit {
            within = middle;
        } else {
            beyond = middle;
        }
    }
    within
}

/// (2 × 10^10 + 2d − 1)^365: 2^365 times a year at half a unit less than d.
fn half_a_unit_below(d: u64) -> Natural {
    Natural::power(20_000_000_000 + 2 * d - 1, 365)
}

/// 2^365 × (100,000 + annual) × 10^3645.
fn limit(annual: u64) -> Natural {
    // 2^365 × 10^3645 is (2 × 10^10)^364 × 2 × 10^5.
    static SCALE: OnceLock<Natural> = OnceLock::new();
    let scale = SCALE.get_or_init(|| Natural::power(20_000_000_000, 364).times(200_000));
    scale.times(100_000 + annual)
}

#[cfg(test)]
mod tests {
    use super::*;

    /// Those for 1 and 4,000 as document 02 changes them.
    #[test]
    fn paper_examples_1_to_4() {
        assert_eq!(daily(0), Ok(0));
        assert_eq!(daily(1), Ok(274));
        assert_eq!(daily(2_000), Ok(542_552));
        assert_eq!(daily(4_000), Ok(1_074_598));
        assert_eq!(daily(4_001), Err(Refusal::Rate));
    }

    #[test]
    fn higher_rates_are_never_cut() {
        for annual in [1 << 32, (1 << 32) + 2_000, u64::MAX] {
            assert_eq!(daily(annual), Err(Refusal::Rate));
        }
    }

    /// Factor by factor.
    #[test]
    fn the_limit() {
        for annual in [0, 1, 2_000, HIGHEST_ANNUAL] {
            let year = Natural::power(10, 3645).times(100_000 + annual);
            let doubled = (0..365).fold(year, |product, _| product.times(2));
            assert_eq!(limit(annual), doubled);
        }
    }

    #[test]
    fn the_rule_holds_and_not_for_one_more() {
        for annual in (250..=HIGHEST_ANNUAL).step_by(250).chain([1, 2]) {
            let d = daily(annual).unwrap();
            assert!(half_a_unit_below(d) <= limit(annual));
            assert!(half_a_unit_below(d + 1) > limit(annual));
        }
    }

    /// At 0 the rule would give the 0 that is set there.
    #[test]
    fn the_rule_at_0() {
        assert!(half_a_unit_below(0) <= limit(0));
        assert!(half_a_unit_below(1) > limit(0));
    }

    #[test]
    fn the_search_starts_between_right_ends() {
        assert!(half_a_unit_below(0) <= limit(1));
        assert!(half_a_unit_below(2_000_000) > limit(HIGHEST_ANNUAL));
    }

    /// Each rate is less than half a unit from (1 + annual / 100,000)^(1/365) − 1,
    /// above it and below it, so that no tie is among them.
    #[test]
    fn nearest_by_the_series() {
        for annual in 0..=HIGHEST_ANNUAL {
            let d = u128::from(daily(annual).unwrap());
            let (low, high) = root_between(annual);
            assert!(low <= high && high - low < UNIT / 1_000_000_000);
            assert!(2 * d * UNIT < 2 * low + UNIT, "{annual}");
            assert!(2 * high < 2 * d * UNIT + UNIT, "{annual}");
        }
    }

    /// The same by exact powers. Each rate is also the one rounded down, which was
    /// the rule before document 02, or one more.
    #[test]
    fn nearest_by_powers() {
        let mut one_more = 0;
        for annual in 0..=HIGHEST_ANNUAL {
            let d = daily(annual).unwrap();
            let limit = limit(annual);
            assert!(half_a_unit_below(d) < limit, "{annual}");
            assert!(half_a_unit_below(d + 1) > limit, "{annual}");
            let rounded_up = year_at(d) > limit;
            let down = d - u64::from(rounded_up);
            assert!(year_at(down) <= limit, "{annual}");
            assert!(year_at(down + 1) > limit, "{annual}");
            one_more += u64::from(rounded_up);
        }
        assert_eq!(one_more, 2_002);
    }

    /// (2 × 10^10 + 2d)^365: 2^365 times a year at the daily rate d.
    fn year_at(d: u64) -> Natural {
        Natural::power(20_000_000_000 + 2 * d, 365)
    }

    /// One, and 1/10^10 of it.
    const SCALE: u128 = 10_u128.pow(30);
    const UNIT: u128 = SCALE / 10_000_000_000;

    /// (1 + x)^(1/365) − 1 for x = annual / 100,000, by the binomial series: it lies
    /// between both numbers. The terms of the series have signs by turns and grow
    /// smaller, so that it lies between the sums up to any two neighbours.
    fn root_between(annual: u64) -> (u128, u128) {
        let annual = u128::from(annual);
        // Each term rounded down, and up. The first is x / 365.
        let mut term = (
            SCALE * annual / 36_500_000,
            (SCALE * annual).div_ceil(36_500_000),
        );
        let (mut low, mut high) = (0, term.1);
        for number in 1..=12 {
            // The next is this one times x × (365 × number − 1) / (365 × (number + 1)).
            let numerator = annual * (365 * number - 1);
            let denominator = 36_500_000 * (number + 1);
            let next = (
                term.0 * numerator / denominator,
                (term.1 * numerator).div_ceil(denominator),
            );
            assert!(next.1 <= term.1);
            // A sum that ends with a term taken away is too low, the others are too high.
            if number % 2 > 0 {
                low += term.0;
                low -= next.1;
            } else {
                high -= term.0;
                high += next.1;
            }
            term = next;
        }
        (low, high)
    }
}
