//! The largest remainder method (the paper's "Settle"): an amount is divided by
//! weights, and the units left over go one each to the greatest remainders.

use std::cmp::Reverse;

pub const PLACES: usize = 64;
pub const HIGHEST_AMOUNT: u64 = 100_000_000_000;
pub const HIGHEST_TOTAL: u128 = 92_000_000;

/// Why nothing is apportioned. The numbers are this module's own, not those
/// of the paper's table.
#[derive(Clone, Copy, Debug, PartialEq, Eq)]
pub enum Fault {
    Count = 1,
    Amount = 2,
    TotalWeight = 3,
}

/// The parts of the amount for the first `count` weights; the other parts are 0.
pub fn apportion(amount: u64, count: u64, weights: &[u64; PLACES]) -> Result<[u64; PLACES], Fault> {
    if count == 0 || count > PLACES as u64 {
        return Err(Fault::Count);
    }
    if amount > HIGHEST_AMOUNT {
        return Err(Fault::Amount);
    }
    let weights = &weights[..count as usize];
    let total: u128 = weights.iter().copied().map(u128::from).sum();
    if total == 0 || total > HIGHEST_TOTAL {
        return Err(Fault::TotalWeight);
    }

    let mut parts = [0; PLACES];
    let mut remainders = Vec::new();
    for (position, &weight) in weights.iter().enumerate() {
        let product = u128::from(amount) * u128::from(weight);
        parts[position] = (product / total) as u64; // at most the amount
        remainders.push(product % total);
    }

    let left_over = amount - parts.iter().sum::<u64>();
    let mut positions: Vec<usize> = (0..weights.len()).collect();
    // The sort is stable: the earlier position stays first among equals.
    positions.sort_by_key(|&position| Reverse(remainders[position]));
    for &position in &positions[..left_over as usize] {
        parts[position] += 1;
    }
    Ok(parts)
}

#[cfg(test)]
mod tests {
    use super::*;

    fn places(weights: &[u64]) -> [u64; PLACES] {
        let mut all = [0; PLACES];
        all[..weights.len()].copy_from_slice(weights);
        all
    }

    fn by_all(amount: u64, weights: &[u64]) -> Result<[u64; PLACES], Fault> {
        apportion(amount, weights.len() as u64, &places(weights))
    }

    #[test]
    fn paper_example_6() {
        let shares = [350_100, 60_800, 441_600, 10_000, 137_500];
        assert_eq!(by_all(100, &shares), Ok(places(&[35, 6, 44, 1, 14])));
    }

    #[test]
    fn paper_example_7() {
        assert_eq!(by_all(1, &[500_000, 500_000]), Ok(places(&[1, 0])));
    }

    #[test]
    fn paper_example_8() {
        let unit_days = [20_000_000, 10_000_000];
        assert_eq!(by_all(100, &unit_days), Ok(places(&[67, 33])));
    }

    #[test]
    fn leftovers_among_equals_go_to_the_earlier() {
        let mut expected = [2; PLACES];
        expected[PLACES - 1] = 1;
        assert_eq!(by_all(127, &[15_625; PLACES]), Ok(expected));
        assert_eq!(by_all(64, &[15_625; PLACES]), Ok([1; PLACES]));
    }

    #[test]
    fn no_weight_no_part() {
        assert_eq!(by_all(2, &[0, 1, 0, 1, 1]), Ok(places(&[0, 1, 0, 1])));
    }

    #[test]
    fn nothing_is_lost_or_made() {
        let weights = places(&[7, 0, 3, 3, 11, 1, 7]);
        for amount in 0..200 {
            let parts = apportion(amount, 7, &weights).unwrap();
            assert_eq!(parts.iter().sum::<u64>(), amount);
        }
    }

    #[test]
    fn faults_in_their_order() {
        let zeros = [0; PLACES];
        let over = HIGHEST_AMOUNT + 1;
        assert_eq!(apportion(over, 0, &zeros), Err(Fault::Count));
        assert_eq!(apportion(over, 65, &zeros), Err(Fault::Count));
        assert_eq!(apportion(over, 64, &zeros), Err(Fault::Amount));
        assert_eq!(apportion(1, 64, &zeros), Err(Fault::TotalWeight));
        assert_eq!(by_all(1, &[92_000_001]), Err(Fault::TotalWeight));
        assert_eq!(by_all(1, &[u64::MAX, 2]), Err(Fault::TotalWeight));
    }

    #[test]
    fn the_greatest_of_each_is_allowed() {
        let parts = by_all(HIGHEST_AMOUNT, &[92_000_000]);
        assert_eq!(parts, Ok(places(&[HIGHEST_AMOUNT])));
    }

    #[test]
    fn weights_behind_the_count_do_not_matter() {
        let weights = places(&[1, 1, u64::MAX]);
        assert_eq!(apportion(3, 2, &weights), Ok(places(&[2, 1])));
    }
}
