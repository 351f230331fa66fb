//! The four small calls: their prepared inputs, and both ways to answer them.

use reference::calendar::Calendar;
use reference::line::{self, Fields};
use reference::random::Random;
use reference::rates;

use crate::exported;
use crate::random_calls;

/// The inputs of each.
pub const COUNT: usize = 4_096;

/// At most one in eight of them is refused.
pub struct Inputs {
    pub annuals: Vec<u64>,
    pub sums: Vec<(u32, u32)>,
    pub fields: Vec<Fields>,
    pub lines: Vec<Vec<u8>>,
}

impl Inputs {
    /// The same in every run.
    pub fn prepared() -> Self {
        let random = &mut Random::seeded(4_096, 0);
        Inputs {
            annuals: one_in_eight(
                random,
                |random| 4_001 + random.of_any_size(u64::MAX - 4_001),
                |random| random.between(0, 4_000),
            ),
            sums: one_in_eight(
                random,
                |random| (random.between(0, 30_000_000) as u32, 80_000),
                |random| (early_date(random), random.between(0, 6_000) as u32),
            ),
            fields: one_in_eight(random, random_calls::any_fields, random_calls::good_fields),
            lines: one_in_eight(random, random_calls::any_line, random_calls::good_line),
        }
    }
}

fn one_in_eight<Input>(
    random: &mut Random,
    eighth: impl Fn(&mut Random) -> Input,
    others: impl Fn(&mut Random) -> Input,
) -> Vec<Input> {
    (0..COUNT)
        .map(|number| match number % 8 {
            0 => eighth(random),
            _ => others(random),
        })
        .collect()
}

/// A date up to 21771218, so that 6,000 days more are one too.
fn early_date(random: &mut Random) -> u32 {
    let days = random.between(0, 65_000) as u32;
    Calendar::gregorian()
        .plus_days(20000101, days)
        .expect("a date")
}

pub fn our_rate(annual: &u64) -> (u32, u64) {
    let mut daily = u64::MAX;
    let number = exported::daily_rate(*annual, &mut daily);
    (number, daily)
}

pub fn reference_rate(annual: &u64) -> (u32, u64) {
    match rates::daily(*annual) {
        Ok(daily) => (0, daily),
        Err(refusal) => (refusal.number(), 0),
    }
}

pub fn our_sum((date, days): &(u32, u32)) -> (u32, u32) {
    let mut sum = u32::MAX;
    let number = exported::plus_days(*date, *days, &mut sum);
    (number, sum)
}

pub fn reference_sum((date, days): &(u32, u32)) -> (u32, u32) {
    match Calendar::gregorian().plus_days(*date, *days) {
        Ok(sum) => (0, sum),
        Err(refusal) => (refusal.number(), 0),
    }
}

type Written = (u32, [u8; line::LENGTH]);

pub fn our_written(fields: &Fields) -> Written {
    let mut out = [0; line::LENGTH];
    let Fields {
        letter,
        date,
        first,
        second,
        third,
    } = *fields;
    let number = exported::write_line(letter, date, first, second, third, &mut out);
    (number, out)
}

pub fn reference_written(fields: &Fields) -> Written {
    let mut out = [0; line::LENGTH];
    match line::write(fields, &mut out) {
        Ok(()) => (0, out),
        Err(refusal) => (refusal.number(), out),
    }
}

/// The fields of no line.
const NOTHING: Fields = Fields {
    letter: 0,
    date: 0,
    first: 0,
    second: 0,
    third: 0,
};

pub fn our_read(line: &[u8]) -> (u32, Fields) {
    let mut fields = NOTHING;
    let number = exported::read_line(
        line,
        &mut fields.letter,
        &mut fields.date,
        &mut fields.first,
        &mut fields.second,
        &mut fields.third,
    );
    (number, fields)
}

pub fn reference_read(line: &[u8]) -> (u32, Fields) {
    match line::read(line) {
        Ok(fields) => (0, fields),
        Err(refusal) => (refusal.number(), NOTHING),
    }
}

#[cfg(test)]
mod tests {
    use super::*;

    /// Of each kind some are refused, and no more than one in eight.
    fn few_refused(numbers: impl Iterator<Item = u32>) {
        let refused = numbers.filter(|&number| number != 0).count();
        assert!((1..=COUNT / 8).contains(&refused), "{refused}");
    }

    #[test]
    fn at_most_one_in_eight_is_refused() {
        let inputs = Inputs::prepared();
        few_refused(inputs.annuals.iter().map(|input| reference_rate(input).0));
        few_refused(inputs.sums.iter().map(|input| reference_sum(input).0));
        few_refused(inputs.fields.iter().map(|input| reference_written(input).0));
        few_refused(inputs.lines.iter().map(|input| reference_read(input).0));
    }
}
