//! The book of one collection right (the paper's "The book" and "What stops a
//! call"). A call looks for its refusals first, the lowest number first, and
//! changes the book only when there is none.

use std::collections::BTreeSet;

use crate::apportionment::{apportion, PLACES};
use crate::calendar::Calendar;
use crate::rates::{daily, HIGHEST_ANNUAL};
use crate::refusal::Refusal;

#[derive(Clone, Copy, Debug, PartialEq, Eq, PartialOrd, Ord)]
pub struct Cents(pub u64);

/// Parts of the right; 1,000,000 are the whole.
#[derive(Clone, Copy, Debug, PartialEq, Eq, PartialOrd, Ord)]
pub struct Parts(pub u64);

/// Parts held, summed over the days.
#[derive(Clone, Copy, Debug, PartialEq, Eq, PartialOrd, Ord)]
pub struct UnitDays(pub u64);

/// Days are numbered from the right's first day, day 0; earlier ones are negative.
#[derive(Clone, Copy, Debug, PartialEq, Eq, PartialOrd, Ord)]
pub struct Day(pub i64);

pub const WHOLE: Parts = Parts(1_000_000);
pub const LONGEST_TERM: u32 = 6_000;
pub const LATEST_FIRST_DAY: u32 = 20991231;
pub const HIGHEST_RECOGNISED: Cents = Cents(1_000_000_000_000);
pub const HIGHEST_SETTLEMENT: Cents = Cents(100_000_000_000);
pub const HIGHEST_HOLDER: u32 = 999_999_999;

/// Daily rates and the fraction count units of one in so many.
const UNITS: u128 = 10_000_000_000;

#[derive(Clone, Copy, Debug, PartialEq, Eq)]
pub struct Position {
    pub holder: u32,
    pub share: Parts,
    pub unit_days: UnitDays,
    pub received: Cents,
}

#[derive(Clone, Copy, Debug, PartialEq, Eq)]
pub struct Totals {
    /// A date.
    pub today: u32,
    pub outstanding: Cents,
    pub due: Cents,
    pub fraction: u64,
    pub principal_paid: Cents,
    pub interest_paid: Cents,
}

/// What a settlement pays.
#[derive(Clone, Copy, Debug, PartialEq, Eq)]
pub struct Taken {
    pub interest: Cents,
    pub principal: Cents,
}

/// What a rate order changes, in cents: after minus before.
#[derive(Clone, Copy, Debug, PartialEq, Eq)]
pub struct Change {
    pub outstanding: i64,
    pub due: i64,
}

/// A book is empty or holds one right.
#[derive(Clone, Debug, PartialEq, Eq)]
pub struct Book {
    right: Option<Right>,
}

#[derive(Clone, Debug, PartialEq, Eq)]
struct Right {
    /// A date: day 0.
    first_day: u32,
    term: u32,
    today: Day,
    /// In order of first appearance.
    positions: Vec<Position>,
    account: Account,
    /// In order of their days.
    settlements: Vec<Settlement>,
    /// In order of their first days; one starts on day 0.
    rates: Vec<StoredRate>,
}

#[derive(Clone, Copy, Debug, PartialEq, Eq)]
struct Settlement {
    day: Day,
    cents: Cents,
}

#[derive(Clone, Copy, Debug, PartialEq, Eq)]
struct StoredRate {
    first_day: Day,
    annual: u64,
}

/// What is owed and what was paid.
#[derive(Clone, Copy, Debug, PartialEq, Eq)]
struct Account {
    outstanding: Cents,
    due: Cents,
    fraction: u64,
    principal_paid: Cents,
    interest_paid: Cents,
}

impl Book {
    pub const POSITIONS: usize = PLACES;
    pub const SETTLEMENTS: usize = 240;
    pub const RATES: usize = 16;
    pub const DAYS_WITHOUT_SETTLEMENT: i64 = 92;

    pub fn empty() -> Self {
        Book { right: None }
    }

    pub fn open(
        &mut self,
        first_day: u32,
        term: u32,
        annual: u64,
        recognised: Cents,
        holders: &[u32],
        shares: &[u32],
    ) -> Result<(), Refusal> {
        if self.right.is_some() {
            return Err(Refusal::AlreadyOpen);
        }
        if !Calendar::gregorian().is_date(first_day) {
            return Err(Refusal::Date);
        }
        if !(1..=LONGEST_TERM).contains(&term) || first_day > LATEST_FIRST_DAY {
            return Err(Refusal::Term);
        }
        if recognised == Cents(0) || recognised > HIGHEST_RECOGNISED {
            return Err(Refusal::Amount);
        }
        if annual > HIGHEST_ANNUAL {
            return Err(Refusal::Rate);
        }
        if !is_financing(holders, shares) {
            return Err(Refusal::Financing);
        }

        let positions = holders.iter().zip(shares);
        self.right = Some(Right {
            first_day,
            term,
            today: Day(0),
            positions: positions
                .map(|(&holder, &share)| Position::new(holder, Parts(share.into())))
                .collect(),
            account: Account::new(recognised),
            settlements: Vec::new(),
            rates: vec![StoredRate {
                first_day: Day(0),
                annual,
            }],
        });
        Ok(())
    }

    /// Answers the number of days passed.
    pub fn advance(&mut self, date: u32) -> Result<u32, Refusal> {
        let right = self.opened_mut()?;
        let day = right.day_of(date)?;
        if day <= right.today || day > Day(right.term.into()) {
            return Err(Refusal::Day);
        }
        if day.0 > right.last_settlement().0 + Self::DAYS_WITHOUT_SETTLEMENT {
            return Err(Refusal::SettlementPending);
        }

        let mut days_passed = 0;
        while right.today < day {
            right.pass_day();
            days_passed += 1;
        }
        Ok(days_passed)
    }

    /// The annual rate holds from the date on, as if it always had.
    pub fn rate(&mut self, date: u32, annual: u64) -> Result<Change, Refusal> {
        let right = self.opened_mut()?;
        let first_day = right.day_of(date)?;
        if annual > HIGHEST_ANNUAL {
            return Err(Refusal::Rate);
        }
        if first_day < Day(0) || first_day > right.today {
            return Err(Refusal::Day);
        }
        let mut rates = right.rates.clone();
        rates.retain(|stored| stored.first_day < first_day);
        if rates.len() >= Self::RATES {
            return Err(Refusal::BookFull);
        }
        rates.push(StoredRate { first_day, annual });
        let account = right.replay(&rates)?;

        let before = right.account;
        right.rates = rates;
        right.account = account;
        Ok(Change {
            outstanding: account.outstanding.0 as i64 - before.outstanding.0 as i64,
            due: account.due.0 as i64 - before.due.0 as i64,
        })
    }

    /// Answers the cedent's remaining share.
    pub fn transfer(&mut self, cedent: u32, assignee: u32, parts: Parts) -> Result<Parts, Refusal> {
        let right = self.opened_mut()?;
        if !is_holder(cedent) || !is_holder(assignee) || cedent == assignee {
            return Err(Refusal::Holder);
        }
        let cedent = right.place_of(cedent).ok_or(Refusal::Holder)?;
        if parts == Parts(0) || parts > right.positions[cedent].share {
            return Err(Refusal::Share);
        }
        let assignee_place = right.place_of(assignee);
        if assignee_place.is_none() && right.positions.len() == Self::POSITIONS {
            return Err(Refusal::BookFull);
        }

        let assignee = assignee_place.unwrap_or_else(|| {
            right.positions.push(Position::new(assignee, Parts(0)));
            right.positions.len() - 1
        });
        right.positions[cedent].share.0 -= parts.0;
        right.positions[assignee].share.0 += parts.0;
        Ok(right.positions[cedent].share)
    }

    pub fn settle(&mut self, cents: Cents) -> Result<Taken, Refusal> {
        let right = self.opened_mut()?;
        if cents > HIGHEST_SETTLEMENT {
            return Err(Refusal::Amount);
        }
        if right.settlements.len() == Self::SETTLEMENTS {
            return Err(Refusal::BookFull);
        }
        if right.today == right.last_settlement() {
            return Err(Refusal::NoDayHeld);
        }
        let taken = right.account.pay(cents)?;

        right.share_out(cents);
        right.settlements.push(Settlement {
            day: right.today,
            cents,
        });
        Ok(taken)
    }

    pub fn position(&self, holder: u32) -> Result<Position, Refusal> {
        let right = self.opened()?;
        let place = right.place_of(holder).ok_or(Refusal::Holder)?;
        Ok(right.positions[place])
    }

    /// All positions, in book order.
    pub fn positions(&self) -> Result<&[Position], Refusal> {
        Ok(&self.opened()?.positions)
    }

    pub fn totals(&self) -> Result<Totals, Refusal> {
        let right = self.opened()?;
        let days = right.today.0 as u32; // never negative
        Ok(Totals {
            today: Calendar::gregorian().plus_days(right.first_day, days)?,
            outstanding: right.account.outstanding,
            due: right.account.due,
            fraction: right.account.fraction,
            principal_paid: right.account.principal_paid,
            interest_paid: right.account.interest_paid,
        })
    }

    fn opened(&self) -> Result<&Right, Refusal> {
        self.right.as_ref().ok_or(Refusal::Unopened)
    }

    fn opened_mut(&mut self) -> Result<&mut Right, Refusal> {
        self.right.as_mut().ok_or(Refusal::Unopened)
    }
}

impl Right {
    fn day_of(&self, date: u32) -> Result<Day, Refusal> {
        let calendar = Calendar::gregorian();
        calendar.days_between(self.first_day, date).map(Day)
    }

    fn place_of(&self, holder: u32) -> Option<usize> {
        let mut positions = self.positions.iter();
        positions.position(|position| position.holder == holder)
    }

    /// The last settlement's day, or day 0 without any.
    fn last_settlement(&self) -> Day {
        self.settlements.last().map_or(Day(0), |last| last.day)
    }

    /// Leaves today behind.
    fn pass_day(&mut self) {
        for position in &mut self.positions {
            position.unit_days.0 += position.share.0;
        }
        self.account.accrue(daily_on(&self.rates, self.today));
        self.today.0 += 1;
    }

    /// The cents go to the positions by their unit-days, which become 0.
    fn share_out(&mut self, cents: Cents) {
        let mut unit_days = [0; PLACES];
        for (weight, position) in unit_days.iter_mut().zip(&self.positions) {
            *weight = position.unit_days.0;
        }
        let portions = apportion(cents.0, self.positions.len() as u64, &unit_days)
            .expect("1 to 92 days, each of them 1,000,000 unit-days");
        for (position, portion) in self.positions.iter_mut().zip(portions) {
            position.received.0 += portion;
            position.unit_days = UnitDays(0);
        }
    }

    /// The account as if these rates had held from the start, with the same
    /// settlements on the same days. A settlement precedes its day's interest.
    fn replay(&self, rates: &[StoredRate]) -> Result<Account, Refusal> {
        let mut account = Account::new(self.account.recognised());
        let mut settlements = self.settlements.iter().peekable();
        for day in (0..=self.today.0).map(Day) {
            if let Some(settlement) = settlements.next_if(|next| next.day == day) {
                account.pay(settlement.cents)?;
            }
            if day < self.today {
                account.accrue(daily_on(rates, day));
            }
        }
        Ok(account)
    }
}

impl Position {
    fn new(holder: u32, share: Parts) -> Self {
        Position {
            holder,
            share,
            unit_days: UnitDays(0),
            received: Cents(0),
        }
    }
}

impl Account {
    fn new(recognised: Cents) -> Self {
        Account {
            outstanding: recognised,
            due: Cents(0),
            fraction: 0,
            principal_paid: Cents(0),
            interest_paid: Cents(0),
        }
    }

    fn recognised(&self) -> Cents {
        Cents(self.outstanding.0 + self.principal_paid.0)
    }

    /// One day's interest: whole cents become due, the rest stays the fraction.
    fn accrue(&mut self, daily: u64) {
        let interest = u128::from(self.outstanding.0) * u128::from(daily);
        let sum = u128::from(self.fraction) + interest;
        self.due.0 += (sum / UNITS) as u64; // at most 107,459,800
        self.fraction = (sum % UNITS) as u64; // below 10^10
    }

    /// Interest first, principal with the rest.
    fn pay(&mut self, cents: Cents) -> Result<Taken, Refusal> {
        if cents.0 > self.due.0 + self.outstanding.0 {
            return Err(Refusal::Overpaid);
        }
        let interest = cents.min(self.due);
        let principal = Cents(cents.0 - interest.0);
        self.due.0 -= interest.0;
        self.interest_paid.0 += interest.0;
        self.outstanding.0 -= principal.0;
        self.principal_paid.0 += principal.0;
        Ok(Taken {
            interest,
            principal,
        })
    }
}

/// The daily rate in force on a day: the latest that starts no later.
fn daily_on(rates: &[StoredRate], day: Day) -> u64 {
    let in_force = rates.iter().rev().find(|stored| stored.first_day <= day);
    let annual = in_force.expect("a rate from day 0 on").annual;
    daily(annual).expect("only such rates are stored")
}

fn is_holder(number: u32) -> bool {
    (1..=HIGHEST_HOLDER).contains(&number)
}

fn is_financing(holders: &[u32], shares: &[u32]) -> bool {
    let different: BTreeSet<u32> = holders.iter().copied().collect();
    holders.len() == shares.len()
        && (1..=Book::POSITIONS).contains(&holders.len())
        && holders.iter().all(|&holder| is_holder(holder))
        && different.len() == holders.len()
        && !shares.contains(&0)
        && shares.iter().copied().map(u64::from).sum::<u64>() == WHOLE.0
}

#[cfg(test)]
mod tests {
    use super::*;

    /// Opened on 20140101 for 365 days.
    fn opened(annual: u64, cents: u64, shares: &[u32]) -> Book {
        let mut book = Book::empty();
        let holders: Vec<u32> = (1..=shares.len() as u32).collect();
        book.open(20140101, 365, annual, Cents(cents), &holders, shares)
            .unwrap();
        book
    }

    fn day(number: u32) -> u32 {
        Calendar::gregorian().plus_days(20140101, number).unwrap()
    }

    fn received(book: &Book) -> Vec<u64> {
        let positions = book.positions().unwrap();
        positions
            .iter()
            .map(|position| position.received.0)
            .collect()
    }

    /// The call is refused with this number, and nothing moved.
    fn refused<T: std::fmt::Debug>(
        book: &mut Book,
        number: u32,
        call: impl FnOnce(&mut Book) -> Result<T, Refusal>,
    ) {
        let before = book.clone();
        assert_eq!(call(book).unwrap_err().number(), number);
        assert_eq!(*book, before);
    }

    #[test]
    fn paper_example_5() {
        let mut book = opened(2_000, 354_054_743_000, &[1_000_000]);
        assert_eq!(book.advance(day(1)), Ok(1));
        let totals = book.totals().unwrap();
        assert_eq!(totals.due, Cents(19_209_310));
        assert_eq!(totals.fraction, 8_924_136_000);
    }

    #[test]
    fn paper_example_6() {
        let shares = [350_100, 60_800, 441_600, 10_000, 137_500];
        let mut book = opened(2_000, 1_000_000, &shares);
        book.advance(day(1)).unwrap();
        book.settle(Cents(100)).unwrap();
        assert_eq!(received(&book), [35, 6, 44, 1, 14]);
    }

    #[test]
    fn paper_example_7() {
        let mut book = opened(2_000, 1_000_000, &[500_000, 500_000]);
        book.advance(day(1)).unwrap();
        book.settle(Cents(1)).unwrap();
        assert_eq!(received(&book), [1, 0]);
    }

    #[test]
    fn paper_example_8() {
        let mut book = Book::empty();
        book.open(20140101, 30, 2_000, Cents(100), &[1], &[1_000_000])
            .unwrap();
        assert_eq!(book.advance(20140111), Ok(10));
        assert_eq!(book.transfer(1, 2, Parts(500_000)), Ok(Parts(500_000)));
        assert_eq!(book.advance(20140131), Ok(20));
        assert_eq!(book.position(1).unwrap().unit_days, UnitDays(20_000_000));
        assert_eq!(book.position(2).unwrap().unit_days, UnitDays(10_000_000));
        let taken = Taken {
            interest: Cents(0),
            principal: Cents(100),
        };
        assert_eq!(book.settle(Cents(100)), Ok(taken));
        assert_eq!(received(&book), [67, 33]);
        let totals = Totals {
            today: 20140131,
            outstanding: Cents(0),
            due: Cents(0),
            fraction: 1_627_656_000,
            principal_paid: Cents(100),
            interest_paid: Cents(0),
        };
        assert_eq!(book.totals(), Ok(totals));
    }

    #[test]
    fn paper_example_11() {
        let mut book = opened(2_000, 1_000_000_000, &[1_000_000]);
        book.advance(day(1)).unwrap();
        let taken = Taken {
            interest: Cents(54_255),
            principal: Cents(45_745),
        };
        assert_eq!(book.settle(Cents(100_000)), Ok(taken));
        let change = Change {
            outstanding: -54_255,
            due: 0,
        };
        assert_eq!(book.rate(day(0), 0), Ok(change));
        let totals = book.totals().unwrap();
        assert_eq!(totals.outstanding, Cents(999_900_000));
        assert_eq!(totals.fraction, 0);
        assert_eq!(totals.principal_paid, Cents(100_000));
        assert_eq!(totals.interest_paid, Cents(0));
        assert_eq!(received(&book), [100_000]);
    }

    #[test]
    fn paper_example_12() {
        let mut book = opened(2_000, 1_000_000_000, &[1_000_000]);
        book.advance(day(1)).unwrap();
        book.settle(Cents(1_000_054_255)).unwrap();
        refused(&mut book, 14, |book| book.rate(day(0), 0));
    }

    #[test]
    fn edge_of_92_days() {
        let mut book = opened(2_000, 1_000_000_000, &[1_000_000]);
        refused(&mut book, 9, |book| book.advance(day(93)));
        assert_eq!(book.advance(day(92)), Ok(92));
        refused(&mut book, 9, |book| book.advance(day(93)));
        book.settle(Cents(0)).unwrap();
        refused(&mut book, 9, |book| book.advance(day(185)));
        assert_eq!(book.advance(day(184)), Ok(92));
    }

    #[test]
    fn edge_of_a_settlement() {
        let mut book = opened(2_000, 1_000_000_000_000, &[1_000_000]);
        refused(&mut book, 5, |book| book.settle(Cents(100_000_000_001)));
        refused(&mut book, 13, |book| book.settle(Cents(100_000_000_000)));
        book.advance(day(92)).unwrap();
        refused(&mut book, 5, |book| book.settle(Cents(100_000_000_001)));
        let taken = book.settle(Cents(100_000_000_000)).unwrap();
        // 92 × 54,255,200 cents, the 542,552 ten-thousandths of each million.
        assert_eq!(taken.interest, Cents(4_991_478_400));
        assert_eq!(taken.principal, Cents(95_008_521_600));
        assert_eq!(received(&book), [100_000_000_000]);
    }

    #[test]
    fn the_day_of_a_transfer_is_the_assignees() {
        let mut book = opened(2_000, 1_000_000_000, &[600_000, 400_000]);
        book.advance(day(1)).unwrap();
        book.transfer(1, 2, Parts(600_000)).unwrap();
        book.advance(day(2)).unwrap();
        assert_eq!(book.position(1).unwrap().unit_days, UnitDays(600_000));
        assert_eq!(book.position(2).unwrap().unit_days, UnitDays(1_400_000));
        book.settle(Cents(20)).unwrap();
        assert_eq!(received(&book), [6, 14]);
    }

    #[test]
    fn the_fraction_is_not_dropped() {
        // 18,431 cents give 0.9999776 cents a day: none at once, one soon after.
        let mut book = opened(2_000, 18_431, &[1_000_000]);
        book.advance(day(1)).unwrap();
        assert_eq!(book.totals().unwrap().due, Cents(0));
        assert_eq!(book.totals().unwrap().fraction, 9_999_775_912);
        book.advance(day(2)).unwrap();
        assert_eq!(book.totals().unwrap().due, Cents(1));
        assert_eq!(book.totals().unwrap().fraction, 9_999_551_824);
    }

    #[test]
    fn a_rate_reaches_back_over_the_payments_made() {
        // 10^9 cents at d = 1,074,598: 107,459.8 cents on each of two days.
        let mut book = opened(0, 1_000_000_000, &[1_000_000]);
        book.advance(day(1)).unwrap();
        book.settle(Cents(50_000)).unwrap();
        book.advance(day(2)).unwrap();
        book.settle(Cents(200_000)).unwrap();
        assert_eq!(book.totals().unwrap().outstanding, Cents(999_750_000));
        let change = Change {
            outstanding: 214_919,
            due: 0,
        };
        assert_eq!(book.rate(day(0), 4_000), Ok(change));
        let totals = book.totals().unwrap();
        assert_eq!(totals.outstanding, Cents(999_964_919));
        assert_eq!(totals.fraction, 6_000_000_000);
        assert_eq!(totals.interest_paid, Cents(214_919));
        assert_eq!(totals.principal_paid, Cents(35_081));
    }

    #[test]
    fn a_rate_from_today_changes_no_figure() {
        let mut book = opened(2_000, 1_000_000_000, &[1_000_000]);
        book.advance(day(20)).unwrap();
        book.settle(Cents(5_000)).unwrap();
        let totals = book.totals();
        let change = Change {
            outstanding: 0,
            due: 0,
        };
        assert_eq!(book.rate(day(20), 4_000), Ok(change));
        assert_eq!(book.totals(), totals);
        book.advance(day(21)).unwrap();
        // 20 × 54,255.2 - 5,000 and then a day at the new rate: 107,459.8
        assert_eq!(book.totals().unwrap().due, Cents(1_187_563));
        assert_eq!(book.totals().unwrap().fraction, 8_000_000_000);
    }

    #[test]
    fn rates_from_a_date_on_are_replaced() {
        let rate = |first_day, annual| StoredRate {
            first_day: Day(first_day),
            annual,
        };
        let mut book = opened(2_000, 1_000_000_000, &[1_000_000]);
        book.advance(day(30)).unwrap();
        for (number, annual) in [(10, 1_000), (20, 500), (15, 1_000), (30, 7), (30, 8)] {
            book.rate(day(number), annual).unwrap();
        }
        let rates = book.right.as_ref().unwrap().rates.clone();
        assert_eq!(
            rates,
            [
                rate(0, 2_000),
                rate(10, 1_000),
                rate(15, 1_000),
                rate(30, 8)
            ]
        );
        book.rate(day(0), 3).unwrap();
        assert_eq!(book.right.unwrap().rates, [rate(0, 3)]);
    }

    #[test]
    fn refusals_of_a_rate_in_their_order() {
        let mut book = Book::empty();
        refused(&mut book, 1, |book| book.rate(0, 4_001));
        let mut book = opened(2_000, 1_000_000_000, &[1_000_000]);
        book.advance(day(1)).unwrap();
        book.settle(Cents(1_000_054_255)).unwrap();
        for number in 1..16 {
            book.advance(day(number + 1)).unwrap();
            book.rate(day(number), 2_000).unwrap();
        }
        refused(&mut book, 3, |book| book.rate(20140100, 4_001));
        refused(&mut book, 6, |book| book.rate(day(17), 4_001));
        refused(&mut book, 6, |book| book.rate(day(1), 1 << 32));
        refused(&mut book, 8, |book| book.rate(day(17), 0));
        refused(&mut book, 8, |book| book.rate(20131231, 0));
        refused(&mut book, 12, |book| book.rate(day(16), 2_000));
        refused(&mut book, 14, |book| book.rate(day(0), 0));
        assert!(book.rate(day(15), 4_000).is_ok());
        refused(&mut book, 12, |book| book.rate(day(16), 0));
        assert!(book.rate(day(14), 4_000).is_ok());
        assert!(book.rate(day(16), 0).is_ok());
        refused(&mut book, 14, |book| book.rate(day(0), 1_999));
        assert!(book.rate(day(0), 2_001).is_ok());
    }

    #[test]
    fn todays_settlement_counts_for_a_rate() {
        let mut book = opened(2_000, 100_000_000, &[1_000_000]);
        book.advance(day(10)).unwrap();
        book.settle(Cents(0)).unwrap();
        book.advance(day(20)).unwrap();
        let owed = 100_000_000 + 20 * 54_255_200 / 10_000;
        refused(&mut book, 14, |book| book.settle(Cents(owed + 1)));
        book.settle(Cents(owed)).unwrap();
        refused(&mut book, 14, |book| book.rate(day(19), 0));
        assert!(book.rate(day(20), 0).is_ok());
    }
}
