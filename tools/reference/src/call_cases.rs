//! The calls of the vectors. Each is given with the number that it must answer,
//! worked out by hand; only calls at random have none.

mod rate;

use crate::book::Book;
use crate::calendar::Calendar;
use crate::calls::{Call, Opening};
use crate::lists::{self, Temper};
use crate::random::Random;

const ALL: u32 = 1_000_000;
const MOST_SETTLED: u64 = 100_000_000_000;
const MOST_RECOGNISED: u64 = 1_000_000_000_000;

pub fn call_cases() -> Vec<Call> {
    let mut cases = Cases {
        calls: Vec::new(),
        book: Book::empty(),
        looks: 0,
    };
    empty_book(&mut cases);
    openings_refused(&mut cases);
    openings_accepted(&mut cases);
    open_book(&mut cases);
    paper_examples(&mut cases);
    advances(&mut cases);
    term_ends(&mut cases);
    transfers(&mut cases);
    full_book(&mut cases);
    settlements(&mut cases);
    last_settlement(&mut cases);
    repayment(&mut cases);
    no_interest(&mut cases);
    rate::cases(&mut cases);
    leap_years(&mut cases);
    highest_amounts(&mut cases);
    fifteen_years(&mut cases);
    equal_holders(&mut cases);
    lives_at_random(&mut cases);
    cases.calls
}

/// The calls while they are put together, and the book they lead to.
struct Cases {
    calls: Vec<Call>,
    book: Book,
    looks: u64,
}

impl Cases {
    /// After a refusal come the totals and a position, to see that nothing moved,
    /// and after every rate, to see what did.
    fn any(&mut self, call: Call) -> u32 {
        let number = match call.run(&mut self.book) {
            Ok(_) => 0,
            Err(refusal) => refusal.number(),
        };
        let look = matches!(call, Call::Rate { .. }) || number > 0 && !call.only_reads();
        self.calls.push(call);
        if look {
            self.look();
        }
        number
    }

    /// A call that must answer this number.
    fn call(&mut self, number: u32, call: Call) {
        let line = call.to_string();
        assert_eq!(self.any(call), number, "{line}");
    }

    /// The totals and a position, each time another.
    fn look(&mut self) {
        let place = match self.book.positions() {
            Ok(positions) => self.looks % positions.len() as u64,
            Err(_) => 0,
        };
        self.looks += 1;
        self.any(Call::Totals);
        self.any(Call::PositionAt { place });
    }

    /// The totals and all positions.
    fn look_at_all(&mut self) {
        self.totals(0);
        for place in 0..self.book.positions().expect("an open book").len() {
            self.place(0, place as u64);
        }
    }

    /// A new empty book, opened.
    fn start(&mut self, opening: Opening) {
        self.call(0, Call::Empty);
        self.open(0, opening);
    }

    fn open(&mut self, number: u32, opening: Opening) {
        self.call(number, Call::Open(opening));
    }

    fn advance(&mut self, number: u32, date: u32) {
        self.call(number, Call::Advance { date });
    }

    fn transfer(&mut self, number: u32, cedent: u32, assignee: u32, parts: u64) {
        self.call(
            number,
            Call::Transfer {
                cedent,
                assignee,
                parts,
            },
        );
    }

    fn settle(&mut self, number: u32, cents: u64) {
        self.call(number, Call::Settle { cents });
    }

    fn rate(&mut self, number: u32, date: u32, annual: u64) {
        self.call(number, Call::Rate { date, annual });
    }

    /// A rate that must change outstanding and due by so many cents.
    fn changes(&mut self, date: u32, annual: u64, outstanding: i128, due: i128) {
        let call = Call::Rate { date, annual };
        let answer = call.run(&mut self.book.clone());
        assert_eq!(answer, Ok(vec![outstanding, due]), "{call}");
        self.call(0, call);
    }

    fn holder(&mut self, number: u32, holder: u32) {
        self.call(number, Call::Position { holder });
    }

    fn place(&mut self, number: u32, place: u64) {
        self.call(number, Call::PositionAt { place });
    }

    fn totals(&mut self, number: u32) {
        self.call(number, Call::Totals);
    }

    fn due(&self) -> u64 {
        self.book.totals().expect("an open book").due.0
    }

    fn owed(&self) -> u64 {
        self.due() + self.book.totals().expect("an open book").outstanding.0
    }
}

/// 365 days from 20140101 on, one million euros at 2 percent, two holders.
fn good() -> Opening {
    Opening {
        first_day: 20140101,
        term: 365,
        annual: 2_000,
        cents: 100_000_000,
        holders: vec![1, 2],
        shares: vec![600_000, 400_000],
    }
}

fn financed(holders: &[u32], shares: &[u32]) -> Opening {
    Opening {
        holders: holders.to_vec(),
        shares: shares.to_vec(),
        ..good()
    }
}

/// So many days after 20140101.
fn day(number: u32) -> u32 {
    days_after(20140101, number)
}

fn days_after(date: u32, days: u32) -> u32 {
    Calendar::gregorian().plus_days(date, days).expect("a date")
}

/// So many different holders from 1 on.
fn holders(count: u32) -> Vec<u32> {
    (1..=count).collect()
}

/// So many shares of 1 but for the last, together the whole.
fn ones(count: u32) -> Vec<u32> {
    let mut shares = vec![1; count as usize];
    shares[count as usize - 1] = ALL - (count - 1);
    shares
}

fn empty_book(cases: &mut Cases) {
    cases.call(0, Call::Empty);
    cases.totals(1);
    for holder in [1, 0, u32::MAX] {
        cases.holder(1, holder);
    }
    for place in [0, 64, u64::MAX] {
        cases.place(1, place);
    }
    for date in [20140102, 20140229] {
        cases.advance(1, date);
    }
    cases.transfer(1, 1, 2, 500_000);
    cases.transfer(1, 0, 0, 0);
    for cents in [0, 100, MOST_SETTLED + 1] {
        cases.settle(1, cents);
    }
    for (date, annual) in [(20140101, 2_000), (20140229, 0), (0, 4_001)] {
        cases.rate(1, date, annual);
    }
}

/// All on one book, which stays empty.
fn openings_refused(cases: &mut Cases) {
    cases.call(0, Call::Empty);
    for first_day in [
        0,
        1,
        19991231,
        20131200,
        20140132,
        20140229,
        20141301,
        21000229,
        22000101,
        120140101,
        u32::MAX,
    ] {
        cases.open(
            3,
            Opening {
                first_day,
                ..good()
            },
        );
    }
    for term in [0, 6_001, 65_536 + 365, u32::MAX] {
        cases.open(4, Opening { term, ..good() });
    }
    for first_day in [21000101, 21000228, 21991231] {
        cases.open(
            4,
            Opening {
                first_day,
                ..good()
            },
        );
        cases.open(
            4,
            Opening {
                first_day,
                term: 6_000,
                ..good()
            },
        );
    }
    for cents in [0, MOST_RECOGNISED + 1, 1 << 63, u64::MAX] {
        cases.open(5, Opening { cents, ..good() });
    }
    for annual in [4_001, 65_536, 1 << 32, (1 << 32) + 2_000, u64::MAX] {
        cases.open(6, Opening { annual, ..good() });
    }

    // Lists of unequal length, the shown shares being the whole or not.
    for (holders, shares) in [
        (&[1, 2][..], &[ALL][..]),
        (&[1], &[ALL - 1, 1]),
        (&[1], &[ALL, 0]),
        (&[1, 2, 3], &[600_000, 400_000]),
        (&[1], &[]),
        (&[], &[ALL]),
        (&[], &[]),
    ] {
        cases.open(7, financed(holders, shares));
    }
    for (count, share_count) in [(64, 65), (65, 64), (65, 65), (70, 70), (0, 70), (70, 0)] {
        let shares = match share_count {
            0 => Vec::new(),
            _ => ones(share_count),
        };
        cases.open(7, financed(&holders(count), &shares));
    }

    // Holders.
    for holder in [0, 1_000_000_000, u32::MAX] {
        cases.open(7, financed(&[holder], &[ALL]));
        cases.open(7, financed(&[holder, 2], &[600_000, 400_000]));
        cases.open(7, financed(&[1, holder], &[600_000, 400_000]));
    }
    cases.open(7, financed(&[1, 1], &[600_000, 400_000]));
    cases.open(
        7,
        financed(&[999_999_999, 5, 999_999_999], &[600_000, 300_000, 100_000]),
    );
    let mut twice = holders(64);
    twice[63] = 1;
    cases.open(7, financed(&twice, &ones(64)));

    // Shares.
    for share in [0, 1, 999_999, 1_000_001, u32::MAX] {
        cases.open(7, financed(&[1], &[share]));
    }
    for shares in [
        [ALL, 0],
        [0, ALL],
        [500_000, 499_999],
        [500_000, 500_001],
        [1_000_001, u32::MAX], // 1,000,000 in 32 bits
        [1 << 31, (1 << 31) + ALL],
        [u32::MAX, 1],
        [u32::MAX, u32::MAX],
    ] {
        cases.open(7, financed(&[1, 2], &shares));
    }
    cases.open(7, financed(&[1, 2, 3], &[500_000, 0, 500_000]));
    cases.open(
        7,
        financed(&[1, 2, 3, 4, 5], &[1 << 30, 1 << 30, 1 << 30, 1 << 30, ALL]),
    );
    let mut one_more = ones(64);
    one_more[10] += 1;
    cases.open(7, financed(&holders(64), &one_more));

    // Several at once: the lowest number.
    let mut worst = Opening {
        first_day: 0,
        term: 0,
        annual: 4_001,
        cents: 0,
        holders: Vec::new(),
        shares: Vec::new(),
    };
    cases.open(3, worst.clone());
    worst.first_day = 21991231;
    cases.open(4, worst.clone());
    worst.first_day = 20140101;
    cases.open(4, worst.clone());
    worst.term = 30;
    cases.open(5, worst.clone());
    worst.cents = 100;
    cases.open(6, worst.clone());
    worst.annual = 2_000;
    cases.open(7, worst);
    let mut worst = Opening {
        first_day: 21000229,
        term: 6_001,
        annual: u64::MAX,
        cents: MOST_RECOGNISED + 1,
        holders: vec![0, 0],
        shares: vec![ALL],
    };
    cases.open(3, worst.clone());
    worst.first_day = 20991231;
    cases.open(4, worst.clone());
    worst.term = 6_000;
    cases.open(5, worst.clone());
    worst.cents = MOST_RECOGNISED;
    cases.open(6, worst.clone());
    worst.annual = 4_000;
    cases.open(7, worst.clone());
    worst.holders = vec![999_999_999];
    cases.open(0, worst);
    cases.look();
}

fn openings_accepted(cases: &mut Cases) {
    for first_day in [20000101, 20000229, 20240229, 20991231] {
        for term in [1, 6_000] {
            cases.start(Opening {
                first_day,
                term,
                ..good()
            });
            cases.look();
            cases.advance(0, days_after(first_day, 1));
            cases.totals(0);
        }
    }
    for cents in [
        1,
        2,
        18_431,
        (1 << 32) + 1,
        MOST_RECOGNISED - 1,
        MOST_RECOGNISED,
    ] {
        for annual in [0, 1, 3_999, 4_000] {
            cases.start(Opening {
                cents,
                annual,
                ..good()
            });
            cases.advance(0, day(1));
            cases.totals(0);
            cases.advance(0, day(92));
            cases.totals(0);
        }
    }
    for (holders, shares) in [
        (&[1][..], &[ALL][..]),
        (&[999_999_999], &[ALL]),
        (&[2, 1], &[1, 999_999]),
        (&[999_999_999, 1, 999_999_998], &[999_998, 1, 1]),
    ] {
        cases.start(financed(holders, shares));
        cases.look_at_all();
        for &holder in holders {
            cases.holder(0, holder);
        }
        cases.place(10, holders.len() as u64);
    }
    cases.start(financed(&holders(64), &ones(64)));
    for place in [0, 1, 62, 63] {
        cases.place(0, place);
        cases.holder(0, place as u32 + 1);
    }
    for place in [64, 65, 1 << 32, u64::MAX] {
        cases.place(10, place);
    }
    for holder in [0, 65, 1_000_000_000, u32::MAX] {
        cases.holder(10, holder);
    }
}

/// Open on an open book, whatever its arguments.
fn open_book(cases: &mut Cases) {
    cases.start(good());
    cases.open(2, good());
    cases.open(
        2,
        Opening {
            first_day: 0,
            ..good()
        },
    );
    cases.open(
        2,
        Opening {
            term: 0,
            cents: 0,
            annual: 4_001,
            ..financed(&[], &[])
        },
    );
    cases.advance(0, day(10));
    cases.open(2, financed(&[3], &[ALL]));
    cases.settle(0, 5);
    cases.open(2, good());
    // Readers that find nothing.
    for holder in [0, 3, 999_999_999, 1_000_000_000, u32::MAX] {
        cases.holder(10, holder);
    }
    for place in [2, 3, (1 << 32) + 1, u64::MAX] {
        cases.place(10, place);
    }
    cases.look_at_all();
    cases.call(0, Call::Empty);
    cases.totals(1);
    cases.open(0, good());
    cases.look_at_all();
}

/// 5 to 8, 11 and 12.
fn paper_examples(cases: &mut Cases) {
    let shares = [350_100, 60_800, 441_600, 10_000, 137_500];
    cases.start(Opening {
        cents: 354_054_743_000,
        ..financed(&holders(5), &shares)
    });
    cases.advance(0, day(1));
    cases.totals(0);
    cases.settle(0, 100);
    cases.look_at_all();

    cases.start(financed(&[1, 2], &[500_000, 500_000]));
    cases.advance(0, day(1));
    cases.settle(0, 1);
    cases.look_at_all();

    cases.start(Opening {
        term: 30,
        cents: 100,
        ..financed(&[1], &[ALL])
    });
    cases.advance(0, 20140111);
    cases.transfer(0, 1, 2, 500_000);
    cases.advance(0, 20140131);
    cases.look_at_all();
    cases.settle(0, 100);
    cases.look_at_all();

    for cents in [100_000, 1_000_054_255] {
        cases.start(Opening {
            cents: 1_000_000_000,
            ..financed(&[1], &[ALL])
        });
        cases.advance(0, day(1));
        cases.settle(0, cents);
        cases.look_at_all();
        match cents {
            100_000 => cases.changes(day(0), 0, -54_255, 0),
            _ => cases.rate(14, day(0), 0),
        }
    }
}

fn advances(cases: &mut Cases) {
    cases.start(good());
    for date in [
        0,
        20140100,
        20140132,
        20140229,
        20141301,
        19991231,
        22000101,
        u32::MAX,
    ] {
        cases.advance(3, date);
    }
    // Today and before it, day 93, the term's end and beyond it.
    for date in [day(0), 20131231, 20000101] {
        cases.advance(8, date);
    }
    for number in [93, 94, 364, 365] {
        cases.advance(9, day(number));
    }
    for date in [day(366), day(367), 20991231, 21991231] {
        cases.advance(8, date);
    }
    cases.advance(0, day(1));
    cases.look_at_all();
    for date in [day(1), day(0), 20131231] {
        cases.advance(8, date);
    }
    cases.advance(3, 20140100);
    cases.advance(9, day(93));
    cases.advance(0, day(91));
    cases.advance(0, day(92));
    cases.look_at_all();

    // Nothing but a settlement lets time go on.
    cases.advance(9, day(93));
    cases.transfer(0, 1, 2, 100_000);
    cases.advance(9, day(93));
    cases.settle(5, MOST_SETTLED + 1);
    cases.settle(14, MOST_SETTLED);
    cases.advance(9, day(93));
    cases.settle(0, 0);
    cases.look_at_all();
    cases.advance(9, day(185));
    cases.advance(0, day(93));
    cases.advance(9, day(185));
    cases.settle(0, 7);
    cases.advance(9, day(186));
    cases.advance(0, day(185));
    cases.advance(9, day(186));
    cases.settle(14, 200_000_000);
    cases.look_at_all();
}

fn term_ends(cases: &mut Cases) {
    // A term of a day.
    cases.start(Opening { term: 1, ..good() });
    cases.advance(8, day(2));
    cases.advance(0, day(1));
    cases.advance(8, day(2));
    cases.advance(8, day(1));
    cases.transfer(0, 2, 3, 400_000);
    cases.settle(0, 3);
    cases.advance(8, day(2));
    cases.look_at_all();

    // Terms near the 92 days: beyond the end the lower number comes first.
    for term in [91, 92, 93] {
        cases.start(Opening { term, ..good() });
        cases.advance(8, day(94));
        cases.advance(if term == 93 { 9 } else { 8 }, day(93));
        cases.advance(if term == 91 { 8 } else { 0 }, day(92));
        cases.advance(if term == 91 { 0 } else { 8 }, day(91));
        cases.settle(0, 1_000);
        cases.advance(if term == 93 { 0 } else { 8 }, day(93));
        cases.advance(8, day(94));
        cases.look_at_all();
    }

    // The last day of all: 6,000 days from 20991231, to 21160605.
    cases.start(Opening {
        first_day: 20991231,
        term: 6_000,
        ..good()
    });
    let mut number = 0;
    while number + 92 < 6_000 {
        number += 92;
        cases.advance(0, days_after(20991231, number));
        cases.settle(0, 500_000);
    }
    cases.advance(8, days_after(20991231, 6_001));
    cases.advance(0, days_after(20991231, 6_000));
    cases.advance(8, days_after(20991231, 6_001));
    let owed = cases.owed();
    cases.settle(14, owed + 1);
    cases.settle(0, owed);
    cases.look_at_all();
}

fn transfers(cases: &mut Cases) {
    let beyond = [0, 1_000_000_000, u32::MAX];
    cases.start(good());
    cases.advance(0, day(5));
    for cedent in beyond.into_iter().chain([3, 999_999_999]) {
        cases.transfer(10, cedent, 2, 1);
    }
    for assignee in beyond {
        cases.transfer(10, 1, assignee, 1);
        cases.transfer(10, 1, assignee, 600_001);
    }
    cases.transfer(10, 1, 1, 1);
    cases.transfer(10, 1, 1, 0);
    cases.transfer(10, 3, 3, 1);
    cases.transfer(10, 3, 1, 0);
    cases.transfer(10, 0, 0, u64::MAX);
    for parts in [
        0,
        600_001,
        1_000_000,
        1_000_001,
        1 << 32,
        (1 << 32) + 5,
        1 << 63,
        u64::MAX,
    ] {
        cases.transfer(11, 1, 2, parts);
        cases.transfer(11, 1, 3, parts);
    }

    // All parts; the emptied holder stays, gives nothing, and may receive.
    cases.transfer(0, 1, 3, 600_000);
    cases.look_at_all();
    cases.transfer(11, 1, 2, 0);
    cases.transfer(11, 1, 2, 1);
    cases.transfer(11, 1, 4, 1);
    cases.transfer(10, 1, 1, 1);
    cases.advance(0, day(6));
    cases.look_at_all();
    cases.transfer(0, 3, 999_999_999, 1);
    cases.transfer(0, 3, 1, 599_998);
    cases.transfer(11, 3, 1, 2);
    cases.transfer(0, 3, 1, 1);
    cases.advance(0, day(7));
    cases.look_at_all();
    cases.settle(0, 1_000_001);
    cases.look_at_all();
    cases.advance(0, day(8));
    cases.settle(0, 1_000_001);
    cases.look_at_all();

    // On day 0, there and back, and through another's hands on one day.
    cases.start(good());
    cases.transfer(0, 1, 2, 600_000);
    cases.look_at_all();
    cases.advance(0, day(1));
    cases.transfer(0, 2, 1, 1_000_000);
    cases.transfer(0, 1, 3, 1_000_000);
    cases.transfer(0, 3, 4, 999_999);
    cases.transfer(0, 4, 2, 500_000);
    cases.look_at_all();
    cases.advance(0, day(3));
    cases.look_at_all();
    cases.settle(0, 10);
    cases.look_at_all();
    // Nobody but a holder of unit-days gets a leftover cent.
    cases.transfer(0, 3, 1, 1);
    cases.advance(0, day(4));
    for (number, cents) in [(0, 3), (13, 3)] {
        cases.settle(number, cents);
    }
    cases.look_at_all();
    // Sold today: today's cash is still the cedent's.
    cases.advance(0, day(5));
    cases.transfer(0, 2, 5, 500_000);
    cases.settle(0, 1_001);
    cases.look_at_all();
}

/// A 64th position and a 65th.
fn full_book(cases: &mut Cases) {
    let mut shares = vec![15_873; 63];
    shares[62] = 15_874;
    cases.start(financed(&holders(63), &shares));
    cases.advance(0, day(1));
    cases.transfer(11, 1, 64, 15_874);
    cases.transfer(0, 1, 64, 15_873);
    for (number, cedent, assignee, parts) in [
        (12, 2, 65, 1),
        (12, 2, 65, 15_873),
        (12, 64, 999_999_999, 1),
        (11, 2, 65, 0),
        (11, 2, 65, 15_874),
        (11, 1, 65, 1), // emptied, and still a position
        (10, 2, 1_000_000_000, 1),
        (10, 65, 66, 1),
        (10, 65, 2, 1),
        (0, 2, 1, 15_873),
        (0, 64, 63, 15_000),
        (12, 63, 70, 1),
        (0, 3, 64, 1),
    ] {
        cases.transfer(number, cedent, assignee, parts);
    }
    cases.advance(0, day(2));
    cases.settle(0, 6_400);
    cases.transfer(12, 1, 65, 1);
    for place in [0, 1, 2, 3, 61, 62, 63] {
        cases.place(0, place);
    }
    cases.place(10, 64);
    cases.holder(10, 65);
    // 64 from the start.
    cases.start(financed(&holders(64), &ones(64)));
    cases.transfer(12, 64, 65, 1);
    cases.transfer(0, 64, 1, 1);
    cases.transfer(0, 1, 2, 2);
    cases.transfer(12, 2, 65, 3);
    cases.transfer(11, 1, 65, 1);
}

fn settlements(cases: &mut Cases) {
    // On day 0: too much comes first, overpaid last.
    cases.start(good());
    for (number, cents) in [
        (13, 0),
        (13, 1),
        (13, 100_000_001),
        (13, MOST_SETTLED),
        (5, MOST_SETTLED + 1),
        (5, u64::MAX),
    ] {
        cases.settle(number, cents);
    }
    cases.transfer(0, 1, 2, 1);
    cases.settle(13, 0);

    // Twice a day.
    cases.advance(0, day(1));
    cases.settle(0, 0);
    cases.look_at_all();
    for (number, cents) in [(13, 0), (13, 1), (13, 100_000_001), (5, MOST_SETTLED + 1)] {
        cases.settle(number, cents);
    }
    cases.advance(0, day(2));
    cases.look_at_all();

    // Less than due, due itself, and more.
    cases.settle(0, 1);
    cases.advance(0, day(10));
    let due = cases.due();
    cases.settle(0, due - 1);
    cases.advance(0, day(11));
    let due = cases.due();
    cases.settle(0, due);
    cases.advance(0, day(12));
    let due = cases.due();
    cases.settle(0, due + 1);
    cases.look_at_all();
    cases.advance(0, day(13));
    cases.settle(0, 13);
    cases.look_at_all();
}

/// The 240th and a 241st.
fn last_settlement(cases: &mut Cases) {
    let count = Book::SETTLEMENTS as u32;
    cases.start(good());
    for number in 1..=count {
        cases.advance(0, day(number));
        cases.settle(0, u64::from(number * number % 17));
        if number % 30 == 0 {
            cases.look();
        }
    }
    // On its day, and on the next.
    for number in [count, count + 1] {
        if number > count {
            cases.advance(0, day(number));
        }
        for (refusal, cents) in [(12, 0), (12, 1), (12, MOST_SETTLED), (5, MOST_SETTLED + 1)] {
            cases.settle(refusal, cents);
        }
    }
    cases.transfer(0, 1, 3, 5);
    cases.rate(0, day(count / 2), 0);
    cases.rate(0, day(0), 4_000);
    cases.rate(0, day(count), 1);
    cases.advance(9, day(count + 93));
    cases.advance(0, day(count + 92));
    cases.settle(12, 0);
    cases.rate(0, day(1), 2_000);
    cases.advance(9, day(count + 93));
    cases.look_at_all();
}

/// Exactly what is owed, and more. The fraction stays.
fn repayment(cases: &mut Cases) {
    for cents in [1, 100, 18_431, 100_000_000, 99_000_000_000] {
        cases.start(Opening { cents, ..good() });
        cases.advance(0, day(40));
        let owed = cases.owed();
        cases.settle(14, owed + 1);
        cases.settle(14, MOST_SETTLED);
        cases.settle(5, MOST_SETTLED + 1);
        cases.settle(0, owed);
        cases.look_at_all();
        cases.settle(13, 1);
        cases.advance(0, day(70));
        cases.look();
        cases.settle(14, 1);
        cases.settle(0, 0);
        cases.transfer(0, 2, 1, 400_000);
        cases.advance(0, day(162));
        cases.settle(14, 1);
        cases.look_at_all();
    }

    // Almost all; the last cent still bears interest.
    cases.start(Opening {
        cents: 10_000_000,
        term: 6_000,
        ..good()
    });
    cases.advance(0, day(33));
    let owed = cases.owed();
    cases.settle(0, owed - 1);
    for number in 1..=8 {
        cases.advance(0, day(33 + 92 * number));
        cases.totals(0);
        cases.settle(0, 0);
    }
    cases.settle(13, 2);
    cases.advance(0, day(33 + 92 * 9));
    cases.settle(14, 2);
    cases.settle(0, 1);
    cases.look_at_all();
}

fn no_interest(cases: &mut Cases) {
    cases.start(Opening {
        annual: 0,
        cents: 1_000,
        ..good()
    });
    cases.advance(0, day(92));
    cases.look_at_all();
    cases.settle(14, 1_001);
    cases.settle(0, 333);
    cases.advance(0, day(100));
    cases.look_at_all();
    cases.settle(14, 668);
    cases.settle(0, 667);
    cases.look_at_all();
}

fn leap_years(cases: &mut Cases) {
    for (first_day, dates) in [
        (20000101, &[20000228, 20000229, 20000301][..]),
        (20231231, &[20240228, 20240229, 20240301]),
        (20221231, &[20230228, 20230301]),
        (20991231, &[21000228, 21000301]),
        (20240229, &[20240301, 20240531]),
    ] {
        cases.start(Opening {
            first_day,
            term: 800,
            ..good()
        });
        for &date in dates {
            cases.advance(0, date);
            cases.look();
        }
        cases.settle(0, 777_777);
        cases.look_at_all();
    }
    cases.start(Opening {
        first_day: 20991231,
        term: 800,
        ..good()
    });
    cases.advance(3, 21000229);
    cases.advance(0, 21000228);
    cases.advance(3, 21000229);
    cases.start(Opening {
        first_day: 20221231,
        term: 800,
        ..good()
    });
    cases.advance(3, 20230229);

    // 366 days from a leap day to the next year's March.
    cases.start(Opening {
        first_day: 20240229,
        term: 366,
        ..good()
    });
    for date in [20240531, 20240831, 20241201, 20250228, 20250301] {
        cases.advance(0, date);
        cases.settle(0, 1_000_003);
        cases.look();
    }
    cases.advance(8, 20250302);
}

/// The greatest principal, rate, number of days and settlements.
fn highest_amounts(cases: &mut Cases) {
    for (holders, shares) in [
        (vec![999_999_999], vec![ALL]),
        (holders(3), vec![333_333, 333_334, 333_333]),
        (holders(64), vec![15_625; 64]),
    ] {
        let opening = financed(&holders, &shares);
        let opening = Opening {
            cents: MOST_RECOGNISED,
            annual: 4_000,
            ..opening
        };
        cases.start(Opening {
            term: 6_000,
            ..opening
        });
        for number in 1..=12 {
            cases.advance(0, day(92 * number));
            cases.totals(0);
            cases.settle(5, MOST_SETTLED + 1);
            let owed = cases.owed();
            if owed < MOST_SETTLED {
                cases.settle(14, owed + 1);
                cases.settle(14, MOST_SETTLED);
                cases.settle(0, owed);
                break;
            }
            cases.settle(0, MOST_SETTLED - u64::from(number) / 4);
        }
        cases.totals(0);
        for place in [0, holders.len() / 2, holders.len() - 1] {
            cases.place(0, place as u64);
        }
    }
}

/// Fifteen years of monthly settlements, with a transfer in every other month.
/// Each March brings the rate of its year.
fn fifteen_years(cases: &mut Cases) {
    let shares = [350_100, 60_800, 441_600, 10_000, 137_500];
    cases.start(Opening {
        term: 5_479,
        cents: 354_054_743_000,
        ..financed(&holders(5), &shares)
    });
    let mut random = Random::new();
    for month in 1..=180_u32 {
        let (year, month_of_year) = (2014 + month / 12, month % 12 + 1);
        let first = (year * 100 + month_of_year) * 100 + 1;
        let previous = (2014 + (month - 1) / 12) * 10_000 + ((month - 1) % 12 + 1) * 100;
        if month % 4 > 0 {
            cases.advance(0, previous + random.between(2, 28) as u32);
        }
        if month % 2 > 0 {
            let positions = cases.book.positions().expect("an open book").to_vec();
            let cedent = random.pick(&positions);
            let assignee = random.between(1, 12) as u32;
            let parts = random.between(1, cedent.share.0 / 3 + 2);
            cases.any(Call::Transfer {
                cedent: cedent.holder,
                assignee,
                parts,
            });
        }
        cases.advance(0, first);
        // Before the day's settlement in even years, after it in odd ones.
        let annual = 2_000 + random.below(400);
        let rate_day = (month_of_year == 3).then_some(year * 10_000 + 101);
        if let (Some(date), 0) = (rate_day, year % 2) {
            cases.rate(0, date, annual);
        }
        let cents = match month {
            180 => cases.owed(),
            _ if month % 31 == 0 => 0,
            _ => 2_270_000_000 + random.below(20_000_000),
        };
        cases.settle(0, cents);
        if let (Some(date), 1) = (rate_day, year % 2) {
            cases.rate(0, date, annual);
        }
        if month % 12 == 0 {
            cases.look();
        }
    }
    cases.look_at_all();
    cases.advance(8, 20290102);
    cases.settle(13, 0);
    // All is paid: a 16th rate is stored, lower ones come too late.
    cases.changes(20290101, 0, 0, 0);
    cases.rate(8, 20290102, 0);
    cases.rate(14, 20280101, 0);
    cases.rate(14, 20140101, 1_999);
    cases.rate(0, 20140101, 4_000);
    cases.look_at_all();
}

/// 64 holders of 15,625, and what the leftover cents do among equals.
fn equal_holders(cases: &mut Cases) {
    let opening = financed(&holders(64), &[15_625; 64]);
    cases.start(Opening {
        first_day: 20150630,
        cents: 98_765_432_101,
        ..opening
    });
    for (date, cents) in [
        (20150701, 1),
        (20150702, 63),
        (20150703, 64),
        (20150704, 65),
    ] {
        cases.advance(0, date);
        cases.settle(0, cents);
        for place in [0, 1, 62, 63] {
            cases.place(0, place);
        }
    }
    cases.transfer(0, 64, 1, 15_625);
    cases.transfer(0, 2, 63, 1);
    cases.advance(0, 20150731);
    cases.transfer(0, 1, 64, 31_250);
    cases.advance(0, 20150831);
    cases.settle(0, 98_765_432);
    cases.look_at_all();
}

fn lives_at_random(cases: &mut Cases) {
    /// With it the lives are not too long, and 3, 6, 8, 12 and 14 of Rate occur.
    const SEED: u64 = 396;
    let lives = [
        (Temper::Mixed, 30),
        (Temper::Revised, 90),
        (Temper::Mixed, 60),
        (Temper::Crowded, 30),
        (Temper::Revised, 90),
        (Temper::Mixed, 60),
        (Temper::Revised, 60),
        (Temper::Mixed, 60),
    ];
    for (number, (temper, length)) in lives.into_iter().enumerate() {
        let mut random = Random::seeded(SEED, number as u64);
        cases.call(0, Call::Empty);
        for call in lists::list(&mut random, temper, length) {
            cases.any(call);
        }
        cases.look();
    }
}

#[cfg(test)]
mod tests {
    use super::*;
    use std::collections::BTreeSet;

    #[test]
    fn every_refusal_of_every_call() {
        let mut book = Book::empty();
        let mut seen = BTreeSet::new();
        for call in call_cases() {
            let answer = call.run(&mut book);
            let number = answer.map_or_else(|refusal| refusal.number(), |_| 0);
            let line = call.to_string();
            seen.insert((line.chars().next().expect("a digit"), number));
        }
        let mut expected = BTreeSet::new();
        for (digit, numbers) in [
            ('0', &[0][..]),
            ('1', &[0, 2, 3, 4, 5, 6, 7]),
            ('2', &[0, 1, 3, 8, 9]),
            ('3', &[0, 1, 10, 11, 12]),
            ('4', &[0, 1, 5, 12, 13, 14]),
            ('5', &[0, 1, 10]),
            ('6', &[0, 1, 10]),
            ('7', &[0, 1]),
            ('8', &[0, 1, 3, 6, 8, 12, 14]),
        ] {
            expected.extend(numbers.iter().map(|&number| (digit, number)));
        }
        assert_eq!(seen, expected);
    }

    #[test]
    fn lists_keep_to_their_length() {
        for call in call_cases() {
            if let Call::Open(opening) = call {
                assert!(opening.holders.len() <= 70 && opening.shares.len() <= 70);
            }
        }
    }

    /// Both changes of a rate: less, none and more, in every combination.
    #[test]
    fn every_sign_of_a_change() {
        let mut book = Book::empty();
        let mut seen = BTreeSet::new();
        for call in call_cases() {
            let answer = call.run(&mut book);
            if let (Call::Rate { .. }, Ok(changes)) = (call, answer) {
                seen.insert((changes[0].signum(), changes[1].signum()));
            }
        }
        assert_eq!(seen.len(), 9, "{seen:?}");
    }

    #[test]
    fn after_each_rate_the_totals_and_a_position() {
        let calls = call_cases();
        for three in calls.windows(3) {
            if let Call::Rate { .. } = three[0] {
                assert!(matches!(three[1], Call::Totals));
                assert!(matches!(three[2], Call::PositionAt { .. }));
            }
        }
    }
}
