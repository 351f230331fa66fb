//! O and F lines: where F may stand, and when Open runs.

use super::*;

pub fn cases(cases: &mut Cases) {
    place_of_f(cases);
    no_holders(cases);
    sixty_four(cases);
    refused_first(cases);
    malformed_f_first(cases);
    two_openings(cases);
    on_an_open_book(cases);
}

/// Only after O or F.
fn place_of_f(cases: &mut Cases) {
    let f = finance(1, ALL);
    cases.empty();
    cases.load((21, 1), whole(&f));
    cases.load((21, 1), finance(1, WIDEST));
    cases.load((21, 1), f.clone() + &opened());
    for order in [
        advance(day(1)),
        rate(day(0), 1),
        transfer(1, 2, 1),
        advance(day(1)) + &settle(1),
    ] {
        let before = opened() + &order;
        let number = line_feeds(&before) + 1;
        cases.load((21, number), whole(before + &f));
    }
    cases.load((22, 5), whole(opened()) + &f + &end(5));
    cases.load((21, 4), opened() + "\n" + &f);
    // On an open book: a file has an O of its own or none.
    cases.load(ACCEPTED, whole(opened()));
    cases.load((21, 1), whole(&f));
    cases.load((21, 2), advance(day(1)) + &f);
}

/// O followed by anything but F.
fn no_holders(cases: &mut Cases) {
    let o = open(20140101, 365, 2_000, 100);
    let after = [
        String::new(),
        "\n".to_string(),
        o.clone(),
        advance(day(1)),
        rate(day(0), 1),
        transfer(1, 2, 1),
        settle(0),
        end(1),
        "\0".to_string(),
        finance(1, ALL).to_lowercase(),
        " ".to_string() + &finance(1, ALL),
    ];
    cases.empty();
    for rest in &after {
        cases.load((7, 1), o.clone() + rest);
    }
    cases.load((3, 1), open(20140229, 0, 4_001, 0) + &after[0]);
    cases.load((4, 1), open(20140101, 0, 4_001, 0) + &after[1]);
    cases.load((5, 1), open(20140101, 1, 4_001, 0) + &after[2]);
    cases.load((6, 1), open(20140101, 1, 4_001, 1) + &after[3]);
    cases.load(ACCEPTED, whole(opened()));
    for rest in &after[..3] {
        cases.load((2, 1), o.clone() + rest);
    }
    cases.load((2, 1), open(0, 0, 4_001, 0) + &end(1));
    cases.load((21, 1), &o[..42]);
}

/// 64 F lines, and a 65th.
fn sixty_four(cases: &mut Cases) {
    let o = open(20140101, 365, 2_000, 100);
    let bad = open(20140229, 365, 2_000, 100);
    cases.empty();
    cases.load((7, 66), whole(o.clone() + &financings(65)));
    cases.load((7, 66), whole(bad.clone() + &financings(66)));
    cases.load((7, 66), o.clone() + &financings(64) + &finance(0, 0));
    cases.load((21, 66), bad.clone() + &financings(64) + "F\n" + &end(65));
    cases.load(
        (21, 66),
        o.clone() + &financings(64) + &finance(65, 1)[..42],
    );
    cases.load((3, 1), whole(bad + &financings(64)));
    cases.load(
        (7, 1),
        whole(o.clone() + &financings(63) + &finance(63, 15_625)),
    );
    cases.load(
        (21, 67),
        o.clone() + &financings(64) + &advance(day(1)) + &finance(65, 1),
    );
    cases.load(ACCEPTED, whole(o.clone() + &financings(64)));
    cases.load((7, 66), whole(o + &financings(65)));
}

/// Open's refusal comes before what the lines behind it would bring.
fn refused_first(cases: &mut Cases) {
    cases.empty();
    let f = finance(1, ALL);
    let o = open(20140101, 365, 2_000, 100);
    let rests = [
        String::new(),                     // no E
        end(1),                            // a wrong count
        end(2) + "\n",                     // bytes after E
        "\n".to_string(),                  // an empty line
        advance(day(1))[..42].to_string(), // an incomplete line
        advance(19991231) + &end(3),       // a refused order
        o.clone() + &f + &end(4),          // another opening
    ];
    for rest in &rests {
        cases.load((3, 1), open(20140229, 365, 2_000, 100) + &f + rest);
    }
    for (number, opening) in [
        (4, open(20140101, 6_001, 2_000, 100) + &f),
        (5, open(20140101, 365, 2_000, 0) + &f),
        (6, open(20140101, 365, 4_001, 100) + &f),
        (7, o.clone() + &finance(1, ALL - 1)),
        (7, o.clone() + &finance(1, (1 << 32) + ALL)),
    ] {
        cases.load((number, 1), opening.clone() + &rests[0]);
        cases.load((number, 1), opening.clone() + &rests[number as usize - 3]);
    }
}

/// A malformed line that begins with F comes before Open's refusal.
fn malformed_f_first(cases: &mut Cases) {
    let f = finance(2, 1);
    let malformed = [
        "F".to_string(),
        "F\n".to_string(),
        f[..42].to_string(),
        f.replace('\n', "\r\n"),
        f.replace(" 1\n", "01\n"),
        line("F", ["20140101", "2", "", "1"]),
        line("F", ["", "", "", "1"]),
    ];
    let (good, bad) = (open(20140101, 365, 2_000, 100), open(20140229, 0, 4_001, 0));
    cases.empty();
    for (turn, f) in malformed.iter().enumerate() {
        cases.load((21, 2), bad.clone() + f);
        if turn < 3 {
            cases.load((21, 2), good.clone() + f);
            cases.load((21, 3), bad.clone() + &finance(1, 0) + f);
        }
    }
    cases.load(ACCEPTED, whole(opened()));
    cases.load((21, 3), good.clone() + &finance(1, ALL) + &malformed[4]);
    cases.load((7, 66), good.clone() + &financings(65));
    cases.load((2, 1), good + &financings(64));
}

/// The first opens the book; the second is refused, after its F lines.
fn two_openings(cases: &mut Cases) {
    let o = open(20140101, 365, 2_000, 100);
    cases.empty();
    cases.load((2, 4), whole(opened() + &opened()));
    cases.load((2, 4), opened() + &o);
    cases.load((2, 4), opened() + &o + "\n");
    cases.load((2, 4), opened() + &o + &opened());
    cases.load((2, 4), opened() + &open(0, 0, 0, 0) + &end(4));
    cases.load((2, 5), whole(opened() + &advance(day(1)) + &opened()));
    cases.load((21, 6), opened() + &o + &finance(1, ALL) + "F\n");
    cases.load((7, 69), opened() + &o + &financings(65));
    cases.load(
        (3, 1),
        open(20140229, 1, 0, 1) + &finance(1, ALL) + &opened(),
    );
    cases.load((21, 4), opened() + &o[..42]);
}

fn on_an_open_book(cases: &mut Cases) {
    cases.fresh(ACCEPTED, whole(opened()));
    cases.load((2, 1), whole(opened()));
    cases.load((2, 1), PAPER);
    cases.load(
        (2, 1),
        whole(open(5, 0, 4_001, WIDEST) + &finance(0, WIDEST)),
    );
    cases.load((21, 3), opened().replace("400000", "4000000"));
    cases.load((2, 2), whole(advance(day(20)) + &opened()));
    cases.load(ACCEPTED, whole(advance(day(10)) + &settle(77)));
    cases.load((2, 1), whole(opened()));
}
