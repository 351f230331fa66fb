//! E lines, what stands after them, and files without any.

use super::*;

pub fn cases(cases: &mut Cases) {
    counts(cases);
    bytes_after(cases);
    no_end(cases);
    empty_files(cases);
    end_alone(cases);
}

/// One less, one more, none, far more.
fn counts(cases: &mut Cases) {
    cases.empty();
    for count in [
        0,
        1,
        5,
        7,
        60,
        (1 << 32) + 6,
        (232_830 << 32) + 6,
        100_000_000_000_006,
        WIDEST,
    ] {
        cases.load((22, 7), PAPER[..258].to_string() + &end(count));
    }
    // The count is that of this file, not that of the book.
    cases.load(ACCEPTED, opened() + &end(3));
    cases.load((22, 2), advance(day(1)) + &end(4));
    cases.load(ACCEPTED, advance(day(1)) + &end(1));
    // An E line too early.
    cases.load((22, 1), end(2) + &advance(day(2)) + &end(2));
    cases.load((22, 2), end(0) + &advance(day(2)) + &end(2));
    let twice = advance(day(2)) + &end(1) + &advance(day(3)) + &end(3);
    cases.load((22, 3), twice);
    // Form before count.
    cases.load((21, 2), advance(day(2)) + &end(2).replace(" 2", "02"));
    cases.load((21, 2), advance(day(2)) + &end(2)[..42]);
}

/// They name the line that they begin, whatever it is; a wrong count comes
/// first.
fn bytes_after(cases: &mut Cases) {
    cases.empty();
    for rest in [
        "\n".to_string(),
        "E".to_string(),
        "\0".to_string(),
        "\n".to_string() + &end(5),
        end(3),
        end(4),
        advance(day(1)) + &end(5),
        finance(3, 1) + &finance(4, 1),
        whole(opened()),
        settle(5)[..42].to_string(),
    ] {
        cases.load((22, 5), whole(opened()) + &rest);
    }
    for rest in ["\n", "E", &end(4), &end(3)] {
        cases.load((22, 4), opened() + &end(4) + rest);
    }
    cases.load((22, 2), end(0) + &end(0));

    cases.load((22, 1), end(1) + &end(1));
    cases.load((22, 8), PAPER.to_string() + PAPER);
    // Bytes that no text has.
    cases.load((22, 8), [PAPER.as_bytes(), &[0, 10, 200]].concat());
    cases.load(ACCEPTED, PAPER);
    cases.load((22, 2), end(0) + "\n");
}

fn no_end(cases: &mut Cases) {
    cases.empty();
    cases.load((22, 4), opened());
    cases.load((22, 6), opened() + &advance(day(1)) + &settle(5));
    cases.load((22, 5), opened() + &transfer(1, 2, 600_000));
    cases.load((8, 4), opened() + &advance(day(0)));
    cases.load(ACCEPTED, whole(opened()));
    cases.load((22, 2), advance(day(1)));
    cases.load((22, 2), rate(day(0), 1));
    cases.load((13, 1), settle(1));
    cases.load((21, 2), advance(day(1)) + &end(1).to_lowercase());
}

fn empty_files(cases: &mut Cases) {
    cases.empty();
    cases.load((20, 1), "");
    for text in ["\n", "\n\n\n\n\n\n\n", "\0", "\r\n", "E"] {
        cases.load((21, 1), text);
    }
    cases.load((21, 1), " ".repeat(42) + "\n");
    cases.load((21, 1), "\n".repeat(43));
    cases.load((21, 1), [255; 43]);
    cases.load(ACCEPTED, whole(opened()));
    cases.load((20, 1), "");
    cases.load((21, 1), "\n");
    cases.load(ACCEPTED, whole(advance(day(1)) + &settle(0)));
    cases.load((20, 1), "");
}

fn end_alone(cases: &mut Cases) {
    for first in [end(0), whole(opened())] {
        cases.fresh(ACCEPTED, first);
        cases.load(ACCEPTED, end(0));
        for count in [1, 1 << 32] {
            cases.load((22, 1), end(count));
        }
        cases.load((21, 1), &end(0)[..42]);
        cases.load((21, 1), end(0).replace(" 0", "00"));
    }
}
