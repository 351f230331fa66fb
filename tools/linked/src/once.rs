//! One run of a row, for a profiler: collect what happens in `measured`.

use std::hint::black_box;

use crate::rows::Work;

#[derive(Clone, Copy, Debug, PartialEq, Eq)]
pub enum Side {
    Ours,
    Reference,
}

impl Side {
    pub fn of_word(word: &str) -> Option<Self> {
        match word {
            "ours" => Some(Side::Ours),
            "reference" => Some(Side::Reference),
            _ => None,
        }
    }

    pub fn word(self) -> &'static str {
        match self {
            Side::Ours => "ours",
            Side::Reference => "reference",
        }
    }
}

/// The work over all inputs of a row. Answers how many they are.
pub fn once(work: Work, side: Side) -> usize {
    let mut ways = work.ways();
    let run = match side {
        Side::Ours => &mut ways.ours,
        Side::Reference => &mut ways.reference,
    };
    run(); // the reference's calendar and rates are made when first asked for
    measured(run);
    ways.count
}

/// The answer stands behind the run, so that the run isn't left by a jump.
#[inline(never)]
fn measured(run: &mut dyn FnMut()) -> bool {
    run();
    black_box(true)
}
