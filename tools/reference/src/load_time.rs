//! How long a load takes.

use std::hint::black_box;
use std::time::Instant;

use crate::book::Book;
use crate::file::load;

/// Nanoseconds for a load of the file onto an empty book: the median of five
/// batches of so many loads, at least one.
pub fn load_time(file: &[u8], rounds: u32) -> u128 {
    batch(file, 1); // the calendar and the rates are made when first asked for
    let mut times = [0; 5].map(|_| batch(file, rounds));
    times.sort_unstable();
    times[2]
}

/// Nanoseconds a load.
fn batch(file: &[u8], rounds: u32) -> u128 {
    let start = Instant::now();
    for _ in 0..rounds {
        let mut book = black_box(Book::empty());
        let _ = black_box(load(&mut book, black_box(file)));
        black_box(&book);
    }
    start.elapsed().as_nanos() / u128::from(rounds)
}
