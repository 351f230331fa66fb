//! Random order files: lives of a book that begin empty, about half of them
//! spoilt.

use crate::book::Book;
use crate::calls::Call;
use crate::file::load;
use crate::line::LENGTH;
use crate::lists;
use crate::order_text::{end, line_feeds, lines_of, transfer, whole, WIDEST};
use crate::random::Random;
use crate::statement::LONGEST_FILE;

/// A file for an empty book.
pub fn any(random: &mut Random) -> Vec<u8> {
    match random.below(100) {
        0..=49 => sound(random).into_bytes(),
        50 => Vec::new(),
        51..=64 => whole(Orders::new(random).with_a_refused_one(random)).into_bytes(),
        _ => {
            let mut file = sound(random).into_bytes();
            for _ in 0..random.pick(&[1, 1, 1, 2, 3]) {
                damage(random, &mut file);
            }
            file
        }
    }
}

/// A file without a fault, but for its length now and then.
fn sound(random: &mut Random) -> String {
    match random.below(50) {
        0 => end(0),
        1 => {
            let longest = (LONGEST_FILE / LENGTH) as u64;
            let lines = match random.below(3) {
                0 => longest,
                1 => longest + 1,
                _ => random.between(longest - 5, longest + 500),
            };
            long(random, lines)
        }
        _ => whole(Orders::new(random).accepted()),
    }
}

/// The orders of a random list of calls.
struct Orders {
    /// The lines of each, and whether the book accepts it.
    orders: Vec<(String, bool)>,
}

impl Orders {
    fn new(random: &mut Random) -> Self {
        let step = random.pick(&[1, 1, 11, 1_111, 123_456, 11_111_111]);
        let mut book = Book::empty();
        let mut orders = Vec::new();
        for mut call in lists::any(random) {
            rename(&mut call, step);
            if let Some(lines) = lines_of(&call) {
                orders.push((lines, call.run(&mut book).is_ok()));
            }
        }
        Orders { orders }
    }

    fn accepted(&self) -> String {
        let accepted = self.orders.iter().filter(|(_, accepted)| *accepted);
        accepted.map(|(lines, _)| lines.as_str()).collect()
    }

    /// With one of the refused orders among them, if there is any.
    fn with_a_refused_one(&mut self, random: &mut Random) -> String {
        let mut refused: Vec<&mut bool> = self
            .orders
            .iter_mut()
            .filter_map(|(_, accepted)| (!*accepted).then_some(accepted))
            .collect();
        if !refused.is_empty() {
            let place = random.below(refused.len() as u64) as usize;
            *refused[place] = true;
        }
        self.accepted()
    }
}

/// The lists' holders have two digits; multiplied they have up to nine.
fn rename(call: &mut Call, step: u32) {
    let rename = |holder: &mut u32| {
        if *holder <= 90 {
            *holder *= step;
        }
    };
    match call {
        Call::Open(opening) => opening.holders.iter_mut().for_each(rename),
        Call::Transfer {
            cedent, assignee, ..
        } => [cedent, assignee].into_iter().for_each(rename),
        _ => {}
    }
}

/// So many lines, if the life has no more: parts go to and fro at its end.
fn long(random: &mut Random, lines: u64) -> String {
    let mut orders = Orders::new(random).accepted();
    let mut book = Book::empty();
    load(&mut book, whole(&orders).as_bytes()).expect("accepted orders");
    let positions = book.positions().expect("an open book");
    let owner = positions.iter().find(|position| position.share.0 > 0);
    let holder = owner.expect("shares total 1,000,000").holder;
    let mut others = positions.iter().map(|position| position.holder);
    let other = others
        .find(|&other| other != holder)
        .unwrap_or(holder % 999_999_999 + 1);
    let there_and_back = [transfer(holder, other, 1), transfer(other, holder, 1)];
    let missing = lines.saturating_sub(line_feeds(&orders) + 1) as usize;
    orders.extend(there_and_back.into_iter().cycle().take(missing));
    whole(orders)
}

fn damage(random: &mut Random, file: &mut Vec<u8>) {
    if file.is_empty() {
        return;
    }
    let length = file.len() as u64;
    let place = random.below(length) as usize;
    match random.below(16) {
        0 => file.truncate(place),
        1 => file.truncate(place / LENGTH * LENGTH),
        2 => file[place] ^= 1 << random.below(8),
        3 => file[place] = random.below(256) as u8,
        4 => file.insert(place, random.pick(b" 0F\n\r\0\xff")),
        5 => {
            file.remove(place);
        }
        6 => file[place / LENGTH * LENGTH] = random.pick(b"OFDRTSE"),
        7..=9 => change_digit(random, file),
        10..=12 => move_lines(random, file),
        13 => {
            let lines = length / LENGTH as u64;
            let near = random.between(lines.saturating_sub(3), lines + 1);
            let far = random.of_any_size(WIDEST);
            recount(file, random.pick(&[near, near, far]));
        }
        14 => {
            let end = end(0);
            let rest = random.pick(&["\n", " ", "E", "\0", "D20140102", &end]);
            file.extend(rest.bytes());
        }
        _ => *file = with_carriage_returns(file),
    }
}

/// Anywhere, and in the opening often.
fn change_digit(random: &mut Random, file: &mut [u8]) {
    let first_line = file.len().min(LENGTH);
    let among = random.pick(&[file.len(), file.len(), first_line]);
    let digits: Vec<usize> = (0..among)
        .filter(|&place| file[place].is_ascii_digit())
        .collect();
    if !digits.is_empty() {
        file[random.pick(&digits)] = random.pick(b"0123456789");
    }
}

/// Two lines swapped, a line doubled or dropped; often with the right count.
fn move_lines(random: &mut Random, file: &mut Vec<u8>) {
    let mut lines: Vec<Vec<u8>> = file
        .split_inclusive(|&byte| byte == b'\n')
        .map(<[u8]>::to_vec)
        .collect();
    let [one, other] = [0; 2].map(|_| random.below(lines.len() as u64) as usize);
    match random.below(4) {
        0 => lines.swap(one, other),
        1 => lines.insert(other, lines[one].clone()),
        2 => lines.insert(one, lines[one].clone()),
        _ => {
            lines.remove(one);
        }
    }
    *file = lines.concat();
    if random.one_in(2) {
        recount(file, lines.len().saturating_sub(1) as u64);
    }
}

/// Another count in the last line.
fn recount(file: &mut Vec<u8>, count: u64) {
    let mut lines = file.split_inclusive(|&byte| byte == b'\n');
    let last = lines.next_back().map_or(0, <[u8]>::len);
    file.truncate(file.len() - last);
    file.extend(end(count).bytes());
}

fn with_carriage_returns(file: &[u8]) -> Vec<u8> {
    let lines = file.split(|&byte| byte == b'\n');
    lines.collect::<Vec<&[u8]>>().join(&b"\r\n"[..])
}

#[cfg(test)]
mod tests {
    use super::*;
    use crate::statement::statement;

    fn files() -> impl Iterator<Item = Vec<u8>> {
        (0..400).map(|number| any(&mut Random::seeded(5, number)))
    }

    #[test]
    fn all_letters_and_lengths() {
        let mut letters = Vec::new();
        let mut longer = 0;
        for file in files() {
            letters.extend(file.iter().step_by(LENGTH));
            longer += u64::from(file.len() > LONGEST_FILE);
        }
        assert!(b"OFDRTSE".iter().all(|letter| letters.contains(letter)));
        assert!((1..40).contains(&longer), "{longer}");
    }

    /// About half of them are accepted.
    #[test]
    fn accepted_and_refused() {
        let refused = files().filter(|file| statement(file).starts_with('X'));
        let refused = refused.count();
        assert!((150..250).contains(&refused), "{refused}");
    }

    #[test]
    fn sound_files_are_accepted() {
        for number in 0..100 {
            let file = sound(&mut Random::seeded(6, number));
            assert!(!statement(file.as_bytes()).starts_with('X'), "{file}");
        }
        for lines in [1_523, 1_524, 1_525] {
            let file = long(&mut Random::seeded(7, lines), lines);
            assert_eq!(file.len() as u64, lines * 43);
            assert!(statement(file.as_bytes()).starts_with('B'), "{file}");
        }
    }

    #[test]
    fn counts_and_line_ends() {
        let mut file = whole(transfer(1, 2, 3)).into_bytes();
        recount(&mut file, 70);
        assert_eq!(file, (transfer(1, 2, 3) + &end(70)).as_bytes());
        file.truncate(40);
        recount(&mut file, 1);
        assert_eq!(file, end(1).as_bytes());
        assert_eq!(with_carriage_returns(b"a\n\nb"), b"a\r\n\r\nb");
        assert_eq!(with_carriage_returns(b"a\n"), b"a\r\n");
    }
}
