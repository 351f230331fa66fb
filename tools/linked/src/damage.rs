//! Damaged copies of a file.

use reference::line::LENGTH;
use reference::order_text::end;
use reference::random::Random;

fn place(random: &mut Random, file: &[u8]) -> usize {
    random.below(file.len().max(1) as u64) as usize
}

pub fn cut(random: &mut Random, file: &[u8]) -> Vec<u8> {
    file[..place(random, file)].to_vec()
}

/// One bit of a byte is another.
pub fn flipped(random: &mut Random, file: &[u8]) -> Vec<u8> {
    let mut file = file.to_vec();
    let place = place(random, &file);
    if let Some(byte) = file.get_mut(place) {
        *byte ^= 1 << random.below(8);
    }
    file
}

pub fn inserted(random: &mut Random, file: &[u8]) -> Vec<u8> {
    let mut file = file.to_vec();
    let byte = match random.below(2) {
        0 => random.pick(b" 0F\n\r\0\xff"),
        _ => random.below(256) as u8,
    };
    file.insert(place(random, &file), byte);
    file
}

pub fn deleted(random: &mut Random, file: &[u8]) -> Vec<u8> {
    let mut file = file.to_vec();
    if !file.is_empty() {
        file.remove(place(random, &file));
    }
    file
}

/// A whole file with another count in its E line.
pub fn recounted(file: &[u8], count: u64) -> Vec<u8> {
    let orders = &file[..file.len() - LENGTH];
    [orders, end(count).as_bytes()].concat()
}
