//! Pairs of byte strings, books or not, for the test of equal bytes: equal ones,
//! ones that differ in one bit, ones whose differences would cancel if they were
//! taken together, and ones of which one is the front of the other.

use super::books::{draw_book, fullest_book};
use super::random::Random;

/// Two equal strings.
pub fn equal_strings(seed: u64) -> (Vec<u8>, Vec<u8>) {
    let string = draw_string(0, &mut Random::new(seed, "equal strings"));
    (string.clone(), string)
}

/// Two strings of one length that differ in one bit.
pub fn one_bit_strings(seed: u64) -> (Vec<u8>, Vec<u8>) {
    let mut random = Random::new(seed, "one bit");
    let first = draw_string(1, &mut random);
    let mut second = first.clone();
    second[draw_place(first.len(), &mut random)] ^= draw_bit(&mut random);
    (first, second)
}

/// Two strings of one length that differ in two bytes: the same bit of both is
/// another, one is greater by one and the other less, or they are exchanged. The
/// differences cancel where bytes are xor-ed or added up, and where words of
/// eight bytes are, if the two have the same place in their words.
pub fn cancelling_strings(seed: u64) -> (Vec<u8>, Vec<u8>) {
    let mut random = Random::new(seed, "cancelling");
    let mut first = draw_string(2, &mut random);
    let [one, other] = draw_two_places(first.len(), &mut random);
    let bit = draw_bit(&mut random);
    let sort = random.below(3);
    // A byte that cannot be changed so is another one in both strings.
    match sort {
        1 => {
            first[one] = first[one].min(254);
            first[other] = first[other].max(1);
        }
        2 if first[one] == first[other] => first[one] ^= bit,
        _ => {}
    }
    let mut second = first.clone();
    match sort {
        0 => {
            second[one] ^= bit;
            second[other] ^= bit;
        }
        1 => {
            second[one] += 1;
            second[other] -= 1;
        }
        _ => second.swap(one, other),
    }
    (first, second)
}

/// Two strings, one of which is the front of the other: shorter by 1, 7, 8, 9, 64
/// or 256 bytes, by anything up to the whole, or by 65,536; 256 and 65,536 would
/// be lost if lengths were cut to 8 or 16 bits. Of three, one lacks only zeros.
pub fn prefix_strings(seed: u64) -> (Vec<u8>, Vec<u8>) {
    let mut random = Random::new(seed, "prefix");
    let (mut longer, shared) = if random.chance(1, 64) {
        let shared = random.below(25);
        (draw_bytes(shared + 65_536, &mut random), shared)
    } else {
        let longer = draw_string(1, &mut random);
        let lacked = draw_up_to(longer.len(), &[1, 7, 8, 9, 64, 256], &mut random);
        let shared = longer.len() - lacked;
        (longer, shared)
    };
    if random.chance(1, 3) {
        longer[shared..].fill(0);
    }
    let shorter = longer[..shared].to_vec();
    match random.chance(1, 2) {
        true => (shorter, longer),
        false => (longer, shorter),
    }
}

/// A string of at least so many bytes: up to 24, about 64, 128 or 256, any
/// length, or a book; now and then the longest.
fn draw_string(least: usize, random: &mut Random) -> Vec<u8> {
    let length = match random.below(32) {
        0 => return fullest_book(random).to_bytes(),
        1 => return draw_book(random).to_bytes(),
        2..=5 => random.between(least, 1_000),
        6..=15 => *random.pick(&[64, 128, 256]) - 9 + random.below(19),
        _ => random.between(least, 24),
    };
    draw_bytes(length, random)
}

/// Any bytes, small ones as in a book, or the same few over and over, so that
/// all words or all bytes are alike; also all zeros and all ones.
fn draw_bytes(length: usize, random: &mut Random) -> Vec<u8> {
    let repeated: Vec<u8> = match random.below(8) {
        0..=2 => (0..length).map(|_| random.byte()).collect(),
        3 | 4 => (0..length).map(|_| random.below(4) as u8).collect(),
        5 => vec![*random.pick(&[0, 255])],
        6 => vec![random.byte()],
        _ => (0..8).map(|_| random.byte()).collect(),
    };
    repeated.into_iter().cycle().take(length).collect()
}

fn draw_bit(random: &mut Random) -> u8 {
    1 << random.below(8)
}

/// A place in a string of this length: the first, the last, one in the tail
/// after the last whole word of eight bytes, one in that word, one at or beside
/// a multiple of a power of two, or any.
fn draw_place(length: usize, random: &mut Random) -> usize {
    let whole = length / 8 * 8;
    match random.below(8) {
        0 => 0,
        1 => length - 1,
        2 if whole < length => random.between(whole, length - 1),
        3 if whole > 0 => random.between(whole - 8, whole - 1),
        4 | 5 => {
            let step = *random.pick(&[8, 16, 32, 64, 128]);
            let beside = step * random.below(length / step + 1) + random.below(3);
            beside.saturating_sub(1).min(length - 1)
        }
        _ => random.below(length),
    }
}

/// Two places in a string of this length, next to each other, apart by a whole
/// number of words, or by anything; in either order.
fn draw_two_places(length: usize, random: &mut Random) -> [usize; 2] {
    let apart = draw_up_to(length - 1, &[1, 8, 16, 32, 64, 128], random);
    let low = random.below(length - apart);
    let mut places = [low, low + apart];
    random.shuffle(&mut places);
    places
}

/// Usually one of the numbers that is not above `most`, else any from 1 to `most`.
fn draw_up_to(most: usize, numbers: &[usize], random: &mut Random) -> usize {
    let fitting: Vec<usize> = numbers.iter().copied().filter(|&n| n <= most).collect();
    match random.chance(3, 4) {
        true => *random.pick(&fitting),
        false => random.between(1, most),
    }
}
