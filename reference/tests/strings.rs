//! Generated pairs of byte strings: each is what its kind says, and every sort of
//! length, content and place occurs.

#[path = "common/met.rs"]
mod met;

use met::Met;
use reference::book;
use reference::compare::equal_bytes;
use reference::generate::{cancelling_strings, equal_strings, one_bit_strings, prefix_strings};

/// The places at which two strings of one length differ.
fn different_places(first: &[u8], second: &[u8]) -> Vec<usize> {
    assert_eq!(first.len(), second.len());
    (0..first.len())
        .filter(|&place| first[place] != second[place])
        .collect()
}

/// The words of eight bytes, the last one filled up with zeros.
fn words(string: &[u8]) -> impl Iterator<Item = u64> + '_ {
    string.chunks(8).map(|part| {
        let mut word = [0; 8];
        word[..part.len()].copy_from_slice(part);
        u64::from_le_bytes(word)
    })
}

#[test]
fn equal_strings_are_of_every_sort() {
    let mut met = Met::default();
    for seed in 0..6_000 {
        let (first, second) = equal_strings(seed);
        assert!(equal_bytes(&first, &second));
        let length = first.len();
        for short in 0..=24 {
            met.note(&format!("{short} bytes"), length == short);
        }
        for middle in [64_usize, 128, 256] {
            for near in middle - 9..=middle + 9 {
                met.note(&format!("{near} bytes"), length == near);
            }
        }
        let is_book = book::read(&first).is_ok();
        met.note("a book", is_book);
        met.note("a book of 17,284 bytes", is_book && length == 17_284);
        met.note("a book of under 200 bytes", is_book && length < 200);
        let whole = &first[..length / 8 * 8];
        let all_are = |byte| length >= 8 && first.iter().all(|&other| other == byte);
        met.note("zeros", all_are(0));
        met.note("ones", all_are(255));
        met.note("bytes alike", length >= 8 && all_are(first[0]));
        let alike = words(whole).all(|word| Some(word) == words(whole).next());
        met.note("words alike", length >= 16 && alike && !all_are(first[0]));
        met.note("high bytes", first.iter().any(|&byte| byte > 127));
    }
    met.each_more_than(10);
}

#[test]
fn one_bit_is_at_every_sort_of_place() {
    let mut met = Met::default();
    for seed in 0..6_000 {
        let (first, second) = one_bit_strings(seed);
        let [place] = different_places(&first, &second)[..] else {
            panic!("seed {seed}: not one byte");
        };
        assert!((first[place] ^ second[place]).is_power_of_two());
        let (length, whole) = (first.len(), first.len() / 8 * 8);
        met.note("the first byte", place == 0);
        met.note("the last byte", place + 1 == length);
        met.note("the tail", whole > 0 && place >= whole);
        met.note("no whole word", whole == 0);
        met.note("no tail", whole == length);
        met.note("a book", length == 17_284);
        for byte in 0..8 {
            let is_byte = place % 8 == byte && place < whole;
            met.note(&format!("byte {byte} of a word"), is_byte);
            let is_in_turn = place / 8 % 8 == byte && place < length / 64 * 64;
            met.note(&format!("word {byte} of eight"), is_in_turn);
            let is_last = is_byte && place + 8 >= whole;
            met.note(&format!("byte {byte} of the last word"), is_last);
            let is_bit = (first[place] ^ second[place]) == 1 << byte;
            met.note(&format!("bit {byte}"), is_bit);
            met.note(&format!("bit {byte} in the tail"), is_bit && place >= whole);
        }
        for step in [8, 16, 32, 64, 128] {
            for beside in [step - 1, step, step + 1] {
                let is_met = place >= step - 1 && (place + step - beside) % step == 0;
                met.note(&format!("{beside} modulo {step}"), is_met);
            }
        }
    }
    met.each_more_than(50);
}

#[test]
fn cancelling_differences_cancel() {
    let mut met = Met::default();
    for seed in 0..6_000 {
        let (first, second) = cancelling_strings(seed);
        let [low, high] = different_places(&first, &second)[..] else {
            panic!("seed {seed}: not two bytes");
        };
        let xor = |string: &[u8]| string.iter().fold(0, |all, byte| all ^ byte);
        let sum = |string: &[u8]| string.iter().map(|&byte| u64::from(byte)).sum::<u64>();
        let (alike_xor, alike_sum) = (xor(&first) == xor(&second), sum(&first) == sum(&second));
        assert!(alike_xor || alike_sum);
        let word_xor = |string: &[u8]| words(string).fold(0, |all, word| all ^ word);
        let word_sum = |string: &[u8]| words(string).fold(0, u64::wrapping_add);
        met.note("words xor-ed", word_xor(&first) == word_xor(&second));
        met.note("words added", word_sum(&first) == word_sum(&second));
        let is_exchanged = (first[low], first[high]) == (second[high], second[low]);
        met.note("xor only", alike_xor && !alike_sum);
        met.note("sum only", alike_sum && !alike_xor);
        for apart in [1, 8, 16, 32, 64, 128] {
            let is_apart = high - low == apart;
            met.note(&format!("{apart} apart"), is_apart);
            met.note(
                &format!("exchanged, {apart} apart"),
                is_apart && is_exchanged,
            );
        }
        let whole = first.len() / 8 * 8;
        met.note("in one word", low / 8 == high / 8 && high < whole);
        met.note("in the tail", whole > 0 && low >= whole);
        met.note("in a word and the tail", low < whole && high >= whole);
        met.note(
            "other places of two words",
            low / 8 < high / 8 && low % 8 != high % 8,
        );
    }
    met.each_more_than(50);
}

#[test]
fn prefixes_lack_any_number_of_bytes() {
    let mut met = Met::default();
    for seed in 0..6_000 {
        let (first, second) = prefix_strings(seed);
        met.note("the first is shorter", first.len() < second.len());
        met.note("the second is shorter", first.len() > second.len());
        let (shorter, longer) = match first.len() < second.len() {
            true => (&first, &second),
            false => (&second, &first),
        };
        let (kept, lacked) = longer.split_at(shorter.len());
        assert_eq!(kept, shorter);
        assert!(!lacked.is_empty());
        let lengths = [1, 7, 8, 9, 64, 256, 65_536];
        for lack in lengths {
            met.note(&format!("{lack} bytes less"), lacked.len() == lack);
        }
        met.note("any number less", !lengths.contains(&lacked.len()));
        met.note("an empty one", shorter.is_empty());
        met.note("zeros are lacked", lacked.iter().all(|&byte| byte == 0));
        met.note("a tail is lacked", shorter.len() / 8 == longer.len() / 8);
        met.note(
            "whole words are lacked",
            shorter.len() % 8 == longer.len() % 8,
        );
        met.note("a book", longer.len() == 17_284);
    }
    met.each_more_than(50);
}
