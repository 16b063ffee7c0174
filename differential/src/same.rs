//! Equal bytes: pairs of byte strings at every offset among other bytes, and slices of one string that overlap.

use std::hint::black_box;

use reference::generate::{self, Random};

use crate::{expected, library, pair, some_pair, Tally};

/// How many bytes there are at least before and after a string; a multiple of `ALIGNED`.
const AROUND: usize = 64;
/// Offsets are counted from a multiple of this.
const ALIGNED: usize = 16;

/// The test of equal bytes, with how its pairs came out.
#[derive(Default)]
pub struct Same {
    pub same: Tally,
    equal: u64,
    one_byte: u64,
    /// How many differ after their last whole word of eight bytes only.
    tail: u64,
    length: u64,
}

/// One call: its answer and whether the bytes stayed, what should have been, and which slices it was given.
struct Call {
    given: (u64, bool),
    wanted: (u64, bool),
    slices: String,
}

impl Same {
    /// Asks about the pair of a number in all its places, and about slices of its first string. One input is all these calls.
    fn note(&mut self, i: u64) {
        let (input, first, second) = some_strings(i);
        self.note_pair(&first, &second);
        let mut random = Random::new(i, "same's places");
        let mut calls = placed(&first, &second, &mut random);
        calls.extend(overlapping(&first, &mut random));
        let wrong = calls.iter().find(|call| call.given != call.wanted);
        let shown = wrong.unwrap_or(&calls[0]);
        let input = format!("{input}, {}", shown.slices);
        self.same.hold(shown.given, shown.wanted, &input);
    }

    fn note_pair(&mut self, first: &[u8], second: &[u8]) {
        let shared = first.len().min(second.len());
        let differ = |place: &usize| first[*place] != second[*place];
        let places: Vec<usize> = (0..shared).filter(differ).collect();
        match (&places[..], first.len() == second.len()) {
            ([], true) => self.equal += 1,
            ([], false) => self.length += 1,
            ([place, more @ ..], true) => {
                self.one_byte += u64::from(more.is_empty());
                self.tail += u64::from(*place >= shared / 8 * 8);
            }
            _ => {}
        }
    }

    pub fn print(&self) {
        println!(
            "equal strings: {}; different in one byte only: {}, in the tail only: {}, in length only: {}",
            self.equal, self.one_byte, self.tail, self.length
        );
    }
}

pub fn sames(count: u64, seed: u64) -> Same {
    let mut noted = Same::default();
    for i in seed..seed + count {
        noted.note(i);
    }
    noted
}

/// A pair of strings, with the words that make it again.
fn some_strings(i: u64) -> (String, Vec<u8>, Vec<u8>) {
    let (kind, first, second) = match i % 16 {
        0..=4 => pair("equal-strings", generate::equal_strings(i)),
        5..=8 => pair("one-bit-strings", generate::one_bit_strings(i)),
        9..=11 => pair("cancelling-strings", generate::cancelling_strings(i)),
        12..=14 => pair("prefix-strings", generate::prefix_strings(i)),
        _ => {
            let (kind, first, second) = some_pair(i / 16);
            return (format!("{kind} {}", i / 16), first, second);
        }
    };
    (format!("{kind} {i}"), first, second)
}

/// The first string at each offset, the second always as much further on. No byte beside the one is equal to any beside the other.
fn placed(first: &[u8], second: &[u8], random: &mut Random) -> Vec<Call> {
    let wanted = expected::same_bytes(first, second);
    let (apart, around) = (random.below(ALIGNED), random.byte());
    (0..ALIGNED)
        .map(|offset| {
            let further = (offset + apart) % ALIGNED;
            let mut one = Placed::new(first, offset, around);
            let mut two = Placed::new(second, further, !around);
            let answer = library::same_bytes(one.string(), two.string());
            Call {
                given: (answer, one.holds(first) && two.holds(second)),
                wanted: (wanted, true),
                slices: format!("at the offsets {offset} and {further}"),
            }
        })
        .collect()
}

/// The whole string as both, then slices of it that share bytes: of one length, with one beginning, with one end.
fn overlapping(string: &[u8], random: &mut Random) -> Vec<Call> {
    let length = string.len();
    let less = match random.below(4) {
        0 => random.below(length + 1),
        _ => length.min(*random.pick(&[1, 7, 8, 9, 16, 64])),
    };
    let mut placed = Placed::new(string, random.below(ALIGNED), random.byte());
    [
        (0..length, 0..length),
        (0..length - less, less..length),
        (0..length, 0..length - less),
        (less..length, 0..length),
    ]
    .into_iter()
    .map(|(one, two)| {
        let whole = placed.string();
        let answer = library::same_bytes(&whole[one.clone()], &whole[two.clone()]);
        Call {
            given: (answer, placed.holds(string)),
            wanted: (
                expected::same_bytes(&string[one.clone()], &string[two.clone()]),
                true,
            ),
            slices: format!("bytes {one:?} and {two:?} of the first"),
        }
    })
    .collect()
}

/// A string at an offset from a multiple of `ALIGNED`, with one byte all around it.
struct Placed {
    bytes: Vec<u8>,
    from: usize,
    to: usize,
    around: u8,
}

impl Placed {
    fn new(string: &[u8], offset: usize, around: u8) -> Placed {
        let mut bytes = vec![around; 2 * AROUND + ALIGNED + string.len()];
        let from = AROUND + (ALIGNED + offset - bytes.as_ptr() as usize % ALIGNED) % ALIGNED;
        let to = from + string.len();
        bytes[from..to].copy_from_slice(string);
        Placed {
            bytes,
            from,
            to,
            around,
        }
    }

    fn string(&self) -> &[u8] {
        &self.bytes[self.from..self.to]
    }

    /// Whether the string and what is around it are as they were.
    fn holds(&mut self, string: &[u8]) -> bool {
        // They were lent for reading only, so the compiler would not have to look at them again.
        let bytes = black_box(self.bytes.as_mut_slice());
        let (before, after) = (&bytes[..self.from], &bytes[self.to..]);
        let is_around = |byte: &u8| *byte == self.around;
        bytes[self.from..self.to] == *string && before.iter().chain(after).all(is_around)
    }
}
