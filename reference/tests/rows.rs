//! The table of what turns input down: examples of each row, and the order in
//! which the rows are judged.

mod common;

use common::*;
use reference::book;
use reference::compare::{compare, Comparison};
use reference::entry;
use reference::refusal::Refusal;
use reference::walk::{Answer, OpenedBook};

fn book_refused(book: &[u8]) -> Option<u8> {
    book::read(book).err().map(Refusal::number)
}

#[test]
fn row_1() {
    let (a, h) = (book_bytes(&policy_a()), book_bytes(&policy_h()));
    for policy in [&policy_a()[..], &[]] {
        assert_eq!(entry::build(policy, &mut [0; 17_283]), Err(Refusal::Buffer));
    }
    assert_eq!(entry::build(&policy_a(), &mut [0; 17_284]), Ok(27));
    for (first, second) in [(&a[..], &a[..]), (&a, &h), (&[], &a), (&a, &[])] {
        assert_eq!(
            entry::compare(first, second, &mut [0; 255]),
            Err(Refusal::Buffer)
        );
    }
    assert_eq!(
        entry::compare(&a, &a, &mut [0; 256]),
        Ok(entry::Compared::Same)
    );
    for book in [&a[..], &[]] {
        assert_eq!(entry::page(book, &mut [0; 9_270]), Err(Refusal::Buffer));
        assert_eq!(entry::way(book, 0, 1, &mut [0; 127]), Err(Refusal::Buffer));
        for sizes in [[127, 128, 128], [128, 127, 128], [128, 128, 127], [0, 0, 0]] {
            let [mut one, mut two, mut three] = sizes.map(|size| vec![0; size]);
            let answer = entry::verdict(book, &mut one, &mut two, &mut three);
            assert_eq!(answer, Err(Refusal::Buffer));
        }
    }
    assert_eq!(entry::page(&a, &mut [0; 9_271]), Ok(219));
    assert_eq!(entry::way(&a, 1, 2, &mut [0; 128]), Ok(Some(2)));
    let [mut one, mut two, mut three] = [[0; 128]; 3];
    assert!(entry::verdict(&a, &mut one, &mut two, &mut three).is_ok());
}

#[test]
fn rows_2_to_4() {
    assert_eq!(refused(&[]), Some(2));
    assert_eq!(refused(&policy_a()[..8]), Some(2));
    assert_eq!(refused(b"POX\0\0\0\0\0\0"), Some(3));
    for place in 0..3 {
        assert_eq!(refused(&with_byte(&policy_a(), place, 0x58)), Some(3));
    }
    assert_eq!(refused(&with_byte(&policy_a(), 4, 0)), Some(4));
    assert_eq!(refused(&with_byte(&policy_a(), 4, 3)), Some(4));
    assert_eq!(refused(&with_byte(&policy_a(), 3, 1)), Some(4));
    // As a file of version 2 it is a byte short: it has no starting value.
    assert_eq!(refused(&with_byte(&policy_a(), 4, 2)), Some(6));
}

#[test]
fn row_5() {
    for (place, outside) in [(5, 9), (6, 0), (6, 5), (7, 5), (8, 33), (8, 255), (5, 255)] {
        assert_eq!(refused(&with_byte(&policy_a(), place, outside)), Some(5));
    }
    // Within the ranges the length is what is wrong next.
    for (place, inside) in [(5, 8), (6, 4), (7, 4), (8, 0), (8, 32)] {
        assert_eq!(refused(&with_byte(&policy_a(), place, inside)), Some(6));
    }
}

#[test]
fn row_6() {
    assert_eq!(refused(&[policy_a(), vec![0]].concat()), Some(6));
    assert_eq!(refused(&policy_a()[..31]), Some(6));
    assert_eq!(refused(&policy_a()[..9]), Some(6));
}

/// A policy without variables and with one rule for two fields.
fn two_fields(first: u8, second: u8) -> Vec<u8> {
    let head = bytes("50 4F 4C 00 01 00 02 00 01");
    [head, vec![first, second], bytes("00 01 00 01 01 00")].concat()
}

#[test]
fn row_7() {
    assert_eq!(refused(&two_fields(9, 8)), Some(7));
    assert_eq!(refused(&two_fields(8, 8)), None);
    assert_eq!(refused(&two_fields(16, 4)), None);
    assert_eq!(refused(&two_fields(4, 17)), Some(7));
    assert_eq!(refused(&two_fields(17, 1)), Some(7));
    assert_eq!(refused(&two_fields(0, 8)), Some(7));
    assert_eq!(refused(&two_fields(8, 0)), Some(7));
    assert_eq!(refused(&two_fields(13, 5)), Some(7));
    assert_eq!(refused(&two_fields(12, 5)), None);
}

#[test]
fn row_8() {
    let mask = |high, low| with_byte(&with_byte(&policy_a(), 10, high), 11, low);
    assert_eq!(refused(&mask(0, 4)), Some(8));
    assert_eq!(refused(&mask(0, 0)), Some(8));
    assert_eq!(refused(&mask(1, 1)), Some(8));
    assert_eq!(refused(&mask(0, 3)), None);
    assert_eq!(refused(&with_byte(&policy_a(), 25, 4)), Some(8));
    let sixteen = bytes("50 4F 4C 00 01 00 01 00 01 10 | FF FF 01 00");
    assert_eq!(refused(&sixteen), None);
    let fifteen = bytes("50 4F 4C 00 01 00 01 00 01 0F | FF FF 01 00");
    assert_eq!(refused(&fifteen), Some(8));
}

#[test]
fn row_9() {
    let a = policy_a();
    // Change, decision, ge, lt and an event's change.
    for (place, outside) in [
        (16, 3),
        (12, 2),
        (14, 64),
        (15, 64),
        (31, 3),
        (31, 255),
        (26, 2),
    ] {
        assert_eq!(refused(&with_byte(&a, place, outside)), Some(9));
    }
    for (place, inside) in [
        (16, 2),
        (12, 0),
        (14, 63),
        (15, 63),
        (31, 0),
        (31, 1),
        (13, 255),
    ] {
        assert_eq!(refused(&with_byte(&a, place, inside)), None);
    }
}

/// A policy with one request and one rule that tests two variables.
fn two_variables(at_least: u8, below: u8) -> Vec<u8> {
    let head = bytes("50 4F 4C 00 01 00 01 02 01 01 | 00 01 01 00");
    [head, vec![at_least, 0, 1, 0, below, 1]].concat()
}

#[test]
fn row_10() {
    assert_eq!(refused(&two_variables(8, 8)), Some(10));
    assert_eq!(refused(&two_variables(7, 7)), None);
    assert_eq!(refused(&two_variables(63, 0)), None);
    assert_eq!(refused(&two_variables(63, 1)), Some(10));
    assert_eq!(refused(&two_variables(31, 1)), None);
    assert_eq!(refused(&two_variables(32, 1)), Some(10));
}

/// Single values and pairs of neighbours: 127 situations, all told apart.
fn brink() -> Vec<u8> {
    bytes(
        "50 4F 4C 00 01 00 01 01 05 02 | 00 01 01 00 00 00 01 | 00 02 01 00 00 01 00 \
         | 00 02 01 00 00 01 01 | 00 01 00 00 3E 3F 00 | 00 02 00 00 3F 00 00",
    )
}

#[test]
fn row_11() {
    assert_eq!(refused(&policy_s(7)), Some(11));
    assert_eq!(situations(&brink()).len(), 127);
    assert_eq!(book_of(&brink()).states(), 127);
    // One more rule lets 0 and 1 of the first pair become 0, 1 and 2 or more.
    let over = with_rule(&brink(), "00 02 01 00 01 02 01");
    assert_eq!(refused(&over), Some(11));
    // One more rule that leads only to situations known already.
    let same = with_rule(&brink(), "00 02 01 00 3F 00 00");
    assert_eq!(situations(&same).len(), 127);
}

#[test]
fn row_12() {
    let a = book_bytes(&policy_a());
    assert_eq!(book_refused(&bytes("42 4F 58")), Some(12));
    assert_eq!(book_refused(&with_byte(&a, 2, 0x58)), Some(12));
    assert_eq!(book_refused(&[]), Some(12));
    assert_eq!(book_refused(&a[..11]), Some(12));
    assert_eq!(book_refused(&a[..12]), Some(13));
    assert_eq!(book_refused(&with_byte(&a, 3, 1)), Some(12));
    assert_eq!(book_refused(&with_byte(&a, 4, 0)), Some(12));
    assert_eq!(book_refused(&a), None);
}

#[test]
fn row_13() {
    let a = book_bytes(&policy_a());
    assert_eq!(book_refused(&a[..a.len() - 1]), Some(13));
    assert_eq!(book_refused(&[&a[..], &[1]].concat()), Some(13));
    // E, F, a present count, absent counts, n.
    for (place, outside) in [
        (5, 9),
        (6, 0),
        (6, 5),
        (7, 0),
        (7, 17),
        (8, 1),
        (9, 1),
        (10, 16),
        (11, 0),
        (11, 128),
    ] {
        assert_eq!(
            book_refused(&with_byte(&a, place, outside)),
            Some(13),
            "{place} {outside}"
        );
    }
    // 5 times 13 requests are too many, although the length fits.
    let header = bytes("42 4F 4B 00 01 00 02 05 0D 00 00 01");
    assert_eq!(book_refused(&[header, vec![1; 130]].concat()), Some(13));
    let header = bytes("42 4F 4B 00 01 00 02 05 0C 00 00 01");
    assert_eq!(book_refused(&[header, vec![1; 120]].concat()), None);
    // 127 states are allowed, 128 are not.
    let header = bytes("42 4F 4B 00 01 00 01 01 00 00 00 7F");
    assert_eq!(book_refused(&[header, vec![0; 254]].concat()), None);
    let header = bytes("42 4F 4B 00 01 00 01 01 00 00 00 80");
    assert_eq!(book_refused(&[header, vec![0; 256]].concat()), Some(13));
}

#[test]
fn row_14() {
    let a = book_bytes(&policy_a());
    assert_eq!(book_refused(&with_byte(&a, 26, 4)), Some(14));
    assert_eq!(book_refused(&with_byte(&a, 26, 3)), None);
    assert_eq!(book_refused(&with_byte(&a, 26, 0)), None);
    for event_entry in [12, 17, 22] {
        assert_eq!(book_refused(&with_byte(&a, event_entry, 0)), Some(14));
    }
}

#[test]
fn row_15() {
    let (a, h) = (book_bytes(&policy_a()), book_bytes(&policy_h()));
    assert_eq!(compare(&a, &h), Err(Refusal::Frames));
    assert_eq!(compare(&h, &a), Err(Refusal::Frames));
    // The same number of requests, but other fields.
    let (wide, tall) = (book_bytes(&two_fields(8, 4)), book_bytes(&two_fields(4, 8)));
    assert_eq!(compare(&wide, &tall), Err(Refusal::Frames));
    assert_eq!(compare(&wide, &wide), Ok(Comparison::Same));
}

#[test]
fn row_16() {
    let a = book_bytes(&policy_a());
    let mut opened = OpenedBook::open(&a).unwrap();
    assert_eq!(opened.step(2), Err(Refusal::Walk));
    assert_eq!(opened.state, 1);
    assert_eq!(opened.step(5), Err(Refusal::Walk));
    assert_eq!(opened.step(usize::MAX), Err(Refusal::Walk));
    assert_eq!(opened.tell(2), Err(Refusal::Walk));
    assert_eq!(opened.tell(usize::MAX), Err(Refusal::Walk));
    assert_eq!(
        (opened.tell(0), opened.tell(1)),
        (Ok(Answer::Accept), Ok(Answer::Accept))
    );
    for outside in [0, 4, 128] {
        let mut opened = OpenedBook {
            bytes: &a,
            state: outside,
        };
        assert_eq!(opened.tell(0), Err(Refusal::Walk));
        assert_eq!(opened.step(0), Err(Refusal::Walk));
        assert_eq!(opened.state, outside);
    }
}

/// Rows 12 to 14 come before 16 and are taken at every call.
#[test]
fn every_call_of_an_opened_book_judges_its_bytes() {
    let a = book_bytes(&policy_a());
    for (bad, number) in [
        (with_byte(&a, 0, 0), Refusal::BookHead),
        (with_byte(&a, 11, 0), Refusal::BookSizes),
        (with_byte(&a, 26, 4), Refusal::BookEntry),
    ] {
        assert_eq!(OpenedBook::open(&bad), Err(number));
        for state in [0, 1, 4] {
            let mut opened = OpenedBook { bytes: &bad, state };
            assert_eq!(opened.tell(99), Err(number));
            assert_eq!(opened.step(99), Err(number));
            assert_eq!(opened.state, state);
        }
    }
}

/// A file that is bad in two ways gives the lower number.
#[test]
fn the_lowest_row_wins() {
    let a = policy_a();
    let number = |changes: &[(usize, u8)]| {
        let bad = changes.iter().fold(a.clone(), |so_far, &(place, byte)| {
            with_byte(&so_far, place, byte)
        });
        refused(&bad)
    };
    assert_eq!(number(&[(0, 0), (4, 0)]), Some(3));
    assert_eq!(number(&[(4, 0), (6, 5)]), Some(4));
    assert_eq!(number(&[(6, 5), (9, 0)]), Some(5));
    assert_eq!(number(&[(5, 2), (9, 0)]), Some(6));
    assert_eq!(number(&[(9, 17), (11, 0)]), Some(7));
    // The mask of the last rule against the decision of the first.
    assert_eq!(number(&[(12, 2), (25, 0)]), Some(8));
    assert_eq!(number(&[(31, 3), (25, 0)]), Some(8));
    let many = two_variables(63, 63);
    assert_eq!(refused(&with_byte(&many, many.len() - 1, 3)), Some(9));
    // Case S with a second variable: too many valuations and too many situations.
    let head = "50 4F 4C 00 01 00 01 02 03 02 | 00 03 01 00 00 01 00 00 3F 00";
    let rest = "00 01 01 00 00 01 01 00 00 00 | 00 03 01 00 01 07 01 00 00 00";
    let spread = [bytes(head), bytes(rest)].concat();
    assert_eq!(refused(&spread), Some(10));
    assert_eq!(refused(&with_byte(&spread, 18, 0)), Some(11));
}

/// Judging the first book whole, then the second, then the frames.
#[test]
fn compare_judges_the_first_book_first() {
    let (a, h) = (book_bytes(&policy_a()), book_bytes(&policy_h()));
    let by_12 = with_byte(&a, 0, 0);
    let by_13 = with_byte(&a, 11, 0);
    let by_14 = with_byte(&a, 26, 4);
    let number = |first: &[u8], second: &[u8]| compare(first, second).err().map(Refusal::number);
    assert_eq!(number(&by_14, &by_12), Some(14));
    assert_eq!(number(&by_13, &by_12), Some(13));
    assert_eq!(number(&by_12, &by_14), Some(12));
    assert_eq!(number(&a, &by_14), Some(14));
    assert_eq!(number(&h, &by_14), Some(14));
    assert_eq!(number(&by_14, &h), Some(14));
    assert_eq!(number(&a, &h), Some(15));
}

#[test]
fn book_rows_are_judged_in_order() {
    let a = book_bytes(&policy_a());
    assert_eq!(
        book_refused(&with_byte(&with_byte(&a, 0, 0), 26, 4)),
        Some(12)
    );
    assert_eq!(
        book_refused(&with_byte(&with_byte(&a, 5, 9), 26, 4)),
        Some(13)
    );
}
