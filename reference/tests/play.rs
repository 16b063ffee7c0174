//! The text of the program `play`.

mod common;

use common::*;
use reference::generate;
use reference::play::{input, play};

/// The bytes of the book of a policy.
fn book_of(policy: &[u8]) -> Vec<u8> {
    reference::book::build(policy).expect("a book").to_bytes()
}

#[test]
fn a_line_after_the_opening_and_after_each_step() {
    let book = book_of(&policy_e());
    let text = play(&input(&book, &[3, 3, 3, 2, 0, 255]));
    let lines = [
        "1 accept accept",
        "2 accept accept",
        "3 both reject",
        "refused 16",
        "3 both reject",
        "1 accept accept",
        "refused 16",
    ];
    assert_eq!(text, lines.map(|line| format!("{line}\n")).concat());
}

#[test]
fn a_book_that_is_not_opened_takes_no_step() {
    assert_eq!(play(&[]), "refused 12\n");
    assert_eq!(play(&input(&[], &[0, 0])), "refused 12\n");
    let book = book_of(&policy_a());
    assert_eq!(play(&input(&book[..26], &[])), "refused 13\n");
    assert_eq!(play(&input(&with_byte(&book, 26, 4), &[1])), "refused 14\n");
}

#[test]
fn an_input_without_its_end() {
    let book = book_of(&policy_a());
    let whole = input(&book, &[3]);
    assert_eq!(play(&whole), "1 accept accept\n2 accept accept\n");
    assert_eq!(play(&whole[..29]), "1 accept accept\n");
    assert_eq!(play(&whole[..28]), "refused 13\n");
    assert_eq!(play(&whole[..1]), "refused 12\n");
}

#[test]
fn at_most_255_steps() {
    let book = book_of(&policy_a());
    let lines = |steps: usize| play(&input(&book, &vec![0; steps])).lines().count();
    assert_eq!(lines(254), 255);
    assert_eq!(lines(255), 256);
    assert_eq!(lines(256), 256);
}

#[test]
fn generated_inputs_play_on() {
    let texts: Vec<String> = (0..50).map(|seed| play(&generate::play(seed))).collect();
    let has = |part: &str| texts.iter().any(|text| text.contains(part));
    for part in [
        "refused 12",
        "refused 13",
        "refused 14",
        "refused 16",
        " none",
        " accept",
        " reject",
        " both",
    ] {
        assert!(has(part), "{part}");
    }
    assert!(texts.iter().any(|text| text.lines().count() == 256));
}
