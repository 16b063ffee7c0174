//! The file room's examples show what a page can show, and the guide's text says
//! of each line what the page says.

use guide::pages::{examples, Example};
use reference::page::page;

fn lines(example: &Example) -> Vec<String> {
    page(&example.book).lines().map(str::to_string).collect()
}

#[test]
fn the_policys_page_has_every_letter() {
    let [built, _] = examples();
    let shown: Vec<String> = lines(&built)
        .iter()
        .map(|line| line.trim_end().to_string())
        .collect();
    assert_eq!(shown, ["  1   0 AAA", "  2   1 AA.", "  3   2 BRR"]);
}

#[test]
fn the_foreign_book_has_one_line_more() {
    let [built, foreign] = examples();
    let (built, foreign) = (lines(&built), lines(&foreign));
    assert_eq!(foreign[..3], built);
    assert_eq!(foreign[3].trim_end(), "  4 --- ARA");
    let bytes = examples()[1].book.to_bytes();
    assert!(reference::book::read(&bytes).is_ok());
}

#[test]
fn the_lengths_are_those_of_the_histories_told() {
    for example in examples() {
        for (index, line) in lines(&example).iter().enumerate() {
            let told = example.earliest_history(index + 1);
            let shown = told.map_or("---".to_string(), |history| history.len().to_string());
            assert_eq!(line[4..7].trim_start(), shown);
        }
    }
}

#[test]
fn a_walk_ends_in_the_line_that_holds() {
    let [built, _] = examples();
    let told = built.walked_in_words(&[3, 3]);
    assert!(told.starts_with("After *copy accepted, copy accepted* the arrows have led from state 1 to 2, to 3. Now line 3 holds: *view* may be both"));
    assert!(told.contains("The number 2 in that line does not count the 2 steps"));
}
