//! The exercises have every sort of answer, and what is said of the histories that
//! were tried is so.

use guide::exercises::{exercises, of_exercise, Exercise};
use guide::files::book_of;
use reference::page::page;
use reference::way::outcome_in;

fn of_name(name: &str) -> Exercise {
    let found = exercises()
        .into_iter()
        .find(|exercise| exercise.name == name);
    found.expect("an exercise")
}

#[test]
fn the_answers() {
    let found: Vec<_> = exercises().iter().map(Exercise::answer).collect();
    let expected = [
        Some(vec![1]),
        Some(vec![4, 6, 0]),
        Some(vec![4, 6]),
        None,
        Some(vec![]),
    ];
    assert_eq!(found, expected);
}

/// By trying all histories that are not longer, in their order.
#[test]
fn no_earlier_history_has_the_outcome() {
    for exercise in exercises() {
        let book = book_of(&exercise.table);
        let most = exercise.answer().map_or(5, |history| history.len());
        let mut histories = vec![(Vec::new(), 1)];
        for length in 0..=most {
            let first = histories
                .iter()
                .find(|(_, state)| outcome_in(&book, *state, exercise.request) == exercise.outcome);
            if let Some((history, _)) = first {
                assert_eq!(Some(history), exercise.answer().as_ref());
                assert_eq!(length, most);
            }
            histories = histories
                .iter()
                .flat_map(|(history, state)| {
                    let steps =
                        (0..book.frame.width()).map(|code| (code, book.entry(*state, code)));
                    let possible = steps.filter(|(_, target)| *target != 0);
                    possible.map(|(code, target)| ([&history[..], &[code as u8]].concat(), target))
                })
                .collect();
        }
    }
}

#[test]
fn what_was_tried() {
    let told = of_name("view-none").tried_in_words();
    let expected = "\
- *lend accepted, midnight* (`6 0`): not possible, since step 1 cannot be *lend accepted*.
- *copy accepted, lend accepted* (`4 6`): possible, but then *view* may only be accepted.
- *copy accepted, copy accepted, lend accepted, midnight* (`4 4 6 0`): it leads there too, but has a step more than is needed.
";
    assert_eq!(told, expected);
    let told = of_name("used-up").tried_in_words();
    assert!(
        told.contains("as short, but comes later: at the first difference its code is 3, not 1")
    );
}

/// The questions are numbered in the order of the guide, and name what to ask for.
#[test]
fn the_questions() {
    let exercises = exercises();
    let asked = of_exercise("asked view-none", &exercises).expect("a question");
    assert_eq!(asked, "2. Find the earliest history after which *view* is neither accepted nor rejected (request 0, outcome 0).\n");
}

#[test]
fn the_page_of_the_drawing() {
    let table = of_name("view-none").table;
    let shown: Vec<String> = page(&book_of(&table))
        .lines()
        .map(|line| line[8..].trim_end().to_string())
        .collect();
    assert_eq!(shown, ["AAR", "AAA", "ABR", ".BR"]);
}
