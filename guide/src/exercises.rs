//! The exercises of trainers: which is the earliest history after which a request
//! has an outcome? Each with its answer, and with histories that are not the answer.

use reference::book::Book;
use reference::page::page;
use reference::policy::{Change, Rule};
use reference::shelf::{history_or_none, shelf};
use reference::way::{outcome_in, way};
use reference::words::Names;
use reference::History;

use crate::files::{book_of, policy_files, File, FOLDER};
use crate::lessons::lessons;
use crate::rules::{rule, table, Also, Table};
use crate::text::{in_words, picture, rules};

/// One exercise.
pub struct Exercise {
    /// The word for it in the guide's text.
    pub name: &'static str,
    /// The stem of the policy's files.
    pub policy: &'static str,
    /// Where the policy stands, in words; nothing where it is the exercises' own.
    place: &'static str,
    /// The policy.
    pub table: Table,
    /// The request that is asked about.
    pub request: usize,
    /// The outcome that it is to have.
    pub outcome: usize,
    /// Histories that come to mind and are not the answer.
    pub tried: Vec<History>,
}

/// What is said of a request with each outcome, by the outcomes' numbers.
const OUTCOMES: [&str; 4] = [
    "is neither accepted nor rejected",
    "may only be accepted",
    "may only be rejected",
    "may be both accepted and rejected",
];

const NONE: usize = 0;
const REJECT: usize = 2;
const BOTH: usize = 3;

/// The stem of the files of the policy that only exercises use.
const NIGHT_LOAN: &str = "night-loan";

/// The exercises in the order of the guide.
pub fn exercises() -> Vec<Exercise> {
    let of_night_loan = |name, request, outcome, tried| Exercise {
        name,
        policy: NIGHT_LOAN,
        place: "",
        table: night_loan(),
        request,
        outcome,
        tried,
    };
    vec![
        one_thing_a_day(),
        of_night_loan(
            "view-none",
            0,
            NONE,
            vec![vec![6, 0], vec![4, 6], vec![4, 4, 6, 0]],
        ),
        of_night_loan("copy-both", 1, BOTH, vec![vec![4, 6, 0]]),
        of_night_loan("copy-reject", 1, REJECT, vec![vec![4, 6]]),
        of_night_loan("lend-reject", 2, REJECT, vec![vec![4, 6]]),
    ]
}

/// The first table of the third lesson, in which two histories of one step lead
/// to the outcome.
fn one_thing_a_day() -> Exercise {
    let lesson = lessons().into_iter().find(|l| l.name == "two-histories");
    let lesson = lesson.expect("the third lesson");
    Exercise {
        name: "used-up",
        policy: lesson.name,
        place: ", under the first table of [the third error](#3-trying-two-histories-and-calling-two-tables-equal)",
        table: lesson.table,
        request: 1,
        outcome: REJECT,
        tried: vec![vec![3]],
    }
}

/// A drawing is lent out only where a copy stays in the room, and the copy is
/// destroyed at midnight. Two rules on copies meet while the drawing is out.
fn night_loan() -> Table {
    let (copied, out) = (0, 1);
    let plain = |request: usize, accepts: bool| -> Rule { rule(&[request], accepts, 2) };
    let rules = vec![
        plain(0, true).below(out, 1),
        plain(0, true).from(copied, 1),
        plain(1, true).adding(copied),
        plain(1, false).from(out, 1),
        plain(2, true).from(copied, 1).below(out, 1).adding(out),
        plain(2, false).below(copied, 1),
        plain(2, false).from(out, 1),
    ];
    let names = ["view", "copy", "lend"];
    let events = ["midnight", "return"];
    let mut made = table(&events, &names, &["copied", "out"], rules, Change::Keep);
    made.policy.events[0][copied] = Change::SetToZero;
    made.policy.events[1][out] = Change::SetToZero;
    made
}

/// The files of the policy that only exercises use.
pub fn exercise_files() -> Vec<File> {
    policy_files(NIGHT_LOAN, &night_loan())
}

/// Commands of `reference` and `host/answers` about the exercises, each with what
/// it prints.
pub fn exercise_answers(exercises: &[Exercise]) -> String {
    let mut text = String::new();
    for (file, bytes) in exercise_files() {
        if file.ends_with(".policy") {
            text.push_str(&format!("$ shelf {FOLDER}/{file}\n{}", shelf(&bytes)));
        }
    }
    for exercise in exercises {
        text.push_str(&format!(
            "$ way {FOLDER}/{}.policy {} {}\nway{}\n",
            exercise.policy,
            exercise.request,
            exercise.outcome,
            history_or_none(&exercise.answer())
        ));
    }
    text
}

/// What stands for an exercise in the guide's text.
pub fn of_exercise(place: &str, exercises: &[Exercise]) -> Option<String> {
    let (what, name) = place.split_once(' ')?;
    if name == NIGHT_LOAN {
        let table = night_loan();
        return Some(match what {
            "rules" => rules(name, &table),
            "codes" => codes(&table),
            "picture" => picture(name),
            "page" => page(&book_of(&table)),
            _ => return None,
        });
    }
    let index = exercises
        .iter()
        .position(|exercise| exercise.name == name)?;
    let (number, exercise) = (index + 1, &exercises[index]);
    Some(match what {
        "asked" => format!("{number}. {}", exercise.question()),
        "answer" => format!("*{number}.* {}", exercise.answer_in_words()),
        "tried" => exercise.tried_in_words(),
        _ => return None,
    })
}

impl Exercise {
    /// The earliest history after which the request has the outcome, nothing if
    /// there is none.
    pub fn answer(&self) -> Option<History> {
        way(&self.book(), self.request, self.outcome).expect("a request and an outcome")
    }

    fn book(&self) -> Book {
        book_of(&self.table)
    }

    fn question(&self) -> String {
        let holds = self.holds(self.outcome);
        let (place, request, outcome) = (self.place, self.request, self.outcome);
        format!("Find the earliest history after which {holds}{place} (request {request}, outcome {outcome}).\n")
    }

    fn answer_in_words(&self) -> String {
        let holds = self.holds(self.outcome);
        match self.answer() {
            None => format!("There is no history after which {holds}."),
            Some(history) if history.is_empty() => {
                format!("After the empty history: already at the start {holds}.")
            }
            Some(history) => {
                let steps = in_words(&self.table.names(), &history);
                format!("After {steps} {holds}, and after no earlier history.")
            }
        }
    }

    /// That the request has an outcome.
    fn holds(&self, outcome: usize) -> String {
        let names = self.table.names();
        format!("*{}* {}", names.request(self.request), OUTCOMES[outcome])
    }

    /// What is wrong with each history that was tried.
    pub fn tried_in_words(&self) -> String {
        let names = self.table.names();
        let mut text = String::new();
        for history in &self.tried {
            let steps = in_words(&names, history);
            text.push_str(&format!("- {steps}: {}.\n", self.judged(&names, history)));
        }
        text
    }

    fn judged(&self, names: &Names, history: &[u8]) -> String {
        let book = self.book();
        let mut state = 1;
        for (index, &code) in history.iter().enumerate() {
            state = book.entry(state, code as usize);
            if state == 0 {
                let step = names.step(code as usize);
                return format!("not possible, since step {} cannot be *{step}*", index + 1);
            }
        }
        let outcome = outcome_in(&book, state, self.request);
        if outcome != self.outcome {
            return format!("possible, but then {}", self.holds(outcome));
        }
        let earliest = self.answer().expect("a history that has the outcome");
        later_in_words(history, &earliest)
    }
}

/// What each code stands for.
fn codes(table: &Table) -> String {
    let names = table.names();
    let parts: Vec<String> = (0..table.policy.frame.width())
        .map(|code| format!("{code} *{}*", names.step(code)))
        .collect();
    format!("The codes: {}.", parts.join(", "))
}

/// Why a history is not the earliest one.
fn later_in_words(history: &[u8], earliest: &[u8]) -> String {
    match history.len() - earliest.len() {
        0 => {
            let difference = history
                .iter()
                .zip(earliest)
                .find(|(one, other)| one != other);
            let (code, smaller) = difference.expect("another history");
            assert!(smaller < code);
            format!("it leads there too and is as short, but comes later: at the first difference its code is {code}, not {smaller}")
        }
        1 => "it leads there too, but has a step more than is needed".to_string(),
        more => format!("it leads there too, but has {more} steps more than are needed"),
    }
}
