//! `compare`: whether the same histories are possible under two policies or in
//! two books, and else the earliest one that is possible in just one.

use super::{answer, given, history_json, one_standard_input, Answer, Command};
use crate::arguments::{wrong, Arguments};
use crate::book::Book;
use crate::input::{read, Failure, Subject};
use crate::json::Json;
use crate::library;
use crate::names::Names;
use crate::reorder::{difference, in_order_of, same_order};

pub fn compare(arguments: &Arguments) -> Result<Answer, Failure> {
    one_standard_input(arguments, Command::Compare)?;
    let [first, second] = &arguments.words[..] else {
        return Err(wrong("two files are expected", Some(Command::Compare)));
    };
    let given = given(arguments)?;
    let mut first = read(first)?.subject(given.as_ref())?;
    let mut second = read(second)?.subject(given.as_ref())?;
    if !arguments.by_order {
        match_names(&mut first, &mut second)?;
    }
    let found =
        library::compare(first.book.bytes(), second.book.bytes()).map_err(|number| refused(number, &first, &second))?;
    let compared = Compared { first: &first, second: &second, found };
    Ok(answer(arguments, u8::from(compared.found.is_some()), compared.words(), compared.json()))
}

/// Two books, and the earliest history possible in just one of them.
struct Compared<'a> {
    first: &'a Subject,
    second: &'a Subject,
    found: Option<Vec<u8>>,
}

impl Compared<'_> {
    /// The names in which the history is said, and whose they are.
    fn names(&self) -> (&Names, &str) {
        let subject = if self.first.named { self.first } else { self.second };
        (&subject.names, &subject.document.name)
    }

    /// The file in which the history is possible, then the other.
    fn possible_in(&self) -> Option<[&str; 2]> {
        let [first, second] = [self.first, self.second].map(|subject| subject.document.name.as_str());
        let history = self.found.as_ref()?;
        Some(if allows(&self.first.book, history) { [first, second] } else { [second, first] })
    }

    fn words(&self) -> String {
        let (names, _) = self.names();
        let mut lines = match (&self.found, self.possible_in()) {
            (Some(history), Some([possible, not_possible])) => vec![
                "different: the earliest history possible under just one of them is".to_string(),
                format!("  {}", names.history(history)),
                format!("  possible: {possible}"),
                format!("  not possible: {not_possible}"),
            ],
            _ => vec!["same: every history is possible under both or under neither".to_string()],
        };
        lines.extend(self.order_words());
        lines.join("\n") + "\n"
    }

    /// Where the two were compared by the order of their events and values, and that
    /// may be another order than that of the names.
    fn order_words(&self) -> Option<String> {
        let (_, file) = self.names();
        let by_order = "compared by the order of events and values";
        match (self.first.named, self.second.named) {
            (false, false) => None,
            (true, true) if same_order(&self.first.names, &self.second.names) => None,
            (true, true) => {
                let other = &self.second.names;
                let there =
                    self.found.as_ref().map_or(String::new(), |history| format!(": {}", other.history(history)));
                Some(format!(
                    "  {by_order}; the names are those of {file}, and otherwise in {}{there}",
                    self.second.document.name
                ))
            }
            _ => {
                let unnamed = if self.first.named { self.second } else { self.first };
                Some(format!("  {by_order}, since {} has no names; these are of {file}", unnamed.document.name))
            }
        }
    }

    fn json(&self) -> Json {
        let (names, _) = self.names();
        let files = [self.first, self.second].map(|subject| subject.document.name.as_str());
        Json::Object(vec![
            ("files", files.into_iter().collect()),
            ("same", self.found.is_none().into()),
            ("history", self.found.as_ref().map_or(Json::Null, |history| history_json(names, history))),
            ("possible_in", self.possible_in().map(|[possible, _]| possible).into()),
            ("by_order", self.order_words().is_some().into()),
        ])
    }
}

/// Whether a history is possible in a book.
fn allows(book: &Book, history: &[u8]) -> bool {
    history.iter().try_fold(1, |state, &code| book.next(state, usize::from(code))).is_some()
}

/// Where both have names, they are compared by them: the book of one that has rules
/// is built anew with its events and values in the order of the other. Where one has
/// names that the other has not, there is no such order.
fn match_names(first: &mut Subject, second: &mut Subject) -> Result<(), Failure> {
    let (one, other) = (first.book.frame(), second.book.frame());
    let as_many = one.requests() == other.requests() && one.events == other.events;
    if !first.named || !second.named || !as_many || same_order(&first.names, &second.names) {
        return Ok(());
    }
    let (moved, kept) = match second.policy {
        Some(_) => (second, first),
        None => (first, second),
    };
    let Some(policy) = &moved.policy else {
        return Ok(());
    };
    let Some(policy) = in_order_of(policy, &moved.names, &kept.names) else {
        let [one, other] = [&*kept, &*moved].map(|subject| (subject.document.name.as_str(), &subject.names));
        return Err(Failure::of_use(format!(
            "{}, {}: the two do not name the same things\n    {}\n    by their order, whatever the names are: policybook compare --by-order ..",
            one.0,
            other.0,
            difference(one, other)
        )));
    };
    let bytes = library::build(&policy.encode()).map_err(|number| moved.refused_again(number))?;
    moved.book = Book::new(bytes);
    moved.names = kept.names.clone();
    Ok(())
}

/// The frames differ: how, and by which names.
fn refused(number: u8, first: &Subject, second: &Subject) -> Failure {
    let frame = |subject: &Subject| format!("{} has {}", subject.document.name, subject.book.frame().words());
    let files = [first.document.name.as_str(), second.document.name.as_str()];
    let mut place = format!("{}; {}", frame(first), frame(second));
    if first.named && second.named {
        place = format!("{place}\n    {}", difference((files[0], &first.names), (files[1], &second.names)));
    }
    Failure::refused(&files, number, place)
}
