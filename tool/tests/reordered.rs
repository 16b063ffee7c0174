//! Two texts are compared by their names: in whatever order one of them declares
//! its events, fields and values, the answer is the reference's on the other order.

mod common;

use common::json::{read, Value};
use common::named::draw_names;
use common::run::{run, Folder};
use common::{Met, Random};
use policybook::names::Names;
use policybook::notation::print;
use policybook::policy::Policy;
use policybook::reorder::same_order;
use reference::book::{build, Book};
use reference::compare::{compare_books, Comparison};
use reference::generate;

/// How many pairs are compared.
const PAIRS: u64 = 200;

/// The numbers below `count` in another order.
fn order(count: usize, random: &mut Random) -> Vec<usize> {
    let mut order: Vec<usize> = (0..count).collect();
    random.shuffle(&mut order);
    order
}

/// The same policy and names, declared in another order.
fn reordered(policy: &Policy, names: &Names, random: &mut Random) -> (Policy, Names) {
    let (mut policy, mut names) = (policy.clone(), names.clone());
    let events = order(names.events.len(), random);
    policy.events = events.iter().map(|&event| policy.events[event].clone()).collect();
    names.events = events.iter().map(|&event| names.events[event].clone()).collect();
    for (place, field) in names.fields.iter_mut().enumerate() {
        let values = order(field.values.len(), random);
        field.values = values.iter().map(|&value| field.values[value].clone()).collect();
        for rule in &mut policy.rules {
            let bits = (0..).zip(&values).map(|(bit, value)| (rule.masks[place] >> value & 1) << bit);
            rule.masks[place] = bits.sum();
        }
    }
    let fields = order(names.fields.len(), random);
    names.fields = fields.iter().map(|&field| names.fields[field].clone()).collect();
    for rule in &mut policy.rules {
        rule.masks = fields.iter().map(|&field| rule.masks[field]).collect();
    }
    policy.frame = names.frame();
    (policy, names)
}

/// Compares the texts both ways round.
fn check(files: [&str; 2], books: [&Book; 2], input: &str) -> bool {
    let ran = run(&["compare", "--json", files[0], files[1]], &[]);
    let back = run(&["compare", "--json", files[1], files[0]], &[]);
    assert!(ran.status < 2, "{input}: {}", ran.errors);
    assert_eq!(ran.status, back.status, "{input}");
    let (found, back) = (read(ran.text()), read(back.text()));
    let Comparison::Differ(history) = compare_books(books[0], books[1]) else {
        assert_eq!((ran.status, found.get("same")), (0, &Value::Bool(true)), "{input}");
        return true;
    };
    let expected: Vec<usize> = history.iter().map(|&code| code.into()).collect();
    assert_eq!(found.get("history").each("code"), expected, "{input}");
    let place = usize::from(!books[0].allows(&history));
    assert_eq!(found.get("possible_in").text(), files[place], "{input}");
    assert_eq!(back.get("history").list().len(), history.len(), "{input}");
    false
}

/// A policy file or book to which `--names` gives names is compared by them, from
/// either side; without names, by its order, and that is said.
fn check_without_names(one: &str, bytes: &str, names: &str, same: bool) {
    let book = format!("{bytes}-book");
    assert_eq!(run(&["build", bytes, "-o", &book], &[]).status, 0);
    for file in [bytes, &book] {
        for files in [[one, file], [file, one]] {
            let ran = run(&["compare", "--json", "--names", names, files[0], files[1]], &[]);
            assert_eq!(ran.status, i32::from(!same), "{file}");
            assert_eq!(*read(ran.text()).get("by_order"), Value::Bool(false), "{file}");
        }
        let ran = run(&["compare", one, file], &[]);
        assert!(ran.status == 2 || ran.text().contains("compared by the order"), "{file}");
    }
}

/// The inventory tells books by their bytes, and beside it which texts say the same
/// in another order of names.
fn check_inventory(one: &str, other: &str, same: bool, same_order: bool, equal: bool) {
    let found = read(run(&["inventory", "--json", one, other], &[]).text());
    let in_one_group = found.get("groups").list().len() == 1;
    if same_order {
        assert_eq!(in_one_group, equal, "{one}");
    }
    let told: Vec<usize> = found.get("same_by_names").list().iter().map(|files| files.list().len()).collect();
    assert_eq!(told, if same && !in_one_group { vec![2] } else { Vec::new() }, "{one}");
}

#[test]
fn the_order_of_declarations_does_not_matter() {
    let folder = Folder::new("reordered");
    let mut met = Met::default();
    for number in 0..PAIRS {
        let mut random = Random::new(number, "order");
        let (one, other) = match number % 2 {
            0 => generate::policy_pair(number),
            _ => generate::starting_pair(number),
        };
        let (Ok(first), Ok(second)) = (build(&one), build(&other)) else {
            continue;
        };
        let policies = [one, other].map(|bytes| Policy::decode(&bytes).expect("a policy with a book"));
        let [one, other] = policies;
        let names = draw_names(&one.frame, one.starts.len(), &mut random);
        let names_of_other = Names { variables: names.variables.clone(), ..names.clone() };
        let (other, other_names) = reordered(&other, &names_of_other, &mut random);
        met.note("another order", other_names.fields != names.fields);
        let one = folder.file(&format!("{number}-one"), print(&one, &names, &[]));
        let bytes = folder.file(&format!("{number}-bytes"), other.encode());
        let other = folder.file(&format!("{number}-other"), print(&other, &other_names, &[]));
        let same = check([&one, &other], [&first, &second], &format!("pair {number}"));
        check_without_names(&one, &bytes, &other, same);
        check_inventory(&one, &other, same, same_order(&names, &other_names), first == second);
        met.note("same", same);
        met.note("different", !same);
    }
    met.each_at_least(30);
}
