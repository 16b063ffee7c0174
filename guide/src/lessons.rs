//! The ten lessons: a policy each, and what the error makes of it.

use reference::policy::{Change, Rule};

use crate::mistakes::Mistake;
use crate::rules::{rule, table, Also, Table};

/// What someone with the error has in mind instead of the policy's book.
pub enum Mistaken {
    /// The book of another policy, and in words: under the lesson's policy only,
    /// under the other only.
    Policy(Table, [&'static str; 2]),
    /// The book that a mistaken method gives for the same policy.
    Method(Mistake),
}

/// One lesson.
pub struct Lesson {
    /// The stem of its files' names, and the word for it in the guide's text.
    pub name: &'static str,
    /// The policy.
    pub table: Table,
    /// What the error makes of it.
    pub mistaken: Mistaken,
    /// A policy that does what was meant, where the policy itself is at fault.
    pub mended: Option<Table>,
    /// Histories that do not show the error.
    pub tried: Vec<Vec<u8>>,
}

impl Lesson {
    fn new(name: &'static str, table: Table, mistaken: Mistaken) -> Lesson {
        Lesson {
            name,
            table,
            mistaken,
            mended: None,
            tried: Vec::new(),
        }
    }

    /// A lesson in which the policy is right and the method has the error.
    fn by_method(name: &'static str, table: Table, mistake: Mistake) -> Lesson {
        Lesson::new(name, table, Mistaken::Method(mistake))
    }
}

/// The lessons in the order of the guide.
pub fn lessons() -> [Lesson; 10] {
    [
        each_rule_alone(),
        shut_door(),
        two_histories(),
        lower_level(),
        dropped_situation(),
        present_decisions(),
        bound(),
        both_decisions(),
        first_day(),
        no_rules(),
    ]
}

const MIDNIGHT: [&str; 1] = ["midnight"];

/// A table whose one event, midnight, sets every variable to zero.
pub(crate) fn daily(
    requests: &[&'static str],
    variables: &[&'static str],
    rules: Vec<Rule>,
) -> Table {
    table(&MIDNIGHT, requests, variables, rules, Change::SetToZero)
}

/// Case A of document 01: at most two copies a day, views always.
fn two_copies_a_day() -> Table {
    let rules = vec![
        rule(&[0], true, 1),
        rule(&[1], true, 1).below(0, 2).adding(0),
        rule(&[1], false, 1).from(0, 2),
    ];
    daily(&["view", "copy"], &["copies"], rules)
}

/// Case E: two rules on views that meet only after two copies.
fn each_rule_alone() -> Lesson {
    let first_three = two_copies_a_day();
    let mut four = first_three.clone();
    four.policy.rules.push(rule(&[0], false, 1).from(0, 2));
    let mut mended = four.clone();
    mended.policy.rules[3].level = 1;
    Lesson {
        mended: Some(mended),
        ..Lesson::new(
            "each-rule-alone",
            four,
            Mistaken::Policy(first_three, ["with rule 4 only", "without rule 4 only"]),
        )
    }
}

/// Two prints for ever, and no rule for what comes after them.
fn shut_door() -> Lesson {
    let names = ["view", "print"];
    let rules = vec![
        rule(&[0], true, 1).below(0, 2),
        rule(&[1], true, 1).below(0, 2).adding(0),
    ];
    let two_prints = table(&MIDNIGHT, &names, &["prints"], rules, Change::Keep);
    let mut unchanged = two_prints.clone();
    unchanged.policy.rules[1].changes = vec![Change::Keep];
    let mut mended = two_prints.clone();
    mended.policy.rules.push(rule(&[0], true, 1).from(0, 2));
    mended.policy.rules.push(rule(&[1], false, 1).from(0, 2));
    Lesson {
        mended: Some(mended),
        ..Lesson::new(
            "shut-door",
            two_prints,
            Mistaken::Policy(
                unchanged,
                ["with the change only", "without the change only"],
            ),
        )
    }
}

/// One thing a day, counted together, or one of each.
fn two_histories() -> Lesson {
    let names = ["view", "copy"];
    let together = vec![
        rule(&[0, 1], true, 1).below(0, 1).adding(0),
        rule(&[0, 1], false, 1).from(0, 1),
    ];
    let apart = vec![
        rule(&[0], true, 2).below(0, 1).adding(0),
        rule(&[0], false, 2).from(0, 1),
        rule(&[1], true, 2).below(1, 1).adding(1),
        rule(&[1], false, 2).from(1, 1),
    ];
    let one = daily(&names, &["used"], together);
    let other = daily(&names, &["views", "copies"], apart);
    Lesson {
        tried: vec![vec![1, 2], vec![3, 4]],
        ..Lesson::new(
            "two-histories",
            one,
            Mistaken::Policy(
                other,
                ["under the first table only", "under the second table only"],
            ),
        )
    }
}

/// Members are accepted by a rule of their own, which does not count.
fn lower_level() -> Lesson {
    let rules = vec![
        rule(&[0], true, 1).at_level(1),
        rule(&[0, 1], true, 1).below(0, 1).adding(0),
        rule(&[0, 1], false, 1).from(0, 1),
    ];
    let counted = daily(&["member", "guest"], &["visits"], rules);
    Lesson::by_method("lower-level", counted, Mistake::LowerLevelApplies)
}

/// Case H: a view may be noted or not, and a noted one has no rule after it.
fn dropped_situation() -> Lesson {
    let rules = vec![
        rule(&[0], true, 1).below(0, 1),
        rule(&[0], true, 1).below(0, 1).adding(0),
    ];
    let noted = table(&[], &["view"], &["noted"], rules, Change::Keep);
    Lesson::by_method("dropped-situation", noted, Mistake::SituationDropped)
}

/// Case A again, in which the first two states decide alike at present.
fn present_decisions() -> Lesson {
    Lesson::by_method(
        "present-decisions",
        two_copies_a_day(),
        Mistake::JoinedByPresentDecisions,
    )
}

/// Refused copies are counted too, and tested further on.
fn bound() -> Lesson {
    let rules = vec![
        rule(&[1], true, 1).below(0, 1).adding(0),
        rule(&[1], false, 1).from(0, 1).adding(0),
        rule(&[0], true, 1).below(0, 3),
        rule(&[0], false, 1).from(0, 3),
    ];
    let asked = daily(&["view", "copy"], &["asked"], rules);
    Lesson::by_method("bound", asked, Mistake::BoundFromValuesReached)
}

/// One copy a day, which may also be refused at any time.
fn both_decisions() -> Lesson {
    let rules = vec![
        rule(&[0], true, 1).below(0, 1).adding(0),
        rule(&[0], false, 1),
    ];
    let refusable = daily(&["copy"], &["copies"], rules);
    Lesson::by_method("both-decisions", refusable, Mistake::OneSetForBothDecisions)
}

/// Case A again, whose counter is to be used up until the first midnight.
fn first_day() -> Lesson {
    let zero = two_copies_a_day();
    let begun = zero.clone().beginning_at(&[2]);
    Lesson::new(
        "first-day",
        begun,
        Mistaken::Policy(
            zero,
            [
                "with the starting value only",
                "without the starting value only",
            ],
        ),
    )
}

/// A gift without rules, beside one of which everything is rejected.
fn no_rules() -> Lesson {
    let names = ["view", "list", "copy"];
    let rejecting = vec![rule(&[0, 1, 2], false, 0)];
    Lesson::new(
        "no-rules",
        daily(&names, &[], Vec::new()),
        Mistaken::Policy(
            daily(&names, &[], rejecting),
            ["without rules only", "with the rule only"],
        ),
    )
}

/// A gift without rules for which counters are prepared, with starting values and
/// with what midnight does to them.
pub fn no_rules_started() -> Table {
    let mut table = no_rules().table;
    table.variables = vec!["copies", "warnings"];
    table.policy.variables = 2;
    table.policy.events = vec![vec![Change::SetToZero, Change::AddOne]];
    table.beginning_at(&[5, 63])
}
