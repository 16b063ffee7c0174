//! What `--help` says.

use crate::commands::Command;

/// The help on the tool.
pub fn tool() -> String {
    let mut text = String::from(
        "policybook: access rules as text, their books, and what the books say

A policy has rules: who may do what, depending on what has happened. Its book is the
smallest table that says after every history what is possible next.

",
    );
    for command in Command::ALL {
        text.push_str(&format!("  policybook {:<26} {}\n", short_usage(command), summary(command)));
    }
    text.push_str(
        "  policybook help COMMAND               more about a command

A FILE is a text of rules, a policy file or a book; what it is, its contents say.
`-` is standard input.

Options
  --names FILE         the text whose names are used for a policy file or book
  -o, --output FILE    write to a file, which appears whole or not at all
  --json               answer for machines
  -h, --help           this help, or that of a command
  -V, --version        the version

Exit status: 0 nothing found, or same; 1 findings, a difference, or no such history;
2 refused, or wrong use.

First steps: write the rules down (docs/NOTATION.md), then
  policybook check rules.txt
  policybook draw rules.txt -o rules.svg
",
    );
    text
}

/// The help on a command.
pub fn command(command: Command) -> String {
    format!("usage: policybook {}\n\n{}\n", command.usage(), details(command))
}

fn short_usage(command: Command) -> &'static str {
    match command {
        Command::Check => "check FILE..",
        Command::Build => "build [-o BOOK] FILE",
        Command::Compile => "compile [-o POLICY] FILE",
        Command::Print => "print FILE",
        Command::Compare => "compare FILE FILE",
        Command::After => "after FILE [STEP..]",
        Command::Way => "way FILE REQUEST OUTCOME",
        Command::Page => "page FILE",
        Command::Draw => "draw [-o SVG] FILE",
        Command::Inventory => "inventory FILE..",
    }
}

fn summary(command: Command) -> &'static str {
    match command {
        Command::Check => "what is to be seen to, and which rules can be left out",
        Command::Build => "write the book",
        Command::Compile => "write the policy file of a text",
        Command::Print => "write the text of a policy file",
        Command::Compare => "whether two say the same, else the earliest difference",
        Command::After => "what is possible after some steps",
        Command::Way => "the earliest history to an outcome",
        Command::Page => "the book as a page, a line a state",
        Command::Draw => "the book as a picture",
        Command::Inventory => "which books are equal",
    }
}

fn details(command: Command) -> &'static str {
    match command {
        Command::Check => {
            "Says for each file what is to be seen to:
  conflict   after some history a request may be both accepted and rejected
  missing    after some history a request is neither accepted nor rejected
  blocked    after some history no request is answered any more, whatever events follow
each with the earliest history that proves it, and with the other requests of which it
is true after some history; a conflict with its rules. It also says which rules never
apply or can be left out without changing the book, and notes what may have been
forgotten: events that change nothing, variables that are not tested, never counted
or never set to 0.

Exit status: 0 no findings; 1 findings; 2 a file is refused. Rules that can be left out
and notes are no findings.

  policybook check rules.txt
  policybook check --names rules.txt old.book"
        }
        Command::Build => {
            "Writes the book of a text or policy file. A book is written as it is, once it has
been judged. Without -o the bytes go to standard output, unless that is a terminal.

  policybook build rules.txt -o rules.book"
        }
        Command::Compile => {
            "Writes the policy file of a text. A policy of which no book can be built is written
too, and a note says so.

  policybook compile rules.txt -o rules.policy"
        }
        Command::Print => {
            "Writes the text of a policy file, with the names of --names or made-up ones: events
e0, e1, ..; fields a, b, .. with the values a0, a1, ..; variables v0, v1, .. A text is
written in its standard layout, with its comments.

  policybook print old.policy -o old.txt
  policybook print --names rules.txt old.policy"
        }
        Command::Compare => {
            "Says whether every history is possible under both or under neither; otherwise the
earliest history that is possible under just one, and under which. Two texts are
compared by their names, in whatever order they declare them; where one has a name that
the other has not, by their order only if --by-order asks for it. Policy files and books
have no names, and are compared by their order.

Exit status: 0 same; 1 different; 2 refused, also where events and values are not
equally many.

  policybook compare rules.txt draft.txt"
        }
        Command::After => {
            "Says what is possible after some steps, or at the start where none are given: what the
variables have come to, where each request leads, and by which rules. A STEP is an
event's name, or a request's values and `accepted` or `rejected`, or `code` and its
number; `twice` or `3 times` may follow it, and commas may be there. `state 5` is the
state with that number on the page or in the picture, after its earliest history.

Exit status: 0; 2 where a step is not possible.

  policybook after rules.txt reader copy accepted twice, midnight
  policybook after rules.txt state 5"
        }
        Command::Way => {
            "Shows the earliest history after which a request has an outcome. A REQUEST is its
values or its number; an OUTCOME is one of
  none     it is neither accepted nor rejected
  accept   it may only be accepted
  reject   it may only be rejected
  both     it may be both accepted and rejected

Exit status: 0 there is such a history; 1 there is none; 2 refused.

  policybook way rules.txt reader copy reject"
        }
        Command::Page => {
            "Prints the page of the book: a line a state, with its number, the length of its
earliest history, and a letter for each request: A accepted only, R rejected only,
B both, . neither. With --key it says which column is which request.

  policybook page --key rules.txt"
        }
        Command::Draw => {
            "Draws the book as SVG. Requests that stay in a state stand in its box; steps that lead
from one state to another share an arrow.
  --no-events       leave the events out
  --finding WHICH   only the path to a finding: conflict, missing or blocked
  --after STEPS     only the path of these steps, as `after` takes them, in quotes
  --whole           draw a book of over 30 states all the same
A book of over 30 states is drawn along a path, unless --whole asks for all of it; its
page is easier to read.

  policybook draw rules.txt -o rules.svg
  policybook draw --after 'reader copy accepted, midnight' rules.txt -o path.svg"
        }
        Command::Inventory => {
            "Says which books are byte for byte equal; those of texts and policy files are built.
Two books that were built are equal exactly when they have equally many events and
values and the same histories are possible in both. A file that is refused is told on
standard error and left out.

Exit status: 0; 2 where a file is left out.

  policybook inventory shelf/*.policy"
        }
    }
}
