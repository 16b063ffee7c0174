//! The text that the program `shelf` writes for a policy.

use crate::book;
use crate::findings::{findings, Findings, RequestFinding};
use crate::refusal::Refusal;
use crate::History;

/// The greatest number of bytes that `shelf` judges.
pub const MOST_BYTES: usize = 1_024;

/// The output for a policy: the number of states and the three findings, or
/// the number that turns the policy down.
pub fn shelf(policy: &[u8]) -> String {
    match book::build(&policy[..policy.len().min(MOST_BYTES)]) {
        Ok(book) => format!(
            "states {}\n{}",
            book.states(),
            finding_lines(&findings(&book))
        ),
        Err(refusal) => refusal_line(refusal),
    }
}

/// The three lines of the findings.
pub fn finding_lines(findings: &Findings) -> String {
    format!(
        "conflict{}\nmissing{}\nblocked{}\n",
        request_part(&findings.conflict),
        request_part(&findings.missing),
        history_or_none(&findings.blocked),
    )
}

/// The line for an input that is turned down.
pub fn refusal_line(refusal: Refusal) -> String {
    format!("refused {}\n", refusal.number())
}

/// A blank before each part: the length of the history, then its codes.
pub fn history_part(history: &[u8]) -> String {
    let codes: String = history.iter().map(|code| format!(" {code}")).collect();
    format!(" {}{}", history.len(), codes)
}

/// The part for a history that may be absent.
pub fn history_or_none(history: &Option<History>) -> String {
    match history {
        Some(history) => history_part(history),
        None => " -".to_string(),
    }
}

fn request_part(finding: &Option<RequestFinding>) -> String {
    match finding {
        Some(found) => format!(" {}{}", found.request, history_part(&found.history)),
        None => " -".to_string(),
    }
}
