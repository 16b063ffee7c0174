//! The table of cases of the contract, and further cases that its text decides.

mod common;

use common::*;
use reference::compare::{compare, equal_bytes, Comparison};
use reference::findings::{findings, Findings, RequestFinding};
use reference::refusal::Refusal;
use reference::shelf::shelf;
use reference::walk::{Answer, OpenedBook};

fn findings_of(policy: &[u8]) -> Findings {
    findings(&book_of(policy))
}

fn after(request: usize, history: &[u8]) -> Option<RequestFinding> {
    Some(RequestFinding {
        request,
        history: history.to_vec(),
    })
}

const NO_FINDINGS: Findings = Findings {
    conflict: None,
    missing: None,
    blocked: None,
};

#[test]
fn case_a() {
    let expected = "42 4F 4B 00 01 01 01 02 00 00 00 03 \
                    | 01 01 00 02 00 | 01 02 00 03 00 | 01 03 00 00 03";
    assert_eq!(book_bytes(&policy_a()), bytes(expected));
    assert_eq!(findings_of(&policy_a()), NO_FINDINGS);
}

#[test]
fn case_b() {
    let (a, b) = (book_bytes(&policy_a()), book_bytes(&policy_b()));
    assert_eq!(compare(&b, &a), Ok(Comparison::Differ(vec![3, 3])));
    assert_eq!(compare(&a, &b), Ok(Comparison::Differ(vec![3, 3])));
}

#[test]
fn case_c() {
    assert_eq!(book_bytes(&policy_c()), book_bytes(&policy_a()));
    assert_ne!(policy_c(), policy_a());
}

#[test]
fn case_d() {
    assert_eq!(situations(&policy_d()).len(), 5);
    assert_eq!(book_bytes(&policy_d()), book_bytes(&policy_a()));
}

#[test]
fn case_e() {
    let expected = Findings {
        conflict: after(0, &[3, 3]),
        ..NO_FINDINGS
    };
    assert_eq!(findings_of(&policy_e()), expected);
    assert_eq!(findings_of(&policy_e_level_1()), NO_FINDINGS);
    assert_eq!(
        shelf(&policy_e()),
        "states 3\nconflict 0 2 3 3\nmissing -\nblocked -\n"
    );
    assert_eq!(
        shelf(&policy_e_level_1()),
        "states 3\nconflict -\nmissing -\nblocked -\n"
    );
}

#[test]
fn case_f() {
    let expected = Findings {
        missing: after(1, &[3, 3]),
        ..NO_FINDINGS
    };
    assert_eq!(findings_of(&policy_f()), expected);
}

#[test]
fn case_g() {
    let header = "42 4F 4B 00 01 00 01 02 00 00 00 02";
    let rows = "02 00 02 00 | 00 00 00 00";
    assert_eq!(
        book_bytes(&policy_g()),
        [bytes(header), bytes(rows)].concat()
    );
    let expected = Findings {
        conflict: None,
        missing: after(0, &[0]),
        blocked: Some(vec![0]),
    };
    assert_eq!(findings_of(&policy_g()), expected);
    assert_eq!(
        shelf(&policy_g()),
        "states 2\nconflict -\nmissing 0 1 0\nblocked 1 0\n"
    );
}

#[test]
fn case_j() {
    let expected = Findings {
        missing: after(0, &[1]),
        ..NO_FINDINGS
    };
    assert_eq!(findings_of(&policy_j()), expected);
}

#[test]
fn case_h() {
    assert_eq!(situations(&policy_h()).len(), 2);
    let expected = "42 4F 4B 00 01 00 01 01 00 00 00 01 | 01 00";
    assert_eq!(book_bytes(&policy_h()), bytes(expected));
    assert_eq!(findings_of(&policy_h()), NO_FINDINGS);
}

#[test]
fn case_s() {
    assert_eq!(situations(&policy_s(6)).len(), 64);
    let expected = "42 4F 4B 00 01 00 01 02 00 00 00 01 | 01 00 01 00";
    assert_eq!(book_bytes(&policy_s(6)), bytes(expected));
    assert_eq!(refused(&policy_s(7)), Some(11));
    assert_eq!(shelf(&policy_s(7)), "refused 11\n");
}

/// A finding after the empty history: length 0 and no codes.
#[test]
fn findings_at_the_start() {
    // One request, one rule that contradicts itself, so nothing is answered.
    let idle = bytes("50 4F 4C 00 01 00 01 01 01 01 | 00 01 01 00 02 01 00");
    assert_eq!(
        shelf(&idle),
        "states 1\nconflict -\nmissing 0 0\nblocked 0\n"
    );
    // Two rules without variables that decide differently.
    let torn = bytes("50 4F 4C 00 01 00 01 00 02 01 | 00 01 01 00 | 00 01 00 00");
    assert_eq!(
        shelf(&torn),
        "states 1\nconflict 0 0\nmissing -\nblocked -\n"
    );
}

/// A rule of a greater level hides a lower one although both accept.
#[test]
fn a_lower_level_does_not_apply_beside_a_higher_one() {
    let head = "50 4F 4C 00 01 00 01 01 03 02 | 00 01 01 01 00 00 00";
    let lower = "00 01 01 00 00 00 01";
    let teller = "00 02 01 00 01 00 00";
    let policy = [bytes(head), bytes(lower), bytes(teller)].concat();
    assert_eq!(situations(&policy).len(), 1);
    let equal_levels = with_byte(&policy, 13, 0);
    // Now 0, then 0 and 1, then 1 alone.
    assert_eq!(situations(&equal_levels).len(), 3);
}

/// Accepting adds one, rejecting sets to zero, both in the same situation.
#[test]
fn each_decision_leads_to_its_own_set() {
    let head = "50 4F 4C 00 01 00 01 01 03 01 | 00 01 01 00 00 00 01 | 00 01 00 00 00 00 02";
    let policy = [bytes(head), bytes("00 01 00 00 02 00 00")].concat();
    let situations = situations(&policy);
    assert_eq!(situations[0].len(), 1);
    assert!(situations
        .iter()
        .any(|situation| situation.iter().eq(&[[1, 0, 0, 0]])));
    assert!(situations
        .iter()
        .any(|situation| situation.iter().eq(&[[0, 0, 0, 0], [2, 0, 0, 0]])));
}

/// The first field counts most in the number of a request.
#[test]
fn requests_are_numbered_by_their_values() {
    // Fields of 2 and 3 values; the only rule lets values 1 and 0 through.
    let policy = bytes("50 4F 4C 00 01 01 02 00 01 02 03 | 00 02 00 01 01 00");
    let book = book_of(&policy);
    let accepted: Vec<usize> = (0..6).filter(|&request| book.accepts(1, request)).collect();
    assert_eq!(accepted, [3]);
    assert_eq!(book.frame.values_of(3), [1, 0]);
    assert_eq!(book.frame.request_with(&[1, 0]), 3);
    assert_eq!(
        (book.frame.accept_code(3), book.frame.reject_code(3)),
        (7, 8)
    );
    assert_eq!(book.rows, [[1, 0, 0, 0, 0, 0, 0, 1, 0, 0, 0, 0, 0]]);
}

/// Two variables, each raised by the acceptance of one request.
#[test]
fn states_are_numbered_by_their_earliest_history() {
    let head = "50 4F 4C 00 01 00 01 02 04 02";
    let raising = "00 01 01 00 00 00 01 00 00 00 | 00 02 01 00 00 00 00 00 00 01";
    let telling = "00 01 00 00 01 00 00 00 00 00 | 00 02 00 00 00 00 00 01 00 00";
    let policy = [head, raising, telling].map(bytes).concat();
    let expected = [[2, 0, 3, 0], [2, 2, 4, 0], [4, 0, 3, 3], [4, 4, 4, 4]];
    assert_eq!(book_of(&policy).rows, expected);
}

#[test]
fn walking_a() {
    let a = book_bytes(&policy_a());
    let mut opened = OpenedBook::open(&a).unwrap();
    assert_eq!(opened.step(3), Ok(2));
    assert_eq!(opened.step(4), Err(Refusal::Walk));
    assert_eq!(opened.step(3), Ok(3));
    assert_eq!(
        (opened.tell(0), opened.tell(1)),
        (Ok(Answer::Accept), Ok(Answer::Reject))
    );
    assert_eq!(opened.step(4), Ok(3));
    assert_eq!(opened.step(0), Ok(1));
    assert_eq!(opened.state, 1);
}

#[test]
fn telling_none_and_both() {
    let f = book_bytes(&policy_f());
    assert_eq!(
        OpenedBook {
            bytes: &f,
            state: 3
        }
        .tell(1),
        Ok(Answer::None)
    );
    let e = book_bytes(&policy_e());
    assert_eq!(
        OpenedBook {
            bytes: &e,
            state: 3
        }
        .tell(0),
        Ok(Answer::Both)
    );
}

/// More than 1,024 bytes are judged by the first 1,024 of them.
#[test]
fn shelf_judges_at_most_1024_bytes() {
    let long = |begin: Vec<u8>| [begin, vec![0; 2_000]].concat();
    assert_eq!(shelf(&long(policy_a())), "refused 6\n");
    assert_eq!(shelf(&long(b"POX".to_vec())), "refused 3\n");
    assert_eq!(shelf(&[]), "refused 2\n");
    for length in [1_023, 1_024, 1_025] {
        assert_eq!(shelf(&long(policy_a())[..length]), "refused 6\n");
    }
}

#[test]
fn equal_bytes_is_a_plain_test() {
    assert!(equal_bytes(&[], &[]));
    assert!(equal_bytes(b"no book", b"no book"));
    assert!(!equal_bytes(b"no book", b"no boo"));
    assert!(!equal_bytes(&[1], &[2]));
}
