//! The rules on small files: which changes each makes.

use super::*;

/// The changes of a small file: what a definition's text becomes, for each.
fn changes(text: &str) -> Vec<String> {
    let file = File::read(text.to_string());
    let declared = Declared::new();
    let whole = |m: &Mutant| format!("{}{}{}", &text[..m.at.start], m.new, &text[m.at.end..]);
    mutants(&file, &declared)
        .iter()
        .map(whole)
        .map(|t| t.lines().last().unwrap_or_default().to_string())
        .collect()
}

fn made(text: &str, wanted: &[&str]) {
    let found = changes(text);
    for line in wanted {
        assert!(
            found.iter().any(|f| f == line),
            "{line} is not among {found:#?}"
        );
    }
}

#[test]
fn numerals() {
    assert_eq!(changes("abbrev pub f : ℕ\nf = 7"), ["f = 8", "f = 6"]);
    assert_eq!(changes("abbrev pub f : ℕ\nf = 0x0"), ["f = 1"]);
}

#[test]
fn variables_of_one_type() {
    let text = "abbrev pub f : ℕ → List ℕ → ℕ → ℕ\nf a b c = g b a";
    made(text, &["f a b c = g b c", "f a b c = g a b"]);
    assert!(
        !changes(text).contains(&"f a b c = g a a".to_string()),
        "a list is no number"
    );
}

#[test]
fn operators_and_operands() {
    made(
        "abbrev pub f : ℕ → ℕ\nf a = a + 2 * a",
        &[
            "f a = a - 2 * a",
            "f a = a * 2 * a",
            "f a = a + 2 + a",
            "f a = a",
            "f a = 2 * a",
            "f a = a + a",
        ],
    );
    made(
        "abbrev pub f : ℕ → Bool\nf a = ltb a 2 && g a",
        &[
            "f a = leb a 2 && g a",
            "f a = ltb a 2 || g a",
            "f a = g a",
            "f a = ltb 2 a && g a",
        ],
    );
    made(
        "abbrev pub f : ℕ → ℕ\nf a = a - 1",
        &["f a = 1 - a", "f a = a + 1"],
    );
}

#[test]
fn branches_and_constructors() {
    made(
        "abbrev pub f : Bool → ℕ → ℕ\nf t a = cond t (g a) (h a)",
        &[
            "f t a = cond t (h a) (g a)",
            "f t a = cond t (h a) (h a)",
            "f t a = cond t (g a) (g a)",
        ],
    );
    made(
        "abbrev pub f : ℕ → Option ℕ\nf a = some (suc a)",
        &["f a = none", "f a = some (a)"],
    );
}

#[test]
fn neighbouring_equations_and_fields() {
    made(
        "abbrev pub f : ℕ → ℕ\nf zero = 3\nf (suc n) = n",
        &["f (suc n) = 3"],
    );
    made(
        "abbrev pub f : ℕ → R\nf a = record { x = g a; y = h a }",
        &[
            "f a = record { x = h a; y = h a }",
            "f a = record { x = g a; y = g a }",
        ],
    );
}

#[test]
fn fields() {
    made(
        "use Rattle.definitions.specs.Book as B\n\nabbrev pub f : M → M → ℕ\nf m n = g m.width (B.states n)",
        &[
            "f m n = g n.width (B.states n)",
            "f m n = g (B.states n) m.width",
            "f m n = g m.width m.width",
        ],
    );
}

#[test]
fn names_of_one_type() {
    let text = "abbrev pub g : ℕ → ℕ\ng a = a\n\nabbrev pub h : ℕ → ℕ\nh a = a\n\nabbrev pub f : ℕ → ℕ\nf a = g a";
    made(text, &["f a = h a"]);
}

#[test]
fn statements() {
    made(
        "pub record R (n : ℕ) : Type 0 where\n  pub short : (k : ℕ) → k < n",
        &[
            "  pub short : (k : ℕ) → k ≤ n",
            "  pub short : (k : ℕ) → n < k",
            "  pub short : (k : ℕ) → k < k",
        ],
    );
}
