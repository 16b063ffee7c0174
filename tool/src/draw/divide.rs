//! Which steps of a whole book become arrows; the others are listed in the tables of their
//! states so that the picture stays readable.

use crate::book::Book;
use std::collections::{BTreeMap, BTreeSet, VecDeque};

/// An event that leads back, or to one and the same state, from more states than this gets
/// no arrows for that.
const MOST_EVENT_ARROWS: usize = 3;

/// The codes that lead from a state to another, by both.
pub type Ways = BTreeMap<(usize, usize), Vec<usize>>;

/// How many arrows are drawn. The arrows of earliest histories always are.
#[derive(Clone, Copy, Debug, PartialEq, Eq, PartialOrd, Ord)]
pub enum Thinning {
    /// All.
    None,
    /// None that leads back by more than a layer.
    Near,
    /// None that leads back or within a layer.
    Forward,
    /// No others.
    Earliest,
}

impl Thinning {
    /// All, the least first.
    pub const ALL: [Thinning; 4] = [Thinning::None, Thinning::Near, Thinning::Forward, Thinning::Earliest];
}

/// The earliest histories to the states: their lengths, by the number of the state (entry
/// 0 is unused), and the pairs of states that they pass.
pub struct Earliest {
    pub depths: Vec<Option<usize>>,
    pairs: BTreeSet<(usize, usize)>,
    /// Where events are left out: states that are reached only through them, and by no
    /// arrow from another.
    pub by_events: BTreeSet<usize>,
}

impl Earliest {
    /// The histories of a book. Where codes below the first one are left out, the pairs
    /// are those of histories without them.
    pub fn of(book: &Book, first: usize) -> Earliest {
        let mut earliest = Earliest::none(book);
        earliest.search(book, 0, 1);
        if first > 0 {
            let mut drawn = Earliest::none(book);
            drawn.search(book, first, 1);
            for state in earliest.entrances(book, first) {
                if drawn.depths[state].is_none() {
                    drawn.search(book, first, state);
                    earliest.by_events.insert(state);
                }
            }
            earliest.pairs = drawn.pairs;
        }
        earliest
    }

    fn none(book: &Book) -> Earliest {
        Earliest { depths: vec![None; book.states() + 1], pairs: BTreeSet::new(), by_events: BTreeSet::new() }
    }

    /// Searches breadth first from a state by codes from a first one on, as far as nothing
    /// was found before.
    fn search(&mut self, book: &Book, first: usize, from: usize) {
        self.depths[from] = Some(0);
        let mut waiting = VecDeque::from([(from, 0)]);
        while let Some((state, depth)) = waiting.pop_front() {
            for next in (first..book.frame().width()).filter_map(|code| book.next(state, code)) {
                if self.depths[next].is_none() {
                    self.depths[next] = Some(depth + 1);
                    self.pairs.insert((state, next));
                    waiting.push_back((next, depth + 1));
                }
            }
        }
    }

    /// The states that are reached, in the order in which they are looked at for whether
    /// they have an arrow in: first those that no step from a first code on leads to from
    /// another, then the others, the nearest first.
    fn entrances(&self, book: &Book, first: usize) -> Vec<usize> {
        let is_reached = |state: &usize| self.depths[*state].is_some();
        let mut entered = BTreeSet::new();
        for state in (1..=book.states()).filter(is_reached) {
            let after = (first..book.frame().width()).filter_map(|code| book.next(state, code));
            entered.extend(after.filter(|&next| next != state));
        }
        let mut states: Vec<usize> = (1..=book.states()).filter(is_reached).collect();
        states.sort_by_key(|state| (entered.contains(state), self.depths[*state]));
        states
    }

    /// By how many layers a step leads back; a step to the next layer by -1.
    fn back(&self, state: usize, next: usize) -> Option<isize> {
        Some(self.depths[state]? as isize - self.depths[next]? as isize)
    }
}

/// The steps to other states from a code on that are drawn as arrows.
pub fn arrows(book: &Book, earliest: &Earliest, first: usize, thinning: Thinning) -> Ways {
    let common = common_events(book, earliest);
    let mut arrows = Ways::new();
    for state in 1..=book.states() {
        for code in first..book.frame().width() {
            let Some(next) = book.next(state, code).filter(|&next| next != state) else {
                continue;
            };
            let drawn = match earliest.back(state, next) {
                None => false,
                Some(_) if earliest.pairs.contains(&(state, next)) => true,
                Some(back) => !common.contains(&(code, state)) && kept(thinning, back),
            };
            if drawn {
                arrows.entry((state, next)).or_default().push(code);
            }
        }
    }
    arrows
}

/// Whether an arrow that leads back by so many layers is drawn.
fn kept(thinning: Thinning, back: isize) -> bool {
    match thinning {
        Thinning::None => true,
        Thinning::Near => back <= 1,
        Thinning::Forward => back < 0,
        Thinning::Earliest => false,
    }
}

/// Events with states from which they get no arrow: they lead back from many, or to the
/// same state from many.
fn common_events(book: &Book, earliest: &Earliest) -> BTreeSet<(usize, usize)> {
    let mut common = BTreeSet::new();
    for event in 0..book.frame().events {
        let moves: Vec<(usize, usize)> = (1..=book.states())
            .filter_map(|state| Some((state, book.next(state, event)?)))
            .filter(|(state, next)| state != next)
            .collect();
        let leads_back = |&(state, next): &(usize, usize)| earliest.back(state, next).is_some_and(|back| back >= 0);
        let many_back = moves.iter().filter(|pair| leads_back(pair)).count() > MOST_EVENT_ARROWS;
        for pair in &moves {
            let alike = moves.iter().filter(|other| other.1 == pair.1).count();
            if alike > MOST_EVENT_ARROWS || many_back && leads_back(pair) {
                common.insert((event, pair.0));
            }
        }
    }
    common
}
