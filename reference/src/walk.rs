//! An opened book: it tells how a request may be answered and takes steps,
//! with refusals 12 to 14 and 16.

use crate::book::{self, Book};
use crate::refusal::Refusal;

/// How a request may be answered.
#[derive(Clone, Copy, Debug, PartialEq, Eq)]
pub enum Answer {
    /// It is unanswered.
    None,
    /// It may only be accepted.
    Accept,
    /// It may only be rejected.
    Reject,
    /// It may be accepted and may be rejected.
    Both,
}

/// The lent bytes of a book and the state reached so far. The parts are public
/// so that a state outside 1 to n can be shown to be refused.
#[derive(Clone, Debug, PartialEq, Eq)]
pub struct OpenedBook<'a> {
    /// The bytes of the book.
    pub bytes: &'a [u8],
    /// The state reached so far.
    pub state: usize,
}

impl<'a> OpenedBook<'a> {
    /// Opens a book at state 1.
    pub fn open(bytes: &'a [u8]) -> Result<OpenedBook<'a>, Refusal> {
        book::read(bytes)?;
        Ok(OpenedBook { bytes, state: 1 })
    }

    /// Tells how a request may be answered now.
    pub fn tell(&self, request: usize) -> Result<Answer, Refusal> {
        let book = self.checked()?;
        if request >= book.frame.requests() {
            return Err(Refusal::Walk);
        }
        Ok(
            match (
                book.accepts(self.state, request),
                book.rejects(self.state, request),
            ) {
                (false, false) => Answer::None,
                (true, false) => Answer::Accept,
                (false, true) => Answer::Reject,
                (true, true) => Answer::Both,
            },
        )
    }

    /// Takes the step with this code and gives the state reached. If it is
    /// refused, the state stays.
    pub fn step(&mut self, code: usize) -> Result<usize, Refusal> {
        let book = self.checked()?;
        if code >= book.frame.width() || book.entry(self.state, code) == 0 {
            return Err(Refusal::Walk);
        }
        self.state = book.entry(self.state, code);
        Ok(self.state)
    }

    /// Reads the bytes again and checks that the state is one of the book's.
    fn checked(&self) -> Result<Book, Refusal> {
        let book = book::read(self.bytes)?;
        if (1..=book.states()).contains(&self.state) {
            Ok(book)
        } else {
            Err(Refusal::Walk)
        }
    }
}
