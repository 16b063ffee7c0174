//! Rules as text: reading a text into a policy and its names, and writing a
//! policy as a text in its standard layout. docs/NOTATION.md has the grammar.

mod hints;
mod mistake;
mod parse;
mod print;
mod rules;
mod statements;
mod steps;
mod token;

pub use hints::did_you_mean_word;
pub use mistake::Mistake;
pub use parse::{parse, Text};
pub use print::{print, rule_words, value_words};
pub use steps::{parse_request, parse_steps};
pub use token::quoted;
