//! An independent implementation of the policy reader and its decision book.
//! It follows the definitions of the contract (document 01) one by one and
//! serves as the answer that other implementations are tested against.

pub mod book;
pub mod compare;
pub mod dot;
pub mod entry;
pub mod explore;
pub mod findings;
pub mod frame;
pub mod generate;
pub mod hex;
pub mod host;
pub mod inventory;
pub mod join;
pub mod page;
pub mod play;
pub mod policy;
pub mod programs;
mod reached;
pub mod refusal;
pub mod shelf;
pub mod situation;
pub mod walk;
pub mod way;
pub mod words;

/// A list of codes. Every code is below 136, so it fits into a byte.
pub type History = Vec<u8>;
