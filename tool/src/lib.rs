//! Policies and their books by names: rules as text, findings in words, pictures.
//! The proved library builds, judges and compares; this reads, writes and words.

pub mod arguments;
pub mod book;
pub mod calls;
pub mod commands;
pub mod draw;
pub mod explain;
pub mod frame;
pub mod help;
pub mod input;
pub mod json;
pub mod library;
pub mod names;
pub mod notation;
pub mod output;
pub mod policy;
pub mod refusal;
pub mod reorder;
