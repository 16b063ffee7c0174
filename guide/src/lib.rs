//! The guide. For rule writers and trainers: ten errors, each with a policy, its
//! book, the book that the error gives, and the earliest history that shows it.
//! For the file room: how to read the page of a book, and the yearly inventory.
//! For trainers: exercises with their answers.

pub mod exercises;
pub mod files;
pub mod inventory;
pub mod lessons;
pub mod mistakes;
pub mod pages;
pub mod rules;
pub mod text;
