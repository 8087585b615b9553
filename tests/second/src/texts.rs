//! The cases for rules texts and question texts, whose answers are in `text.rs`, and for sheets cut into the two.

pub mod cut;
pub mod questions;
pub mod rules;
