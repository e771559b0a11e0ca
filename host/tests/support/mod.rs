//! What the tests and the long runs share: generated texts, the model of document 01, the Rust original as an oracle, and
//! the comparison of all three.
#![allow(dead_code, reason = "each test uses a part")]

pub mod against_fresh;
pub mod against_model;
pub mod against_rust;
pub mod by_crate;
pub mod case_file;
pub mod compare;
pub mod compare_edits;
pub mod demand_3;
pub mod dice;
pub mod edges;
pub mod edits;
pub mod fixed;
pub mod fixed_reads;
pub mod grammar;
pub mod json;
pub mod lent_cells;
pub mod model;
pub mod oracle;
pub mod programs;
pub mod readings;
pub mod rechecks;
pub mod records;
pub mod rules;
pub mod said;
pub mod texts;
pub mod words;
