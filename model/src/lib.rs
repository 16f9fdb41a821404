//! A model of docs/01-scope.md ("01" below) in plain Rust, written from that paper and from nothing of the Rattle side, and
//! a list of damaged tables with the model's verdicts.
//!
//! `tables` has the lent tables and the head, `rules` the seven rules of "Sound tables", `steps` what the calls are made of,
//! `calls` the public calls. Each is as plain as it can be: where 01 has a sentence the model has a function, and nothing is
//! made fast. `bases` makes sound tables, `damage` damages them, `list` writes them down and reads them back.

pub mod bases;
pub mod calls;
pub mod damage;
pub mod list;
pub mod random;
pub mod rules;
pub mod steps;
pub mod tables;
