//! The linked library, libferrunchju.a, beside guillotiere itself (`oracle/`) and beside the paper's model (`model/`): the same calls are
//! made on both sides, and after each call everything is compared.
//!
//! `linked` declares the library's calls, `fenced` lends them tables between guards, and `call` says what a call is and what a side answers to
//! it. `crates` holds the library beside the crate, `papers` beside the model. `days` draws calls within the crate's premises, `tight` draws
//! them on tables without room to spare and with arguments of all kinds, `random_test` is the crate's own test, `every` tries all calls on small sheets, and `damage` calls on tables
//! that aren't sound and on lengths out of range; `nests` has the damaged tables on which a walk from the root goes deepest.
//!
//! A difference is a panic; `trail` then says by which seed, at which call.

pub mod call;
pub mod crates;
pub mod damage;
pub mod days;
pub mod every;
pub mod fenced;
pub mod linked;
pub mod nests;
pub mod papers;
pub mod random_test;
pub mod tight;
pub mod trail;
