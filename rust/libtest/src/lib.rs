//! Tests of the memory manager's library through its C functions.
//!
//! - [`call`]: what a library under test offers.
//! - [`sound`]: an independent check of a raw record and memory, clause by
//!   clause.
//! - [`plain`]: the same functions in ordinary Rust, over the same words.
//!   The benchmarks set the library beside it, and the tests here use it to
//!   show that the comparison works.
//! - [`lists`]: made-up lists of calls and client writes.
//! - [`state`]: the raw words that go into a call, read and changed by hand.
//! - [`damage`]: made-up damage to a record, a memory or a length.
//! - [`compare`]: runs made-up calls and compares every word with the model.
//! - [`generations`]: the same with ids of every generation.
//! - [`tally`]: counts what occurred.
//! - [`gauge`]: made-up readings of a gauge, compared with plain code.
//! - `ffi` (feature `archive`): the library under test.

pub mod call;
pub mod compare;
pub mod damage;
#[cfg(feature = "archive")]
pub mod ffi;
pub mod gauge;
pub mod generations;
pub mod lists;
pub mod plain;
pub mod sound;
pub mod state;
pub mod tally;

pub use directives::words;
