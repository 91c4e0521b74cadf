//! Compares the proved libraries with a second program written from document 01.
//!
//! - `proved`: the libraries' exported functions; `engine`: the call and the reads on a book.
//! - `guarded`: memory beside inaccessible pages, lent to the engine in all comparisons.
//! - `second`: the second program, written to be read beside document 01.
//! - `desk`: a program with a book, which can be the engine, the second program, or one with a wrong turn.
//! - `lent`: books that no list of calls reaches. `lists`: lists of calls from a seed; `compare`: runs a list on two desks and shrinks what differs;
//!   `driver`: runs many lists on all processors.
//! - `image`: the book's bytes by docs/LAYOUT.md; `busy`: the book that a day-length benchmark begins with.
//! - `plain`: ordinary Rust, which the benchmark measures the libraries against; `tabled`: a calendar out of tables, for scale.

pub mod answers;
pub mod busy;
pub mod compare;
pub mod desk;
pub mod driver;
#[cfg(feature = "reads")]
pub mod engine;
pub mod guarded;
pub mod image;
pub mod lent;
pub mod lists;
pub mod plain;
pub mod proved;
pub mod random;
pub mod second;
pub mod tabled;
