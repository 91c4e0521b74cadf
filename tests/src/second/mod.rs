//! The second program: document 01 read again, from its words alone.
//!
//! Each function returns `Ok` with what it found, or `Err` with document 01's code.
//!
//! The parts that work without the book: `calendar`, `valuation`, `baskets`, `picking`, `records`. The
//! book: `book` (the state), `sound`, `codes`, `steps` (kinds 0 to 8), `settling` (9), `marking` (10,
//! 11), `closing` (12), `reads`, `ledger`, `lines`; ordinary good Rust, since it is measured too.

pub mod actions;
pub mod baskets;
pub mod bonds;
pub mod book;
pub mod calendar;
pub mod closing;
pub mod codes;
pub mod days;
pub mod ledger;
pub mod lines;
pub mod marking;
pub mod notes;
pub mod picking;
pub mod reads;
pub mod records;
pub mod settling;
pub mod sound;
pub mod steps;
pub mod valuation;

/// Document 01, Codes, 3: "no or unknown kind, or body of another length".
pub const SHAPE: u64 = 3;
/// Document 01, Codes, 4: "field out of range".
pub const RANGE: u64 = 4;
/// Document 01, Codes, 7: "any day named, quote days too, not open or above 146,096", "quote after
/// today", "no next day".
pub const DAY: u64 = 7;
