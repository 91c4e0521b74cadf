//! Measures the proved libraries and the engine, in one run, as Markdown tables on standard output
//! (docs/BENCHMARKS.md has the last ones).
//!
//! - `parts`: the functions that work without the book, beside plain Rust.
//! - `kinds`: every kind of call on busy books, and the reads; `growth`: how their cost grows;
//!   `day`: a whole day. Beside the second program, which makes the same soundness test first.
//! - `books`: the books that they begin with; `timing`: the clock; `table`: the tables.
//!
//! Nothing here passes or fails by time, but both sides must give the same answers and books.

mod books;
mod day;
mod growth;
mod kinds;
mod parts;
mod table;
mod timing;

fn main() {
    parts::print();
    let mut both = timing::Both::new();
    kinds::print(&mut both);
    growth::print(&mut both);
    day::print(&mut both);
}
