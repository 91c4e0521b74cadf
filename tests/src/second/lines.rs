//! Document 01, The program's lines: "It reads records from standard input and prints a line for
//! each: place from 1, kind, code, A, B, M. Its book starts as zero bytes. A cut or unknown record
//! prints code 3 and ends it."

use super::book::Program;
use super::notes::Silent;
use super::records::{fields_of, length_of};
use super::steps::{refused, Answer};
use super::SHAPE;

/// The lines for an input.
pub fn run(input: &[u8]) -> Vec<String> {
    let mut program = Program::new();
    run_on(input, |record| program.call(record, &mut Silent))
}

/// The lines of any program whose book starts as zero bytes.
pub fn run_on(input: &[u8], mut call: impl FnMut(&[u8]) -> Answer) -> Vec<String> {
    let mut lines = Vec::new();
    let mut rest = input;
    // At the end of the input nothing more is printed.
    while let Some(&kind) = rest.first() {
        let length = fields_of(u64::from(kind)).map(|fields| length_of(&fields));
        let answer = match length {
            Some(length) if length <= rest.len() => {
                let (record, after) = rest.split_at(length);
                rest = after;
                call(record)
            }
            // Cut or unknown.
            _ => {
                rest = &[];
                refused(SHAPE)
            }
        };
        lines.push(line(lines.len() + 1, kind, answer));
    }
    lines
}

fn line(place: usize, kind: u8, answer: Answer) -> String {
    let [code, a, b, m] = answer;
    format!("{place} {kind} {code} {a} {b} {m}")
}
