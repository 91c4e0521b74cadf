//! The exported functions of the proved libraries, with safe wrappers.

use crate::answers::{
    Answer, FreeAnswer, PickAnswer, Reading, Report, COLUMNS, FIELDS, SECURITIES,
};

/// The functions as the libraries export them; include/yordzepa.h describes each.
pub mod raw {
    use super::*;

    extern "C" {
        pub fn calendar_is_open(day: u64) -> Answer;
        pub fn calendar_next_open_day(day: u64) -> Answer;
        pub fn calendar_price_age(quote: u64, today: u64) -> Answer;
        pub fn valuation_value(nominal: u64, price: u64, haircut: u64) -> Answer;
        pub fn baskets_report(map: u64) -> Report;
        pub fn picking_pick(
            account: *const u64,
            columns: *const u64,
            map: u64,
            oldest: u64,
            today: u64,
            amount: u64,
        ) -> PickAnswer;
        pub fn picking_free(position: *const u64, columns: *const u64, exposure: u64)
            -> FreeAnswer;
        pub fn records_read(bytes: *const u8, length: usize) -> Reading;
        pub fn records_write(kind: u64, fields: *const u64, part: *mut u8, length: usize) -> u64;
    }
}

pub fn is_open(day: u64) -> Answer {
    // SAFETY: it takes and returns numbers only.
    unsafe { raw::calendar_is_open(day) }
}

pub fn next_open_day(day: u64) -> Answer {
    // SAFETY: it takes and returns numbers only.
    unsafe { raw::calendar_next_open_day(day) }
}

pub fn price_age(quote: u64, today: u64) -> Answer {
    // SAFETY: it takes and returns numbers only.
    unsafe { raw::calendar_price_age(quote, today) }
}

pub fn value(nominal: u64, price: u64, haircut: u64) -> Answer {
    // SAFETY: it takes and returns numbers only.
    unsafe { raw::valuation_value(nominal, price, haircut) }
}

pub fn report(map: u64) -> Report {
    // SAFETY: it takes and returns numbers only.
    unsafe { raw::baskets_report(map) }
}

pub fn pick(
    account: &[u64; SECURITIES],
    columns: &[u64; COLUMNS],
    map: u64,
    oldest: u64,
    today: u64,
    amount: u64,
) -> PickAnswer {
    // SAFETY: the arrays have the lengths that the function reads.
    unsafe { raw::picking_pick(account.as_ptr(), columns.as_ptr(), map, oldest, today, amount) }
}

pub fn free(position: &[u64; SECURITIES], columns: &[u64; COLUMNS], exposure: u64) -> FreeAnswer {
    // SAFETY: the arrays have the lengths that the function reads.
    unsafe { raw::picking_free(position.as_ptr(), columns.as_ptr(), exposure) }
}

pub fn read(bytes: &[u8]) -> Reading {
    // SAFETY: the length is that of the memory lent, and a slice's pointer is never null.
    unsafe { raw::records_read(bytes.as_ptr(), bytes.len()) }
}

pub fn write(kind: u64, fields: &[u64; FIELDS], part: &mut [u8]) -> u64 {
    // SAFETY: as in `read`; the part is borrowed alone, so it overlaps nothing.
    unsafe { raw::records_write(kind, fields.as_ptr(), part.as_mut_ptr(), part.len()) }
}
