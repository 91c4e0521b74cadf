//! The calendar out of tables made at compile time (one bit for each day, and the open days before each 64 days; 28 KB):
//! what the benchmark shows for scale. The proved calendar computes and has no such table.

use crate::answers::Answer;

const DAY: u64 = 7;

// The calendar: one bit for each day, and for each word of 64 days the open days before it.

const LAST_DAY: u64 = 146_096;
const DAYS: usize = 146_097;
const WORDS: usize = (DAYS + 63) / 64;

static OPEN: [u64; WORDS] = open_bits();
static BEFORE: [u32; WORDS] = open_before(open_bits());

/// Easter Sunday as days after 22 March, by Butcher's rule.
const fn easter(year: usize) -> usize {
    let a = year % 19;
    let b = year / 100;
    let c = year % 100;
    let h = (19 * a + b - b / 4 - (b - (b + 8) / 25 + 1) / 3 + 15) % 30;
    let l = (32 + 2 * (b % 4) + 2 * (c / 4) - h - c % 4) % 7;
    let m = (a + 11 * h + 22 * l) / 451;
    h + l - 7 * m
}

const fn open_bits() -> [u64; WORDS] {
    // Day 0 is a Tuesday: of each seven days, numbers 4 and 5 are closed.
    let mut weeks: u128 = 0;
    let mut day = 0;
    while day < 128 {
        weeks |= ((day % 7 != 4 && day % 7 != 5) as u128) << day;
        day += 1;
    }
    let mut bits = [0; WORDS];
    let mut word = 0;
    while word < WORDS {
        bits[word] = (weeks >> (word * 64 % 7)) as u64;
        word += 1;
    }
    bits[WORDS - 1] &= u64::MAX >> (WORDS * 64 - DAYS);
    let mut year = 2002;
    let mut start = 0;
    while year < 2402 {
        let leap = (year % 4 == 0 && (year % 100 != 0 || year % 400 == 0)) as usize;
        let sunday = start + 59 + leap + 21 + easter(year);
        let closed = [
            start,
            sunday - 2,
            sunday + 1,
            start + 120 + leap,
            start + 358 + leap,
            start + 359 + leap,
        ];
        let mut i = 0;
        while i < closed.len() {
            bits[closed[i] / 64] &= !(1 << (closed[i] % 64));
            i += 1;
        }
        start += 365 + leap;
        year += 1;
    }
    bits
}

const fn open_before(bits: [u64; WORDS]) -> [u32; WORDS] {
    let mut before = [0; WORDS];
    let mut word = 1;
    while word < WORDS {
        before[word] = before[word - 1] + bits[word - 1].count_ones();
        word += 1;
    }
    before
}

#[inline]
fn open(day: u64) -> bool {
    day <= LAST_DAY && OPEN[(day / 64) as usize] >> (day % 64) & 1 == 1
}

/// The open days up to and including an open day, less one.
#[inline]
fn rank(day: u64) -> u64 {
    let word = (day / 64) as usize;
    u64::from(BEFORE[word]) + u64::from((OPEN[word] & ((1 << (day % 64)) - 1)).count_ones())
}

pub fn is_open(day: u64) -> Answer {
    if day > LAST_DAY {
        return Answer::refused(DAY);
    }
    Answer { code: 0, value: u64::from(open(day)) }
}

#[allow(dead_code)]
pub fn next_open_day(day: u64) -> Answer {
    if !open(day) {
        return Answer::refused(DAY);
    }
    let mut word = (day / 64) as usize;
    // The days after this one in its word; shifted twice, as a shift by 64 is not allowed.
    let mut bits = OPEN[word] & (u64::MAX << (day % 64) << 1);
    while bits == 0 {
        word += 1;
        if word == WORDS {
            return Answer::refused(DAY);
        }
        bits = OPEN[word];
    }
    Answer { code: 0, value: word as u64 * 64 + u64::from(bits.trailing_zeros()) }
}

pub fn price_age(quote: u64, today: u64) -> Answer {
    if quote > today || !open(quote) || !open(today) {
        return Answer::refused(DAY);
    }
    Answer { code: 0, value: rank(today) - rank(quote) }
}
