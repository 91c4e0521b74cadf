//! Ordinary Rust written with care for speed, which the benchmark measures the proved libraries against.
//! The same checks and the same answers; no proof.

use crate::answers::{
    Answer, FreeAnswer, PickAnswer, Reading, Report, COLUMNS, FIELDS, SECURITIES,
};

const SHAPE: u64 = 3;
const RANGE: u64 = 4;
const DAY: u64 = 7;

// The calendar: the year by a division, Easter out of a table of 400, ages by counting.

const LAST_DAY: u64 = 146_096;

static EASTER: [u16; 400] = easter_days();

/// Easter Sunday of each year as a day-of-year number, by Butcher's rule.
const fn easter_days() -> [u16; 400] {
    let mut days = [0; 400];
    let mut k = 0;
    while k < 400 {
        let year = 2002 + k;
        let a = year % 19;
        let b = year / 100;
        let c = year % 100;
        let h = (19 * a + b - b / 4 - (b - (b + 8) / 25 + 1) / 3 + 15) % 30;
        let l = (32 + 2 * (b % 4) + 2 * (c / 4) - h - c % 4) % 7;
        let m = (a + 11 * h + 22 * l) / 451;
        let leap = (year % 4 == 0 && (year % 100 != 0 || year % 400 == 0)) as usize;
        days[k] = (81 + leap + h + l - 7 * m) as u16;
        k += 1;
    }
    days
}

/// The day on which the year 2002 + k begins.
#[inline]
fn start_of(k: u64) -> u64 {
    let y = 2001 + k;
    365 * k + y / 4 - y / 100 + y / 400 - 485
}

#[inline]
fn open(day: u64) -> bool {
    if day > LAST_DAY || matches!(day % 7, 4 | 5) {
        return false;
    }
    let mut k = day / 366;
    if start_of(k + 1) <= day {
        k += 1;
    }
    let start = start_of(k);
    let leap = start_of(k + 1) - start - 365;
    let n = day - start + 1;
    let easter = u64::from(EASTER[k as usize]);
    !(n == 1
        || n + 2 == easter
        || n == easter + 1
        || n == 121 + leap
        || n == 359 + leap
        || n == 360 + leap)
}

pub fn is_open(day: u64) -> Answer {
    if day > LAST_DAY {
        return Answer::refused(DAY);
    }
    Answer { code: 0, value: u64::from(open(day)) }
}

pub fn next_open_day(day: u64) -> Answer {
    if !open(day) {
        return Answer::refused(DAY);
    }
    match (day + 1..=LAST_DAY).find(|&d| open(d)) {
        Some(value) => Answer { code: 0, value },
        None => Answer::refused(DAY),
    }
}

pub fn price_age(quote: u64, today: u64) -> Answer {
    if quote > today || !open(quote) || !open(today) {
        return Answer::refused(DAY);
    }
    Answer { code: 0, value: (quote + 1..=today).filter(|&d| open(d)).count() as u64 }
}

/// The age of a price is at most the greatest age.
#[inline]
fn fresh(quote: u64, today: u64, oldest: u64) -> bool {
    today - quote <= oldest
        || (quote + 1..=today).filter(|&d| open(d)).take(oldest as usize + 1).count() as u64
            <= oldest
}

// The valuation. The greatest product, 500,000,000 × 3,000,000 × 10,000, is below 2^64.

const NOMINAL: u64 = 500_000_000;
const PRICE: u64 = 3_000_000;
const HAIRCUT: u64 = 9_999;
const PARTS: u64 = 100_000_000;

pub fn value(nominal: u64, price: u64, haircut: u64) -> Answer {
    if nominal > NOMINAL || price.wrapping_sub(1) >= PRICE || haircut > HAIRCUT {
        return Answer::refused(RANGE);
    }
    Answer { code: 0, value: nominal * price * (10_000 - haircut) / PARTS }
}

pub fn report(map: u64) -> Report {
    if map == 0 {
        return Report::refused(RANGE);
    }
    Report { code: 0, count: u64::from(map.count_ones()), lowest: u64::from(map.trailing_zeros()) }
}

// Pick and Free.

const LOT: u64 = 1_000_000;
const EXPOSURE: u64 = 10_000_000_000_000;

/// Lots, prices, haircuts and quote days.
#[inline]
fn split(columns: &[u64; COLUMNS]) -> [&[u64; SECURITIES]; 4] {
    let part = |n: usize| columns[n * SECURITIES..(n + 1) * SECURITIES].try_into().unwrap();
    [part(0), part(1), part(2), part(3)]
}

/// True when the nominals and the securities are in range. No branch within the loop, so that the
/// compiler can take several securities at once.
#[inline]
fn in_range(nominals: &[u64; SECURITIES], columns: &[u64; COLUMNS]) -> bool {
    let [lots, prices, haircuts, quotes] = split(columns);
    let mut bad = false;
    for n in 0..SECURITIES {
        let none = lots[n] == 0 && prices[n] == 0 && haircuts[n] == 0 && quotes[n] == 0;
        let set_up = lots[n].wrapping_sub(1) < LOT
            && prices[n].wrapping_sub(1) < PRICE
            && haircuts[n] <= HAIRCUT;
        bad |= nominals[n] > NOMINAL || !(none || set_up);
    }
    !bad
}

pub fn pick(
    account: &[u64; SECURITIES],
    columns: &[u64; COLUMNS],
    map: u64,
    oldest: u64,
    today: u64,
    amount: u64,
) -> PickAnswer {
    if !in_range(account, columns) || map == 0 || oldest > 255 || amount > EXPOSURE {
        return PickAnswer::refused(RANGE);
    }
    let [lots, prices, haircuts, quotes] = split(columns);
    if !open(today)
        || (0..SECURITIES).any(|n| lots[n] != 0 && (quotes[n] > today || !open(quotes[n])))
    {
        return PickAnswer::refused(DAY);
    }
    let mut answer = PickAnswer { code: 0, nominals: [0; SECURITIES], value: 0, count: 0 };
    let mut rest = amount;
    let mut map = map;
    // An eligible lot is worth a cent or more, so nothing is found for 0.
    while map != 0 && rest != 0 {
        let n = map.trailing_zeros() as usize;
        map &= map - 1;
        let lot = lots[n];
        let factor = prices[n] * (10_000 - haircuts[n]);
        let lot_worth = lot * factor / PARTS;
        if lot_worth == 0 || lot_worth > rest || !fresh(quotes[n], today, oldest) {
            continue;
        }
        let whole = account[n] / lot * lot;
        let worth = whole * factor / PARTS;
        let (taken, value) = if worth <= rest {
            (whole, worth)
        } else {
            // (rest + 1) × 10^8 is at most whole × factor here, so it is below 2^64.
            let taken = ((rest + 1) * PARTS - 1) / factor / lot * lot;
            (taken, taken * factor / PARTS)
        };
        answer.nominals[n] = taken;
        answer.count += u64::from(taken != 0);
        rest -= value;
    }
    answer.value = amount - rest;
    answer
}

pub fn free(position: &[u64; SECURITIES], columns: &[u64; COLUMNS], exposure: u64) -> FreeAnswer {
    if !in_range(position, columns) || exposure > EXPOSURE {
        return FreeAnswer::refused(RANGE);
    }
    let [lots, prices, haircuts, _] = split(columns);
    let mut worths = [0; SECURITIES];
    for n in 0..SECURITIES {
        worths[n] = position[n] * (prices[n] * (10_000 - haircuts[n])) / PARTS;
    }
    let mut answer =
        FreeAnswer { code: 0, nominals: [0; SECURITIES], left: worths.iter().sum(), count: 0 };
    if answer.left < exposure {
        return answer;
    }
    for n in (0..SECURITIES).rev() {
        let lot = lots[n];
        if lot == 0 || position[n] < lot {
            continue;
        }
        let factor = prices[n] * (10_000 - haircuts[n]);
        let others = answer.left - worths[n];
        // What must stay; needed × 10^8 is at most position × factor, so it is below 2^64.
        let least =
            if others >= exposure { 0 } else { ((exposure - others) * PARTS - 1) / factor + 1 };
        let back = (position[n] - least) / lot * lot;
        if back != 0 {
            answer.nominals[n] = back;
            answer.left = others + (position[n] - back) * factor / PARTS;
            answer.count += 1;
        }
    }
    answer
}

// Records.

const LENGTHS: [usize; 13] = [9, 16, 8, 11, 7, 7, 29, 25, 6, 1, 1, 8, 1];
const AMOUNT: u64 = 1_000_000_000_000;
const WORD: u64 = u32::MAX as u64;

#[inline]
fn be16(bytes: &[u8], at: usize) -> u64 {
    u64::from(u16::from_be_bytes(bytes[at..at + 2].try_into().unwrap()))
}

#[inline]
fn be32(bytes: &[u8], at: usize) -> u64 {
    u64::from(u32::from_be_bytes(bytes[at..at + 4].try_into().unwrap()))
}

#[inline]
fn be64(bytes: &[u8], at: usize) -> u64 {
    u64::from_be_bytes(bytes[at..at + 8].try_into().unwrap())
}

/// Whether the fields of a known kind are in range, those past the last 0.
#[inline]
fn fields_in_range(kind: usize, f: &[u64; FIELDS]) -> bool {
    let from_1 = |number: u64, high: u64| number.wrapping_sub(1) < high;
    let none_from = |first: usize| f[first..].iter().all(|&number| number == 0);
    match kind {
        0 => f[0] <= WORD && from_1(f[1], 100_000_000) && none_from(2),
        1 => {
            f[0] < 64
                && from_1(f[1], LOT)
                && from_1(f[2], PRICE)
                && f[3] <= HAIRCUT
                && f[4] <= WORD
                && none_from(5)
        }
        2 => f[0] < 32 && f[1] < 3 && f[2] <= WORD && f[3] < 2 && none_from(4),
        3 => f[0] < 16 && f[1] != 0 && f[2] < 256 && none_from(3),
        4 | 5 => f[0] < 32 && f[1] < 64 && from_1(f[2], NOMINAL) && none_from(3),
        6 => {
            f[0] < 2
                && f[1] < 32
                && f[2] < 32
                && f[3] < 16
                && from_1(f[4], AMOUNT)
                && f[5] <= WORD
                && f[6] <= WORD
        }
        7 => {
            f[0] < 2
                && f[1] < 32
                && f[2] < 32
                && f[3] < 64
                && from_1(f[4], AMOUNT)
                && f[5] <= WORD
                && f[7] == 0
        }
        8 => f[0] < 32 && f[1] <= WORD && none_from(2),
        11 => f[0] < 32 && f[1] < 64 && f[2] < 64 && from_1(f[3], WORD) && none_from(4),
        _ => none_from(0),
    }
}

pub fn read(bytes: &[u8]) -> Reading {
    let kind = match bytes.first() {
        Some(&kind) if LENGTHS.get(usize::from(kind)) == Some(&bytes.len()) => usize::from(kind),
        _ => return Reading::refused(SHAPE),
    };
    let b = &bytes[1..];
    let byte = |at: usize| u64::from(b[at]);
    let fields = match kind {
        0 => [be32(b, 0), be32(b, 4), 0, 0, 0, 0, 0, 0],
        1 => [byte(0), be32(b, 1), be32(b, 5), be16(b, 9), be32(b, 11), 0, 0, 0],
        2 => [byte(0), byte(1), be32(b, 2), byte(6), 0, 0, 0, 0],
        3 => [byte(0), be64(b, 1), byte(9), 0, 0, 0, 0, 0],
        4 | 5 => [byte(0), byte(1), be32(b, 2), 0, 0, 0, 0, 0],
        6 => {
            [byte(0), byte(1), byte(2), byte(3), be64(b, 4), be32(b, 12), be32(b, 16), be64(b, 20)]
        }
        7 => [byte(0), byte(1), byte(2), byte(3), be64(b, 4), be32(b, 12), be64(b, 16), 0],
        8 => [byte(0), be32(b, 1), 0, 0, 0, 0, 0, 0],
        11 => [byte(0), byte(1), byte(2), be32(b, 3), 0, 0, 0, 0],
        _ => [0; FIELDS],
    };
    if !fields_in_range(kind, &fields) {
        return Reading::refused(RANGE);
    }
    Reading { code: 0, kind: kind as u64, fields }
}

pub fn write(kind: u64, f: &[u64; FIELDS], part: &mut [u8]) -> u64 {
    if kind > 12 || LENGTHS[kind as usize] != part.len() {
        return SHAPE;
    }
    let kind = kind as usize;
    if !fields_in_range(kind, f) {
        return RANGE;
    }
    part[0] = kind as u8;
    let b = &mut part[1..];
    match kind {
        0 => {
            put32(b, 0, f[0]);
            put32(b, 4, f[1]);
        }
        1 => {
            b[0] = f[0] as u8;
            put32(b, 1, f[1]);
            put32(b, 5, f[2]);
            b[9..11].copy_from_slice(&(f[3] as u16).to_be_bytes());
            put32(b, 11, f[4]);
        }
        2 => {
            put_bytes(b, &f[..2]);
            put32(b, 2, f[2]);
            b[6] = f[3] as u8;
        }
        3 => {
            b[0] = f[0] as u8;
            put64(b, 1, f[1]);
            b[9] = f[2] as u8;
        }
        4 | 5 => {
            put_bytes(b, &f[..2]);
            put32(b, 2, f[2]);
        }
        6 => {
            put_bytes(b, &f[..4]);
            put64(b, 4, f[4]);
            put32(b, 12, f[5]);
            put32(b, 16, f[6]);
            put64(b, 20, f[7]);
        }
        7 => {
            put_bytes(b, &f[..4]);
            put64(b, 4, f[4]);
            put32(b, 12, f[5]);
            put64(b, 16, f[6]);
        }
        8 => {
            b[0] = f[0] as u8;
            put32(b, 1, f[1]);
        }
        11 => {
            put_bytes(b, &f[..3]);
            put32(b, 3, f[3]);
        }
        _ => {}
    }
    0
}

#[inline]
fn put_bytes(bytes: &mut [u8], numbers: &[u64]) {
    for (byte, &number) in bytes.iter_mut().zip(numbers) {
        *byte = number as u8;
    }
}

#[inline]
fn put32(bytes: &mut [u8], at: usize, number: u64) {
    bytes[at..at + 4].copy_from_slice(&(number as u32).to_be_bytes());
}

#[inline]
fn put64(bytes: &mut [u8], at: usize, number: u64) {
    bytes[at..at + 8].copy_from_slice(&number.to_be_bytes());
}
