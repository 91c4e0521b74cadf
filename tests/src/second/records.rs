//! Document 01, Records: the reader and the writer.

use super::{RANGE, SHAPE};

/// "It has 32 participants (0 to 31), 64 securities, 16 baskets, 256 request rows, 64 exposures."
const PARTICIPANT: Field = Field { bits: 8, low: 0, high: 31 };
const SECURITY: Field = Field { bits: 8, low: 0, high: 63 };
const BASKET: Field = Field { bits: 8, low: 0, high: 15 };
const EXPOSURE: Field = Field { bits: 8, low: 0, high: 63 };
/// Days are looked at later (code 7), so the reader takes any 32 bits.
const DAY: Field = Field { bits: 32, low: 0, high: u32::MAX as u64 };
const ANY_32: Field = Field { bits: 32, low: 0, high: u32::MAX as u64 };
const ANY_64: Field = Field { bits: 64, low: 0, high: u64::MAX };
/// "nominal 32 (1 to 500,000,000)".
const NOMINAL: Field = Field { bits: 32, low: 1, high: 500_000_000 };
/// "side 8 (0 giver, 1 taker)".
const SIDE: Field = Field { bits: 8, low: 0, high: 1 };
/// "amount 64 (1 to 10^12)"; "(a FOP amount from 1)".
const AMOUNT: Field = Field { bits: 64, low: 1, high: 1_000_000_000_000 };

/// A field: "Widths in bits", and its range, both ends included.
#[derive(Clone, Copy, Debug)]
pub struct Field {
    pub bits: u32,
    pub low: u64,
    pub high: u64,
}

impl Field {
    const fn of(bits: u32, low: u64, high: u64) -> Field {
        Field { bits, low, high }
    }

    pub fn bytes(self) -> usize {
        self.bits as usize / 8
    }

    fn allows(self, number: u64) -> bool {
        self.low <= number && number <= self.high
    }
}

/// The number of kinds, 0 to 12.
pub const KINDS: u64 = 13;

/// The table of Records: a kind's fields in order, or none for an unknown kind.
pub fn fields_of(kind: u64) -> Option<Vec<Field>> {
    Some(match kind {
        // "opening": day, tolerance
        0 => vec![DAY, Field::of(32, 1, 100_000_000)],
        // "price": security, lot, price, haircut, quote day
        1 => vec![
            SECURITY,
            Field::of(32, 1, 1_000_000),
            Field::of(32, 1, 3_000_000),
            Field::of(16, 0, 9_999),
            DAY,
        ],
        // "participant": number, mode, list, partial
        2 => vec![PARTICIPANT, Field::of(8, 0, 2), ANY_32, Field::of(8, 0, 1)],
        // "basket": number, map, greatest age
        3 => vec![BASKET, Field::of(64, 1, u64::MAX), Field::of(8, 0, 255)],
        // "deposit", "withdrawal": participant, security, nominal
        4 | 5 => vec![PARTICIPANT, SECURITY, NOMINAL],
        // "FOP": side, giver, taker, basket, amount, settlement, closing, reference
        6 => vec![SIDE, PARTICIPANT, PARTICIPANT, BASKET, AMOUNT, DAY, DAY, ANY_64],
        // "return": side, giver, taker, exposure, amount, settlement, reference
        7 => vec![SIDE, PARTICIPANT, PARTICIPANT, EXPOSURE, AMOUNT, DAY, ANY_64],
        // "cancel": participant, request number
        8 => vec![PARTICIPANT, ANY_32],
        // "settle", "mark", "next day"
        9 | 10 | 12 => vec![],
        // "recall": giver, exposure, security, "nominal 32 (whole lots, 1 or more)"
        11 => vec![PARTICIPANT, EXPOSURE, SECURITY, Field::of(32, 1, u32::MAX as u64)],
        _ => return None,
    })
}

/// "One byte of kind, then a body whose length the kind fixes": the whole record's length.
pub fn length_of(fields: &[Field]) -> usize {
    1 + fields.iter().map(|field| field.bytes()).sum::<usize>()
}

/// A record's kind and its fields in the table's order.
#[derive(Clone, Debug, PartialEq, Eq)]
pub struct Record {
    pub kind: u64,
    pub fields: Vec<u64>,
}

/// "The reader alone gives 3, or 4 by these ranges".
pub fn read(bytes: &[u8]) -> Result<Record, u64> {
    // 3: "no or unknown kind, or body of another length"
    let kind = u64::from(*bytes.first().ok_or(SHAPE)?);
    let fields = fields_of(kind).ok_or(SHAPE)?;
    if bytes.len() != length_of(&fields) {
        return Err(SHAPE);
    }
    let mut numbers = Vec::new();
    let mut place = 1;
    for field in fields {
        let number = from_big_endian(&bytes[place..place + field.bytes()]);
        place += field.bytes();
        if !field.allows(number) {
            return Err(RANGE);
        }
        numbers.push(number);
    }
    Ok(Record { kind, fields: numbers })
}

/// "The writer gives 4 for other fields, 3 for an unknown kind or a lent part of another length,
/// and then leaves that part." The record's bytes; `length` is the lent part's, and `numbers` may
/// have numbers past the last field, which must be 0.
pub fn write(kind: u64, numbers: &[u64], length: usize) -> Result<Vec<u8>, u64> {
    let fields = fields_of(kind).ok_or(SHAPE)?;
    if length != length_of(&fields) {
        return Err(SHAPE);
    }
    if numbers[fields.len()..].iter().any(|&number| number != 0) {
        return Err(RANGE);
    }
    let mut bytes = vec![kind as u8];
    for (field, &number) in fields.iter().zip(numbers) {
        if !field.allows(number) {
            return Err(RANGE);
        }
        bytes.extend(to_big_endian(number, field.bytes()));
    }
    Ok(bytes)
}

/// "records are big-endian".
fn from_big_endian(bytes: &[u8]) -> u64 {
    bytes.iter().fold(0, |number, &byte| number * 256 + u64::from(byte))
}

fn to_big_endian(number: u64, bytes: usize) -> Vec<u8> {
    (0..bytes).rev().map(|place| (number / 256u64.pow(place as u32) % 256) as u8).collect()
}
