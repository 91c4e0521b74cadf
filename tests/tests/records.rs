//! The record reader and writer against the second program.

use yordzepa_tests::answers::{Reading, FIELDS};
use yordzepa_tests::plain;
use yordzepa_tests::proved;
use yordzepa_tests::random::Random;
use yordzepa_tests::second::records::{self, fields_of, length_of, Field, KINDS};

/// Document 01, Records: "Body bytes" of the 13 kinds.
const BODY_BYTES: [usize; 13] = [8, 15, 7, 10, 6, 6, 28, 24, 5, 0, 0, 7, 0];

fn same_read(bytes: &[u8]) -> Reading {
    let expected = match records::read(bytes) {
        Ok(record) => {
            let mut fields = [0; FIELDS];
            fields[..record.fields.len()].copy_from_slice(&record.fields);
            Reading { code: 0, kind: record.kind, fields }
        }
        Err(code) => Reading::refused(code),
    };
    let found = proved::read(bytes);
    assert_eq!(found, expected, "bytes {bytes:?}");
    // The quick reader, which the second program's calls on a book go through.
    assert_eq!(plain::read(bytes), expected, "bytes {bytes:?}");
    found
}

/// Writes into the middle of a patterned buffer; all but an accepted part must keep the pattern.
fn same_write(kind: u64, fields: &[u64; FIELDS], length: usize) -> Result<Vec<u8>, u64> {
    const MARGIN: usize = 16;
    let pattern = |place: usize| (place as u8).wrapping_mul(37) ^ 0xa5;
    let mut buffer: Vec<u8> = (0..length + 2 * MARGIN).map(pattern).collect();
    let code = proved::write(kind, fields, &mut buffer[MARGIN..MARGIN + length]);
    let expected = records::write(kind, fields, length);
    let context = format!("kind {kind}, fields {fields:?}, length {length}");
    assert_eq!(code, expected.clone().err().unwrap_or(0), "{context}");
    for (place, &byte) in buffer.iter().enumerate() {
        let inside = place >= MARGIN && place < MARGIN + length;
        match &expected {
            Ok(bytes) if inside => {
                assert_eq!(byte, bytes[place - MARGIN], "byte {place}, {context}")
            }
            _ => assert_eq!(byte, pattern(place), "byte {place}, {context}"),
        }
    }
    expected
}

/// The bytes of a record with any fields that fit their widths, in range or not.
fn bytes_of(kind: u64, fields: &[Field], numbers: &[u64]) -> Vec<u8> {
    let mut bytes = vec![kind as u8];
    for (field, number) in fields.iter().zip(numbers) {
        bytes.extend(&number.to_be_bytes()[8 - field.bytes()..]);
    }
    bytes
}

fn fits(field: Field, number: u64) -> bool {
    field.bits == 64 || number < 1 << field.bits
}

/// Reads and writes a record of a known kind with the right length. The reader is asked only what
/// can be written in the fields' widths.
fn same_both(kind: u64, numbers: &[u64]) {
    let fields = fields_of(kind).unwrap();
    let mut all = [0; FIELDS];
    all[..numbers.len()].copy_from_slice(numbers);
    let written = same_write(kind, &all, length_of(&fields));
    if fields.iter().zip(numbers).all(|(&field, &number)| fits(field, number)) {
        let bytes = bytes_of(kind, &fields, numbers);
        let reading = same_read(&bytes);
        match written {
            // There and back.
            Ok(written) => {
                assert_eq!(written, bytes);
                assert_eq!(reading, Reading { code: 0, kind, fields: all });
            }
            Err(code) => assert_eq!(reading, Reading::refused(code)),
        }
    }
}

/// A number in a field's range, its ends often.
fn legal(random: &mut Random, field: Field) -> u64 {
    match random.below(4) {
        0 => field.low,
        1 => field.high,
        _ => random.between(field.low, field.high),
    }
}

#[test]
fn the_lengths_are_those_of_document_01() {
    for kind in 0..KINDS {
        assert_eq!(
            length_of(&fields_of(kind).unwrap()),
            1 + BODY_BYTES[kind as usize],
            "kind {kind}"
        );
    }
    assert_eq!(KINDS as usize, BODY_BYTES.len());
}

/// Each field at both ends of its range, around them, and past its width, the others legal.
#[test]
fn every_edge_of_every_field() {
    let mut random = Random::new(0x4ec0_0000_0000_0001);
    for kind in 0..KINDS {
        let fields = fields_of(kind).unwrap();
        for (place, field) in fields.iter().enumerate() {
            let mut edges =
                vec![field.low, field.low + 1, field.high - 1, field.high, 0, 1, 255, 256, 65_535];
            edges.extend(field.low.checked_sub(1));
            edges.extend(field.high.checked_add(1));
            edges.extend([
                1 << 16,
                (1 << 32) - 1,
                1 << 32,
                (1 << 32) + 1,
                1 << 40,
                1 << 63,
                u64::MAX,
            ]);
            for edge in edges {
                for _ in 0..20 {
                    let mut numbers: Vec<u64> =
                        fields.iter().map(|&field| legal(&mut random, field)).collect();
                    numbers[place] = edge;
                    same_both(kind, &numbers);
                }
            }
        }
    }
}

/// All fields at the ends of their ranges together.
#[test]
fn all_fields_at_their_ends_together() {
    for kind in 0..KINDS {
        let fields = fields_of(kind).unwrap();
        let choices: Vec<Vec<u64>> = fields
            .iter()
            .map(|field| {
                let mut ends = vec![field.low, field.high];
                ends.extend(field.low.checked_sub(1));
                ends.extend(field.high.checked_add(1));
                ends
            })
            .collect();
        let mut counters = vec![0; fields.len()];
        'all: loop {
            let numbers: Vec<u64> =
                counters.iter().zip(&choices).map(|(&i, ends): (&usize, _)| ends[i]).collect();
            same_both(kind, &numbers);
            for place in 0.. {
                if place == fields.len() {
                    break 'all;
                }
                counters[place] += 1;
                if counters[place] < choices[place].len() {
                    break;
                }
                counters[place] = 0;
            }
        }
    }
}

/// Every value of every field of one byte, and of the haircut's two bytes.
#[test]
fn every_value_of_the_narrow_fields() {
    let mut random = Random::new(0x4ec0_0000_0000_0002);
    for kind in 0..KINDS {
        let fields = fields_of(kind).unwrap();
        for (place, field) in fields.iter().enumerate().filter(|(_, field)| field.bits <= 16) {
            for number in 0..=(1 << field.bits) {
                let mut numbers: Vec<u64> =
                    fields.iter().map(|&field| legal(&mut random, field)).collect();
                numbers[place] = number;
                same_both(kind, &numbers);
            }
        }
    }
}

/// All lengths from 0 to 40 for all 256 bytes of kind, to the reader.
#[test]
fn reading_every_kind_at_every_length() {
    let mut random = Random::new(0x4ec0_0000_0000_0003);
    let mut accepted = 0;
    for kind in 0..=255u8 {
        for length in 0..=40 {
            for fill in 0..12 {
                let mut bytes: Vec<u8> = match fill {
                    0 => vec![0; length],
                    1 => vec![1; length],
                    2 => vec![255; length],
                    _ => (0..length).map(|_| random.bits() as u8 >> random.below(8)).collect(),
                };
                if length > 0 {
                    bytes[0] = kind;
                }
                let reading = same_read(&bytes);
                let right = length > 0
                    && BODY_BYTES.get(kind as usize).map(|body| body + 1) == Some(length);
                assert_eq!(reading.code == 3, !right, "kind {kind}, length {length}");
                accepted += u64::from(reading.code == 0);
            }
        }
    }
    assert!(accepted > 30, "{accepted}");
    assert_eq!(proved::read(&[]), Reading::refused(3));
}

/// Every length from 0 to 40 and kinds known and unknown, to the writer; the fields legal or not.
#[test]
fn writing_every_kind_at_every_length() {
    let mut random = Random::new(0x4ec0_0000_0000_0004);
    let unknown = (13..=256).chain([512, 1 << 32, (1 << 32) + 6, 1 << 63, u64::MAX]);
    for kind in (0..KINDS).chain(unknown) {
        for length in 0..=40 {
            let mut legal_fields = [0; FIELDS];
            for (number, &field) in
                legal_fields.iter_mut().zip(&fields_of(kind).unwrap_or_default())
            {
                *number = legal(&mut random, field);
            }
            for fields in [legal_fields, [0; FIELDS], [1; FIELDS], [u64::MAX; FIELDS]] {
                let written = same_write(kind, &fields, length);
                let right = BODY_BYTES.get(kind as usize).map(|body| body + 1) == Some(length);
                assert_eq!(written.err() == Some(3), !right, "kind {kind}, length {length}");
            }
        }
    }
}

/// A number that is not 0 past the last field is refused.
#[test]
fn numbers_past_the_last_field() {
    let mut random = Random::new(0x4ec0_0000_0000_0005);
    for kind in 0..KINDS {
        let fields = fields_of(kind).unwrap();
        for place in fields.len()..FIELDS {
            for number in [1, 2, 255, 256, 1 << 32, 1 << 63, u64::MAX, random.bits() | 1] {
                let mut numbers = [0; FIELDS];
                for (number, &field) in numbers.iter_mut().zip(&fields) {
                    *number = legal(&mut random, field);
                }
                assert!(same_write(kind, &numbers, length_of(&fields)).is_ok());
                numbers[place] = number;
                assert_eq!(same_write(kind, &numbers, length_of(&fields)), Err(4));
            }
        }
    }
}

/// Random legal records written, read, and written again.
#[test]
fn random_round_trips() {
    let mut random = Random::new(0x4ec0_0000_0000_0006);
    for _ in 0..150_000 {
        let kind = random.below(KINDS);
        let fields = fields_of(kind).unwrap();
        let mut numbers = [0; FIELDS];
        for (number, &field) in numbers.iter_mut().zip(&fields) {
            *number = legal(&mut random, field);
        }
        let bytes = same_write(kind, &numbers, length_of(&fields)).unwrap();
        let reading = same_read(&bytes);
        assert_eq!(reading, Reading { code: 0, kind, fields: numbers });
        assert_eq!(same_write(reading.kind, &reading.fields, bytes.len()), Ok(bytes));
    }
}

/// Random bytes; those that are read are written back to the same bytes.
#[test]
fn random_bytes() {
    let mut random = Random::new(0x4ec0_0000_0000_0007);
    let mut accepted = 0;
    for _ in 0..500_000 {
        let kind = random.below(KINDS);
        let mut bytes: Vec<u8> = (0..1 + BODY_BYTES[kind as usize])
            .map(|_| random.bits() as u8 >> random.below(12).min(7))
            .collect();
        bytes[0] = kind as u8;
        if random.once_in(50) {
            bytes[0] = random.bits() as u8;
        }
        if random.once_in(50) {
            bytes.truncate(random.below(30) as usize);
        }
        let reading = same_read(&bytes);
        if reading.code == 0 {
            accepted += 1;
            assert_eq!(same_write(reading.kind, &reading.fields, bytes.len()), Ok(bytes));
        }
    }
    assert!(accepted > 100_000, "{accepted}");
}

/// Random fields of any size to the writer.
#[test]
fn random_fields() {
    let mut random = Random::new(0x4ec0_0000_0000_0008);
    for _ in 0..200_000 {
        let kind = random.below(KINDS);
        let fields = fields_of(kind).unwrap();
        let mut numbers = [0; FIELDS];
        for (number, &field) in numbers.iter_mut().zip(&fields) {
            *number =
                if random.once_in(4) { random.any_length() } else { legal(&mut random, field) };
        }
        if random.once_in(20) {
            numbers[random.below(8) as usize] = random.any_length();
        }
        let _ = same_write(kind, &numbers, length_of(&fields));
    }
}

/// The FOP of document 01, "The program's lines": 6: 0, 1, 2, 0, 1000000, 1, 0, 7.
#[test]
fn the_fop_of_document_01() {
    let bytes =
        [6, 0, 1, 2, 0, 0, 0, 0, 0, 0, 15, 66, 64, 0, 0, 0, 1, 0, 0, 0, 0, 0, 0, 0, 0, 0, 0, 0, 7];
    let fields = [0, 1, 2, 0, 1_000_000, 1, 0, 7];
    assert_eq!(proved::read(&bytes), Reading { code: 0, kind: 6, fields });
    let mut part = [0xff; 29];
    assert_eq!(proved::write(6, &fields, &mut part), 0);
    assert_eq!(part, bytes);
}
