//! Damaged books, and sound books that no list of calls reaches: the second program and the desk
//! under test give the same code, and leave the same bytes. Each clause of document 01's soundness
//! sentence by itself.

use yordzepa_tests::busy;
use yordzepa_tests::desk::{under_test, Desk, SecondDesk};
use yordzepa_tests::image::{self, book_of, bytes_of, Table, BYTES, TABLES};
use yordzepa_tests::lists::{list, record, Call, Theme};
use yordzepa_tests::random::Random;
use yordzepa_tests::second::book::{Book, Deal, Key, Mode, Profile, Side};
use yordzepa_tests::second::days::Days;
use yordzepa_tests::second::reads::Question;
use yordzepa_tests::second::sound::is_sound;

fn sound(book: &Book) -> bool {
    is_sound(book, Days::shared())
}

#[test]
fn the_tables_fill_the_book() {
    let mut end = 0;
    for table in TABLES {
        assert_eq!(table.begins, end);
        end += table.rows * table.width;
    }
    assert_eq!(end, BYTES);
}

/// The books that lists of calls leave.
fn books() -> impl Iterator<Item = Vec<u8>> {
    let themes = || Theme::ALL.into_iter().filter(|&theme| theme != Theme::OtherLength);
    let lists = (101..=106).flat_map(move |seed| {
        themes().flat_map(move |theme| [60, 150, 400].map(|length| list(theme, seed, length)))
    });
    let books = lists.map(|list| {
        let mut desk = SecondDesk::new();
        if let Some(book) = &list.book {
            desk.lend(book);
        }
        for call in &list.calls {
            if let Call::Record(bytes) = call {
                desk.call(bytes);
            }
        }
        desk.bytes()
    });
    books.chain(std::iter::once(bytes_of(&busy::book())))
}

#[test]
fn bytes_and_book_determine_each_other() {
    for bytes in books() {
        let book = book_of(&bytes).expect("a book of the second program");
        assert!(bytes_of(&book) == bytes);
    }
}

/// Puts a number that may not belong there into one row of one table.
fn damage(random: &mut Random, bytes: &mut [u8]) {
    if random.once_in(10) {
        let place = random.below(BYTES as u64) as usize;
        bytes[place] ^= 1 << random.below(8);
        return;
    }
    let table = TABLES[random.below(TABLES.len() as u64) as usize];
    let row = used_row(random, table, bytes);
    let now = table.get(bytes, row);
    let other = table.get(bytes, random.below(table.rows as u64) as usize);
    let number = match random.below(8) {
        0 | 1 => random.near(now),
        2 | 3 => other,
        4 => random.any_length(),
        5 => now ^ 1 << random.below(8 * table.width as u64),
        _ => random.one_of(&[
            0,
            1,
            2,
            3,
            4,
            6,
            7,
            31,
            32,
            63,
            64,
            255,
            256,
            257,
            9_999,
            10_000,
            1_000_001,
            3_000_001,
            500_000_000,
            500_000_001,
            999_999_999,
            1_000_000_000,
            1_000_000_001,
            1_000_000_000_000,
            1_000_000_000_001,
            10_000_000_000_000,
            10_000_000_000_001,
            146_096,
            146_097,
        ]),
    };
    let number = if table.width == 4 { number & 0xffff_ffff } else { number };
    table.put(bytes, row, number);
}

/// A row of a table, mostly one that does not hold 0.
fn used_row(random: &mut Random, table: Table, bytes: &[u8]) -> usize {
    let used: Vec<usize> = (0..table.rows).filter(|&row| table.get(bytes, row) != 0).collect();
    if used.is_empty() || random.once_in(4) {
        return random.below(table.rows as u64) as usize;
    }
    used[random.below(used.len() as u64) as usize]
}

/// Calls that a lent book gets: those that go over the whole book, and one of each other kind.
fn calls(random: &mut Random, bytes: &[u8]) -> Vec<Vec<u8>> {
    let today = image::TODAY.get(bytes, 0);
    let number = random.below(300);
    let mut calls = vec![
        record(9, &[]),
        record(10, &[]),
        record(12, &[]),
        record(6, &[0, 0, 1, 0, 1_000_000, today, 0, 7]),
        record(6, &[1, 1, 0, 0, 1_000_000, today, 0, 7]),
        record(7, &[0, 0, 1, 0, 1_000, today, 7]),
        record(8, &[number % 4, number]),
        record(11, &[0, 0, 0, 100]),
        record(4, &[0, 0, 100]),
        record(5, &[0, 0, 100]),
        record(1, &[0, 100, 1_000_000, 0, today]),
        record(2, &[0, 0, 0, 1]),
        record(3, &[9, 1, 0]),
        Vec::new(),
        vec![0],
        vec![99],
    ];
    for place in (1..calls.len()).rev() {
        calls.swap(place, random.below(place as u64 + 1) as usize);
    }
    calls.truncate(6);
    calls
}

#[test]
fn damaged_books_are_refused_alike() {
    let mut random = Random::new(0x0da3_a6ed);
    let (mut second, mut other) = (SecondDesk::new(), under_test());
    let (mut sound, mut unsound) = (0, 0);
    for whole in books() {
        for _ in 0..120 {
            let mut bytes = whole.clone();
            for _ in 0..random.between(1, 2) {
                damage(&mut random, &mut bytes);
            }
            second.lend(&bytes);
            other.lend(&bytes);
            let question = Question::Exposure(random.below(64));
            let reply = second.read(question);
            assert_eq!(reply, other.read(question), "{}", damage_text(&whole, &bytes));
            if reply[0] == 2 {
                unsound += 1;
            } else {
                sound += 1;
            }
            for record in calls(&mut random, &bytes) {
                let answer = second.call(&record);
                let theirs = other.call(&record);
                assert_eq!(answer, theirs, "{record:?}: {}", damage_text(&whole, &bytes));
                assert!(
                    second.bytes() == other.bytes(),
                    "{record:?} leaves other bytes: {}",
                    damage_text(&whole, &bytes)
                );
                // A sound book stays sound.
                assert_eq!(second.read(question)[0] == 2, reply[0] == 2, "{record:?}");
            }
        }
    }
    println!("{sound} sound, {unsound} not");
    assert!(sound > 2_000 && unsound > 5_000, "{sound} sound, {unsound} not");
}

/// Where the damage is.
fn damage_text(whole: &[u8], bytes: &[u8]) -> String {
    let places = TABLES.iter().enumerate().flat_map(|(number, table)| {
        (0..table.rows).filter(move |&row| table.get(whole, row) != table.get(bytes, row)).map(
            move |row| {
                let (was, is) = (table.get(whole, row), table.get(bytes, row));
                format!("table {number}, row {row}: {was} became {is}; ")
            },
        )
    });
    places.collect()
}

#[test]
fn a_book_of_another_length_gives_1() {
    for length in [0, 1, BYTES - 1, BYTES + 1, 2 * BYTES] {
        for mut desk in [Box::new(SecondDesk::new()) as Box<dyn Desk>, under_test()] {
            desk.lend(&vec![0; length]);
            for bytes in [record(0, &[1, 1]), record(9, &[]), vec![], vec![77], vec![0]] {
                assert_eq!(desk.call(&bytes), [1, 0, 0, 0], "length {length}");
            }
            assert_eq!(desk.read(Question::Basket(0))[0], 1);
            assert_eq!(desk.read(Question::Request(1))[0], 1);
            assert!(desk.bytes() == vec![0; length]);
        }
    }
}

#[test]
fn an_opening_makes_any_book_the_empty_one() {
    let mut random = Random::new(7);
    for _ in 0..20 {
        let bytes: Vec<u8> = (0..BYTES).map(|_| random.bits() as u8).collect();
        for mut desk in [Box::new(SecondDesk::new()) as Box<dyn Desk>, under_test()] {
            desk.lend(&bytes);
            assert_eq!(desk.call(&record(9, &[])), [2, 0, 0, 0]);
            assert_eq!(desk.call(&[]), [2, 0, 0, 0]);
            assert_eq!(desk.call(&[13]), [2, 0, 0, 0]);
            // "Not tested for kind 0" goes by the first byte.
            assert_eq!(desk.call(&[0]), [3, 0, 0, 0]);
            assert_eq!(desk.call(&record(0, &[1, 0])), [4, 0, 0, 0]);
            assert_eq!(desk.call(&record(0, &[0, 1])), [7, 0, 0, 0]);
            assert!(desk.bytes() == bytes);
            assert_eq!(desk.call(&record(0, &[1, 10_000])), [0, 0, 0, 0]);
            assert!(desk.bytes() == bytes_of(&Book::empty(1, 10_000)));
        }
    }
}

/// A row of the busy book, by what it is for.
fn row(book: &Book, wanted: impl Fn(&yordzepa_tests::second::book::Request) -> bool) -> usize {
    book.used_rows().find(|(_, request)| wanted(request)).expect("a row like that").0
}

/// Whether a change of the busy book leaves it sound. The desk under test says the same where the
/// change can be written in bytes.
fn stays_sound(change: impl Fn(&mut Book)) -> bool {
    let mut book = busy::book();
    change(&mut book);
    let mut desk = under_test();
    desk.lend(&bytes_of(&book));
    let code = desk.read(Question::Basket(0))[0];
    assert_eq!(code != 2, sound(&book), "the two tests differ");
    sound(&book)
}

#[test]
fn every_clause_of_the_sentence_counts() {
    let fop =
        |book: &Book| row(book, |r| r.partner.is_some() && matches!(r.deal, Deal::Fop { .. }));
    let back = |book: &Book| row(book, |r| matches!(r.deal, Deal::Return { .. }));
    let alone = |book: &Book| row(book, |r| r.partner.is_none());
    type Change<'a> = (&'a str, Box<dyn Fn(&mut Book)>);
    let unsound: Vec<Change> = vec![
        ("today closed", Box::new(|b| b.today = 4)),
        ("today above the last", Box::new(|b| b.today = 146_097)),
        ("a quote closed", Box::new(|b| b.securities[3].quote = 0)),
        (
            "a settlement closed",
            Box::new(move |b| b.requests[alone(b)].as_mut().unwrap().settlement = 4),
        ),
        (
            "an exposure's closing closed",
            Box::new(|b| b.exposures[0].as_mut().unwrap().key.closing = 4),
        ),
        ("tolerance 0", Box::new(|b| b.tolerance = 0)),
        ("tolerance too high", Box::new(|b| b.tolerance = 100_000_001)),
        ("tolerance above a FOP", Box::new(|b| b.tolerance = 2_000_001)),
        ("next number 0", Box::new(|b| b.next_number = 0)),
        ("next number too high", Box::new(|b| b.next_number = 1_000_000_001)),
        (
            "a number at the next",
            Box::new(move |b| b.requests[alone(b)].as_mut().unwrap().number = b.next_number),
        ),
        (
            "a number twice",
            Box::new(move |b| {
                let number = b.requests[back(b)].unwrap().number;
                b.requests[alone(b)].as_mut().unwrap().number = number;
            }),
        ),
        ("lot too high", Box::new(|b| b.securities[63].lot = 1_000_001)),
        ("price 0", Box::new(|b| b.securities[3].price = 0)),
        ("price too high", Box::new(|b| b.securities[3].price = 3_000_001)),
        ("haircut too high", Box::new(|b| b.securities[3].haircut = 10_000)),
        (
            "a giver not set up",
            Box::new(move |b| b.requests[alone(b)].as_mut().unwrap().giver = 20),
        ),
        (
            "a taker not set up",
            Box::new(move |b| b.requests[alone(b)].as_mut().unwrap().taker = 31),
        ),
        (
            "a giver out of range",
            Box::new(move |b| b.requests[alone(b)].as_mut().unwrap().giver = 32),
        ),
        (
            "a basket not set up",
            Box::new(move |b| {
                b.requests[alone(b)].as_mut().unwrap().deal = Deal::Fop { basket: 9, closing: 0 }
            }),
        ),
        (
            "giver and taker the same",
            Box::new(move |b| {
                let request = b.requests[alone(b)].as_mut().unwrap();
                request.giver = request.taker;
            }),
        ),
        ("amount 0", Box::new(move |b| b.requests[alone(b)].as_mut().unwrap().amount = 0)),
        (
            "amount below the tolerance",
            Box::new(move |b| b.requests[alone(b)].as_mut().unwrap().amount = 9_999),
        ),
        (
            "amount too high",
            Box::new(move |b| b.requests[alone(b)].as_mut().unwrap().amount = 1_000_000_000_001),
        ),
        (
            "settled more than its amount",
            Box::new(move |b| {
                let row = fop(b);
                let partner = usize::from(b.requests[row].unwrap().partner.unwrap());
                for row in [row, partner] {
                    let request = b.requests[row].as_mut().unwrap();
                    request.settled = request.amount + 1;
                }
            }),
        ),
        (
            "settled though alone",
            Box::new(move |b| b.requests[alone(b)].as_mut().unwrap().settled = 1),
        ),
        (
            "partial though alone",
            Box::new(move |b| b.requests[alone(b)].as_mut().unwrap().partial = true),
        ),
        (
            "a partner that names none",
            Box::new(move |b| {
                let row = alone(b);
                let partner = b.requests[fop(b)].unwrap().partner;
                b.requests[row].as_mut().unwrap().partner = partner;
            }),
        ),
        (
            "a partner of itself",
            Box::new(move |b| {
                let row = alone(b);
                b.requests[row].as_mut().unwrap().partner = Some(row as u8);
            }),
        ),
        (
            "a partner's row not used",
            Box::new(move |b| {
                let partner = b.requests[fop(b)].unwrap().partner.unwrap();
                b.requests[usize::from(partner)] = None;
            }),
        ),
        (
            "sides the same",
            Box::new(move |b| {
                let row = fop(b);
                let request = b.requests[row].as_mut().unwrap();
                request.side = request.side.other();
            }),
        ),
        ("pair: amounts", Box::new(move |b| b.requests[fop(b)].as_mut().unwrap().amount += 1)),
        (
            "pair: settlements",
            Box::new(move |b| b.requests[fop(b)].as_mut().unwrap().settlement = 6),
        ),
        ("pair: settled", Box::new(move |b| b.requests[fop(b)].as_mut().unwrap().settled -= 1)),
        ("pair: ends", Box::new(move |b| b.requests[fop(b)].as_mut().unwrap().ended = true)),
        ("pair: partial", Box::new(move |b| b.requests[fop(b)].as_mut().unwrap().partial = false)),
        (
            "pair: closings",
            Box::new(move |b| {
                if let Deal::Fop { closing, .. } = &mut b.requests[fop(b)].as_mut().unwrap().deal {
                    *closing = 367;
                }
            }),
        ),
        (
            "a pair without its exposure",
            Box::new(move |b| {
                let row = fop(b);
                let partner = usize::from(b.requests[row].unwrap().partner.unwrap());
                for row in [row, partner] {
                    if let Deal::Fop { closing, .. } = &mut b.requests[row].as_mut().unwrap().deal {
                        *closing = 367;
                    }
                }
            }),
        ),
        (
            "a return of another's exposure",
            Box::new(move |b| {
                let row = back(b);
                let partner = usize::from(b.requests[row].unwrap().partner.unwrap());
                for row in [row, partner] {
                    b.requests[row].as_mut().unwrap().deal = Deal::Return { exposure: 39 };
                }
            }),
        ),
        (
            "a return of an exposure not used",
            Box::new(move |b| {
                let row = back(b);
                let partner = usize::from(b.requests[row].unwrap().partner.unwrap());
                for row in [row, partner] {
                    b.requests[row].as_mut().unwrap().deal = Deal::Return { exposure: 63 };
                }
            }),
        ),
        (
            "an exposure above 10^13",
            Box::new(|b| b.exposures[0].as_mut().unwrap().amount = 10_000_000_000_001),
        ),
        ("a key twice", Box::new(|b| b.exposures[50] = b.exposures[39])),
        (
            "an exposure's giver not set up",
            Box::new(|b| b.exposures[39].as_mut().unwrap().key.giver = 30),
        ),
        (
            "an exposure of 0 with a position",
            Box::new(|b| b.exposures[0].as_mut().unwrap().amount = 0),
        ),
        ("a position in a row not used", Box::new(|b| b.positions[63][0] = 100)),
        (
            "a position not in whole lots",
            Box::new(|b| {
                let s = (0..64).find(|&s| b.positions[0][s] > 0).unwrap();
                b.positions[0][s] += 1;
            }),
        ),
        ("an account above 500,000,000", Box::new(|b| b.accounts[31][63] = 500_000_001)),
        (
            "account plus positions above 500,000,000",
            Box::new(|b| {
                let s = (0..64).find(|&s| b.positions[0][s] > 0).unwrap();
                b.accounts[0][s] = 500_000_000;
            }),
        ),
        (
            "a security gone under its positions",
            Box::new(|b| {
                let s = (0..64).find(|&s| b.positions[0][s] > 0).unwrap();
                b.securities[s] = Default::default();
            }),
        ),
    ];
    for (name, change) in &unsound {
        assert!(!stays_sound(change), "{name}");
    }
    let still_sound: Vec<Change> = vec![
        ("nothing", Box::new(|_| {})),
        ("a quote after today", Box::new(|b| b.securities[3].quote = 6)),
        (
            "a closing not after its settlement",
            Box::new(move |b| {
                let row = alone(b);
                b.requests[row].as_mut().unwrap().deal = Deal::Fop { basket: 0, closing: 1 };
            }),
        ),
        (
            "an unpaired row past its settlement",
            Box::new(move |b| b.requests[alone(b)].as_mut().unwrap().settlement = 1),
        ),
        (
            "a cancel note anywhere",
            Box::new(|b| {
                for request in b.requests.iter_mut().flatten() {
                    request.cancelled = true;
                }
            }),
        ),
        (
            "an ended pair with a settled part",
            Box::new(move |b| {
                let row = fop(b);
                let partner = usize::from(b.requests[row].unwrap().partner.unwrap());
                for row in [row, partner] {
                    let request = b.requests[row].as_mut().unwrap();
                    request.settled = 5;
                    request.ended = true;
                }
            }),
        ),
        (
            "rows in another order",
            Box::new(move |b| {
                let free = b.requests.iter().position(|row| row.is_none()).unwrap();
                let row = alone(b);
                b.requests.swap(free, row);
            }),
        ),
        (
            "an account of a security not set up",
            Box::new(|b| {
                // Its bonds go with it.
                for position in b.positions.iter_mut() {
                    position[63] = 0;
                }
                b.securities[63] = Default::default();
                b.accounts[31][63] = 500_000_000;
            }),
        ),
        ("the last next number", Box::new(|b| b.next_number = 1_000_000_000)),
        (
            "an exposure of 10^13",
            Box::new(|b| b.exposures[0].as_mut().unwrap().amount = 10_000_000_000_000),
        ),
        (
            "an exposure that no row belongs to",
            Box::new(|b| {
                let key = Key { giver: 0, taker: 1, basket: 7, closing: 2 };
                b.exposures[63] = Some(yordzepa_tests::second::book::Exposure { key, amount: 1 });
            }),
        ),
        (
            "a waiting profile",
            Box::new(|b| {
                let profile = Profile { mode: Mode::List, list: u32::MAX, partial: true };
                b.participants[0].as_mut().unwrap().waiting = Some(profile);
            }),
        ),
        (
            "a pair that was entered by the taker first",
            Box::new(move |b| {
                let row = row(b, |r| r.partner.is_some() && r.side == Side::Giver);
                let partner = usize::from(b.requests[row].unwrap().partner.unwrap());
                let number = b.requests[row].unwrap().number;
                b.requests[row].as_mut().unwrap().number = b.requests[partner].unwrap().number;
                b.requests[partner].as_mut().unwrap().number = number;
            }),
        ),
    ];
    for (name, change) in &still_sound {
        assert!(stays_sound(change), "{name}");
    }
}

/// What bytes can hold and the second program's book cannot.
#[test]
fn bytes_outside_the_layout_are_not_sound() {
    let whole = bytes_of(&busy::book());
    let changes: [(&str, Table, usize, u64); 14] = [
        ("a spare row", image::SPARES, 588, 1),
        ("a mode of 4", image::MODES, 0, 4),
        ("a list of a participant not set up", image::LISTS, 31, 1),
        ("a waiting list where none waits", image::WAITING_LISTS, 0, 1),
        ("a change waiting for a participant not set up", image::WAITING_MODES, 31, 1),
        ("a partial of 2", image::PARTIALS, 0, 2),
        ("an age of 256", image::AGES, 0, 256),
        ("an age of a basket not set up", image::AGES, 15, 1),
        ("a reference of a row not used", image::REFERENCES, 255, 1),
        ("a partner's row of 257", image::PARTNERS, 0, 257),
        ("an end of 2", image::ENDS, 0, 2),
        ("an amount of an exposure not used", image::EXPOSURE_AMOUNTS, 63, 1),
        ("a use of 2", image::IN_USE, 0, 2),
        ("a price of a security not set up", image::LOTS, 63, 0),
    ];
    let mut damaged: Vec<(&str, Vec<u8>)> = Vec::new();
    for (name, table, row, number) in changes {
        let mut bytes = whole.clone();
        table.put(&mut bytes, row, number);
        damaged.push((name, bytes));
    }
    // A return has no closing, not even an open day on both rows of its pair.
    let mut bytes = whole.clone();
    for row in 0..image::KINDS.rows {
        if image::KINDS.get(&whole, row) == 7 {
            image::CLOSINGS.put(&mut bytes, row, 366);
        }
    }
    damaged.push(("a closing of a return", bytes));
    for (name, bytes) in &damaged {
        for mut desk in [Box::new(SecondDesk::new()) as Box<dyn Desk>, under_test()] {
            desk.lend(bytes);
            assert_eq!(desk.read(Question::Basket(0))[0], 2, "{name}");
            assert_eq!(desk.call(&record(9, &[])), [2, 0, 0, 0], "{name}");
        }
    }
}
