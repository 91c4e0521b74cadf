//! The book's own Pick, Free and eligibility against those of `second::picking`, on the books that
//! lists of calls leave.

use yordzepa_tests::desk::{Desk, SecondDesk};
use yordzepa_tests::lists::{list, Call, Theme};
use yordzepa_tests::random::Random;
use yordzepa_tests::second::bonds::pick;
use yordzepa_tests::second::book::{Book, Nominals, Program, SECURITIES};
use yordzepa_tests::second::calendar::Calendar;
use yordzepa_tests::second::notes::Silent;
use yordzepa_tests::second::picking;

fn books() -> impl Iterator<Item = Book> {
    let lent = |theme| theme == Theme::Lent || theme == Theme::Unreached;
    let themes = Theme::ALL.iter().filter(move |&&theme| !lent(theme));
    let lists = themes.flat_map(|&theme| (201..=220).map(move |seed| list(theme, seed, 250)));
    lists.flat_map(|list| {
        let mut desk = SecondDesk::new();
        let mut books = Vec::new();
        for (place, call) in list.calls.iter().enumerate() {
            if let Call::Record(bytes) = call {
                desk.call(bytes);
            }
            if place % 50 == 49 {
                books.push(desk.book().clone());
            }
        }
        books
    })
}

/// The four columns of 64 numbers that `picking` takes.
fn columns(book: &Book) -> Vec<u64> {
    let column = |number: fn(&yordzepa_tests::second::book::Security) -> u32| {
        book.securities.iter().map(number).map(u64::from).collect::<Vec<u64>>()
    };
    [column(|s| s.lot), column(|s| s.price), column(|s| s.haircut), column(|s| s.quote)].concat()
}

fn numbers(nominals: &Nominals) -> Vec<u64> {
    nominals.iter().map(|&nominal| u64::from(nominal)).collect()
}

#[test]
fn picks_are_the_same() {
    let calendar = Calendar::new();
    let mut random = Random::new(0x9_1c4);
    let mut found = 0;
    for book in books() {
        let columns = columns(&book);
        let program = Program::of(book.clone());
        for (b, basket) in book.baskets.iter().enumerate() {
            let basket = match basket {
                None => continue,
                Some(basket) => basket,
            };
            let eligible = program.eligible(b as u8);
            let basket =
                picking::Basket { map: basket.map, oldest: u64::from(basket.greatest_age) };
            for account in book.accounts.iter().filter(|account| account.iter().any(|&n| n > 0)) {
                let amount = match random.below(3) {
                    0 => random.below(100_000),
                    1 => random.below(10_000_000),
                    _ => random.between(1, 10_000_000_000_000),
                };
                let (account_numbers, today) = (numbers(account), u64::from(book.today));
                let plain =
                    picking::pick(&calendar, &account_numbers, &columns, basket, today, amount)
                        .expect("a sound book");
                let picked = pick(&book, account, eligible, amount);
                assert_eq!(numbers(&picked.nominals), plain.nominals);
                assert_eq!((picked.value, picked.count), (plain.value, plain.count));
                found += u64::from(picked.count > 0);
            }
        }
    }
    assert!(found > 1_000, "{found}");
}

#[test]
fn frees_are_the_same() {
    let mut random = Random::new(0xf_4ee);
    let mut freed = 0;
    for book in books() {
        let columns = columns(&book);
        for (e, used) in book.used_exposures() {
            let value = book.position_value(&book.positions[e]);
            let mut changed = book.clone();
            let amount = match random.below(3) {
                0 => used.amount,
                1 => random.below(value + 2),
                _ => random.near(value),
            };
            if let Some(used) = &mut changed.exposures[e] {
                used.amount = amount;
            }
            let mut program = Program::of(changed);
            let any = program.free(e, &mut Silent);
            let before = numbers(&book.positions[e]);
            let plain = picking::free(&before, &columns, amount).expect("a sound book");
            let after = numbers(&program.book.positions[e]);
            for s in 0..SECURITIES {
                assert_eq!(before[s] - after[s], plain.nominals[s]);
            }
            assert_eq!(any, plain.count > 0);
            assert_eq!(program.book.position_value(&program.book.positions[e]), plain.left);
            freed += u64::from(any);
        }
    }
    assert!(freed > 300, "{freed}");
}
