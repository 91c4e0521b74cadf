//! Pick and Free of the picking library against the second program.

use yordzepa_tests::answers::{FreeAnswer, PickAnswer, COLUMNS, SECURITIES};
use yordzepa_tests::proved;
use yordzepa_tests::random::Random;
use yordzepa_tests::second::calendar::{Calendar, LAST_DAY};
use yordzepa_tests::second::picking::{self, Basket, Security};
use yordzepa_tests::second::valuation::worth;

const GREATEST_NOMINAL: u64 = 500_000_000;
const GREATEST_AMOUNT: u64 = 10_000_000_000_000;

/// The arguments of one Pick. Free takes the account as its position and the amount as exposure.
#[derive(Clone)]
struct Case {
    account: [u64; SECURITIES],
    columns: [u64; COLUMNS],
    map: u64,
    oldest: u64,
    today: u64,
    amount: u64,
}

impl Case {
    fn security(&self, n: usize) -> Security {
        let column = |column: usize| self.columns[column * SECURITIES + n];
        Security { lot: column(0), price: column(1), haircut: column(2), quote: column(3) }
    }

    fn set(&mut self, n: usize, lot: u64, price: u64, haircut: u64, quote: u64) {
        self.columns[n] = lot;
        self.columns[SECURITIES + n] = price;
        self.columns[2 * SECURITIES + n] = haircut;
        self.columns[3 * SECURITIES + n] = quote;
    }

    /// The case in words, for a test that fails.
    fn describe(&self) -> String {
        let mut text = format!(
            "map {:#x}, oldest {}, today {}, amount {}\n",
            self.map, self.oldest, self.today, self.amount
        );
        for n in 0..SECURITIES {
            text += &format!("{n}: nominal {}, {:?}\n", self.account[n], self.security(n));
        }
        text
    }

    fn pick(&self) -> PickAnswer {
        proved::pick(&self.account, &self.columns, self.map, self.oldest, self.today, self.amount)
    }

    fn free(&self) -> FreeAnswer {
        proved::free(&self.account, &self.columns, self.amount)
    }
}

fn sixty_four(nominals: &[u64]) -> [u64; SECURITIES] {
    let mut array = [0; SECURITIES];
    array.copy_from_slice(nominals);
    array
}

fn same_pick(calendar: &Calendar, case: &Case) -> PickAnswer {
    let basket = Basket { map: case.map, oldest: case.oldest };
    let expected = match picking::pick(
        calendar,
        &case.account,
        &case.columns,
        basket,
        case.today,
        case.amount,
    ) {
        Ok(p) => PickAnswer {
            code: 0,
            nominals: sixty_four(&p.nominals),
            value: p.value,
            count: p.count,
        },
        Err(code) => PickAnswer::refused(code),
    };
    let found = case.pick();
    assert!(found == expected, "Pick gave {found:?}\nand not  {expected:?}\n{}", case.describe());
    found
}

fn same_free(case: &Case) -> FreeAnswer {
    let expected = match picking::free(&case.account, &case.columns, case.amount) {
        Ok(f) => {
            FreeAnswer { code: 0, nominals: sixty_four(&f.nominals), left: f.left, count: f.count }
        }
        Err(code) => FreeAnswer::refused(code),
    };
    let found = case.free();
    assert!(found == expected, "Free gave {found:?}\nand not  {expected:?}\n{}", case.describe());
    found
}

/// An open day, `back` open days before the open day `today` or as near as the calendar goes.
fn open_day_before(calendar: &Calendar, today: u64, back: u64) -> u64 {
    let mut day = today;
    let mut found = today;
    for _ in 0..back {
        loop {
            if day == 0 {
                return found;
            }
            day -= 1;
            if calendar.is_open(day) == Ok(true) {
                break;
            }
        }
        found = day;
    }
    found
}

fn random_open_day(calendar: &Calendar, random: &mut Random) -> u64 {
    loop {
        let day = match random.below(8) {
            0 => random.between(1, 30),
            1 => random.between(LAST_DAY - 30, LAST_DAY),
            _ => random.between(1, LAST_DAY),
        };
        if calendar.is_open(day) == Ok(true) {
            return day;
        }
    }
}

/// How large lots, prices and accounts are.
#[derive(Clone, Copy, PartialEq)]
enum Size {
    /// A lot is worth a few cents or none, so that rounding decides much.
    Cents,
    /// Anything in range, the ends of the ranges often.
    Any,
    /// As on the desk: lots of 1,000 near par.
    Desk,
}

fn random_security(random: &mut Random, size: Size) -> (u64, u64, u64) {
    match size {
        Size::Cents => (
            random.between(1, 40),
            match random.below(4) {
                0 => 1,
                1 => random.between(1, 300),
                _ => random.between(1, 30_000),
            },
            match random.below(4) {
                0 => 9_999,
                1 => 0,
                _ => random.between(0, 9_999),
            },
        ),
        Size::Any => (
            match random.below(6) {
                0 => random.one_of(&[1, 2, 3, 10, 999_999, 1_000_000]),
                1 => random.between(1, 100),
                _ => random.between(1, 1_000_000),
            },
            match random.below(6) {
                0 => random.one_of(&[1, 2, 9_999, 10_000, 1_000_000, 2_999_999, 3_000_000]),
                1 => random.between(1, 20_000),
                _ => random.between(1, 3_000_000),
            },
            match random.below(6) {
                0 => random.one_of(&[0, 1, 9_998, 9_999]),
                1 => random.between(9_900, 9_999),
                _ => random.between(0, 9_999),
            },
        ),
        Size::Desk => (1_000, random.between(900_000, 1_100_000), random.between(50, 2_000)),
    }
}

fn random_nominal(random: &mut Random, size: Size, lot: u64) -> u64 {
    let lot = lot.max(1);
    let nominal = match (random.below(8), size) {
        (0, _) => 0,
        (1, _) => lot - 1,
        (2, _) => lot,
        (3, Size::Any) => GREATEST_NOMINAL,
        (4, Size::Any) => GREATEST_NOMINAL / lot * lot,
        (5, Size::Any) => random.between(0, GREATEST_NOMINAL),
        (4, _) => lot * random.between(1, 30) + random.below(lot),
        (5, Size::Cents) => random.between(0, 5_000_000),
        (5, Size::Desk) => lot * random.between(1, 100_000),
        _ => lot * random.between(1, 60),
    };
    nominal.min(GREATEST_NOMINAL)
}

/// A legal case; the amount is still 0.
fn random_case(calendar: &Calendar, random: &mut Random, size: Size) -> Case {
    let today = random_open_day(calendar, random);
    let mut case = Case {
        account: [0; SECURITIES],
        columns: [0; COLUMNS],
        map: match random.below(6) {
            0 => u64::MAX,
            1 => 1 << random.below(64),
            2 => (random.bits() & random.bits()).max(1),
            _ => (random.bits() | random.bits()).max(1),
        },
        oldest: match random.below(6) {
            0 => 0,
            1 => 255,
            2 => random.between(0, 255),
            _ => random.between(0, 12),
        },
        today,
        amount: 0,
    };
    // Now and then hardly anything is set up, or hardly anything is held.
    let set_up_of_16 = random.one_of(&[1, 8, 13, 16, 16, 16]);
    let held_of_16 = random.one_of(&[0, 2, 10, 14, 16, 16]);
    let near_oldest = random.once_in(2);
    for n in 0..SECURITIES {
        if random.below(16) < set_up_of_16 {
            let (lot, price, haircut) = random_security(random, size);
            let age = match random.below(8) {
                0 => 0,
                1 => random.between(0, 270),
                _ if near_oldest => random.near(case.oldest),
                _ => random.between(0, 12),
            };
            let quote = open_day_before(calendar, today, age);
            case.set(n, lot, price, haircut, quote);
        }
        if random.below(16) < held_of_16 {
            // Nominals of securities that are not set up are in range too.
            case.account[n] = random_nominal(random, size, case.columns[n]);
        }
    }
    case
}

/// Amounts for a Pick or a Free: ends, random ones, and near sums of the values held.
fn random_amount(random: &mut Random, case: &Case, size: Size) -> u64 {
    let values = (0..SECURITIES).map(|n| case.security(n).worth(case.account[n]));
    let total: u64 = values.clone().sum();
    let amount = match random.below(10) {
        0 => random.one_of(&[0, 1, 2, GREATEST_AMOUNT]),
        1 => random.near(total),
        2 => random.below(total + 1),
        3 => random.below(total / 10 + 1),
        4 => {
            // The first securities' values.
            let first = random.below(64) as usize;
            random.near(values.take(first).sum())
        }
        5 => {
            // All but one security, and a part of that one.
            let one = case.security(random.below(64) as usize);
            let part = one.worth(one.lot * random.below(20));
            random.near(total.saturating_sub(part))
        }
        6 if size == Size::Cents => random.below(200),
        7 => random.between(0, GREATEST_AMOUNT),
        _ => random.below(total * 6 / 5 + 2),
    };
    amount.min(GREATEST_AMOUNT)
}

fn random_picks(seed: u64, cases: u64, size: Size) {
    let calendar = Calendar::new();
    let mut random = Random::new(seed);
    let (mut found_some, mut found_all) = (0, 0);
    for _ in 0..cases {
        let mut case = random_case(&calendar, &mut random, size);
        for _ in 0..4 {
            case.amount = random_amount(&mut random, &case, size);
            let answer = same_pick(&calendar, &case);
            found_some += u64::from(answer.count > 1);
            found_all += u64::from(answer.value == case.amount);
        }
    }
    // The cases are worth something only if many of them find something.
    assert!(
        found_some > cases / 2 && found_all > cases / 100,
        "{found_some} {found_all} of {cases}"
    );
}

#[test]
fn random_picks_of_cents() {
    random_picks(0x91c0_0000_0000_0001, 20_000, Size::Cents);
}

#[test]
fn random_picks_of_any_size() {
    random_picks(0x91c0_0000_0000_0002, 20_000, Size::Any);
}

#[test]
fn random_picks_as_on_the_desk() {
    random_picks(0x91c0_0000_0000_0003, 10_000, Size::Desk);
}

fn random_frees(seed: u64, cases: u64, size: Size) {
    let calendar = Calendar::new();
    let mut random = Random::new(seed);
    let (mut gave_some, mut kept_all) = (0, 0);
    for _ in 0..cases {
        let mut case = random_case(&calendar, &mut random, size);
        for _ in 0..4 {
            case.amount = random_amount(&mut random, &case, size);
            let answer = same_free(&case);
            gave_some += u64::from(answer.count > 1);
            kept_all += u64::from(answer.count == 0);
        }
    }
    assert!(gave_some > cases / 2 && kept_all > cases / 10, "{gave_some} {kept_all} of {cases}");
}

#[test]
fn random_frees_of_cents() {
    random_frees(0xf4ee_0000_0000_0001, 20_000, Size::Cents);
}

#[test]
fn random_frees_of_any_size() {
    random_frees(0xf4ee_0000_0000_0002, 20_000, Size::Any);
}

#[test]
fn random_frees_as_on_the_desk() {
    random_frees(0xf4ee_0000_0000_0003, 10_000, Size::Desk);
}

/// What a Pick took, given down to the amount found, and what a mark would do after prices moved.
#[test]
fn a_pick_then_a_free() {
    let calendar = Calendar::new();
    let mut random = Random::new(0xf4ee_0000_0000_0004);
    for _ in 0..10_000 {
        let size = if random.once_in(2) { Size::Desk } else { Size::Cents };
        let mut case = random_case(&calendar, &mut random, size);
        case.amount = random_amount(&mut random, &case, size);
        let picked = same_pick(&calendar, &case);
        case.account = picked.nominals;
        case.amount = random.near(picked.value);
        same_free(&case);
        for n in 0..SECURITIES {
            let price = &mut case.columns[SECURITIES + n];
            if *price != 0 {
                *price =
                    random.between(*price - *price / 5, *price + *price / 5).clamp(1, 3_000_000);
            }
        }
        same_free(&case);
    }
}

// Pick and Free by trying every count of lots, as document 01 words them: no arithmetic but the
// value itself.

fn pick_by_trying(calendar: &Calendar, case: &Case) -> PickAnswer {
    let mut answer = PickAnswer::refused(0);
    let mut rest = case.amount;
    for n in 0..SECURITIES {
        let security = case.security(n);
        let in_map = case.map >> n & 1 == 1;
        if !in_map
            || security.lot == 0
            || worth(security.lot, security.price, security.haircut) == 0
        {
            continue;
        }
        if calendar.price_age(security.quote, case.today).unwrap() > case.oldest {
            continue;
        }
        let mut largest = 0;
        let mut nominal = 0;
        while nominal <= case.account[n] {
            if worth(nominal, security.price, security.haircut) <= rest {
                largest = nominal;
            }
            nominal += security.lot;
        }
        answer.nominals[n] = largest;
        answer.count += u64::from(largest > 0);
        rest -= worth(largest, security.price, security.haircut);
    }
    answer.value = case.amount - rest;
    answer
}

fn free_by_trying(case: &Case) -> FreeAnswer {
    let value_of = |position: &[u64; SECURITIES]| -> u64 {
        (0..SECURITIES).map(|n| case.security(n).worth(position[n])).sum()
    };
    let mut position = case.account;
    let mut answer = FreeAnswer::refused(0);
    for n in (0..SECURITIES).rev() {
        let lot = case.security(n).lot;
        let mut largest = 0;
        let mut back = 0;
        while lot != 0 && back <= position[n] {
            let mut left = position;
            left[n] -= back;
            if value_of(&left) >= case.amount {
                largest = back;
            }
            back += lot;
        }
        position[n] -= largest;
        answer.nominals[n] = largest;
        answer.count += u64::from(largest > 0);
    }
    answer.left = value_of(&position);
    answer
}

/// Small accounts in a few securities, the others empty.
fn small_case(calendar: &Calendar, random: &mut Random) -> Case {
    let today = random_open_day(calendar, random);
    let mut case = Case {
        account: [0; SECURITIES],
        columns: [0; COLUMNS],
        map: u64::MAX,
        oldest: random.between(0, 4),
        today,
        amount: 0,
    };
    if random.once_in(3) {
        case.map = random.bits().max(1);
    }
    for _ in 0..random.between(1, 6) {
        let n = random.one_of(&[0, 1, 2, 3, 31, 32, 62, 63, 7, 40]) as usize;
        let (lot, price, haircut) = random_security(random, Size::Cents);
        let age = random.between(0, 5);
        case.set(n, lot, price, haircut, open_day_before(calendar, today, age));
        case.account[n] = random.between(0, lot * 12);
    }
    let total: u64 = (0..SECURITIES).map(|n| case.security(n).worth(case.account[n])).sum();
    case.amount = match random.below(4) {
        0 => random.near(total),
        1 => random.below(12),
        _ => random.below(total + 3),
    };
    case
}

#[test]
fn pick_and_free_by_trying_every_count_of_lots() {
    let calendar = Calendar::new();
    let mut random = Random::new(0x7417_0000_0000_0001);
    for _ in 0..12_000 {
        let case = small_case(&calendar, &mut random);
        let (picked, freed) = (case.pick(), case.free());
        assert!(
            picked == pick_by_trying(&calendar, &case),
            "Pick gave {picked:?}\n{}",
            case.describe()
        );
        assert!(freed == free_by_trying(&case), "Free gave {freed:?}\n{}", case.describe());
        same_pick(&calendar, &case);
        same_free(&case);
    }
}

/// One security, every amount from 0 to past the account's value.
#[test]
fn every_amount_of_one_security() {
    let calendar = Calendar::new();
    for (lot, price, haircut) in
        [(1, 5_000, 0), (2, 5_000, 0), (3, 3_333, 1), (7, 20_000, 9_000), (1, 30_000, 1)]
    {
        for n in [0, 33, 63] {
            let mut case = Case {
                account: [0; SECURITIES],
                columns: [0; COLUMNS],
                map: 1 << n,
                oldest: 0,
                today: 1,
                amount: 0,
            };
            case.set(n, lot, price, haircut, 1);
            for nominal in 0..30 {
                case.account[n] = nominal;
                for amount in 0..12 {
                    case.amount = amount;
                    let picked = same_pick(&calendar, &case);
                    assert_eq!(picked, pick_by_trying(&calendar, &case));
                    let freed = same_free(&case);
                    assert_eq!(freed, free_by_trying(&case));
                }
            }
        }
    }
}

/// A case where every security is set up and held, which each refusal below damages in one place.
fn full_case() -> Case {
    let mut case = Case {
        account: [50_000; SECURITIES],
        columns: [0; COLUMNS],
        map: u64::MAX,
        oldest: 5,
        // Thursday 28 March 2002, before Good Friday.
        today: 86,
        amount: 100_000_000,
    };
    for n in 0..SECURITIES {
        case.set(n, 1_000, 990_000 + n as u64, 500, 85);
    }
    case
}

/// Both programs refuse with this code and zeros.
fn refused_pick(calendar: &Calendar, case: &Case, code: u64) {
    let answer = same_pick(calendar, case);
    assert_eq!(answer, PickAnswer::refused(code), "{}", case.describe());
}

fn refused_free(case: &Case, code: u64) {
    let answer = same_free(case);
    assert_eq!(answer, FreeAnswer::refused(code), "{}", case.describe());
}

const LOTS: usize = 0;
const PRICES: usize = SECURITIES;
const HAIRCUTS: usize = 2 * SECURITIES;
const QUOTES: usize = 3 * SECURITIES;

/// A change of one column, and whether it leaves the security in range.
type Change = (usize, &'static [u64], bool);

#[test]
fn refusals_by_ranges() {
    let calendar = Calendar::new();
    let full = full_case();
    assert_eq!(same_pick(&calendar, &full).code, 0);
    assert_eq!(same_free(&full).code, 0);

    for n in 0..SECURITIES {
        // Nominals.
        for nominal in [0, 1, 499_999_999, 500_000_000] {
            let mut case = full.clone();
            case.account[n] = nominal;
            assert_eq!(same_pick(&calendar, &case).code, 0);
            assert_eq!(same_free(&case).code, 0);
        }
        for nominal in [500_000_001, 1 << 32, (1 << 32) + 1, 1 << 63, u64::MAX] {
            let mut case = full.clone();
            case.account[n] = nominal;
            refused_pick(&calendar, &case, 4);
            refused_free(&case, 4);
            // Also where the security is not set up or not in the basket.
            case.set(n, 0, 0, 0, 0);
            case.map = 1 << ((n + 1) % 64);
            refused_pick(&calendar, &case, 4);
            refused_free(&case, 4);
        }

        // Securities that are set up.
        let changes: [Change; 6] = [
            (LOTS, &[1, 999_999, 1_000_000], true),
            (LOTS, &[0, 1_000_001, 1 << 32, (1 << 32) + 1_000, u64::MAX], false),
            (PRICES, &[1, 2_999_999, 3_000_000], true),
            (PRICES, &[0, 3_000_001, 1 << 32, (1 << 32) + 1, u64::MAX], false),
            (HAIRCUTS, &[0, 9_998, 9_999], true),
            (HAIRCUTS, &[10_000, 10_001, 65_536, 1 << 32, u64::MAX], false),
        ];
        for (column, numbers, legal) in changes {
            for &number in numbers {
                let mut case = full.clone();
                case.columns[column + n] = number;
                let code = if legal { 0 } else { 4 };
                assert_eq!(same_pick(&calendar, &case).code, code, "{}", case.describe());
                assert_eq!(same_free(&case).code, code, "{}", case.describe());
                // A security out of range is refused also where nothing is held of it and the
                // basket leaves it out.
                case.account[n] = 0;
                case.map = 1 << ((n + 1) % 64);
                assert_eq!(same_pick(&calendar, &case).code, code, "{}", case.describe());
                assert_eq!(same_free(&case).code, code, "{}", case.describe());
            }
        }

        // Securities that are not set up: all zeros, or refused.
        let mut empty = full.clone();
        empty.set(n, 0, 0, 0, 0);
        assert_eq!(same_pick(&calendar, &empty).code, 0);
        assert_eq!(same_free(&empty).code, 0);
        for number in [1, 85, 1_000, u64::MAX] {
            for column in [PRICES, HAIRCUTS, QUOTES] {
                let mut case = empty.clone();
                case.columns[column + n] = number;
                refused_pick(&calendar, &case, 4);
                refused_free(&case, 4);
            }
        }
    }

    // The basket and the amount.
    for (oldest, legal) in
        [(0, true), (255, true), (256, false), (1 << 32, false), (u64::MAX, false)]
    {
        let case = Case { oldest, ..full.clone() };
        assert_eq!(same_pick(&calendar, &case).code, if legal { 0 } else { 4 });
    }
    refused_pick(&calendar, &Case { map: 0, ..full.clone() }, 4);
    for amount in [0, 1, GREATEST_AMOUNT - 1, GREATEST_AMOUNT] {
        let case = Case { amount, ..full.clone() };
        assert_eq!(same_pick(&calendar, &case).code, 0);
        assert_eq!(same_free(&case).code, 0);
    }
    for amount in [GREATEST_AMOUNT + 1, 1 << 44, 1 << 63, u64::MAX] {
        refused_pick(&calendar, &Case { amount, ..full.clone() }, 4);
        refused_free(&Case { amount, ..full.clone() }, 4);
    }
}

#[test]
fn refusals_by_days() {
    let calendar = Calendar::new();
    let full = full_case();
    // Good Friday, the weekend, Easter Monday, past the end, and a day that 32 bits would cut.
    for today in [87, 88, 89, 90, LAST_DAY + 1, LAST_DAY + 2, (1 << 32) + 86, u64::MAX] {
        refused_pick(&calendar, &Case { today, ..full.clone() }, 7);
        let nothing_set_up = Case { today, columns: [0; COLUMNS], ..full.clone() };
        refused_pick(&calendar, &nothing_set_up, 7);
    }
    // The last day of all, a Monday, is open, and so is the Friday before.
    let mut last = Case { today: LAST_DAY, amount: GREATEST_AMOUNT, ..full.clone() };
    for n in 0..SECURITIES {
        last.columns[QUOTES + n] = if n % 2 == 0 { LAST_DAY } else { LAST_DAY - 3 };
    }
    for (oldest, count) in [(0, 32), (1, 64)] {
        last.oldest = oldest;
        assert_eq!(same_pick(&calendar, &last).count, count);
    }
    // All quotes are of day 85.
    refused_pick(&calendar, &Case { today: 84, ..full.clone() }, 7);
    assert_eq!(same_pick(&calendar, &Case { today: 85, ..full.clone() }).code, 0);
    for n in 0..SECURITIES {
        // Closed days, a day after today that is open, past the end.
        for quote in [0, 81, 82, 87, 90, 91, LAST_DAY, LAST_DAY + 1, (1 << 32) + 85, u64::MAX] {
            let mut case = full.clone();
            case.columns[QUOTES + n] = quote;
            refused_pick(&calendar, &case, 7);
            // Also where nothing is held of it and the basket leaves it out.
            case.account[n] = 0;
            case.map = 1 << ((n + 1) % 64);
            refused_pick(&calendar, &case, 7);
            // Free looks at no quote day.
            assert_eq!(same_free(&case).code, 0);
            // "The lowest that applies is given": 4 before 7.
            case.amount = GREATEST_AMOUNT + 1;
            refused_pick(&calendar, &case, 4);
            case.amount = 0;
            case.account[(n + 5) % 64] = GREATEST_NOMINAL + 1;
            refused_pick(&calendar, &case, 4);
        }
        for quote in [1, 70, 84, 85, 86] {
            let mut case = full.clone();
            case.columns[QUOTES + n] = quote;
            assert_eq!(same_pick(&calendar, &case).code, 0);
        }
    }
}

/// Random damage to random cases, several at a time.
#[test]
fn random_damage() {
    let calendar = Calendar::new();
    let mut random = Random::new(0xda4a_0000_0000_0001);
    let mut codes = [0; 8];
    for _ in 0..40_000 {
        let mut case = random_case(&calendar, &mut random, Size::Any);
        case.amount = random_amount(&mut random, &case, Size::Any);
        for _ in 0..random.between(1, 2) {
            let n = random.below(64) as usize;
            match random.below(9) {
                0 => case.account[n] = random.any_length(),
                1 => case.columns[LOTS + n] = random.any_length(),
                2 => case.columns[PRICES + n] = random.any_length(),
                3 => case.columns[HAIRCUTS + n] = random.any_length(),
                4 => {
                    let day = random.near(case.today);
                    if case.columns[n] != 0 {
                        case.columns[QUOTES + n] = day;
                    }
                }
                5 => case.map = random.any_length(),
                6 => case.oldest = random.any_length(),
                7 => case.today = random.any_length() >> 46,
                _ => case.amount = random.any_length(),
            }
        }
        codes[same_pick(&calendar, &case).code as usize] += 1;
        same_free(&case);
    }
    assert!(codes[0] > 1_000 && codes[4] > 1_000 && codes[7] > 1_000, "{codes:?}");
}

/// Eligible: the greatest age, and lots worth 0 cents and 1 cent.
#[test]
fn eligible_at_its_edges() {
    let calendar = Calendar::new();
    // Age of a quote of day 86 on day 91 is 1 (document 01, Edges).
    let mut case = full_case();
    case.today = 91;
    for n in 0..SECURITIES {
        case.set(n, 1_000, 1_000_000, 500, if n % 2 == 0 { 86 } else { 85 });
    }
    for (oldest, count) in [(0, 0), (1, 32), (2, 64)] {
        let answer =
            same_pick(&calendar, &Case { oldest, amount: GREATEST_AMOUNT, ..case.clone() });
        assert_eq!(answer.count, count);
    }
    // One lot of 1 at price 10,000 is worth a cent; at 9,999 it is worth nothing.
    for n in 0..SECURITIES {
        case.set(n, 1, if n % 2 == 0 { 10_000 } else { 9_999 }, 0, 91);
        case.account[n] = 10;
    }
    let answer = same_pick(&calendar, &Case { amount: 1_000, ..case.clone() });
    assert_eq!((answer.value, answer.count), (320, 32));
    // Free gives lots worth nothing back as well, as far as the value of the rest allows.
    let freed = same_free(&Case { amount: 320 + 32 * 9, ..case.clone() });
    assert_eq!((freed.left, freed.count), (608, 32 - 32));
}
