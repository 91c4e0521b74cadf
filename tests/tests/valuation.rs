//! The valuation library against the second program.

use yordzepa_tests::answers::Answer;
use yordzepa_tests::proved;
use yordzepa_tests::random::Random;
use yordzepa_tests::second::valuation;

fn same(nominal: u64, price: u64, haircut: u64) {
    let expected = match valuation::value(nominal, price, haircut) {
        Ok(value) => Answer { code: 0, value },
        Err(code) => Answer::refused(code),
    };
    assert_eq!(
        proved::value(nominal, price, haircut),
        expected,
        "nominal {nominal}, price {price}, haircut {haircut}"
    );
}

/// Document 01, Edges.
#[test]
fn edges_of_document_01() {
    for (nominal, price, haircut, value) in [
        (1_000, 1_000_000, 500, 95_000),
        (1, 5_000, 0, 0),
        (2, 5_000, 0, 1),
        (500_000_000, 3_000_000, 0, 150_000_000_000),
    ] {
        assert_eq!(proved::value(nominal, price, haircut), Answer { code: 0, value });
    }
}

#[test]
fn all_edges_of_the_ranges() {
    let nominals =
        [0, 1, 2, 99, 100, 499_999_999, 500_000_000, 500_000_001, 1 << 32, 1 << 63, u64::MAX];
    let prices = [
        0,
        1,
        2,
        9_999,
        10_000,
        999_999,
        1_000_000,
        2_999_999,
        3_000_000,
        3_000_001,
        1 << 32,
        u64::MAX,
    ];
    let haircuts = [0, 1, 2, 500, 5_000, 9_998, 9_999, 10_000, 10_001, 65_535, 1 << 32, u64::MAX];
    for nominal in nominals {
        for price in prices {
            for haircut in haircuts {
                same(nominal, price, haircut);
            }
        }
    }
}

#[test]
fn random_numbers_in_range() {
    let mut random = Random::new(0x0a1e_0000_0000_0001);
    for _ in 0..1_500_000 {
        same(
            random.between(0, 500_000_000),
            random.between(1, 3_000_000),
            random.between(0, 9_999),
        );
    }
}

#[test]
fn random_numbers_of_any_length() {
    let mut random = Random::new(0x0a1e_0000_0000_0002);
    for _ in 0..1_500_000 {
        same(random.any_length() >> 20, random.any_length() >> 30, random.any_length() >> 45);
        same(random.any_length(), random.any_length(), random.any_length());
    }
}

#[test]
fn random_numbers_near_the_ends_of_the_ranges() {
    let mut random = Random::new(0x0a1e_0000_0000_0003);
    for _ in 0..1_000_000 {
        let nominal = random.one_of(&[0, 1, 500_000_000]);
        let price = random.one_of(&[1, 2, 1_000_000, 3_000_000]);
        let haircut = random.one_of(&[0, 1, 9_999]);
        same(random.near(nominal), random.near(price), random.near(haircut));
    }
}

/// Nominals at which the value steps from one cent to the next.
#[test]
fn random_steps_of_one_cent() {
    let mut random = Random::new(0x0a1e_0000_0000_0004);
    for _ in 0..300_000 {
        let price = random.between(1, 3_000_000);
        let haircut = random.between(0, 9_999);
        let factor = u128::from(price) * u128::from(10_000 - haircut);
        let cents = random.any_length() >> 27;
        let step = (u128::from(cents) * 100_000_000 / factor).min(500_000_000) as u64;
        for nominal in step.saturating_sub(1)..=step + 2 {
            same(nominal, price, haircut);
        }
    }
}
