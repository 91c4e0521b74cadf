//! The report of a basket against the second program.

use yordzepa_tests::answers::Report;
use yordzepa_tests::proved;
use yordzepa_tests::random::Random;
use yordzepa_tests::second::baskets;

fn same(map: u64) {
    let expected = match baskets::report(map) {
        Ok((count, lowest)) => Report { code: 0, count, lowest },
        Err(code) => Report::refused(code),
    };
    assert_eq!(proved::report(map), expected, "map {map:#x}");
}

#[test]
fn the_empty_map_is_refused() {
    assert_eq!(proved::report(0), Report { code: 4, count: 0, lowest: 0 });
}

#[test]
fn one_two_and_three_securities() {
    for a in 0..64 {
        for b in 0..64 {
            for c in 0..64 {
                same(1 << a | 1 << b | 1 << c);
            }
        }
    }
}

#[test]
fn runs_of_securities() {
    for low in 0..64 {
        for high in low..64 {
            let run = u64::MAX >> (63 - high) & u64::MAX << low;
            same(run);
            same(!run);
        }
    }
}

#[test]
fn small_maps() {
    for map in 0..=0xffff {
        same(map);
        same(map << 24);
        same(map << 48);
    }
}

#[test]
fn random_maps() {
    let mut random = Random::new(0x0ba5_0000_0000_0001);
    for _ in 0..300_000 {
        same(random.bits());
        same(random.any_length());
        same(random.bits() & random.bits() & random.bits());
        same(random.any_length() << random.below(64));
    }
}
