//! The benchmark's book is as busy as it says, and the second program's soundness test is quick.

use std::time::Instant;
use yordzepa_tests::busy;
use yordzepa_tests::second::book::Program;
use yordzepa_tests::second::days::Days;
use yordzepa_tests::second::notes::Silent;
use yordzepa_tests::second::sound::is_sound;

#[test]
fn the_busy_book_is_busy() {
    let book = busy::book();
    assert!(is_sound(&book, Days::shared()));
    assert_eq!(book.used_rows().count(), 240);
    assert_eq!(book.used_exposures().count(), 40);
    let positions: Vec<usize> = book
        .used_exposures()
        .map(|(e, _)| book.positions[e].iter().filter(|&&nominal| nominal != 0).count())
        .collect();
    assert!(positions.iter().all(|&count| count >= 5), "{positions:?}");
}

/// Prints times; nothing passes or fails by them.
#[test]
fn times_on_the_busy_book() {
    let mut program = Program::of(busy::book());
    let rounds = 2_000;
    let time = |name: &str, act: &mut dyn FnMut() -> u64| {
        let mut best = f64::INFINITY;
        for _ in 0..20 {
            let start = Instant::now();
            let mut sum = 0;
            for _ in 0..rounds / 20 {
                sum += act();
            }
            assert!(sum < u64::MAX);
            best = best.min(start.elapsed().as_nanos() as f64 / f64::from(rounds / 20));
        }
        println!("{name}: {:.2} microseconds", best / 1000.0);
    };
    time("soundness test", &mut || u64::from(program.is_sound()));
    time("a settle with nothing due", &mut || program.call(&[9], &mut Silent)[0]);
    time("a mark", &mut || program.call(&[10], &mut Silent)[0]);
}
