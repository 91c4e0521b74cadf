//! Books that a host may lend and no list of calls reaches: the second program and the desk under test
//! agree on which of them are sound, and answer the reads and the calls of the next days alike. And a
//! test of this test: wrong programs that only such books show are found.

use yordzepa_tests::compare::{run, Checks, Coverage};
use yordzepa_tests::desk::{under_test, SecondDesk};
use yordzepa_tests::driver::{first_difference, shortest, Job};
use yordzepa_tests::image::{book_of, bytes_of};
use yordzepa_tests::lent::Class;
use yordzepa_tests::lists::{list, Theme};
use yordzepa_tests::random::Random;
use yordzepa_tests::second::book::{Book, Turn};
use yordzepa_tests::second::days::Days;
use yordzepa_tests::second::sound::is_sound;

/// Books, each with the calls of a day or more.
const SEEDS: u64 = 480;

/// After every call the answer, all bytes and some reads; every read on the book as it is lent, after
/// every twentieth call that changed it, and at the end.
const CHECKS: Checks = Checks { bytes: true, reads: 4, sweep: 20 };

fn jobs() -> impl Iterator<Item = Job> {
    (1..=SEEDS).map(|seed| Job { theme: Theme::Unreached, seed, checks: CHECKS })
}

fn lent(job: &Job) -> Book {
    let bytes = job.list().book.expect("a lent book");
    let book = *book_of(&bytes).expect("a book of the second program");
    assert!(bytes_of(&book) == bytes);
    book
}

/// How many of the books are of a class, sound and not.
#[test]
fn every_class_is_lent_sound_and_not() {
    let mut counts = vec![[0; 2]; Class::ALL.len()];
    let mut all = [0; 2];
    for book in jobs().map(|job| lent(&job)) {
        let sound = usize::from(is_sound(&book, Days::shared()));
        all[sound] += 1;
        for (class, count) in Class::ALL.iter().zip(&mut counts) {
            count[sound] += usize::from(class.shown_by(&book));
        }
    }
    println!("{} books are sound, {} are not", all[1], all[0]);
    for (class, [unsound, sound]) in Class::ALL.iter().zip(counts) {
        println!("{class:?}: {sound} sound, {unsound} not");
        assert!(sound >= 10, "{class:?}: {sound} sound books");
    }
    assert!(all[0] >= 40 && all[1] >= 300, "{all:?}");
}

#[test]
fn they_are_answered_alike() {
    let (coverage, found) = first_difference(jobs(), &under_test, &|_, _| true);
    if let Some(job) = found {
        panic!("{}", shortest(&job, &under_test));
    }
    println!("{}", coverage.text());
    for (kind, codes) in coverage.pairs.iter().enumerate().take(13).skip(1) {
        assert!(codes[0] > 0, "kind {kind} was never accepted");
        assert!(codes[2] > 0, "kind {kind} was never refused for the book");
    }
    for (place, codes) in coverage.questions.iter().enumerate() {
        assert!(codes[0] > 0 && codes[2] > 0, "read {place}");
    }
}

/// Each class by itself, so that none hides behind another: made whole on the book of a list it
/// leaves a sound book of the class, by halves one that is not sound.
#[test]
fn each_class_is_sound_whole_and_not_by_halves() {
    let mut random = Random::new(0x1e27);
    for &class in Class::ALL {
        let (mut shown, mut unsound) = (0, 0);
        let themes = Theme::FROM_AN_OPENING;
        let short = themes.into_iter().map(|theme| (theme, 60));
        let long = themes.into_iter().map(|theme| (theme, 150));
        for ((theme, length), seed) in short.chain(long).zip(501..) {
            let mut desk = SecondDesk::new();
            run(&list(theme, seed, length), &mut desk, ANSWERS, &mut Coverage::new());
            for by_halves in [false, true] {
                let mut book = desk.book().clone();
                class.make(&mut book, &mut random, by_halves);
                let sound = is_sound(&book, Days::shared());
                assert!(sound || by_halves, "{class:?}, {theme:?}, seed {seed}");
                shown += usize::from(sound && class.shown_by(&book));
                unsound += usize::from(!sound);
                let mut other = under_test();
                other.lend(&bytes_of(&book));
                assert_eq!(other.call(&[9])[0] == 2, !sound, "{class:?}, {theme:?}, seed {seed}");
            }
        }
        println!("{class:?}: {shown} sound books, {unsound} by halves that are not");
        assert!(shown >= 3, "{class:?}: {shown} sound books");
        // One owner's note is as sound as both.
        assert!(unsound >= 3 || class == Class::NotedByBoth, "{class:?}: {unsound} not sound");
    }
}

/// The answers alone.
const ANSWERS: Checks = Checks { bytes: false, reads: 0, sweep: 1_000 };

/// Each of these programs answers the lists from an opening as the right one does, to the last byte,
/// and is found by lent books.
#[test]
fn wrong_programs_are_found_by_lent_books_alone() {
    let from_openings = || Theme::FROM_AN_OPENING.into_iter().map(|theme| list(theme, 1, 500));
    let bytes = Checks { bytes: true, ..ANSWERS };
    for &turn in Turn::UNREACHED {
        let difference =
            |list| run(&list, &mut SecondDesk::wrong(turn), bytes, &mut Coverage::new());
        let by_openings = from_openings().find_map(difference);
        assert!(by_openings.is_none(), "{turn:?} shows without a lent book: {by_openings:?}");
        let found = jobs().find_map(|job| difference(job.list()).map(|found| (job.seed, found)));
        let (seed, found) = found.unwrap_or_else(|| panic!("{turn:?} is not found"));
        println!("{turn:?}: by book {seed}, call {}: {}", found.place + 1, found.text);
    }
}
