//! The second program against another desk on lists of calls: the proved engine with the feature
//! `engine`, else the second program itself. And a test of this test: wrong programs are found.

use yordzepa_tests::compare::{run, run_beside, shrink, text, Checks, Coverage, KINDS};
use yordzepa_tests::desk::{under_test, Desk, SecondDesk};
use yordzepa_tests::driver::{first_difference, jobs, shortest};
use yordzepa_tests::lists::{List, Theme};
use yordzepa_tests::second::book::Turn;
use yordzepa_tests::second::ledger::{Lapse, Ledger};
use yordzepa_tests::second::notes::Branch;

/// Lists of each theme, of 500 calls each. The environment's SEEDS asks for more, and `make fuzz`
/// goes on with others.
const SEEDS: u64 = 45;

/// After every call: the answer, all bytes of the book, demand 3's sums, a read of all that the call
/// changed and some of the rest; after every tenth call that changed the book a read of every account,
/// position, exposure, request and basket. Each read tests the whole book's soundness, so that reading
/// all of them after each change takes seven times as long and is left to `make fuzz`.
const CHECKS: Checks = Checks { bytes: true, reads: 4, sweep: 10 };

fn checks(_: Theme, _: u64) -> Checks {
    CHECKS
}

fn seeds() -> std::ops::RangeInclusive<u64> {
    let seeds = std::env::var("SEEDS").ok().and_then(|number| number.parse().ok());
    1..=seeds.unwrap_or(SEEDS)
}

fn lists() -> impl Iterator<Item = List> {
    jobs(seeds(), checks).map(|job| job.list())
}

/// Pairs of kind and code that the lists have to reach; the last line is any other kind.
const PAIRS: [&[usize]; KINDS] = [
    &[0, 1, 3, 4, 7],
    &[0, 1, 2, 3, 4, 6, 7],
    &[0, 1, 2, 3, 4],
    &[0, 1, 2, 3, 4, 6],
    &[0, 1, 2, 3, 4, 5, 11],
    &[0, 1, 2, 3, 4, 5, 10],
    &[0, 1, 2, 3, 4, 5, 7, 8, 9, 14, 15],
    &[0, 1, 2, 3, 4, 5, 7, 8, 9, 12, 14],
    &[0, 1, 2, 3, 4, 5, 12, 13],
    &[0, 1, 2, 3],
    &[0, 1, 2, 3],
    &[0, 1, 2, 3, 4, 5, 10, 12, 16],
    &[0, 1, 2, 3, 7],
    &[1, 2, 3],
];

#[test]
fn lists_of_calls_are_answered_alike() {
    let (coverage, found) = first_difference(jobs(seeds(), checks), &under_test, &|_, _| true);
    if let Some(job) = found {
        panic!("{}", shortest(&job, &under_test));
    }
    println!("{}", coverage.text());
    for (kind, codes) in PAIRS.iter().enumerate() {
        for &code in codes.iter() {
            assert!(coverage.pairs[kind][code] > 0, "kind {kind} never gave {code}");
        }
    }
    for &branch in Branch::ALL {
        assert!(coverage.branch(branch) > 0, "{branch:?} was never reached");
    }
    for (place, codes) in coverage.questions.iter().enumerate() {
        for code in [0, 1, 2, 4, 5] {
            // A request's number has no range of its own.
            if (place, code) != (3, 4) {
                assert!(codes[code] > 0, "read {place} never gave {code}");
            }
        }
    }
    assert!(coverage.calls >= 200_000, "{} calls", coverage.calls);
}

/// Answers and reads alone find a wrong program: no look at its bytes.
const WITHOUT_BYTES: Checks = Checks { bytes: false, reads: 4, sweep: 500 };

#[test]
fn every_wrong_turn_is_found() {
    let mut missed = Vec::new();
    for &turn in Turn::WRONG {
        let mut calls = 0;
        let found = lists().find_map(|list| {
            let mut desk = SecondDesk::wrong(turn);
            let found = run(&list, &mut desk, WITHOUT_BYTES, &mut Coverage::new());
            calls += found.as_ref().map_or(list.calls.len(), |difference| difference.place);
            found.map(|difference| (list, difference))
        });
        match found {
            None => missed.push(turn),
            Some((list, difference)) => {
                println!("{turn:?}: after {calls} calls, {:?}: {}", list.theme, difference.text)
            }
        }
    }
    assert!(missed.is_empty(), "not found: {missed:?}");
}

/// A ledger that forgets withdrawals or closings does not agree with a right program: so the ledger
/// is compared. By the other desk's reads alone, as above.
#[test]
fn every_wrong_ledger_is_found() {
    let ledgers: [fn() -> Ledger; 2] =
        [|| Ledger::wrong(Lapse::Withdrawals), || Ledger::wrong(Lapse::Closings)];
    for (place, ledger) in ledgers.iter().enumerate() {
        let checks = Checks { sweep: 50, ..WITHOUT_BYTES };
        let found = lists().find_map(|list| {
            let mut desk = SecondDesk::new();
            run_beside(&list, &mut desk, *ledger, checks, &mut Coverage::new())
        });
        println!("{place}: {:?}", found.expect("a list that shows it"));
    }
}

/// The shortest list found for a wrong program is short, and still shows it.
#[test]
fn a_difference_is_shown_by_a_short_list() {
    for (turn, most) in [
        (Turn::LatestFirst, 12),
        (Turn::FirstPairOnly, 16),
        (Turn::ToleranceOffByOne, 12),
        (Turn::FreesNamedExposure, 20),
    ] {
        let make = || -> Box<dyn Desk> { Box::new(SecondDesk::wrong(turn)) };
        let differs = |list: &List| run(list, &mut *make(), WITHOUT_BYTES, &mut Coverage::new());
        let long = lists().find(|list| differs(list).is_some()).expect("a list that shows it");
        let short = shrink(&long, WITHOUT_BYTES, &make);
        assert!(differs(&short).is_some(), "{turn:?} is lost");
        assert!(short.calls.len() <= most, "{turn:?}\n{}", text(&short, &make));
    }
}
