//! Document 01's edges and wrong turns on the book, worked out by hand: the second program and the
//! desk under test both have to give these answers.

use yordzepa_tests::desk::{under_test, Desk, SecondDesk};
use yordzepa_tests::lists::record;
use yordzepa_tests::second::days::Days;
use yordzepa_tests::second::reads::Question;

/// Two desks that get the same calls.
struct Both {
    desks: [Box<dyn Desk>; 2],
}

impl Both {
    fn new() -> Both {
        Both { desks: [Box::new(SecondDesk::new()), under_test()] }
    }

    /// The answer of both.
    fn ask(&mut self, kind: u64, fields: &[u64]) -> [u64; 4] {
        let bytes = record(kind, fields);
        let [first, second] = &mut self.desks;
        let answer = first.call(&bytes);
        assert_eq!(answer, second.call(&bytes), "kind {kind} {fields:?}");
        answer
    }

    /// A call that is accepted: A, B and M.
    fn take(&mut self, kind: u64, fields: &[u64]) -> [u64; 3] {
        let [code, a, b, m] = self.ask(kind, fields);
        assert_eq!(code, 0, "kind {kind} {fields:?}");
        [a, b, m]
    }

    /// A call that is refused: the code. "The answer's other fields are 0 and the book is
    /// unchanged."
    fn refuse(&mut self, kind: u64, fields: &[u64]) -> u64 {
        let before = self.desks[1].bytes();
        let [code, a, b, m] = self.ask(kind, fields);
        assert_eq!([a, b, m], [0; 3]);
        assert!(before == self.desks[1].bytes(), "the book has changed");
        code
    }

    fn read(&mut self, question: Question) -> Vec<u64> {
        let [first, second] = &mut self.desks;
        let reply = first.read(question);
        assert_eq!(reply, second.read(question), "{question:?}");
        reply.to_vec()
    }

    fn account(&mut self, participant: u64, security: u64) -> u64 {
        self.read(Question::Account { participant, security })[1]
    }

    fn position(&mut self, exposure: u64, security: u64) -> u64 {
        self.read(Question::Position { exposure, security })[1]
    }

    /// Code and amount of an exposure.
    fn amount(&mut self, exposure: u64) -> (u64, u64) {
        let reply = self.read(Question::Exposure(exposure));
        (reply[0], reply[5])
    }
}

const BY_HAND: u64 = 2;
const AUTOMATIC: u64 = 0;

/// Day 1, tolerance 10,000; givers 1 and 3 by hand, taker 2 by hand or automatic, all partial;
/// security 0 with lots of 100 worth 10,000 cents each; basket 0 with it and the next seven.
fn opened(mode: u64, partial: u64) -> Both {
    let mut both = Both::new();
    both.take(0, &[1, 10_000]);
    both.take(2, &[1, BY_HAND, 0, partial]);
    both.take(2, &[2, mode, 0, partial]);
    both.take(2, &[3, BY_HAND, 0, partial]);
    both.take(1, &[0, 100, 1_000_000, 0, 1]);
    both.take(3, &[0, 255, 5]);
    both
}

/// A FOP of giver 1 and taker 2 in basket 0.
fn fop(side: u64, amount: u64, settlement: u64, closing: u64, reference: u64) -> [u64; 8] {
    [side, 1, 2, 0, amount, settlement, closing, reference]
}

#[test]
fn a_fop_below_the_tolerance_gives_4() {
    let mut both = opened(AUTOMATIC, 1);
    assert_eq!(both.refuse(6, &fop(0, 9_999, 1, 0, 7)), 4);
    assert_eq!(both.take(6, &fop(0, 10_000, 1, 0, 7)), [1, 2, 0]);
}

#[test]
fn a_shortfall_of_9_999_settles_whole_and_10_000_does_not() {
    for (amount, settled) in [(59_999, 59_999), (60_000, 0)] {
        let mut both = opened(AUTOMATIC, 0);
        both.take(4, &[1, 0, 500]);
        both.take(6, &fop(0, amount, 1, 0, 7));
        let changed = u64::from(settled > 0);
        assert_eq!(both.take(9, &[]), [changed, 0, settled]);
        assert_eq!(both.amount(0), (0, settled));
        assert_eq!(both.position(0, 0), 500 * changed);
    }
    // With partial the value found settles, and the rest later.
    let mut both = opened(AUTOMATIC, 1);
    both.take(4, &[1, 0, 500]);
    both.take(6, &fop(0, 60_000, 1, 0, 7));
    assert_eq!(both.take(9, &[]), [1, 0, 50_000]);
    assert_eq!(both.take(9, &[]), [0, 0, 0]);
    both.take(4, &[1, 0, 100]);
    assert_eq!(both.take(9, &[]), [1, 0, 10_000]);
    assert_eq!(both.amount(0), (0, 60_000));
}

#[test]
fn a_257th_row_gives_14() {
    let mut both = opened(BY_HAND, 1);
    for number in 1..=256 {
        assert_eq!(both.take(6, &fop(0, 10_000, 1, 0, number)), [number, 0, 0]);
    }
    assert_eq!(both.refuse(6, &fop(0, 10_000, 1, 0, 7)), 14);
    assert_eq!(both.refuse(6, &fop(1, 10_000, 1, 0, 7)), 14);
    // Ended rows are occupied until the day change.
    both.take(8, &[1, 4]);
    assert_eq!(both.refuse(6, &fop(0, 10_000, 1, 0, 7)), 14);
    assert_eq!(both.take(12, &[]), [2, 256, 0]);
    assert_eq!(both.take(6, &fop(0, 10_000, 2, 0, 7)), [257, 0, 0]);
}

#[test]
fn one_row_is_too_few_for_two() {
    let mut both = opened(AUTOMATIC, 1);
    // Taker 3 is by hand: one row each.
    for _ in 0..255 {
        both.take(6, &[0, 1, 3, 0, 10_000, 1, 0, 7]);
    }
    assert_eq!(both.refuse(6, &fop(0, 10_000, 1, 0, 7)), 14);
    assert_eq!(both.take(6, &[0, 1, 3, 0, 10_000, 1, 0, 7]), [256, 0, 0]);
}

#[test]
fn equal_requests_pair_earliest_first_and_cancel_by_themselves() {
    let mut both = opened(BY_HAND, 1);
    // Two branches of one giver enter the same loan for two customers.
    assert_eq!(both.take(6, &fop(0, 50_000, 1, 0, 100)), [1, 0, 0]);
    assert_eq!(both.take(6, &fop(0, 50_000, 1, 0, 200)), [2, 0, 0]);
    assert_eq!(both.take(6, &fop(1, 50_000, 1, 0, 100)), [3, 1, 0]);
    assert_eq!(both.take(6, &fop(1, 50_000, 1, 0, 200)), [4, 2, 0]);
    both.take(8, &[1, 1]);
    assert_eq!(both.read(Question::Request(1))[12..], [1, 1, 0]);
    both.take(8, &[2, 3]);
    for (number, partner, ended) in [(1, 3, 1), (2, 4, 0), (3, 1, 1), (4, 2, 0)] {
        let reply = both.read(Question::Request(number));
        assert_eq!((reply[11], reply[14]), (partner, ended), "request {number}");
    }
    both.take(4, &[1, 0, 2_000]);
    assert_eq!(both.take(9, &[]), [1, 0, 50_000]);
    assert_eq!(both.read(Question::Request(2))[10], 50_000);
    // Settled whole: 13 to its owner until the day change, 12 to others; ended: 12.
    assert_eq!(both.refuse(8, &[1, 2]), 13);
    assert_eq!(both.refuse(8, &[3, 2]), 12);
    assert_eq!(both.refuse(8, &[1, 1]), 12);
    both.take(12, &[]);
    assert_eq!(both.refuse(8, &[1, 2]), 12);
    assert_eq!(both.read(Question::Request(2))[0], 5);
}

#[test]
fn earliest_is_the_lowest_number_wherever_the_row_stands() {
    let mut both = opened(BY_HAND, 1);
    both.take(6, &fop(0, 20_000, 1, 0, 1));
    both.take(6, &fop(0, 50_000, 3, 0, 2));
    // The first row goes, the second stays; the third request gets the first row.
    assert_eq!(both.take(12, &[]), [2, 1, 0]);
    both.take(6, &fop(0, 50_000, 3, 0, 3));
    assert_eq!(both.take(6, &fop(1, 50_000, 3, 0, 4)), [4, 2, 0]);
    assert_eq!(both.take(6, &fop(1, 50_000, 3, 0, 5)), [5, 3, 0]);
}

#[test]
fn an_automatic_takers_request_is_made_and_its_own_gives_9() {
    let mut both = opened(BY_HAND, 1);
    both.take(6, &fop(1, 50_000, 3, 0, 1));
    // The change holds from the next day, the last one of a day counting.
    both.take(2, &[2, BY_HAND, 0, 0]);
    both.take(2, &[2, 1, 1 << 1, 0]);
    assert_eq!(both.take(6, &fop(1, 60_000, 3, 0, 2)), [2, 0, 0]);
    both.take(12, &[]);
    assert_eq!(both.refuse(6, &fop(1, 50_000, 3, 0, 3)), 9);
    // One is made although an equal one waits from earlier.
    assert_eq!(both.take(6, &fop(0, 50_000, 3, 0, 4)), [3, 4, 0]);
    let reply = both.read(Question::Request(4));
    assert_eq!(reply, [0, 6, 1, 1, 2, 0, 50_000, 3, 0, 4, 0, 3, 0, 0, 0]);
    // The giver alone cancels it, the taker alone does not.
    both.take(8, &[2, 4]);
    assert_eq!(both.read(Question::Request(3))[14], 0);
    both.take(8, &[1, 3]);
    assert_eq!(both.read(Question::Request(3))[14], 1);
    assert_eq!(both.read(Question::Request(4))[14], 1);
    // A giver that is not on the list pairs by hand.
    assert_eq!(both.take(6, &[1, 3, 2, 0, 50_000, 3, 0, 5]), [5, 0, 0]);
}

#[test]
fn a_position_is_valued_at_its_whole_nominal() {
    let mut both = Both::new();
    both.take(0, &[1, 1]);
    both.take(2, &[1, BY_HAND, 0, 1]);
    both.take(2, &[2, AUTOMATIC, 0, 1]);
    // One lot is worth 1.5 cents: two are worth 3, and one and one by themselves 1 and 1.
    both.take(1, &[0, 1, 15_000, 0, 1]);
    both.take(3, &[0, 1, 5]);
    both.take(4, &[1, 0, 2]);
    both.take(6, &fop(0, 1, 1, 0, 7));
    both.take(6, &fop(0, 2, 1, 0, 8));
    assert_eq!(both.take(9, &[]), [2, 0, 2]);
    // The first FOP settles whole; the second finds 1 of its 2 cents and settles in part.
    assert_eq!(both.amount(0), (0, 2));
    assert_eq!(both.position(0, 0), 2);
    // Worth 3 for an exposure of 2: neither lot can go.
    assert_eq!(both.take(10, &[]), [0, 0, 0]);
}

#[test]
fn the_age_of_a_price_counts_open_days() {
    assert_eq!(Days::shared().age(86, 91), 1);
    let mut both = Both::new();
    both.take(0, &[86, 1]);
    both.take(2, &[1, BY_HAND, 0, 1]);
    both.take(2, &[2, AUTOMATIC, 0, 1]);
    both.take(1, &[0, 100, 1_000_000, 0, 86]);
    both.take(3, &[0, 1, 1]);
    both.take(4, &[1, 0, 1_000]);
    // Good Friday, the weekend and Easter Monday are passed over.
    assert_eq!(both.take(12, &[]), [91, 0, 0]);
    both.take(6, &fop(0, 50_000, 91, 0, 7));
    assert_eq!(both.take(9, &[]), [1, 0, 50_000]);
    // The day after, the price is too old: the mark gives back, and finds nothing.
    assert_eq!(both.take(12, &[]), [92, 2, 0]);
    assert_eq!(both.take(10, &[]), [1, 0, 50_000]);
    assert_eq!(both.account(1, 0), 1_000);
}

#[test]
fn after_24_december_comes_27_december() {
    let mut both = Both::new();
    both.take(0, &[357, 1]);
    assert_eq!(both.take(12, &[]), [360, 0, 0]);
}

#[test]
fn no_day_comes_after_the_last() {
    let mut both = Both::new();
    both.take(0, &[146_096, 1]);
    assert_eq!(both.refuse(12, &[]), 7);
    assert_eq!(both.refuse(0, &[146_097, 1]), 7);
    assert_eq!(both.refuse(0, &[87, 1]), 7);
    assert_eq!(both.refuse(0, &[1, 0]), 4);
}

#[test]
fn an_exposure_that_a_waiting_return_names_keeps_its_row() {
    let mut both = opened(AUTOMATIC, 1);
    both.take(4, &[1, 0, 500]);
    both.take(6, &fop(0, 50_000, 1, 0, 7));
    both.take(9, &[]);
    assert_eq!(both.take(7, &[0, 1, 2, 0, 50_000, 1, 8]), [3, 4, 0]);
    assert_eq!(both.take(7, &[0, 1, 2, 0, 20_000, 2, 9]), [5, 6, 0]);
    assert_eq!(both.take(9, &[]), [0, 1, 50_000]);
    assert_eq!(both.account(1, 0), 500);
    // The settled rows go; the waiting return keeps the exposure of 0.
    assert_eq!(both.take(12, &[]), [2, 4, 0]);
    assert_eq!(both.amount(0), (0, 0));
    // It settles nothing, is not counted, and goes on waiting.
    assert_eq!(both.take(9, &[]), [0, 0, 0]);
    assert_eq!(both.read(Question::Request(5))[14], 0);
    // Cancelled, it goes, and the exposure with it.
    both.take(8, &[1, 5]);
    assert_eq!(both.take(12, &[]), [3, 2, 0]);
    assert_eq!(both.amount(0), (5, 0));
}

#[test]
fn returns_settle_before_fops_and_free_bonds_for_them() {
    let mut both = opened(AUTOMATIC, 0);
    both.take(4, &[1, 0, 500]);
    both.take(6, &fop(0, 50_000, 1, 0, 7));
    both.take(9, &[]);
    // The FOP pairs first, but the return's bonds are what it picks.
    both.take(6, &[0, 1, 2, 0, 30_000, 1, 2, 8]);
    both.take(7, &[0, 1, 2, 0, 30_000, 1, 9]);
    assert_eq!(both.take(9, &[]), [1, 1, 60_000]);
    assert_eq!((both.amount(0), both.amount(1)), ((0, 20_000), (0, 30_000)));
    assert_eq!((both.position(0, 0), both.position(1, 0)), (200, 300));
    // The second exposure closes on day 2.
    assert_eq!(both.take(12, &[]), [2, 6, 30_000]);
    assert_eq!((both.amount(0), both.amount(1)), ((0, 20_000), (5, 0)));
    assert_eq!(both.account(1, 0), 300);
}

#[test]
fn a_recall_leaves_its_security_out() {
    let mut both = opened(AUTOMATIC, 1);
    both.take(1, &[1, 100, 500_000, 0, 1]);
    both.take(4, &[1, 0, 500]);
    both.take(6, &fop(0, 50_000, 1, 0, 7));
    both.take(9, &[]);
    // Nothing else is at hand: one lot less is a shortfall of the tolerance.
    assert_eq!(both.refuse(11, &[1, 0, 0, 100]), 16);
    assert_eq!(both.refuse(11, &[1, 0, 0, 150]), 4);
    assert_eq!(both.refuse(11, &[1, 0, 0, 600]), 10);
    assert_eq!(both.refuse(11, &[3, 0, 0, 100]), 12);
    assert_eq!(both.refuse(11, &[1, 1, 0, 100]), 12);
    assert_eq!(both.refuse(11, &[1, 0, 2, 100]), 5);
    both.take(4, &[1, 1, 300]);
    // 20,000 is missing; three lots of 5,000 leave a shortfall below the tolerance.
    assert_eq!(both.take(11, &[1, 0, 0, 200]), [0, 1, 15_000]);
    assert_eq!((both.position(0, 0), both.position(0, 1)), (300, 300));
    assert_eq!((both.account(1, 0), both.account(1, 1)), (200, 0));
}

#[test]
fn the_mark_gives_back_everywhere_before_it_picks() {
    let mut both = opened(AUTOMATIC, 1);
    both.take(1, &[1, 100, 1_000_000, 0, 1]);
    // Basket 1 has security 1 only; exposure 0 holds security 0 of basket 0.
    both.take(3, &[1, 2, 5]);
    both.take(4, &[1, 0, 500]);
    both.take(6, &fop(0, 50_000, 1, 0, 7));
    both.take(9, &[]);
    both.take(4, &[1, 1, 500]);
    both.take(6, &[0, 1, 2, 1, 50_000, 1, 0, 8]);
    both.take(9, &[]);
    assert_eq!((both.position(0, 0), both.position(1, 1)), (500, 500));
    // Security 0 halves: exposure 0 is short by 25,000. Security 1 doubles: exposure 1 frees 200,
    // which exposure 0 then picks although it comes first.
    both.take(1, &[0, 100, 500_000, 0, 1]);
    both.take(1, &[1, 100, 2_000_000, 0, 1]);
    assert_eq!(both.take(10, &[]), [1, 1, 5_000]);
    assert_eq!((both.position(0, 1), both.position(1, 1)), (100, 300));
}

#[test]
fn sixty_four_exposures_are_all() {
    let mut both = opened(AUTOMATIC, 1);
    let mut closing = 1;
    for place in 0..64 {
        closing = u64::from(Days::shared().next_open(closing as u32).expect("a next day"));
        both.take(6, &fop(0, 10_000, 1, closing, place));
    }
    assert_eq!(both.refuse(6, &fop(0, 10_000, 1, 0, 7)), 15);
    // A used key and an unpaired request need no row.
    both.take(6, &fop(0, 10_000, 1, closing, 7));
    both.take(6, &[0, 1, 3, 0, 10_000, 1, 0, 7]);
    assert_eq!(both.refuse(6, &[1, 1, 3, 0, 10_000, 1, 0, 7]), 15);
}

#[test]
fn a_deposit_counts_positions() {
    let mut both = opened(AUTOMATIC, 1);
    both.take(4, &[1, 0, 499_999_999]);
    both.take(6, &fop(0, 50_000, 1, 0, 7));
    both.take(9, &[]);
    assert_eq!(both.account(1, 0), 499_999_499);
    assert_eq!(both.refuse(4, &[1, 0, 2]), 11);
    both.take(4, &[1, 0, 1]);
    assert_eq!(both.refuse(5, &[1, 0, 499_999_501]), 10);
    both.take(5, &[1, 0, 499_999_500]);
}

#[test]
fn a_basket_tells_how_many_securities_it_holds_and_the_lowest() {
    let mut both = opened(AUTOMATIC, 1);
    both.take(3, &[15, 1 << 63 | 1 << 5, 0]);
    assert_eq!(both.read(Question::Basket(0))[..5], [0, 255, 5, 8, 0]);
    assert_eq!(both.read(Question::Basket(15))[..5], [0, 1 << 63 | 1 << 5, 0, 2, 5]);
    assert_eq!(both.read(Question::Basket(1))[..5], [5, 0, 0, 0, 0]);
    assert_eq!(both.read(Question::Basket(16))[..5], [4, 0, 0, 0, 0]);
    assert_eq!(both.refuse(3, &[15, 1, 0]), 6);
}
