//! Every kind of call on busy books, accepted and refused, and the reads.

use crate::books::{self, BY_HAND, CLOSING, TODAY, TOMORROW};
use crate::table::{head, nanoseconds, row};
use crate::timing::{sound_test, Both, Start};
use yordzepa_tests::lists::{record, Call};
use yordzepa_tests::second::book::Deal;
use yordzepa_tests::second::reads::Question;

const WIDTH: usize = 52;
const HEADS: [&str; 6] =
    ["code", "engine", "second", "ratio", "engine past test", "second past test"];

/// Calls of one kind, each from the same book; all give the same code.
struct Case<'a> {
    name: &'static str,
    start: &'a Start,
    calls: Vec<Call>,
}

fn case<'a>(name: &'static str, start: &'a Start, calls: Vec<Call>) -> Case<'a> {
    Case { name, start, calls }
}

fn call(kind: u64, numbers: &[u64]) -> Call {
    Call::Record(record(kind, numbers))
}

/// Eight calls of one kind.
fn eight(kind: u64, numbers: impl Fn(u64) -> Vec<u64>) -> Vec<Call> {
    (0..8).map(|place| call(kind, &numbers(place))).collect()
}

pub fn print(both: &mut Both) {
    let busy = books::busy();
    head(
        "Calls on a busy book",
        "Nanoseconds a call: some 240 rows and 40 exposures in use. Past test: the median \
         difference to an empty record on the same book, which is refused right after that test.",
        "Kind and call",
        WIDTH,
        &HEADS,
    );
    set_up(both, &busy);
    requests(both, &busy);
    settlement(both, &busy);
    recalls(both, &busy);
    days(both, &busy);
    reads(both, &busy);
    soundness(both, &busy);
}

/// The test by itself, by a read and by an empty record.
fn soundness(both: &mut Both, busy: &Start) {
    let note = "Nanoseconds: a read of an account and a call with an empty record do little else.";
    head("The soundness test alone", note, "Book", WIDTH, &HEADS[1..4]);
    let (opened, set_up) = (books::opened(), books::set_up());
    for (name, start) in [("opened", &opened), ("set up", &set_up), ("busy", busy)] {
        for (entry, call) in [("read", sound_test()), ("call", Call::Record(Vec::new()))] {
            let times = both.time(start, &call);
            let numbers = [nanoseconds(times.engine), nanoseconds(times.second), times.ratio()];
            row(&format!("{name}, by a {entry}"), WIDTH, &HEADS[1..4], &numbers);
        }
    }
}

/// Times a case and prints its row.
fn show(both: &mut Both, case: &Case) {
    let codes: Vec<u64> = case.calls.iter().map(|call| both.answer(case.start, call)[0]).collect();
    assert!(codes.iter().all(|code| *code == codes[0]), "{}: {codes:?}", case.name);
    let test = test_before(&case.calls[0]);
    let [times, past] = both.mean_past(case.start, &case.calls, &test);
    let mut numbers = vec![
        codes[0].to_string(),
        nanoseconds(times.engine),
        nanoseconds(times.second),
        times.ratio(),
    ];
    if !opens(&case.calls[0]) {
        numbers.push(nanoseconds(past.engine));
        numbers.push(nanoseconds(past.second));
    }
    row(case.name, WIDTH, &HEADS, &numbers);
}

/// What does the soundness test only, by the same entry.
fn test_before(call: &Call) -> Call {
    match call {
        Call::Record(_) => Call::Record(Vec::new()),
        Call::Read(_) => Call::Read(Question::Basket(16)),
    }
}

/// An opening makes no soundness test.
fn opens(call: &Call) -> bool {
    matches!(call, Call::Record(record) if record[0] == 0)
}

fn show_all(both: &mut Both, cases: &[Case]) {
    for case in cases {
        show(both, case);
    }
}

fn set_up(both: &mut Both, busy: &Start) {
    show_all(
        both,
        &[
            case("0 opening (no soundness test)", busy, eight(0, |n| vec![1, 10_000 + n])),
            case("0 opening on a closed day", busy, eight(0, |n| vec![0, 10_000 + n])),
            case("1 price", busy, eight(1, |n| vec![8 * n, 100, 990_000 + n, 300, TODAY])),
            case("1 price, quote after today", busy, eight(1, |n| vec![n, 100, 9, 300, TOMORROW])),
            case("2 participant, new", busy, eight(2, |n| vec![20 + n, n % 3, n, 1])),
            case("2 participant, change", busy, eight(2, |n| vec![n, n % 3, n, 0])),
            case("2 participant, mode 3", busy, eight(2, |n| vec![n, 3, n, 0])),
            case("3 basket", busy, eight(3, |n| vec![8 + n, 1 + n, 5])),
            case("3 basket again", busy, eight(3, |n| vec![n, 1 + n, 5])),
            case("4 deposit", busy, eight(4, |n| vec![n, 7 * n, 1_000])),
            case("4 deposit above 500,000,000", busy, eight(4, |n| vec![n, 7 * n, 499_999_999])),
            case("5 withdrawal", busy, eight(5, |n| vec![n, 63 - n, 100])),
            case("5 withdrawal of too much", busy, eight(5, |n| vec![n, 63 - n, 400_001])),
        ],
    );
}

fn requests(both: &mut Both, busy: &Start) {
    let full = books::full(busy);
    let crowded = books::of_exposures(64);
    let fop = |giver, taker, amount| vec![0, giver, taker, 0, amount, TOMORROW, CLOSING, 1];
    show_all(
        both,
        &[
            case(
                "6 FOP, pair made, new exposure",
                busy,
                eight(6, |n| fop(n, 8 + n % 2, 6_000_000)),
            ),
            case("6 FOP, pair made, known exposure", busy, known_exposures(busy, 6)),
            case("6 FOP, waits", busy, eight(6, |n| fop(n, BY_HAND, 6_000_000))),
            case("6 FOP, pairs with one that waits", busy, others_of_waiting(busy)),
            case("6 FOP, no row", &full, eight(6, |n| fop(n, BY_HAND, 6_000_000))),
            case(
                "6 FOP, no exposure row",
                &crowded,
                eight(6, |n| vec![0, n, 8, 0, 6_000_000, TOMORROW, 6, 1]),
            ),
            case("7 return, pair made", busy, known_exposures(busy, 7)),
            case(
                "7 return, no such exposure",
                busy,
                eight(7, |n| vec![0, n, 8, 63, 9, TOMORROW, 1]),
            ),
            case("8 cancel, unpaired", busy, cancels(busy, |paired, _| !paired)),
            case("8 cancel, paired", busy, cancels(busy, |paired, settled| paired && settled == 0)),
            case("8 cancel, no such request", busy, eight(8, |n| vec![n, 999])),
            case("8 cancel, settled", busy, cancels(busy, |_, settled| settled != 0)),
        ],
    );
}

/// FOPs or returns by the giver for eight exposures with automatic takers.
fn known_exposures(start: &Start, kind: u64) -> Vec<Call> {
    let automatic = |taker: u8| u64::from(taker) != BY_HAND;
    let used = start.book.used_exposures().filter(|(_, used)| automatic(used.key.taker));
    used.step_by(4)
        .take(8)
        .map(|(e, used)| {
            let [giver, taker, basket] =
                [used.key.giver, used.key.taker, used.key.basket].map(u64::from);
            let closing = u64::from(used.key.closing);
            match kind {
                6 => call(6, &[0, giver, taker, basket, 9_000_000, TOMORROW, closing, 1]),
                _ => call(7, &[0, giver, taker, e as u64, 9_000_000, TOMORROW, 1]),
            }
        })
        .collect()
}

/// The other side of eight requests that wait.
fn others_of_waiting(start: &Start) -> Vec<Call> {
    let waiting = start.book.used_rows().filter(|(_, request)| request.partner.is_none());
    waiting
        .step_by(5)
        .take(8)
        .map(|(_, request)| {
            let (basket, closing) = match request.deal {
                Deal::Fop { basket, closing } => (u64::from(basket), u64::from(closing)),
                Deal::Return { .. } => unreachable!("only FOPs wait in this book"),
            };
            let side = u64::from(request.owner() == request.giver);
            let (giver, taker) = (u64::from(request.giver), u64::from(request.taker));
            let settlement = u64::from(request.settlement);
            call(6, &[side, giver, taker, basket, request.amount, settlement, closing, 1])
        })
        .collect()
}

/// Cancels by their owners of eight requests, chosen by whether they are paired and what is settled.
fn cancels(start: &Start, chosen: impl Fn(bool, u64) -> bool) -> Vec<Call> {
    let rows: Vec<_> = start
        .book
        .used_rows()
        .filter(|(_, request)| chosen(request.partner.is_some(), request.settled))
        .collect();
    let step = rows.len() / 8;
    rows.iter()
        .step_by(step)
        .take(8)
        .map(|(_, request)| call(8, &[u64::from(request.owner()), u64::from(request.number)]))
        .collect()
}

fn settlement(both: &mut Both, busy: &Start) {
    let due = books::due(busy);
    let moved = books::moved(busy);
    let marked = books::marked(&moved);
    let (week, year) = (books::aged(busy, 5), books::aged(busy, 250));
    show_all(
        both,
        &[
            case("9 settle, 20 returns and 80 FOPs due", &due, vec![call(9, &[])]),
            case("9 settle, 60 FOPs and returns, prices 5 days old", &week, vec![call(9, &[])]),
            case("9 settle, nothing due", busy, vec![call(9, &[])]),
            case("10 mark, prices moved by 4% both ways", &moved, vec![call(10, &[])]),
            case("10 mark, nothing to do", &marked, vec![call(10, &[])]),
            case("10 mark, prices 5 open days old, just fresh", &week, vec![call(10, &[])]),
            case("10 mark, prices 250 open days old, just fresh", &year, vec![call(10, &[])]),
        ],
    );
}

fn recalls(both: &mut Both, busy: &Start) {
    let drained = books::drained(busy);
    let every = |end: usize| recall_list(busy, 0..end);
    show_all(
        both,
        &[
            case("11 recall, substituted", busy, every(40)),
            case("11 recall, no substitute", &drained, recall_list(&drained, 0..5)),
            case("11 recall of too much", busy, too_much(busy)),
        ],
    );
}

/// Recalls of the whole of an exposure's first security, for up to eight exposures.
fn recall_list(start: &Start, exposures: std::ops::Range<usize>) -> Vec<Call> {
    let step = (exposures.len() / 8).max(1);
    exposures.step_by(step).map(|exposure| recall(start, exposure, 0)).collect()
}

fn recall(start: &Start, exposure: usize, more: u64) -> Call {
    let used = start.book.exposures[exposure].expect("in use");
    let position = &start.book.positions[exposure];
    let security = position.iter().position(|&held| held != 0).expect("has a position");
    let nominal = u64::from(position[security]) + more;
    call(11, &[u64::from(used.key.giver), exposure as u64, security as u64, nominal])
}

fn too_much(start: &Start) -> Vec<Call> {
    (0..40).step_by(5).map(|exposure| recall(start, exposure, 100)).collect()
}

fn days(both: &mut Both, busy: &Start) {
    let closing = books::closing(busy);
    let last = books::last_day(busy);
    show_all(
        both,
        &[
            case("12 next day, 80 rows drop", busy, vec![call(12, &[])]),
            case("12 next day, 20 exposures close, rows drop", &closing, vec![call(12, &[])]),
            case("12 next day, none left", &last, vec![call(12, &[])]),
        ],
    );
}

fn reads(both: &mut Both, busy: &Start) {
    let eight = |question: fn(u64) -> Question| (0..8).map(|n| Call::Read(question(n))).collect();
    let last = u64::from(busy.book.next_number) - 1;
    let numbers = (0..8).map(|n| Call::Read(Question::Request(last - 16 * n))).collect();
    show_all(
        both,
        &[
            case(
                "read an account",
                busy,
                eight(|n| Question::Account { participant: n, security: n }),
            ),
            case(
                "read a position",
                busy,
                eight(|n| Question::Position { exposure: n, security: n }),
            ),
            case("read an exposure", busy, eight(Question::Exposure)),
            case("read a request", busy, numbers),
            case("read a basket", busy, eight(Question::Basket)),
        ],
    );
}
