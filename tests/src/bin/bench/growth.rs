//! How the cost grows with the rows and with the exposures in use.

use crate::books::{self, BY_HAND, TODAY, TOMORROW};
use crate::table::{head, nanoseconds, ratio, row};
use crate::timing::{sound_test, Both, Start, Times};
use yordzepa_tests::lists::{record, Call};

const WIDTH: usize = 32;
const ROWS: [u64; 5] = [0, 64, 128, 192, 240];
const EXPOSURES: [u64; 5] = [0, 16, 32, 48, 64];
const CALLS: [&str; 10] = [
    "read an account",
    "1 price",
    "4 deposit",
    "6 FOP, pair made",
    "6 FOP, waits",
    "8 cancel of the latest request",
    "9 settle",
    "10 mark",
    "11 recall",
    "12 next day after a settle",
];

pub fn print(both: &mut Both) {
    let sizes = ROWS.map(|rows| (rows, books::of_rows(rows)));
    let note = "Engine / second in nanoseconds, and the ratio. 40 exposures; the rows are FOP pairs \
                and, one in four, pairs of returns, all due today. With no row, the cancel gives 12.";
    print_table(both, "Growth with the rows in use", note, &sizes);
    let sizes = EXPOSURES.map(|exposures| (exposures, books::of_exposures(exposures)));
    let note =
        "Engine / second in nanoseconds, and the ratio. 128 rows that wait; nothing is due. \
                With no exposure, the recall gives 12.";
    print_table(both, "Growth with the exposures in use", note, &sizes);
}

fn print_table(both: &mut Both, title: &str, note: &str, sizes: &[(u64, Start); 5]) {
    let heads: Vec<String> = sizes.iter().map(|(size, _)| format!("{size:>20}")).collect();
    let heads: Vec<&str> = heads.iter().map(String::as_str).collect();
    head(title, note, "Call", WIDTH, &heads);
    for (place, name) in CALLS.iter().enumerate() {
        let cells: Vec<String> =
            sizes.iter().map(|(_, start)| written(time(both, start, place))).collect();
        row(name, WIDTH, &heads, &cells);
    }
}

fn written(times: Times) -> String {
    let (engine, second) = (nanoseconds(times.engine), nanoseconds(times.second));
    format!("{engine} / {second}, {}", ratio(times.engine, times.second))
}

/// The times of a call of the list on a book.
fn time(both: &mut Both, start: &Start, place: usize) -> Times {
    let call = |kind, numbers: &[u64]| Call::Record(record(kind, numbers));
    match place {
        0 => both.time(start, &sound_test()),
        1 => both.time(start, &call(1, &[9, 100, 990_000, 300, TODAY])),
        2 => both.time(start, &call(4, &[3, 40, 1_000])),
        3 => {
            let [giver, taker, basket, closing] = books::key(15);
            let numbers = [0, giver, taker, basket, 9_000_000, TOMORROW, closing, 1];
            both.time(start, &call(6, &numbers))
        }
        4 => both.time(start, &call(6, &[0, 3, BY_HAND, 0, 9_000_000, TOMORROW, 0, 1])),
        5 => both.time(start, &cancel(start)),
        6 => both.time(start, &call(9, &[])),
        7 => both.time(start, &call(10, &[])),
        8 => both.time(start, &recall(start)),
        _ => both.time(&books::settled(start), &call(12, &[])),
    }
}

/// The latest request's cancel by its owner, or one of a request that is not there.
fn cancel(start: &Start) -> Call {
    let latest = start.book.used_rows().max_by_key(|(_, request)| request.number);
    let (owner, number) = latest.map_or((0, 9), |(_, request)| (request.owner(), request.number));
    Call::Record(record(8, &[u64::from(owner), u64::from(number)]))
}

/// The recall of the whole of exposure 15's first security, or of one that it has not.
fn recall(start: &Start) -> Call {
    let position = &start.book.positions[15];
    let security = position.iter().position(|&held| held != 0).unwrap_or(0);
    let nominal = position[security].max(100);
    let numbers = [books::key(15)[0], 15, security as u64, u64::from(nominal)];
    Call::Record(record(11, &numbers))
}
