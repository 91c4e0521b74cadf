//! The proved libraries that work without the book, beside plain Rust (src/plain.rs).
//!
//! All inputs and outputs are in warm buffers. Each line takes the two sides in turn for several
//! rounds and prints the fastest round of each.

use crate::table::{head, nanoseconds, ratio, row};
use std::time::Instant;
use yordzepa_tests::answers::{
    Answer, FreeAnswer, PickAnswer, Reading, Report, COLUMNS, FIELDS, SECURITIES,
};
use yordzepa_tests::plain;
use yordzepa_tests::proved::{self, raw};
use yordzepa_tests::random::Random;
use yordzepa_tests::tabled;

const ROUNDS: usize = 31;
const WIDTH: usize = 47;
const HEADS: [&str; 3] = ["proved", "plain", "ratio"];
const LAST_DAY: u64 = 146_096;

/// Hides a value from the optimizer (std's own came with Rust 1.66).
fn black_box<T: Copy>(value: T) -> T {
    // SAFETY: the reference is to a live value, which is copied.
    unsafe { std::ptr::read_volatile(&value) }
}

/// Measures two closures that each make `calls` calls and return a sum over the answers.
fn line(name: &str, calls: usize, mut proved: impl FnMut() -> u64, mut plain: impl FnMut() -> u64) {
    let mut best = [f64::INFINITY; 2];
    for _ in 0..ROUNDS {
        let start = Instant::now();
        let first = black_box(proved());
        let middle = Instant::now();
        let second = black_box(plain());
        let end = Instant::now();
        assert_eq!(first, second, "{name}: the two sides differ");
        best[0] = best[0].min(middle.duration_since(start).as_nanos() as f64);
        best[1] = best[1].min(end.duration_since(middle).as_nanos() as f64);
    }
    let [proved, plain] = best.map(|nanoseconds| nanoseconds / calls as f64);
    let numbers = [nanoseconds(proved), nanoseconds(plain), ratio(proved, plain)];
    row(name, WIDTH, &HEADS, &numbers);
}

/// Sums an answer, so that the sides are compared in every round.
fn sum(answer: Answer) -> u64 {
    answer.code.wrapping_mul(31).wrapping_add(answer.value)
}

/// The numbers of one Pick or Free.
struct Desk {
    account: [u64; SECURITIES],
    columns: [u64; COLUMNS],
    today: u64,
    /// The value of the whole account.
    value: u64,
}

/// A desk's accounts: 64 securities set up and held, lots of 1,000, quotes 1 to 10 days old.
fn desks(random: &mut Random, open: &[u64], count: usize) -> Vec<Desk> {
    (0..count)
        .map(|_| {
            let place = random.between(300, open.len() as u64 - 1) as usize;
            let mut desk = Desk {
                account: [0; SECURITIES],
                columns: [0; COLUMNS],
                today: open[place],
                value: 0,
            };
            for n in 0..SECURITIES {
                desk.columns[n] = 1_000;
                desk.columns[SECURITIES + n] = random.between(900_000, 1_100_000);
                desk.columns[2 * SECURITIES + n] = random.between(50, 2_000);
                desk.columns[3 * SECURITIES + n] = open[place - random.between(1, 10) as usize];
                desk.account[n] = 1_000 * random.between(2_000, 4_000);
                desk.value += plain::value(
                    desk.account[n],
                    desk.columns[SECURITIES + n],
                    desk.columns[2 * SECURITIES + n],
                )
                .value;
            }
            desk
        })
        .collect()
}

type PlainPick = fn(&[u64; SECURITIES], &[u64; COLUMNS], u64, u64, u64, u64) -> PickAnswer;
type PlainFree = fn(&[u64; SECURITIES], &[u64; COLUMNS], u64) -> FreeAnswer;

fn pick_line(name: &str, desks: &[Desk], amounts: &[u64]) {
    let map = u64::MAX;
    let plain_pick = black_box(plain::pick as PlainPick);
    line(
        name,
        desks.len(),
        || {
            let mut total = 0u64;
            for (desk, &amount) in desks.iter().zip(amounts) {
                // SAFETY: the arrays have the lengths that the function reads.
                let answer = unsafe {
                    raw::picking_pick(
                        desk.account.as_ptr(),
                        desk.columns.as_ptr(),
                        map,
                        10,
                        desk.today,
                        amount,
                    )
                };
                total = total.wrapping_add(answer.value * 64 + answer.count + answer.nominals[20]);
            }
            total
        },
        || {
            let mut total = 0u64;
            for (desk, &amount) in desks.iter().zip(amounts) {
                let answer = plain_pick(&desk.account, &desk.columns, map, 10, desk.today, amount);
                total = total.wrapping_add(answer.value * 64 + answer.count + answer.nominals[20]);
            }
            total
        },
    );
}

fn free_line(name: &str, desks: &[Desk], exposures: &[u64]) {
    let plain_free = black_box(plain::free as PlainFree);
    line(
        name,
        desks.len(),
        || {
            let mut total = 0u64;
            for (desk, &exposure) in desks.iter().zip(exposures) {
                // SAFETY: the arrays have the lengths that the function reads.
                let answer = unsafe {
                    raw::picking_free(desk.account.as_ptr(), desk.columns.as_ptr(), exposure)
                };
                total = total.wrapping_add(answer.left * 64 + answer.count + answer.nominals[40]);
            }
            total
        },
        || {
            let mut total = 0u64;
            for (desk, &exposure) in desks.iter().zip(exposures) {
                let answer = plain_free(&desk.account, &desk.columns, exposure);
                total = total.wrapping_add(answer.left * 64 + answer.count + answer.nominals[40]);
            }
            total
        },
    );
}

fn one_day_line(
    name: &str,
    days: &[u64],
    proved: unsafe extern "C" fn(u64) -> Answer,
    plain: fn(u64) -> Answer,
) {
    let proved = black_box(proved);
    let plain = black_box(plain);
    line(
        name,
        days.len(),
        // SAFETY: it takes and returns numbers only.
        || days.iter().fold(0, |total, &day| total.wrapping_add(sum(unsafe { proved(day) }))),
        || days.iter().fold(0, |total, &day| total.wrapping_add(sum(plain(day)))),
    );
}

fn age_line(name: &str, pairs: &[(u64, u64)]) {
    let proved = black_box(raw::calendar_price_age as unsafe extern "C" fn(u64, u64) -> Answer);
    let plain = black_box(plain::price_age as fn(u64, u64) -> Answer);
    line(
        name,
        pairs.len(),
        // SAFETY: it takes and returns numbers only.
        || pairs.iter().fold(0, |total, &(q, t)| total.wrapping_add(sum(unsafe { proved(q, t) }))),
        || pairs.iter().fold(0, |total, &(q, t)| total.wrapping_add(sum(plain(q, t)))),
    );
}

/// The plain side must give what the proved side gives, refusals too, before either is measured.
fn check_plain(random: &mut Random, open: &[u64], desks: &[Desk]) {
    for day in (0..LAST_DAY + 100).chain([u64::MAX]) {
        assert_eq!(proved::is_open(day), plain::is_open(day), "day {day}");
        assert_eq!(proved::next_open_day(day), plain::next_open_day(day), "day {day}");
    }
    for _ in 0..200_000 {
        let today = random.below(LAST_DAY + 50);
        let quote = (today + 20).saturating_sub(random.below(300));
        assert_eq!(
            proved::price_age(quote, today),
            plain::price_age(quote, today),
            "{quote} {today}"
        );
        let (n, p, h) =
            (random.any_length() >> 34, random.any_length() >> 42, random.any_length() >> 50);
        assert_eq!(proved::value(n, p, h), plain::value(n, p, h), "{n} {p} {h}");
        let map = random.any_length();
        assert_eq!(proved::report(map), plain::report(map), "{map}");
    }
    for round in 0..20_000 {
        let mut account = [0; SECURITIES];
        let mut columns = [0; COLUMNS];
        let place = random.between(300, open.len() as u64 - 1);
        for n in 0..SECURITIES {
            if random.once_in(9) {
                continue;
            }
            // Half the rounds with lots of a few cents, where rounding decides.
            let small = round % 2 == 0;
            columns[n] = random.between(1, if small { 20 } else { 1_000_000 });
            columns[SECURITIES + n] = random.between(1, if small { 30_000 } else { 3_000_000 });
            columns[2 * SECURITIES + n] = random.between(0, 9_999);
            columns[3 * SECURITIES + n] = open[(place - random.below(9)) as usize];
            account[n] = random.between(0, if small { 600 } else { 500_000_000 });
        }
        if random.once_in(5) {
            let place = random.below(COLUMNS as u64) as usize;
            columns[place] = random.any_length() >> random.below(40);
        }
        let (map, oldest, today) =
            (random.bits() | random.bits(), random.below(10), open[place as usize]);
        let amount = random.any_length() >> 20;
        assert_eq!(
            proved::pick(&account, &columns, map, oldest, today, amount),
            plain::pick(&account, &columns, map, oldest, today, amount)
        );
        assert_eq!(
            proved::free(&account, &columns, amount),
            plain::free(&account, &columns, amount)
        );
    }
    for desk in desks {
        for parts in 0..5 {
            let amount = desk.value / 4 * parts;
            assert_eq!(
                proved::pick(&desk.account, &desk.columns, u64::MAX, 10, desk.today, amount),
                plain::pick(&desk.account, &desk.columns, u64::MAX, 10, desk.today, amount)
            );
            assert_eq!(
                proved::free(&desk.account, &desk.columns, amount),
                plain::free(&desk.account, &desk.columns, amount)
            );
        }
    }
    for _ in 0..300_000 {
        let mut bytes = [0; 31];
        for byte in bytes.iter_mut() {
            *byte = random.bits() as u8 >> random.below(12).min(7);
        }
        bytes[0] = random.below(14) as u8;
        let right = [9, 16, 8, 11, 7, 7, 29, 25, 6, 1, 1, 8, 1, 1][bytes[0] as usize];
        let length = if random.once_in(20) { random.below(31) as usize } else { right };
        let reading = plain::read(&bytes[..length]);
        assert_eq!(proved::read(&bytes[..length]), reading, "{bytes:?}");
        let mut fields = reading.fields;
        if random.once_in(4) {
            fields[random.below(8) as usize] = random.any_length();
        }
        let (mut one, mut two) = ([7; 31], [7; 31]);
        let kind = u64::from(bytes[0]);
        let code = proved::write(kind, &fields, &mut one[..length]);
        assert_eq!(code, plain::write(kind, &fields, &mut two[..length]), "{kind} {fields:?}");
        assert_eq!(one, two);
    }
}

pub fn print() {
    let mut random = Random::new(0xbe2c_0000_0000_0001);
    let open: Vec<u64> = (0..=LAST_DAY).filter(|&day| plain::is_open(day).value == 1).collect();
    let desks = desks(&mut random, &open, 32);
    check_plain(&mut random, &open, &desks);

    let note = format!("Nanoseconds a call, the fastest of {ROUNDS} rounds; buffers are warm.");
    head("Parts without the book", &note, "Function", WIDTH, &HEADS);

    let all_days: Vec<u64> = (0..=LAST_DAY).collect();
    let random_days: Vec<u64> = (0..50_000).map(|_| random.below(LAST_DAY + 1)).collect();
    let open_days: Vec<u64> =
        (0..50_000).map(|_| open[random.below(open.len() as u64 - 1) as usize]).collect();
    one_day_line("is open, all days", &all_days, raw::calendar_is_open, plain::is_open);
    one_day_line("is open, random days", &random_days, raw::calendar_is_open, plain::is_open);
    one_day_line(
        "next open day, random open days",
        &open_days,
        raw::calendar_next_open_day,
        plain::next_open_day,
    );

    let pairs = |random: &mut Random, low: u64, high: u64| -> Vec<(u64, u64)> {
        (0..10_000)
            .map(|_| {
                let place = random.between(300, open.len() as u64 - 1);
                (open[(place - random.between(low, high)) as usize], open[place as usize])
            })
            .collect()
    };
    age_line("age, quotes 1 to 10 open days old", &pairs(&mut random, 1, 10));
    age_line("age, quotes 250 open days old", &pairs(&mut random, 250, 250));

    one_day_line(
        "for scale: is open, plain from a table of bits",
        &random_days,
        raw::calendar_is_open,
        tabled::is_open,
    );

    let holdings: Vec<[u64; 3]> = (0..50_000)
        .map(|_| {
            [random.between(0, 500_000_000), random.between(1, 3_000_000), random.between(0, 9_999)]
        })
        .collect();
    let proved_value =
        black_box(raw::valuation_value as unsafe extern "C" fn(u64, u64, u64) -> Answer);
    let plain_value = black_box(plain::value as fn(u64, u64, u64) -> Answer);
    line(
        "value",
        holdings.len(),
        // SAFETY: it takes and returns numbers only.
        || {
            holdings
                .iter()
                .fold(0, |t, &[n, p, h]| t.wrapping_add(sum(unsafe { proved_value(n, p, h) })))
        },
        || holdings.iter().fold(0, |t, &[n, p, h]| t.wrapping_add(sum(plain_value(n, p, h)))),
    );

    let maps: Vec<u64> = (0..50_000).map(|_| random.bits() & random.bits()).collect();
    let proved_report = black_box(raw::baskets_report as unsafe extern "C" fn(u64) -> Report);
    let plain_report = black_box(plain::report as fn(u64) -> Report);
    line(
        "a basket's report",
        maps.len(),
        || {
            maps.iter().fold(0, |total: u64, &map| {
                // SAFETY: it takes and returns numbers only.
                let report = unsafe { proved_report(map) };
                total.wrapping_add(report.count * 64 + report.lowest)
            })
        },
        || {
            maps.iter().fold(0, |total: u64, &map| {
                let report = plain_report(map);
                total.wrapping_add(report.count * 64 + report.lowest)
            })
        },
    );

    let third: Vec<u64> = desks.iter().map(|desk| desk.value / 3).collect();
    let half: Vec<u64> = desks.iter().map(|desk| desk.value / 2).collect();
    let whole: Vec<u64> = desks.iter().map(|desk| desk.value).collect();
    let more: Vec<u64> = desks.iter().map(|desk| desk.value + 1).collect();
    pick_line("Pick, 64 held, about a third of them used", &desks, &third);
    pick_line("Pick, 64 held, all used", &desks, &whole);
    free_line("Free, 64 held, about half goes back", &desks, &half);
    free_line("Free, 64 held, nothing back: worth the same", &desks, &whole);
    free_line("Free, 64 held, nothing back: worth less", &desks, &more);

    let fops: Vec<[u64; FIELDS]> = (0..1_000)
        .map(|_| {
            [
                random.below(2),
                random.below(32),
                random.below(32),
                random.below(16),
                random.between(1, 1_000_000_000_000),
                random.below(LAST_DAY),
                random.below(LAST_DAY),
                random.bits(),
            ]
        })
        .collect();
    let records: Vec<[u8; 29]> = fops
        .iter()
        .map(|fields| {
            let mut record = [0; 29];
            assert_eq!(plain::write(6, fields, &mut record), 0);
            record
        })
        .collect();
    let proved_read =
        black_box(raw::records_read as unsafe extern "C" fn(*const u8, usize) -> Reading);
    let plain_read = black_box(plain::read as fn(&[u8]) -> Reading);
    line(
        "read a FOP",
        records.len(),
        || {
            records.iter().fold(0, |total: u64, record| {
                // SAFETY: the length is that of the memory lent.
                let reading = unsafe { proved_read(record.as_ptr(), record.len()) };
                total.wrapping_add(reading.kind + reading.fields[4]).wrapping_add(reading.fields[7])
            })
        },
        || {
            records.iter().fold(0, |total: u64, record| {
                let reading = plain_read(record);
                total.wrapping_add(reading.kind + reading.fields[4]).wrapping_add(reading.fields[7])
            })
        },
    );
    let mut part = [0; 29];
    let mut other_part = [0; 29];
    let proved_write = black_box(
        raw::records_write as unsafe extern "C" fn(u64, *const u64, *mut u8, usize) -> u64,
    );
    let plain_write = black_box(plain::write as fn(u64, &[u64; FIELDS], &mut [u8]) -> u64);
    line(
        "write a FOP",
        fops.len(),
        || {
            fops.iter().fold(0, |total, fields| {
                // SAFETY: the lengths are those of the memory lent, and the part is lent alone.
                let code =
                    unsafe { proved_write(6, fields.as_ptr(), part.as_mut_ptr(), part.len()) };
                total + code + u64::from(part[28])
            })
        },
        || {
            fops.iter().fold(0, |total, fields| {
                let code = plain_write(6, fields, &mut other_part);
                total + code + u64::from(other_part[28])
            })
        },
    );
}
