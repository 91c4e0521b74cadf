//! The calendar library against the second program and published dates.

use yordzepa_tests::answers::Answer;
use yordzepa_tests::proved;
use yordzepa_tests::random::Random;
use yordzepa_tests::second::calendar::{
    is_leap, weekday, Calendar, Date, FIRST_YEAR, LAST_DAY, LAST_YEAR,
};

/// Day numbers past the last, up to the greatest that can be passed.
fn beyond_the_end() -> Vec<u64> {
    let mut days: Vec<u64> = (LAST_DAY + 1..=LAST_DAY + 3000).collect();
    for shift in 18..64 {
        days.extend([(1 << shift) - 1, 1 << shift, (1 << shift) + 1]);
    }
    // Day numbers that a cut to 32 bits would turn into days of the calendar.
    days.extend((0..200).map(|day| (1 << 32) + day));
    days.extend((0..200).map(|day| u64::MAX - day));
    days
}

fn answer(result: Result<u64, u64>) -> Answer {
    match result {
        Ok(value) => Answer { code: 0, value },
        Err(code) => Answer::refused(code),
    }
}

#[test]
fn every_day_is_open_or_closed_as_the_second_program_says() {
    let second = Calendar::new();
    for day in (0..=LAST_DAY).chain(beyond_the_end()) {
        assert_eq!(proved::is_open(day), answer(second.is_open(day).map(u64::from)), "day {day}");
    }
}

#[test]
fn every_day_has_the_next_open_day_of_the_second_program() {
    let second = Calendar::new();
    for day in (0..=LAST_DAY).chain(beyond_the_end()) {
        assert_eq!(proved::next_open_day(day), answer(second.next_open_day(day)), "day {day}");
    }
}

fn same_age(second: &Calendar, quote: u64, today: u64) {
    assert_eq!(
        proved::price_age(quote, today),
        answer(second.price_age(quote, today)),
        "quote {quote}, today {today}"
    );
}

#[test]
fn ages_of_all_pairs_within_windows() {
    let second = Calendar::new();
    // The first days, the turn of some years with Christmas or Easter inside, and the last days.
    for start in [0, 60, 340, 720, 1080, 36_500, 73_000, 109_570, 145_700, LAST_DAY - 99] {
        for quote in start..start + 100 {
            for today in start..start + 100 {
                same_age(&second, quote, today);
            }
        }
    }
}

#[test]
fn ages_of_every_day_up_to_three_weeks_later() {
    let second = Calendar::new();
    for quote in 0..=LAST_DAY {
        for today in [quote, quote + 1, quote + 3, quote + 7, quote + 11, quote + 20] {
            same_age(&second, quote, today);
        }
    }
}

#[test]
fn ages_of_random_pairs() {
    let second = Calendar::new();
    let mut random = Random::new(0x0c3a_1e4d_a200_0001);
    for _ in 0..100_000 {
        let today = random.below(LAST_DAY + 10);
        let quote = today.saturating_sub(random.below(400));
        same_age(&second, quote, today);
    }
    // Any distance, both orders, and at times days past the end.
    for _ in 0..4_000 {
        same_age(&second, random.below(LAST_DAY + 100), random.below(LAST_DAY + 100));
    }
    let beyond = beyond_the_end();
    for _ in 0..20_000 {
        let inside = random.below(LAST_DAY + 1);
        let outside = random.one_of(&beyond);
        same_age(&second, inside, outside);
        same_age(&second, outside, inside);
        same_age(&second, outside, outside);
    }
    same_age(&second, 1, LAST_DAY);
}

#[test]
fn the_first_and_last_days_are_those_of_document_01() {
    let second = Calendar::new();
    assert_eq!(second.date_of(0), Date { year: 2002, month: 1, day: 1 });
    assert_eq!(second.date_of(LAST_DAY), Date { year: 2401, month: 12, day: 31 });
    assert_eq!(weekday(0), "Tuesday");
    // Days whose weekday is known.
    for (year, month, day, name) in [
        (2002, 3, 31, "Sunday"),
        (2004, 2, 29, "Sunday"),
        (2012, 12, 21, "Friday"),
        (2020, 2, 29, "Saturday"),
        (2024, 7, 4, "Thursday"),
        (2025, 1, 1, "Wednesday"),
        (2100, 1, 1, "Friday"),
        (2100, 3, 1, "Monday"),
    ] {
        assert_eq!(weekday(second.day_of(Date { year, month, day })), name, "{year}-{month}-{day}");
    }
    assert!(is_leap(2400) && !is_leap(2100) && !is_leap(2200) && !is_leap(2300));
}

/// Document 01, Edges.
#[test]
fn edges_of_document_01() {
    let open = Answer { code: 0, value: 1 };
    let closed = Answer { code: 0, value: 0 };
    assert_eq!(proved::is_open(87), closed);
    assert_eq!(proved::is_open(86), open);
    assert_eq!(proved::is_open(90), closed);
    assert_eq!(proved::is_open(91), open);
    assert_eq!(proved::price_age(86, 91), Answer { code: 0, value: 1 });
    let second = Calendar::new();
    let christmas_eve = second.day_of(Date { year: 2002, month: 12, day: 24 });
    let after = second.day_of(Date { year: 2002, month: 12, day: 27 });
    assert_eq!(proved::next_open_day(christmas_eve), Answer { code: 0, value: after });
    assert_eq!(proved::next_open_day(LAST_DAY), Answer::refused(7));
    assert_eq!(proved::is_open(LAST_DAY), open);
    assert_eq!(proved::is_open(LAST_DAY + 1), Answer::refused(7));
}

/// The dates of a file of tests/vectors: a line each, `2002-03-31`; lines that begin with # are text.
fn published(file: &str) -> Vec<Date> {
    let number = |text: &str| text.parse::<u64>().expect("a number");
    let lines = file.lines().filter(|line| !line.starts_with('#'));
    lines
        .map(|line| match line.split('-').map(number).collect::<Vec<u64>>()[..] {
            [year, month, day] => Date { year, month, day },
            _ => panic!("no date: {line}"),
        })
        .collect()
}

/// The published lists, and the last year of each; all begin in 2002. tests/vectors/README.md tells
/// what they cover: no list has the years 2300 to 2401.
const EASTER_LISTS: [(&str, u64); 3] = [
    (include_str!("../vectors/easter-date-calc.txt"), 2299),
    (include_str!("../vectors/easter-quantlib.txt"), 2199),
    (include_str!("../vectors/easter-dateutil.txt"), 2050),
];

fn closed(day: u64) -> bool {
    proved::is_open(day) == Answer { code: 0, value: 0 }
}

#[test]
fn published_easter_dates() {
    let second = Calendar::new();
    for (file, last) in EASTER_LISTS {
        let list = published(file);
        let years: Vec<u64> = list.iter().map(|date| date.year).collect();
        assert_eq!(years, (FIRST_YEAR..=last).collect::<Vec<u64>>(), "every year once");
        for date in list {
            let sunday = second.day_of(date);
            assert_eq!(weekday(sunday), "Sunday", "{date:?}");
            assert_eq!(second.easter_sunday(date.year), sunday, "the second program, {date:?}");
            assert!(closed(sunday - 2) && closed(sunday + 1), "{date:?}");
            // The other working days from the Monday before to the Thursday after; 1 May is never
            // among them.
            let before = sunday - 6..=sunday - 3;
            for near in before.chain(sunday + 2..=sunday + 4) {
                assert!(!closed(near), "{date:?}, day {near}");
            }
        }
    }
}

/// Another way to the date of Easter (Gauss's rule as corrected by himself in 1816, with the two
/// exceptions), against which the second program's is held for all 400 years.
fn easter_by_gauss(year: u64) -> (u64, u64) {
    let century = year / 100;
    let p = (13 + 8 * century) / 25;
    let m = (15 - p + century - century / 4) % 30;
    let n = (4 + century - century / 4) % 7;
    let d = (19 * (year % 19) + m) % 30;
    let e = (2 * (year % 4) + 4 * (year % 7) + 6 * d + n) % 7;
    let march = 22 + d + e;
    if d == 29 && e == 6 {
        (4, 19)
    } else if d == 28 && e == 6 && (11 * m + 11) % 30 < 19 {
        (4, 18)
    } else if march <= 31 {
        (3, march)
    } else {
        (4, march - 31)
    }
}

#[test]
fn two_rules_for_easter_agree_in_all_years() {
    let second = Calendar::new();
    for year in FIRST_YEAR..=LAST_YEAR {
        let date = second.date_of(second.easter_sunday(year));
        assert_eq!((date.month, date.day), easter_by_gauss(year), "{year}");
    }
}

/// The days of a year on which the engine's calendar is closed, Saturdays and Sundays left out: these
/// are all closed.
fn closed_weekdays(second: &Calendar, year: u64) -> Vec<Date> {
    let first = second.day_of(Date { year, month: 1, day: 1 });
    let last = second.day_of(Date { year, month: 12, day: 31 });
    let weekend = |day: u64| weekday(day) == "Saturday" || weekday(day) == "Sunday";
    for day in (first..=last).filter(|&day| weekend(day)) {
        assert!(closed(day), "day {day} of {year}");
    }
    let weekdays = (first..=last).filter(|&day| !weekend(day));
    weekdays.filter(|&day| closed(day)).map(|day| second.date_of(day)).collect()
}

/// The ECB's closing days of 2002 to 2006 as published: these and no other weekdays.
#[test]
fn published_closing_days() {
    let second = Calendar::new();
    let list = published(include_str!("../vectors/target-quantlib.txt"));
    assert_eq!(list.len(), 23);
    for year in 2002..=2006 {
        let days: Vec<Date> = list.iter().filter(|date| date.year == year).copied().collect();
        assert_eq!(closed_weekdays(&second, year), days, "{year}");
    }
}

/// Document 01's closing days by themselves: Easter from the longest published list up to its end,
/// then from Gauss's rule.
#[test]
fn closed_weekdays_of_every_year() {
    let second = Calendar::new();
    let list = published(EASTER_LISTS[0].0);
    for year in FIRST_YEAR..=LAST_YEAR {
        let easter = match list.iter().find(|date| date.year == year) {
            Some(&date) => date,
            None => {
                let (month, day) = easter_by_gauss(year);
                Date { year, month, day }
            }
        };
        let sunday = second.day_of(easter);
        let mut days: Vec<u64> = [(1, 1), (5, 1), (12, 25), (12, 26)]
            .iter()
            .map(|&(month, day)| second.day_of(Date { year, month, day }))
            .filter(|&day| weekday(day) != "Saturday" && weekday(day) != "Sunday")
            .collect();
        days.extend([sunday - 2, sunday + 1]);
        days.sort_unstable();
        let dates: Vec<Date> = days.iter().map(|&day| second.date_of(day)).collect();
        assert_eq!(closed_weekdays(&second, year), dates, "{year}");
    }
}
