//! Document 01, Days.

use super::DAY;

/// "Day 0 is Tuesday 1 January 2002; the last is 146,096."
pub const LAST_DAY: u64 = 146_096;
/// The year of day 0.
pub const FIRST_YEAR: u64 = 2002;
/// The last of "the 400 years".
pub const LAST_YEAR: u64 = 2401;

/// A day of the Gregorian calendar; January is month 1.
#[derive(Clone, Copy, Debug, PartialEq, Eq)]
pub struct Date {
    pub year: u64,
    pub month: u64,
    pub day: u64,
}

/// Every day from the first to the last, written out.
pub struct Calendar {
    dates: Vec<Date>,
    open: Vec<bool>,
}

impl Calendar {
    /// Walks from 1 January 2002 to 31 December 2401, one day at a time.
    pub fn new() -> Calendar {
        let mut dates = Vec::new();
        for year in FIRST_YEAR..=LAST_YEAR {
            for month in 1..=12 {
                for day in 1..=month_length(year, month) {
                    dates.push(Date { year, month, day });
                }
            }
        }
        assert_eq!(dates.len() as u64, LAST_DAY + 1);
        let mut calendar = Calendar { open: vec![true; dates.len()], dates };
        calendar.close_weekends();
        calendar.close_fixed_days();
        calendar.close_easter();
        calendar
    }

    /// "Closed (ECB calendar from 2002): Saturday, Sunday".
    fn close_weekends(&mut self) {
        for day in 0..=LAST_DAY {
            if weekday(day) == "Saturday" || weekday(day) == "Sunday" {
                self.open[day as usize] = false;
            }
        }
    }

    /// "1 January", "1 May, 25 and 26 December".
    fn close_fixed_days(&mut self) {
        for (date, open) in self.dates.iter().zip(self.open.iter_mut()) {
            match (date.day, date.month) {
                (1, 1) | (1, 5) | (25, 12) | (26, 12) => *open = false,
                _ => {}
            }
        }
    }

    /// "Good Friday, Easter Monday".
    fn close_easter(&mut self) {
        for year in FIRST_YEAR..=LAST_YEAR {
            let sunday = self.easter_sunday(year) as usize;
            self.open[sunday - 2] = false;
            self.open[sunday + 1] = false;
        }
    }

    /// The day number of a date.
    pub fn day_of(&self, date: Date) -> u64 {
        self.dates.iter().position(|&d| d == date).expect("a date of the 400 years") as u64
    }

    /// The date of a day number, up to the last.
    pub fn date_of(&self, day: u64) -> Date {
        self.dates[day as usize]
    }

    /// "the Gregorian Easter rule": the Sunday after the full moon that falls on or next after
    /// 21 March, the moon's age taken from the epact.
    pub fn easter_sunday(&self, year: u64) -> u64 {
        let mut day = self.day_of(Date { year, month: 3, day: 1 }) + march_of_full_moon(year) - 1;
        loop {
            day += 1;
            if weekday(day) == "Sunday" {
                return day;
            }
        }
    }

    /// Whether a day is open; 7 for "any day named ... above 146,096".
    pub fn is_open(&self, day: u64) -> Result<bool, u64> {
        if day > LAST_DAY {
            return Err(DAY);
        }
        Ok(self.open[day as usize])
    }

    /// 7 for "any day named ... not open or above 146,096".
    pub fn must_be_open(&self, day: u64) -> Result<(), u64> {
        match self.is_open(day) {
            Ok(true) => Ok(()),
            _ => Err(DAY),
        }
    }

    /// Kind 12: "go to the next open day"; 7 for "no next day".
    pub fn next_open_day(&self, day: u64) -> Result<u64, u64> {
        self.must_be_open(day)?;
        let mut next = day + 1;
        while next <= LAST_DAY {
            if self.open[next as usize] {
                return Ok(next);
            }
            next += 1;
        }
        Err(DAY)
    }

    /// "The age of a price is the number of open days after its quote day up to and including
    /// today." 7 for "quote after today".
    pub fn price_age(&self, quote: u64, today: u64) -> Result<u64, u64> {
        self.must_be_open(quote)?;
        self.must_be_open(today)?;
        if quote > today {
            return Err(DAY);
        }
        let days = &self.open[quote as usize + 1..=today as usize];
        Ok(days.iter().filter(|&&open| open).count() as u64)
    }
}

impl Default for Calendar {
    fn default() -> Calendar {
        Calendar::new()
    }
}

/// "Day 0 is Tuesday".
pub fn weekday(day: u64) -> &'static str {
    ["Tuesday", "Wednesday", "Thursday", "Friday", "Saturday", "Sunday", "Monday"]
        [(day % 7) as usize]
}

/// The Gregorian calendar's leap years.
pub fn is_leap(year: u64) -> bool {
    year % 4 == 0 && (year % 100 != 0 || year % 400 == 0)
}

fn month_length(year: u64, month: u64) -> u64 {
    match month {
        4 | 6 | 9 | 11 => 30,
        2 if is_leap(year) => 29,
        2 => 28,
        _ => 31,
    }
}

/// The Easter full moon as a day of March (32 is 1 April), by Lilius and Clavius: the golden number
/// gives the epact, corrected for the leap days and the lunar months that the centuries leave out.
fn march_of_full_moon(year: u64) -> u64 {
    let golden = year % 19 + 1;
    let century = year / 100 + 1;
    let leap_days_left_out = century * 3 / 4 - 12;
    let moon_correction = (century * 8 + 5) / 25 - 5;
    let mut epact = (golden * 11 + 50 + moon_correction - leap_days_left_out) % 30;
    if epact == 24 || (epact == 25 && golden > 11) {
        epact += 1;
    }
    let full_moon = if epact < 24 { 44 - epact } else { 74 - epact };
    assert!((21..=49).contains(&full_moon));
    full_moon
}
