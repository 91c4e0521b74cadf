//! Document 01, Days, for many questions a call: the calendar of `calendar.rs`, looked up in tables.

use super::calendar::{Calendar, LAST_DAY};
use std::ptr::null_mut;
use std::sync::atomic::{AtomicPtr, Ordering};
use std::sync::Once;

/// Every day of the calendar: whether it is open, and how many open days lie up to it.
pub struct Days {
    open: Vec<bool>,
    open_up_to: Vec<u32>,
}

impl Days {
    fn new() -> Days {
        let calendar = Calendar::new();
        let mut days = Days { open: Vec::new(), open_up_to: Vec::new() };
        let mut count = 0;
        for day in 0..=LAST_DAY {
            let open = calendar.is_open(day).expect("a day of the calendar");
            count += u32::from(open);
            days.open.push(open);
            days.open_up_to.push(count);
        }
        days
    }

    /// The calendar, made once.
    pub fn shared() -> &'static Days {
        static ONCE: Once = Once::new();
        static DAYS: AtomicPtr<Days> = AtomicPtr::new(null_mut());
        ONCE.call_once(|| DAYS.store(Box::into_raw(Box::new(Days::new())), Ordering::Release));
        // SAFETY: the pointer comes from a box that is never freed or written again.
        unsafe { &*DAYS.load(Ordering::Acquire) }
    }

    /// False for a day "not open or above 146,096".
    #[inline]
    pub fn is_open(&self, day: u32) -> bool {
        self.open.get(day as usize).copied().unwrap_or(false)
    }

    /// "go to the next open day"; none after the last.
    pub fn next_open(&self, day: u32) -> Option<u32> {
        (day + 1..=LAST_DAY as u32).find(|&next| self.is_open(next))
    }

    /// "The age of a price is the number of open days after its quote day up to and including
    /// today." 0 for a quote after today: there is no such day then.
    #[inline]
    pub fn age(&self, quote: u32, today: u32) -> u32 {
        self.open_up_to[today as usize].saturating_sub(self.open_up_to[quote as usize])
    }
}
