//! Chrono's values as two numbers, head and tail, and back.
//! A pair that chrono has no value for reads as none.

use chrono::{DateTime, Datelike, Duration, NaiveDate, NaiveDateTime, NaiveTime, Timelike, Utc};

const SECOND: i64 = 1_000_000_000;
const DAY: i64 = 86_400 * SECOND;
/// Chrono's durations end at i64::MAX milliseconds, above and below zero.
const MOST_SECONDS: i64 = i64::MAX / 1_000;
/// Beyond all of chrono's dates; far numbers of days overflow in chrono itself.
const FAR_DAYS: i64 = 100_000_000;

pub trait Pair: Sized {
    fn read(head: i64, tail: i64) -> Option<Self>;
    fn pair(&self) -> (i64, i64);
}

impl Pair for NaiveDate {
    fn read(head: i64, tail: i64) -> Option<Self> {
        if tail != 0 || !(-FAR_DAYS..=FAR_DAYS).contains(&head) {
            return None;
        }
        NaiveDate::from_num_days_from_ce_opt(i32::try_from(head).ok()?)
    }

    fn pair(&self) -> (i64, i64) {
        (i64::from(self.num_days_from_ce()), 0)
    }
}

impl Pair for NaiveDateTime {
    fn read(head: i64, tail: i64) -> Option<Self> {
        // Chrono's leap seconds have no tail of their own.
        if !(0..DAY).contains(&tail) {
            return None;
        }
        let (seconds, rest) = ((tail / SECOND) as u32, (tail % SECOND) as u32);
        let time = NaiveTime::from_num_seconds_from_midnight_opt(seconds, rest)?;
        Some(NaiveDate::read(head, 0)?.and_time(time))
    }

    fn pair(&self) -> (i64, i64) {
        let tail = i64::from(self.num_seconds_from_midnight()) * SECOND;
        (
            i64::from(self.num_days_from_ce()),
            tail + i64::from(self.nanosecond()),
        )
    }
}

impl Pair for DateTime<Utc> {
    fn read(head: i64, tail: i64) -> Option<Self> {
        Some(DateTime::from_utc(NaiveDateTime::read(head, tail)?, Utc))
    }

    fn pair(&self) -> (i64, i64) {
        self.naive_utc().pair()
    }
}

impl Pair for Duration {
    fn read(head: i64, tail: i64) -> Option<Self> {
        if !(-MOST_SECONDS..=MOST_SECONDS).contains(&head) || !(0..SECOND).contains(&tail) {
            return None;
        }
        Duration::seconds(head).checked_add(&Duration::nanoseconds(tail))
    }

    fn pair(&self) -> (i64, i64) {
        // num_seconds cuts toward zero; the head is rounded down.
        let head = self.num_seconds();
        let cut = *self - Duration::seconds(head);
        let tail = cut.num_nanoseconds().unwrap();
        if tail < 0 {
            (head - 1, tail + SECOND)
        } else {
            (head, tail)
        }
    }
}
