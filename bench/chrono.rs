//! chrono's NaiveDate, of dates and of week dates, to day number and back, as functions that C++ can call, never inlined.
//! Where chrono has no date, the answer is empty.

use chrono::{Datelike, NaiveDate, Weekday};

#[repr(C)]
pub struct Date {
    year: i32,
    month: u32,
    day: u32,
}

#[no_mangle]
#[inline(never)]
pub extern "C" fn chrono_day_number(year: i32, month: u32, day: u32) -> i32 {
    match NaiveDate::from_ymd_opt(year, month, day) {
        Some(date) => date.num_days_from_ce(),
        None => 0,
    }
}

#[no_mangle]
#[inline(never)]
pub extern "C" fn chrono_date_of(number: i32) -> Date {
    match NaiveDate::from_num_days_from_ce_opt(number) {
        Some(date) => Date { year: date.year(), month: date.month(), day: date.day() },
        None => Date { year: 0, month: 0, day: 0 },
    }
}

#[repr(C)]
pub struct WeekDate {
    year: i32,
    week: u32,
    weekday: u32,
}

const WEEKDAYS: [Weekday; 7] =
    [Weekday::Mon, Weekday::Tue, Weekday::Wed, Weekday::Thu, Weekday::Fri, Weekday::Sat, Weekday::Sun];

#[no_mangle]
#[inline(never)]
pub extern "C" fn chrono_week_day_number(year: i32, week: u32, weekday: u32) -> i32 {
    let weekday = WEEKDAYS.get((weekday as usize).wrapping_sub(1));
    match weekday.and_then(|weekday| NaiveDate::from_isoywd_opt(year, week, *weekday)) {
        Some(date) => date.num_days_from_ce(),
        None => 0,
    }
}

#[no_mangle]
#[inline(never)]
pub extern "C" fn chrono_week_date_of(number: i32) -> WeekDate {
    match NaiveDate::from_num_days_from_ce_opt(number) {
        Some(date) => {
            let week = date.iso_week();
            WeekDate { year: week.year(), week: week.week(), weekday: date.weekday().number_from_monday() }
        }
        None => WeekDate { year: 0, week: 0, weekday: 0 },
    }
}
