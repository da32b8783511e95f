/* Years, months and weeks of day numbers, the sizes of axes and the margins of segments: for the clients, from ISO 8601's rules
   and document 01.
   Day 1 is 0001-01-01, a Monday; the ceiling of a date-time may be 3652060, 10000-01-01. */
#ifndef MONTHS_H
#define MONTHS_H

#include <stdbool.h>
#include <stdint.h>

struct date {
    int64_t year, month, day;
};

/* Counted from March 1 of the year 0, so that February ends a year. */
static inline struct date date_at(int64_t number) {
    int64_t from_march = number + 305, round = from_march / 146097, day = from_march % 146097;
    int64_t year = (day - day / 1460 + day / 36524 - day / 146096) / 365;
    day -= year * 365 + year / 4 - year / 100;
    int64_t month = (5 * day + 2) / 153, early = month >= 10;
    return (struct date){round * 400 + year + early, early ? month - 9 : month + 3, day - (153 * month + 2) / 5 + 1};
}

/* The day number of the first of a month; months are counted from 0001-01, which is 0. */
static inline int64_t first_of_month(int64_t month) {
    int64_t early = month % 12 < 2, year = 1 + month / 12 - early, from_march = month % 12 + (early ? 10 : -2);
    return year * 365 + year / 4 - year / 100 + year / 400 + (153 * from_march + 2) / 5 - 305;
}

/* Of ISO 8601: weekday 1 is Monday, a week is of the year that has its Thursday, week 1 has the year's first Thursday. */
struct week_date {
    int64_t year, week, weekday;
};

static inline int64_t new_year(int64_t year) {
    return first_of_month(12 * (year - 1));
}

static inline int64_t weekday_of(int64_t number) {
    return (number - 1) % 7 + 1;
}

static inline struct week_date week_date_at(int64_t number) {
    int64_t thursday = number - weekday_of(number) + 4, year = date_at(thursday).year;
    return (struct week_date){year, (thursday - new_year(year)) / 7 + 1, weekday_of(number)};
}

/* 53 just when the year begins on a Thursday, or is a leap year and begins on a Wednesday. */
static inline int64_t weeks_of(int64_t year) {
    int64_t first = weekday_of(new_year(year)), days = new_year(year + 1) - new_year(year);
    return first == 4 || (first == 3 && days == 366) ? 53 : 52;
}

/* The day number of a week date; January 4 is always in week 1. */
static inline int64_t day_of_week_date(int64_t year, int64_t week, int64_t weekday) {
    int64_t fourth = new_year(year) + 3;
    return fourth - weekday_of(fourth) + 7 * (week - 1) + weekday;
}

/* The Mondays up to a day. */
static inline int64_t mondays(int64_t number) {
    return (number + 6) / 7;
}

/* date_ceil: a day more from the first whole second on. */
static inline int64_t date_ceiling(int64_t head, int64_t tail) {
    return head + (tail >= 1000000000);
}

static inline int64_t larger(int64_t a, int64_t b) {
    return a > b ? a : b;
}

/* The kinds whose values are dates. */
static inline bool of_dates(int64_t kind) {
    return (kind >= 1 && kind <= 3) || kind == 8;
}

/* The last day of an axis, which is kind, start, end, end_excluded: an excluded end is the day after it. */
static inline int64_t last_day(const int64_t axis[6]) {
    return axis[3] - (axis[5] != 0);
}

/* The size of an axis of kind 1, 2, 3, 5, 6 or 8. */
static inline int64_t size_of(int64_t kind, const int64_t axis[6]) {
    int64_t last = last_day(axis);
    if (kind == 1)
        return larger(last - axis[1], -1) + 1;
    if (kind == 8)
        return mondays(last) - mondays(axis[1]) + 1;
    struct date start = date_at(date_ceiling(axis[1], axis[2])), end = date_at(last);
    if (kind == 2 || kind == 5)
        return larger(larger(end.year - start.year, 0) * 12 + end.month - start.month + 1, 0);
    return larger(end.year - start.year, -1) + 1;
}

/* The part of the limits that is left for the last segment: the width parted by the size as floats, rounded half away from zero;
   what a float and a half come to is exact in a double. */
static inline int64_t margin_of(int64_t width, int64_t size) {
    float part = (float)width / (float)size;
    return (int64_t)(part < 0 ? (double)part - 0.5 : (double)part + 0.5);
}

#endif
