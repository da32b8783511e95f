/* Document 01's periods, and the ticks at them, for the inputs at which the Rust's rounded logarithm may say otherwise:
   spans within one part in 10^13 of N times a power of ten. For the clients; the Rust answers all others. */
#ifndef EXACT_H
#define EXACT_H

#include <stdbool.h>
#include <stddef.h>
#include <stdint.h>

#include "months.h"
#include "questions.h"

static inline bool within_rounding(__int128 span, int64_t n) {
    __int128 power = n;
    for (int k = 0; k <= 18; k++, power *= 10) {
        __int128 apart = span < power ? power - span : span - power;
        if (apart * INT64_C(10000000000000) <= power)
            return true;
    }
    return false;
}

/* The first rung that is wide enough: units[i] times a unit that grows by base after each round. */
static inline int64_t first_rung(int64_t span, int64_t n, int64_t unit, const int64_t *units, int count, int64_t base) {
    int i = 0;
    while (span / unit > n * units[i])
        if (++i == count)
            i = 0, unit *= base;
    return units[i] * unit;
}

/* The period of a span that fits 64 bits; 0 is none, on kind 4. The exponent is the largest k with 10^k * n <= span. */
static inline int64_t exact_period(int64_t kind, int64_t span, int64_t n) {
    static const int64_t parts[] = {1, 2, 5}, clock[] = {1, 2, 5, 10, 15, 20, 30}, hours[] = {1, 2, 4, 8, 12},
                         days[] = {1, 2, 5, 7};
    const int64_t second = 1000000000, hour = 3600 * second, day = 24 * hour;
    __int128 power = 1;
    while (power * 10 * n <= span)
        power *= 10;
    if (power < second)
        return first_rung(span, n, (int64_t)power, parts, 3, 10);
    if (power < hour)
        return first_rung(span, n, second, clock, 7, 60);
    if (power < day)
        return first_rung(span, n, hour, hours, 5, 24);
    if (kind == 4)
        return 0;
    return power < 10 * day ? first_rung(span, n, day, days, 4, 10) : first_rung(span, n, 10 * day, parts, 3, 10);
}

/* The period that decides an accepted call, where the Rust may differ; 0: there is none, or the Rust does not. The kind is
   the one whose ticks are listed, 4 or 7. */
static inline int64_t doubtful_period(int64_t kind, const int64_t *axis, int64_t n) {
    __int128 span = nanoseconds(kind, axis[3], axis[4]) - nanoseconds(kind, axis[1], axis[2]);
    return span <= INT64_MAX && within_rounding(span, n) ? exact_period(kind, (int64_t)span, n) : 0;
}

/* A light hint's way: from 6 to 5 and from 5 to 4 where the size is at most twice the bold count. Only 4 and 7 matter. */
static inline int64_t listed_kind(const int64_t *axis, int64_t bold) {
    int64_t kind = axis[0];
    if (kind == 6 && size_of(6, axis) <= 2 * bold)
        kind = 5;
    if (kind == 5 && size_of(5, axis) <= 2 * bold)
        kind = 4;
    return kind == 4 || kind == 7 ? kind : 0;
}

/* Writes the ticks of a period below the end, head and tail of each, and gives their count. From midnight of the start's
   date, or from zero; a duration below zero is aligned toward it, unless 2^64 plus start is a multiple of the period. */
static inline int64_t exact_ticks(int64_t kind, const int64_t *axis, int64_t period, int64_t *to) {
    const int64_t per = kind == 7 ? 1000000000 : INT64_C(86400000000000);
    __int128 start = nanoseconds(kind, axis[1], axis[2]), end = nanoseconds(kind, axis[3], axis[4]);
    __int128 origin = kind == 7 ? 0 : (__int128)axis[1] * per, over = (start - origin) % period;
    if (over > 0)
        start += period - over;
    else if (start < 0 && (uint64_t)start % (uint64_t)period)
        start -= over;
    int64_t count = 0;
    for (; start < end; start += period, count++) {
        int64_t tail = (int64_t)(start % per);
        tail += tail < 0 ? per : 0;
        *to++ = (int64_t)((start - tail) / per), *to++ = tail;
    }
    return count;
}

#endif
