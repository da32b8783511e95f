// Seeded requests, all of them accepted ones: axes as charts have them, with what each operation asks of them.
#pragma once

#include <algorithm>
#include <cstdint>
#include <random>

#include "ordered.h"

// The longest list, and the room for it.
constexpr int64_t MOST = 4096, ROOM = 2 * (MOST + 1);
constexpr int64_t SECOND = 1000000000, HOUR = 3600 * SECOND, DAY = 24 * HOUR;

// The sixth number of every axis here: its end belongs to it, as plotters' ends do.
constexpr int64_t INCLUDED = 0;

// Numbers for any operation; each reads its own. The lent numbers are the same for all.
struct Request {
    int64_t start_head, start_tail, end_head, end_tail;
    int64_t low, high, pixel, segment, head, tail, index, bold, n;
    int64_t *lent;
    size_t room;
};

inline int64_t lent[ROOM];

// Each row of a table begins at the seed, so that its requests are the same whatever else is asked for.
constexpr int SEED = 20260101;
inline std::mt19937_64 generator;

inline int64_t from(int64_t low, int64_t high) { return low + (int64_t)(generator() % (uint64_t)(high - low + 1)); }

inline bool has_indices(int kind) { return kind != 4 && kind != 7; }

// Heads are days or seconds; what a tail is less than.
inline int64_t tails(int kind) { return kind <= 3 || kind == 8 ? 1 : kind <= 6 ? DAY : SECOND; }

// Spans that a chart of the kind has, in its own unit: days of dates, else nanoseconds.
inline int64_t chart_span(int kind) {
    switch (kind) {
    case 1: return from(7, 400);
    case 2: return from(180, 1800);
    case 3: return from(3, 50) * 365;
    case 4: return from(60 * SECOND, 30 * DAY);
    case 5: return from(180, 1800) * DAY + from(0, DAY);
    case 6: return from(3, 50) * 365 * DAY + from(0, DAY);
    case 8: return from(28, 800);
    default: return from(SECOND / 1000, 10 * HOUR);
    }
}

// A value, a pixel and an index inside. Starts are from 1960 to 2020, half of the date-times at midnight; durations begin
// within a day around zero, half of them at zero.
inline Request chart(int kind) {
    const int64_t per = tails(kind);
    int64_t start_head = kind == 7 ? 0 : from(715510, 737425), start_tail = 0;
    if (per > 1 && from(0, 1))
        start_head += kind == 7 ? from(-86400, 86400) : 0, start_tail = from(0, per - 1);
    const int64_t span = chart_span(kind), end = start_tail + span, value = start_tail + from(0, span);

    Request r = {};
    r.start_head = start_head, r.start_tail = start_tail;
    r.end_head = start_head + end / per, r.end_tail = end % per;
    r.head = start_head + value / per, r.tail = value % per;
    r.low = from(0, 80), r.high = from(400, 1500), r.pixel = from(r.low, r.high);
    if (has_indices(kind))
        r.index = from(0, ordered_size(kind, r.start_head, r.start_tail, r.end_head, r.end_tail, INCLUDED).value - 1);
    return r;
}

// Axes whose lists are about n long: n to 10 n days, weeks, months or years as far as the calendar goes, or any time. The bold
// count is around half of these, so that half of the light lists go to the finer axis; for the longest ones it is at most
// 4096, and few do.
inline Request listing(int kind, int64_t n) {
    int64_t units = from(n, 10 * n), days = 0, rest = 0;
    switch (kind) {
    case 1: days = units; break;
    case 2:
    case 5: days = units * 30; break;
    case 3:
    case 6: days = (units = std::min<int64_t>(units, 9000)) * 365; break;
    case 4: rest = from(60 * SECOND, 30 * DAY); break;
    case 8: days = units * 7; break;
    default: rest = from(SECOND / 1000, 10 * HOUR);
    }
    const int64_t per = tails(kind);

    Request r = {};
    r.start_head = kind == 7 ? from(-86400, 86400) : from(1, 3652000 - 40 - days);
    r.start_tail = per == 1 ? 0 : from(0, per - 1);
    const int64_t end = r.start_tail + rest;
    r.end_head = r.start_head + days + end / per, r.end_tail = end % per;
    r.bold = std::min(from(units / 4, 3 * units / 4), MOST), r.n = n;
    r.lent = lent, r.room = ROOM;
    return r;
}
