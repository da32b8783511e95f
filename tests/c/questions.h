/* The questions of documents 01 and 02, written for the clients from their text: one function for each operation gives the
   number of the first question that says no, 0 if none does. Not among them: question 10, which needs the answer (functions of
   its own below; where the answer has no date, the Rust panics), and question 11, which needs the list. */
#ifndef QUESTIONS_H
#define QUESTIONS_H

#include <stdbool.h>
#include <stdint.h>

#include "months.h"
#include "tables.h"

/* The first no of an operation's arguments, 0 if there is none. */
typedef int64_t refusal(const int64_t *in);

static inline bool in_range(int64_t low, int64_t x, int64_t high) {
    return low <= x && x <= high;
}

/* A date's tail is 0. */
static inline bool value_of_kind(int64_t kind, int64_t head, int64_t tail) {
    if (kind == 7)
        return in_range(-INT64_C(315576000000), head, INT64_C(315576000000)) && in_range(0, tail, 999999999);
    return in_range(1, head, 3652059) && in_range(0, tail, of_dates(kind) ? 0 : INT64_C(86399999999999));
}

/* From the value 0 0, in 128 bits: spans reach 6 x 10^20. */
static inline __int128 nanoseconds(int64_t kind, int64_t head, int64_t tail) {
    return (__int128)head * (kind == 7 ? INT64_C(1000000000) : INT64_C(86400000000000)) + tail;
}

/* The kinds that have an operation, a bit for each: bit 1 is kind 1. */
enum { ALL_KINDS = 0x1fe, PERIOD_KINDS = 1 << 4 | 1 << 7, UNMAP_KINDS = 0x17e, INDEX_KINDS = 0x16e, RULED_KINDS = 0x10e };

/* Questions 1 to 4, 14 and 5, about kind, start and end; any number but 0 excludes the end. */
static inline int64_t refuse_axis(const int64_t axis[6], unsigned kinds) {
    int64_t kind = axis[0];
    if (!in_range(1, kind, 8))
        return 1;
    if (!(kinds >> kind & 1))
        return 2;
    if (!value_of_kind(kind, axis[1], axis[2]) || !value_of_kind(kind, axis[3], axis[4]))
        return 3;
    __int128 start = nanoseconds(kind, axis[1], axis[2]), end = nanoseconds(kind, axis[3], axis[4]);
    if (start > end)
        return 4;
    if (axis[5] && (!of_dates(kind) || start == end))
        return 14;
    __int128 most = INT64_C(4000000000000000000);
    if (kind == 7 && (start < -most || end > most) && end - start <= INT64_MAX)
        return 5;
    return 0;
}

/* Question 7 of one limit or pixel. */
static inline bool pixel_in_range(int64_t pixel) {
    return in_range(-32767, pixel, 32767);
}

/* in: an axis, low, high, value */
static inline int64_t refuse_map(const int64_t *in) {
    int64_t number = refuse_axis(in, ALL_KINDS);
    if (number)
        return number;
    if (!pixel_in_range(in[6]) || !pixel_in_range(in[7]))
        return 7;
    if (!value_of_kind(in[0], in[8], in[9]))
        return 8;
    bool empty = in[1] == in[3] && in[2] == in[4], at_start = in[8] == in[1] && in[9] == in[2];
    return empty && !at_start ? 9 : 0;
}

/* The questions of an axis, and 6 of a hint: bold count and N. */
static inline int64_t refuse_hint(const int64_t *in, unsigned kinds, int64_t bold, int64_t n) {
    int64_t number = refuse_axis(in, kinds);
    return number ? number : in_range(0, bold, 4096) && in_range(!of_dates(in[0]), n, 4096) ? 0 : 6;
}

/* in: an axis, N */
static inline int64_t refuse_ticks_bold(const int64_t *in) {
    return refuse_hint(in, ALL_KINDS, 0, in[6]);
}

/* in: an axis, bold count, N */
static inline int64_t refuse_ticks_light(const int64_t *in) {
    return refuse_hint(in, ALL_KINDS, in[6], in[7]);
}

/* in: an axis, N */
static inline int64_t refuse_period(const int64_t *in) {
    return refuse_hint(in, PERIOD_KINDS, 0, in[6]);
}

/* in: a table's number */
static inline int64_t refuse_rules(const int64_t *in) {
    struct rule_list rules;
    return refuse_table(table_at(in[0]), &rules);
}

/* in: an axis, a table's number. The table is asked first; no hint, so neither 5, which is kind 7's, nor 6. */
static inline int64_t refuse_ruled(const int64_t *in) {
    int64_t number = refuse_rules(in + 6);
    return number ? number : refuse_axis(in, RULED_KINDS);
}

/* in: an axis, low, high, pixel */
static inline int64_t refuse_unmap(const int64_t *in) {
    int64_t number = refuse_axis(in, UNMAP_KINDS);
    bool limits = pixel_in_range(in[6]) && pixel_in_range(in[7]) && pixel_in_range(in[8]) && in[6] != in[7];
    return number ? number : limits ? 0 : 7;
}

/* in: an axis */
static inline int64_t refuse_size(const int64_t *in) {
    return refuse_axis(in, INDEX_KINDS);
}

/* in: an axis, value */
static inline int64_t refuse_by_value(const int64_t *in) {
    int64_t number = refuse_axis(in, INDEX_KINDS);
    return number ? number : value_of_kind(in[0], in[6], in[7]) ? 0 : 8;
}

/* in: an axis, index or place */
static inline int64_t refuse_by_index(const int64_t *in) {
    int64_t number = refuse_axis(in, INDEX_KINDS);
    return number ? number : in_range(0, in[6], 3652059) ? 0 : 8;
}

/* Question 8 of a segment; the head and tail beside the last one are not asked. */
static inline bool segment_of_kind(int64_t kind, int64_t segment, int64_t head, int64_t tail) {
    return in_range(1, segment, 3) && (segment == 3 || value_of_kind(kind, head, tail));
}

/* in: an axis, low, high, segment, value */
static inline int64_t refuse_segment_map(const int64_t *in) {
    int64_t number = refuse_axis(in, INDEX_KINDS);
    if (number)
        return number;
    if (!pixel_in_range(in[6]) || !pixel_in_range(in[7]))
        return 7;
    if (!segment_of_kind(in[0], in[8], in[9], in[10]))
        return 8;
    bool empty = in[1] == in[3] && in[2] == in[4], at_start = in[9] == in[1] && in[10] == in[2];
    return size_of(in[0], in) < 1 || (in[8] != 3 && empty && !at_start) ? 9 : 0;
}

/* in: an axis, N */
static inline int64_t refuse_segment_ticks_bold(const int64_t *in) {
    return refuse_hint(in, INDEX_KINDS, 0, in[6]);
}

/* in: an axis, bold count, N */
static inline int64_t refuse_segment_ticks_light(const int64_t *in) {
    return refuse_hint(in, INDEX_KINDS, in[6], in[7]);
}

/* in: an axis, segment, value */
static inline int64_t refuse_by_segment(const int64_t *in) {
    int64_t number = refuse_axis(in, INDEX_KINDS);
    return number ? number : segment_of_kind(in[0], in[6], in[7], in[8]) ? 0 : 8;
}

/* Question 10 of an answered date, by the answer's numbers, head first: is it a day of question 3? */
static inline bool day_answered(const int64_t *in, const int64_t *answer) {
    (void)in;
    return in_range(1, answer[0], 3652059);
}

/* The same where the segment stands before the head. */
static inline bool segment_answered(const int64_t *in, const int64_t *answer) {
    return answer[0] == 3 || day_answered(in, answer + 1);
}

/* The follower of a centre, where it is mapped. Only on kind 5 is it ever past the last day: from 9999-12-31 on, with its
   ceiling a day later, the size is 12, and each month but December has a follower in the year 10000. */
static inline bool follower_mapped(const int64_t *in, const int64_t *answer) {
    (void)answer;
    bool ceiling_past = in[0] == 5 && date_ceiling(in[1], in[2]) > 3652059;
    return !(in[8] == 2 && ceiling_past && date_at(in[9]).month < 12);
}

/* The same to unmap; with indices, the index too: offset * size / W rounded down, below 0 is 0. Kind 4 has none. */
static inline bool day_unmapped(const int64_t *in, const int64_t *answer) {
    if (in[0] != 4) {
        int64_t places = (in[8] - in[6]) * size_of(in[0], in), width = in[7] - in[6];
        if (places / width > 3652059)
            return false;
    }
    return day_answered(in, answer);
}

/* in: year, month, day. On which day a month ends is left to the oracle; it has years before 1 and after 9999 too. */
static inline int64_t refuse_day_number(const int64_t *in) {
    return in_range(1, in[0], 9999) && in_range(1, in[1], 12) && in_range(1, in[2], 31) ? 0 : 8;
}

static inline int64_t refuse_date_of(const int64_t *in) {
    return in_range(1, in[0], 3652059) ? 0 : 8;
}

/* in: year, week, weekday. Here question 10 is asked too: only 9999-W52-6 and 9999-W52-7 are behind the last day. */
static inline int64_t refuse_week_day_number(const int64_t *in) {
    if (!in_range(1, in[0], 9999) || !in_range(1, in[1], weeks_of(in[0])) || !in_range(1, in[2], 7))
        return 13;
    return in[0] == 9999 && in[1] == 52 && in[2] > 5 ? 10 : 0;
}

#endif
