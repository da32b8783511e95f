/* The exports with their arguments in one row and their answers in another, for the clients: the status, then the numbers. An
   axis is the first six arguments; a table of house rules is one, its number in tables.h. */
#ifndef CALLS_H
#define CALLS_H

#include <stdbool.h>
#include <stddef.h>
#include <stdint.h>

#include "ordered.h"
#include "tables.h"

/* Calls the archive; fills in the status and the numbers, and gives how many these are. */
typedef int call(const int64_t *in, int64_t *out);

/* The two calls of a tick list: into the lent numbers, and with nothing lent; lists of segments have no second one. */
typedef ordered_number list_call(const int64_t *in, int64_t *lent, size_t lent_len);
typedef ordered_number count_call(const int64_t *in, size_t lent_len);

/* What stands in the lent numbers before a call: never a tick. */
static inline int64_t pattern(size_t place) {
    return INT64_MIN + (int64_t)place;
}

static inline void fill(int64_t *block, size_t count) {
    for (size_t i = 0; i < count; i++)
        block[i] = pattern(i);
}

#define AXIS_OF(in) (in)[0], (in)[1], (in)[2], (in)[3], (in)[4], (in)[5]

static inline int numbers_of(ordered_number r, int64_t *out) {
    out[0] = r.status, out[1] = r.value;
    return 2;
}

static inline int numbers_of_value(ordered_value r, int64_t *out) {
    out[0] = r.status, out[1] = r.head, out[2] = r.tail;
    return 3;
}

/* All four; the oracle's rows have status and pixel alone, since the Rust has no flags: `told` in operations.h. */
static inline int numbers_of_pixel(ordered_pixel r, int64_t *out) {
    out[0] = r.status, out[1] = r.pixel, out[2] = r.exact, out[3] = r.lost;
    return 4;
}

/* Each flag is 0 or 1, and 0 beside no answer. */
static inline bool fine_flags(ordered_pixel r) {
    int64_t most = r.status == 0;
    return r.exact >= 0 && r.exact <= most && r.lost >= 0 && r.lost <= most;
}

static inline int call_day_number(const int64_t *in, int64_t *out) {
    ordered_number r = ordered_day_number(in[0], in[1], in[2]);
    out[0] = r.status, out[1] = r.value;
    return 2;
}

static inline int call_date_of(const int64_t *in, int64_t *out) {
    ordered_date r = ordered_date_of(in[0]);
    out[0] = r.status, out[1] = r.year, out[2] = r.month, out[3] = r.day;
    return 4;
}

static inline int call_week_day_number(const int64_t *in, int64_t *out) {
    return numbers_of(ordered_week_day_number(in[0], in[1], in[2]), out);
}

static inline int call_week_date_of(const int64_t *in, int64_t *out) {
    ordered_week_date r = ordered_week_date_of(in[0]);
    out[0] = r.status, out[1] = r.year, out[2] = r.week, out[3] = r.weekday;
    return 4;
}

static inline int call_map(const int64_t *in, int64_t *out) {
    return numbers_of_pixel(ordered_map(AXIS_OF(in), in[6], in[7], in[8], in[9]), out);
}

static inline int call_period(const int64_t *in, int64_t *out) {
    ordered_period r = ordered_period_per_point(AXIS_OF(in), in[6]);
    out[0] = r.status, out[1] = r.nanoseconds;
    return 2;
}

static inline ordered_number list_bold(const int64_t *in, int64_t *lent, size_t lent_len) {
    return ordered_ticks_bold(AXIS_OF(in), in[6], lent, lent_len);
}

static inline ordered_number count_bold(const int64_t *in, size_t lent_len) {
    return ordered_count_bold(AXIS_OF(in), in[6], lent_len);
}

static inline ordered_number list_light(const int64_t *in, int64_t *lent, size_t lent_len) {
    return ordered_ticks_light(AXIS_OF(in), in[6], in[7], lent, lent_len);
}

static inline ordered_number count_light(const int64_t *in, size_t lent_len) {
    return ordered_count_light(AXIS_OF(in), in[6], in[7], lent_len);
}

static inline int call_rules(const int64_t *in, int64_t *out) {
    struct bytes table = table_at(in[0]);
    return numbers_of(ordered_rules(table.at, table.len), out);
}

static inline ordered_number list_ruled(const int64_t *in, int64_t *lent, size_t lent_len) {
    struct bytes table = table_at(in[6]);
    return ordered_ticks_ruled(AXIS_OF(in), table.at, table.len, lent, lent_len);
}

static inline ordered_number count_ruled(const int64_t *in, size_t lent_len) {
    struct bytes table = table_at(in[6]);
    return ordered_count_ruled(AXIS_OF(in), table.at, table.len, lent_len);
}

static inline int call_unmap(const int64_t *in, int64_t *out) {
    return numbers_of_value(ordered_unmap(AXIS_OF(in), in[6], in[7], in[8]), out);
}

static inline int call_size(const int64_t *in, int64_t *out) {
    return numbers_of(ordered_size(AXIS_OF(in)), out);
}

static inline int call_index_of(const int64_t *in, int64_t *out) {
    return numbers_of(ordered_index_of(AXIS_OF(in), in[6], in[7]), out);
}

static inline int call_from_index(const int64_t *in, int64_t *out) {
    return numbers_of_value(ordered_from_index(AXIS_OF(in), in[6]), out);
}

static inline int call_next(const int64_t *in, int64_t *out) {
    return numbers_of_value(ordered_next(AXIS_OF(in), in[6], in[7]), out);
}

static inline int call_previous(const int64_t *in, int64_t *out) {
    return numbers_of_value(ordered_previous(AXIS_OF(in), in[6], in[7]), out);
}

static inline int call_values(const int64_t *in, int64_t *out) {
    ordered_step r = ordered_values(AXIS_OF(in), in[6]);
    out[0] = r.status, out[1] = r.head, out[2] = r.tail, out[3] = r.next;
    return 4;
}

static inline int call_segment_map(const int64_t *in, int64_t *out) {
    return numbers_of_pixel(ordered_segment_map(AXIS_OF(in), in[6], in[7], in[8], in[9], in[10]), out);
}

static inline ordered_number list_segment_bold(const int64_t *in, int64_t *lent, size_t lent_len) {
    return ordered_segment_ticks_bold(AXIS_OF(in), in[6], lent, lent_len);
}

static inline ordered_number list_segment_light(const int64_t *in, int64_t *lent, size_t lent_len) {
    return ordered_segment_ticks_light(AXIS_OF(in), in[6], in[7], lent, lent_len);
}

static inline int call_segment_size(const int64_t *in, int64_t *out) {
    return numbers_of(ordered_segment_size(AXIS_OF(in)), out);
}

static inline int call_segment_index_of(const int64_t *in, int64_t *out) {
    return numbers_of(ordered_segment_index_of(AXIS_OF(in), in[6], in[7], in[8]), out);
}

static inline int call_segment_from_index(const int64_t *in, int64_t *out) {
    ordered_segment r = ordered_segment_from_index(AXIS_OF(in), in[6]);
    out[0] = r.status, out[1] = r.segment, out[2] = r.head, out[3] = r.tail;
    return 4;
}

#endif
