/* The operations by the names of the oracle's requests: their calls, their questions, and what is known of their answers. */
#ifndef OPERATIONS_H
#define OPERATIONS_H

#include <stdbool.h>
#include <stdint.h>
#include <stdlib.h>
#include <string.h>

#include "calls.h"
#include "exact.h"
#include "questions.h"

/* The most numbers of a request, and of an answer. */
enum { ARGUMENTS = 11, NUMBERS = 1 << 15 };

/* Fills in document 01's answer where the Rust's logarithm may round it away; gives how many numbers, 0 if it may not. */
typedef int exact(const int64_t *in, int64_t *out);

/* Question 10 of the oracle's answer, by its numbers after the status. */
typedef bool fits(const int64_t *in, const int64_t *answer);

static int exact_period_answer(const int64_t *in, int64_t *out) {
    out[0] = 0, out[1] = doubtful_period(in[0], in, in[6]);
    return out[1] ? 2 : 0;
}

static int exact_list(const int64_t *in, int64_t kind, int64_t n, int64_t *out) {
    int64_t period = kind == 4 || kind == 7 ? doubtful_period(kind, in, n) : 0;
    if (!period)
        return 0;
    out[0] = 0, out[1] = exact_ticks(kind, in, period, out + 2);
    return 2 + 2 * (int)out[1];
}

static int exact_bold(const int64_t *in, int64_t *out) {
    return exact_list(in, in[0], in[6], out);
}

static int exact_light(const int64_t *in, int64_t *out) {
    return exact_list(in, listed_kind(in, in[6]), in[7], out);
}

/* A new operation is one row, its calls in calls.h and its questions in questions.h. */
static const struct row {
    const char *name;
    int arguments;
    call *call;
    refusal *refusal;
    int64_t none;  /* the archive's status where the Rust has no value (-1) */
    int64_t panic; /* and where it panics though no question before 10 refuses; 0: nothing is known there */
    fits *fits;    /* 10 too where this says no; NULL: all answers fit */
    int place;     /* at none the last number is this argument; 0: none is all zeros */
    int told;      /* the Rust tells only so many of the call's numbers: it has no flags of a pixel; 0: all */
    bool ruled;    /* its last argument is a table, not an N */
    exact *exact;
    list_call *list; /* these two instead of call; no count: NULL */
    count_call *count;
} rows[] = {
    {"day_number", 3, call_day_number, refuse_day_number, .none = 8},
    {"date_of", 1, call_date_of, refuse_date_of, .none = 8},
    {"week_day_number", 3, call_week_day_number, refuse_week_day_number, .none = 0}, /* the Rust lacks week dates */
    {"week_date_of", 1, call_week_date_of, refuse_date_of, .none = 0},
    {"map", 10, call_map, refuse_map, .panic = 10, .told = 2},
    {"period", 7, call_period, refuse_period, .none = -1, .exact = exact_period_answer},
    {"ticks_bold", 7, NULL, refuse_ticks_bold, .exact = exact_bold, .list = list_bold, .count = count_bold},
    {"ticks_light", 8, NULL, refuse_ticks_light, .exact = exact_light, .list = list_light, .count = count_light},
    {"rules", 1, call_rules, refuse_rules, .none = 0}, /* the Rust lacks house rules */
    {"ticks_ruled", 7, NULL, refuse_ruled, .ruled = true, .list = list_ruled, .count = count_ruled},
    {"unmap", 9, call_unmap, refuse_unmap, .panic = 10, .fits = day_unmapped},
    {"size", 6, call_size, refuse_size, .none = 0},
    {"index_of", 8, call_index_of, refuse_by_value, .none = -1},
    {"from_index", 7, call_from_index, refuse_by_index, .panic = 10, .fits = day_answered},
    {"next", 8, call_next, refuse_by_value, .none = -1, .panic = 10, .fits = day_answered},
    {"previous", 8, call_previous, refuse_by_value, .none = -1, .panic = 10, .fits = day_answered},
    {"values", 7, call_values, refuse_by_index, .none = -1, .panic = 10, .fits = day_answered, .place = 6},
    {"segment_map", 11, call_segment_map, refuse_segment_map, .panic = 10, .fits = follower_mapped, .told = 2},
    {"segment_ticks_bold", 7, NULL, refuse_segment_ticks_bold, .list = list_segment_bold},
    {"segment_ticks_light", 8, NULL, refuse_segment_ticks_light, .exact = exact_light, .list = list_segment_light},
    {"segment_size", 6, call_segment_size, refuse_size, .none = 0},
    {"segment_index_of", 9, call_segment_index_of, refuse_by_segment, .none = -1},
    {"segment_from_index", 7, call_segment_from_index, refuse_by_index, .none = -1, .panic = 10, .fits = segment_answered},
};
enum { ROWS = sizeof rows / sizeof rows[0] };

/* The call of a row; gives how many of its numbers the Rust tells too. */
static inline int call_row(const struct row *row, const int64_t *in, int64_t *out) {
    int count = row->call(in, out);
    return row->told ? row->told : count;
}

/* Reads whole numbers parted by one space, up to the end of the text; gives how many, or -1. One that does not fit
   becomes the nearest that does: the oracle has such periods, of reversed spans. */
static inline int read_numbers(const char *text, int64_t *to, int most) {
    for (int count = 0; count < most; text++) {
        if (text[*text == '-'] < '0' || text[*text == '-'] > '9')
            return -1;
        char *end;
        to[count++] = strtoll(text, &end, 10);
        text = end;
        if (*text != ' ')
            return *text ? -1 : count;
    }
    return -1;
}

/* The operation of a request line, its numbers filled in; NULL: the line does not read. */
static inline const struct row *read_request(const char *request, int64_t *in) {
    size_t name = strcspn(request, " ");
    const struct row *row = rows;
    while (row < rows + ROWS && (strlen(row->name) != name || memcmp(row->name, request, name)))
        row++;
    if (row == rows + ROWS || !request[name] || read_numbers(request + name + 1, in, ARGUMENTS) != row->arguments)
        return NULL;
    return row;
}

#endif
