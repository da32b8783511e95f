/* Mappings for the clients that compare pixels with positions: axes, limits and values of them, drawn so that many are at a whole
   position or beside one; and what must have been met of each kind. */
#ifndef MAPPINGS_H
#define MAPPINGS_H

#include <inttypes.h>
#include <stdbool.h>
#include <stdint.h>
#include <stdio.h>

#include "draw.h"
#include "expect.h"
#include "questions.h"

enum { KINDS = 8, ENOUGH = 20000, WIDEST = 65534 };
enum { DATE_KINDS = 1 << 1 | 1 << 2 | 1 << 3 | 1 << 8, TIME_KINDS = ALL_KINDS & ~DATE_KINDS };
enum { EXCLUDED = 5, LOW, HIGH, HEAD, TAIL }; /* the arguments after the ends */

/* What must have been met, with mappings enough: on each kind that has its bit, as questions.h has them. */
struct need {
    const char *text;
    unsigned kinds;
};

/* met: so many numbers of kind 0, which is none, then of kind 1 and so on. */
static inline void expect_all_met(int64_t mappings, const struct need *needs, const int64_t *met, int count) {
    for (int kind = 1; kind <= KINDS && mappings >= ENOUGH; kind++)
        for (int what = 0; what < count; what++)
            if (needs[what].kinds >> kind & 1 && met[kind * count + what] == 0 && differences++ < SHOWN)
                printf("  kind %d: never %s\n", kind, needs[what].text);
}

/* One nearer the low limit; what is at it is no nearer. */
static inline wide nearer(wide position) {
    return position > 0 ? position - 1 : position < 0 ? position + 1 : position;
}

/* The least step between two values. */
static inline int64_t step_on(int64_t kind) {
    return of_dates(kind) ? DAY : 1;
}

static inline void draw_limits(int64_t *low, int64_t *high) {
    *low = limit(), *high = limit();
    switch (draw() % 8) {
    case 0: *high = *low; break;
    case 1: *low = chance(2) ? 32767 : -32767, *high = -*low; break;
    case 2: *low = 0, *high = from(-100, 100); break;
    case 3:
    case 4: limits_with(from(-WIDEST, WIDEST), low, high); break;
    default: break;
    }
}

/* The offset nearest to a whole position, or up to two steps beside it. */
static inline wide beside_whole(axis a, int64_t width) {
    wide step = step_on(a.kind), span = (a.end - a.start) / step, ways = width < 0 ? -width : width;
    wide whole = from(0, (int64_t)ways), nearest = ways ? (2 * whole * span + ways) / (2 * ways) : 0;
    return step * clamp(0, nearest + from(-2, 2), span);
}

/* An axis of even parts and a width of as many, or of some times as many: each part ends at a whole position. */
static inline axis draw_parts(int64_t kind, int64_t *low, int64_t *high, wide *offset) {
    wide step = step_on(kind), steps = (last_place(kind) - first_place(kind)) / step;
    int64_t parts = 1 + (int64_t)any_size(WIDEST - 1), times = from(1, WIDEST / parts);
    wide part = step * (1 + any_size(steps / parts - 1));
    limits_with(chance(2) ? parts * times : -parts * times, low, high);
    *offset = part * (chance(8) ? parts : from(0, parts));
    return axis_with(kind, part * parts);
}

/* The six numbers of an axis; an end is sometimes excluded, where it can be. */
static inline void put_axis(axis a, int64_t *in) {
    value start = value_at(a.kind, a.start), end = value_at(a.kind, a.end);
    in[0] = a.kind, in[1] = start.head, in[2] = start.tail, in[3] = end.head, in[4] = end.tail;
    in[EXCLUDED] = of_dates(a.kind) && a.start < a.end && chance(4) ? excluding() : 0;
}

/* A mapping of a value in the span: a third of the values anywhere, a third beside whole positions, a sixth at whole ones, a
   sixth at the ends. */
static inline void draw_inside(int64_t kind, int64_t *in) {
    axis a = axis_of(kind);
    wide offset = wide_from(0, a.end - a.start);
    draw_limits(&in[LOW], &in[HIGH]);
    switch (draw() % 6) {
    case 0:
    case 1: offset = beside_whole(a, in[HIGH] - in[LOW]); break;
    case 2: a = draw_parts(kind, &in[LOW], &in[HIGH], &offset); break;
    case 3: offset = chance(2) ? 0 : a.end - a.start; break;
    default: break;
    }
    put_axis(a, in);
    value v = value_at(kind, place_on(kind, a.start + offset));
    in[HEAD] = v.head, in[TAIL] = v.tail;
}

#endif
