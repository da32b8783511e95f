/* Random numbers for the clients, the same for the same seed, and axes, values, limits, hints and lengths made of them.
   Boundaries come often. */
#ifndef DRAW_H
#define DRAW_H

#include <stdbool.h>
#include <stddef.h>
#include <stdint.h>
#include <stdio.h>
#include <stdlib.h>

#include "months.h"

/* Places and spans are nanoseconds in 128 bits: they reach 6 x 10^20. */
typedef __int128 wide;

static const int64_t SECOND = 1000000000, HOUR = INT64_C(3600000000000), DAY = INT64_C(86400000000000);
static const int64_t LAST_DAY = 3652059, LAST_SECOND = INT64_C(315576000000), NEAR = INT64_C(4000000000000000000);

static uint64_t state;

/* xorshift64*; the state is never 0. Never twice in one expression: C leaves the order open. */
static inline uint64_t draw(void) {
    state ^= state >> 12;
    state ^= state << 25;
    state ^= state >> 27;
    return state * UINT64_C(2685821657736338717);
}

/* Neighbouring seeds must not give neighbouring states: one step of splitmix64. */
static inline void seed_with(uint64_t seed) {
    seed += UINT64_C(0x9e3779b97f4a7c15);
    seed = (seed ^ seed >> 30) * UINT64_C(0xbf58476d1ce4e5b9);
    seed = (seed ^ seed >> 27) * UINT64_C(0x94d049bb133111eb);
    state = (seed ^ seed >> 31) | 1;
}

/* For a client whose arguments are COUNT and SEED: seeds the draws and gives the count. */
static inline int64_t count_and_seed(int argc, char **argv) {
    setvbuf(stdout, NULL, _IOLBF, 0); /* what was printed stays if a sanitizer ends the run */
    if (argc != 3) {
        fprintf(stderr, "usage: %s COUNT SEED\n", argv[0]);
        exit(1);
    }
    seed_with(strtoull(argv[2], NULL, 10));
    return strtoll(argv[1], NULL, 10);
}

static inline int64_t from(int64_t low, int64_t high) {
    return low + (int64_t)(draw() % (uint64_t)(high - low + 1));
}

static inline wide wide_from(wide low, wide high) {
    wide size = high - low + 1;
    if (size <= INT64_MAX)
        return low + from(0, (int64_t)size - 1);
    unsigned __int128 drawn = draw();
    drawn = drawn << 32 ^ draw();
    return low + (wide)(drawn % (unsigned __int128)size);
}

static inline bool chance(int in) {
    return draw() % (uint64_t)in == 0;
}

static inline int64_t one_of(const int64_t *pool, size_t count) {
    return pool[draw() % count];
}

#define POOL(...) ((const int64_t[]){__VA_ARGS__})
#define ONE_OF(...) one_of(POOL(__VA_ARGS__), sizeof POOL(__VA_ARGS__) / sizeof(int64_t))

/* From 0 to most; small ones come as often as large ones. */
static inline wide any_size(wide most) {
    int bits = 0;
    while (most >> bits)
        bits++;
    return wide_from(0, most >> from(0, bits));
}

static inline wide clamp(wide low, wide x, wide high) {
    return x < low ? low : x > high ? high : x;
}

typedef struct {
    int64_t head, tail;
} value;

typedef struct {
    int64_t kind;
    wide start, end;
} axis;

static inline int64_t unit(int64_t kind) {
    return kind == 7 ? SECOND : DAY;
}

static inline wide first_place(int64_t kind) {
    return kind == 7 ? (wide)-LAST_SECOND * SECOND : DAY;
}

static inline wide last_place(int64_t kind) {
    return kind == 7 ? (wide)LAST_SECOND * SECOND + SECOND - 1 : (wide)LAST_DAY * DAY + (of_dates(kind) ? 0 : DAY - 1);
}

/* The place of a value of the kind: what lies outside goes to the nearest end, a date loses its time. */
static inline wide place_on(int64_t kind, wide place) {
    place = clamp(first_place(kind), place, last_place(kind));
    return of_dates(kind) ? place / DAY * DAY : place;
}

static inline value value_at(int64_t kind, wide place) {
    int64_t per = unit(kind), tail = (int64_t)(place % per);
    tail += tail < 0 ? per : 0;
    return (value){(int64_t)((place - tail) / per), tail};
}

/* A step from a boundary: none as often as any other. */
static inline int64_t little(void) {
    return ONE_OF(0, 0, 0, 1, -1, 2, -2, 1000, -1000);
}

static inline wide span_on(int64_t kind) {
    wide most = last_place(kind) - first_place(kind), step = little();
    switch (draw() % 12) {
    case 0: return ONE_OF(0, 1, 2, 3, SECOND, HOUR);
    case 1: return (wide)INT64_MAX + 1 + step;
    case 2: return ONE_OF(106751, 106752, 106753) * (wide)DAY + step;
    case 3: return ONE_OF(1, 2, 7, 30, 135, 365, 366, 2615, 62021, 65533, 65534) * (wide)DAY + step;
    case 4: return most - any_size(DAY);
    case 5: return wide_from(0, most);
    case 6: return (wide)from(0, 800) * DAY;
    case 7: return (wide)from(0, 110000) * DAY;
    case 8: return wide_from(0, (wide)2 * NEAR);
    case 9: return any_size(DAY);
    default: return any_size(most);
    }
}

/* Where a span can begin: on kind 7, mostly where question 5 lets it. */
static inline axis axis_with(int64_t kind, wide span) {
    axis a = {kind, first_place(kind), last_place(kind)};
    if (of_dates(kind)) /* up to whole days, or too many spans would be 0 */
        span = (span + DAY - 1) / DAY * DAY;
    span = clamp(0, span, a.end - a.start);
    if (kind == 7 && span <= (wide)2 * NEAR && !chance(50))
        a.start = -(wide)NEAR, a.end = NEAR;
    switch (draw() % 8) {
    case 0: break;
    case 1: a.start = a.end - span; break;
    case 2: a.start = clamp(a.start, (wide)unit(kind) * ONE_OF(0, 1, 719163, -1, 86400), a.end - span); break;
    default: a.start = wide_from(a.start, a.end - span);
    }
    a.start = place_on(kind, a.start);
    a.end = place_on(kind, a.start + span);
    return a;
}

static inline axis axis_of(int64_t kind) {
    return axis_with(kind, span_on(kind));
}

static inline wide offset_on(axis a) {
    wide span = a.end - a.start, far = last_place(a.kind) - first_place(a.kind), step = little();
    int way = chance(2) ? 1 : -1;
    switch (draw() % 16) {
    case 0: return 0;
    case 1: return span;
    case 2: return way * ((wide)INT64_MAX + 1 + step);
    case 3: return way * (ONE_OF(106751, 106752, 106753) * (wide)DAY + step);
    case 4: return way * any_size(far);
    case 5: return way * wide_from(0, far);
    case 6: return ONE_OF(1, 2, -1, 0) * span + unit(a.kind) * step;
    case 7: return step * (chance(2) ? 1 : DAY);
    case 8: return span / ONE_OF(2, 3, 4, 5, 7, 10) + step;
    default: return wide_from(0, span);
    }
}

static inline int64_t limit(void) {
    switch (draw() % 4) {
    case 0: return ONE_OF(0, 0, 1, -1, 100, -100, 1000, 32767, -32767, 32766, -32766, 31021, -31000);
    case 1: return from(0, 1000);
    case 2: return from(-1000, 1000);
    default: return from(-32767, 32767);
    }
}

/* Both limits for a given width, swapped ones too. */
static inline void limits_with(int64_t width, int64_t *low, int64_t *high) {
    *low = from(width < 0 ? -32767 - width : -32767, width < 0 ? 32767 : 32767 - width);
    if (width > 0 && width <= 32767 && chance(3))
        *low = 0;
    *high = *low + width;
}

/* A place that is no value of the kind, in head or in tail; some look like one when they are cut to 32 bits. */
static inline value spoilt(int64_t kind, value v) {
    if (chance(2)) {
        if (kind == 7)
            v.head = ONE_OF(LAST_SECOND + 1, -LAST_SECOND - 1, INT64_MIN, INT64_MAX, LAST_SECOND * 2);
        else
            v.head = ONE_OF(0, -1, LAST_DAY + 1, v.head + (INT64_C(1) << 32), -v.head, INT64_MIN, INT64_MAX);
    } else {
        int64_t per = of_dates(kind) ? 1 : unit(kind);
        v.tail = ONE_OF(per, -1, per + 1, -per, per + v.tail, INT64_C(1) << 62, INT64_MIN, INT64_MAX);
    }
    return v;
}

/* A number that excludes the end: any but 0. Some are 0 when they are cut to fewer bits. */
static inline int64_t excluding(void) {
    return ONE_OF(1, 1, 1, -1, 2, 8, 256, INT64_C(1) << 32, INT64_MAX, INT64_MIN);
}

/* An N for a kind; on the kinds 4 to 7 seldom 0, which question 6 refuses there. Long lists are rarer than short ones. */
static inline int64_t hint_on(int64_t kind) {
    int64_t n = 0;
    switch (draw() % 8) {
    case 0: n = ONE_OF(0, 0, 0, 1, 1, 1, 2, 2, 2, 3, 4, 5, 7, 100, 4095, 4096); break;
    case 1: n = (int64_t)any_size(chance(4) ? 4096 : 500); break;
    case 2:
    case 3: n = from(0, 60); break;
    default: n = from(0, 12);
    }
    return n == 0 && !of_dates(kind) && !chance(20) ? 1 : n;
}

/* How many numbers to lend for a list: just as many as it has, a few less or more, or none. */
static inline size_t lent_for(int64_t count) {
    int64_t length = 2 * count + ONE_OF(0, 0, 0, 0, 1, 2, 7, -1, -2);
    return length < 0 || chance(20) ? 0 : (size_t)length;
}

#endif
