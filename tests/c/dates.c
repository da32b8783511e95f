/* An axis over date-times that lists dates, compared with the axis of kind 1 from date_ceil of its start to date_floor of its end
   and the bold hint N: both calls on slices with guards, every number. dates AXES SEED draws axes until that many of each case
   list dates: kind 4 with either hint, kinds 5 and 6 with a light one that goes to kind 4, of segments too. Exits 1 on a
   difference. */
#include <inttypes.h>
#include <stdbool.h>
#include <stdio.h>
#include <stdlib.h>
#include <string.h>

#include "calls.h"
#include "draw.h"
#include "expect.h"

enum { ARGUMENTS = 8, GUARD = 5, ENOUGH = 20000, DRAWS = 200, MONTHS = 8192 };

static int64_t ticks;

/* A call, and where its N stands behind the axis: after a light hint's bold count. */
static const struct listing {
    const char *name;
    int64_t kind;
    int n;
    list_call *list;
    count_call *count; /* segments have none */
} listings[] = {
    {"ticks_bold", 4, 6, list_bold, count_bold},
    {"ticks_light", 4, 7, list_light, count_light},
    {"ticks_light", 5, 7, list_light, count_light},
    {"ticks_light", 6, 7, list_light, count_light},
    {"segment_ticks_light", 5, 7, list_segment_light, NULL},
    {"segment_ticks_light", 6, 7, list_segment_light, NULL},
};
enum { LISTINGS = sizeof listings / sizeof listings[0] };

/* What every listing must have met, with axes enough. */
enum met {
    LISTED, TOO_SHORT, NOTHING_LENT, EVERY_DAY, EVERY_WEEK, FEW_WEEKS, START_ALONE, FROM_MIDNIGHT, FROM_FIRST_SECOND, FROM_LATER,
    TO_MIDNIGHT, TO_LATER, SHORTEST, BEYOND_I64, METS
};
static const char *const met_texts[] = {
    "a list", "a slice that is too short", "no slice", "every day", "every week", "every few weeks", "the start alone",
    "a start at midnight", "a start in the first second", "a later start", "an end at midnight", "a later end",
    "the shortest span that lists dates", "a span beyond i64"
};
static int64_t met[LISTINGS][METS];

static void check(bool same, const struct listing *c, const int64_t *in, const char *otherwise) {
    expect(same, c->name, in, c->n + 1, otherwise);
}

static wide span_of(const int64_t *in) {
    return (wide)(in[3] - in[1]) * DAY + in[4] - in[2];
}

/* The shortest span without a period on kind 4, for N: 10^14 ns are the first power of ten above a day. */
static wide least_span(int64_t n) {
    return (wide)n * 100000 * SECOND;
}

/* Around the shortest span, where days and weeks become too many, at the end of i64, as long as it goes, or any. */
static wide long_span(int64_t kind, int64_t n) {
    wide most = last_place(kind) - first_place(kind), least = least_span(n), step = little();
    if (kind != 4 && !chance(4)) /* more months than a light hint takes would list no dates */
        most = (wide)MONTHS * 30 * DAY;
    switch (draw() % 8) {
    case 0: return least + step;
    case 1: return least + any_size(2 * DAY);
    case 2: return (wide)INT64_MAX + 1 + step;
    case 3: return (wide)(n + from(-1, 3)) * DAY + step * HOUR;
    case 4: return (wide)7 * (n + from(-1, 2)) * DAY + step * HOUR;
    case 5: return most - any_size(3 * DAY);
    case 6: return least + any_size(most);
    default: return least > most ? most : wide_from(least, most);
    }
}

/* Both tails often where a date is rounded, or beside it. */
static void move_tails(int64_t *in) {
    for (int tail = 2; tail <= 4; tail += 2)
        if (!chance(3))
            in[tail] = ONE_OF(0, 0, 1, SECOND - 1, SECOND, SECOND, SECOND + 1, DAY - 1, DAY - SECOND, HOUR);
}

/* Half of the months, or beside it: a light hint then goes to the date-times. */
static int64_t bold_for(const int64_t *in) {
    if (in[0] == 4 || chance(8))
        return hint_on(in[0]);
    return (int64_t)clamp(0, (size_of(5, in) + from(-1, 4)) / 2, 4096);
}

static void draw_call(const struct listing *c, int64_t *in) {
    int64_t n = hint_on(c->kind);
    axis a = axis_with(c->kind, long_span(c->kind, n));
    value start = value_at(c->kind, a.start), end = value_at(c->kind, a.end);
    in[0] = c->kind, in[1] = start.head, in[2] = start.tail, in[3] = end.head, in[4] = end.tail, in[5] = 0;
    move_tails(in);
    in[6] = bold_for(in);
    in[c->n] = n;
}

/* The period is none on kind 4; on kinds 5 and 6 the months, and the years, are at most twice the bold count. */
static bool lists_dates(const struct listing *c, const int64_t *in) {
    int64_t n = in[c->n];
    bool none = ordered_period_per_point(4, in[1], in[2], in[3], in[4], 0, n).status == ORDERED_NONE;
    check(none == (n >= 1 && span_of(in) >= least_span(n)), c, in, "a period from the shortest span on, or none before it");
    if (!none)
        return false;
    return c->kind == 4 || (size_of(5, in) <= 2 * in[6] && (c->kind == 5 || size_of(6, in) <= 2 * in[6]));
}

static void note(const struct listing *c, const int64_t *in, const int64_t *dates, int64_t status, const int64_t *lent) {
    int64_t *m = met[c - listings], days = dates[3] - dates[1], weeks = days / 7, n = in[c->n];
    m[status == 0 ? LISTED : TOO_SHORT]++;
    m[NOTHING_LENT] += lent == NULL;
    m[days > 0 && days <= n ? EVERY_DAY : weeks == 0 ? START_ALONE : weeks <= n ? EVERY_WEEK : FEW_WEEKS]++;
    m[in[2] == 0 ? FROM_MIDNIGHT : in[2] < SECOND ? FROM_FIRST_SECOND : FROM_LATER]++;
    m[in[4] == 0 ? TO_MIDNIGHT : TO_LATER]++;
    m[SHORTEST] += span_of(in) == least_span(n);
    m[BEYOND_I64] += span_of(in) > INT64_MAX;
}

static void compare(const struct listing *c, const int64_t *in) {
    static int64_t got_block[ORDERED_LENT_MOST + 2 * GUARD + 8], want_block[ORDERED_LENT_MOST + 2 * GUARD + 8];
    const int64_t dates[] = {1, date_ceiling(in[1], in[2]), 0, in[3], 0, 0, in[c->n]};
    int64_t count = count_bold(dates, SIZE_MAX).value;
    size_t lent_len = lent_for(count), all = lent_len + 2 * GUARD;
    bool none = lent_len == 0 && chance(2);
    fill(got_block, all);
    fill(want_block, all);
    ordered_number got = c->list(in, none ? NULL : got_block + GUARD, lent_len);
    ordered_number want = list_bold(dates, none ? NULL : want_block + GUARD, lent_len);
    check(got.status == want.status && got.value == want.value, c, in, "another answer than of its dates");
    check(!memcmp(got_block, want_block, all * sizeof got_block[0]), c, in, "other lent numbers than of its dates");
    check(want.status == (lent_len < 2 * (size_t)count ? 11 : 0), c, in, "its dates are refused");
    if (c->count) {
        got = c->count(in, lent_len);
        check(got.status == want.status && got.value == want.value, c, in, "another count than of its dates");
    }
    ticks += want.value;
    note(c, in, dates, got.status, none ? NULL : got_block);
}

/* The next axis that lists dates. */
static void compare_next(const struct listing *c) {
    int64_t in[ARGUMENTS];
    for (int draws = 0; draws < DRAWS; draws++) {
        draw_call(c, in);
        if (!lists_dates(c, in))
            continue;
        compare(c, in);
        return;
    }
    check(false, c, in, "so many draws, and none lists dates");
}

static void expect_all_met(int64_t axes) {
    for (int i = 0; i < LISTINGS && axes >= ENOUGH; i++)
        for (int m = 0; m < METS; m++)
            if (met[i][m] == 0 && differences++ < SHOWN)
                printf("  %s of kind %" PRId64 ": never %s\n", listings[i].name, listings[i].kind, met_texts[m]);
}

int main(int argc, char **argv) {
    int64_t axes = count_and_seed(argc, argv);
    for (int64_t i = 0; i < axes; i++)
        for (int listing = 0; listing < LISTINGS; listing++)
            compare_next(&listings[listing]);
    expect_all_met(axes);
    printf("dates: %" PRId64 " axes over date-times in each of %d cases, seed %s: %" PRId64 " compared, %" PRId64
           " ticks, %" PRId64 " differences\n", axes, LISTINGS, argv[2], compared, ticks, differences);
    return differences > 0 || axes < 1;
}
