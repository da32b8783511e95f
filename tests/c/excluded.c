/* An axis whose end is excluded compared with the axis that ends a day earlier, every number of every operation: excluded AXES
   SEED draws that many axes of each of the kinds 1, 2, 3 and 8. A value's pixel is compared with that on the same axis with its
   end, a segment's with the definition, which mixes the two. Refused calls are among them. Exits 1 on a difference. */
#include <inttypes.h>
#include <stdbool.h>
#include <stdio.h>
#include <stdlib.h>
#include <string.h>

#include "calls.h"
#include "draw.h"
#include "expect.h"

enum { ARGUMENTS = 11, NUMBERS = 4, QUESTIONS = 15, GUARD = 5, ENOUGH = 20000, WALKED = 40 };
enum { LOW = 6, HIGH, SEGMENT, HEAD, TAIL }; /* the arguments of segment_map after the axis */

static int64_t ticks;

/* What an answer must equal: that of the axis that ends a day earlier, that of the written one with its end, or the definition of
   a segment's pixel. */
enum like { SHORTER, WRITTEN, MIXED };
static const char *const likes[] = {"the axis that ends a day earlier has", "with its end the axis has", "by the definition"};

#define Q(question) (1u << (question))
enum { AXIS_OWN = Q(1) | Q(3) | Q(4) | Q(14), BY_INDEX = AXIS_OWN | Q(8) | Q(10) };

/* What is taken after the axis, a letter each: l a limit or pixel, v the two numbers of a value, s a segment, h a hint's number,
   i an index or place. Beside it the statuses that it can have on these kinds, but 0. */
static const struct operation {
    const char *name, *takes;
    enum like like;
    unsigned asks;
    bool none;
    call *call; /* one of these three */
    list_call *list;
    count_call *count;
} operations[] = {
    {"map", "llv", WRITTEN, BY_INDEX | Q(7), .call = call_map},
    {"unmap", "lll", SHORTER, AXIS_OWN | Q(7) | Q(10), .call = call_unmap},
    {"ticks_bold", "h", SHORTER, AXIS_OWN | Q(6) | Q(11), .list = list_bold},
    {"ticks_light", "hh", SHORTER, AXIS_OWN | Q(6) | Q(11), .list = list_light},
    {"count_bold", "h", SHORTER, AXIS_OWN | Q(6) | Q(11), .count = count_bold},
    {"count_light", "hh", SHORTER, AXIS_OWN | Q(6) | Q(11), .count = count_light},
    {"size", "", SHORTER, AXIS_OWN, .call = call_size},
    {"index_of", "v", SHORTER, AXIS_OWN | Q(8), true, .call = call_index_of},
    {"from_index", "i", SHORTER, BY_INDEX, .call = call_from_index},
    {"next", "v", SHORTER, AXIS_OWN | Q(8), true, .call = call_next},
    {"previous", "v", SHORTER, AXIS_OWN | Q(8), true, .call = call_previous},
    {"values", "i", SHORTER, AXIS_OWN | Q(8), true, .call = call_values},
    {"segment_map", "llsv", MIXED, BY_INDEX | Q(7), .call = call_segment_map},
    {"segment_ticks_bold", "h", SHORTER, AXIS_OWN | Q(6) | Q(11), .list = list_segment_bold},
    {"segment_ticks_light", "hh", SHORTER, AXIS_OWN | Q(6) | Q(11), .list = list_segment_light},
    {"segment_size", "", SHORTER, AXIS_OWN, .call = call_segment_size},
    {"segment_index_of", "sv", SHORTER, AXIS_OWN | Q(8), true, .call = call_segment_index_of},
    {"segment_from_index", "i", SHORTER, AXIS_OWN | Q(8), true, .call = call_segment_from_index},
};
enum { OPERATIONS = sizeof operations / sizeof operations[0] };

static int64_t seen[OPERATIONS][QUESTIONS + 1]; /* by status, -1 first */

/* The first days of months, years and weeks, and any other; now and then beside it. */
static int64_t boundary(void) {
    int64_t day = from(1, LAST_DAY), step = ONE_OF(0, 0, 0, 1, -1);
    switch (draw() % 8) {
    case 0:
    case 1: day = first_of_month(from(0, 119987)); break;
    case 2: day = new_year(from(1, 9999)); break;
    case 3: day = first_of_month(12 * from(0, 9998) + ONE_OF(2, 3, 6, 9)); break;
    case 4:
    case 5: day = 7 * from(0, 521722) + 1; break;
    default: break;
    }
    return (int64_t)clamp(1, day + step, LAST_DAY);
}

/* A span in days: one, a few, some weeks, months or years, or any. */
static int64_t span(void) {
    switch (draw() % 8) {
    case 0: return 1;
    case 1: return from(1, 14);
    case 2: return 7 * from(1, 600);
    case 3: return ONE_OF(28, 29, 30, 31, 59, 60, 61, 90, 91, 92, 365, 366, 730, 731, 1461);
    case 4: return 1 + from(0, 800);
    default: return 1 + (int64_t)any_size(LAST_DAY - 2);
    }
}

/* Start and end of an axis, the start before the end. */
static void draw_axis(int64_t kind, int64_t *in) {
    int64_t start = boundary(), end = boundary();
    switch (draw() % 8) {
    case 0:
    case 1: end = (int64_t)clamp(1, start + span(), LAST_DAY); break;
    case 2: start = (int64_t)clamp(1, end - span(), LAST_DAY); break;
    case 3: end = LAST_DAY; break;
    case 4: start = chance(4) ? 1 : start, end = chance(4) ? LAST_DAY : end; break;
    default: break;
    }
    if (start > end) {
        int64_t day = start;
        start = end, end = day;
    }
    if (start == end && start > 1)
        start--;
    else if (start == end)
        end++;
    in[0] = kind, in[1] = start, in[2] = 0, in[3] = end, in[4] = 0, in[5] = excluding();
}

/* One of the numbers of an axis becomes one that a question refuses. */
static void spoil_axis(int64_t *in) {
    switch (draw() % 8) {
    case 0: in[0] = ONE_OF(0, 9, -1, in[0] + 256, in[0] + (INT64_C(1) << 32), INT64_MIN); break;      /* 1 */
    case 1: in[1] = ONE_OF(0, -1, LAST_DAY + 1, in[1] + (INT64_C(1) << 32), INT64_MIN); break;         /* 3 */
    case 2: in[3] = ONE_OF(LAST_DAY + 1, LAST_DAY + 1, LAST_DAY + 2, 0, INT64_MIN, INT64_MAX); break;  /* 3: a day less is one */
    case 3: in[chance(2) ? 2 : 4] = ONE_OF(1, -1, INT64_MAX); break;                                  /* 3 */
    case 4: in[1] = in[3] + (in[3] < LAST_DAY), in[3] -= in[3] > 1; break;                             /* 4 */
    default: in[3] = in[1] = in[chance(2) ? 1 : 3];                                                   /* 14 */
    }
}

/* At both ends, around the first days of the months beside them, inside, and anywhere; now and then no date. */
static void draw_value(const int64_t *in, int64_t *to) {
    int64_t step = from(-2, 2), day = from(1, LAST_DAY);
    switch (draw() % 8) {
    case 0: day = in[1] + step; break;
    case 1:
    case 2: day = in[3] + step; break;
    case 3: day = in[3] - date_at(in[3]).day + 1 + step; break;
    case 4: day = in[chance(2) ? 1 : 3] + from(-400, 400); break;
    case 5: break;
    default: day = from(in[1], in[3]);
    }
    to[0] = (int64_t)clamp(1, day, LAST_DAY), to[1] = 0;
    if (chance(40))
        to[chance(2)] = ONE_OF(0, -1, LAST_DAY + 1, to[0] + (INT64_C(1) << 32), INT64_MIN, INT64_MAX);
}

/* At 0, at the size, at the last day and beyond it; size is that of the shorter axis. */
static int64_t draw_index(const int64_t *in, int64_t size) {
    int64_t step = from(-2, 2), left = LAST_DAY - in[1];
    switch (draw() % 8) {
    case 0: return from(0, 2);
    case 1:
    case 2: return size + step;
    case 3: return (in[0] == 1 ? left : in[0] == 8 ? left / 7 : in[0] == 2 ? left / 31 : left / 366) + step;
    case 4: return chance(8) ? ONE_OF(-1, 3652059, 3652060, INT64_C(1) << 32, INT64_MIN, INT64_MAX) : (int64_t)any_size(LAST_DAY);
    default: return from(0, size > 0 ? size : 0);
    }
}

/* A bold count is often half the size, or beside it, where a light hint goes to the finer axis. */
static int64_t draw_hint(const int64_t *in, int64_t size, bool bold) {
    int64_t n = bold && !chance(3) ? (int64_t)clamp(0, (size + from(-2, 3)) / 2, 4096) : hint_on(in[0]);
    return chance(40) ? ONE_OF(-1, 4097, n + (INT64_C(1) << 32), INT64_MIN, INT64_MAX) : n;
}

static int64_t draw_limit(void) {
    return chance(80) ? ONE_OF(32768, -32768, INT64_C(1) << 32, INT64_MIN, INT64_MAX) : limit();
}

/* The arguments after the axis; gives how many there are with it. */
static int draw_arguments(const char *takes, int64_t size, int64_t *in) {
    int64_t *to = in + 6;
    bool two = !strcmp(takes, "hh");
    for (; *takes; takes++)
        switch (*takes) {
        case 'l': *to++ = draw_limit(); break;
        case 'v': draw_value(in, to), to += 2; break;
        case 's': *to++ = chance(40) ? ONE_OF(0, 4, -1, INT64_C(1) << 32) : from(1, 3); break;
        case 'h': *to++ = draw_hint(in, size, two && takes[1]); break;
        default: *to++ = draw_index(in, size);
        }
    return (int)(to - in);
}

/* The pixel of a segment by its definition: margin and follower by the shorter axis, each pixel by the written one between the
   low limit and the high one less the margin. A centre is exact where the pixels are and nothing is left of halving. */
static void segment_defined(const int64_t *shorter, const int64_t *written, int64_t *out) {
    int64_t low = shorter[LOW], high = shorter[HIGH], head = shorter[HEAD], tail = shorter[TAIL];
    call_segment_map(shorter, out);
    if (out[0] >= 1 && out[0] <= 8) /* limits, segment and value are asked alike; 9 and 10 are not */
        return;
    out[0] = 0, out[1] = high, out[2] = 1, out[3] = 0;
    if (shorter[SEGMENT] == ORDERED_SEGMENT_LAST)
        return;
    int64_t margin = margin_of(high - low, ordered_size(AXIS_OF(shorter)).value);
    ordered_pixel left = ordered_map(AXIS_OF(written), low, high - margin, head, tail), right = {0, margin / 2, 1, 0};
    ordered_value next = ordered_next(AXIS_OF(shorter), head, tail);
    numbers_of_pixel(left, out);
    if (shorter[SEGMENT] == ORDERED_SEGMENT_EXACT || left.status)
        return;
    if (next.status == 0)
        right = ordered_map(AXIS_OF(written), low, high - margin, next.head, next.tail);
    int64_t sum = left.pixel + right.pixel, halved = next.status == 0 ? sum : margin;
    bool fits = right.status == 0 && sum >= INT32_MIN && sum <= INT32_MAX;
    out[0] = fits ? 0 : 10, out[1] = !fits ? 0 : next.status == 0 ? sum / 2 : sum;
    out[2] = fits && left.exact && right.exact && halved % 2 == 0, out[3] = fits && (left.lost || right.lost);
}

/* The three axes of a call: as it is asked, the one that ends a day earlier, and the written one with its end. */
struct asked {
    int64_t excluded[ARGUMENTS], shorter[ARGUMENTS], written[ARGUMENTS];
    int arguments;
    int64_t refused; /* 1, 3, 4 or 14, about the axis; 0: none of them */
};

/* Questions 1, 3 and 4 are those of the written axis, whose size is refused by them alone on these kinds; then comes 14. */
static void turn(struct asked *a) {
    int64_t *in = a->excluded;
    memcpy(a->written, in, sizeof a->written);
    a->written[5] = 0;
    memcpy(a->shorter, a->written, sizeof a->shorter);
    a->shorter[3] -= in[3] > INT64_MIN;
    a->refused = ordered_size(AXIS_OF(a->written)).status;
    if (!a->refused && in[1] == in[3])
        a->refused = 14;
}

static void compare_call(const struct operation *o, const struct asked *a) {
    int64_t got[NUMBERS] = {0}, want[NUMBERS] = {0};
    int count = o->call(a->excluded, got);
    seen[o - operations][got[0] >= -1 && got[0] < QUESTIONS ? got[0] + 1 : 0]++;
    if (a->refused)
        want[0] = a->refused;
    else if (o->like == MIXED)
        segment_defined(a->shorter, a->written, want);
    else
        o->call(o->like == WRITTEN ? a->written : a->shorter, want);
    expect_numbers(o->name, a->excluded, a->arguments, got, likes[o->like], want, count);
}

/* By the list of the shorter axis. */
static size_t length_for(const struct operation *o, const struct asked *a) {
    bool light = !strcmp(o->takes, "hh");
    return lent_for((light ? count_light(a->shorter, SIZE_MAX) : count_bold(a->shorter, SIZE_MAX)).value);
}

static void compare_list(const struct operation *o, const struct asked *a) {
    static int64_t got_block[ORDERED_LENT_MOST + 2 * GUARD + 8], want_block[ORDERED_LENT_MOST + 2 * GUARD + 8];
    size_t length = length_for(o, a), all = length + 2 * GUARD;
    ordered_number got, want = {a->refused, 0};
    fill(want_block, all);
    if (o->count) {
        got = o->count(a->excluded, length);
        want = a->refused ? want : o->count(a->shorter, length);
    } else {
        fill(got_block, all);
        got = o->list(a->excluded, got_block + GUARD, length);
        want = a->refused ? want : o->list(a->shorter, want_block + GUARD, length);
    }
    seen[o - operations][got.status >= -1 && got.status < QUESTIONS ? got.status + 1 : 0]++;
    expect(got.status == want.status && got.value == want.value, o->name, a->excluded, a->arguments, "another count");
    if (o->count)
        return;
    expect(!memcmp(got_block, want_block, all * sizeof got_block[0]), o->name, a->excluded, a->arguments, "other lent numbers");
    bool before = true;
    for (int64_t i = 0; got.status == 0 && i < got.value && 2 * (size_t)i < length; i++, ticks++)
        before = before && got_block[GUARD + 2 * i] < a->excluded[3];
    expect(before, o->name, a->excluded, a->arguments, "a tick on the excluded end or after it");
}

/* The last values one by one, each after the one before it and all before the end, and then none. */
static void walk(const int64_t *in, int64_t size) {
    int64_t place = size > WALKED ? size - WALKED : 0, day = 0;
    ordered_step step = ordered_values(AXIS_OF(in), place);
    for (; step.status == 0 && place < size; place++, step = ordered_values(AXIS_OF(in), step.next)) {
        expect(step.head > day && step.head < in[3], "values", in, 6, "a value from the excluded end on, or out of order");
        day = step.head;
    }
    expect(step.status == -1 && place == size, "values", in, 6, "the walk does not end with the size");
}

/* All operations on one axis; one axis in sixteen is one that a question refuses, or two of them. */
static void compare(int64_t kind) {
    struct asked a = {0};
    draw_axis(kind, a.excluded);
    turn(&a);
    int64_t size = ordered_size(AXIS_OF(a.shorter)).value;
    bool spoilt = chance(16);
    int64_t axis[6];
    memcpy(axis, a.excluded, sizeof axis);
    for (int64_t times = spoilt ? from(1, 2) : 0; times > 0; times--)
        spoil_axis(axis);
    for (const struct operation *o = operations; o < operations + OPERATIONS; o++) {
        a.arguments = draw_arguments(o->takes, size, a.excluded);
        struct asked b = a;
        memcpy(b.excluded, axis, sizeof axis);
        turn(&b);
        if (o->call)
            compare_call(o, &b);
        else
            compare_list(o, &b);
    }
    if (!spoilt)
        walk(a.excluded, size);
}

/* Day 1 to 4, and 1 January to 1 April in months: what document 02 says of them. */
static void examples(void) {
    static const int64_t days[] = {1, 1, 0, 4, 0, 1}, months[] = {2, 737791, 0, 737881, 0, 1}, lefts[] = {0, 20, 40};
    static int64_t lent[ORDERED_LENT_MOST];
    for (int64_t day = 1; day <= 3; day++) {
        ordered_pixel left = ordered_segment_map(AXIS_OF(days), 0, 90, ORDERED_SEGMENT_EXACT, day, 0);
        expect(left.status == 0 && left.pixel == lefts[day - 1], "segment_map", days, 6, "days 1 to 4 are not at 0, 20 and 40");
    }
    ordered_pixel last = ordered_segment_map(AXIS_OF(days), 0, 90, ORDERED_SEGMENT_LAST, 0, 0);
    expect(last.status == 0 && last.pixel == 90, "segment_map", days, 6, "the last is not at 90");
    ordered_number size = ordered_size(AXIS_OF(months));
    expect(size.status == 0 && size.value == 3, "size", months, 6, "not three months");
    ordered_pixel april = ordered_map(AXIS_OF(months), 60, 740, 737881, 0);
    expect(april.status == 0 && april.pixel == 740, "map", months, 6, "1 April is not at the high limit");
    for (int64_t n = 0; n <= 4096; n++)
        for (int64_t bold = -1; bold <= 3; bold++) { /* -1: a bold hint; with 2 or 3 days are listed */
            ordered_number list = bold < 0 ? ordered_ticks_bold(AXIS_OF(months), n, lent, ORDERED_LENT_MOST)
                                           : ordered_ticks_light(AXIS_OF(months), bold, n, lent, ORDERED_LENT_MOST);
            bool before = list.status == 0 && list.value >= 1;
            for (int64_t i = 0; i < list.value; i++)
                before = before && lent[2 * i] < 737881;
            expect(before, "ticks", months, 6, "no tick, or one on 1 April");
        }
}

/* With axes enough, each operation must have had each status that it can have. */
static void expect_all_seen(int64_t axes) {
    for (int i = 0; i < OPERATIONS && axes >= ENOUGH; i++)
        for (int status = -1; status < QUESTIONS; status++) {
            bool can = status == 0 || (status == -1 ? operations[i].none : operations[i].asks >> status & 1);
            if (can != (seen[i][status + 1] > 0) && differences++ < SHOWN)
                printf("  %s: %s the status %d\n", operations[i].name, can ? "never" : "it had", status);
        }
}

int main(int argc, char **argv) {
    int64_t axes = count_and_seed(argc, argv);
    examples();
    for (int64_t i = 0; i < axes; i++)
        for (int kind = 0; kind < 4; kind++)
            compare(POOL(1, 2, 3, 8)[kind]);
    expect_all_seen(axes);
    printf("excluded: %" PRId64 " axes of each of the kinds 1, 2, 3 and 8, seed %s: %" PRId64 " compared, %" PRId64
           " ticks before the end, %" PRId64 " differences\n", axes, argv[2], compared, ticks, differences);
    return differences > 0 || axes < 1;
}
