/* The flags of pixels compared with whole numbers: exact by two products of 128 bits, lost by a conversion to double and back.
   hairlines COUNT SEED draws that many mappings of each kind, half of the values in the span, half from far before it to far
   after it, and as many segments of each case on the kinds that have them; it prints as a table how many are exact, how many fell
   one short of a whole position and how many lost something. Exits 1 on a difference, or on one from what is proved of them. */
#include <inttypes.h>
#include <stdbool.h>
#include <stdio.h>
#include <stdlib.h>

#include "calls.h"
#include "draw.h"
#include "expect.h"
#include "mappings.h"
#include "questions.h"

enum { ARGUMENTS = 11, POWER = 2048, FAR_AWAY = 1 << 20, DRAWS = 200 };
enum { SEGMENT = HIGH + 1, SEGMENT_HEAD, SEGMENT_TAIL }; /* the arguments of segment_map after the limits */

/* A call with its answer: of map where the segment is 0, else of segment_map. */
struct asked {
    int64_t in[ARGUMENTS], segment;
    value v;
    ordered_pixel answer;
};

/* What a mapping divides: width * offset by span, in nanoseconds or in whole days. The last two divide nothing: a start that is
   the end, and a duration beyond 64 bits of nanoseconds from the start of a span that is not. */
enum by { NANOSECONDS, WHOLE_DAYS, START_ALONE, FAR_DURATION };
struct division {
    enum by by;
    wide width, offset, span;
};

struct flags {
    bool exact, lost;
};

/* The columns of the table, by kind and by segment: 0 is map, 1 a left end, 2 a centre. */
enum column { ASKED, ARE_EXACT, FELL_SHORT, HAVE_LOST, COLUMNS };
static int64_t table[KINDS + 1][3][COLUMNS];

enum met {
    EXACT_INSIDE, EXACT_BEFORE, EXACT_AFTER, EXACT_FAR, SHORT_INSIDE, SHORT_OUTSIDE, NOT_WHOLE, LARGE_KEPT, LEAST_OFFSET,
    OFFSET_LOST, SPAN_LOST, LOST_AND_EXACT, DAYS_EXACT, DAYS_NOT, FAR_DAYS, FAR_DAYS_EXACT, NO_DAYS, NO_DAYS_NO_WIDTH,
    BEYOND_I32, LIMITS_SWAPPED, LIMITS_EQUAL, START_IS_END, LATER_DURATION, EARLIER_DURATION, SWAPPED_SHORT, FIRST_DAY,
    END_EXCLUDED, NOT_ANSWERED, LEFT_EXACT, LEFT_SHORT, LEFT_NOT, LEFT_LOST, LEFT_DAYS, LEFT_SWAPPED, LEFT_EXCLUDED,
    LEFT_ALONE, NO_WIDTH_LEFT, EVEN_SUM, ODD_SUM, ONE_NOT, EVEN_MARGIN, ODD_MARGIN, ALONE_EVEN, ALONE_ODD, LOST_AT,
    LOST_AFTER, LAST, METS
};
enum { STAMPS = 1 << 4 | 1 << 5 | 1 << 6, SPANS = 1 << 7, INDEX_TIMES = INDEX_KINDS & TIME_KINDS };
static const struct need needs[METS] = {
    [EXACT_INSIDE] = {"an exact pixel in the span", ALL_KINDS},
    [EXACT_BEFORE] = {"an exact pixel before the start", ALL_KINDS},
    [EXACT_AFTER] = {"an exact pixel after the end", ALL_KINDS},
    [EXACT_FAR] = {"an exact pixel far outside", ALL_KINDS},
    [SHORT_INSIDE] = {"one short of a whole position in the span", ALL_KINDS},
    [SHORT_OUTSIDE] = {"one short of a whole position outside", ALL_KINDS},
    [NOT_WHOLE] = {"a position that is not whole", ALL_KINDS},
    [LARGE_KEPT] = {"an offset above 2^53 without a loss", ALL_KINDS},
    [LEAST_OFFSET] = {"an offset of -2^63", TIME_KINDS},
    [OFFSET_LOST] = {"a loss in the offset alone", TIME_KINDS},
    [SPAN_LOST] = {"a loss in the span alone", TIME_KINDS},
    [LOST_AND_EXACT] = {"a loss and yet exact", TIME_KINDS},
    [DAYS_EXACT] = {"an exact pixel in whole days", ALL_KINDS},
    [DAYS_NOT] = {"a position that is not whole in whole days", ALL_KINDS},
    [FAR_DAYS] = {"whole days though the span fits", ALL_KINDS & ~SPANS},
    [FAR_DAYS_EXACT] = {"an exact pixel there", ALL_KINDS & ~SPANS},
    [NO_DAYS] = {"zero whole days", STAMPS},
    [NO_DAYS_NO_WIDTH] = {"zero whole days and equal limits", STAMPS},
    [BEYOND_I32] = {"a position beyond 32 bits", ALL_KINDS},
    [LIMITS_SWAPPED] = {"swapped limits", ALL_KINDS},
    [LIMITS_EQUAL] = {"equal limits", ALL_KINDS},
    [START_IS_END] = {"a start that is the end", ALL_KINDS},
    [LATER_DURATION] = {"a far later duration", SPANS},
    [EARLIER_DURATION] = {"a far earlier duration", SPANS},
    [SWAPPED_SHORT] = {"a whole position between swapped limits", SPANS},
    [FIRST_DAY] = {"a value of the first day between swapped limits", SPANS},
    [END_EXCLUDED] = {"an excluded end", DATE_KINDS},
    [NOT_ANSWERED] = {"a refused call", ALL_KINDS},
    [LEFT_EXACT] = {"an exact left end", INDEX_KINDS},
    [LEFT_SHORT] = {"a left end one short", INDEX_KINDS},
    [LEFT_NOT] = {"a left end that is not whole", INDEX_KINDS},
    [LEFT_LOST] = {"a left end with a loss", INDEX_TIMES},
    [LEFT_DAYS] = {"a left end in whole days", INDEX_KINDS},
    [LEFT_SWAPPED] = {"a left end between swapped limits", INDEX_KINDS},
    [LEFT_EXCLUDED] = {"a left end with an excluded end", DATE_KINDS},
    [LEFT_ALONE] = {"a left end of a start that is the end", INDEX_KINDS},
    [NO_WIDTH_LEFT] = {"limits apart with nothing left between them", INDEX_KINDS},
    [EVEN_SUM] = {"a centre with an even sum", INDEX_KINDS},
    [ODD_SUM] = {"a centre with an odd sum", INDEX_KINDS},
    [ONE_NOT] = {"a centre with one exact mapping of two", INDEX_KINDS},
    [EVEN_MARGIN] = {"a centre with an even margin", INDEX_KINDS},
    [ODD_MARGIN] = {"a centre with an odd margin", INDEX_KINDS},
    [ALONE_EVEN] = {"the centre of a start that is the end, an even margin", INDEX_KINDS},
    [ALONE_ODD] = {"the centre of a start that is the end, an odd margin", INDEX_KINDS},
    [LOST_AT] = {"a centre with a loss at its value alone", INDEX_TIMES},
    [LOST_AFTER] = {"a centre with a loss at its follower alone", INDEX_TIMES},
    [LAST] = {"a last segment", INDEX_KINDS},
};
static int64_t met[KINDS + 1][METS];

static void check(bool same, const struct asked *a, const char *otherwise) {
    expect(same, a->segment ? "segment_map" : "map", a->in, a->segment ? ARGUMENTS : ARGUMENTS - 1, otherwise);
}

static bool fits_64(wide x) {
    return INT64_MIN <= x && x <= INT64_MAX;
}

static struct division division_of(const int64_t *in, wide width, value v) {
    wide start = nanoseconds(in[0], in[1], in[2]);
    wide span = nanoseconds(in[0], in[3], in[4]) - start, offset = nanoseconds(in[0], v.head, v.tail) - start;
    if (span == 0)
        return (struct division){START_ALONE, width, offset, span};
    if (fits_64(span) && fits_64(offset))
        return (struct division){NANOSECONDS, width, offset, span};
    if (fits_64(span) && in[0] == 7)
        return (struct division){FAR_DURATION, width, offset, span};
    return (struct division){WHOLE_DAYS, width, offset / DAY, span / DAY};
}

/* Is the position the pixel, which counts from the low limit, with nothing cut? */
static bool exact_at(struct division d, wide pixel) {
    if (d.by == START_ALONE || d.by == FAR_DURATION)
        return d.by == START_ALONE;
    return d.span > 0 && d.width * d.offset == pixel * d.span;
}

static bool loses(wide x) {
    return (wide)(double)(int64_t)x != x;
}

static struct flags flags_at(struct division d, wide pixel) {
    return (struct flags){exact_at(d, pixel), d.by == NANOSECONDS && (loses(d.offset) || loses(d.span))};
}

static int64_t margin_for(const int64_t *in) {
    return margin_of(in[HIGH] - in[LOW], size_of(in[0], in));
}

/* The width by which a value is mapped; left ends have the margin less. */
static wide width_for(const struct asked *a) {
    return a->in[HIGH] - a->in[LOW] - (a->segment ? margin_for(a->in) : 0);
}

/* The left end of a value, with the pixel that is asked for it. */
static struct flags left_end(const struct asked *a, value v, int64_t *pixel) {
    const int64_t *in = a->in;
    ordered_pixel p = ordered_segment_map(AXIS_OF(in), in[LOW], in[HIGH], ORDERED_SEGMENT_EXACT, v.head, v.tail);
    check(p.status == 0, a, "a centre, though a left end is refused");
    *pixel = p.pixel;
    return flags_at(division_of(in, width_for(a), v), (wide)p.pixel - in[LOW]);
}

/* Midway between two left ends, or half a margin on where no value follows. */
static struct flags flags_of_centre(const struct asked *a) {
    int64_t left, right, margin = margin_for(a->in), *seen = met[a->in[0]];
    struct flags at = left_end(a, a->v, &left);
    ordered_value next = ordered_next(AXIS_OF(a->in), a->v.head, a->v.tail);
    if (next.status != 0) {
        bool even = margin % 2 == 0, alone = division_of(a->in, 0, a->v).by == START_ALONE;
        check(a->answer.pixel == left + margin / 2, a, "not half a margin from its left end");
        seen[even ? EVEN_MARGIN : ODD_MARGIN] += at.exact && margin != 0;
        seen[even ? ALONE_EVEN : ALONE_ODD] += alone && margin != 0;
        return (struct flags){at.exact && even, at.lost};
    }
    struct flags after = left_end(a, (value){next.head, next.tail}, &right);
    bool even = (left + right) % 2 == 0;
    check(a->answer.pixel == (left + right) / 2, a, "not midway between two left ends");
    seen[even ? EVEN_SUM : ODD_SUM] += at.exact && after.exact;
    seen[ONE_NOT] += at.exact != after.exact;
    seen[LOST_AT] += at.lost && !after.lost;
    seen[LOST_AFTER] += after.lost && !at.lost;
    return (struct flags){at.exact && after.exact && even, at.lost || after.lost};
}

static struct flags flags_of(const struct asked *a) {
    if (a->segment == ORDERED_SEGMENT_LAST)
        return (struct flags){true, false};
    if (a->segment == ORDERED_SEGMENT_CENTRE)
        return flags_of_centre(a);
    return flags_at(division_of(a->in, width_for(a), a->v), (wide)a->answer.pixel - a->in[LOW]);
}

/* What is proved of a mapping and a left end. Kind 7 adds a little before the cut, which moves whole positions below zero: with
   swapped limits those of the span, but for the start and, in whole days, what is less than one after it. */
static void check_mapping(const struct asked *a, struct division d) {
    wide pixel = (wide)a->answer.pixel - a->in[LOW];
    if (a->v.head == a->in[1] && a->v.tail == a->in[2])
        check(a->answer.exact == 1, a, "the start is not exact");
    if (a->answer.exact && d.span > 0)
        check(pixel == d.width * d.offset / d.span, a, "exact, and not at the cut position");
    if (d.by != NANOSECONDS)
        check(a->answer.lost == 0, a, "something lost though no nanoseconds are divided");
    if (a->in[0] == 7 && d.width < 0 && d.offset > 0 && d.offset <= d.span)
        check(a->answer.exact == 0, a, "an exact duration between swapped limits");
}

static void check_flags(const struct asked *a) {
    struct flags want = flags_of(a);
    check(a->answer.exact == want.exact, a, want.exact ? "not called exact" : "called exact");
    check(a->answer.lost == want.lost, a, want.lost ? "a loss is not told" : "a loss is told that there is not");
    if (of_dates(a->in[0]))
        check(a->answer.lost == 0, a, "a date lost something");
    if (a->segment <= ORDERED_SEGMENT_EXACT)
        check_mapping(a, division_of(a->in, width_for(a), a->v));
}

static wide common_divisor(wide a, wide b) {
    while (b) {
        wide rest = a % b;
        a = b, b = rest;
    }
    return a;
}

/* An offset to either side whose position is whole, counted in a unit; in days with any part of one more. */
static wide whole_offset(axis a, int64_t width, int64_t unit) {
    wide span = (a.end - a.start) / unit, ways = width < 0 ? -width : width;
    wide far = (last_place(a.kind) - first_place(a.kind)) / unit;
    if (span == 0)
        return 0;
    wide common = common_divisor(ways, span), step = span / common;
    wide most = far / step, fitting = ways ? ((wide)1 << 31) / (ways / common) : most;
    wide offset = step * any_size(fitting < most ? fitting : most) * unit;
    offset += unit > step_on(a.kind) ? from(0, unit - 1) : 0;
    return chance(2) ? offset : -offset;
}

/* Beyond 64 bits of nanoseconds, to either side. */
static wide far_offset(int64_t kind) {
    wide beyond = (wide)INT64_MAX + 1, offset = beyond + any_size(last_place(kind) - first_place(kind) - beyond);
    return chance(2) ? offset : -offset;
}

/* Some numbers above 2^53 are doubles: here more of them. */
static wide without_loss(int64_t kind, wide x) {
    return of_dates(kind) || !chance(4) ? x : x - x % POWER;
}

/* A value from far before the start to far after the end. */
static void draw_anywhere(int64_t kind, int64_t *in) {
    axis a = axis_of(kind);
    wide offset = 0;
    draw_limits(&in[LOW], &in[HIGH]);
    switch (draw() % 8) {
    case 0: a = axis_with(kind, any_size(2 * DAY)), in[HIGH] = chance(3) ? in[LOW] : in[HIGH]; /* fall through */
    case 1: offset = far_offset(kind); break;
    case 2: a = draw_parts(kind, &in[LOW], &in[HIGH], &offset); /* fall through */
    case 3:
    case 4: offset = whole_offset(a, in[HIGH] - in[LOW], step_on(kind)); break;
    case 5: offset = whole_offset(a, in[HIGH] - in[LOW], DAY); break;
    default: a.end = a.start + without_loss(kind, a.end - a.start), offset = without_loss(kind, offset_on(a));
    }
    put_axis(a, in);
    value v = value_at(kind, place_on(kind, a.start + (a.start == a.end ? 0 : offset)));
    in[HEAD] = v.head, in[TAIL] = v.tail;
}

static void draw_mapping(int64_t kind, struct asked *a) {
    if (chance(2))
        draw_inside(kind, a->in);
    else
        draw_anywhere(kind, a->in);
    a->v = (value){a->in[HEAD], a->in[TAIL]};
}

/* The width that has so many pixels less its margin; where there is none, so many. */
static int64_t width_with(int64_t less, int64_t size) {
    int64_t guess = size > 1 ? less + less / (size - 1) : from(-WIDEST, WIDEST);
    for (int64_t width = guess - 3; width <= guess + 3; width++)
        if (width >= -WIDEST && width <= WIDEST && width - margin_of(width, size) == less)
            return width;
    return less;
}

/* An axis over whole days, and limits that leave as many pixels for each: every day has a whole position. */
static axis draw_even(int64_t kind, int64_t *in) {
    axis a = axis_with(kind, any_size(WIDEST) * DAY);
    a.start -= a.start % DAY, a.end -= a.end % DAY;
    put_axis(a, in);
    int64_t days = in[3] - in[1], size = size_of(kind, in), less = days ? days * from(-WIDEST / days, WIDEST / days) : 0;
    if (size > 0)
        limits_with(width_with(less, size), &in[LOW], &in[HIGH]);
    return a;
}

static void draw_segment(int64_t kind, struct asked *a) {
    int64_t *in = a->in;
    axis at = axis_of(kind);
    draw_limits(&in[LOW], &in[HIGH]);
    bool even = chance(2);
    if (even)
        at = draw_even(kind, in);
    else
        put_axis(at, in);
    wide days = (at.end - at.start) / DAY, offset = chance(3) ? offset_on(at) : even ? DAY * wide_from(0, days) : days * DAY;
    if (!even && chance(2))
        offset = wide_from(0, at.end - at.start);
    a->v = value_at(kind, place_on(kind, at.start + (at.start == at.end ? 0 : offset)));
    in[SEGMENT] = a->segment, in[SEGMENT_HEAD] = a->v.head, in[SEGMENT_TAIL] = a->v.tail;
}

/* Is the position a whole one, with nothing to cut? */
static bool is_whole(struct division d) {
    return d.by <= WHOLE_DAYS && d.span > 0 && d.width * d.offset % d.span == 0;
}

static bool is_short(struct division d, wide pixel) {
    return is_whole(d) && pixel != d.width * d.offset / d.span && pixel == nearer(d.width * d.offset / d.span);
}

static void note_nanoseconds(const struct asked *a, struct division d, wide pixel) {
    int64_t *seen = met[a->in[0]], large = INT64_C(1) << 53;
    bool exact = a->answer.exact && d.offset != 0 && d.width != 0, inside = d.offset >= 0 && d.offset <= d.span;
    bool lost_offset = loses(d.offset), lost_span = loses(d.span);
    seen[inside ? EXACT_INSIDE : d.offset < 0 ? EXACT_BEFORE : EXACT_AFTER] += exact;
    seen[EXACT_FAR] += exact && (pixel > FAR_AWAY || pixel < -FAR_AWAY);
    seen[inside ? SHORT_INSIDE : SHORT_OUTSIDE] += is_short(d, pixel);
    seen[NOT_WHOLE] += !is_whole(d);
    seen[LARGE_KEPT] += !lost_offset && (d.offset > large || d.offset < -large);
    seen[LEAST_OFFSET] += d.offset == INT64_MIN;
    seen[OFFSET_LOST] += lost_offset && !lost_span;
    seen[SPAN_LOST] += lost_span && !lost_offset;
    seen[LOST_AND_EXACT] += exact && (lost_offset || lost_span);
    seen[SWAPPED_SHORT] += inside && d.width < 0 && is_short(d, pixel);
}

static void note_days(const struct asked *a, struct division d) {
    int64_t *seen = met[a->in[0]];
    bool far = division_of(a->in, 0, (value){a->in[3], a->in[4]}).by == NANOSECONDS; /* the span fits */
    bool exact = a->answer.exact && d.offset != 0 && d.width != 0;
    seen[DAYS_EXACT] += exact;
    seen[DAYS_NOT] += d.span > 0 && !is_whole(d);
    seen[FAR_DAYS] += far;
    seen[FAR_DAYS_EXACT] += far && exact;
    seen[NO_DAYS] += d.span == 0 && d.width != 0;
    seen[NO_DAYS_NO_WIDTH] += d.span == 0 && d.width == 0;
    seen[FIRST_DAY] += d.width < 0 && d.offset == 0 && a->v.tail != a->in[2];
}

static void note_mapping(const struct asked *a, struct division d, wide pixel) {
    int64_t *seen = met[a->in[0]];
    wide position = d.span > 0 ? d.width * d.offset / d.span : 0;
    if (d.by == NANOSECONDS)
        note_nanoseconds(a, d, pixel);
    else if (d.by == WHOLE_DAYS)
        note_days(a, d);
    seen[BEYOND_I32] += d.by <= WHOLE_DAYS && (position > INT32_MAX || position < INT32_MIN);
    seen[LIMITS_SWAPPED] += d.width < 0;
    seen[LIMITS_EQUAL] += d.width == 0;
    seen[START_IS_END] += d.by == START_ALONE;
    seen[LATER_DURATION] += d.by == FAR_DURATION && d.offset > 0;
    seen[EARLIER_DURATION] += d.by == FAR_DURATION && d.offset < 0;
    seen[END_EXCLUDED] += a->in[EXCLUDED] != 0;
}

static void note_left(const struct asked *a, struct division d, wide pixel) {
    int64_t *seen = met[a->in[0]];
    seen[LEFT_EXACT] += a->answer.exact && d.offset != 0 && d.width != 0;
    seen[LEFT_SHORT] += is_short(d, pixel);
    seen[LEFT_NOT] += d.span > 0 && !is_whole(d);
    seen[LEFT_LOST] += a->answer.lost;
    seen[LEFT_DAYS] += d.by == WHOLE_DAYS;
    seen[LEFT_SWAPPED] += d.width < 0;
    seen[LEFT_EXCLUDED] += a->in[EXCLUDED] != 0;
    seen[LEFT_ALONE] += d.by == START_ALONE;
    seen[NO_WIDTH_LEFT] += d.width == 0 && a->in[LOW] != a->in[HIGH];
}

static void note(const struct asked *a) {
    int64_t kind = a->in[0];
    if (a->segment == ORDERED_SEGMENT_LAST) {
        met[kind][LAST]++;
        return;
    }
    int64_t *row = table[kind][a->segment];
    row[ASKED]++, row[ARE_EXACT] += a->answer.exact, row[HAVE_LOST] += a->answer.lost;
    if (a->segment == ORDERED_SEGMENT_CENTRE)
        return;
    struct division d = division_of(a->in, width_for(a), a->v);
    wide pixel = (wide)a->answer.pixel - a->in[LOW];
    row[FELL_SHORT] += is_short(d, pixel);
    if (a->segment)
        note_left(a, d, pixel);
    else
        note_mapping(a, d, pixel);
}

static void ask(struct asked *a) {
    const int64_t *in = a->in;
    a->answer = a->segment ? ordered_segment_map(AXIS_OF(in), in[LOW], in[HIGH], a->segment, a->v.head, a->v.tail)
                           : ordered_map(AXIS_OF(in), in[LOW], in[HIGH], a->v.head, a->v.tail);
    check(fine_flags(a->answer), a, "a flag that is none, or beside no answer");
}

/* Compares one more call. False where it was refused. */
static bool compare(int64_t kind, int64_t segment) {
    struct asked a = {.segment = segment};
    if (segment)
        draw_segment(kind, &a);
    else
        draw_mapping(kind, &a);
    ask(&a);
    met[kind][NOT_ANSWERED] += a.answer.status != 0;
    if (a.answer.status != 0)
        return false;
    check_flags(&a);
    note(&a);
    return true;
}

/* The next call that is answered. */
static void compare_next(int64_t kind, int64_t segment) {
    for (int draws = 0; draws < DRAWS; draws++)
        if (compare(kind, segment))
            return;
    expect(false, segment ? "segment_map" : "map", &kind, 1, "so many draws, and all are refused");
}

/* Settled by hand: the arguments of map, or of segment_map if they end with a segment's, and all four numbers. */
static const struct {
    int arguments;
    int64_t in[ARGUMENTS], want[4];
} settled[] = {
    {10, {4, 1500000, 0, 1553375, 86018427387904, 0, 0, 1, 1393248, 763145224192}, {0, -2, 1, 0}}, /* an offset of -2^63 */
    {10, {4, 1, 0, 1, 1, 0, 0, -1, 1, 2147483648}, {0, -2147483648, 1, 0}}, /* the last position of 32 bits, and one beyond */
    {10, {4, 1, 0, 1, 1, 0, 0, 1, 1, 2147483648}, {0, 2147483647, 0, 0}},
    /* -8 * 2^62 and -2^31 * 2^33 differ in their upper halves alone. */
    {10, {4, 1, 0, 1, 8589934592, 0, 8, 0, 53376, 86018427387904}, {0, -2147483640, 0, 0}},
    {10, {4, 1, 1, 8, 0, 0, 0, 15, 8, 0}, {0, 14, 0, 0}}, /* the whole positions that fall one short with the smallest numbers */
    {10, {1, 1, 0, 1808, 0, 0, 0, 3781, 1808, 0}, {0, 3780, 0, 0}},
    {10, {7, -1, 0, 0, 0, 0, 1, 0, 0, 0}, {0, 1, 0, 0}},
    {10, {7, 0, 0, 1, 0, 0, 0, 0, 9007199, 254740993}, {0, 0, 1, 1}}, /* an offset of 2^53 + 1, and no width */
    {10, {7, 0, 0, 0, 1, 0, 1, 0, -1, 999999999}, {0, 2, 1, 0}}, /* swapped limits and a nanosecond before the start */
    {10, {7, 0, 0, 0, 1, 0, 1, 0, 0, 1048576}, {0, -1048574, 0, 0}}, /* after the end; 2^20 is the last to be moved */
    {10, {7, 0, 0, 0, 1, 0, 1, 0, 0, 1048577}, {0, -1048576, 1, 0}},
    {10, {7, -5000000000, 0, 5000000000, 0, 0, 1, 0, -5000000000, 1}, {0, 1, 1, 0}}, /* no whole day after the start */
    {10, {7, 0, 0, 1, 0, 0, 0, 1, 10000000000, 0}, {0, 1, 0, 0}}, /* a far duration is at the high limit */
    {10, {4, 1, 0, 1, 1, 0, 5, 5, 200000, 0}, {0, 5, 0, 0}}, /* divided by no whole day */
    {10, {4, 5, 1, 5, 1, 0, 3, 9, 5, 1}, {0, 3, 1, 0}}, /* the start is the end */
    {10, {4, 5, 1, 5, 1, 0, 3, 9, 5, 2}, {9, 0, 0, 0}},
    {11, {1, 10, 0, 10, 0, 0, 0, 7, 2, 10, 0}, {0, 3, 0, 0}}, /* half of 7 */
    {11, {1, 10, 0, 10, 0, 0, 0, 8, 2, 10, 0}, {0, 4, 1, 0}},
    {11, {1, 1, 0, 3, 0, 0, 0, 9, 2, 1, 0}, {0, 1, 0, 0}}, /* midway between 0 and 3 */
    {11, {1, 1, 0, 3, 0, 0, 0, 12, 2, 1, 0}, {0, 2, 1, 0}},
    {11, {1, 10, 0, 10, 0, 0, 0, 7, 3, 0, 0}, {0, 7, 1, 0}},
};

static void compare_settled(void) {
    for (size_t i = 0; i < sizeof settled / sizeof settled[0]; i++) {
        const int64_t *in = settled[i].in;
        bool segment = settled[i].arguments == ARGUMENTS;
        int64_t got[4];
        if (segment)
            call_segment_map(in, got);
        else
            call_map(in, got);
        expect_numbers(segment ? "segment_map" : "map", in, settled[i].arguments, got, "it must be", settled[i].want, 4);
    }
}

static void print_table(void) {
    static const char *const calls[] = {"map", "left end", "centre"};
    printf("| kind | of | mappings | exact | whole, one short | lost |\n|---|---|---|---|---|---|\n");
    for (int row = 0; row < 3 * KINDS; row++) {
        const int64_t *numbers = table[1 + row / 3][row % 3];
        if (numbers[ASKED] == 0)
            continue;
        printf("| %d | %s |", 1 + row / 3, calls[row % 3]);
        for (int column = 0; column < COLUMNS; column++)
            if (column == FELL_SHORT && row % 3 == ORDERED_SEGMENT_CENTRE)
                printf(" - |"); /* a centre is half of a sum, and has no position of its own */
            else
                printf(" %" PRId64 " |", numbers[column]);
        printf("\n");
    }
}

int main(int argc, char **argv) {
    int64_t mappings = count_and_seed(argc, argv);
    compare_settled();
    for (int64_t i = 0; i < mappings; i++)
        for (int64_t kind = 1; kind <= KINDS; kind++)
            for (int64_t segment = 0; segment <= (INDEX_KINDS >> kind & 1 ? ORDERED_SEGMENT_LAST : 0); segment++)
                compare_next(kind, segment);
    expect_all_met(mappings, needs, &met[0][0], METS);
    print_table();
    printf("hairlines: %" PRId64 " mappings of each kind and segments of each case, seed %s: %" PRId64 " compared, %" PRId64
           " differences\n", mappings, argv[2], compared, differences);
    return differences > 0 || mappings < 1;
}
