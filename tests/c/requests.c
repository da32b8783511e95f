/* Prints requests for the oracle and the archive, one to a line: requests OPERATION SEED COUNT [KIND | excluded]. With `excluded`
   the end of every axis is excluded. As `requests operations` it prints the operations' names, as `requests rust` those that the
   Rust has. The same seed gives the same lines. Boundaries come often; about one request in ten is one that must be refused, and
   with `excluded` about one in five. */
#include <inttypes.h>
#include <stdbool.h>
#include <stdio.h>
#include <stdlib.h>
#include <string.h>

#include "draw.h"
#include "months.h"
#include "tables.h"

/* The one kind that is drawn; 0: all that the Rust has, 1 to 7. */
static int64_t only;

/* The ends are excluded: then mostly the kinds that allow it. */
static bool excluded;

static int64_t kind_of(int64_t drawn) {
    return excluded && !chance(10) ? from(1, 3) : only ? only : drawn;
}

/* An excluded end is often a day after the start, the first of a month or year, or the last day; now and then it is the start,
   which question 14 refuses. Others are left as they are. */
static axis with_end(axis a) {
    if (!excluded || !of_dates(a.kind) || chance(2))
        return a;
    int64_t start = (int64_t)(a.start / DAY), end = (int64_t)(a.end / DAY);
    struct date first = date_at(start), last = date_at(end);
    switch (draw() % 8) {
    case 0: end = start + 1; break;
    case 1: end = first_of_month(12 * (first.year - 1) + first.month); break;
    case 2: end = new_year(first.year + 1); break;
    case 3: end = end - last.day + 1; break;
    case 4: end = new_year(last.year); break;
    case 5: end = LAST_DAY; break;
    case 6: start = 1, end = LAST_DAY; break;
    default: end = chance(2) ? start : start + 1;
    }
    a.start = place_on(a.kind, (wide)start * DAY);
    a.end = place_on(a.kind, (wide)(end < start ? start : end) * DAY);
    return a;
}

/* Each part below is spoilt by its own chance, so that two questions say no at once now and then. */
static void print_axis(axis a) {
    value start = value_at(a.kind, a.start), end = value_at(a.kind, a.end);
    int64_t kind = a.kind;
    if (chance(60)) { /* question 4 */
        value v = start;
        start = end, end = v;
    }
    if (chance(80)) /* question 3 */
        start = spoilt(kind, start);
    if (chance(80))
        end = spoilt(kind, end);
    if (chance(60)) /* question 1, but for 8, which the Rust lacks */
        kind = ONE_OF(0, -1, 8, 9, -7, kind + 8, kind + 256, kind + (INT64_C(1) << 32), INT64_MIN, INT64_MAX);
    printf(" %" PRId64 " %" PRId64 " %" PRId64 " %" PRId64 " %" PRId64 " %" PRId64, kind, start.head, start.tail, end.head,
           end.tail, excluded ? excluding() : 0);
}

static void print_limit(int64_t limit) {
    if (chance(120)) /* question 7 */
        limit = ONE_OF(32768, -32768, 65536, limit + 65536, limit + (INT64_C(1) << 32), INT32_MAX, INT32_MIN, INT64_MAX,
                       INT64_MIN);
    printf(" %" PRId64, limit);
}

static void print_value(int64_t kind, wide place) {
    value v = value_at(kind, place_on(kind, place));
    if (chance(60)) /* question 8 */
        v = spoilt(kind, v);
    printf(" %" PRId64 " %" PRId64, v.head, v.tail);
}

/* A place of a span cut into equal steps of a unit, its pixel whole before any rounding, and its two neighbours. */
static axis whole_position(int64_t kind, int64_t *low, int64_t *high, wide *place) {
    int64_t steps = ONE_OF(1, 1, 2, 3, 5, 9, 27, 45, 100, 135, from(1, 1000)), width = from(1, 65534 / steps) * steps;
    if (chance(8))
        steps = 1, width = ONE_OF(62021, 65534, 62021 / 2);
    wide step = of_dates(kind) ? DAY : ONE_OF(1, 1000, 1000000, SECOND, 60 * SECOND, HOUR, DAY);
    wide most = kind != 7 ? (wide)106753 * DAY : (wide)2 * NEAR;
    step *= chance(4) ? 135 : 1 + any_size(most / step / steps);
    limits_with(width * ONE_OF(1, 1, -1), low, high);
    axis a = axis_with(kind, step * steps);
    *place = a.start + step * from(-1, steps + 1);
    if (!of_dates(kind))
        *place += chance(2) ? 0 : ONE_OF(1, -1);
    return a;
}

/* A pixel near an end of i32: around 2^31 without low, or with it. */
static axis far_pixel(int64_t kind, int64_t *low, int64_t *high, wide *place) {
    wide days = (wide)from(1, chance(2) ? 3 : 60) * DAY, less = 1 + any_size(chance(4) ? (wide)10000 * DAY : HOUR);
    axis a = axis_with(kind, of_dates(kind) ? days : less);
    int64_t width = from(of_dates(kind) ? 32767 : 1, 65534);
    width *= chance(3) ? -1 : 1;
    limits_with(width, low, high);
    int64_t way = ONE_OF(1, -1), step = ONE_OF(0, 1, -1, 2, -2, 40000 * way);
    wide pixel = (INT64_C(1) << 31) * way - (chance(2) ? *low : 0) + step;
    *place = a.start + pixel * (a.end - a.start) / width + (of_dates(kind) ? DAY * ONE_OF(0, 1, -1) : ONE_OF(0, 1, -1));
    return a;
}

static void map(void) {
    int64_t kind = kind_of(from(1, 7)), low = limit(), high = chance(30) ? low : limit();
    wide place;
    axis a;
    switch (draw() % 16) {
    case 0:
    case 1:
    case 2: a = whole_position(kind, &low, &high, &place); break;
    case 3: a = far_pixel(kind, &low, &high, &place); break;
    default: a = with_end(axis_of(kind)), place = a.start + offset_on(a);
    }
    if (chance(80)) /* question 9, unless the place is the start */
        a.end = a.start;
    if (kind == 7 && chance(12)) { /* question 5: a span that fits, past the bound, by 1 ns or by much */
        wide span = any_size(NEAR), past = chance(2) ? 1 : any_size((wide)LAST_SECOND * SECOND - NEAR);
        wide edge = NEAR + past - (chance(4) ? 1 : 0);
        a.end = chance(2) ? edge : span - edge, a.start = a.end - span;
        place = chance(2) ? a.start : wide_from(a.start, a.end);
    }
    printf("map");
    print_axis(a);
    print_limit(low);
    print_limit(high);
    print_value(kind, place);
    printf("\n");
}

/* A time of day at which a ceiling, a rung or a day turns. */
static int64_t time_of_day(void) {
    switch (draw() % 4) {
    case 0: return 0;
    case 1: return ONE_OF(1, SECOND / 2, SECOND - 1, SECOND, SECOND + 1, DAY - 1, DAY - SECOND);
    case 2: {
        int64_t hour = from(1, 23) * HOUR;
        return hour + ONE_OF(0, 0, 0, 1, -1, 60 * SECOND);
    }
    default: return from(0, DAY - 1);
    }
}

/* Both ends moved so that the start gets such a time; kept where they would leave the days. */
static axis with_time(axis a) {
    wide move = a.start / DAY * DAY + time_of_day() - a.start;
    if (a.kind >= 4 && a.kind <= 6 && a.start + move >= first_place(a.kind) && a.end + move <= last_place(a.kind))
        a.start += move, a.end += move;
    return a;
}

/* Around N times a power of ten: at it, by nanoseconds, and by parts of 10^12 to 10^15. */
static wide span_by_power(int64_t n) {
    int64_t power = 1;
    for (int64_t k = chance(3) ? ONE_OF(8, 9, 12, 13, 14, 15) : from(0, 18); k > 0; k--)
        power *= 10;
    wide span = (wide)n * power, step = 1;
    if (chance(3))
        step = span / ONE_OF(1000000000000, 10000000000000, 100000000000000, 1000000000000000);
    return span + step * ONE_OF(0, 0, 1, -1, 2, -2);
}

/* A rung of the ladders. */
static int64_t rung(void) {
    int64_t base;
    switch (draw() % 4) {
    case 0: base = ONE_OF(1, 10, 100, 1000, 100000, 1000000, 100000000); return base * ONE_OF(1, 2, 5);
    case 1: base = ONE_OF(SECOND, 60 * SECOND, HOUR); return base * ONE_OF(1, 2, 5, 10, 15, 20, 30);
    case 2: return HOUR * ONE_OF(1, 2, 4, 8, 12, 24, 48);
    default: base = ONE_OF(1, 10, 100, 1000, 10000); return base * DAY * ONE_OF(1, 2, 5, 7);
    }
}

/* The last span that a rung is wide enough for, and the next one. */
static wide span_by_rung(int64_t n) {
    wide step = rung(), span = (chance(4) ? n : n + 1) * step;
    return span - ONE_OF(0, 1, 1, 2);
}

/* Around N days, N weeks, and N times some weeks. */
static wide span_by_days(int64_t n) {
    int64_t weeks = from(0, 600), few = from(0, 15), step = ONE_OF(0, 0, 1, -1, 6, 7, -7);
    int64_t days = ONE_OF(n, 7 * n, 7 * n * (few + 1), few, 7 * weeks) + step;
    return (days < 0 ? 0 : days) * (wide)DAY;
}

/* Around N months, quarters, half-years, years and steps of years, from and to the first of a month or beside it. */
static axis axis_by_months(int64_t kind, int64_t n) {
    const int64_t last = 119987; /* 9999-12 */
    int64_t months = n * ONE_OF(1, 3, 6, 12, 24, 60, 120, 240, 600, 1200), least = 0;
    months = (int64_t)clamp(0, months + ONE_OF(0, 0, 1, -1, 2, -2, 11, 12, -12), last);
    if (chance(6))
        months = from(0, 30);
    switch (draw() % 8) {
    case 0: break;
    case 1: least = last - months; break;
    case 2: least = (int64_t)clamp(0, 12 * from(0, 9998), last - months); break;
    default: least = from(0, last - months);
    }
    axis a = {kind, (wide)first_of_month(least) * DAY, (wide)first_of_month(least + months) * DAY};
    a.start += ONE_OF(0, 0, 1, -1, from(-31, 31)) * (wide)DAY;
    a.start += chance(2) ? 0 : time_of_day();
    a.end += ONE_OF(0, 0, 0, 1, -1, 27, 30, from(-31, 31)) * (wide)DAY;
    a.end += chance(2) ? 0 : time_of_day();
    a.start = place_on(kind, a.start);
    a.end = place_on(kind, a.end < a.start ? a.start : a.end);
    return a;
}

/* A duration that is a multiple of the period only with 2^64 added, or beside one. */
static axis axis_below_zero(int64_t n) {
    wide step = rung();
    if (n * step > 2 * (wide)NEAR)
        step = SECOND;
    wide whole = (wide)1 << 64, span = n * step - ONE_OF(0, 1, step / 4, step / 3);
    wide start = chance(2) ? -(whole % step) : 0;
    start -= any_size(NEAR / step) * step;
    start += ONE_OF(0, 0, 0, 1, -1);
    axis a = {7, place_on(7, start), place_on(7, start + (chance(4) ? any_size(n * step) : span))};
    return a;
}

/* A duration axis beyond 64 bits: the start beside a whole day. */
static axis axis_of_days(int64_t n) {
    wide most = last_place(7) - first_place(7), span = (wide)INT64_MAX + 1 + little();
    if (chance(2)) {
        span = n * ONE_OF(1, 2, 5, 10, 20, 50, 100, 1000, 10000) * (wide)DAY;
        span += ONE_OF(0, 0, 1, -1) * DAY;
        span += little();
    }
    span = clamp((wide)INT64_MAX + 1, span, most);
    axis a = axis_with(7, span);
    if (chance(2)) {
        wide start = a.start / DAY * DAY + ONE_OF(0, 0, 1, -1, DAY / 2);
        if (start >= first_place(7) && start + span <= last_place(7))
            a.start = start, a.end = start + span;
    }
    return a;
}

/* An axis on which a list for N turns; the kind whose ticks are listed is another one where a light hint goes on. */
static axis axis_for(int64_t kind, int64_t listed, int64_t n) {
    axis a;
    uint64_t way = draw() % 8;
    if (way == 0 || ((listed == 1 || listed == 8) && way == 1))
        a = axis_of(kind);
    else if (listed == 1 || listed == 8)
        a = axis_with(kind, span_by_days(n));
    else if (listed == 4 && way == 1)
        a = axis_with(kind, span_by_days(n) + (int64_t)(n % 3) - 1);
    else if (listed == 7 && way == 1)
        a = axis_of_days(n);
    else if (listed == 7 && way == 2)
        a = axis_below_zero(n);
    else if (listed == 4 || listed == 7)
        a = axis_with(kind, way < 6 ? span_by_power(n) : span_by_rung(n));
    else
        a = axis_by_months(kind, n);
    a = with_end(a);
    return chance(2) ? with_time(a) : a;
}

static void print_hint(int64_t n) {
    if (chance(60)) /* question 6 */
        n = ONE_OF(-1, -n, 4097, 4097, n + (INT64_C(1) << 32), 1000001, INT64_MIN, INT64_MAX);
    printf(" %" PRId64, n);
}

/* Now and then the ends of a duration axis are moved past the bound of question 5. */
static axis past_the_bound(axis a) {
    if (a.kind == 7 && a.end - a.start <= INT64_MAX && chance(12)) {
        wide past = NEAR - (a.end - a.start) + (chance(2) ? 1 : any_size(NEAR));
        past -= chance(4) ? 1 : 0;
        a.end += past - a.start, a.start = past;
    }
    return a;
}

static void print_bold(const char *name, int64_t kind) {
    int64_t n = hint_on(kind);
    axis a = past_the_bound(axis_for(kind, kind, n));
    printf("%s", name);
    print_axis(a);
    print_hint(n);
    printf("\n");
}

static void ticks_bold(void) {
    print_bold("ticks_bold", kind_of(from(1, 7)));
}

/* The bold count is often half the size, of the kind or of the months below it, or one off. Weeks have no finer kind. */
static void print_light(const char *name, int64_t kind) {
    int64_t n = hint_on(kind), bold = hint_on(1), listed = kind;
    if (kind <= 6)
        listed = ONE_OF(kind, kind <= 3 ? 1 : 4, kind <= 3 ? 1 : 4, kind <= 3 ? 2 : 5);
    axis a = past_the_bound(axis_for(kind, listed, n));
    value start = value_at(kind, a.start), end = value_at(kind, a.end);
    int64_t ends[] = {kind, start.head, start.tail, end.head, end.tail, excluded};
    if (kind != 1 && kind != 4 && kind != 7 && !chance(4)) {
        int64_t size = size_of(kind == 8 || chance(2) ? kind : kind <= 3 ? 2 : 5, ends);
        bold = (int64_t)clamp(0, (size + from(-2, 3)) / 2, 4096);
    }
    printf("%s", name);
    print_axis(a);
    print_hint(bold);
    print_hint(n);
    printf("\n");
}

static void ticks_light(void) {
    print_light("ticks_light", kind_of(from(1, 7)));
}

static void period(void) {
    int64_t drawn = chance(2) ? 4 : 7, kind = excluded ? drawn : kind_of(drawn), n = hint_on(kind);
    axis a = past_the_bound(axis_for(kind, kind, n));
    if (chance(40)) /* question 2 */
        a = axis_of(kind_of(from(1, 6)));
    printf("period");
    print_axis(a);
    print_hint(n);
    printf("\n");
}

/* A kind with indices; now and then one without them, for question 2. */
static int64_t index_kind(void) {
    return kind_of(chance(40) ? ONE_OF(4, 7) : ONE_OF(1, 2, 3, 5, 6));
}

/* An axis of days, weeks, months or years: ends around firsts of months, few days, or any. */
static axis index_axis(int64_t kind) {
    axis a = kind == 4 || kind == 7 || chance(4) ? axis_of(kind)
             : chance(4)                         ? axis_with(kind, (wide)from(0, 40) * DAY)
                                                 : axis_by_months(kind, (int64_t)any_size(4096));
    if (a.kind >= 5 && chance(12)) { /* the last day of a month, its ceiling the next one */
        a.start = (wide)ONE_OF(LAST_DAY, LAST_DAY - 1, LAST_DAY - 31, 365, 31, from(1, LAST_DAY)) * DAY;
        a.start = place_on(kind, a.start + time_of_day());
        a.end = chance(2) ? a.start : place_on(kind, a.start + any_size((wide)800 * DAY));
    }
    a = with_end(a);
    return chance(2) ? with_time(a) : a;
}

static int64_t axis_size(axis a) {
    value start = value_at(a.kind, a.start), end = value_at(a.kind, a.end);
    int64_t ends[] = {a.kind, start.head, start.tail, end.head, end.tail, excluded};
    return a.kind == 4 || a.kind == 7 ? from(0, 1000) : size_of(a.kind, ends);
}

/* At both ends of the axis, of the days and of the numbers that question 8 lets in. */
static int64_t index_on(axis a) {
    int64_t size = axis_size(a), step = from(-2, 2), left = LAST_DAY - (int64_t)(a.start / DAY);
    switch (draw() % 8) {
    case 0: return from(0, 3);
    case 1: return size + step;
    case 2: return (a.kind == 1 ? left : a.kind == 8 ? left / 7 : a.kind == 2 || a.kind == 5 ? left / 31 : left / 366) + step;
    case 3: return ONE_OF(3652058, 3652059, 3652060, LAST_DAY - 366);
    case 4: return (int64_t)any_size(LAST_DAY);
    case 5: return chance(8) ? ONE_OF(-1, 3652060, INT64_C(1) << 32, INT64_MAX, INT64_MIN) : from(0, 20);
    default: return from(0, size ? size - 1 : 0);
    }
}

/* Inside, at the ends, a little or a year off, or anywhere. */
static wide value_near(axis a) {
    switch (draw() % 8) {
    case 0: return a.start + little() * (wide)DAY;
    case 1: return a.end + little() * (wide)DAY;
    case 2: return chance(2) ? a.start : a.end;
    case 3: return a.start - (wide)from(0, 800) * DAY;
    case 4: return a.end + (wide)from(0, 800) * DAY;
    case 5: return wide_from(first_place(a.kind), last_place(a.kind));
    default: return wide_from(a.start, a.end);
    }
}

/* A span of kind 4 whose product with the offset is at the end of 64 bits, or less than a nanosecond for each pixel. */
static axis unmap_turn(int64_t *low, int64_t *high, int64_t *pixel) {
    int64_t width = from(1, 32767), offset = from(width, 65534), factor = INT64_MAX / offset + from(-2, 2);
    wide span = (wide)factor * width + (chance(2) ? 0 : from(0, width - 1));
    if (chance(3))
        span = from(0, 3 * width), offset = from(-65534, 65534);
    *low = from(offset < 0 ? -32767 - offset : -32767, offset < 0 ? 32767 : 32767 - offset);
    *pixel = *low + offset;
    *high = *low + (chance(4) ? -width : width);
    if (*high > 32767 || *high < -32767)
        *high = *low - (*high - *low);
    return axis_with(4, span);
}

/* Months whose index, cut to 32 bits, is a month of the axis again: limits 1 apart, a size above 65537. */
static axis unmap_wrap(int64_t kind, int64_t *low, int64_t *high, int64_t *pixel) {
    axis a = {kind, (wide)from(1, 1000000) * DAY, (wide)LAST_DAY * DAY};
    a.start += kind == 5 ? time_of_day() : 0;
    a.end -= (wide)from(0, 600000) * DAY;
    int64_t way = ONE_OF(1, -1), offset = (INT64_C(1) << 32) / axis_size(a) + from(0, 2);
    *low = -32767 * way, *high = *low + way;
    *pixel = *low + way * (offset > 65534 ? 65534 : offset);
    return a;
}

static void unmap(void) {
    int64_t kind = kind_of(chance(40) ? 7 : chance(4) ? 4 : from(1, 6)), low = limit(), high = limit(), pixel = limit();
    axis a = kind == 4 || kind == 7 ? axis_for(kind, kind, from(1, 100)) : index_axis(kind);
    switch (draw() % 8) {
    case 0: pixel = ONE_OF(low, high, low - 1, high + 1, high - 1); break;
    case 1: /* far pixels, far indices */
        high = low + ONE_OF(1, -1, 2, 3, -3);
        if ((kind == 2 || kind == 5) && chance(4))
            a = unmap_wrap(kind, &low, &high, &pixel);
        break;
    case 2: high = low + axis_size(a) % 32768; break;
    case 3: pixel = low + from(0, 3); break;
    case 4:
        if (kind == 4)
            a = unmap_turn(&low, &high, &pixel);
        break;
    default:
        if (low != high && !chance(4))
            pixel = low < high ? from(low, high) : from(high, low);
    }
    if (low == high && !chance(8))
        high += low < 0 ? 1 : -1;
    printf("unmap");
    print_axis(a);
    print_limit((int64_t)clamp(-32767, low, 32767));
    print_limit((int64_t)clamp(-32767, high, 32767));
    print_limit((int64_t)clamp(-32767, pixel, 32767));
    printf("\n");
}

static void print_by_axis(const char *name) {
    axis a = index_axis(index_kind());
    printf("%s", name);
    print_axis(a);
    printf("\n");
}

static void size(void) {
    print_by_axis("size");
}

static void print_by_value(const char *name) {
    axis a = index_axis(index_kind());
    wide place = value_near(a);
    printf("%s", name);
    print_axis(a);
    print_value(a.kind, place);
    printf("\n");
}

static void index_of(void) {
    print_by_value("index_of");
}

static void next(void) {
    print_by_value("next");
}

static void previous(void) {
    print_by_value("previous");
}

static void print_by_index(const char *name) {
    axis a = index_axis(index_kind());
    int64_t index = index_on(a);
    printf("%s", name);
    print_axis(a);
    printf(" %" PRId64 "\n", index);
}

static void from_index(void) {
    print_by_index("from_index");
}

static void values(void) {
    print_by_index("values");
}

/* A segment and its value; beside a last one junk as often as a value. */
static void print_segment(int64_t kind, wide place) {
    int64_t segment = ONE_OF(1, 1, 2, 2, 2, 2, 3);
    value junk = value_at(kind, place_on(kind, place));
    if (chance(40)) /* question 8 */
        segment = ONE_OF(0, -1, 4, -segment, segment + 256, segment + (INT64_C(1) << 32), INT64_MIN, INT64_MAX);
    printf(" %" PRId64, segment);
    if (segment == 3 && chance(2)) {
        junk = spoilt(kind, junk);
        printf(" %" PRId64 " %" PRId64, junk.head, junk.tail);
    } else {
        print_value(kind, place);
    }
}

/* Limits that part the size by halves, which are rounded away from zero, and their neighbours; swapped ones too. */
static void limits_by_halves(int64_t size, int64_t *low, int64_t *high) {
    int64_t half = (size + 1) / 2;
    if (size < 1 || half > 65534)
        return;
    int64_t width = size * from(0, (65534 - half) / size) + half;
    width = (int64_t)clamp(0, width + ONE_OF(0, 0, 0, 1, -1), 65534);
    limits_with(width * ONE_OF(1, 1, -1), low, high);
}

/* A mapping near an end of i32, with low, half of the margin, or both added to it. */
static axis far_segment(int64_t kind, int64_t *low, int64_t *high, wide *place) {
    axis a = axis_with(kind, of_dates(kind) ? (wide)from(1, 60) * DAY : 1 + any_size((wide)1000 * DAY));
    int64_t size = axis_size(a), width = ONE_OF(1, 1, -1), way = ONE_OF(1, -1), step = ONE_OF(0, 1, -1, 2, -2, 40000 * way);
    width *= from(1000, 65534);
    limits_with(width, low, high);
    int64_t margin = size ? (2 * (width < 0 ? -width : width) + size) / (2 * size) : 0;
    margin *= width < 0 ? -1 : 1;
    wide pixel = (INT64_C(1) << 31) * way - ONE_OF(0, *low, margin / 2, *low + margin / 2) + step;
    *place = a.start + (width == margin ? pixel : pixel * (a.end - a.start) / (width - margin));
    *place += of_dates(kind) ? DAY * ONE_OF(0, 1, -1) : ONE_OF(0, 1, -1);
    return a;
}

/* A sum near an end of i32, kinds 2 and 5: two days of two months, and a centre in the first one of a year long before, which
   has the second as its follower. */
static axis far_sum(int64_t kind, int64_t *low, int64_t *high, wide *place) {
    int64_t years = from(200, 9998), month = from(12 * years, 119986), way = ONE_OF(1, -1);
    int64_t start = first_of_month(month + 1) - 1, before = first_of_month(month - 12 * years) + from(0, 27);
    int64_t margin = ((INT64_C(1) << 31) - from(32700, 65534)) / (start - before);
    *low = -32767 * way, *high = *low + 2 * margin * way;
    *place = (wide)before * DAY;
    return (axis){kind, (wide)start * DAY, (wide)(start + 1) * DAY};
}

static void segment_map(void) {
    int64_t kind = index_kind(), low = limit(), high = chance(30) ? low : limit();
    axis a = index_axis(kind);
    if (chance(8)) /* often a size of 1 */
        a = axis_with(kind, (wide)from(0, 3) * DAY);
    wide place = value_near(a);
    switch (draw() % 8) {
    case 0:
    case 1:
    case 2: limits_by_halves(axis_size(a), &low, &high); break;
    case 3:
        if ((kind == 2 || kind == 5) && chance(3))
            a = far_sum(kind, &low, &high, &place);
        else if (kind != 4 && kind != 7)
            a = far_segment(kind, &low, &high, &place);
        break;
    default: break;
    }
    if (chance(30)) { /* question 9, unless the place is the start */
        a.end = a.start;
        place = chance(2) ? a.start : place;
    }
    printf("segment_map");
    print_axis(a);
    print_limit(low);
    print_limit(high);
    print_segment(kind, place);
    printf("\n");
}

static void segment_ticks_bold(void) {
    print_bold("segment_ticks_bold", index_kind());
}

static void segment_ticks_light(void) {
    print_light("segment_ticks_light", index_kind());
}

static void segment_size(void) {
    print_by_axis("segment_size");
}

static void segment_index_of(void) {
    axis a = index_axis(index_kind());
    wide place = value_near(a);
    printf("segment_index_of");
    print_axis(a);
    print_segment(a.kind, place);
    printf("\n");
}

static void segment_from_index(void) {
    print_by_index("segment_from_index");
}

/* Any year, month and day: ends of months and of the years, leap years and centuries, and beside them no dates. */
static void day_number(void) {
    int64_t year = from(1, 9999), month = from(1, 12), day = from(1, 31);
    if (chance(4))
        year = chance(2) ? 100 * from(1, 99) : 4 * from(1, 2499);
    if (chance(4))
        day = ONE_OF(1, 28, 29, 30, 31);
    if (chance(6))
        month = ONE_OF(1, 2, 2, 12);
    if (chance(40))
        year = ONE_OF(1, 9999, 0, 10000, -1, -year, 262143, 262144, year + (INT64_C(1) << 32), INT64_MIN, INT64_MAX);
    if (chance(60))
        month = ONE_OF(0, -1, 13, month + 256, month + (INT64_C(1) << 32), INT64_MIN, INT64_MAX);
    if (chance(60))
        day = ONE_OF(0, -1, 32, day + 256, day + (INT64_C(1) << 32), INT64_MIN, INT64_MAX);
    printf("day_number %" PRId64 " %" PRId64 " %" PRId64 "\n", year, month, day);
}

/* Any day: around firsts of months and of centuries, and numbers outside the days. */
static void date_of(void) {
    int64_t number = from(1, LAST_DAY), step = from(-2, 2);
    if (chance(3))
        number = first_of_month(chance(4) ? 1200 * from(0, 99) : from(0, 119987)) + step;
    if (chance(20))
        number = ONE_OF(0, 1, 2, -1, LAST_DAY - 1, LAST_DAY, LAST_DAY + 1, -number, number + LAST_DAY, INT32_MAX,
                        number + (INT64_C(1) << 32), INT64_MIN, INT64_MAX);
    printf("date_of %" PRId64 "\n", number);
}

/* Any year, week and weekday: ends of years of 52 and 53 weeks, the last days, and beside them no week dates. */
static void week_day_number(void) {
    int64_t year = from(1, 9999), week = from(1, 53), weekday = from(1, 7);
    if (chance(3))
        week = ONE_OF(1, 1, 52, 53, 53);
    if (chance(12)) /* question 10 */
        year = 9999, week = ONE_OF(51, 52, 52, 52, 53), weekday = from(4, 8);
    if (chance(40))
        year = ONE_OF(1, 9999, 0, 10000, -1, -year, year + (INT64_C(1) << 32), INT64_MIN, INT64_MAX);
    if (chance(60))
        week = ONE_OF(0, -1, 54, week + 256, week + (INT64_C(1) << 32), INT64_MIN, INT64_MAX);
    if (chance(60))
        weekday = ONE_OF(0, -1, 8, weekday + 256, weekday + (INT64_C(1) << 32), INT64_MIN, INT64_MAX);
    printf("week_day_number %" PRId64 " %" PRId64 " %" PRId64 "\n", year, week, weekday);
}

/* Any day: around New Year, the first Mondays and the ends of the days, and numbers outside them. */
static void week_date_of(void) {
    int64_t number = from(1, LAST_DAY), step = from(-8, 8);
    if (chance(2))
        number = new_year(from(1, 10000)) + step;
    if (chance(20))
        number = ONE_OF(0, 1, 2, -1, LAST_DAY - 1, LAST_DAY, LAST_DAY + 1, -number, number + LAST_DAY, INT32_MAX,
                        number + (INT64_C(1) << 32), INT64_MIN, INT64_MAX);
    printf("week_date_of %" PRId64 "\n", number);
}

/* A table by its number. */
static void rules(void) {
    printf("rules %" PRId64 "\n", from(0, STORED_TABLES - 1));
}

/* Mostly the kinds over dates, and tables that are accepted; those stand first. */
static void ticks_ruled(void) {
    int64_t kind = kind_of(chance(20) ? from(4, 7) : from(1, 3));
    printf("ticks_ruled");
    print_axis(with_end(axis_of(kind)));
    printf(" %" PRId64 "\n", chance(8) ? from(0, STORED_TABLES - 1) : from(0, ACCEPTED_TABLES - 1));
}

/* A new operation is one function above and one row. */
static const struct operation {
    const char *name;
    void (*print)(void);
} operations[] = {
    {"day_number", day_number},
    {"date_of", date_of},
    {"map", map},
    {"ticks_bold", ticks_bold},
    {"ticks_light", ticks_light},
    {"period", period},
    {"unmap", unmap},
    {"size", size},
    {"index_of", index_of},
    {"from_index", from_index},
    {"next", next},
    {"previous", previous},
    {"values", values},
    {"segment_map", segment_map},
    {"segment_ticks_bold", segment_ticks_bold},
    {"segment_ticks_light", segment_ticks_light},
    {"segment_size", segment_size},
    {"segment_index_of", segment_index_of},
    {"segment_from_index", segment_from_index},
    {"week_day_number", week_day_number},
    {"week_date_of", week_date_of},
    {"rules", rules},
    {"ticks_ruled", ticks_ruled},
};
enum { OPERATIONS = sizeof operations / sizeof operations[0], RUST = OPERATIONS - 4 }; /* the Rust lacks week dates and rules */

int main(int argc, char **argv) {
    bool all = argc == 2 && !strcmp(argv[1], "operations"), rust = argc == 2 && !strcmp(argv[1], "rust");
    for (int i = 0; i < (all ? OPERATIONS : rust ? RUST : 0); i++)
        printf("%s\n", operations[i].name);
    if (all || rust)
        return fflush(stdout) != 0;
    excluded = argc == 5 && !strcmp(argv[4], "excluded");
    only = argc == 5 ? strtoll(argv[4], NULL, 10) : 0;
    bool read = argc == 4 || excluded || (argc == 5 && only >= 1 && only <= 8);
    for (int i = 0; i < OPERATIONS && read; i++)
        if (!strcmp(argv[1], operations[i].name)) {
            seed_with(strtoull(argv[2], NULL, 10));
            for (int64_t n = strtoll(argv[3], NULL, 10); n > 0 && !ferror(stdout); n--)
                operations[i].print();
            return fflush(stdout) != 0;
        }
    fprintf(stderr, "usage: requests OPERATION SEED COUNT [KIND | excluded], or requests operations, or requests rust; "
                    "operations:");
    for (int i = 0; i < OPERATIONS; i++)
        fprintf(stderr, " %s", operations[i].name);
    fprintf(stderr, "\n");
    return 1;
}
