/* Week dates and week axes compared with a second implementation, which walks the days: weeks days; weeks published FILE, of the
   dates in tests/vectors; weeks axes COUNT SEED, random axes of kind 8 with lists, indices, values and pixels; weeks glibc, all
   days with strftime. weeks print prints for each day its week date and the day number of that, for tests/weeks/isocalendar.
   Exits 1 on a difference. */
#define _DEFAULT_SOURCE /* gmtime_r, setenv */
#include <inttypes.h>
#include <stdbool.h>
#include <stdio.h>
#include <stdlib.h>
#include <string.h>
#include <time.h>

#include "calls.h"
#include "draw.h"
#include "expect.h"

enum { DAYS = 3652059, EPOCH = 719163, YEARS = 9999, GUARD = 5 };
enum { WEEKS = 8, DATES = 1 }; /* kinds */

/* The walk: of each day the week date, and how many Mondays there are up to it; of each year its weeks. */
static struct {
    int16_t year;
    int8_t week, weekday;
} walked[DAYS + 1];
static int32_t mondays_to[DAYS + 1];
static int8_t weeks_in[YEARS + 1];

static struct date day_after(struct date d) {
    static const int lengths[] = {31, 28, 31, 30, 31, 30, 31, 31, 30, 31, 30, 31};
    bool leap = (d.year % 4 == 0 && d.year % 100 != 0) || d.year % 400 == 0;
    if (++d.day > lengths[d.month - 1] + (leap && d.month == 2))
        d.day = 1, d.month++;
    if (d.month > 12)
        d.month = 1, d.year++;
    return d;
}

/* Weekdays are counted from 0001-01-01, a Monday. A Monday begins the next week, or week 1 if its Thursday is in a new year. */
static void walk(void) {
    struct date ahead = {1, 1, 4}; /* three days ahead: of a Monday its Thursday */
    int year = 0, week = 0, weekday = 7, mondays = 0;
    for (int n = 1; n <= DAYS; n++, ahead = day_after(ahead)) {
        weekday = weekday % 7 + 1;
        if (weekday == 1) {
            week = ahead.year == year ? week + 1 : 1;
            year = (int)ahead.year;
            weeks_in[year] = (int8_t)week;
            mondays++;
        }
        walked[n].year = (int16_t)year, walked[n].week = (int8_t)week, walked[n].weekday = (int8_t)weekday;
        mondays_to[n] = mondays;
    }
}

/* What a call answered, up to four numbers, the status first. */
static void expect_answer(const char *call, const int64_t *in, int arguments, const void *answer, const int64_t *want,
                          size_t count) {
    int64_t got[4];
    memcpy(got, answer, count * sizeof got[0]);
    expect_numbers(call, in, arguments, got, "expected", want, (int)count);
}

/* The numbers of a row, and its count. */
#define ROW(...) ((const int64_t[]){__VA_ARGS__}), sizeof((const int64_t[]){__VA_ARGS__}) / sizeof(int64_t)

static void expect_week_date(int64_t number, int64_t status, int64_t year, int64_t week, int64_t weekday) {
    ordered_week_date got = ordered_week_date_of(number);
    expect_answer("week_date_of", &number, 1, &got, ROW(status, year, week, weekday));
}

static void expect_day_number(int64_t year, int64_t week, int64_t weekday, int64_t status, int64_t number) {
    ordered_number got = ordered_week_day_number(year, week, weekday);
    expect_answer("week_day_number", (const int64_t[]){year, week, weekday}, 3, &got, ROW(status, number));
}

/* Each day both ways, and each year, week and weekday in order: each that is accepted has the number after the last one's. */
static void days(void) {
    for (int n = 1; n <= DAYS; n++) {
        expect_week_date(n, 0, walked[n].year, walked[n].week, walked[n].weekday);
        expect_day_number(walked[n].year, walked[n].week, walked[n].weekday, 0, n);
    }
    for (int64_t n = 0; n < 100000; n++) {
        expect_week_date(-n, 8, 0, 0, 0);
        expect_week_date(DAYS + 1 + n, 8, 0, 0, 0);
        expect_week_date((INT64_C(1) << 32) + n, 8, 0, 0, 0);
    }
    int64_t number = 0;
    for (int64_t year = 0; year <= YEARS + 1; year++)
        for (int64_t week = 0; week <= 54; week++)
            for (int64_t weekday = 0; weekday <= 8; weekday++) {
                bool there = year >= 1 && year <= YEARS && week >= 1 && week <= weeks_in[year] && weekday >= 1 && weekday <= 7;
                number += there;
                int64_t status = !there ? 13 : number > DAYS ? 10 : 0;
                expect_day_number(year, week, weekday, status, status ? 0 : number);
            }
    if (number != DAYS + 2 && differences++ < SHOWN) /* the last week has two days behind the last */
        printf("  %" PRId64 " week dates, expected %d\n", number, DAYS + 2);
}

/* Day number, year, month, day, and year, week, weekday; false where a line does not read, or there is none. */
static bool published(const char *name) {
    FILE *file = fopen(name, "r");
    char line[200];
    bool read = file != NULL;
    while (read && fgets(line, sizeof line, file)) {
        int64_t n, d[3], w[3];
        if (line[0] == '#')
            continue;
        read = sscanf(line, "%" SCNd64 " %" SCNd64 " %" SCNd64 " %" SCNd64 " %" SCNd64 " %" SCNd64 " %" SCNd64, &n, &d[0],
                      &d[1], &d[2], &w[0], &w[1], &w[2]) == 7;
        if (!read)
            break;
        expect_week_date(n, 0, w[0], w[1], w[2]);
        expect_day_number(w[0], w[1], w[2], 0, n);
        expect_day_number(w[0], w[1], w[2], 0, ordered_day_number(d[0], d[1], d[2]).value);
    }
    if (!read)
        printf("  %s does not read\n", name);
    return (!file || !fclose(file)) && read;
}

/* glibc's week date of a day. Its years are those of an int from 1900 on, so that the years 1 to 9999 are far from their ends;
   %G has no sign and no more than four digits there. */
static bool glibc(void) {
    setenv("TZ", "UTC0", 1); /* a zone file with leap seconds would move the days */
    tzset();
    for (int n = 1; n <= DAYS; n++) {
        time_t seconds = (time_t)(n - EPOCH) * 86400;
        struct tm tm;
        char text[40];
        int64_t year, week, weekday;
        if (!gmtime_r(&seconds, &tm) || !strftime(text, sizeof text, "%G %V %u", &tm) ||
            sscanf(text, "%" SCNd64 " %" SCNd64 " %" SCNd64, &year, &week, &weekday) != 3)
            return false;
        expect_week_date(n, 0, year, week, weekday);
        expect_day_number(year, week, weekday, 0, n);
    }
    return true;
}

static bool print(void) {
    for (int n = 1; n <= DAYS; n++) {
        ordered_week_date w = ordered_week_date_of(n);
        ordered_number back = ordered_week_day_number(w.year, w.week, w.weekday);
        printf("%" PRId64 " %" PRId64 " %" PRId64 " %" PRId64 " %" PRId64 " %" PRId64 "\n", w.status, w.year, w.week, w.weekday,
               back.status, back.value);
    }
    return fflush(stdout) == 0;
}

/* An axis of kind 8 by its days. */
static int64_t start, end;

#define AXIS WEEKS, start, 0, end, 0, 0

static void draw_axis(void) {
    int64_t span, step = from(-2, 2);
    switch (draw() % 8) {
    case 0: span = from(0, 30); break;
    case 1: span = 7 * (int64_t)any_size(DAYS / 7) + step; break;
    case 2: span = DAYS - 1 - from(0, 10); break;
    case 3: span = from(0, DAYS - 1); break;
    default: span = (int64_t)any_size(DAYS - 1);
    }
    axis a = axis_with(WEEKS, clamp(0, span, DAYS - 1) * DAY);
    start = (int64_t)(a.start / DAY), end = (int64_t)(a.end / DAY);
}

static int64_t size_by_walk(void) {
    return mondays_to[end] - mondays_to[start] + 1;
}

/* The ticks for N: Mondays of the span one after the other, every m-th of them, for m = 1, 2, .. until they are few enough. */
static int64_t ticks_by_walk(int64_t n, int64_t *to) {
    int64_t first = start, count = mondays_to[end] - mondays_to[start - 1], m = 1, listed = 0;
    while (first < end && walked[first].weekday != 1)
        first++;
    while ((uint32_t)(count + m - 1) / (uint32_t)m > n + 1)
        m++;
    for (int64_t day = first; count > 0 && day <= end; day += 7 * m)
        to[2 * listed] = day, to[2 * listed + 1] = 0, listed++;
    return listed;
}

enum list { BOLD, LIGHT, SEGMENT_BOLD, SEGMENT_LIGHT, LISTS };

/* One list with guards on both sides of the lent numbers, and its count without one. */
static void expect_list(enum list list, int64_t bold, int64_t n, const int64_t *want, int64_t listed) {
    static int64_t block[ORDERED_LENT_MOST + 2 * GUARD + 8];
    static const char *const names[] = {"ticks_bold", "ticks_light", "segment_ticks_bold", "segment_ticks_light"};
    int64_t *lent = block + GUARD;
    size_t lent_len = lent_for(listed), all = lent_len + 2 * GUARD;
    bool room = lent_len >= 2 * (size_t)listed;
    fill(block, all);
    ordered_number got = list == BOLD           ? ordered_ticks_bold(AXIS, n, lent, lent_len)
                         : list == LIGHT        ? ordered_ticks_light(AXIS, bold, n, lent, lent_len)
                         : list == SEGMENT_BOLD ? ordered_segment_ticks_bold(AXIS, n, lent, lent_len)
                                                : ordered_segment_ticks_light(AXIS, bold, n, lent, lent_len);
    const int64_t in[] = {AXIS, bold, n, (int64_t)lent_len};
    expect_answer(names[list], in, 9, &got, ROW(room ? 0 : 11, room ? listed : 0));
    if (list == BOLD || list == LIGHT) {
        ordered_number count =
            list == BOLD ? ordered_count_bold(AXIS, n, lent_len) : ordered_count_light(AXIS, bold, n, lent_len);
        expect_answer("the count", in, 9, &count, ROW(room ? 0 : 11, room ? listed : 0));
    }
    bool same = true;
    size_t written = room ? 2 * (size_t)listed : 0;
    for (size_t i = 0; i < all; i++)
        same = same && block[i] == (i >= GUARD && i < GUARD + written ? want[i - GUARD] : pattern(i));
    int64_t kept = same;
    expect_answer("the lent numbers", in, 9, &kept, ROW(1));
}

static void expect_lists(void) {
    static int64_t want[ORDERED_LENT_MOST];
    int64_t n = chance(3) ? from(0, 4096) : hint_on(WEEKS), bold = chance(2) ? from(0, 4096) : size_by_walk() / 2 + from(-1, 1);
    int64_t listed = ticks_by_walk(n, want);
    for (enum list list = BOLD; list < LISTS; list++)
        expect_list(list, (int64_t)clamp(0, bold, 4096), n, want, listed);
}

/* The value of an index: the start, then Mondays. */
static ordered_value value_by_walk(int64_t index) {
    int64_t monday = start;
    while (walked[monday].weekday != 1)
        monday--;
    int64_t day = index == 0 ? start : monday + 7 * index;
    return day > DAYS ? (ordered_value){10, 0, 0} : (ordered_value){0, day, 0};
}

static int64_t draw_day(void) {
    int64_t step = from(-8, 8);
    switch (draw() % 8) {
    case 0:
    case 1: return (int64_t)clamp(1, start + step, DAYS);
    case 2:
    case 3: return (int64_t)clamp(1, end + step, DAYS);
    case 4: return from(1, DAYS);
    default: return from(start, end);
    }
}

static void expect_value(const char *call, int64_t at, ordered_value got, ordered_value want) {
    expect_answer(call, (const int64_t[]){AXIS, at}, 7, &got, ROW(want.status, want.head, want.tail));
}

static void expect_by_value(void) {
    const ordered_value none = {-1, 0, 0};
    int64_t day = draw_day(), index = mondays_to[day] - mondays_to[start], size = size_by_walk();
    const int64_t in[] = {AXIS, day, 0};
    ordered_number got = ordered_index_of(AXIS, day, 0);
    expect_answer("index_of", in, 8, &got, ROW(index < 0 ? -1 : 0, index < 0 ? 0 : index));
    got = ordered_segment_index_of(AXIS, from(1, 2), day, 0);
    expect_answer("segment_index_of", in, 8, &got, ROW(index < 0 ? -1 : 0, index < 0 ? 0 : index));
    bool before = index > 0, after = index >= 0 && index + 1 < size;
    expect_value("next", day, ordered_next(AXIS, day, 0), after ? value_by_walk(index + 1) : none);
    expect_value("previous", day, ordered_previous(AXIS, day, 0), before ? value_by_walk(index - 1) : none);
}

static void expect_by_index(void) {
    int64_t size = size_by_walk(), step = from(-2, 2), left = (DAYS - start) / 7, far = (int64_t)any_size(DAYS);
    int64_t index = (int64_t)clamp(0, ONE_OF(0, 1, size + step, left + step, far, from(0, size)), DAYS);
    const int64_t in[] = {AXIS, index};
    ordered_value v = value_by_walk(index);
    expect_value("from_index", index, ordered_from_index(AXIS, index), v);
    ordered_step values = ordered_values(AXIS, index);
    if (index < size)
        expect_answer("values", in, 7, &values, ROW(v.status, v.head, v.tail, index + 1));
    else
        expect_answer("values", in, 7, &values, ROW(-1, 0, 0, index));
    ordered_segment segment = ordered_segment_from_index(AXIS, index);
    if (index < size)
        expect_answer("segment_from_index", in, 7, &segment, ROW(v.status, 1, v.head, v.tail));
    else
        expect_answer("segment_from_index", in, 7, &segment, ROW(index > size ? -1 : 0, index > size ? 0 : 3, 0, 0));
    ordered_number got = ordered_size(AXIS);
    expect_answer("size", in, 6, &got, ROW(0, size));
    got = ordered_segment_size(AXIS);
    expect_answer("segment_size", in, 6, &got, ROW(0, size + 1));
    got = ordered_segment_index_of(AXIS, 3, 0, 0);
    expect_answer("segment_index_of the last", in, 6, &got, ROW(0, size));
}

/* Between limits: the value under a pixel, and pixels and flags of a day and of its segment, both by those of kind 1. */
static void expect_pixels(void) {
    int64_t low = limit(), high = limit(), pixel = limit(), day = draw_day(), size = size_by_walk();
    if (low != high && !chance(4))
        pixel = low < high ? from(low, high) : from(high, low);
    int64_t width = high - low, wide = width < 0 ? -width : width;
    int64_t offset = width < 0 ? low - pixel : pixel - low, index = offset < 0 || !wide ? 0 : offset * size / wide;
    ordered_value v = value_by_walk(index);
    expect_value("unmap", pixel, ordered_unmap(AXIS, low, high, pixel), wide ? v : (ordered_value){7, 0, 0});

    const int64_t in[] = {AXIS, low, high, day, 0};
    ordered_pixel got = ordered_map(AXIS, low, high, day, 0), dates = ordered_map(DATES, start, 0, end, 0, 0, low, high, day, 0);
    expect_answer("map", in, 10, &got, ROW(dates.status, dates.pixel, dates.exact, dates.lost));

    /* The width parted by the size, rounded half away from zero, is left for the last. */
    int64_t margin = (2 * wide + size) / (2 * size) * (width < 0 ? -1 : 1), follower = mondays_to[day] - mondays_to[start] + 1;
    ordered_pixel left = ordered_map(DATES, start, 0, end, 0, 0, low, high - margin, day, 0), right = left;
    got = ordered_segment_map(AXIS, low, high, 1, day, 0);
    expect_answer("segment_map, exact", in, 10, &got, ROW(left.status, left.pixel, left.exact, left.lost));
    bool followed = follower > 0 && follower < size;
    if (followed)
        right = ordered_map(DATES, start, 0, end, 0, 0, low, high - margin, value_by_walk(follower).head, 0);
    int64_t sum = left.pixel + (followed ? right.pixel : margin / 2);
    bool fits = sum >= INT32_MIN && sum <= INT32_MAX;
    int64_t status = left.status ? left.status : right.status ? right.status : fits ? 0 : 10;
    bool exact = !status && left.exact && right.exact && (followed ? sum : margin) % 2 == 0;
    got = ordered_segment_map(AXIS, low, high, 2, day, 0);
    expect_answer("segment_map, centre", in, 10, &got, ROW(status, status ? 0 : followed ? sum / 2 : sum, exact, 0));
    got = ordered_segment_map(AXIS, low, high, 3, day, 0);
    expect_answer("segment_map, last", in, 10, &got, ROW(0, high, 1, 0));
}

static void axes(int64_t count) {
    for (; count > 0; count--) {
        draw_axis();
        expect_lists();
        expect_by_value();
        expect_by_index();
        expect_pixels();
    }
}

int main(int argc, char **argv) {
    const char *what = argc > 1 ? argv[1] : "";
    bool read = true;
    walk();
    if (argc == 2 && !strcmp(what, "print"))
        return !print();
    if (argc == 2 && !strcmp(what, "days")) {
        days();
    } else if (argc == 2 && !strcmp(what, "glibc")) {
        read = glibc();
    } else if (argc == 3 && !strcmp(what, "published")) {
        read = published(argv[2]);
    } else if (argc == 4 && !strcmp(what, "axes")) {
        seed_with(strtoull(argv[3], NULL, 10));
        axes(strtoll(argv[2], NULL, 10));
    } else {
        fprintf(stderr, "usage: weeks days | published FILE | axes COUNT SEED | glibc | print\n");
        return 1;
    }
    printf("weeks: %s: %" PRId64 " compared, %" PRId64 " differences\n", what, compared, differences);
    return differences > 0 || compared == 0 || !read;
}
