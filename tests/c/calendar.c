/* The calendar's two exports compared with glibc's timegm and gmtime_r, refused calls included.
   Prints one line for each group of comparisons and exits 1 if any answer differs. */
#define _DEFAULT_SOURCE /* timegm, gmtime_r, setenv */
#include <inttypes.h>
#include <stdbool.h>
#include <stdio.h>
#include <stdlib.h>
#include <time.h>

#include "ordered.h"

_Static_assert(sizeof(time_t) == 8, "the years 1 to 9999 need a time_t of 64 bits");

enum { LAST_DAY = 3652059, EPOCH = 719163, DAY_SECONDS = 86400, SHOWN = 5 };

static int64_t compared, differences; /* of the group under way */
static bool failed;

static void group_done(const char *what) {
    printf("calendar: %s: %" PRId64 " compared, %" PRId64 " differences\n", what, compared, differences);
    failed |= differences > 0 || compared == 0;
    compared = differences = 0;
}

/* What glibc says. A date is real if timegm leaves it as it is: any other is moved to the date that it stands for.
   Numbers far outside never reach glibc, whose fields are ints. 0: to be refused. */
static int64_t glibc_number(int64_t year, int64_t month, int64_t day) {
    if (year < 1 || year > 9999 || month < -99 || month > 99 || day < -99 || day > 99)
        return 0;
    struct tm tm = {.tm_year = (int)year - 1900, .tm_mon = (int)month - 1, .tm_mday = (int)day};
    time_t seconds = timegm(&tm);
    bool real = tm.tm_year == year - 1900 && tm.tm_mon == month - 1 && tm.tm_mday == day;
    return real ? seconds / DAY_SECONDS + EPOCH : 0;
}

static ordered_date glibc_date(int64_t number) {
    if (number < 1 || number > LAST_DAY)
        return (ordered_date){8, 0, 0, 0};
    time_t seconds = (number - EPOCH) * DAY_SECONDS;
    struct tm tm;
    if (!gmtime_r(&seconds, &tm))
        return (ordered_date){-1, 0, 0, 0}; /* equals no answer */
    return (ordered_date){0, tm.tm_year + 1900, tm.tm_mon + 1, tm.tm_mday};
}

/* Gives the number answered, 0 if refused. */
static int64_t compare_number(int64_t year, int64_t month, int64_t day) {
    int64_t value = glibc_number(year, month, day), status = value ? 0 : 8;
    ordered_number got = ordered_day_number(year, month, day);
    compared++;
    if ((got.status != status || got.value != value) && differences++ < SHOWN)
        printf("  day_number %" PRId64 " %" PRId64 " %" PRId64 ": expected %" PRId64 " %" PRId64 ", got %" PRId64
               " %" PRId64 "\n", year, month, day, status, value, got.status, got.value);
    return got.status == 0 ? got.value : 0;
}

static void compare_date(int64_t number) {
    ordered_date want = glibc_date(number), got = ordered_date_of(number);
    compared++;
    if ((got.status != want.status || got.year != want.year || got.month != want.month || got.day != want.day)
        && differences++ < SHOWN)
        printf("  date_of %" PRId64 ": expected %" PRId64 " %" PRId64 " %" PRId64 " %" PRId64 ", got %" PRId64
               " %" PRId64 " %" PRId64 " %" PRId64 "\n", number, want.status, want.year, want.month, want.day,
               got.status, got.year, got.month, got.day);
}

static void every_day(void) {
    for (int64_t n = 1; n <= LAST_DAY; n++)
        compare_date(n);
    group_done("date_of, every day 1 to 3652059, gmtime_r");

    for (int64_t n = 1; n <= LAST_DAY; n++) {
        ordered_date date = glibc_date(n);
        compare_number(date.year, date.month, date.day);
    }
    group_done("day_number, the date of every day, timegm");
}

static void every_triple(void) {
    /* Counted beside glibc: in this order each date accepted has the number after the last one. */
    int64_t accepted = 0;
    for (int64_t year = 0; year <= 10000; year++)
        for (int64_t month = 0; month <= 13; month++)
            for (int64_t day = 0; day <= 32; day++) {
                int64_t number = compare_number(year, month, day);
                if (number && number != ++accepted && differences++ < SHOWN)
                    printf("  day_number %" PRId64 " %" PRId64 " %" PRId64 ": expected %" PRId64 " by count, got %"
                           PRId64 "\n", year, month, day, accepted, number);
            }
    if (accepted != LAST_DAY) {
        differences++;
        printf("  accepted: expected %d, got %" PRId64 "\n", LAST_DAY, accepted);
    }
    group_done("day_number, years 0 to 10000, months 0 to 13, days 0 to 32, accepted or 8");
}

/* Added to a good number these leave its low bits as they are: a cut to fewer bits would take the sum for it. */
static const int64_t FAR[] = {
    0, INT64_C(1) << 8, INT64_C(1) << 16, INT64_C(1) << 31, INT64_C(1) << 32, INT64_C(3) << 32, INT64_C(1) << 52,
    INT64_C(1) << 62, -(INT64_C(1) << 16), -(INT64_C(1) << 32), -(INT64_C(1) << 62), INT64_MIN,
};
static const int64_t ENDS[] = {
    INT64_MIN, INT64_MIN + 1, INT32_MIN - INT64_C(1), INT32_MIN, -9999, -1970, -31, -12, -1,
    INT32_MAX, INT32_MAX + INT64_C(1), UINT32_MAX, UINT32_MAX + INT64_C(1), INT64_MAX - 1, INT64_MAX,
};
#define COUNT(list) ((int)(sizeof(list) / sizeof(list)[0]))

static void extreme_triples(void) {
    static const int64_t near[] = {0, 1, 2, 12, 13, 28, 29, 31, 32, 1900, 1970, 2000, 9999, 10000};
    static int64_t set[COUNT(ENDS) + COUNT(FAR) * COUNT(near)];
    int size = 0;
    for (int i = 0; i < COUNT(ENDS); i++)
        set[size++] = ENDS[i];
    for (int i = 0; i < COUNT(FAR); i++)
        for (int j = 0; j < COUNT(near); j++)
            set[size++] = FAR[i] + near[j];
    for (int y = 0; y < size; y++)
        for (int m = 0; m < size; m++)
            for (int d = 0; d < size; d++)
                compare_number(set[y], set[m], set[d]);
    group_done("day_number, extreme numbers in every place");
}

static void extreme_numbers(void) {
    static const int64_t near[] = {0, 1, 2, 719163, 3652058, 3652059, 3652060, 3652061, 3652425, 3652426};
    for (int64_t n = -LAST_DAY; n <= 3 * (int64_t)LAST_DAY; n++)
        if (n < 1 || n > LAST_DAY)
            compare_date(n);
    for (int64_t n = 1; n <= LAST_DAY; n++)
        compare_date((INT64_C(1) << 32) + n);
    for (int i = 0; i < COUNT(ENDS); i++)
        compare_date(ENDS[i]);
    for (int i = 0; i < COUNT(FAR); i++)
        for (int j = 0; j < COUNT(near); j++) {
            compare_date(FAR[i] + near[j]);
            compare_date(EPOCH); /* an answer that a refusal must not show again */
        }
    group_done("date_of, numbers below 1, above 3652059 and extreme ones");
}

int main(void) {
    setvbuf(stdout, NULL, _IOLBF, 0); /* what was printed stays if a sanitizer ends the run */
    setenv("TZ", "UTC0", 1); /* a zone file with leap seconds would move the days */
    tzset();
    every_day();
    every_triple();
    extreme_triples();
    extreme_numbers();
    return failed;
}
