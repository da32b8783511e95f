/* Hand-checked calls: for each question one that it refuses, for each two questions one that both refuse (the first
   number wins), and beside each bound the last number that is accepted. Lists and counts also see what was lent. Exits 1
   on a difference. */
#include <inttypes.h>
#include <stdbool.h>
#include <stdio.h>
#include <string.h>

#include "calls.h"

enum { QUESTIONS = 17, LENT = 20 };

/* The numbers as ordered_map takes them: kind, start, end, end_excluded, low, high, value. `also`: the next question that says
   no. */
static const struct mapping {
    int64_t in[10], status, also, pixel;
    const char *why;
} mappings[] = {
    /* 1: the kind. Day 2 of 1 to 11, second 2 of 1 to 11: a tenth of the way. */
    {{1, 1, 0, 11, 0, 0, 0, 100, 2, 0}, 0, 0, 10, "kind 1"},
    {{2, 1, 0, 11, 0, 0, 0, 100, 2, 0}, 0, 0, 10, "kind 2"},
    {{3, 1, 0, 11, 0, 0, 0, 100, 2, 0}, 0, 0, 10, "kind 3"},
    {{4, 1, 0, 11, 0, 0, 0, 100, 2, 0}, 0, 0, 10, "kind 4"},
    {{5, 1, 0, 11, 0, 0, 0, 100, 2, 0}, 0, 0, 10, "kind 5"},
    {{6, 1, 0, 11, 0, 0, 0, 100, 2, 0}, 0, 0, 10, "kind 6"},
    {{7, 1, 0, 11, 0, 0, 0, 100, 2, 0}, 0, 0, 10, "kind 7"},
    {{8, 1, 0, 11, 0, 0, 0, 100, 2, 0}, 0, 0, 10, "kind 8"},
    {{0, 1, 0, 11, 0, 0, 0, 100, 2, 0}, 1, 0, 0, "kind 0"},
    {{9, 1, 0, 11, 0, 0, 0, 100, 2, 0}, 1, 0, 0, "kind 9"},
    {{-1, 1, 0, 11, 0, 0, 0, 100, 2, 0}, 1, 0, 0, "kind -1"},
    {{257, 1, 0, 11, 0, 0, 0, 100, 2, 0}, 1, 0, 0, "kind 1 in the low 8 bits"},
    {{4294967297, 1, 0, 11, 0, 0, 0, 100, 2, 0}, 1, 0, 0, "kind 1 in the low 32 bits"},
    {{INT64_MIN, 1, 0, 11, 0, 0, 0, 100, 2, 0}, 1, 0, 0, "the least kind"},
    {{INT64_MAX, 1, 0, 11, 0, 0, 0, 100, 2, 0}, 1, 0, 0, "the largest kind"},

    /* 3: start and end. */
    {{1, 1, 0, 3652059, 0, 0, 0, 100, 1, 0}, 0, 0, 0, "the first day as start"},
    {{1, 1, 0, 3652059, 0, 0, 0, 100, 3652059, 0}, 0, 0, 100, "the last day as end"},
    {{1, 0, 0, 11, 0, 0, 0, 100, 2, 0}, 3, 0, 0, "day 0 as start"},
    {{1, -1, 0, 11, 0, 0, 0, 100, 2, 0}, 3, 0, 0, "day -1 as start"},
    {{1, INT64_MIN, 0, 11, 0, 0, 0, 100, 2, 0}, 3, 0, 0, "the least number as start"},
    {{1, 1, 0, 3652060, 0, 0, 0, 100, 2, 0}, 3, 0, 0, "10000-01-01 as end"},
    {{1, 1, 0, INT64_MAX, 0, 0, 0, 100, 2, 0}, 3, 0, 0, "the largest number as end"},
    {{1, 1, 0, 4294967307, 0, 0, 0, 100, 2, 0}, 3, 0, 0, "day 11 in the low 32 bits"},
    {{1, 1, 1, 11, 0, 0, 0, 100, 2, 0}, 3, 0, 0, "a date with a tail, kind 1"},
    {{2, 1, 0, 11, 1, 0, 0, 100, 2, 0}, 3, 0, 0, "a date with a tail, kind 2"},
    {{3, 1, -1, 11, 0, 0, 0, 100, 2, 0}, 3, 0, 0, "a date with a tail below 0, kind 3"},
    {{8, 1, 0, 3652059, 0, 0, 0, 100, 3652059, 0}, 0, 0, 100, "all days, kind 8"},
    {{8, 0, 0, 11, 0, 0, 0, 100, 2, 0}, 3, 0, 0, "day 0 as start, kind 8"},
    {{8, 1, 0, 3652060, 0, 0, 0, 100, 2, 0}, 3, 0, 0, "10000-01-01 as end, kind 8"},
    {{8, 1, 0, 11, 1, 0, 0, 100, 2, 0}, 3, 0, 0, "a date with a tail, kind 8"},
    {{4, 1, 0, 3652059, 86399999999999, 0, 0, 100, 3652059, 86399999999999}, 0, 0, 100, "the last nanosecond, kind 4"},
    {{5, 1, 0, 3652059, 86399999999999, 0, 0, 100, 3652059, 86399999999999}, 0, 0, 100, "the last nanosecond, kind 5"},
    {{6, 1, 0, 3652059, 86399999999999, 0, 0, 100, 3652059, 86399999999999}, 0, 0, 100, "the last nanosecond, kind 6"},
    {{4, 1, 86400000000000, 11, 0, 0, 0, 100, 3, 0}, 3, 0, 0, "24:00 as start, kind 4"},
    {{5, 1, 0, 11, 86400000000000, 0, 0, 100, 2, 0}, 3, 0, 0, "24:00 as end, kind 5"},
    {{6, 1, -1, 11, 0, 0, 0, 100, 2, 0}, 3, 0, 0, "a time below 0, kind 6"},
    {{4, 0, 86399999999999, 11, 0, 0, 0, 100, 2, 0}, 3, 0, 0, "1 ns before the first day"},
    {{4, 1, 0, 3652060, 0, 0, 0, 100, 2, 0}, 3, 0, 0, "1 ns after the last day"},
    {{7, -315576000000, 0, 315576000000, 999999999, 0, 0, 100, 315576000000, 999999999}, 0, 0, 100, "the longest span"},
    {{7, -315576000000, 0, 315576000000, 999999999, 0, 0, 100, -315576000000, 0}, 0, 0, 0, "the least duration"},
    {{7, -315576000001, 999999999, 0, 0, 0, 0, 100, 0, 0}, 3, 0, 0, "1 ns below the least duration"},
    {{7, 0, 0, 315576000001, 0, 0, 0, 100, 0, 0}, 3, 0, 0, "1 ns above the largest duration"},
    {{7, 1, 1000000000, 11, 0, 0, 0, 100, 3, 0}, 3, 0, 0, "a whole second as a duration's tail"},
    {{7, 1, 0, 11, -1, 0, 0, 100, 2, 0}, 3, 0, 0, "a duration's tail below 0"},

    /* 4: the order. The value is the start, or 9 would say no too. */
    {{1, 5, 0, 5, 0, 0, 0, 100, 5, 0}, 0, 0, 0, "start and end equal"},
    {{1, 6, 0, 5, 0, 0, 0, 100, 6, 0}, 4, 0, 0, "start a day later"},
    {{2, 3652059, 0, 1, 0, 0, 0, 100, 3652059, 0}, 4, 0, 0, "the last day to the first"},
    {{8, 6, 0, 5, 0, 0, 0, 100, 6, 0}, 4, 0, 0, "start a day later in its week, kind 8"},
    {{4, 5, 1, 5, 0, 0, 0, 100, 5, 1}, 4, 0, 0, "start 1 ns later"},
    {{4, 6, 0, 5, 86399999999999, 0, 0, 100, 6, 0}, 4, 0, 0, "the head decides before the tail"},
    {{4, 5, 86399999999999, 6, 0, 0, 0, 100, 6, 0}, 0, 0, 100, "1 ns over midnight"},
    {{7, -1, 999999999, 0, 0, 0, 0, 100, 0, 0}, 0, 0, 100, "-1 ns to 0"},
    {{7, 0, 0, -1, 999999999, 0, 0, 100, 0, 0}, 4, 0, 0, "0 to -1 ns"},
    {{7, -1, 0, -2, 999999999, 0, 0, 100, -1, 0}, 4, 0, 0, "-1 s to 1 ns before it"},

    /* 14: an end is excluded by any number but 0, on kinds 1, 2, 3 and 8, and is not the start. Pixels go to the written end. */
    {{1, 1, 0, 11, 0, 1, 0, 100, 2, 0}, 0, 0, 10, "excluded, kind 1"},
    {{2, 1, 0, 11, 0, 1, 0, 100, 2, 0}, 0, 0, 10, "excluded, kind 2"},
    {{3, 1, 0, 11, 0, 1, 0, 100, 2, 0}, 0, 0, 10, "excluded, kind 3"},
    {{8, 1, 0, 11, 0, 1, 0, 100, 2, 0}, 0, 0, 10, "excluded, kind 8"},
    {{1, 1, 0, 11, 0, 1, 0, 100, 10, 0}, 0, 0, 90, "the last day of an excluded end"},
    {{1, 1, 0, 11, 0, 1, 0, 100, 11, 0}, 0, 0, 100, "the excluded end: the high limit"},
    {{1, 1, 0, 11, 0, 1, 100, 0, 11, 0}, 0, 0, 0, "the same, swapped limits"},
    {{2, 737791, 0, 737881, 0, 1, 0, 900, 737881, 0}, 0, 0, 900, "to 1 April, excluded: 1 April"},
    {{2, 737791, 0, 737881, 0, 1, 0, 900, 737880, 0}, 0, 0, 890, "and 31 March"},
    {{1, 1, 0, 11, 0, -1, 0, 100, 2, 0}, 0, 0, 10, "excluded by -1"},
    {{1, 1, 0, 11, 0, 256, 0, 100, 2, 0}, 0, 0, 10, "by 0 in the low 8 bits"},
    {{1, 1, 0, 11, 0, 4294967296, 0, 100, 2, 0}, 0, 0, 10, "by 0 in the low 32 bits"},
    {{1, 1, 0, 11, 0, INT64_MAX, 0, 100, 2, 0}, 0, 0, 10, "by the largest number"},
    {{1, 1, 0, 11, 0, INT64_MIN, 0, 100, 2, 0}, 0, 0, 10, "by the least number"},
    {{1, 1, 0, 3652059, 0, 1, 0, 100, 3652059, 0}, 0, 0, 100, "the last day excluded"},
    {{1, 5, 0, 6, 0, 1, 7, 9, 5, 0}, 0, 0, 7, "one day before an excluded end"},
    {{1, 5, 0, 6, 0, 1, 7, 9, 6, 0}, 0, 0, 9, "question 9 goes by the written end"},
    {{8, 5, 0, 6, 0, 1, 7, 9, 7, 0}, 0, 0, 11, "the same, kind 8"},
    {{4, 1, 0, 11, 0, 1, 0, 100, 2, 0}, 14, 0, 0, "excluded, kind 4"},
    {{5, 1, 0, 11, 0, 1, 0, 100, 2, 0}, 14, 0, 0, "excluded, kind 5"},
    {{6, 1, 0, 11, 0, 1, 0, 100, 2, 0}, 14, 0, 0, "excluded, kind 6"},
    {{7, 1, 0, 11, 0, 1, 0, 100, 2, 0}, 14, 0, 0, "excluded, kind 7"},
    {{4, 1, 0, 11, 0, -1, 0, 100, 2, 0}, 14, 0, 0, "kind 4, by -1"},
    {{4, 1, 0, 11, 0, 256, 0, 100, 2, 0}, 14, 0, 0, "kind 4, by 0 in the low 8 bits"},
    {{5, 1, 0, 11, 0, 4294967296, 0, 100, 2, 0}, 14, 0, 0, "kind 5, by 0 in the low 32 bits"},
    {{6, 1, 0, 11, 0, INT64_MAX, 0, 100, 2, 0}, 14, 0, 0, "kind 6, by the largest number"},
    {{7, 1, 0, 11, 0, INT64_MIN, 0, 100, 2, 0}, 14, 0, 0, "kind 7, by the least number"},
    {{1, 5, 0, 5, 0, 1, 0, 100, 5, 0}, 14, 0, 0, "the excluded end is the start, kind 1"},
    {{2, 5, 0, 5, 0, 2, 0, 100, 5, 0}, 14, 0, 0, "kind 2"},
    {{3, 5, 0, 5, 0, -1, 0, 100, 5, 0}, 14, 0, 0, "kind 3"},
    {{8, 5, 0, 5, 0, 4294967296, 0, 100, 5, 0}, 14, 0, 0, "kind 8"},
    {{4, 5, 1, 5, 1, 1, 0, 100, 5, 1}, 14, 0, 0, "kind 4"},

    /* 5: the ends of a duration axis: each within 4 x 10^18 ns, or a span above i64 nanoseconds. */
    {{7, -4000000000, 0, 4000000000, 0, 0, 0, 100, 0, 0}, 0, 0, 50, "both ends at the bound"},
    {{7, 0, 0, 4000000000, 1, 0, 0, 100, 0, 0}, 5, 0, 0, "the end 1 ns past it"},
    {{7, -4000000001, 999999999, 0, 0, 0, 0, 100, 0, 0}, 5, 0, 0, "the start 1 ns past it"},
    {{7, -4000000001, 999999999, 4000000000, 1, 0, 0, 100, 0, 0}, 5, 0, 0, "both 1 ns past it"},
    {{7, 4000000001, 0, 4000000002, 0, 0, 0, 100, 4000000001, 0}, 5, 0, 0, "both ends past it on one side"},
    {{7, -4000000002, 0, -4000000001, 0, 0, 0, 100, -4000000002, 0}, 5, 0, 0, "both ends past it on the other"},
    {{7, 4000000001, 0, 4000000001, 0, 0, 0, 100, 4000000001, 0}, 5, 0, 0, "an empty axis past it"},
    {{7, -5000000000, 0, 4223372036, 854775807, 0, 0, 100, 0, 0}, 5, 0, 0, "past it, a span of 2^63 - 1 ns"},
    {{7, -5000000000, 0, 4223372036, 854775808, 0, 0, 100, -5000000000, 0}, 0, 0, 0, "past it, a span of 2^63 ns"},
    {{7, -5000000000, 0, 4223372036, 854775808, 0, 0, 100, 4223372036, 854775808}, 0, 0, 100, "its end, by whole days"},
    {{4, 1, 0, 3652059, 0, 0, 0, 100, 3652059, 0}, 0, 0, 100, "5 is not asked of date-times"},
    {{8, 46297, 0, 3652059, 0, 0, 0, 100, 46297, 0}, 0, 0, 0, "nor of weeks, whose days are past 4 x 10^18 ns"},

    /* 7: the limits. */
    {{1, 1, 0, 11, 0, 0, 32767, -32767, 1, 0}, 0, 0, 32767, "the largest low, the least high"},
    {{1, 1, 0, 11, 0, 0, -32767, 32767, 1, 0}, 0, 0, -32767, "the least low, the largest high"},
    {{1, 1, 0, 11, 0, 0, 5, 5, 2, 0}, 0, 0, 5, "equal limits"},
    {{1, 1, 0, 11, 0, 0, 100, 0, 2, 0}, 0, 0, 90, "swapped limits"},
    {{1, 1, 0, 11, 0, 0, 32768, 0, 1, 0}, 7, 0, 0, "low one more"},
    {{1, 1, 0, 11, 0, 0, -32768, 0, 1, 0}, 7, 0, 0, "low one less"},
    {{1, 1, 0, 11, 0, 0, 0, 32768, 1, 0}, 7, 0, 0, "high one more"},
    {{8, 1, 0, 11, 0, 0, 0, 32768, 1, 0}, 7, 0, 0, "high one more, kind 8"},
    {{1, 1, 0, 11, 0, 0, 0, -32768, 1, 0}, 7, 0, 0, "high one less"},
    {{1, 1, 0, 11, 0, 0, 4294967296, 100, 1, 0}, 7, 10, 0, "low 0 in its low 32 bits"},
    {{1, 1, 0, 11, 0, 0, 0, 4294967396, 1, 0}, 7, 0, 0, "high 100 in its low 32 bits"},
    {{4, 1, 0, 11, 0, 0, INT64_MIN, INT64_MAX, 1, 0}, 7, 10, 0, "limits whose width does not fit"},
    {{7, 1, 0, 11, 0, 0, INT64_MAX, INT64_MIN, 1, 0}, 7, 10, 0, "the same, swapped"},

    /* 8: the value. It may lie far outside the axis. */
    {{1, 2, 0, 3, 0, 0, 0, 100, 1, 0}, 0, 0, -100, "the first day"},
    {{1, 3652057, 0, 3652058, 0, 0, 0, 100, 3652059, 0}, 0, 0, 200, "the last day"},
    {{1, 2, 0, 3, 0, 0, 0, 100, 0, 0}, 8, 0, 0, "day 0"},
    {{1, 2, 0, 3, 0, 0, 0, 100, 3652060, 0}, 8, 0, 0, "10000-01-01"},
    {{1, 1, 0, 11, 0, 0, 0, 100, 4294967298, 0}, 8, 0, 0, "day 2 in the low 32 bits"},
    {{1, 1, 0, 11, 0, 0, 0, 100, INT64_MIN, 0}, 8, 0, 0, "the least number"},
    {{1, 1, 0, 11, 0, 0, 0, 100, 2, 1}, 8, 0, 0, "a date with a tail, kind 1"},
    {{2, 1, 0, 11, 0, 0, 0, 100, 2, 1}, 8, 0, 0, "a date with a tail, kind 2"},
    {{3, 1, 0, 11, 0, 0, 0, 100, 2, -1}, 8, 0, 0, "a date with a tail below 0, kind 3"},
    {{8, 1, 0, 11, 0, 0, 0, 100, 2, 1}, 8, 0, 0, "a date with a tail, kind 8"},
    {{8, 2, 0, 3, 0, 0, 0, 100, 3652060, 0}, 8, 0, 0, "10000-01-01, kind 8"},
    {{4, 1, 0, 2, 0, 0, 0, 100, 1, 86399999999999}, 0, 0, 99, "the last nanosecond of a day"},
    {{4, 1, 0, 2, 0, 0, 0, 100, 1, 86400000000000}, 8, 0, 0, "24:00"},
    {{5, 1, 0, 2, 0, 0, 0, 100, 2, -1}, 8, 0, 0, "a time below 0"},
    {{6, 1, 0, 2, 0, 0, 0, 100, 1, INT64_MAX}, 8, 0, 0, "the largest tail"},
    {{7, 0, 0, 1, 0, 0, 0, 100, 315576000000, 999999999}, 0, 0, 100, "the largest duration"},
    {{7, 0, 0, 1, 0, 0, 0, 100, -315576000000, 0}, 0, 0, 100, "the least duration"},
    {{7, 0, 0, 1, 0, 0, 0, 100, 315576000001, 0}, 8, 0, 0, "1 ns above the largest duration"},
    {{7, 0, 0, 1, 0, 0, 0, 100, -315576000001, 999999999}, 8, 0, 0, "1 ns below the least duration"},
    {{7, 0, 0, 1, 0, 0, 0, 100, 0, 1000000000}, 8, 0, 0, "a whole second as tail"},
    {{7, 0, 0, 1, 0, 0, 0, 100, 0, -1}, 8, 0, 0, "a tail below 0"},

    /* 9: an empty axis has the pixel of its start only, and that is low. */
    {{1, 5, 0, 5, 0, 0, 7, 9, 5, 0}, 0, 0, 7, "the start of an empty axis, kind 1"},
    {{4, 5, 1, 5, 1, 0, 7, 9, 5, 1}, 0, 0, 7, "the start of an empty axis, kind 4"},
    {{7, 5, 1, 5, 1, 0, 7, 9, 5, 1}, 0, 0, 7, "the start of an empty axis, kind 7"},
    {{8, 5, 0, 5, 0, 0, 7, 9, 5, 0}, 0, 0, 7, "the start of an empty axis, kind 8"},
    {{1, 5, 0, 5, 0, 0, 0, 9, 6, 0}, 9, 0, 0, "a day later, kind 1"},
    {{8, 5, 0, 5, 0, 0, 0, 9, 6, 0}, 9, 0, 0, "a day later in its week, kind 8"},
    {{2, 5, 0, 5, 0, 0, 0, 9, 4, 0}, 9, 0, 0, "a day earlier, kind 2"},
    {{3, 5, 0, 5, 0, 0, 7, 7, 6, 0}, 9, 0, 0, "equal limits do not help, kind 3"},
    {{4, 5, 1, 5, 1, 0, 0, 9, 5, 2}, 9, 0, 0, "1 ns later, kind 4"},
    {{5, 5, 1, 5, 1, 0, 0, 9, 5, 0}, 9, 0, 0, "1 ns earlier, kind 5"},
    {{6, 5, 0, 5, 0, 0, 0, 9, 3652059, 0}, 9, 0, 0, "far away, kind 6"},
    {{7, 5, 1, 5, 1, 0, 0, 9, 5, 2}, 9, 0, 0, "1 ns later, kind 7"},
    {{7, 5, 1, 5, 1, 0, 0, 9, 315576000000, 0}, 9, 0, 0, "beyond i64 nanoseconds, kind 7"},
    {{4, 5, 1, 5, 2, 0, 7, 9, 5, 1}, 0, 0, 7, "an axis of 1 ns has its start"},
    {{4, 5, 1, 5, 2, 0, 7, 9, 5, 3}, 0, 0, 11, "and others"},

    /* 10: the saturated cast plus low. */
    {{4, 1, 0, 1, 1, 0, 0, 1, 1, 2147483648}, 0, 0, 2147483647, "the cast saturates, low 0"},
    {{4, 1, 0, 1, 1, 0, 1, 2, 1, 2147483648}, 10, 0, 0, "the same, low 1"},
    {{4, 1, 0, 1, 1, 0, 1, 2, 1, 2147483646}, 0, 0, 2147483647, "the largest sum"},
    {{4, 1, 0, 1, 1, 0, 1, 2, 1, 2147483647}, 10, 0, 0, "one more"},
    {{4, 1, 0, 1, 1, 0, -1, 0, 1, 86399999999999}, 0, 0, 2147483646, "saturated, low -1"},
    {{4, 2, 0, 2, 1, 0, 0, 1, 1, 0}, 0, 0, -2147483648, "the cast saturates below, low 0"},
    {{4, 2, 0, 2, 1, 0, -1, 0, 1, 0}, 10, 0, 0, "the same, low -1"},
    {{4, 2, 0, 2, 1, 0, -1, 0, 1, 86397852516353}, 0, 0, -2147483648, "the least sum: 2147483647 ns before the start"},
    {{4, 2, 0, 2, 1, 0, -1, 0, 1, 86397852516352}, 10, 0, 0, "one less"},
    {{4, 1, 0, 1, 1, 0, 1, 0, 1, 2147483648}, 0, 0, -2147483647, "swapped limits, low 1"},
    {{4, 1, 0, 1, 1, 0, -1, -2, 1, 2147483648}, 10, 0, 0, "swapped limits, low -1"},
    {{4, 1, 0, 1, 1, 0, 0, 1, 200000, 0}, 0, 0, 2147483647, "by whole days, of which the span has none"},
    {{4, 1, 0, 1, 1, 0, 1, 2, 200000, 0}, 10, 0, 0, "the same, low 1, kind 4"},
    {{5, 1, 0, 1, 1, 0, 1, 2, 200000, 0}, 10, 0, 0, "kind 5"},
    {{6, 200000, 0, 200000, 1, 0, -2, -1, 1, 0}, 10, 0, 0, "kind 6, below"},
    {{4, 1, 0, 1, 1, 0, 5, 5, 200000, 0}, 0, 0, 5, "zero by zero is 0 after the cast"},
    {{1, 1, 0, 2, 0, 0, 0, 32767, 3652059, 0}, 0, 0, 2147483647, "dates saturate, low 0"},
    {{1, 1, 0, 2, 0, 0, 1, 32767, 3652059, 0}, 10, 0, 0, "kind 1, low 1"},
    {{2, 1, 0, 2, 0, 0, 1, 32767, 3652059, 0}, 10, 0, 0, "kind 2"},
    {{8, 1, 0, 2, 0, 0, 1, 32767, 3652059, 0}, 10, 0, 0, "kind 8"},
    {{3, 3652058, 0, 3652059, 0, 0, -1, 32767, 1, 0}, 10, 0, 0, "kind 3, below"},
    {{7, 0, 0, 0, 1, 0, 0, 1, 2, 147483648}, 0, 0, 2147483647, "kind 7 saturates, low 0"},
    {{7, 0, 0, 0, 1, 0, 1, 2, 2, 147483648}, 10, 0, 0, "kind 7, low 1"},
    {{7, 0, 0, 0, 1, 0, 1, 2, 2, 147483646}, 0, 0, 2147483647, "kind 7, the largest sum"},
    {{7, 0, 0, 0, 1, 0, 1, 2, 9223372036, 854775807}, 10, 0, 0, "kind 7, the last offset of i64 nanoseconds"},
    {{7, 0, 0, 0, 1, 0, 1, 2, 9223372036, 854775808}, 0, 0, 2, "1 ns more: the high limit"},
    {{7, 0, 0, 0, 1, 0, 0, 1, -9223372037, 145224192}, 0, 0, -2147483648, "kind 7, the first offset of i64 nanoseconds"},
    {{7, 0, 0, 0, 1, 0, -1, 0, -9223372037, 145224192}, 10, 0, 0, "the same, low -1"},
    {{7, 0, 0, 0, 1, 0, -1, 0, -9223372037, 145224191}, 0, 0, 0, "1 ns less: the high limit"},

    /* Two at once, each two that can fail together; 5 is asked of kind 7 only, so never with 1. */
    {{9, 1, 0, 315576000001, 0, 0, 0, 100, 1, 0}, 1, 3, 0, "no kind, an end of no kind"},
    {{9, 2, 0, 1, 0, 0, 0, 100, 2, 0}, 1, 4, 0, "no kind, start later"},
    {{9, 1, 0, 2, 0, 0, 0, 32768, 1, 0}, 1, 7, 0, "no kind, high too large"},
    {{9, 1, 0, 2, 0, 0, 0, 100, 1, -1}, 1, 8, 0, "no kind, a value of no kind"},
    {{9, 1, 0, 1, 0, 0, 0, 100, 2, 0}, 1, 9, 0, "no kind, empty"},
    {{9, 1, 0, 1, 1, 0, 1, 2, 1, 2147483648}, 1, 10, 0, "no kind, the pixel would not fit"},
    {{9, 1, 0, 2, 0, 1, 0, 100, 1, 0}, 1, 14, 0, "no kind, excluded"},
    {{1, 2, 0, 0, 0, 0, 0, 100, 2, 0}, 3, 4, 0, "end day 0, start later"},
    {{4, 0, 0, 2, 0, 1, 0, 100, 1, 0}, 3, 14, 0, "start day 0, excluded on kind 4"},
    {{1, 0, 0, 0, 0, 1, 0, 100, 1, 0}, 3, 14, 0, "day 0 to day 0, excluded"},
    {{1, 1, 0, 3652060, 0, 1, 0, 100, 1, 0}, 3, 0, 0, "the day after the last, excluded"},
    {{7, 0, 0, 4000000000, 1000000000, 0, 0, 100, 0, 0}, 3, 5, 0, "the end's tail too large, the end too far"},
    {{1, 0, 0, 2, 0, 0, 0, 32768, 1, 0}, 3, 7, 0, "start day 0, high too large"},
    {{1, 0, 0, 2, 0, 0, 0, 100, 0, 0}, 3, 8, 0, "start day 0, value day 0"},
    {{1, 0, 0, 0, 0, 0, 0, 100, 1, 0}, 3, 9, 0, "day 0 to day 0, value day 1"},
    {{4, 0, 0, 0, 1, 0, 1, 2, 1, 0}, 3, 10, 0, "1 ns of day 0, value day 1"},
    {{4, 2, 0, 1, 0, 1, 0, 100, 2, 0}, 4, 14, 0, "start later, excluded on kind 4"},
    {{7, 2, 0, 1, 0, -1, 0, 100, 2, 0}, 4, 14, 0, "start later, excluded on kind 7"},
    {{1, 2, 0, 1, 0, 1, 0, 100, 2, 0}, 4, 0, 0, "start later, excluded on kind 1"},
    {{7, 4000000002, 0, 4000000001, 0, 0, 0, 100, 4000000002, 0}, 4, 5, 0, "start later, both too far"},
    {{1, 2, 0, 1, 0, 0, -32768, 0, 2, 0}, 4, 7, 0, "start later, low too small"},
    {{1, 2, 0, 1, 0, 0, 0, 100, 0, 0}, 4, 8, 0, "start later, value day 0"},
    {{1, 2, 0, 1, 0, 0, 0, 100, 1, 0}, 4, 9, 0, "start later, the value not the start"},
    {{4, 2, 1, 2, 0, 0, 1, 2, 1, 0}, 4, 10, 0, "start later, the pixel would not fit"},
    {{7, 0, 0, 4000000000, 1, 1, 0, 100, 0, 0}, 14, 5, 0, "excluded on kind 7, end too far"},
    {{4, 1, 0, 2, 0, 1, 0, 32768, 1, 0}, 14, 7, 0, "excluded on kind 4, high too large"},
    {{1, 5, 0, 5, 0, 1, 0, 32768, 5, 0}, 14, 7, 0, "the excluded end is the start, high too large"},
    {{1, 5, 0, 5, 0, 1, 0, 100, 0, 0}, 14, 8, 0, "the excluded end is the start, value day 0"},
    {{1, 5, 0, 5, 0, 1, 0, 100, 6, 0}, 14, 9, 0, "the excluded end is the start, not the value"},
    {{4, 1, 0, 1, 1, 1, 1, 2, 1, 2147483648}, 14, 10, 0, "excluded on kind 4, the pixel would not fit"},
    {{7, 0, 0, 4000000000, 1, 0, 0, 32768, 0, 0}, 5, 7, 0, "end too far, high too large"},
    {{7, 0, 0, 4000000000, 1, 0, 0, 100, 0, -1}, 5, 8, 0, "end too far, the value's tail below 0"},
    {{7, 4000000001, 0, 4000000001, 0, 0, 0, 100, 4000000002, 0}, 5, 9, 0, "too far and empty"},
    {{7, 4000000001, 0, 4000000001, 1, 0, 1, 2, 4000000005, 0}, 5, 10, 0, "too far, the pixel would not fit"},
    {{1, 1, 0, 2, 0, 0, 32768, 0, 0, 0}, 7, 8, 0, "low too large, value day 0"},
    {{1, 1, 0, 1, 0, 0, 0, 32768, 2, 0}, 7, 9, 0, "high too large, empty"},
    {{4, 1, 0, 1, 1, 0, 32768, 32769, 1, 2147483648}, 7, 10, 0, "limits too large, the pixel would not fit"},
    {{1, 1, 0, 1, 0, 0, 0, 100, 0, 0}, 8, 9, 0, "value day 0, empty"},
    {{4, 1, 0, 1, 1, 0, 1, 2, 1, 86400000000000}, 8, 10, 0, "value 24:00, the pixel would not fit"},
    {{4, 1, 0, 1, 0, 0, 1, 2, 1, 1}, 9, 10, 0, "empty, and the Rust's quotient by zero saturates"},

    /* All at once, then mended one by one. */
    {{9, 4000000005, -1, 4000000005, -2, 1, 32768, 32769, 4000000000, -1}, 1, 3, 0, "all but 5"},
    {{7, 4000000005, -1, 4000000005, -2, 1, 32768, 32769, 4000000000, -1}, 3, 4, 0, "all but 1"},
    {{7, 4000000005, 1, 4000000005, 0, 1, 32768, 32769, 4000000000, -1}, 4, 14, 0, "3 mended"},
    {{7, 4000000005, 0, 4000000005, 0, 1, 32768, 32769, 4000000009, -1}, 14, 5, 0, "4 mended"},
    {{7, 4000000005, 0, 4000000005, 0, 0, 32768, 32769, 4000000009, -1}, 5, 7, 0, "14 mended"},
    {{7, 0, 0, 0, 0, 0, 32768, 32769, 9, -1}, 7, 8, 0, "5 mended"},
    {{7, 0, 0, 0, 0, 0, 1, 2, 9, -1}, 8, 9, 0, "7 mended"},
    {{7, 0, 0, 0, 0, 0, 1, 2, 9, 0}, 9, 10, 0, "8 mended"},
    {{7, 0, 0, 0, 1, 0, 1, 2, 9, 0}, 10, 0, 0, "9 mended"},
    {{7, 0, 0, 0, 1, 0, 0, 1, 9, 0}, 0, 0, 2147483647, "10 mended"},
};

/* A tick list by its hint, bold count (-1: none, a bold hint) and N, and the length of the lent slice. An accepted one has its
   first ticks beside it, up to three. Day 32 is 0001-02-01, 60 March 1, 738155 is 2021-12-31; 1, 8 and 15 are Mondays. */
static const struct listing {
    int64_t in[6], bold, n;
    size_t lent;
    int64_t status, also, count, ticks[6];
    const char *why;
} listings[] = {
    /* 1: the kind. */
    {{1, 1, 0, 3, 0, 0}, -1, 2, 6, 0, 0, 3, {1, 0, 2, 0, 3, 0}, "kind 1: the end is included"},
    {{2, 1, 0, 60, 0, 0}, -1, 2, 6, 0, 0, 3, {1, 0, 32, 0, 60, 0}, "kind 2: three firsts"},
    {{3, 1, 0, 731, 0, 0}, -1, 4, 6, 0, 0, 3, {1, 0, 366, 0, 731, 0}, "kind 3: three years"},
    {{4, 1, 0, 1, 3, 0}, -1, 3, 6, 0, 0, 3, {1, 0, 1, 1, 1, 2}, "kind 4: the end is not included"},
    {{5, 1, 0, 60, 0, 0}, -1, 2, 6, 0, 0, 3, {1, 0, 32, 0, 60, 0}, "kind 5"},
    {{6, 1, 0, 731, 0, 0}, -1, 4, 6, 0, 0, 3, {1, 0, 366, 0, 731, 0}, "kind 6"},
    {{7, 0, 0, 3, 0, 0}, -1, 3, 6, 0, 0, 3, {0, 0, 1, 0, 2, 0}, "kind 7: the end is not included"},
    {{8, 1, 0, 15, 0, 0}, -1, 2, 6, 0, 0, 3, {1, 0, 8, 0, 15, 0}, "kind 8: three Mondays, the end is included"},
    {{0, 1, 0, 3, 0, 0}, -1, 2, 16, 1, 0, 0, {0}, "kind 0"},
    {{9, 1, 0, 3, 0, 0}, -1, 2, 16, 1, 0, 0, {0}, "kind 9"},
    {{257, 1, 0, 3, 0, 0}, -1, 2, 16, 1, 0, 0, {0}, "kind 1 in the low 8 bits"},
    {{4294967297, 1, 0, 3, 0, 0}, 2, 2, 16, 1, 0, 0, {0}, "kind 1 in the low 32 bits, light"},
    {{INT64_MIN, 1, 0, 3, 0, 0}, -1, 2, 16, 1, 0, 0, {0}, "the least kind"},

    /* 3: start and end. */
    {{1, 1, 0, 3652059, 0, 0}, -1, 0, 2, 0, 0, 1, {1, 0}, "all days"},
    {{1, 0, 0, 3, 0, 0}, -1, 3, 16, 3, 0, 0, {0}, "day 0 as start"},
    {{1, 3652058, 0, 3652060, 0, 0}, -1, 3, 16, 3, 0, 0, {0}, "10000-01-01 as end"},
    {{2, 1, 1, 60, 0, 0}, -1, 3, 16, 3, 0, 0, {0}, "a date with a tail"},
    {{8, 1, 0, 3652059, 0, 0}, -1, 0, 2, 0, 0, 1, {1, 0}, "all weeks"},
    {{8, 3652055, 0, 3652059, 0, 0}, -1, 3, 2, 0, 0, 1, {3652055, 0}, "the last Monday"},
    {{8, 0, 0, 15, 0, 0}, -1, 3, 16, 3, 0, 0, {0}, "day 0 as start, kind 8"},
    {{8, 1, 0, 15, 1, 0}, 1, 3, 16, 3, 0, 0, {0}, "a date with a tail, kind 8, light"},
    {{4, 1, 86400000000000, 3, 0, 0}, -1, 3, 16, 3, 0, 0, {0}, "24:00 as start"},
    {{4, 3652059, 86399999999998, 3652059, 86399999999999, 0}, -1, 1, 2, 0, 0, 1, {3652059, 86399999999998},
     "the last nanosecond"},
    {{7, 0, 0, 3, 1000000000, 0}, -1, 3, 16, 3, 0, 0, {0}, "a whole second as tail"},
    {{7, 0, 0, 315576000001, 0, 0}, 1, 3, 16, 3, 0, 0, {0}, "1 ns above the largest duration, light"},

    /* 4: the order. An empty axis has a list too. */
    {{1, 5, 0, 5, 0, 0}, -1, 3, 2, 0, 0, 1, {5, 0}, "start and end equal, dates"},
    {{4, 5, 0, 5, 0, 0}, -1, 3, 0, 0, 0, 0, {0}, "start and end equal, date-times"},
    {{8, 8, 0, 8, 0, 0}, -1, 3, 2, 0, 0, 1, {8, 0}, "start and end equal, a Monday"},
    {{8, 9, 0, 9, 0, 0}, -1, 3, 0, 0, 0, 0, {0}, "and a Tuesday"},
    {{1, 6, 0, 5, 0, 0}, -1, 3, 16, 4, 0, 0, {0}, "start a day later"},
    {{8, 9, 0, 8, 0, 0}, -1, 3, 16, 4, 0, 0, {0}, "start a day later in its week"},
    {{4, 5, 1, 5, 0, 0}, -1, 3, 16, 4, 0, 0, {0}, "start 1 ns later"},
    {{7, 0, 0, -1, 999999999, 0}, 3, 3, 16, 4, 0, 0, {0}, "0 to -1 ns, light"},

    /* 14: an excluded end is no tick. Day 91 is 0001-04-01, 1096 is 0004-01-01, 22 is a Monday. */
    {{1, 1, 0, 4, 0, 1}, -1, 3, 6, 0, 0, 3, {1, 0, 2, 0, 3, 0}, "kind 1: the excluded end is not listed"},
    {{2, 1, 0, 91, 0, 1}, -1, 3, 6, 0, 0, 3, {1, 0, 32, 0, 60, 0}, "kind 2"},
    {{3, 1, 0, 1096, 0, 1}, -1, 4, 6, 0, 0, 3, {1, 0, 366, 0, 731, 0}, "kind 3"},
    {{8, 1, 0, 22, 0, 1}, -1, 3, 6, 0, 0, 3, {1, 0, 8, 0, 15, 0}, "kind 8"},
    {{2, 1, 0, 92, 0, 1}, -1, 3, 8, 0, 0, 4, {1, 0, 32, 0, 60, 0}, "to 2 April: 1 April is listed"},
    {{1, 1, 0, 2, 0, 1}, -1, 0, 2, 0, 0, 1, {1, 0}, "one day before an excluded end"},
    {{8, 2, 0, 8, 0, 1}, -1, 3, 0, 0, 0, 0, {0}, "Tuesday to Monday, excluded, has no Monday"},
    {{1, 1, 0, 4, 0, INT64_MIN}, 0, 3, 6, 0, 0, 3, {1, 0, 2, 0, 3, 0}, "by the least number, light"},
    {{1, 1, 0, 4, 0, 4294967296}, -1, 3, 6, 0, 0, 3, {1, 0, 2, 0, 3, 0}, "by 0 in the low 32 bits"},
    {{2, 1, 0, 60, 0, 1}, 1, 10, 18, 0, 0, 9, {1, 0, 8, 0, 15, 0}, "size 2 without the end, bold count 1: weeks"},
    {{2, 1, 0, 61, 0, 1}, 1, 10, 6, 0, 0, 3, {1, 0, 32, 0, 60, 0}, "size 3, bold count 1: months"},
    {{3, 1, 0, 366, 0, 1}, 0, 3, 2, 0, 0, 1, {1, 0}, "size 1 without the end, bold count 0: years"},
    {{3, 1, 0, 60, 0, 1}, 1, 10, 18, 0, 0, 9, {1, 0, 8, 0, 15, 0}, "one year of two months: through both, weeks"},
    {{8, 2, 0, 50, 0, 1}, 9, 2, 6, 0, 0, 3, {8, 0, 22, 0, 36, 0}, "six Mondays before a seventh, light: each second"},
    {{4, 1, 0, 1, 3, 1}, -1, 3, 16, 14, 0, 0, {0}, "excluded, kind 4"},
    {{5, 1, 0, 60, 0, 1}, -1, 2, 16, 14, 0, 0, {0}, "excluded, kind 5"},
    {{6, 1, 0, 731, 0, 1}, 4, 4, 16, 14, 0, 0, {0}, "excluded, kind 6, light"},
    {{7, 0, 0, 3, 0, 1}, -1, 3, 16, 14, 0, 0, {0}, "excluded, kind 7"},
    {{4, 1, 0, 1, 3, -1}, 3, 3, 16, 14, 0, 0, {0}, "kind 4, by -1, light"},
    {{5, 1, 0, 60, 0, 256}, -1, 2, 16, 14, 0, 0, {0}, "kind 5, by 0 in the low 8 bits"},
    {{7, 0, 0, 3, 0, INT64_MIN}, -1, 3, 16, 14, 0, 0, {0}, "kind 7, by the least number"},
    {{1, 5, 0, 5, 0, 1}, -1, 3, 16, 14, 0, 0, {0}, "the excluded end is the start, kind 1"},
    {{2, 5, 0, 5, 0, INT64_MAX}, 2, 3, 16, 14, 0, 0, {0}, "kind 2, light"},
    {{3, 5, 0, 5, 0, 4294967296}, -1, 3, 16, 14, 0, 0, {0}, "kind 3"},
    {{8, 8, 0, 8, 0, 1}, -1, 3, 16, 14, 0, 0, {0}, "kind 8, a Monday"},

    /* 5: the ends of a duration axis. */
    {{7, -4000000000, 0, 4000000000, 0, 0}, -1, 1, 2, 0, 0, 1, {0, 0}, "both ends at the bound"},
    {{7, 0, 0, 4000000000, 1, 0}, -1, 3, 16, 5, 0, 0, {0}, "the end 1 ns past it"},
    {{7, -4000000001, 999999999, 0, 0, 0}, -1, 3, 16, 5, 0, 0, {0}, "the start 1 ns past it"},
    {{7, -5000000000, 0, 4223372036, 854775807, 0}, -1, 3, 16, 5, 0, 0, {0}, "past it, a span of 2^63 - 1 ns"},
    {{7, -5000000000, 0, 4223372036, 854775808, 0}, -1, 1, 4, 0, 0, 2, {-4999881600, 0, 3640118400, 0},
     "past it, a span of 2^63 ns"},

    /* 6: the hint. */
    {{1, 1, 0, 7, 0, 0}, -1, 0, 2, 0, 0, 1, {1, 0}, "dates 6 days apart, N 0"},
    {{1, 1, 0, 15, 0, 0}, -1, 1, 4, 0, 0, 2, {1, 0, 15, 0}, "dates 14 days apart, N 1"},
    {{1, 1, 0, 3, 0, 0}, -1, 4096, 6, 0, 0, 3, {1, 0, 2, 0, 3, 0}, "the largest N"},
    {{1, 1, 0, 3, 0, 0}, -1, 4097, 16, 6, 0, 0, {0}, "one more"},
    {{1, 1, 0, 3, 0, 0}, -1, -1, 16, 6, 0, 0, {0}, "N -1"},
    {{1, 1, 0, 3, 0, 0}, -1, 4294967298, 16, 6, 0, 0, {0}, "N 2 in the low 32 bits"},
    {{1, 1, 0, 3, 0, 0}, -1, INT64_MIN, 16, 6, 0, 0, {0}, "the least N"},
    {{3, 1, 0, 3, 0, 0}, -1, 0, 2, 0, 0, 1, {1, 0}, "N 0 on kind 3"},
    {{8, 2, 0, 99, 0, 0}, -1, 0, 2, 0, 0, 1, {8, 0}, "N 0 on kind 8"},
    {{8, 2, 0, 99, 0, 0}, 5, 0, 2, 0, 0, 1, {8, 0}, "N 0 on kind 8, light"},
    {{8, 1, 0, 15, 0, 0}, -1, 4096, 6, 0, 0, 3, {1, 0, 8, 0, 15, 0}, "the largest N on kind 8"},
    {{8, 1, 0, 15, 0, 0}, -1, 4097, 16, 6, 0, 0, {0}, "one more"},
    {{8, 1, 0, 15, 0, 0}, 4096, 2, 6, 0, 0, 3, {1, 0, 8, 0, 15, 0}, "the largest bold count on kind 8"},
    {{8, 1, 0, 15, 0, 0}, 4097, 2, 16, 6, 0, 0, {0}, "one more"},
    {{8, 1, 0, 15, 0, 0}, 2, -1, 16, 6, 0, 0, {0}, "N -1 on kind 8, light"},
    {{4, 1, 0, 1, 3, 0}, -1, 0, 16, 6, 0, 0, {0}, "N 0 on kind 4"},
    {{5, 1, 0, 60, 0, 0}, -1, 0, 16, 6, 0, 0, {0}, "N 0 on kind 5"},
    {{6, 1, 0, 60, 0, 0}, 5, 0, 16, 6, 0, 0, {0}, "N 0 on kind 6, light"},
    {{7, 0, 0, 3, 0, 0}, -1, 0, 16, 6, 0, 0, {0}, "N 0 on kind 7"},
    {{4, 1, 0, 1, 3, 0}, 0, 3, 6, 0, 0, 3, {1, 0, 1, 1, 1, 2}, "a bold count of 0 on kind 4"},
    {{2, 1, 0, 3, 0, 0}, 4096, 2, 6, 0, 0, 3, {1, 0, 2, 0, 3, 0}, "the largest bold count"},
    {{2, 1, 0, 3, 0, 0}, 4097, 2, 16, 6, 0, 0, {0}, "one more"},
    {{4, 1, 0, 1, 3, 0}, 4294967296, 3, 16, 6, 0, 0, {0}, "a bold count of 0 in the low 32 bits"},
    {{2, 1, 0, 3, 0, 0}, INT64_MAX, 2, 16, 6, 0, 0, {0}, "the largest number as bold count"},
    {{2, 1, 0, 3, 0, 0}, 2, 4097, 16, 6, 0, 0, {0}, "a bold count that is fine, an N that is not"},

    /* 11: two numbers for each tick. */
    {{1, 1, 0, 3, 0, 0}, -1, 2, 5, 11, 0, 0, {0}, "one number short"},
    {{1, 1, 0, 3, 0, 0}, -1, 2, 4, 11, 0, 0, {0}, "a tick short"},
    {{1, 1, 0, 3, 0, 0}, -1, 2, 0, 11, 0, 0, {0}, "nothing lent"},
    {{1, 1, 0, 3, 0, 0}, -1, 2, 16, 0, 0, 3, {1, 0, 2, 0, 3, 0}, "more than enough"},
    {{7, -1, 999999999, 0, 4, 0}, 2, 1, 1, 11, 0, 0, {0}, "a light list, one number short"},
    {{8, 1, 0, 15, 0, 0}, -1, 2, 5, 11, 0, 0, {0}, "three Mondays, one number short"},
    {{8, 1, 0, 15, 0, 0}, 2, 2, 0, 11, 0, 0, {0}, "three Mondays, nothing lent, light"},
    {{5, 738155, 36000000000000, 738155, 43200000000000, 0}, -1, 3, 0, 0, 0, 0, {0}, "2021-12-31 10:00 to 12:00 has no ticks"},

    /* Turns of the list itself. */
    {{7, -1, 999999999, 0, 4, 0}, -1, 1, 2, 0, 0, 1, {-1, 999999999}, "-1 ns to 4 ns, N 1: 2^64 - 1 is a multiple of 5"},
    {{4, 1, 0, 12, 49599999999999, 0}, -1, 100, 0, 11, 0, 0, {0}, "10^15 - 1 ns, N 100: 5 h, 56 ticks"},
    {{5, 32, 500000000, 60, 0, 0}, -1, 3, 4, 0, 0, 2, {32, 0, 60, 0}, "from 00:00:00.5 on the first: that midnight"},
    {{5, 32, 1000000000, 60, 0, 0}, -1, 3, 2, 0, 0, 1, {60, 0}, "from 00:00:01: the next first"},
    {{3, 152, 0, 1000, 0, 0}, -1, 5, 6, 0, 0, 3, {152, 0, 517, 0, 882, 0}, "from June 1: Junes"},
    {{2, 1, 0, 59, 0, 0}, 1, 10, 18, 0, 0, 9, {1, 0, 8, 0, 15, 0}, "size 2, bold count 1: weeks"},
    {{2, 1, 0, 60, 0, 0}, 1, 10, 6, 0, 0, 3, {1, 0, 32, 0, 60, 0}, "size 3, bold count 1: months"},
    {{3, 1, 0, 59, 0, 0}, 1, 10, 18, 0, 0, 9, {1, 0, 8, 0, 15, 0}, "one year of two months: through both, weeks"},
    {{3, 1, 0, 60, 0, 0}, 1, 10, 6, 0, 0, 3, {1, 0, 32, 0, 60, 0}, "one year of three: months"},
    {{7, -129600, 0, 9223366036, 854775808, 0}, -1, 1, 4, 0, 0, 2, {0, 0, 8640000000, 0}, "from -1.5 days, beyond 64 bits: 0"},
    {{8, 2, 0, 7, 0, 0}, -1, 4096, 0, 0, 0, 0, {0}, "Tuesday to Sunday has no Monday"},
    {{8, 2, 0, 8, 0, 0}, -1, 4096, 2, 0, 0, 1, {8, 0}, "a day more: one"},
    {{8, 2, 0, 28, 0, 0}, -1, 2, 6, 0, 0, 3, {8, 0, 15, 0, 22, 0}, "three Mondays, N 2: each"},
    {{8, 2, 0, 29, 0, 0}, -1, 2, 4, 0, 0, 2, {8, 0, 22, 0}, "four: each second"},
    {{8, 2, 0, 49, 0, 0}, -1, 2, 6, 0, 0, 3, {8, 0, 22, 0, 36, 0}, "six: each second"},
    {{8, 2, 0, 50, 0, 0}, -1, 2, 6, 0, 0, 3, {8, 0, 29, 0, 50, 0}, "seven: each third"},
    {{8, 2, 0, 29, 0, 0}, 0, 2, 4, 0, 0, 2, {8, 0, 22, 0}, "a light hint counts by its limit: bold count 0"},
    {{8, 2, 0, 29, 0, 0}, 3, 2, 4, 0, 0, 2, {8, 0, 22, 0}, "and bold count 3, with a size of 5"},
    {{8, 737850, 0, 737971, 0, 0}, -1, 6, 12, 0, 0, 6, {737850, 0, 737871, 0, 737892, 0}, "2021-03-01 to 06-30, N 6: each third"},

    /* Two at once; 5 is asked of kind 7 only, so never with 1. */
    {{9, 1, 0, 315576000001, 0, 0}, -1, 3, 16, 1, 3, 0, {0}, "no kind, an end of no kind"},
    {{9, 2, 0, 1, 0, 0}, -1, 3, 16, 1, 4, 0, {0}, "no kind, start later"},
    {{9, 1, 0, 2, 0, 0}, -1, -1, 16, 1, 6, 0, {0}, "no kind, N -1"},
    {{9, 1, 0, 2, 0, 0}, -1, 3, 0, 1, 11, 0, {0}, "no kind, nothing lent"},
    {{9, 1, 0, 2, 0, 1}, -1, 3, 16, 1, 14, 0, {0}, "no kind, excluded"},
    {{1, 2, 0, 0, 0, 0}, -1, 3, 16, 3, 4, 0, {0}, "end day 0, start later"},
    {{1, 0, 0, 0, 0, 1}, -1, 3, 16, 3, 14, 0, {0}, "day 0 to day 0, excluded"},
    {{7, 0, 0, 4000000000, 1000000000, 0}, -1, 3, 16, 3, 5, 0, {0}, "the end's tail too large, the end too far"},
    {{1, 0, 0, 2, 0, 0}, -1, 4097, 16, 3, 6, 0, {0}, "start day 0, N too large"},
    {{1, 0, 0, 2, 0, 0}, -1, 3, 0, 3, 11, 0, {0}, "start day 0, nothing lent"},
    {{4, 2, 0, 1, 0, 1}, 3, 3, 16, 4, 14, 0, {0}, "start later, excluded on kind 4, light"},
    {{8, 2, 0, 1, 0, 1}, -1, 3, 16, 4, 0, 0, {0}, "start later, excluded on kind 8"},
    {{7, 4000000002, 0, 4000000001, 0, 0}, -1, 3, 16, 4, 5, 0, {0}, "start later, both too far"},
    {{4, 2, 0, 1, 0, 0}, -1, 0, 16, 4, 6, 0, {0}, "start later, N 0"},
    {{1, 2, 0, 1, 0, 0}, -1, 3, 0, 4, 11, 0, {0}, "start later, nothing lent"},
    {{7, 0, 0, 4000000000, 1, 1}, -1, 3, 16, 14, 5, 0, {0}, "excluded on kind 7, end too far"},
    {{1, 5, 0, 5, 0, 1}, -1, 4097, 16, 14, 6, 0, {0}, "the excluded end is the start, N too large"},
    {{4, 1, 0, 1, 3, 1}, 3, 3, 0, 14, 11, 0, {0}, "excluded on kind 4, nothing lent, light"},
    {{7, 0, 0, 4000000000, 1, 0}, -1, 0, 16, 5, 6, 0, {0}, "end too far, N 0"},
    {{7, 0, 0, 4000000000, 1, 0}, 3, 3, 0, 5, 11, 0, {0}, "end too far, nothing lent"},
    {{1, 1, 0, 3, 0, 0}, -1, 4097, 0, 6, 11, 0, {0}, "N too large, nothing lent"},
    {{2, 1, 0, 3, 0, 0}, -2, 2, 0, 6, 11, 0, {0}, "a bold count of -2, nothing lent"},

    /* All at once, then mended one by one. */
    {{9, 4000000005, -1, 4000000005, -2, 1}, -1, 0, 0, 1, 3, 0, {0}, "all but 5"},
    {{7, 4000000005, -1, 4000000005, -2, 1}, -1, 0, 0, 3, 4, 0, {0}, "all but 1"},
    {{7, 4000000005, 1, 4000000005, 0, 1}, -1, 0, 0, 4, 14, 0, {0}, "3 mended"},
    {{7, 4000000005, 0, 4000000005, 1, 1}, -1, 0, 0, 14, 5, 0, {0}, "4 mended"},
    {{7, 4000000005, 0, 4000000005, 1, 0}, -1, 0, 0, 5, 6, 0, {0}, "14 mended"},
    {{7, 5, 0, 5, 1, 0}, -1, 0, 0, 6, 11, 0, {0}, "5 mended"},
    {{7, 5, 0, 5, 1, 0}, -1, 1, 0, 11, 0, 0, {0}, "6 mended"},
    {{7, 5, 0, 5, 1, 0}, -1, 1, 2, 0, 0, 1, {5, 0}, "11 mended"},
};

/* Lists of segments: the same centres, kinds 1, 2, 3, 5, 6 and 8 only; no count without a list. */
static const struct listing segment_listings[] = {
    {{1, 1, 0, 3, 0, 0}, -1, 2, 6, 0, 0, 3, {1, 0, 2, 0, 3, 0}, "kind 1"},
    {{2, 1, 0, 60, 0, 0}, -1, 2, 7, 0, 0, 3, {1, 0, 32, 0, 60, 0}, "kind 2, one number more lent"},
    {{3, 1, 0, 731, 0, 0}, -1, 4, 6, 0, 0, 3, {1, 0, 366, 0, 731, 0}, "kind 3"},
    {{5, 1, 0, 60, 0, 0}, -1, 2, 6, 0, 0, 3, {1, 0, 32, 0, 60, 0}, "kind 5"},
    {{6, 1, 0, 731, 0, 0}, -1, 4, 6, 0, 0, 3, {1, 0, 366, 0, 731, 0}, "kind 6"},
    {{8, 1, 0, 15, 0, 0}, -1, 2, 6, 0, 0, 3, {1, 0, 8, 0, 15, 0}, "kind 8"},
    {{8, 2, 0, 50, 0, 0}, 0, 2, 6, 0, 0, 3, {8, 0, 29, 0, 50, 0}, "kind 8, light"},
    {{8, 1, 0, 15, 0, 0}, 2, 2, 5, 11, 0, 0, {0}, "kind 8, one number short, light"},
    {{8, 2, 0, 99, 0, 0}, -1, 0, 2, 0, 0, 1, {8, 0}, "N 0 on kind 8"},
    {{8, 1, 0, 15, 0, 0}, -1, 4097, 16, 6, 0, 0, {0}, "N too large on kind 8"},
    {{5, 738155, 36000000000000, 738155, 43200000000000, 0}, -1, 3, 0, 0, 0, 0, {0}, "2021-12-31 10:00 to 12:00 has no ticks"},
    {{5, 737880, 36000000000000, 737880, 43200000000000, 0}, 0, 2, 4, 0, 0, 2, {737880, 36000000000000, 737880, 39600000000000},
     "2021-03-31 10:00 to 12:00: hours, of the finer axis"},
    {{2, 1, 0, 59, 0, 0}, 1, 10, 18, 0, 0, 9, {1, 0, 8, 0, 15, 0}, "size 2, bold count 1: weeks"},
    {{0, 1, 0, 3, 0, 0}, -1, 2, 16, 1, 0, 0, {0}, "kind 0"},
    {{4294967297, 1, 0, 3, 0, 0}, -1, 2, 16, 1, 0, 0, {0}, "kind 1 in the low 32 bits"},
    {{9, 1, 0, 3, 0, 0}, 2, 2, 16, 1, 0, 0, {0}, "kind 9, light"},
    {{4, 1, 0, 1, 3, 0}, -1, 3, 16, 2, 0, 0, {0}, "kind 4"},
    {{7, 0, 0, 3, 0, 0}, -1, 3, 16, 2, 0, 0, {0}, "kind 7"},
    {{4, 1, 0, 1, 3, 0}, 3, 3, 16, 2, 0, 0, {0}, "kind 4, light"},
    {{7, 0, 0, 3, 0, 0}, 3, 3, 16, 2, 0, 0, {0}, "kind 7, light"},
    {{1, 0, 0, 3, 0, 0}, -1, 3, 16, 3, 0, 0, {0}, "day 0 as start"},
    {{5, 1, 0, 3, 86400000000000, 0}, 3, 3, 16, 3, 0, 0, {0}, "24:00 as end, light"},
    {{1, 6, 0, 5, 0, 0}, -1, 3, 16, 4, 0, 0, {0}, "start a day later"},
    {{6, 5, 1, 5, 0, 0}, 3, 3, 16, 4, 0, 0, {0}, "start 1 ns later, light"},
    {{1, 1, 0, 4, 0, 1}, -1, 3, 6, 0, 0, 3, {1, 0, 2, 0, 3, 0}, "excluded, kind 1"},
    {{2, 1, 0, 91, 0, -1}, -1, 3, 6, 0, 0, 3, {1, 0, 32, 0, 60, 0}, "excluded by -1, kind 2"},
    {{2, 1, 0, 60, 0, 1}, 1, 10, 18, 0, 0, 9, {1, 0, 8, 0, 15, 0}, "size 2 without the end, bold count 1: weeks"},
    {{8, 1, 0, 22, 0, 1}, 2, 3, 6, 0, 0, 3, {1, 0, 8, 0, 15, 0}, "excluded, kind 8, light"},
    {{5, 1, 0, 60, 0, 1}, -1, 2, 16, 14, 0, 0, {0}, "excluded, kind 5"},
    {{6, 1, 0, 731, 0, INT64_MIN}, 4, 4, 16, 14, 0, 0, {0}, "excluded, kind 6, light"},
    {{1, 5, 0, 5, 0, 1}, -1, 3, 16, 14, 0, 0, {0}, "the excluded end is the start"},
    {{8, 5, 0, 5, 0, 256}, 2, 3, 16, 14, 0, 0, {0}, "the same, kind 8, light"},
    {{1, 1, 0, 3, 0, 0}, -1, 4097, 16, 6, 0, 0, {0}, "N too large"},
    {{5, 1, 0, 60, 0, 0}, -1, 0, 16, 6, 0, 0, {0}, "N 0 on kind 5"},
    {{6, 1, 0, 60, 0, 0}, 5, 0, 16, 6, 0, 0, {0}, "N 0 on kind 6, light"},
    {{2, 1, 0, 3, 0, 0}, 4097, 2, 16, 6, 0, 0, {0}, "a bold count too large"},
    {{1, 1, 0, 3, 0, 0}, -1, 2, 5, 11, 0, 0, {0}, "one number short"},
    {{2, 1, 0, 3, 0, 0}, 4096, 2, 0, 11, 0, 0, {0}, "nothing lent, light"},

    /* Two at once. */
    {{9, 0, 0, 3, 0, 0}, -1, 3, 16, 1, 3, 0, {0}, "no kind, start day 0"},
    {{9, 2, 0, 1, 0, 0}, 3, 3, 16, 1, 4, 0, {0}, "no kind, start later"},
    {{9, 1, 0, 2, 0, 0}, -1, -1, 16, 1, 6, 0, {0}, "no kind, N -1"},
    {{9, 1, 0, 2, 0, 0}, 3, 3, 0, 1, 11, 0, {0}, "no kind, nothing lent"},
    {{9, 1, 0, 2, 0, 1}, -1, 3, 16, 1, 14, 0, {0}, "no kind, excluded"},
    {{4, 0, 0, 3, 0, 0}, -1, 3, 16, 2, 3, 0, {0}, "kind 4, start day 0"},
    {{4, 1, 0, 3, 0, 1}, -1, 3, 16, 2, 14, 0, {0}, "kind 4, excluded"},
    {{5, 0, 0, 3, 0, 1}, -1, 3, 16, 3, 14, 0, {0}, "start day 0, excluded on kind 5"},
    {{5, 2, 0, 1, 0, 1}, 3, 3, 16, 4, 14, 0, {0}, "start later, excluded on kind 5, light"},
    {{1, 5, 0, 5, 0, 1}, -1, 4097, 16, 14, 6, 0, {0}, "the excluded end is the start, N too large"},
    {{6, 1, 0, 731, 0, 1}, 3, 3, 0, 14, 11, 0, {0}, "excluded on kind 6, nothing lent, light"},
    {{7, 2, 0, 1, 0, 0}, 3, 3, 16, 2, 4, 0, {0}, "kind 7, start later"},
    {{4, 1, 0, 2, 0, 0}, -1, 0, 16, 2, 6, 0, {0}, "kind 4, N 0"},
    {{7, 1, 0, 3, 0, 0}, 3, 3, 0, 2, 11, 0, {0}, "kind 7, nothing lent"},
    {{1, 2, 0, 0, 0, 0}, -1, 3, 16, 3, 4, 0, {0}, "end day 0, start later"},
    {{1, 0, 0, 2, 0, 0}, 4097, 3, 16, 3, 6, 0, {0}, "start day 0, the bold count too large"},
    {{1, 0, 0, 2, 0, 0}, -1, 3, 0, 3, 11, 0, {0}, "start day 0, nothing lent"},
    {{5, 2, 0, 1, 0, 0}, 3, 0, 16, 4, 6, 0, {0}, "start later, N 0"},
    {{1, 2, 0, 1, 0, 0}, -1, 3, 0, 4, 11, 0, {0}, "start later, nothing lent"},
    {{1, 1, 0, 3, 0, 0}, 3, 4097, 0, 6, 11, 0, {0}, "N too large, nothing lent"},
};

/* Tables of house rules: the count of rows, or why there is none. `also` is the next question that would say no, if the rows
   that do not read were left out. */
static const struct ruling {
    const char *table;
    int64_t status, also, rows;
    const char *why;
} rulings[] = {
    {NAMES "0 3652058 day 1\n", 0, 0, 1, "one row for all lengths"},
    {NAMES "0 3652058 month 1\n", 0, 0, 1, "months"},
    {NAMES "0 3652058 year 1\n", 0, 0, 1, "years"},
    {NAMES "0 13 day 1\n14 365 month 1\n366 3652058 year 1\n", 0, 0, 3, "three rows"},
    {NAMES "366 3652058 year 1\n0 13 day 1\n14 365 month 1\n", 0, 0, 3, "in another order"},
    {NAMES "0 0 day 1\n1 3652057 day 1\n3652058 3652058 day 1\n", 0, 0, 3, "rows of one length at both ends"},
    {NAMES "0 3652058 day 1000\n", 0, 0, 1, "step 1000"},
    {NAMES "-0 3652058 day 1\n", 0, 0, 1, "-0"},
    {NAMES "000000000000 000003652058 day 000000001000\n", 0, 0, 1, "zeros before a number, 12 digits"},
    {NAMES "-000000000000 3652058 day 1\n", 0, 0, 1, "a minus and 12 digits"},

    /* 12: lines, fields and forms. */
    {"", 12, 0, 0, "nothing"},
    {"\n", 12, 0, 0, "an empty line"},
    {"from to unit step", 12, 0, 0, "the names without their LF"},
    {"From to unit step\n0 3652058 day 1\n", 12, 0, 0, "a large letter in the names"},
    {"from to unit  step\n0 3652058 day 1\n", 12, 0, 0, "two spaces in the names"},
    {"from to unit step \n0 3652058 day 1\n", 12, 0, 0, "a space behind the names"},
    {" from to unit step\n0 3652058 day 1\n", 12, 0, 0, "a space before the names"},
    {"from to unit\n0 3652058 day 1\n", 12, 0, 0, "three names"},
    {"from to unit step\r\n0 3652058 day 1\r\n", 12, 0, 0, "lines that end in CR LF"},
    {"kind start end hint low high\n0 3652058 day 1\n", 12, 0, 0, "plate's names"},
    {"0 3652058 day 1\n", 12, 0, 0, "no names"},
    {"\n" NAMES "0 3652058 day 1\n", 12, 0, 0, "an empty line before the names"},
    {NAMES NAMES "0 3652058 day 1\n", 12, 0, 0, "the names twice"},
    {NAMES "0 3652058 day 1", 12, 0, 0, "no LF at the end"},
    {NAMES "0 3652058 day 1\n ", 12, 0, 0, "a space behind the last LF"},
    {NAMES "0 3652058 day 1\n\n", 12, 0, 0, "an empty line behind the rows"},
    {NAMES "\n0 3652058 day 1\n", 12, 0, 0, "an empty line before them"},
    {NAMES "0 3652058 day 1\r\n", 12, 0, 0, "a CR"},
    {NAMES "0  3652058 day 1\n", 12, 0, 0, "two spaces"},
    {NAMES " 0 3652058 day 1\n", 12, 0, 0, "a space before a row"},
    {NAMES "0 3652058 day 1 \n", 12, 0, 0, "a space behind it"},
    {NAMES "0\t3652058 day 1\n", 12, 0, 0, "a tab"},
    {NAMES "0 3652058 day\n", 12, 0, 0, "three fields"},
    {NAMES "0 3652058 day 1 1\n", 12, 0, 0, "five fields"},
    {NAMES "0 3652058 day 1\n0 3652058 week 1\n", 12, 16, 0, "week is no unit"},
    {NAMES "0 3652058 days 1\n", 12, 0, 0, "days"},
    {NAMES "0 3652058 da 1\n", 12, 0, 0, "da"},
    {NAMES "0 3652058 Day 1\n", 12, 0, 0, "Day"},
    {NAMES "0 3652058 1 1\n", 12, 0, 0, "a number as unit"},
    {NAMES "0 3652058  1\n", 12, 0, 0, "no unit"},
    {NAMES "0 3652058 day +1\n", 12, 0, 0, "a plus"},
    {NAMES "0 3652058 day 1.0\n", 12, 0, 0, "a point"},
    {NAMES "0 3,652,058 day 1\n", 12, 0, 0, "commas"},
    {NAMES "0 3652058 day 1e0\n", 12, 0, 0, "an exponent"},
    {NAMES "0 3652058 day 0x1\n", 12, 0, 0, "other digits"},
    {NAMES "--0 3652058 day 1\n", 12, 0, 0, "two minuses"},
    {NAMES "- 3652058 day 1\n", 12, 0, 0, "a minus alone"},
    {NAMES "0 3652058 day \n", 12, 0, 0, "no step"},
    {NAMES "0 3652058 day 1-\n", 12, 0, 0, "a minus behind it"},
    {NAMES "0000000000000 3652058 day 1\n", 12, 0, 0, "13 digits"},
    {NAMES "-0000000000000 3652058 day 1\n", 12, 0, 0, "a minus and 13 digits"},
    {NAMES "0 3652058 day 0000000000001\n", 12, 0, 0, "13 digits of a step"},

    /* 12: numbers out of range. */
    {NAMES "-1 3652058 day 1\n", 12, 0, 0, "from -1"},
    {NAMES "0 3652059 day 1\n", 12, 0, 0, "to one more than the last length"},
    {NAMES "0 3652058 day 1\n3652059 3652059 day 1\n", 12, 0, 0, "a row for a length that is none"},
    {NAMES "0 4298619354 day 1\n", 12, 0, 0, "to 3652058 in its low 32 bits"},
    {NAMES "4294967296 3652058 day 1\n", 12, 0, 0, "from 0 in its low 32 bits"},
    {NAMES "0 999999999999 day 1\n", 12, 0, 0, "the largest number as to"},
    {NAMES "-999999999999 3652058 day 1\n", 12, 0, 0, "the least as from"},
    {NAMES "0 3652058 day 0\n", 12, 0, 0, "step 0"},
    {NAMES "0 3652058 day -0\n", 12, 0, 0, "step -0"},
    {NAMES "0 3652058 day -1\n", 12, 0, 0, "step -1"},
    {NAMES "0 3652058 day 1001\n", 12, 0, 0, "step 1001"},
    {NAMES "0 3652058 day 257\n", 0, 0, 1, "step 257"},
    {NAMES "0 3652058 day 4294967297\n", 12, 0, 0, "step 1 in its low 32 bits"},
    {NAMES "3652058 0 day 1\n", 12, 15, 0, "from above to"},
    {NAMES "0 14 day 1\n15 14 day 1\n15 3652058 day 1\n", 12, 0, 0, "the same by one, between good rows"},

    /* 15: a length without a row. */
    {NAMES, 15, 0, 0, "the names alone"},
    {NAMES "1 3652058 day 1\n", 15, 0, 0, "length 0"},
    {NAMES "0 3652057 day 1\n", 15, 0, 0, "the last length"},
    {NAMES "0 13 day 1\n15 3652058 day 1\n", 15, 0, 0, "length 14"},
    {NAMES "15 3652058 day 1\n0 13 day 1\n", 15, 0, 0, "the same, rows in another order"},
    {NAMES "0 0 day 1\n3652058 3652058 day 1\n", 15, 0, 0, "all but the first and the last"},
    {NAMES "0 3652056 day 1\n3652058 3652058 day 1\n", 15, 0, 0, "the last but one"},
    {NAMES "0 20 day 1\n10 30 day 1\n32 3652058 day 1\n", 15, 16, 0, "length 31, and 10 to 20 have two"},
    {NAMES "5 3652058 day 1\n5 3652058 day 1\n", 15, 16, 0, "0 to 4, and the others have two"},
    {NAMES "0 10 day 1\n0 20 day 1\n0 3652057 day 1\n", 15, 16, 0, "the last length, and three rows from 0"},
    {NAMES "0 10 day 1\n2 4 day 1\n6 8 day 1\n12 3652058 day 1\n", 15, 16, 0, "length 11, two rows within another"},

    /* 16: a length with two rows or more. */
    {NAMES "0 3652058 day 1\n0 3652058 day 1\n", 16, 0, 0, "a row twice"},
    {NAMES "0 3652058 day 1\n0 0 day 1\n", 16, 0, 0, "length 0"},
    {NAMES "0 3652058 day 1\n3652058 3652058 day 1\n", 16, 0, 0, "the last length"},
    {NAMES "0 14 day 1\n14 3652058 day 1\n", 16, 0, 0, "length 14"},
    {NAMES "14 3652058 day 1\n0 14 day 1\n", 16, 0, 0, "the same, rows in another order"},
    {NAMES "0 3652058 day 1\n100 200 month 1\n", 16, 0, 0, "a row within another"},
    {NAMES "0 10 day 1\n11 3652058 day 1\n5 20 day 1\n", 16, 0, 0, "a row across two that meet"},

    /* 12 comes first. */
    {NAMES "1 3652058 day 1\n0 0 day 0\n", 12, 15, 0, "length 0 has no row but one with step 0"},
    {NAMES "0 3652058 day 1\n0 3652058 day 1\nx\n", 12, 16, 0, "a row twice, and one that does not read"},
    {NAMES "1 3652058 day 1", 12, 15, 0, "length 0, and no LF at the end"},
};

/* Lists by such tables; HOUSE has days to length 6, weeks to 69, months to 4000. Day 32 is 0001-02-01, 60 March 1, 366
   0002-01-01; 737791 is 2021-01-01, 738156 the same of 2022. */
#define HOUSE NAMES "0 6 day 1\n7 69 day 7\n70 4000 month 1\n4001 3652058 year 100\n"
#define BY_DAYS NAMES "0 3652058 day 1\n"
#define BY_MONTHS NAMES "0 3652058 month 1\n"
#define BY_YEARS NAMES "0 3652058 year 1\n"
#define UNREAD NAMES "0 3652058 day 0\n"
#define WITH_GAP NAMES "1 3652058 day 1\n"
#define WITH_TWO NAMES "0 3652058 day 1\n9 9 day 1\n"
static const struct ruled {
    int64_t in[6];
    const char *table;
    size_t lent;
    int64_t status, also, count, ticks[6];
    const char *why;
} ruled[] = {
    /* Units and steps. */
    {{1, 1, 0, 3, 0, 0}, BY_DAYS, 6, 0, 0, 3, {1, 0, 2, 0, 3, 0}, "each day, the end too"},
    {{1, 1, 0, 7, 0, 0}, NAMES "0 3652058 day 3\n", 6, 0, 0, 3, {1, 0, 4, 0, 7, 0}, "each third, the end too"},
    {{1, 1, 0, 6, 0, 0}, NAMES "0 3652058 day 3\n", 4, 0, 0, 2, {1, 0, 4, 0}, "a day less"},
    {{1, 5, 0, 5, 0, 0}, NAMES "0 3652058 day 1000\n", 2, 0, 0, 1, {5, 0}, "one day"},
    {{1, 1, 0, 1001, 0, 0}, NAMES "0 3652058 day 1000\n", 4, 0, 0, 2, {1, 0, 1001, 0}, "a thousand days"},
    {{1, 1, 0, 60, 0, 0}, BY_MONTHS, 6, 0, 0, 3, {1, 0, 32, 0, 60, 0}, "each month, both ends"},
    {{1, 2, 0, 59, 0, 0}, BY_MONTHS, 2, 0, 0, 1, {32, 0}, "neither end is a first"},
    {{1, 2, 0, 31, 0, 0}, BY_MONTHS, 0, 0, 0, 0, {0}, "no first of a month"},
    {{1, 2, 0, 152, 0, 0}, NAMES "0 3652058 month 2\n", 6, 0, 0, 3, {32, 0, 91, 0, 152, 0}, "each second from the first one"},
    {{1, 1, 0, 731, 0, 0}, BY_YEARS, 6, 0, 0, 3, {1, 0, 366, 0, 731, 0}, "each year, both ends"},
    {{1, 2, 0, 365, 0, 0}, BY_YEARS, 0, 0, 0, 0, {0}, "no January"},
    {{1, 2, 0, 366, 0, 0}, BY_YEARS, 2, 0, 0, 1, {366, 0}, "the end alone"},
    {{1, 2, 0, 1827, 0, 0}, NAMES "0 3652058 year 2\n", 6, 0, 0, 3, {366, 0, 1096, 0, 1827, 0},
     "each second from the first one in the span, 0002"},
    {{1, 3652059, 0, 3652059, 0, 0}, BY_DAYS, 2, 0, 0, 1, {3652059, 0}, "the last day"},
    {{1, 3652029, 0, 3652059, 0, 0}, BY_MONTHS, 2, 0, 0, 1, {3652029, 0}, "the last month"},
    {{1, 3651695, 0, 3652059, 0, 0}, BY_YEARS, 2, 0, 0, 1, {3651695, 0}, "the last year"},
    {{1, 1, 0, 3652059, 0, 0}, NAMES "0 3652058 year 1000\n", 20, 0, 0, 10, {1, 0, 365243, 0, 730486, 0}, "all years"},

    /* Kinds: the list is the same on all four. */
    {{2, 1, 0, 3, 0, 0}, BY_DAYS, 6, 0, 0, 3, {1, 0, 2, 0, 3, 0}, "kind 2 by days"},
    {{3, 1, 0, 60, 0, 0}, BY_MONTHS, 6, 0, 0, 3, {1, 0, 32, 0, 60, 0}, "kind 3 by months"},
    {{8, 2, 0, 4, 0, 0}, BY_DAYS, 6, 0, 0, 3, {2, 0, 3, 0, 4, 0}, "kind 8 by days, Mondays or not"},

    /* The row: by the days between the ends. */
    {{1, 1, 0, 7, 0, 0}, HOUSE, 14, 0, 0, 7, {1, 0, 2, 0, 3, 0}, "length 6, a tick for each of 7 days"},
    {{1, 1, 0, 8, 0, 0}, HOUSE, 4, 0, 0, 2, {1, 0, 8, 0}, "length 7: each week"},
    {{1, 1, 0, 70, 0, 0}, HOUSE, 20, 0, 0, 10, {1, 0, 8, 0, 15, 0}, "length 69"},
    {{1, 1, 0, 71, 0, 0}, HOUSE, 6, 0, 0, 3, {1, 0, 32, 0, 60, 0}, "length 70: months"},
    {{1, 737791, 0, 738156, 0, 0}, NAMES "0 364 day 1\n365 365 year 1\n366 3652058 day 1\n", 4, 0, 0, 2,
     {737791, 0, 738156, 0}, "2021 and a day"},
    {{1, 1, 0, 3652059, 0, 0}, NAMES "0 3652057 day 1\n3652058 3652058 year 1000\n", 20, 0, 0, 10,
     {1, 0, 365243, 0, 730486, 0}, "the last length"},
    {{1, 9, 0, 9, 0, 0}, NAMES "1 3652058 year 1\n0 0 day 1\n", 2, 0, 0, 1, {9, 0}, "length 0"},

    /* An excluded end: row and list of the axis that ends a day earlier. */
    {{1, 1, 0, 4, 0, 1}, BY_DAYS, 6, 0, 0, 3, {1, 0, 2, 0, 3, 0}, "days before an excluded end"},
    {{1, 1, 0, 8, 0, 1}, HOUSE, 14, 0, 0, 7, {1, 0, 2, 0, 3, 0}, "length 6 without the end: a tick for each of 7 days"},
    {{2, 1, 0, 9, 0, -1}, HOUSE, 4, 0, 0, 2, {1, 0, 8, 0}, "length 7 without it"},
    {{3, 1, 0, 60, 0, INT64_MIN}, BY_MONTHS, 4, 0, 0, 2, {1, 0, 32, 0}, "the first that is excluded"},
    {{8, 2, 0, 366, 0, 4294967296}, BY_YEARS, 0, 0, 0, 0, {0}, "the only January is excluded"},
    {{1, 9, 0, 10, 0, 1}, NAMES "1 3652058 year 1\n0 0 day 1\n", 2, 0, 0, 1, {9, 0}, "one day before it: length 0"},
    {{1, 1, 0, 3652059, 0, 1}, NAMES "0 3652057 year 1000\n3652058 3652058 day 1\n", 20, 0, 0, 10,
     {1, 0, 365243, 0, 730486, 0}, "the last day excluded"},

    /* Each refusal. */
    {{1, 1, 0, 3, 0, 0}, "", 16, 12, 0, 0, {0}, "an empty table"},
    {{1, 1, 0, 3, 0, 0}, UNREAD, 16, 12, 0, 0, {0}, "step 0"},
    {{1, 1, 0, 3, 0, 0}, BY_DAYS "x", 16, 12, 0, 0, {0}, "a byte behind the last LF"},
    {{1, 1, 0, 3, 0, 0}, NAMES, 16, 15, 0, 0, {0}, "the names alone"},
    {{1, 1, 0, 3, 0, 0}, WITH_GAP, 16, 15, 0, 0, {0}, "length 0 has no row, though the axis has length 2"},
    {{1, 1, 0, 3, 0, 0}, WITH_TWO, 16, 16, 0, 0, {0}, "length 9 has two, though the axis has length 2"},
    {{0, 1, 0, 3, 0, 0}, BY_DAYS, 16, 1, 0, 0, {0}, "kind 0"},
    {{9, 1, 0, 3, 0, 0}, BY_DAYS, 16, 1, 0, 0, {0}, "kind 9"},
    {{257, 1, 0, 3, 0, 0}, BY_DAYS, 16, 1, 0, 0, {0}, "kind 1 in the low 8 bits"},
    {{4294967297, 1, 0, 3, 0, 0}, BY_DAYS, 16, 1, 0, 0, {0}, "kind 1 in the low 32 bits"},
    {{4, 1, 0, 3, 0, 0}, BY_DAYS, 16, 2, 0, 0, {0}, "kind 4"},
    {{5, 1, 0, 3, 0, 0}, BY_DAYS, 16, 2, 0, 0, {0}, "kind 5"},
    {{6, 1, 0, 3, 0, 0}, BY_DAYS, 16, 2, 0, 0, {0}, "kind 6"},
    {{7, 1, 0, 3, 0, 0}, BY_DAYS, 16, 2, 0, 0, {0}, "kind 7"},
    {{7, 0, 0, 4000000000, 1, 0}, BY_DAYS, 16, 2, 0, 0, {0}, "kind 7, where 5 is not asked"},
    {{1, 0, 0, 3, 0, 0}, BY_DAYS, 16, 3, 0, 0, {0}, "day 0 as start"},
    {{1, 1, 0, 3652060, 0, 0}, BY_DAYS, 16, 3, 0, 0, {0}, "10000-01-01 as end"},
    {{1, 1, 0, 3652060, 0, 1}, BY_DAYS, 16, 3, 0, 0, {0}, "the same, excluded"},
    {{2, 1, 1, 3, 0, 0}, BY_DAYS, 16, 3, 0, 0, {0}, "a date with a tail"},
    {{8, 1, 0, 3, -1, 0}, BY_DAYS, 16, 3, 0, 0, {0}, "a tail below 0"},
    {{1, INT64_MIN, 0, INT64_MAX, 0, 0}, BY_DAYS, 16, 3, 0, 0, {0}, "the least and the largest number"},
    {{1, 6, 0, 5, 0, 0}, BY_DAYS, 16, 4, 0, 0, {0}, "start a day later"},
    {{8, 3652059, 0, 1, 0, 0}, BY_DAYS, 16, 4, 0, 0, {0}, "the last day to the first"},
    {{1, 5, 0, 5, 0, 1}, BY_DAYS, 16, 14, 0, 0, {0}, "the excluded end is the start"},
    {{8, 5, 0, 5, 0, 256}, BY_DAYS, 16, 14, 0, 0, {0}, "the same by 0 in the low 8 bits, kind 8"},
    {{1, 1, 0, 3, 0, 0}, BY_DAYS, 5, 11, 0, 0, {0}, "one number too few"},
    {{1, 1, 0, 3, 0, 0}, BY_DAYS, 7, 0, 0, 3, {1, 0, 2, 0, 3, 0}, "one more"},
    {{1, 1, 0, 3, 0, 0}, BY_DAYS, 0, 11, 0, 0, {0}, "nothing lent"},
    {{1, 1, 0, 60, 0, 0}, BY_MONTHS, 5, 11, 0, 0, {0}, "one number too few for months"},
    {{1, 1, 0, 731, 0, 0}, BY_YEARS, 5, 11, 0, 0, {0}, "one number too few for years"},
    {{1, 1, 0, 3652059, 0, 0}, BY_DAYS, LENT, 11, 0, 0, {0}, "all days, 20 numbers"},

    /* Two at once. */
    {{1, 1, 0, 3, 0, 0}, NAMES "1 3652058 day 1\n0 0 day 0\n", 16, 12, 15, 0, {0}, "a row that does not read, and else a gap"},
    {{1, 1, 0, 3, 0, 0}, WITH_TWO "x\n", 16, 12, 16, 0, {0}, "a row that does not read, and a length with two"},
    {{9, 1, 0, 3, 0, 0}, UNREAD, 16, 12, 1, 0, {0}, "the table does not read, no kind"},
    {{4, 1, 0, 3, 0, 0}, UNREAD, 16, 12, 2, 0, {0}, "the table does not read, kind 4"},
    {{1, 0, 0, 3, 0, 0}, UNREAD, 16, 12, 3, 0, {0}, "the table does not read, day 0"},
    {{1, 3, 0, 1, 0, 0}, UNREAD, 16, 12, 4, 0, {0}, "the table does not read, start later"},
    {{1, 3, 0, 3, 0, 1}, UNREAD, 16, 12, 14, 0, {0}, "the table does not read, the excluded end is the start"},
    {{1, 1, 0, 3, 0, 0}, UNREAD, 0, 12, 11, 0, {0}, "the table does not read, nothing lent"},
    {{1, 1, 0, 3, 0, 0}, NAMES "1 3652058 day 1\n1 1 day 1\n", 16, 15, 16, 0, {0}, "a gap, and a length with two"},
    {{0, 1, 0, 3, 0, 0}, WITH_GAP, 16, 15, 1, 0, {0}, "a gap, no kind"},
    {{7, 1, 0, 3, 0, 0}, WITH_GAP, 16, 15, 2, 0, {0}, "a gap, kind 7"},
    {{1, 1, 0, 3652060, 0, 0}, WITH_GAP, 16, 15, 3, 0, {0}, "a gap, 10000-01-01"},
    {{1, 3, 0, 1, 0, 0}, WITH_GAP, 16, 15, 4, 0, {0}, "a gap, start later"},
    {{1, 3, 0, 3, 0, 1}, WITH_GAP, 16, 15, 14, 0, {0}, "a gap, the excluded end is the start"},
    {{1, 1, 0, 3, 0, 0}, WITH_GAP, 5, 15, 11, 0, {0}, "a gap, one number too few"},
    {{-1, 1, 0, 3, 0, 0}, WITH_TWO, 16, 16, 1, 0, {0}, "a length with two, no kind"},
    {{5, 1, 0, 3, 0, 0}, WITH_TWO, 16, 16, 2, 0, {0}, "a length with two, kind 5"},
    {{1, 1, 5, 3, 0, 0}, WITH_TWO, 16, 16, 3, 0, {0}, "a length with two, a tail"},
    {{1, 3, 0, 1, 0, 0}, WITH_TWO, 16, 16, 4, 0, {0}, "a length with two, start later"},
    {{1, 3, 0, 3, 0, 1}, WITH_TWO, 16, 16, 14, 0, {0}, "a length with two, the excluded end is the start"},
    {{1, 1, 0, 3, 0, 0}, WITH_TWO, 0, 16, 11, 0, {0}, "a length with two, nothing lent"},
    {{9, 0, 0, 3, 0, 0}, BY_DAYS, 16, 1, 3, 0, {0}, "no kind, day 0"},
    {{9, 3, 0, 1, 0, 0}, BY_DAYS, 16, 1, 4, 0, {0}, "no kind, start later"},
    {{9, 3, 0, 3, 0, 1}, BY_DAYS, 16, 1, 14, 0, {0}, "no kind, the excluded end is the start"},
    {{9, 1, 0, 3, 0, 0}, BY_DAYS, 0, 1, 11, 0, {0}, "no kind, nothing lent"},
    {{4, 0, 0, 3, 0, 0}, BY_DAYS, 16, 2, 3, 0, {0}, "kind 4, day 0"},
    {{4, 3, 0, 1, 0, 0}, BY_DAYS, 16, 2, 4, 0, {0}, "kind 4, start later"},
    {{4, 1, 0, 3, 0, 1}, BY_DAYS, 16, 2, 14, 0, {0}, "kind 4, excluded"},
    {{4, 1, 0, 3, 0, 0}, BY_DAYS, 0, 2, 11, 0, {0}, "kind 4, nothing lent"},
    {{1, 3, 0, 0, 0, 0}, BY_DAYS, 16, 3, 4, 0, {0}, "end day 0, start later"},
    {{1, 0, 0, 0, 0, 1}, BY_DAYS, 16, 3, 14, 0, {0}, "day 0 to day 0, excluded"},
    {{1, 0, 0, 3, 0, 0}, BY_DAYS, 0, 3, 11, 0, {0}, "day 0, nothing lent"},
    {{1, 3, 0, 1, 0, 1}, BY_DAYS, 16, 4, 0, 0, {0}, "start later, excluded"},
    {{1, 3, 0, 1, 0, 0}, BY_DAYS, 0, 4, 11, 0, {0}, "start later, nothing lent"},
    {{1, 3, 0, 3, 0, 1}, BY_DAYS, 0, 14, 11, 0, {0}, "the excluded end is the start, nothing lent"},

    /* All at once, then mended one by one. */
    {{9, 5, 1, 5, 0, 1}, NAMES "1 9 day 1\n1 9 day 1\nx", 0, 12, 15, 0, {0}, "all but 2"},
    {{9, 5, 1, 5, 0, 1}, NAMES "1 9 day 1\n1 9 day 1\n", 0, 15, 16, 0, {0}, "12 mended"},
    {{9, 5, 1, 5, 0, 1}, WITH_TWO, 0, 16, 1, 0, {0}, "15 mended"},
    {{9, 5, 1, 5, 0, 1}, BY_DAYS, 0, 1, 3, 0, {0}, "16 mended"},
    {{4, 5, 86400000000000, 5, 0, 1}, BY_DAYS, 0, 2, 3, 0, {0}, "1 mended, another kind"},
    {{1, 5, 1, 5, 0, 1}, BY_DAYS, 0, 3, 4, 0, {0}, "2 mended"},
    {{1, 6, 0, 5, 0, 1}, BY_DAYS, 0, 4, 11, 0, {0}, "3 mended"},
    {{1, 5, 0, 5, 0, 1}, BY_DAYS, 0, 14, 11, 0, {0}, "4 mended"},
    {{1, 5, 0, 6, 0, 1}, BY_DAYS, 0, 11, 0, 0, {0}, "14 mended"},
    {{1, 5, 0, 6, 0, 1}, BY_DAYS, 2, 0, 0, 1, {5, 0}, "11 mended"},
};

static const struct period {
    int64_t in[7], status, also, nanoseconds;
    const char *why;
} periods[] = {
    {{4, 1, 0, 12, 49599999999999, 0, 100}, 0, 0, 18000000000000, "10^15 - 1 ns, N 100: 5 h"},
    {{4, 1, 0, 12, 49600000000000, 0, 100}, 0, 0, 14400000000000, "10^15 ns, N 100: 4 h"},
    {{7, 0, 0, 999999, 999999999, 0, 100}, 0, 0, 18000000000000, "10^15 - 1 ns, N 100, kind 7"},
    {{7, -1, 999999999, 0, 4, 0, 1}, 0, 0, 5, "5 ns, N 1"},
    {{4, 5, 0, 5, 0, 0, 1}, 0, 0, 1, "an empty axis"},
    {{4, 1, 0, 2, 13599999999999, 0, 1}, 0, 0, 86400000000000, "10^14 - 1 ns, N 1: a day"},
    {{4, 1, 0, 2, 13600000000000, 0, 1}, -1, 0, 0, "10^14 ns, N 1: whole days are listed"},
    {{7, 0, 0, 100000, 0, 0, 1}, 0, 0, 86400000000000, "the same on kind 7: a day"},
    {{7, 0, 0, 100000, 0, 0, 4096}, 0, 0, 30000000000, "and N 4096"},
    {{7, -4000000000, 0, 4000000000, 0, 0, 1}, 0, 0, 8640000000000000000, "the longest period"},
    {{7, -5000000000, 0, 4223372036, 854775808, 0, 1}, -1, 0, 0, "beyond 64 bits, kind 7"},
    {{4, 1, 0, 3652059, 0, 0, 4096}, -1, 0, 0, "beyond 64 bits, kind 4"},
    {{0, 1, 0, 2, 0, 0, 1}, 1, 0, 0, "kind 0"},
    {{9, 1, 0, 2, 0, 0, 1}, 1, 0, 0, "kind 9"},
    {{260, 1, 0, 2, 0, 0, 1}, 1, 0, 0, "kind 4 in the low 8 bits"},
    {{1, 1, 0, 2, 0, 0, 1}, 2, 0, 0, "kind 1"},
    {{2, 1, 0, 2, 0, 0, 1}, 2, 0, 0, "kind 2"},
    {{3, 1, 0, 2, 0, 0, 1}, 2, 0, 0, "kind 3"},
    {{5, 1, 0, 2, 0, 0, 1}, 2, 0, 0, "kind 5"},
    {{6, 1, 0, 2, 0, 0, 1}, 2, 0, 0, "kind 6"},
    {{8, 1, 0, 2, 0, 0, 1}, 2, 0, 0, "kind 8"},
    {{8, 0, 0, 2, 0, 0, 1}, 2, 3, 0, "kind 8, start day 0"},
    {{4, 0, 0, 2, 0, 0, 1}, 3, 0, 0, "day 0 as start"},
    {{7, 0, 0, 0, 1000000000, 0, 1}, 3, 0, 0, "a whole second as tail"},
    {{4, 2, 1, 2, 0, 0, 1}, 4, 0, 0, "start 1 ns later"},
    {{4, 1, 0, 2, 0, 1, 1}, 14, 0, 0, "excluded, kind 4"},
    {{7, 0, 0, 1, 0, 1, 1}, 14, 0, 0, "excluded, kind 7"},
    {{4, 1, 0, 3652059, 0, -1, 1}, 14, 0, 0, "14 is asked before there is none"},
    {{7, 0, 0, 1, 0, 4294967296, 1}, 14, 0, 0, "by 0 in the low 32 bits"},
    {{4, 5, 0, 5, 0, INT64_MIN, 1}, 14, 0, 0, "the excluded end is the start"},
    {{1, 1, 0, 2, 0, 1, 1}, 2, 0, 0, "excluded on kind 1, which has no period"},
    {{7, 0, 0, 4000000000, 1, 0, 1}, 5, 0, 0, "the end 1 ns past the bound"},
    {{4, 1, 0, 2, 0, 0, 0}, 6, 0, 0, "N 0"},
    {{4, 1, 0, 2, 0, 0, 4096}, 0, 0, 30000000000, "the largest N"},
    {{4, 1, 0, 2, 0, 0, 4097}, 6, 0, 0, "one more"},
    {{7, 0, 0, 1, 0, 0, -1}, 6, 0, 0, "N -1"},
    {{7, 0, 0, 1, 0, 0, 4294967297}, 6, 0, 0, "N 1 in the low 32 bits"},
    {{4, 1, 0, 3652059, 0, 0, 0}, 6, 0, 0, "6 is asked before there is none"},

    {{9, 0, 0, 2, 0, 0, 1}, 1, 3, 0, "no kind, start day 0"},
    {{9, 2, 0, 1, 0, 0, 1}, 1, 4, 0, "no kind, start later"},
    {{9, 1, 0, 2, 0, 0, 0}, 1, 6, 0, "no kind, N 0"},
    {{9, 1, 0, 2, 0, 1, 1}, 1, 14, 0, "no kind, excluded"},
    {{2, 0, 0, 2, 0, 0, 1}, 2, 3, 0, "kind 2, start day 0"},
    {{5, 1, 0, 2, 0, 1, 1}, 2, 14, 0, "kind 5, excluded"},
    {{4, 0, 0, 2, 0, 1, 1}, 3, 14, 0, "start day 0, excluded"},
    {{4, 2, 0, 1, 0, 1, 1}, 4, 14, 0, "start later, excluded"},
    {{7, 0, 0, 4000000000, 1, 1, 1}, 14, 5, 0, "excluded, end too far"},
    {{4, 1, 0, 2, 0, 1, 0}, 14, 6, 0, "excluded, N 0"},
    {{2, 2, 0, 1, 0, 0, 1}, 2, 4, 0, "kind 2, start later"},
    {{2, 1, 0, 2, 0, 0, 4097}, 2, 6, 0, "kind 2, N too large"},
    {{4, 2, 0, 0, 0, 0, 1}, 3, 4, 0, "end day 0, start later"},
    {{7, 0, 0, 4000000000, 1000000000, 0, 1}, 3, 5, 0, "the end's tail too large, the end too far"},
    {{4, 0, 0, 2, 0, 0, 0}, 3, 6, 0, "start day 0, N 0"},
    {{7, 4000000002, 0, 4000000001, 0, 0, 1}, 4, 5, 0, "start later, both too far"},
    {{4, 2, 0, 1, 0, 0, 0}, 4, 6, 0, "start later, N 0"},
    {{7, 0, 0, 4000000000, 1, 0, 0}, 5, 6, 0, "end too far, N 0"},
};

/* The operations on indices and segments, a bit each: a refusal is often asked of several that take the same numbers. */
enum { UNMAP = 1, SIZE = 2, INDEX_OF = 4, FROM_INDEX = 8, NEXT = 16, PREVIOUS = 32, VALUES = 64 };
enum { SEGMENT_MAP = 128, SEGMENT_SIZE = 256, SEGMENT_INDEX_OF = 512, SEGMENT_FROM_INDEX = 1024 };
enum { BY_VALUE = INDEX_OF | NEXT | PREVIOUS, BY_INDEX = FROM_INDEX | VALUES };
enum { SEGMENTS = SEGMENT_MAP | SEGMENT_SIZE | SEGMENT_INDEX_OF | SEGMENT_FROM_INDEX };

/* What all four on segments take: limits 3 and 9 and the exact day 1; the last one, with 9 and 1 beside it; index 3. */
#define FOR_SEGMENTS 3, 9, 1, 1, 0

/* 9999-12-31 10:00 to 12:00: its ceiling is the day after the last; January 1 of the year 1 has index 0, February 1 has 1. */
#define LAST_NOON 3652059, 36000000000000, 3652059, 43200000000000, 0
#define LAST_NOON_REVERSED 3652059, 43200000000000, 3652059, 36000000000000, 0
#define LAST_NOON_SPOILT 3652059, 36000000000000, 3652059, 86400000000000, 0
#define LAST_NOON_EMPTY 3652059, 36000000000000, 3652059, 36000000000000, 0
#define LAST_NOON_EXCLUDED 3652059, 36000000000000, 3652059, 43200000000000, 1

/* The numbers as the operation takes them after the axis: low, high, pixel; nothing; a value; an index or place; low, high, a
   segment and its value; a segment and its value. */
static const struct asking {
    int operations;
    int64_t in[11], status, also, out[3];
    const char *why;
} askings[] = {
    /* Accepted ones. 737850 is 2021-03-01, 737425 is 2020-01-01, 737880 is 2021-03-31, 738155 is 2021-12-31. */
    {UNMAP, {1, 737850, 0, 737859, 0, 0, 0, 100, 100}, 0, 0, {737860, 0}, "the high limit: one past the last"},
    {UNMAP, {1, 737850, 0, 737859, 0, 0, 0, 100, 99}, 0, 0, {737859, 0}, "beside it: the last"},
    {UNMAP, {1, 737850, 0, 737859, 0, 0, 0, 100, -1}, 0, 0, {737850, 0}, "below 0 is index 0"},
    {UNMAP, {1, 737850, 0, 737859, 0, 0, 100, 0, 1}, 0, 0, {737859, 0}, "swapped limits"},
    {UNMAP, {4, 1, 0, 2, 0, 0, 0, 100, 50}, 0, 0, {1, 43200000000000}, "the middle of a day"},
    {UNMAP, {4, 1, 0, 2, 0, 0, 0, 100, 101}, 0, 0, {2, 864000000000}, "past the end"},
    {UNMAP, {4, 1, 5, 2, 0, 0, 100, 0, 50}, 0, 0, {1, 5}, "swapped limits, a span under a day: the start"},
    {UNMAP, {5, 737880, 36000000000000, 737880, 43200000000000, 0, 0, 100, 50}, 0, 0, {737881, 0}, "size 0: index 0"},
    {UNMAP, {8, 737850, 0, 737863, 0, 0, 0, 100, 49}, 0, 0, {737850, 0}, "two weeks: the first"},
    {UNMAP, {8, 737850, 0, 737863, 0, 0, 0, 100, 50}, 0, 0, {737857, 0}, "the second"},
    {UNMAP, {8, 737850, 0, 737863, 0, 0, 0, 100, 100}, 0, 0, {737864, 0}, "the high limit: the Monday past them"},
    {UNMAP, {8, 737852, 0, 737863, 0, 0, 0, 100, -1}, 0, 0, {737852, 0}, "from Wednesday: index 0 is the start"},
    {UNMAP, {8, 737852, 0, 737863, 0, 0, 100, 0, 50}, 0, 0, {737857, 0}, "then Mondays; swapped limits"},
    {SIZE, {8, 1, 0, 7, 0, 0}, 0, 0, {1}, "one week"},
    {SIZE, {8, 7, 0, 8, 0, 0}, 0, 0, {2}, "Sunday and Monday: two"},
    {SIZE, {8, 1, 0, 3652059, 0, 0}, 0, 0, {521723}, "all weeks"},
    {INDEX_OF, {8, 10, 0, 30, 0, 0, 8, 0}, 0, 0, {0}, "from Wednesday: the Monday before the start"},
    {INDEX_OF, {8, 10, 0, 30, 0, 0, 7, 0}, -1, 0, {0}, "the Sunday before that: none"},
    {INDEX_OF, {8, 10, 0, 30, 0, 0, 14, 0}, 0, 0, {0}, "the Sunday of the start's week"},
    {INDEX_OF, {8, 10, 0, 30, 0, 0, 15, 0}, 0, 0, {1}, "the Monday after it"},
    {INDEX_OF, {8, 10, 0, 30, 0, 0, 40, 0}, 0, 0, {4}, "past the end, kind 8"},
    {INDEX_OF, {8, 1, 0, 2, 0, 0, 3652059, 0}, 0, 0, {521722}, "the last week"},
    {FROM_INDEX, {8, 10, 0, 30, 0, 0, 0}, 0, 0, {10, 0}, "index 0, kind 8: the start, a Wednesday"},
    {FROM_INDEX, {8, 10, 0, 30, 0, 0, 1}, 0, 0, {15, 0}, "then Mondays"},
    {FROM_INDEX, {8, 10, 0, 30, 0, 0, 4}, 0, 0, {36, 0}, "past the end, kind 8"},
    {FROM_INDEX, {8, 1, 0, 2, 0, 0, 521722}, 0, 0, {3652055, 0}, "the last Monday"},
    {NEXT, {8, 10, 0, 30, 0, 0, 8, 0}, 0, 0, {15, 0}, "from the start's Monday"},
    {NEXT, {8, 10, 0, 30, 0, 0, 28, 0}, 0, 0, {29, 0}, "to the last week"},
    {NEXT, {8, 10, 0, 30, 0, 0, 29, 0}, -1, 0, {0}, "after the last week: none"},
    {NEXT, {8, 10, 0, 30, 0, 0, 7, 0}, -1, 0, {0}, "before the start's week: none"},
    {PREVIOUS, {8, 10, 0, 30, 0, 0, 15, 0}, 0, 0, {10, 0}, "to the start, a Wednesday"},
    {PREVIOUS, {8, 10, 0, 30, 0, 0, 14, 0}, -1, 0, {0}, "in the start's week: none"},
    {PREVIOUS, {8, 10, 0, 30, 0, 0, 7, 0}, -1, 0, {0}, "before the start's week: none"},
    {PREVIOUS, {8, 10, 0, 30, 0, 0, 3652059, 0}, 0, 0, {3652048, 0}, "from past the end, kind 8"},
    {VALUES, {8, 10, 0, 15, 0, 0, 0}, 0, 0, {10, 0, 1}, "the start, kind 8"},
    {VALUES, {8, 10, 0, 15, 0, 0, 1}, 0, 0, {15, 0, 2}, "the last, kind 8"},
    {VALUES, {8, 10, 0, 15, 0, 0, 2}, -1, 0, {0, 0, 2}, "at the size, kind 8: none"},
    {SIZE, {1, 5, 0, 5, 0, 0}, 0, 0, {1}, "one day"},
    {SIZE, {2, 1, 0, 60, 0, 0}, 0, 0, {3}, "three months"},
    {SIZE, {3, 365, 0, 366, 0, 0}, 0, 0, {2}, "two years"},
    {SIZE, {5, 738155, 36000000000000, 738155, 43200000000000, 0}, 0, 0, {12}, "2021-12-31 10:00 to 12:00: 12"},
    {SIZE, {5, 737880, 36000000000000, 737880, 43200000000000, 0}, 0, 0, {0}, "2021-03-31 10:00 to 12:00: 0"},
    {SIZE, {5, LAST_NOON}, 0, 0, {12}, "9999-12-31 10:00 to 12:00: 12"},
    {SIZE, {6, LAST_NOON}, 0, 0, {0}, "the same in years: 0"},
    {INDEX_OF, {1, 5, 0, 9, 0, 0, 11, 0}, 0, 0, {6}, "past the end"},
    {INDEX_OF, {1, 5, 0, 9, 0, 0, 4, 0}, -1, 0, {0}, "before the start: none"},
    {INDEX_OF, {2, 737425, 0, 737800, 0, 0, 737424, 0}, 0, 0, {11}, "an earlier year counts as the start's"},
    {INDEX_OF, {2, 60, 0, 800, 0, 0, 32, 0}, -1, 0, {0}, "an earlier month of it: none"},
    {INDEX_OF, {3, 737425, 0, 737800, 0, 0, 737424, 0}, -1, 0, {0}, "kind 3, an earlier year: none"},
    {INDEX_OF, {5, 737880, 36000000000000, 737880, 43200000000000, 0, 737880, 36000000000000}, -1, 0, {0}, "size 0: none"},
    {INDEX_OF, {5, LAST_NOON, 3652059, 36000000000000}, 0, 0, {11}, "the start before its ceiling's year: 11"},
    {FROM_INDEX, {1, 1, 0, 2, 0, 0, 3652058}, 0, 0, {3652059, 0}, "the last day, past the end"},
    {FROM_INDEX, {2, 15, 0, 60, 0, 0, 0}, 0, 0, {15, 0}, "index 0, kind 2: the start"},
    {FROM_INDEX, {2, 15, 0, 60, 0, 0, 1}, 0, 0, {32, 0}, "then firsts"},
    {FROM_INDEX, {5, 15, 500000000, 60, 0, 0, 0}, 0, 0, {15, 0}, "index 0, kind 5: midnight of the ceiling"},
    {FROM_INDEX, {6, 15, 500000000, 60, 0, 0, 0}, 0, 0, {15, 500000000}, "index 0, kind 6: the start with its tail"},
    {FROM_INDEX, {6, 365, 1000000000, 800, 0, 0, 0}, 0, 0, {366, 0}, "unless January 1 of the ceiling's year is later"},
    {NEXT, {1, 5, 0, 9, 0, 0, 8, 0}, 0, 0, {9, 0}, "to the last"},
    {NEXT, {1, 5, 0, 9, 0, 0, 9, 0}, -1, 0, {0}, "after the last: none"},
    {NEXT, {1, 5, 0, 9, 0, 0, 4, 0}, -1, 0, {0}, "before the start: none"},
    {PREVIOUS, {1, 5, 0, 9, 0, 0, 6, 0}, 0, 0, {5, 0}, "to the first"},
    {PREVIOUS, {1, 5, 0, 9, 0, 0, 5, 0}, -1, 0, {0}, "before the first: none"},
    {PREVIOUS, {1, 5, 0, 9, 0, 0, 3652059, 0}, 0, 0, {3652058, 0}, "from past the end"},
    {VALUES, {1, 5, 0, 6, 0, 0, 0}, 0, 0, {5, 0, 1}, "the first"},
    {VALUES, {1, 5, 0, 6, 0, 0, 1}, 0, 0, {6, 0, 2}, "the last"},
    {VALUES, {1, 5, 0, 6, 0, 0, 2}, -1, 0, {0, 0, 2}, "at the size: none, next is the place"},
    {VALUES, {1, 5, 0, 6, 0, 0, 3652059}, -1, 0, {0, 0, 3652059}, "the largest place"},

    /* The end excluded: by the days before it. 737881 is 2021-04-01, 738156 is 2022-01-01. */
    {UNMAP, {1, 737850, 0, 737860, 0, 1, 0, 100, 99}, 0, 0, {737859, 0}, "the last day under a pixel"},
    {UNMAP, {1, 737850, 0, 737860, 0, 1, 0, 100, 100}, 0, 0, {737860, 0}, "the high limit: the excluded end"},
    {UNMAP, {1, 737850, 0, 737860, 0, INT64_MIN, 100, 0, 1}, 0, 0, {737859, 0}, "swapped limits"},
    {UNMAP, {2, 737791, 0, 737881, 0, 1, 0, 90, 60}, 0, 0, {737850, 0}, "three months: the third"},
    {UNMAP, {8, 737850, 0, 737864, 0, 1, 0, 100, 50}, 0, 0, {737857, 0}, "two weeks: the second"},
    {UNMAP, {1, 1, 0, 3652059, 0, 1, 0, 1, 1}, 0, 0, {3652059, 0}, "one past all days but the last: the last"},
    {SIZE, {1, 1, 0, 4, 0, 1}, 0, 0, {3}, "three days"},
    {SIZE, {1, 5, 0, 6, 0, -1}, 0, 0, {1}, "one day"},
    {SIZE, {1, 1, 0, 3652059, 0, 1}, 0, 0, {3652058}, "all days but the last"},
    {SIZE, {2, 737791, 0, 737881, 0, 1}, 0, 0, {3}, "1 January to 1 April: three months"},
    {SIZE, {2, 737791, 0, 737882, 0, 1}, 0, 0, {4}, "to 2 April: four"},
    {SIZE, {2, 737791, 0, 737881, 0, 256}, 0, 0, {3}, "by 0 in the low 8 bits"},
    {SIZE, {2, 737791, 0, 737881, 0, 4294967296}, 0, 0, {3}, "by 0 in the low 32 bits"},
    {SIZE, {2, 737791, 0, 737881, 0, INT64_MAX}, 0, 0, {3}, "by the largest number"},
    {SIZE, {3, 737791, 0, 738156, 0, 1}, 0, 0, {1}, "one year"},
    {SIZE, {8, 1, 0, 8, 0, 1}, 0, 0, {1}, "Monday to Monday: one week"},
    {SIZE, {8, 1, 0, 9, 0, 1}, 0, 0, {2}, "to Tuesday: two"},
    {INDEX_OF, {1, 1, 0, 4, 0, 1, 3, 0}, 0, 0, {2}, "the last day"},
    {INDEX_OF, {1, 1, 0, 4, 0, 1, 4, 0}, 0, 0, {3}, "the excluded end: past the last"},
    {FROM_INDEX, {1, 1, 0, 4, 0, 1, 3}, 0, 0, {4, 0}, "past the last: the excluded end"},
    {FROM_INDEX, {1, 1, 0, 3652059, 0, 1, 3652059}, 10, 0, {0}, "a day after the last"},
    {NEXT, {1, 5, 0, 9, 0, 1, 7, 0}, 0, 0, {8, 0}, "to the last"},
    {NEXT, {1, 5, 0, 9, 0, 1, 8, 0}, -1, 0, {0}, "the excluded end is no next one"},
    {NEXT, {2, 737791, 0, 737881, 0, 1, 737850, 0}, -1, 0, {0}, "after March: none"},
    {NEXT, {8, 1, 0, 8, 0, 1, 1, 0}, -1, 0, {0}, "after the only week: none"},
    {PREVIOUS, {1, 5, 0, 9, 0, 1, 9, 0}, 0, 0, {8, 0}, "from the excluded end"},
    {VALUES, {1, 5, 0, 7, 0, 1, 1}, 0, 0, {6, 0, 2}, "the last"},
    {VALUES, {1, 5, 0, 7, 0, 1, 2}, -1, 0, {0, 0, 2}, "the excluded end is no value"},

    /* 1 and 2: the kind. */
    {UNMAP | SIZE | BY_VALUE | BY_INDEX, {0, 1, 0, 2, 0, 0, 1, 0}, 1, 0, {0}, "kind 0"},
    {UNMAP | SIZE | BY_VALUE | BY_INDEX, {9, 1, 0, 2, 0, 0, 1, 0}, 1, 0, {0}, "kind 9"},
    {UNMAP | SIZE | BY_VALUE | BY_INDEX, {4294967297, 1, 0, 2, 0, 0, 1, 0}, 1, 0, {0}, "kind 1 in the low 32 bits"},
    {UNMAP | SIZE | BY_VALUE | BY_INDEX, {7, 1, 0, 2, 0, 0, 1, 0}, 2, 0, {0}, "kind 7"},
    {SIZE | BY_VALUE | BY_INDEX, {4, 1, 0, 2, 0, 0, 1, 0}, 2, 0, {0}, "kind 4"},

    /* 3 and 4: start and end. */
    {UNMAP | SIZE | BY_VALUE | BY_INDEX, {1, 0, 0, 2, 0, 0, 1, 0}, 3, 0, {0}, "day 0 as start"},
    {UNMAP | SIZE | BY_VALUE | BY_INDEX, {2, 1, 0, 3652060, 0, 0, 1, 0}, 3, 0, {0}, "10000-01-01 as end"},
    {UNMAP | SIZE | BY_VALUE | BY_INDEX, {3, 1, 1, 2, 0, 0, 1, 0}, 3, 0, {0}, "a date with a tail"},
    {UNMAP | SIZE | BY_VALUE | BY_INDEX, {6, 1, 0, 2, 86400000000000, 0, 1, 0}, 3, 0, {0}, "24:00 as end"},
    {UNMAP | SIZE | BY_VALUE | BY_INDEX, {8, 1, 0, 3652060, 0, 0, 1, 0}, 3, 0, {0}, "10000-01-01 as end, kind 8"},
    {UNMAP | SIZE | BY_VALUE | BY_INDEX, {8, 1, 1, 2, 0, 0, 1, 0}, 3, 0, {0}, "a date with a tail, kind 8"},
    {UNMAP | SIZE | BY_VALUE | BY_INDEX, {1, 2, 0, 1, 0, 0, 1, 0}, 4, 0, {0}, "start later"},
    {UNMAP | SIZE | BY_VALUE | BY_INDEX, {8, 2, 0, 1, 0, 0, 1, 0}, 4, 0, {0}, "start later in its week"},
    {UNMAP | SIZE | BY_VALUE | BY_INDEX, {5, 1, 1, 1, 0, 0, 1, 0}, 4, 0, {0}, "start 1 ns later"},

    /* 14: the excluded end. */
    {UNMAP, {4, 1, 0, 2, 0, 1, 1, 0}, 14, 0, {0}, "excluded, kind 4"},
    {UNMAP | SIZE | BY_VALUE | BY_INDEX, {5, 1, 0, 2, 0, 1, 1, 0}, 14, 0, {0}, "excluded, kind 5"},
    {UNMAP | SIZE | BY_VALUE | BY_INDEX, {6, 1, 0, 2, 0, 1, 1, 0}, 14, 0, {0}, "excluded, kind 6"},
    {UNMAP | SIZE | BY_VALUE | BY_INDEX, {5, 1, 0, 2, 0, -1, 1, 0}, 14, 0, {0}, "by -1"},
    {UNMAP | SIZE | BY_VALUE | BY_INDEX, {5, 1, 0, 2, 0, 256, 1, 0}, 14, 0, {0}, "by 0 in the low 8 bits"},
    {UNMAP | SIZE | BY_VALUE | BY_INDEX, {6, 1, 0, 2, 0, 4294967296, 1, 0}, 14, 0, {0}, "by 0 in the low 32 bits"},
    {UNMAP | SIZE | BY_VALUE | BY_INDEX, {6, 1, 0, 2, 0, INT64_MIN, 1, 0}, 14, 0, {0}, "by the least number"},
    {UNMAP | SIZE | BY_VALUE | BY_INDEX, {1, 5, 0, 5, 0, 1, 1, 0}, 14, 0, {0}, "the excluded end is the start, kind 1"},
    {UNMAP | SIZE | BY_VALUE | BY_INDEX, {2, 5, 0, 5, 0, 1, 1, 0}, 14, 0, {0}, "kind 2"},
    {UNMAP | SIZE | BY_VALUE | BY_INDEX, {3, 5, 0, 5, 0, INT64_MAX, 1, 0}, 14, 0, {0}, "kind 3"},
    {UNMAP | SIZE | BY_VALUE | BY_INDEX, {8, 5, 0, 5, 0, 2, 1, 0}, 14, 0, {0}, "kind 8"},
    {UNMAP | SIZE | BY_VALUE | BY_INDEX, {5, 5, 1, 5, 1, 1, 1, 0}, 14, 0, {0}, "kind 5"},

    /* 7: limits and pixel. */
    {UNMAP, {1, 1, 0, 2, 0, 0, 5, 5, 5}, 7, 0, {0}, "equal limits"},
    {UNMAP, {4, 1, 0, 2, 0, 0, 5, 5, 5}, 7, 0, {0}, "equal limits, kind 4"},
    {UNMAP, {8, 1, 0, 2, 0, 0, 5, 5, 5}, 7, 0, {0}, "equal limits, kind 8"},
    {UNMAP, {1, 1, 0, 2, 0, 0, -32768, 0, 0}, 7, 0, {0}, "low one less"},
    {UNMAP, {1, 1, 0, 2, 0, 0, 0, 32768, 0}, 7, 0, {0}, "high one more"},
    {UNMAP, {1, 1, 0, 2, 0, 0, 0, 1, 32768}, 7, 0, {0}, "the pixel one more"},
    {UNMAP, {1, 1, 0, 2, 0, 0, 0, 1, 4294967296}, 7, 0, {0}, "pixel 0 in its low 32 bits"},
    {UNMAP, {1, 1, 0, 2, 0, 0, 32767, -32767, -32767}, 0, 0, {3, 0}, "the largest and the least"},

    /* 8: the value, the index, the place. */
    {BY_VALUE, {1, 1, 0, 2, 0, 0, 0, 0}, 8, 0, {0}, "day 0"},
    {BY_VALUE, {1, 1, 0, 2, 0, 0, 3652060, 0}, 8, 0, {0}, "10000-01-01"},
    {BY_VALUE, {2, 1, 0, 2, 0, 0, 1, 1}, 8, 0, {0}, "a date with a tail"},
    {BY_VALUE, {5, 1, 0, 2, 0, 0, 1, 86400000000000}, 8, 0, {0}, "24:00"},
    {BY_VALUE, {8, 1, 0, 2, 0, 0, 0, 0}, 8, 0, {0}, "day 0, kind 8"},
    {BY_VALUE, {8, 1, 0, 2, 0, 0, 1, 1}, 8, 0, {0}, "a date with a tail, kind 8"},
    {BY_INDEX, {8, 1, 0, 2, 0, 0, -1}, 8, 0, {0}, "-1, kind 8"},
    {BY_INDEX, {8, 1, 0, 2, 0, 0, 3652060}, 8, 0, {0}, "one more than the largest, kind 8"},
    {BY_INDEX, {1, 1, 0, 2, 0, 0, -1}, 8, 0, {0}, "-1"},
    {BY_INDEX, {1, 1, 0, 2, 0, 0, 3652060}, 8, 0, {0}, "one more than the largest"},
    {BY_INDEX, {1, 1, 0, 2, 0, 0, 4294967296}, 8, 0, {0}, "0 in its low 32 bits"},
    {BY_INDEX, {1, 1, 0, 2, 0, 0, INT64_MIN}, 8, 0, {0}, "the least number"},

    /* 10: a date that is no day of 3. */
    {FROM_INDEX, {1, 1, 0, 2, 0, 0, 3652059}, 10, 0, {0}, "a day after the last"},
    {FROM_INDEX, {2, 3652059, 0, 3652059, 0, 0, 1}, 10, 0, {0}, "10000-01"},
    {FROM_INDEX, {3, 3652059, 0, 3652059, 0, 0, 1}, 10, 0, {0}, "the year 10000"},
    {FROM_INDEX, {3, 1, 0, 2, 0, 0, 3652059}, 10, 0, {0}, "a year that chrono has not"},
    {FROM_INDEX, {8, 1, 0, 2, 0, 0, 521723}, 10, 0, {0}, "the Monday after the last"},
    {FROM_INDEX, {8, 3652059, 0, 3652059, 0, 0, 0}, 0, 0, {3652059, 0}, "the last day, a Friday"},
    {FROM_INDEX, {8, 3652059, 0, 3652059, 0, 0, 1}, 10, 0, {0}, "the Monday after it"},
    {FROM_INDEX, {8, 1, 0, 2, 0, 0, 3652059}, 10, 0, {0}, "the largest index, kind 8"},
    {UNMAP, {8, 1, 0, 3652059, 0, 0, 0, 1, 1}, 10, 0, {0}, "one past the last week"},
    {FROM_INDEX, {6, LAST_NOON, 0}, 10, 0, {0}, "the ceiling's year"},
    {BY_INDEX, {5, LAST_NOON, 0}, 10, 0, {0}, "the ceiling itself"},
    {NEXT, {5, LAST_NOON, 1, 0}, 10, 0, {0}, "10000-02-01"},
    {PREVIOUS, {5, LAST_NOON, 32, 0}, 10, 0, {0}, "the ceiling itself"},
    {UNMAP, {5, LAST_NOON, 0, 12, 0}, 10, 0, {0}, "index 0 is the ceiling"},
    {UNMAP, {1, 1, 0, 3652059, 0, 0, 0, 1, 1}, 10, 0, {0}, "one past the last day"},
    {UNMAP, {2, 1, 0, 3652059, 0, 0, -32767, -32766, 3028}, 10, 0, {0}, "an index that 32 bits would cut to a real month"},
    {UNMAP, {4, 1, 0, 2, 0, 0, 0, 1, -1}, 10, 0, {0}, "day 0"},
    {UNMAP, {4, 3652058, 0, 3652059, 0, 0, 0, 1, 2}, 10, 0, {0}, "10000-01-01, midnight"},
    {UNMAP, {4, 1, 0, 3652059, 0, 0, 0, 1, 32767}, 10, 0, {0}, "days that chrono has not"},

    /* Two at once. */
    {UNMAP | SIZE | BY_VALUE | BY_INDEX, {9, 0, 0, 2, 0, 0, 1, 0}, 1, 3, {0}, "no kind, start day 0"},
    {UNMAP | SIZE | BY_VALUE | BY_INDEX, {9, 2, 0, 1, 0, 0, 1, 0}, 1, 4, {0}, "no kind, start later"},
    {UNMAP | SIZE | BY_VALUE | BY_INDEX, {9, 1, 0, 2, 0, 1, 1, 0}, 1, 14, {0}, "no kind, excluded"},
    {UNMAP, {9, 1, 0, 2, 0, 0, 5, 5, 5}, 1, 7, {0}, "no kind, equal limits"},
    {BY_VALUE, {9, 1, 0, 2, 0, 0, 1, -1}, 1, 8, {0}, "no kind, a value of no kind"},
    {BY_INDEX, {9, 1, 0, 2, 0, 0, -1}, 1, 8, {0}, "no kind, index -1"},
    {UNMAP, {9, LAST_NOON, 0, 12, 0}, 1, 10, {0}, "no kind, no date"},
    {NEXT, {9, LAST_NOON, 1, 0}, 1, 10, {0}, "no kind, no date"},
    {PREVIOUS, {9, LAST_NOON, 32, 0}, 1, 10, {0}, "no kind, no date"},
    {BY_INDEX, {9, LAST_NOON, 0}, 1, 10, {0}, "no kind, no date"},
    {UNMAP | SIZE | BY_VALUE | BY_INDEX, {7, 0, -1, 2, 0, 0, 1, 0}, 2, 3, {0}, "kind 7, a tail below 0"},
    {UNMAP | SIZE | BY_VALUE | BY_INDEX, {7, 2, 0, 1, 0, 0, 1, 0}, 2, 4, {0}, "kind 7, start later"},
    {UNMAP | SIZE | BY_VALUE | BY_INDEX, {7, 1, 0, 2, 0, 1, 1, 0}, 2, 14, {0}, "kind 7, excluded"},
    {SIZE | BY_VALUE | BY_INDEX, {4, 5, 0, 5, 0, 1, 1, 0}, 2, 14, {0}, "kind 4, excluded"},
    {UNMAP, {7, 1, 0, 2, 0, 0, 5, 5, 5}, 2, 7, {0}, "kind 7, equal limits"},
    {BY_VALUE, {4, 1, 0, 2, 0, 0, 1, -1}, 2, 8, {0}, "kind 4, a value of no kind"},
    {BY_INDEX, {4, 1, 0, 2, 0, 0, -1}, 2, 8, {0}, "kind 4, index -1"},
    {UNMAP, {7, 1, 0, 2, 0, 0, 0, 1, -1}, 2, 10, {0}, "kind 7, day 0 if it were 4"},
    {NEXT, {4, LAST_NOON, 1, 0}, 2, 10, {0}, "kind 4, no date if it were 5"},
    {PREVIOUS, {4, LAST_NOON, 32, 0}, 2, 10, {0}, "kind 4, no date if it were 5"},
    {BY_INDEX, {4, LAST_NOON, 0}, 2, 10, {0}, "kind 4, no date if it were 5"},
    {UNMAP | SIZE | BY_VALUE | BY_INDEX, {1, 2, 0, 0, 0, 0, 1, 0}, 3, 4, {0}, "end day 0, start later"},
    {UNMAP | SIZE | BY_VALUE | BY_INDEX, {5, 0, 0, 2, 0, 1, 1, 0}, 3, 14, {0}, "start day 0, excluded on kind 5"},
    {UNMAP | SIZE | BY_VALUE | BY_INDEX, {1, 3652060, 0, 3652060, 0, 1, 1, 0}, 3, 14, {0}, "10000-01-01 to itself, excluded"},
    {UNMAP | SIZE | BY_VALUE | BY_INDEX, {1, 1, 0, 3652060, 0, 1, 1, 0}, 3, 0, {0}, "10000-01-01 as excluded end"},
    {UNMAP, {1, 0, 0, 2, 0, 0, 5, 5, 5}, 3, 7, {0}, "start day 0, equal limits"},
    {BY_VALUE, {1, 0, 0, 2, 0, 0, 0, 0}, 3, 8, {0}, "start day 0, value day 0"},
    {BY_INDEX, {1, 0, 0, 2, 0, 0, -1}, 3, 8, {0}, "start day 0, index -1"},
    {UNMAP, {5, LAST_NOON_SPOILT, 0, 12, 0}, 3, 10, {0}, "24:00 as end, no date"},
    {NEXT, {5, LAST_NOON_SPOILT, 1, 0}, 3, 10, {0}, "24:00 as end, no date"},
    {PREVIOUS, {5, LAST_NOON_SPOILT, 32, 0}, 3, 10, {0}, "24:00 as end, no date"},
    {BY_INDEX, {5, LAST_NOON_SPOILT, 0}, 3, 10, {0}, "24:00 as end, no date"},
    {UNMAP | SIZE | BY_VALUE | BY_INDEX, {5, 2, 0, 1, 0, 1, 1, 0}, 4, 14, {0}, "start later, excluded on kind 5"},
    {UNMAP | SIZE | BY_VALUE | BY_INDEX, {1, 2, 0, 1, 0, 1, 1, 0}, 4, 0, {0}, "start later, excluded on kind 1"},
    {UNMAP, {1, 2, 0, 1, 0, 0, 5, 5, 5}, 4, 7, {0}, "start later, equal limits"},
    {BY_VALUE, {1, 2, 0, 1, 0, 0, 0, 0}, 4, 8, {0}, "start later, value day 0"},
    {BY_INDEX, {1, 2, 0, 1, 0, 0, -1}, 4, 8, {0}, "start later, index -1"},
    {UNMAP, {5, LAST_NOON_REVERSED, 0, 12, 0}, 4, 10, {0}, "start later, no date"},
    {NEXT, {5, LAST_NOON_REVERSED, 1, 0}, 4, 10, {0}, "start later, no date"},
    {PREVIOUS, {5, LAST_NOON_REVERSED, 32, 0}, 4, 10, {0}, "start later, no date"},
    {BY_INDEX, {5, LAST_NOON_REVERSED, 0}, 4, 10, {0}, "start later, no date"},
    {UNMAP, {1, 5, 0, 5, 0, 1, 5, 5, 5}, 14, 7, {0}, "the excluded end is the start, equal limits"},
    {UNMAP, {4, 1, 0, 2, 0, 1, 5, 5, 5}, 14, 7, {0}, "excluded on kind 4, equal limits"},
    {BY_VALUE, {1, 5, 0, 5, 0, 1, 0, 0}, 14, 8, {0}, "the excluded end is the start, value day 0"},
    {BY_INDEX, {8, 5, 0, 5, 0, 1, -1}, 14, 8, {0}, "the same, kind 8, index -1"},
    {UNMAP, {5, LAST_NOON_EXCLUDED, 0, 12, 0}, 14, 10, {0}, "excluded on kind 5, no date"},
    {NEXT, {5, LAST_NOON_EXCLUDED, 1, 0}, 14, 10, {0}, "excluded on kind 5, no date"},
    {PREVIOUS, {5, LAST_NOON_EXCLUDED, 32, 0}, 14, 10, {0}, "excluded on kind 5, no date"},
    {BY_INDEX, {5, LAST_NOON_EXCLUDED, 0}, 14, 10, {0}, "excluded on kind 5, no date"},
    {UNMAP, {4, 1, 0, 2, 0, 0, 0, 1, -32768}, 7, 10, {0}, "the pixel one less, no date"},
    {NEXT, {5, LAST_NOON, 1, -1}, 8, 10, {0}, "the value's tail below 0, no date"},
    {PREVIOUS, {5, LAST_NOON, 32, -1}, 8, 10, {0}, "the value's tail below 0, no date"},
    {BY_INDEX, {1, 1, 0, 3652059, 0, 0, 3652060}, 8, 10, {0}, "an index too large, no date"},

    /* Segments, accepted. 2021-03-01 to 03-03: the margin is 33, the days are mapped to 0 to 67. */
    {SEGMENT_MAP, {1, 737850, 0, 737852, 0, 0, 0, 100, 2, 737850, 0}, 0, 0, {16}, "the centre of the first"},
    {SEGMENT_MAP, {1, 737850, 0, 737852, 0, 0, 0, 100, 1, 737852, 0}, 0, 0, {67}, "the last day"},
    {SEGMENT_MAP, {1, 737850, 0, 737852, 0, 0, 0, 100, 2, 737852, 0}, 0, 0, {83}, "its centre: half of the margin more"},
    {SEGMENT_MAP, {1, 737850, 0, 737852, 0, 0, 0, 100, 3, 0, 0}, 0, 0, {100}, "the last segment"},
    {SEGMENT_MAP, {1, 737850, 0, 737852, 0, 0, 0, 100, 3, INT64_MIN, INT64_MAX}, 0, 0, {100}, "with junk beside it"},
    {SEGMENT_MAP, {1, 1, 0, 2, 0, 0, 0, 5, 1, 2, 0}, 0, 0, {2}, "a margin of 5/2 is 3"},
    {SEGMENT_MAP, {1, 1, 0, 2, 0, 0, 0, 5, 2, 2, 0}, 0, 0, {3}, "its half is 1"},
    {SEGMENT_MAP, {1, 1, 0, 2, 0, 0, 5, 0, 1, 2, 0}, 0, 0, {3}, "a margin of -5/2 is -3"},
    {SEGMENT_MAP, {1, 1, 0, 2, 0, 0, 5, 0, 2, 2, 0}, 0, 0, {2}, "its half is -1"},
    {SEGMENT_MAP, {1, 1, 0, 2, 0, 0, -3, 0, 2, 1, 0}, 0, 0, {-2}, "-3 and -2: half of -5 is -2"},
    {SEGMENT_MAP, {1, 5, 0, 5, 0, 0, 7, 10, 1, 5, 0}, 0, 0, {7}, "one day"},
    {SEGMENT_MAP, {1, 5, 0, 5, 0, 0, 7, 10, 2, 5, 0}, 0, 0, {8}, "its centre"},
    {SEGMENT_MAP, {1, 5, 0, 5, 0, 0, 7, 10, 3, 6, 0}, 0, 0, {10}, "the last after one day"},
    {SEGMENT_MAP, {1, 5, 0, 9, 0, 0, 4, 4, 2, 7, 0}, 0, 0, {4}, "equal limits"},
    {SEGMENT_MAP, {1, 5, 0, 9, 0, 0, 0, 100, 2, 4, 0}, 0, 0, {-10}, "before the start: no index"},
    {SEGMENT_MAP, {1, 5, 0, 9, 0, 0, 0, 100, 2, 11, 0}, 0, 0, {130}, "past the end: no follower"},
    {SEGMENT_MAP, {2, 737425, 0, 737790, 0, 0, 0, 120, 2, 737424, 0}, 0, 0, {5}, "2019-12-31 on 2020: index 11, no follower"},
    {SEGMENT_MAP, {2, 737425, 0, 737790, 0, 0, 0, 120, 2, 737060, 0}, 0, 0, {-50}, "2019-01-01 on 2020: its follower 2020-02-01"},
    {SEGMENT_MAP, {5, LAST_NOON, 0, 100, 2, 3652059, 36000000000000}, 0, 0, {4}, "9999-12-31: index 11, no follower"},
    {SEGMENT_MAP, {5, LAST_NOON, 0, 100, 1, 3652059, 43200000000000}, 0, 0, {92}, "its end"},
    {SEGMENT_MAP, {8, 1, 0, 15, 0, 0, 0, 90, 1, 8, 0}, 0, 0, {30}, "three weeks: the margin is 30, the second's Monday"},
    {SEGMENT_MAP, {8, 1, 0, 15, 0, 0, 0, 90, 2, 8, 0}, 0, 0, {45}, "its centre"},
    {SEGMENT_MAP, {8, 1, 0, 15, 0, 0, 0, 90, 2, 10, 0}, 0, 0, {49}, "midway from its Wednesday to the next Monday"},
    {SEGMENT_MAP, {8, 1, 0, 15, 0, 0, 0, 90, 2, 15, 0}, 0, 0, {75}, "the centre of the third"},
    {SEGMENT_MAP, {8, 1, 0, 15, 0, 0, 0, 90, 3, 0, 0}, 0, 0, {90}, "the last, kind 8"},
    {SEGMENT_SIZE, {8, 7, 0, 8, 0, 0}, 0, 0, {3}, "two weeks and the last"},
    {SEGMENT_INDEX_OF, {8, 10, 0, 30, 0, 0, 2, 8, 0}, 0, 0, {0}, "the Monday before the start"},
    {SEGMENT_INDEX_OF, {8, 10, 0, 30, 0, 0, 1, 7, 0}, -1, 0, {0}, "the Sunday before that: none"},
    {SEGMENT_INDEX_OF, {8, 10, 0, 30, 0, 0, 3, 0, 0}, 0, 0, {4}, "the last: the size, kind 8"},
    {SEGMENT_FROM_INDEX, {8, 10, 0, 30, 0, 0, 0}, 0, 0, {1, 10, 0}, "the start, a Wednesday"},
    {SEGMENT_FROM_INDEX, {8, 10, 0, 30, 0, 0, 3}, 0, 0, {1, 29, 0}, "the last week"},
    {SEGMENT_FROM_INDEX, {8, 10, 0, 30, 0, 0, 4}, 0, 0, {3, 0, 0}, "at the size, kind 8: the last"},
    {SEGMENT_FROM_INDEX, {8, 10, 0, 30, 0, 0, 5}, -1, 0, {0}, "beyond it, kind 8: none"},
    {SEGMENT_SIZE, {1, 5, 0, 5, 0, 0}, 0, 0, {2}, "one day and the last"},
    {SEGMENT_SIZE, {1, 1, 0, 3652059, 0, 0}, 0, 0, {3652060}, "all days and the last"},
    {SEGMENT_SIZE, {5, 737880, 36000000000000, 737880, 43200000000000, 0}, 0, 0, {1}, "size 0: the last only"},
    {SEGMENT_SIZE, {5, LAST_NOON}, 0, 0, {13}, "9999-12-31 10:00 to 12:00: 13"},
    {SEGMENT_INDEX_OF, {1, 5, 0, 9, 0, 0, 1, 7, 0}, 0, 0, {2}, "an exact day"},
    {SEGMENT_INDEX_OF, {1, 5, 0, 9, 0, 0, 2, 7, 0}, 0, 0, {2}, "its centre"},
    {SEGMENT_INDEX_OF, {1, 5, 0, 9, 0, 0, 1, 11, 0}, 0, 0, {6}, "past the end"},
    {SEGMENT_INDEX_OF, {1, 5, 0, 9, 0, 0, 2, 4, 0}, -1, 0, {0}, "before the start: none"},
    {SEGMENT_INDEX_OF, {1, 5, 0, 9, 0, 0, 3, INT64_MIN, -1}, 0, 0, {5}, "the last: the size"},
    {SEGMENT_INDEX_OF, {6, LAST_NOON, 3, 0, 0}, 0, 0, {0}, "size 0: the last has index 0"},
    {SEGMENT_FROM_INDEX, {1, 5, 0, 6, 0, 0, 0}, 0, 0, {1, 5, 0}, "the first"},
    {SEGMENT_FROM_INDEX, {1, 5, 0, 6, 0, 0, 1}, 0, 0, {1, 6, 0}, "the last day"},
    {SEGMENT_FROM_INDEX, {1, 5, 0, 6, 0, 0, 2}, 0, 0, {3, 0, 0}, "at the size: the last"},
    {SEGMENT_FROM_INDEX, {1, 5, 0, 6, 0, 0, 3}, -1, 0, {0}, "beyond it: none"},
    {SEGMENT_FROM_INDEX, {1, 1, 0, 3652059, 0, 0, 3652059}, 0, 0, {3, 0, 0}, "the largest index"},
    {SEGMENT_FROM_INDEX, {6, 15, 500000000, 60, 0, 0, 0}, 0, 0, {1, 15, 500000000}, "the start with its tail"},
    {SEGMENT_FROM_INDEX, {6, LAST_NOON, 0}, 0, 0, {3, 0, 0}, "size 0: the last"},
    {SEGMENT_FROM_INDEX, {5, LAST_NOON, 12}, 0, 0, {3, 0, 0}, "past dates that are none: the last"},
    {SEGMENT_FROM_INDEX, {5, LAST_NOON, 13}, -1, 0, {0}, "beyond it: none"},

    /* Segments, the end excluded: the margin by the days before it, pixels to the written end. */
    {SEGMENT_MAP, {1, 1, 0, 4, 0, 1, 0, 90, 1, 1, 0}, 0, 0, {0}, "day 1 to 4, excluded: the margin is 30"},
    {SEGMENT_MAP, {1, 1, 0, 4, 0, 1, 0, 90, 1, 2, 0}, 0, 0, {20}, "the second day"},
    {SEGMENT_MAP, {1, 1, 0, 4, 0, 1, 0, 90, 1, 3, 0}, 0, 0, {40}, "the third"},
    {SEGMENT_MAP, {1, 1, 0, 4, 0, 1, 0, 90, 1, 4, 0}, 0, 0, {60}, "the excluded end"},
    {SEGMENT_MAP, {1, 1, 0, 4, 0, 1, 0, 90, 3, 0, 0}, 0, 0, {90}, "the last: a part before it stays blank"},
    {SEGMENT_MAP, {1, 1, 0, 4, 0, 1, 0, 90, 2, 2, 0}, 0, 0, {30}, "the centre of the second day"},
    {SEGMENT_MAP, {1, 1, 0, 4, 0, 1, 0, 90, 2, 3, 0}, 0, 0, {55}, "of the third, which has no follower: half of the margin"},
    {SEGMENT_MAP, {1, 1, 0, 4, 0, INT64_MIN, 90, 0, 1, 3, 0}, 0, 0, {50}, "swapped limits, by the least number"},
    {SEGMENT_MAP, {1, 5, 0, 6, 0, 1, 7, 10, 1, 5, 0}, 0, 0, {7}, "one day"},
    {SEGMENT_MAP, {1, 5, 0, 6, 0, 1, 7, 10, 2, 5, 0}, 0, 0, {8}, "its centre"},
    {SEGMENT_MAP, {1, 5, 0, 6, 0, 1, 7, 10, 3, 5, 0}, 0, 0, {10}, "the last after one day"},
    {SEGMENT_MAP, {1, 5, 0, 6, 0, 1, 0, 100, 1, 7, 0}, 0, 0, {0}, "question 9 goes by the written end"},
    {SEGMENT_MAP, {2, 737791, 0, 737881, 0, 1, 0, 900, 1, 737850, 0}, 0, 0, {393}, "1 January to 1 April: March, 59 of 90 days"},
    {SEGMENT_MAP, {2, 737791, 0, 737881, 0, 1, 0, 900, 2, 737822, 0}, 0, 0, {299}, "the centre of February, 206 to 393"},
    {SEGMENT_MAP, {2, 737791, 0, 737881, 0, 1, 0, 900, 2, 737850, 0}, 0, 0, {543}, "the centre of March: half of 300 more"},
    {SEGMENT_MAP, {3, 737791, 0, 738156, 0, 1, 0, 365, 1, 738156, 0}, 0, 0, {0}, "one year: nothing is left between the limits"},
    {SEGMENT_MAP, {8, 1, 0, 15, 0, 1, 0, 90, 1, 8, 0}, 0, 0, {22}, "two weeks: the margin is 45"},
    {SEGMENT_SIZE, {1, 1, 0, 4, 0, 1}, 0, 0, {4}, "three days and the last"},
    {SEGMENT_SIZE, {1, 1, 0, 3652059, 0, 1}, 0, 0, {3652059}, "all days but the last, and the last segment"},
    {SEGMENT_INDEX_OF, {1, 5, 0, 9, 0, 1, 3, 0, 0}, 0, 0, {4}, "the last: the size"},
    {SEGMENT_INDEX_OF, {1, 5, 0, 9, 0, 1, 2, 9, 0}, 0, 0, {4}, "the excluded end: past the last day"},
    {SEGMENT_FROM_INDEX, {1, 5, 0, 7, 0, 1, 1}, 0, 0, {1, 6, 0}, "the last day"},
    {SEGMENT_FROM_INDEX, {1, 5, 0, 7, 0, 1, 2}, 0, 0, {3, 0, 0}, "at the size: the last"},
    {SEGMENT_FROM_INDEX, {1, 5, 0, 7, 0, 1, 3}, -1, 0, {0}, "beyond it: none"},

    /* Segments, 1 to 4. */
    {SEGMENTS, {0, 1, 0, 2, 0, 0, FOR_SEGMENTS}, 1, 0, {0}, "kind 0"},
    {SEGMENTS, {9, 1, 0, 2, 0, 0, FOR_SEGMENTS}, 1, 0, {0}, "kind 9"},
    {SEGMENTS, {4294967297, 1, 0, 2, 0, 0, FOR_SEGMENTS}, 1, 0, {0}, "kind 1 in the low 32 bits"},
    {SEGMENTS, {4, 1, 0, 2, 0, 0, FOR_SEGMENTS}, 2, 0, {0}, "kind 4"},
    {SEGMENTS, {7, 1, 0, 2, 0, 0, FOR_SEGMENTS}, 2, 0, {0}, "kind 7"},
    {SEGMENTS, {1, 0, 0, 2, 0, 0, FOR_SEGMENTS}, 3, 0, {0}, "day 0 as start"},
    {SEGMENTS, {2, 1, 0, 3652060, 0, 0, FOR_SEGMENTS}, 3, 0, {0}, "10000-01-01 as end"},
    {SEGMENTS, {3, 1, 1, 2, 0, 0, FOR_SEGMENTS}, 3, 0, {0}, "a date with a tail"},
    {SEGMENTS, {6, 1, 0, 2, 86400000000000, 0, FOR_SEGMENTS}, 3, 0, {0}, "24:00 as end"},
    {SEGMENTS, {8, 1, 0, 2, 1, 0, FOR_SEGMENTS}, 3, 0, {0}, "a date with a tail, kind 8"},
    {SEGMENTS, {1, 2, 0, 1, 0, 0, FOR_SEGMENTS}, 4, 0, {0}, "start later"},
    {SEGMENTS, {8, 2, 0, 1, 0, 0, FOR_SEGMENTS}, 4, 0, {0}, "start later in its week"},
    {SEGMENTS, {5, 1, 1, 1, 0, 0, FOR_SEGMENTS}, 4, 0, {0}, "start 1 ns later"},

    /* Segments, 14: the excluded end. */
    {SEGMENTS, {5, 1, 0, 2, 0, 1, FOR_SEGMENTS}, 14, 0, {0}, "excluded, kind 5"},
    {SEGMENTS, {6, 1, 0, 2, 0, -1, FOR_SEGMENTS}, 14, 0, {0}, "excluded, kind 6"},
    {SEGMENTS, {5, 1, 0, 2, 0, 4294967296, FOR_SEGMENTS}, 14, 0, {0}, "by 0 in the low 32 bits"},
    {SEGMENTS, {1, 5, 0, 5, 0, 1, FOR_SEGMENTS}, 14, 0, {0}, "the excluded end is the start, kind 1"},
    {SEGMENTS, {2, 5, 0, 5, 0, 1, FOR_SEGMENTS}, 14, 0, {0}, "kind 2"},
    {SEGMENTS, {3, 5, 0, 5, 0, INT64_MIN, FOR_SEGMENTS}, 14, 0, {0}, "kind 3"},
    {SEGMENTS, {8, 5, 0, 5, 0, 1, FOR_SEGMENTS}, 14, 0, {0}, "kind 8"},
    {SEGMENT_MAP, {8, 5, 0, 5, 0, 1, 0, 100, 3, 0, 0}, 14, 0, {0}, "the last segment is asked it too"},

    /* Segments, 7: the limits. */
    {SEGMENT_MAP, {1, 1, 0, 2, 0, 0, 32767, -32767, 1, 1, 0}, 0, 0, {32767}, "the largest and the least"},
    {SEGMENT_MAP, {1, 1, 0, 2, 0, 0, -32768, 0, 1, 1, 0}, 7, 0, {0}, "low one less"},
    {SEGMENT_MAP, {1, 1, 0, 2, 0, 0, 0, 32768, 3, 0, 0}, 7, 0, {0}, "high one more, the last segment"},
    {SEGMENT_MAP, {1, 1, 0, 2, 0, 0, 32768, 0, 3, 0, 0}, 7, 0, {0}, "low one more, the last segment"},
    {SEGMENT_MAP, {1, 1, 0, 2, 0, 0, 0, 4294967296, 2, 1, 0}, 7, 0, {0}, "high 0 in its low 32 bits"},

    /* Segments, 8: the segment, its value, the index. */
    {SEGMENT_MAP, {1, 1, 0, 2, 0, 0, 0, 100, 0, 1, 0}, 8, 0, {0}, "segment 0"},
    {SEGMENT_MAP, {1, 1, 0, 2, 0, 0, 0, 100, 4, 1, 0}, 8, 0, {0}, "segment 4"},
    {SEGMENT_MAP, {1, 1, 0, 2, 0, 0, 0, 100, 4294967297, 1, 0}, 8, 0, {0}, "segment 1 in the low 32 bits"},
    {SEGMENT_MAP, {1, 1, 0, 2, 0, 0, 0, 100, 1, 0, 0}, 8, 0, {0}, "exact day 0"},
    {SEGMENT_MAP, {1, 1, 0, 2, 0, 0, 0, 100, 2, 3652060, 0}, 8, 0, {0}, "the centre of 10000-01-01"},
    {SEGMENT_MAP, {2, 1, 0, 2, 0, 0, 0, 100, 2, 1, 1}, 8, 0, {0}, "a date with a tail"},
    {SEGMENT_MAP, {5, 1, 0, 2, 0, 0, 0, 100, 1, 1, 86400000000000}, 8, 0, {0}, "24:00"},
    {SEGMENT_MAP, {8, 1, 0, 2, 0, 0, 0, 100, 2, 1, 1}, 8, 0, {0}, "a date with a tail, kind 8"},
    {SEGMENT_MAP, {8, 5, 0, 5, 0, 0, 0, 100, 1, 6, 0}, 9, 0, {0}, "empty, a day later in its week"},
    {SEGMENT_MAP, {8, 7, 0, 8, 0, 0, 1, 32767, 2, 3652059, 0}, 10, 0, {0}, "the cast saturates, low 1, kind 8"},
    {SEGMENT_INDEX_OF, {8, 1, 0, 2, 0, 0, 4, 1, 0}, 8, 0, {0}, "segment 4, kind 8"},
    {SEGMENT_FROM_INDEX, {8, 1, 0, 2, 0, 0, 3652060}, 8, 0, {0}, "one more than the largest, kind 8"},
    {SEGMENT_INDEX_OF, {1, 1, 0, 2, 0, 0, 0, 1, 0}, 8, 0, {0}, "segment 0"},
    {SEGMENT_INDEX_OF, {1, 1, 0, 2, 0, 0, 4, 1, 0}, 8, 0, {0}, "segment 4"},
    {SEGMENT_INDEX_OF, {1, 1, 0, 2, 0, 0, INT64_MIN, 1, 0}, 8, 0, {0}, "the least number as segment"},
    {SEGMENT_INDEX_OF, {1, 1, 0, 2, 0, 0, 4294967299, 1, 0}, 8, 0, {0}, "segment 3 in the low 32 bits"},
    {SEGMENT_INDEX_OF, {1, 1, 0, 2, 0, 0, 1, 0, 0}, 8, 0, {0}, "exact day 0"},
    {SEGMENT_INDEX_OF, {6, 1, 0, 2, 0, 0, 2, 1, 86400000000000}, 8, 0, {0}, "the centre of 24:00"},
    {SEGMENT_FROM_INDEX, {2, 1, 0, 2, 0, 0, -1}, 8, 0, {0}, "-1"},
    {SEGMENT_FROM_INDEX, {1, 1, 0, 2, 0, 0, 3652060}, 8, 0, {0}, "one more than the largest"},
    {SEGMENT_FROM_INDEX, {1, 1, 0, 2, 0, 0, 4294967296}, 8, 0, {0}, "0 in its low 32 bits"},
    {SEGMENT_FROM_INDEX, {1, 1, 0, 2, 0, 0, INT64_MAX}, 8, 0, {0}, "the largest number"},

    /* Segments, 9: the size, of the last one too; then start and end. */
    {SEGMENT_MAP, {5, 737880, 36000000000000, 737880, 43200000000000, 0, 0, 100, 3, 0, 0}, 9, 0, {0}, "size 0, the last"},
    {SEGMENT_MAP, {5, 737880, 36000000000000, 737880, 43200000000000, 0, 0, 100, 1, 737880, 36000000000000}, 9, 0, {0},
     "size 0, the start"},
    {SEGMENT_MAP, {6, LAST_NOON, 0, 100, 2, 3652059, 36000000000000}, 9, 0, {0}, "size 0, kind 6"},
    {SEGMENT_MAP, {1, 5, 0, 5, 0, 0, 0, 100, 1, 6, 0}, 9, 0, {0}, "empty, a day later"},
    {SEGMENT_MAP, {3, 5, 0, 5, 0, 0, 7, 7, 2, 4, 0}, 9, 0, {0}, "empty, the centre of a day earlier, equal limits"},
    {SEGMENT_MAP, {5, 5, 1, 5, 1, 0, 0, 100, 2, 5, 0}, 9, 0, {0}, "empty, 1 ns earlier"},

    /* Segments, 10: each mapping, each sum, each date. */
    {SEGMENT_MAP, {1, 1, 0, 3, 0, 0, 0, 32767, 1, 3652059, 0}, 0, 0, {2147483647}, "the cast saturates, low 0"},
    {SEGMENT_MAP, {1, 1, 0, 3, 0, 0, 1, 32767, 1, 3652059, 0}, 10, 0, {0}, "the same, low 1"},
    {SEGMENT_MAP, {1, 1, 0, 3, 0, 0, 0, 32767, 2, 3652059, 0}, 10, 0, {0}, "with half of the margin"},
    {SEGMENT_MAP, {1, 1, 0, 3, 0, 0, -32767, 32767, 2, 3652059, 0}, 0, 0, {2147461802}, "the same, low -32767"},
    {SEGMENT_MAP, {2, 3651725, 0, 3651726, 0, 0, -32767, -31589, 1, 5850, 0}, 0, 0, {-2147453142}, "0017-01-06 on 9999-01-31"},
    {SEGMENT_MAP, {2, 3651725, 0, 3651726, 0, 0, -32767, -31589, 2, 5850, 0}, 10, 0, {0}, "the sum with its follower"},
    {SEGMENT_MAP, {5, LAST_NOON, 0, 100, 2, 1, 0}, 10, 0, {0}, "the follower is 10000-02-01"},
    {SEGMENT_MAP, {5, LAST_NOON, 5, 5, 2, 320, 0}, 10, 0, {0}, "the follower is 10000-12-01, equal limits"},
    {SEGMENT_FROM_INDEX, {5, LAST_NOON, 0}, 10, 0, {0}, "the ceiling itself"},
    {SEGMENT_FROM_INDEX, {5, LAST_NOON, 11}, 10, 0, {0}, "10000-12-01"},

    /* Segments, two at once. */
    {SEGMENTS, {9, 0, 0, 2, 0, 0, FOR_SEGMENTS}, 1, 3, {0}, "no kind, start day 0"},
    {SEGMENTS, {9, 2, 0, 1, 0, 0, FOR_SEGMENTS}, 1, 4, {0}, "no kind, start later"},
    {SEGMENTS, {9, 1, 0, 2, 0, 1, FOR_SEGMENTS}, 1, 14, {0}, "no kind, excluded"},
    {SEGMENT_MAP, {9, 1, 0, 2, 0, 0, 0, 32768, 1, 1, 0}, 1, 7, {0}, "no kind, high one more"},
    {SEGMENT_MAP, {9, 1, 0, 2, 0, 0, 0, 100, 4, 1, 0}, 1, 8, {0}, "no kind, segment 4"},
    {SEGMENT_INDEX_OF, {9, 1, 0, 2, 0, 0, 4, 1, 0}, 1, 8, {0}, "no kind, segment 4"},
    {SEGMENT_FROM_INDEX, {9, 1, 0, 2, 0, 0, -1}, 1, 8, {0}, "no kind, index -1"},
    {SEGMENT_MAP, {9, 1, 0, 1, 0, 0, 0, 100, 1, 2, 0}, 1, 9, {0}, "no kind, empty"},
    {SEGMENT_MAP, {9, LAST_NOON, 0, 100, 2, 1, 0}, 1, 10, {0}, "no kind, no date if it were 5"},
    {SEGMENT_FROM_INDEX, {9, LAST_NOON, 0}, 1, 10, {0}, "no kind, no date if it were 5"},
    {SEGMENTS, {4, 0, 0, 2, 0, 0, FOR_SEGMENTS}, 2, 3, {0}, "kind 4, start day 0"},
    {SEGMENTS, {4, 2, 0, 1, 0, 0, FOR_SEGMENTS}, 2, 4, {0}, "kind 4, start later"},
    {SEGMENTS, {4, 1, 0, 2, 0, 1, FOR_SEGMENTS}, 2, 14, {0}, "kind 4, excluded"},
    {SEGMENT_MAP, {4, 1, 0, 2, 0, 0, 0, 32768, 1, 1, 0}, 2, 7, {0}, "kind 4, high one more"},
    {SEGMENT_MAP, {4, 1, 0, 2, 0, 0, 0, 100, 4, 1, 0}, 2, 8, {0}, "kind 4, segment 4"},
    {SEGMENT_INDEX_OF, {4, 1, 0, 2, 0, 0, 4, 1, 0}, 2, 8, {0}, "kind 4, segment 4"},
    {SEGMENT_FROM_INDEX, {4, 1, 0, 2, 0, 0, -1}, 2, 8, {0}, "kind 4, index -1"},
    {SEGMENT_MAP, {4, 1, 0, 1, 0, 0, 0, 100, 1, 2, 0}, 2, 9, {0}, "kind 4, empty"},
    {SEGMENT_MAP, {4, LAST_NOON, 0, 100, 2, 1, 0}, 2, 10, {0}, "kind 4, no date if it were 5"},
    {SEGMENT_FROM_INDEX, {4, LAST_NOON, 0}, 2, 10, {0}, "kind 4, no date if it were 5"},
    {SEGMENTS, {1, 2, 0, 0, 0, 0, FOR_SEGMENTS}, 3, 4, {0}, "end day 0, start later"},
    {SEGMENTS, {5, 0, 0, 2, 0, 1, FOR_SEGMENTS}, 3, 14, {0}, "start day 0, excluded on kind 5"},
    {SEGMENT_MAP, {1, 0, 0, 2, 0, 0, 0, 32768, 1, 1, 0}, 3, 7, {0}, "start day 0, high one more"},
    {SEGMENT_MAP, {1, 0, 0, 2, 0, 0, 0, 100, 4, 1, 0}, 3, 8, {0}, "start day 0, segment 4"},
    {SEGMENT_INDEX_OF, {1, 0, 0, 2, 0, 0, 4, 1, 0}, 3, 8, {0}, "start day 0, segment 4"},
    {SEGMENT_FROM_INDEX, {1, 0, 0, 2, 0, 0, -1}, 3, 8, {0}, "start day 0, index -1"},
    {SEGMENT_MAP, {1, 0, 0, 0, 0, 0, 0, 100, 1, 1, 0}, 3, 9, {0}, "day 0 to day 0, empty"},
    {SEGMENT_MAP, {5, LAST_NOON_SPOILT, 0, 100, 2, 1, 0}, 3, 10, {0}, "24:00 as end, no date"},
    {SEGMENT_FROM_INDEX, {5, LAST_NOON_SPOILT, 0}, 3, 10, {0}, "24:00 as end, no date"},
    {SEGMENTS, {5, 2, 0, 1, 0, 1, FOR_SEGMENTS}, 4, 14, {0}, "start later, excluded on kind 5"},
    {SEGMENT_MAP, {1, 2, 0, 1, 0, 0, 0, 32768, 1, 1, 0}, 4, 7, {0}, "start later, high one more"},
    {SEGMENT_MAP, {1, 2, 0, 1, 0, 0, 0, 100, 4, 1, 0}, 4, 8, {0}, "start later, segment 4"},
    {SEGMENT_INDEX_OF, {1, 2, 0, 1, 0, 0, 4, 1, 0}, 4, 8, {0}, "start later, segment 4"},
    {SEGMENT_FROM_INDEX, {1, 2, 0, 1, 0, 0, -1}, 4, 8, {0}, "start later, index -1"},
    {SEGMENT_MAP, {1, 2, 0, 1, 0, 0, 0, 100, 3, 0, 0}, 4, 9, {0}, "start later, so size 0"},
    {SEGMENT_MAP, {5, LAST_NOON_REVERSED, 0, 100, 2, 1, 0}, 4, 10, {0}, "start later, no date"},
    {SEGMENT_FROM_INDEX, {5, LAST_NOON_REVERSED, 0}, 4, 10, {0}, "start later, no date"},
    {SEGMENT_MAP, {1, 5, 0, 5, 0, 1, 0, 32768, 1, 5, 0}, 14, 7, {0}, "the excluded end is the start, high one more"},
    {SEGMENT_MAP, {1, 5, 0, 5, 0, 1, 0, 100, 4, 5, 0}, 14, 8, {0}, "the excluded end is the start, segment 4"},
    {SEGMENT_INDEX_OF, {1, 5, 0, 5, 0, 1, 4, 5, 0}, 14, 8, {0}, "the excluded end is the start, segment 4"},
    {SEGMENT_FROM_INDEX, {1, 5, 0, 5, 0, 1, -1}, 14, 8, {0}, "the excluded end is the start, index -1"},
    {SEGMENT_MAP, {1, 5, 0, 5, 0, 1, 0, 100, 1, 6, 0}, 14, 9, {0}, "the excluded end is the start, not the value"},
    {SEGMENT_MAP, {5, LAST_NOON_EXCLUDED, 0, 100, 2, 1, 0}, 14, 10, {0}, "excluded on kind 5, no date"},
    {SEGMENT_FROM_INDEX, {5, LAST_NOON_EXCLUDED, 0}, 14, 10, {0}, "excluded on kind 5, no date"},
    {SEGMENT_MAP, {1, 1, 0, 2, 0, 0, 0, 32768, 4, 1, 0}, 7, 8, {0}, "high one more, segment 4"},
    {SEGMENT_MAP, {1, 1, 0, 1, 0, 0, 0, 32768, 1, 2, 0}, 7, 9, {0}, "high one more, empty"},
    {SEGMENT_MAP, {5, LAST_NOON, 0, 32768, 2, 1, 0}, 7, 10, {0}, "high one more, no date"},
    {SEGMENT_MAP, {6, LAST_NOON, 0, 100, 4, 1, 0}, 8, 9, {0}, "segment 4, size 0"},
    {SEGMENT_MAP, {5, LAST_NOON, 0, 100, 2, 1, -1}, 8, 10, {0}, "the value's tail below 0, no date"},
    {SEGMENT_FROM_INDEX, {1, 1, 0, 2, 0, 0, -1}, 8, 10, {0}, "index -1, day 0"},
    {SEGMENT_MAP, {5, LAST_NOON_EMPTY, 0, 100, 2, 1, 0}, 9, 10, {0}, "empty, no date"},
};

static const struct numbering {
    int64_t in[3], status, number;
    const char *why;
} numberings[] = {
    {{1, 1, 1}, 0, 1, "the first date"},
    {{9999, 12, 31}, 0, 3652059, "the last date"},
    {{1970, 1, 1}, 0, 719163, "1970-01-01"},
    {{0, 1, 1}, 8, 0, "year 0"},
    {{10000, 1, 1}, 8, 0, "year 10000"},
    {{-1, 1, 1}, 8, 0, "year -1"},
    {{4294967297, 1, 1}, 8, 0, "year 1 in the low 32 bits"},
    {{2021, 0, 1}, 8, 0, "month 0"},
    {{2021, 13, 1}, 8, 0, "month 13"},
    {{2021, 12, 1}, 0, 738125, "month 12"},
    {{2021, 1, 0}, 8, 0, "day 0"},
    {{2021, 1, 31}, 0, 737821, "January 31"},
    {{2021, 1, 32}, 8, 0, "January 32"},
    {{2021, 4, 30}, 0, 737910, "April 30"},
    {{2021, 4, 31}, 8, 0, "April 31"},
    {{2021, 2, 29}, 8, 0, "a common year"},
    {{2024, 2, 29}, 0, 738945, "a leap year"},
    {{2024, 2, 30}, 8, 0, "February 30"},
    {{1900, 2, 29}, 8, 0, "a century that is no leap year"},
    {{2000, 2, 29}, 0, 730179, "a leap century"},
    {{INT64_MIN, INT64_MIN, INT64_MIN}, 8, 0, "the least numbers"},
    {{INT64_MAX, INT64_MAX, INT64_MAX}, 8, 0, "the largest numbers"},
};

static const struct dating {
    int64_t number, status, year, month, day;
    const char *why;
} datings[] = {
    {1, 0, 1, 1, 1, "the first day"},
    {3652059, 0, 9999, 12, 31, "the last day"},
    {730179, 0, 2000, 2, 29, "a leap day"},
    {0, 8, 0, 0, 0, "day 0"},
    {-1, 8, 0, 0, 0, "day -1"},
    {3652060, 8, 0, 0, 0, "10000-01-01"},
    {4294967297, 8, 0, 0, 0, "day 1 in the low 32 bits"},
    {INT64_MIN, 8, 0, 0, 0, "the least number"},
    {INT64_MAX, 8, 0, 0, 0, "the largest number"},
};

/* Year, week and weekday. 13 is asked before 10. */
static const struct week_numbering {
    int64_t in[3], status, also, number;
    const char *why;
} week_numberings[] = {
    {{1, 1, 1}, 0, 0, 1, "the first day"},
    {{9999, 52, 5}, 0, 0, 3652059, "the last day"},
    {{1976, 53, 6}, 0, 0, 721720, "1977-01-01"},
    {{2009, 1, 1}, 0, 0, 733405, "2008-12-29"},
    {{2009, 53, 7}, 0, 0, 733775, "2010-01-03"},
    {{2020, 53, 4}, 0, 0, 737790, "2020-12-31"},
    {{4, 53, 5}, 0, 0, 1461, "0004-12-31"},
    {{0, 1, 1}, 13, 0, 0, "year 0"},
    {{-1, 1, 1}, 13, 0, 0, "year -1"},
    {{10000, 1, 1}, 13, 10, 0, "year 10000, a day that is none"},
    {{4294967297, 1, 1}, 13, 0, 0, "year 1 in the low 32 bits"},
    {{2021, 0, 1}, 13, 0, 0, "week 0"},
    {{2021, 52, 7}, 0, 0, 738157, "2022-01-02"},
    {{2021, 53, 1}, 13, 0, 0, "week 53 of a year that has 52"},
    {{2020, 54, 1}, 13, 0, 0, "week 54"},
    {{2021, 4294967297, 1}, 13, 0, 0, "week 1 in the low 32 bits"},
    {{2021, 1, 0}, 13, 0, 0, "weekday 0"},
    {{2021, 1, 7}, 0, 0, 737800, "weekday 7"},
    {{2021, 1, 8}, 13, 0, 0, "weekday 8"},
    {{2021, 1, 257}, 13, 0, 0, "weekday 1 in the low 8 bits"},
    {{9999, 52, 6}, 10, 0, 0, "the day after the last"},
    {{9999, 52, 7}, 10, 0, 0, "the day after that"},
    {{9999, 52, 8}, 13, 10, 0, "weekday 8, a day that is none"},
    {{9999, 53, 1}, 13, 10, 0, "week 53 of 9999, which has 52, a day that is none"},
    {{9999, 53, 6}, 13, 10, 0, "the same, weekday 6"},
    {{INT64_MIN, INT64_MIN, INT64_MIN}, 13, 0, 0, "the least numbers"},
    {{INT64_MAX, INT64_MAX, INT64_MAX}, 13, 10, 0, "the largest numbers"},
};

static const struct week_dating {
    int64_t number, status, year, week, weekday;
    const char *why;
} week_datings[] = {
    {1, 0, 1, 1, 1, "the first day"},
    {3652059, 0, 9999, 52, 5, "the last day"},
    {365, 0, 2, 1, 1, "0001-12-31"},
    {721720, 0, 1976, 53, 6, "1977-01-01"},
    {733405, 0, 2009, 1, 1, "2008-12-29"},
    {733775, 0, 2009, 53, 7, "2010-01-03"},
    {737790, 0, 2020, 53, 4, "2020-12-31"},
    {737794, 0, 2021, 1, 1, "2021-01-04"},
    {0, 8, 0, 0, 0, "day 0"},
    {-1, 8, 0, 0, 0, "day -1"},
    {3652060, 8, 0, 0, 0, "10000-01-01"},
    {4294967297, 8, 0, 0, 0, "day 1 in the low 32 bits"},
    {INT64_MIN, 8, 0, 0, 0, "the least number"},
    {INT64_MAX, 8, 0, 0, 0, "the largest number"},
};

#define COUNT(table) ((int)(sizeof(table) / sizeof(table)[0]))

static int differences;

static void expect(bool same, const char *call, const char *why) {
    if (!same) {
        differences++;
        printf("  %s, %s: another answer\n", call, why);
    }
}

/* A table must have a row for each question of its operation, and one for each two that can say no together. */
struct seen {
    bool both[QUESTIONS][QUESTIONS];
};

static void see(struct seen *seen, int64_t status, int64_t also) {
    if (status > 0)
        seen->both[status][also] = true;
}

/* No kind is one without the operation, and question 5 is asked of kind 7 only. */
static bool can_meet(int first, int second) {
    return !(first == 1 && second == 2) && !(first <= 2 && second == 5);
}

static void expect_all_covered(const char *call, const struct seen *seen, const int *asked, int count) {
    for (int i = 0; i < count; i++) {
        bool all = seen->both[asked[i]][0];
        for (int j = i + 1; j < count; j++)
            all = all && (seen->both[asked[i]][asked[j]] || !can_meet(asked[i], asked[j]));
        if (!all) {
            differences++;
            printf("  %s: question %d lacks a row, alone or before another\n", call, asked[i]);
        }
    }
}

/* List and count of a row, of segments the list only; the numbers behind the list, or all of a refused call, must be as they
   were. */
static void compare_listing(const struct listing *row, int number, bool segments) {
    const int64_t *in = row->in;
    int64_t lent[LENT], want[LENT];
    for (int i = 0; i < LENT; i++)
        lent[i] = want[i] = -1000 - i;
    bool light = row->bold != -1;
    ordered_number list, count;
    if (segments) {
        list = light ? ordered_segment_ticks_light(AXIS_OF(in), row->bold, row->n, lent, row->lent)
                     : ordered_segment_ticks_bold(AXIS_OF(in), row->n, lent, row->lent);
        count = list;
    } else if (light) {
        list = ordered_ticks_light(AXIS_OF(in), row->bold, row->n, lent, row->lent);
        count = ordered_count_light(AXIS_OF(in), row->bold, row->n, row->lent);
    } else {
        list = ordered_ticks_bold(AXIS_OF(in), row->n, lent, row->lent);
        count = ordered_count_bold(AXIS_OF(in), row->n, row->lent);
    }
    bool same = list.status == row->status && list.value == row->count && count.status == row->status &&
                count.value == row->count;
    /* The ticks of a row are at most three; what other ones a longer list has is left to the oracle. */
    int listed = (int)row->count * 2, shown = listed < 6 ? listed : 6;
    memcpy(want, row->ticks, (size_t)shown * sizeof want[0]);
    same = same && !memcmp(lent, want, (size_t)shown * sizeof want[0]);
    for (int i = listed; i < LENT; i++)
        same = same && lent[i] == want[i];
    if (!same) {
        differences++;
        printf("  %s%s, row %d, %s: expected %" PRId64 " %" PRId64 ", list %" PRId64 " %" PRId64 ", count %" PRId64 " %" PRId64
               ", or other numbers lent: %" PRId64 " %" PRId64 " ..\n", segments ? "segments, " : "",
               light ? "light ticks" : "bold ticks", number, row->why,
               row->status, row->count, list.status, list.value, count.status, count.value, lent[0], lent[1]);
    }
}

/* A table of lists: its rows, and that each question has its rows, with both hints. */
static void compare_listings(const char *call, const struct listing *table, int rows, bool segments, const int *asked,
                             int count) {
    struct seen bold = {0}, light = {0}, both = {0};
    for (int i = 0; i < rows; i++) {
        compare_listing(&table[i], i + 1, segments);
        see(table[i].bold == -1 ? &bold : &light, table[i].status, 0);
        see(&both, table[i].status, table[i].also);
    }
    for (int question = 1; question < QUESTIONS; question++)
        if (bold.both[question][0] != light.both[question][0])
            expect(false, call, "a question is tried with one of the two hints only");
    expect_all_covered(call, &both, asked, count);
}

/* A table's bytes, NULL where there are none. */
#define TABLE_OF(text) (const uint8_t *)(*(text) ? (text) : NULL), strlen(text)

/* Rows one after the other, a length each but for the last, which has all others: 64 at most. And one row with zeros before its
   first number: 12 digits at most, so that none with 120 bytes reads, nor one with 121. */
static void compare_sizes(void) {
    static char text[8000];
    for (int digits = 1; digits <= 120; digits++) {
        sprintf(text, NAMES "%0*d 3652058 day 1\n", digits, 0);
        expect(ordered_rules(TABLE_OF(text)).status == (digits > 12 ? 12 : 0), "ordered_rules", "so many digits");
    }
    for (int rows = 1; rows <= 66; rows++) {
        int end = sprintf(text, NAMES);
        for (int i = 0; i < rows; i++)
            end += sprintf(text + end, "%d %d day 1\n", i, i == rows - 1 ? 3652058 : i);
        ordered_number r = ordered_rules(TABLE_OF(text));
        int64_t lent[2] = {-1, -1};
        ordered_number list = ordered_ticks_ruled(1, 7, 0, 7, 0, 0, TABLE_OF(text), lent, 2);
        expect(r.status == (rows > 64 ? 12 : 0) && r.value == (rows > 64 ? 0 : rows), "ordered_rules", "so many rows");
        bool listed = rows <= 64, same = list.status == r.status && list.value == listed && lent[0] == (listed ? 7 : -1);
        expect(same, "ordered_ticks_ruled", "so many rows");
    }
    /* A NUL is a byte as any other. */
    static const char nul[] = NAMES "0 3652058 day 1\n\0";
    expect(ordered_rules((const uint8_t *)nul, sizeof nul - 2).status == 0, "ordered_rules", "without the NUL behind it");
    expect(ordered_rules((const uint8_t *)nul, sizeof nul - 1).status == 12, "ordered_rules", "a NUL behind the last LF");
    expect(ordered_rules(NULL, 0).status == 12, "ordered_rules", "NULL");
}

/* Of each table the count of rows; of each list also its count, and all that was lent. */
static void compare_ruled(void) {
    struct seen tables = {0}, lists = {0};
    for (int i = 0; i < COUNT(rulings); i++) {
        const struct ruling *row = &rulings[i];
        see(&tables, row->status, row->also);
        ordered_number r = ordered_rules(TABLE_OF(row->table));
        expect(r.status == row->status && r.value == row->rows, "ordered_rules", row->why);
    }
    expect_all_covered("ordered_rules", &tables, (const int[]){12, 15, 16}, 3);
    for (int i = 0; i < COUNT(ruled); i++) {
        const struct ruled *row = &ruled[i];
        const int64_t *in = row->in;
        int64_t lent[LENT], want[LENT];
        for (int j = 0; j < LENT; j++)
            lent[j] = want[j] = -1000 - j;
        see(&lists, row->status, row->also);
        ordered_number list = ordered_ticks_ruled(AXIS_OF(in), TABLE_OF(row->table), row->lent ? lent : NULL, row->lent);
        ordered_number count = ordered_count_ruled(AXIS_OF(in), TABLE_OF(row->table), row->lent);
        int listed = (int)row->count * 2, shown = listed < 6 ? listed : 6;
        memcpy(want, row->ticks, (size_t)shown * sizeof want[0]);
        bool same = list.status == row->status && list.value == row->count;
        same = same && !memcmp(lent, want, (size_t)shown * sizeof want[0]);
        for (int j = listed; j < LENT; j++)
            same = same && lent[j] == want[j];
        expect(same, "ordered_ticks_ruled", row->why);
        expect(count.status == row->status && count.value == row->count, "ordered_count_ruled", row->why);
    }
    lists.both[4][14] = true; /* never together: on these kinds 14 is about one day as start and end */
    expect_all_covered("ordered_ticks_ruled", &lists, (const int[]){12, 15, 16, 1, 2, 3, 4, 14, 11}, 9);
    compare_sizes();
}

/* One operation of a row; the answer as its status and three numbers. False: the flags of a pixel are none, or stand beside no
   answer; which of the two a segment has is left to hairlines. */
static bool ask(int operation, const int64_t *in, int64_t out[4]) {
    ordered_value v = {0, 0, 0};
    ordered_number n = {0, 0};
    ordered_step s = {0, 0, 0, 0};
    ordered_pixel p = {0, 0, 0, 0};
    ordered_segment g = {0, 0, 0, 0};
    switch (operation) {
    case UNMAP: v = ordered_unmap(AXIS_OF(in), in[6], in[7], in[8]); break;
    case SIZE: n = ordered_size(AXIS_OF(in)); break;
    case INDEX_OF: n = ordered_index_of(AXIS_OF(in), in[6], in[7]); break;
    case FROM_INDEX: v = ordered_from_index(AXIS_OF(in), in[6]); break;
    case NEXT: v = ordered_next(AXIS_OF(in), in[6], in[7]); break;
    case PREVIOUS: v = ordered_previous(AXIS_OF(in), in[6], in[7]); break;
    case VALUES: s = ordered_values(AXIS_OF(in), in[6]); break;
    case SEGMENT_MAP: p = ordered_segment_map(AXIS_OF(in), in[6], in[7], in[8], in[9], in[10]); break;
    case SEGMENT_SIZE: n = ordered_segment_size(AXIS_OF(in)); break;
    case SEGMENT_INDEX_OF: n = ordered_segment_index_of(AXIS_OF(in), in[6], in[7], in[8]); break;
    default: g = ordered_segment_from_index(AXIS_OF(in), in[6]);
    }
    out[0] = v.status + n.status + s.status + p.status + g.status;
    out[1] = v.head + n.value + s.head + p.pixel + g.segment;
    out[2] = v.tail + s.tail + g.head;
    out[3] = s.next + g.tail;
    return fine_flags(p);
}

/* All operations on indices and segments: their rows, and that each question of each has its rows. */
static int compare_askings(void) {
    static const struct {
        const char *name;
        int asked[9], count;
    } operations[] = {
        {"ordered_unmap", {1, 2, 3, 4, 14, 7, 10}, 7},  {"ordered_size", {1, 2, 3, 4, 14}, 5},
        {"ordered_index_of", {1, 2, 3, 4, 14, 8}, 6},   {"ordered_from_index", {1, 2, 3, 4, 14, 8, 10}, 7},
        {"ordered_next", {1, 2, 3, 4, 14, 8, 10}, 7},   {"ordered_previous", {1, 2, 3, 4, 14, 8, 10}, 7},
        {"ordered_values", {1, 2, 3, 4, 14, 8, 10}, 7}, {"ordered_segment_map", {1, 2, 3, 4, 14, 7, 8, 9, 10}, 9},
        {"ordered_segment_size", {1, 2, 3, 4, 14}, 5},  {"ordered_segment_index_of", {1, 2, 3, 4, 14, 8}, 6},
        {"ordered_segment_from_index", {1, 2, 3, 4, 14, 8, 10}, 7},
    };
    int calls = 0;
    for (int bit = 0; bit < COUNT(operations); bit++) {
        struct seen seen = {0};
        for (int i = 0; i < COUNT(askings); i++) {
            const struct asking *row = &askings[i];
            if (!(row->operations >> bit & 1))
                continue;
            int64_t got[4], want[4] = {row->status, row->out[0], row->out[1], row->out[2]};
            expect(ask(1 << bit, row->in, got), operations[bit].name, row->why);
            calls++;
            see(&seen, row->status, row->also);
            if (memcmp(got, want, sizeof want)) {
                differences++;
                printf("  %s, row %d, %s: expected %" PRId64 " %" PRId64 " %" PRId64 " %" PRId64 ", got %" PRId64 " %" PRId64
                       " %" PRId64 " %" PRId64 "\n", operations[bit].name, i + 1, row->why, want[0], want[1], want[2],
                       want[3], got[0], got[1], got[2], got[3]);
            }
        }
        expect_all_covered(operations[bit].name, &seen, operations[bit].asked, operations[bit].count);
    }
    return calls;
}

int main(void) {
    setvbuf(stdout, NULL, _IOLBF, 0); /* what was printed stays if a sanitizer ends the run */
    struct seen maps = {0};
    for (int i = 0; i < COUNT(mappings); i++) {
        const struct mapping *row = &mappings[i];
        const int64_t *in = row->in;
        see(&maps, row->status, row->also);
        ordered_pixel r = ordered_map(AXIS_OF(in), in[6], in[7], in[8], in[9]);
        if (r.status != row->status || r.pixel != row->pixel) {
            differences++;
            printf("  ordered_map, row %d, %s: expected %" PRId64 " %" PRId64 ", got %" PRId64 " %" PRId64 "\n", i + 1,
                   row->why, row->status, row->pixel, r.status, r.pixel);
        }
        expect(fine_flags(r), "ordered_map, its flags", row->why);
    }
    expect_all_covered("ordered_map", &maps, (const int[]){1, 3, 4, 14, 5, 7, 8, 9, 10}, 9);
    compare_listings("ticks", listings, COUNT(listings), false, (const int[]){1, 3, 4, 14, 5, 6, 11}, 7);
    compare_listings("segment ticks", segment_listings, COUNT(segment_listings), true, (const int[]){1, 2, 3, 4, 14, 6, 11}, 7);
    compare_ruled();
    struct seen steps = {0};
    for (int i = 0; i < COUNT(periods); i++) {
        const struct period *row = &periods[i];
        const int64_t *in = row->in;
        ordered_period r = ordered_period_per_point(AXIS_OF(in), in[6]);
        see(&steps, row->status, row->also);
        if (r.status != row->status || r.nanoseconds != row->nanoseconds) {
            differences++;
            printf("  ordered_period_per_point, row %d, %s: expected %" PRId64 " %" PRId64 ", got %" PRId64 " %" PRId64 "\n",
                   i + 1, row->why, row->status, row->nanoseconds, r.status, r.nanoseconds);
        }
    }
    expect_all_covered("ordered_period_per_point", &steps, (const int[]){1, 2, 3, 4, 14, 5, 6}, 7);
    int index_calls = compare_askings();
    for (int i = 0; i < COUNT(numberings); i++) {
        const struct numbering *row = &numberings[i];
        ordered_number r = ordered_day_number(row->in[0], row->in[1], row->in[2]);
        expect(r.status == row->status && r.value == row->number, "ordered_day_number", row->why);
    }
    for (int i = 0; i < COUNT(datings); i++) {
        const struct dating *row = &datings[i];
        ordered_date r = ordered_date_of(row->number);
        bool same = r.status == row->status && r.year == row->year && r.month == row->month && r.day == row->day;
        expect(same, "ordered_date_of", row->why);
    }
    struct seen weeks = {0};
    for (int i = 0; i < COUNT(week_numberings); i++) {
        const struct week_numbering *row = &week_numberings[i];
        ordered_number r = ordered_week_day_number(row->in[0], row->in[1], row->in[2]);
        see(&weeks, row->status, row->also);
        expect(r.status == row->status && r.value == row->number, "ordered_week_day_number", row->why);
    }
    expect_all_covered("ordered_week_day_number", &weeks, (const int[]){13, 10}, 2);
    for (int i = 0; i < COUNT(week_datings); i++) {
        const struct week_dating *row = &week_datings[i];
        ordered_week_date r = ordered_week_date_of(row->number);
        bool same = r.status == row->status && r.year == row->year && r.week == row->week && r.weekday == row->weekday;
        expect(same, "ordered_week_date_of", row->why);
    }
    printf("refusals: %d mappings, %d lists and their counts, %d lists of segments, %d tables, %d lists by tables and their "
           "counts, %d periods, %d of unmapping, indices and segments, %d dates, %d day numbers, %d week dates and their day "
           "numbers, %d differences\n", COUNT(mappings), COUNT(listings), COUNT(segment_listings), COUNT(rulings), COUNT(ruled),
           COUNT(periods), index_calls, COUNT(numberings), COUNT(datings), COUNT(week_numberings) + COUNT(week_datings),
           differences);
    return differences > 0;
}
