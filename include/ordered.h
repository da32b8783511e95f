/* Ordered: the date axes of printed charts, proved. The C interface of libordered.a.
   New: house rules. A publisher's own table gives a date axis its ticks by the length of its span: ordered_rules reads the table,
   ordered_ticks_ruled and ordered_count_ruled list by it. A table is asked 12, which was plate's alone, 15 and 16. Every other
   call answers as it did before.

   An axis is six numbers. The sixth, end_excluded, is 0 where the end belongs to the axis; any other number excludes it, on kinds
   1, 2, 3 and 8. "To 1 April" then means up to 31 March: ticks, counts, size, indices, values and unmapping are those of the axis
   that ends a day earlier, while the pixels of values are still measured to the written end.

   Every parameter is an int64_t, a slice a pointer and its length: the bytes of a table, which are only read, or lent numbers.
   Every answer is a struct of int64_t by value.

   status: 0 answered, -1 none (no refusal), else the number of the question that refused the call. All other fields are 0
   unless answered, but for a cursor's next at none; a refused call writes nothing.
   Any numbers and bytes may be handed in: no call traps, wraps or runs without end. A lent slice is lent_len numbers that the
   caller may write, a table table_len bytes; NULL may be handed in with length 0, for a table too. Slices that are handed in
   together do not overlap. ORDERED_LENT_MOST numbers have room for every list by a hint, ORDERED_LENT_RULED_MOST for every list
   by a table.
   Nothing is allocated and no state is kept: calls may be made on several threads at once, each with a lent slice of its own. A
   call takes less than 1 KiB of stack, one with a table less than 24 KiB.

   A kind is 1 date, 2 monthly and 3 yearly over dates, 4 date-time, 5 monthly and 6 yearly over date-times, 7 duration, 8 weekly
   over dates. A value is head and tail: a date is its day number (0001-01-01 is 1, a Monday) and 0; a date-time its day number
   and the nanosecond of the day; a duration its seconds, rounded down, and nanoseconds 0 to 999999999. A week begins on Monday.
   The limits are the pixels of start and end.

   Questions are asked in this order, where they apply; the first no gives its number:
   12  asked here, before 1: the table reads, its numbers are in their ranges, and it has at most 64 rows
   15  asked here, before 1: each length from 0 to 3652058 days has a row of the table
   16  asked here, before 1: no length has two rows or more
   1   the kind is 1 to 8
   2   the kind has this operation
   3   start and end are values of the kind: days 1 to 3652059, durations within 315576000000 seconds
   4   start is no later than end
   14  asked here, after 4: the end belongs to the axis, or it is excluded on kind 1, 2, 3 or 8 and is not the start
   5   kind 7: both ends are within 4 * 10^18 ns of zero, or the span is above 2^63 - 1 ns
   6   a hint's numbers are 0 to 4096, and N is at least 1 on the kinds 4 to 7
   7   each limit and pixel is -32767 to 32767; to unmap, the limits differ
   8   the value is one of the kind; a segment is 1 to 3; the index or place is 0 to 3652059; the year, month and day are a
       date of the years 1 to 9999; the day number is 1 to 3652059
   9   to map: start is before end, or the value is start; to map a segment, first: the size is at least 1, and the last one is
       asked only that
   10  the answer and each sum on the way fit 32 bits, a date answered or mapped is one of the days of 3, an unmapped index
       one of 8
   11  the lent slice has two numbers for each tick
   13  of a week date, before 10: the year is 1 to 9999 and has the week, the weekday is 1 to 7
   Beside each declaration stand the questions that can refuse it. docs/C.md has an example of each call. */
#ifndef ORDERED_H
#define ORDERED_H

#include <stddef.h>
#include <stdint.h>

#ifdef __cplusplus
extern "C" {
#endif

enum ordered_kinds {
    ORDERED_KIND_DATE = 1,
    ORDERED_KIND_MONTH,
    ORDERED_KIND_YEAR,
    ORDERED_KIND_STAMP,
    ORDERED_KIND_STAMP_MONTH,
    ORDERED_KIND_STAMP_YEAR,
    ORDERED_KIND_SPAN,
    ORDERED_KIND_WEEK
};

enum ordered_segments { ORDERED_SEGMENT_EXACT = 1, ORDERED_SEGMENT_CENTRE, ORDERED_SEGMENT_LAST };

/* A status is one of these two, or a question. */
enum ordered_statuses { ORDERED_NONE = -1, ORDERED_ANSWERED = 0 };

enum ordered_questions {
    ORDERED_QUESTION_KIND = 1,
    ORDERED_QUESTION_OPERATION,
    ORDERED_QUESTION_ENDS,
    ORDERED_QUESTION_ORDER,
    ORDERED_QUESTION_DURATION,
    ORDERED_QUESTION_HINT,
    ORDERED_QUESTION_LIMITS,
    ORDERED_QUESTION_VALUE,
    ORDERED_QUESTION_LENGTH,
    ORDERED_QUESTION_RANGE,
    ORDERED_QUESTION_ROOM,
    ORDERED_QUESTION_TABLE,
    ORDERED_QUESTION_WEEK_DATE,
    ORDERED_QUESTION_EXCLUDED_END,
    ORDERED_QUESTION_GAP,
    ORDERED_QUESTION_OVERLAP
};

/* Numbers that have room for every list by a hint: none lists more than 4097 ticks. */
#define ORDERED_LENT_MOST 8194

/* Numbers that have room for every list by a table: no span has more than 3652059 days. These are 56 MiB: ask for the count
   first, and lend two for each tick. */
#define ORDERED_LENT_RULED_MOST 7304118

/* The six numbers of an axis, as parameters; end_excluded is 0 where the end belongs to it. */
#define ORDERED_AXIS \
    int64_t kind, int64_t start_head, int64_t start_tail, int64_t end_head, int64_t end_tail, int64_t end_excluded

typedef struct { int64_t status, value; } ordered_number; /* a day number, a count of ticks or rows, a size, an index */
/* exact: 1 where low plus the position, not cut, is a whole number and is the pixel, else 0. lost: 1 where the offset or the span
   that was divided is no double, so that it was rounded, else 0; what lost something may be exact. Both are 0 if refused. */
typedef struct { int64_t status, pixel, exact, lost; } ordered_pixel;
typedef struct { int64_t status, nanoseconds; } ordered_period;
typedef struct { int64_t status, head, tail; } ordered_value;
typedef struct { int64_t status, year, month, day; } ordered_date;
typedef struct { int64_t status, year, week, weekday; } ordered_week_date; /* weekday: 1 is Monday, 7 Sunday */
typedef struct { int64_t status, head, tail, next; } ordered_step; /* next: the next place of the cursor */
typedef struct { int64_t status, segment, head, tail; } ordered_segment; /* segment: 1 exact, 2 centre, 3 last */

/* The day number of a date of ISO 8601's calendar; 0001-01-01 is 1, 9999-12-31 is 3652059. Refused by 8. */
ordered_number ordered_day_number(int64_t year, int64_t month, int64_t day);

/* The date of a day number. Refused by 8. */
ordered_date ordered_date_of(int64_t day_number);

/* The day number of a week date of ISO 8601: a week is of the year that has its Thursday, week 1 has the year's first one. A
   year has 53 weeks where it begins on a Thursday, or is a leap year and begins on a Wednesday, else 52. 10 refuses 9999-W52-6
   and 9999-W52-7 alone. Refused by 13, 10. */
ordered_number ordered_week_day_number(int64_t year, int64_t week, int64_t weekday);

/* The week date of a day number; every day has one of the years 1 to 9999. Refused by 8. */
ordered_week_date ordered_week_date_of(int64_t day_number);

/* The pixel of a value on an axis; the high limit is that of the written end, excluded or not.
   Of a value from start to end pixel - low is within one of (high - low) * offset / span, cut toward zero; on kinds 1, 2, 3 and
   8 it is that, or one nearer the low limit where nothing was to be cut. The smallest numbers that fall one short: on kind 4 the
   end of 1, 1 to 8, 0 between 0 and 15 is at 14, on kind 1 that of 1 to 1808 between 0 and 3781 at 3780, on kind 7 that of -1, 0
   to 0, 0 between 1 and 0 at 1. The start is at low, the end at high or one short of it.
   exact is 1 where pixel - low is (high - low) * offset / span with nothing cut, of values outside the span too; in whole days
   where the mapping divides these, as it does where the span, or on all kinds but 7 the offset, is beyond 64 bits of nanoseconds.
   It is 1 of the start, 0 where zero whole days are the divisor, and 0 of a duration that is at high since its offset, but not
   the span, is beyond 64 bits. lost is 0 on kinds 1, 2, 3 and 8 and in whole days.
   Refused by 1, 3, 4, 14, 5, 7, 8, 9, 10. */
ordered_pixel ordered_map(ORDERED_AXIS, int64_t low, int64_t high, int64_t head, int64_t tail);

/* The value at a pixel, all kinds but 7. It does not undo ordered_map: on the kinds with indices the limits part the size, in
   which an excluded end does not count, and the high limit is one past the last. For the day, week, month or year under a
   pointer let the pixel be at least low and below high (at most low and above high, where the limits are swapped): then, where
   the size is at least 1, no value is past the last, and 10 refuses only on kind 5 with a start of 9999-12-31 00:00:01 or later.
   Refused by 1, 2, 3, 4, 14, 7, 10. */
ordered_value ordered_unmap(ORDERED_AXIS, int64_t low, int64_t high, int64_t pixel);

/* The step between ticks of the kinds 4 and 7, for at most n + 1 of them. None where whole days are listed: on kind 4 from
   10^14 ns for each of the n on, on both kinds where the span is above 2^63 - 1 ns. Refused by 1, 2, 3, 4, 14, 5, 6. */
ordered_period ordered_period_per_point(ORDERED_AXIS, int64_t n);

/* The ticks of an axis for a bold hint of n, at most n + 1: their count. Head and tail of each stand at the front of the lent
   numbers, in order; the numbers behind them are unchanged. No tick stands on an excluded end or after it. Kind 8 lists the first
   Monday of the span and every m-th after it, with the least m from 1 on that has at most n + 1 of them; without a Monday none.
   Kind 4 without a period lists what kind 1 lists for n: from the date of the start, or from the day after it where the start's
   time is 00:00:01 or later, to the date of the end. Refused by 1, 3, 4, 14, 5, 6, 11. */
ordered_number ordered_ticks_bold(ORDERED_AXIS, int64_t n, int64_t *lent, size_t lent_len);

/* The same for a light hint, a bold count and a limit n: the ticks of the finer axis where the size is at most twice the
   bold count, from years to months, from months to days (kind 2 to 1) or times (5 to 4). Kinds 1, 4, 7 and 8 go to no other
   axis: the bold count changes nothing there. Refused by 1, 3, 4, 14, 5, 6, 11. */
ordered_number ordered_ticks_light(ORDERED_AXIS, int64_t bold, int64_t n, int64_t *lent, size_t lent_len);

/* The answers of the two above for a lent slice of that length, with nothing lent; on kinds 1, 2, 3, 5, 6 and 8 also those of
   the lists of segments, which kinds 4 and 7 lack. Refused by 1, 3, 4, 14, 5, 6, 11. */
ordered_number ordered_count_bold(ORDERED_AXIS, int64_t n, size_t lent_len);
ordered_number ordered_count_light(ORDERED_AXIS, int64_t bold, int64_t n, size_t lent_len);

/* House rules: the count of rows of a table. A table is bytes: the line `from to unit step`, then at most 64 rows, in any order.
   Each line ends in LF, has at most 120 bytes before it, and one space between its fields. from and to are lengths of a span in
   days, end less start, both included: 0 to 3652058, from no larger than to. The unit is day, month or year, the step 1 to 1000.
   A number is one of plate's: 1 to 12 digits, and at most one minus before them, so that -0 and leading zeros read. Of an
   accepted table each length has exactly one row; the names alone have none for any, which 15 refuses. Refused by 12, 15, 16. */
ordered_number ordered_rules(const uint8_t *table, size_t table_len);

/* The ticks of a date axis, kinds 1, 2, 3 and 8, by the row for its length: their count. By days these are the start and every
   step-th day after it, by months the first of a month and by years the first of a January, from the first one in the span on
   every step-th; the end belongs to the span. With an excluded end, length and ticks are those of the axis that ends a day
   earlier. No hint limits the list: it may have a tick for each day of the span, up to 3652059. Head and tail of each stand at
   the front of the lent numbers, in order; the numbers behind them are unchanged. Refused by 12, 15, 16, 1, 2, 3, 4, 14, 11. */
ordered_number ordered_ticks_ruled(ORDERED_AXIS, const uint8_t *table, size_t table_len, int64_t *lent, size_t lent_len);

/* The answer of the one above for a lent slice of that length, with nothing lent. Refused by 12, 15, 16, 1, 2, 3, 4, 14, 11. */
ordered_number ordered_count_ruled(ORDERED_AXIS, const uint8_t *table, size_t table_len, size_t lent_len);

/* The days, weeks, months or years of an axis; kinds 1, 2, 3, 5, 6 and 8, as all below. On kind 8 each week counts that has a day
   of the span. An excluded end is no day of the span: from 1 January to 1 April there are three months then, and not four.
   Refused by 1, 2, 3, 4, 14. */
ordered_number ordered_size(ORDERED_AXIS);

/* The index of the day, week, month or year of a value, 0 at the start; past the end too. None before the start's, but a month of
   an earlier year counts as that month of the start's. Refused by 1, 2, 3, 4, 14, 8. */
ordered_number ordered_index_of(ORDERED_AXIS, int64_t head, int64_t tail);

/* The first value of the day, week, month or year with that index, past the end too; of 0 the start or its ceiling. On kind 8 it
   is a Monday, but of 0 the start itself, which may be none. Refused by 1, 2, 3, 4, 14, 8, 10. */
ordered_value ordered_from_index(ORDERED_AXIS, int64_t index);

/* The value of the index after a value's, or before it. None past the size, or below 0. Refused by 1, 2, 3, 4, 14, 8, 10. */
ordered_value ordered_next(ORDERED_AXIS, int64_t head, int64_t tail);
ordered_value ordered_previous(ORDERED_AXIS, int64_t head, int64_t tail);

/* The values one by one: begin at place 0 and go on with next. None from the size on; next is then the place itself.
   Refused by 1, 2, 3, 4, 14, 8, 10. */
ordered_step ordered_values(ORDERED_AXIS, int64_t place);

/* Segments: each day, week, month or year of an axis reaches to its follower, and one more stands after them, the last. A
   segment is 1 exact, the left end of a value's, 2 the centre of a value's, or 3 the last; the head and tail beside 3 are not
   read. On weeks, months and years let the end be the first day of the last one: its segment is then as wide as an even part of
   the limits, to 1.5 pixels. A later end makes it wider.
   With the end excluded, size and followers go by the days before it, while pixels go to the written end, which stands an even
   part below the high limit. So between the last value's segment and the last a part stays blank: from day 1 to day 4 excluded,
   with the limits 0 and 90, the days begin at 0, 20 and 40, and the last is at 90. */

/* The pixel of a segment. The limits part the size: the last is at the high limit, the written end a part below it.
   The flags of an exact segment are those of ordered_map with the high limit a part lower. A centre is half of a sum or half a
   part further: exact is 1 where the pixels that it is made of are exact and the halving leaves nothing, lost where one of them
   lost something. Of the last exact is 1 and lost 0.
   Refused by 1, 2, 3, 4, 14, 7, 8, 9, 10. */
ordered_pixel ordered_segment_map(ORDERED_AXIS, int64_t low, int64_t high, int64_t segment, int64_t head, int64_t tail);

/* The lists of ordered_ticks_bold and ordered_ticks_light; each value stands for its centre.
   Refused by 1, 2, 3, 4, 14, 6, 11. */
ordered_number ordered_segment_ticks_bold(ORDERED_AXIS, int64_t n, int64_t *lent, size_t lent_len);
ordered_number ordered_segment_ticks_light(ORDERED_AXIS, int64_t bold, int64_t n, int64_t *lent, size_t lent_len);

/* The size of the axis and one more, for the last. Refused by 1, 2, 3, 4, 14. */
ordered_number ordered_segment_size(ORDERED_AXIS);

/* The index of a segment's value, as ordered_index_of has it; of the last one the size of the axis.
   Refused by 1, 2, 3, 4, 14, 8. */
ordered_number ordered_segment_index_of(ORDERED_AXIS, int64_t segment, int64_t head, int64_t tail);

/* The segment with that index: exact with its value, at the size of the axis the last with head and tail 0. None beyond it.
   Refused by 1, 2, 3, 4, 14, 8, 10. */
ordered_segment ordered_segment_from_index(ORDERED_AXIS, int64_t index);

/* What a status says, for a message: of a question, what was wrong. */
static inline const char *ordered_status_text(int64_t status) {
    switch (status) {
    case ORDERED_NONE: return "there is none";
    case ORDERED_ANSWERED: return "answered";
    case ORDERED_QUESTION_KIND: return "there is no such kind";
    case ORDERED_QUESTION_OPERATION: return "the kind does not have this operation";
    case ORDERED_QUESTION_ENDS: return "start or end is no value of the kind";
    case ORDERED_QUESTION_ORDER: return "the start is later than the end";
    case ORDERED_QUESTION_DURATION: return "the ends of the span are too far from zero";
    case ORDERED_QUESTION_HINT: return "the hint is out of range";
    case ORDERED_QUESTION_LIMITS: return "a limit or pixel is out of range, or the limits to unmap are equal";
    case ORDERED_QUESTION_VALUE: return "there is no such date, value, segment or index";
    case ORDERED_QUESTION_LENGTH: return "the axis has no length";
    case ORDERED_QUESTION_RANGE: return "the answer is out of range";
    case ORDERED_QUESTION_ROOM: return "too few numbers were lent";
    case ORDERED_QUESTION_TABLE: return "the table does not read, or a number in it is out of range";
    case ORDERED_QUESTION_WEEK_DATE: return "there is no such week date";
    case ORDERED_QUESTION_EXCLUDED_END: return "the end cannot be excluded on this kind, or it is the start";
    case ORDERED_QUESTION_GAP: return "the table has no row for some length";
    case ORDERED_QUESTION_OVERLAP: return "the table has more than one row for some length";
    default: return "the status is not known";
    }
}

#ifdef __cplusplus
}
#endif

#endif
