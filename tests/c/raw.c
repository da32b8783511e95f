/* Calls every export with random, boundary and hostile arguments: raw COUNT SEED. Of each answer it checks the form, the number
   of the question that refuses (by questions.h), and that a value, pixel or list is one that may be answered; of each lent slice,
   that only the list was written; of a table of house rules, which may be any bytes, that nothing was, and that nothing beside it
   was read. To be run with the sanitizers. Exits 1 on a difference. */
#define _DEFAULT_SOURCE /* mmap */
#include <inttypes.h>
#include <stdbool.h>
#include <stdio.h>
#include <stdlib.h>
#include <string.h>

#include "calls.h"
#include "draw.h"
#include "expect.h"
#include "house.h"
#include "months.h"
#include "questions.h"

enum { ARGUMENTS = 11, NUMBERS = 4, QUESTIONS = 17, GUARD = 5, ENOUGH = 10000 };
enum { TABLE_STAYS = 20, RULED_TICKS = 4000, LONG_LISTS = 4000 }; /* ticks by most tables; one table in so many may list more */

/* May these numbers, the status first, be an answer to these arguments? */
typedef bool fine(const int64_t *in, const int64_t *out);

static bool fine_pixel(const int64_t *in, const int64_t *out) {
    (void)in;
    return in_range(INT32_MIN, out[1], INT32_MAX) && in_range(0, out[2], 1) && in_range(0, out[3], 1);
}

static bool fine_number(const int64_t *in, const int64_t *out) {
    (void)in;
    return in_range(0, out[1], 3652060);
}

static bool fine_rows(const int64_t *in, const int64_t *out) {
    struct rule_list rules;
    return !refuse_table(table_at(in[0]), &rules) && out[1] == rules.count;
}

static bool fine_period(const int64_t *in, const int64_t *out) {
    (void)in;
    return out[1] > 0;
}

static bool fine_value(const int64_t *in, const int64_t *out) {
    return value_of_kind(in[0], out[1], out[2]);
}

/* With indices, from the low limit on and before the high one: the value of an index below the size. */
static bool fine_unmapped(const int64_t *in, const int64_t *out) {
    int64_t size = in[0] == 4 ? 0 : size_of(in[0], in), width = in[7] - in[6], offset = in[8] - in[6];
    if (size < 1 || !(width > 0 ? in_range(0, offset, width - 1) : in_range(width + 1, offset, 0)))
        return fine_value(in, out);
    ordered_value v = ordered_from_index(AXIS_OF(in), offset * size / width);
    return v.status == 0 && v.head == out[1] && v.tail == out[2];
}

static bool fine_step(const int64_t *in, const int64_t *out) {
    return fine_value(in, out) && out[3] == in[6] + 1;
}

static bool fine_segment(const int64_t *in, const int64_t *out) {
    return out[1] == 3 ? out[2] == 0 && out[3] == 0 : out[1] == 1 && fine_value(in, out + 1);
}

static bool fine_date(const int64_t *in, const int64_t *out) {
    struct date date = date_at(in[0]);
    return out[1] == date.year && out[2] == date.month && out[3] == date.day;
}

static bool fine_day_number(const int64_t *in, const int64_t *out) {
    return out[1] == first_of_month(12 * (in[0] - 1) + in[1] - 1) + in[2] - 1;
}

static bool fine_week_date(const int64_t *in, const int64_t *out) {
    struct week_date date = week_date_at(in[0]);
    return out[1] == date.year && out[2] == date.week && out[3] == date.weekday;
}

static bool fine_week_day_number(const int64_t *in, const int64_t *out) {
    return out[1] == day_of_week_date(in[0], in[1], in[2]);
}

/* Here the month's end is asked too. */
static int64_t refuse_no_date(const int64_t *in) {
    if (refuse_day_number(in))
        return 8;
    int64_t month = 12 * (in[0] - 1) + in[1] - 1;
    return in[2] <= first_of_month(month + 1) - first_of_month(month) ? 0 : 8;
}

#define Q(question) (1u << (question))
enum { ALL = Q(1) | Q(3) | Q(4) | Q(14), SOME = ALL | Q(2), BY_INDEX = SOME | Q(8) | Q(10), TABLE = Q(12) | Q(15) | Q(16) };

/* What is taken, a letter each: a the six numbers of an axis, l a limit or pixel, v the two of a value, s a segment, h a hint's
   number, i an index or place; y, m and d a date, y, w and k a week date, n a day number; t a table. */
static const struct operation {
    const char *name, *takes;
    refusal *refusal;
    unsigned asks;
    fine *fine;
    call *call; /* one of these three */
    list_call *list;
    count_call *count;
    bool none;
    int place; /* at none the last number is this argument; 0: none is all zeros */
    bool whole; /* the refusal has question 10 too */
} operations[] = {
    {"day_number", "ymd", refuse_no_date, Q(8), fine_day_number, .call = call_day_number},
    {"date_of", "n", refuse_date_of, Q(8), fine_date, .call = call_date_of},
    {"week_day_number", "ywk", refuse_week_day_number, Q(10) | Q(13), fine_week_day_number, .call = call_week_day_number,
     .whole = true},
    {"week_date_of", "n", refuse_date_of, Q(8), fine_week_date, .call = call_week_date_of},
    {"map", "allv", refuse_map, ALL | Q(5) | Q(7) | Q(8) | Q(9) | Q(10), fine_pixel, .call = call_map},
    {"unmap", "alll", refuse_unmap, SOME | Q(7) | Q(10), fine_unmapped, .call = call_unmap},
    {"period", "ah", refuse_period, SOME | Q(5) | Q(6), fine_period, .call = call_period, .none = true},
    {"ticks_bold", "ah", refuse_ticks_bold, ALL | Q(5) | Q(6) | Q(11), NULL, .list = list_bold},
    {"ticks_light", "ahh", refuse_ticks_light, ALL | Q(5) | Q(6) | Q(11), NULL, .list = list_light},
    {"count_bold", "ah", refuse_ticks_bold, ALL | Q(5) | Q(6) | Q(11), NULL, .count = count_bold},
    {"count_light", "ahh", refuse_ticks_light, ALL | Q(5) | Q(6) | Q(11), NULL, .count = count_light},
    {"rules", "t", refuse_rules, TABLE, fine_rows, .call = call_rules},
    {"ticks_ruled", "at", refuse_ruled, TABLE | SOME | Q(11), NULL, .list = list_ruled},
    {"count_ruled", "at", refuse_ruled, TABLE | SOME | Q(11), NULL, .count = count_ruled},
    {"size", "a", refuse_size, SOME, fine_number, .call = call_size},
    {"index_of", "av", refuse_by_value, SOME | Q(8), fine_number, .call = call_index_of, .none = true},
    {"from_index", "ai", refuse_by_index, BY_INDEX, fine_value, .call = call_from_index},
    {"next", "av", refuse_by_value, BY_INDEX, fine_value, .call = call_next, .none = true},
    {"previous", "av", refuse_by_value, BY_INDEX, fine_value, .call = call_previous, .none = true},
    {"values", "ai", refuse_by_index, BY_INDEX, fine_step, .call = call_values, .none = true, .place = 6},
    {"segment_map", "allsv", refuse_segment_map, BY_INDEX | Q(7) | Q(9), fine_pixel, .call = call_segment_map},
    {"segment_ticks_bold", "ah", refuse_segment_ticks_bold, SOME | Q(6) | Q(11), NULL, .list = list_segment_bold},
    {"segment_ticks_light", "ahh", refuse_segment_ticks_light, SOME | Q(6) | Q(11), NULL, .list = list_segment_light},
    {"segment_size", "a", refuse_size, SOME, fine_number, .call = call_segment_size},
    {"segment_index_of", "asv", refuse_by_segment, SOME | Q(8), fine_number, .call = call_segment_index_of, .none = true},
    {"segment_from_index", "ai", refuse_by_index, BY_INDEX, fine_segment, .call = call_segment_from_index, .none = true},
};
enum { OPERATIONS = sizeof operations / sizeof operations[0] };

static int64_t seen[OPERATIONS][QUESTIONS + 1]; /* by status, -1 first */

static struct fenced table_memory;
static struct text table_text;

/* The table that the next calls take, between fences. */
static void draw_table(void) {
    draw_text(&table_text, chance(LONG_LISTS) ? INT64_MAX : RULED_TICKS);
    drawn_table = laid_out(table_memory, &table_text);
}

static bool is_ruled(const struct operation *o) {
    return o->list == list_ruled || o->count == count_ruled;
}

/* Any bits; any number of bits; a bound of some question or of a type, or beside one. */
static int64_t hostile(void) {
    int64_t bits = (int64_t)draw(), bound, step;
    switch (draw() % 4) {
    case 0: return bits;
    case 1: return bits >> from(0, 63);
    default:
        bound = ONE_OF(0, 7, 8, 12, 31, 53, 4096, 9999, 32767, 65534, LAST_DAY, INT32_MAX, SECOND - 1, DAY - 1, LAST_SECOND, NEAR,
                       NEAR / SECOND, INT64_C(1) << 32, INT64_C(1) << 53, INT64_MAX - 1, INT64_MIN + 1, INT32_MIN, -LAST_SECOND,
                       -32767, -NEAR);
        step = ONE_OF(-1, 0, 1);
        return bound + step;
    }
}

/* Arguments that the first questions mostly let pass. */
static int plain_arguments(const char *takes, int64_t *in) {
    int64_t *to = in;
    axis a = axis_of(from(1, 8));
    if (a.kind == 5 && chance(8)) /* from here on its ceiling is in the year 10000 */
        a.end = last_place(5), a.start = a.end - any_size(DAY);
    for (; *takes; takes++) {
        value v = value_at(a.kind, place_on(a.kind, a.start + (chance(4) ? 0 : offset_on(a))));
        value start = value_at(a.kind, a.start), end = value_at(a.kind, a.end);
        switch (*takes) {
        case 'a':
            *to++ = a.kind, *to++ = start.head, *to++ = start.tail, *to++ = end.head, *to++ = end.tail;
            *to++ = chance(of_dates(a.kind) ? 2 : 8) ? excluding() : 0;
            break;
        case 'v': *to++ = v.head, *to++ = v.tail; break;
        case 'l': *to++ = limit(); break;
        case 's': *to++ = from(1, 3); break;
        case 'h': *to++ = hint_on(a.kind); break;
        case 'i': *to++ = (int64_t)any_size(LAST_DAY); break;
        case 'y': *to++ = chance(8) ? 9999 : from(1, 9999); break;
        case 'm': *to++ = from(1, 12); break;
        case 'd': *to++ = from(1, 31); break;
        case 'w': *to++ = chance(4) ? 52 : from(1, 53); break;
        case 'k': *to++ = from(1, 7); break;
        case 't': *to++ = chance(8) ? from(0, STORED_TABLES - 1) : -1; break; /* -1, as any other: the drawn one */
        default: *to++ = from(1, LAST_DAY);
        }
    }
    return (int)(to - in);
}

/* One in eight has nothing but hostile numbers, two in eight have one or two among plain ones. */
static int arguments_for(const char *takes, int64_t *in) {
    int count = plain_arguments(takes, in);
    switch (draw() % 8) {
    case 0:
        for (int i = 0; i < count; i++)
            in[i] = hostile();
        break;
    case 1: in[draw() % (uint64_t)count] = hostile(); /* fall through */
    case 2: in[draw() % (uint64_t)count] = hostile(); break;
    default:;
    }
    return count;
}

/* The status of a call, and whether it may be that one. */
static bool fine_status(const struct operation *o, const int64_t *in, int64_t status) {
    int64_t number = o->refusal(in);
    if (!in_range(-1, status, QUESTIONS - 1) || (status == -1 && !o->none) || (status > 0 && !(o->asks >> status & 1)))
        return false;
    seen[o - operations][status + 1]++;
    return number ? status == number : status < 1 || (in_range(10, status, 11) && !o->whole);
}

static void compare_call(const struct operation *o, const int64_t *in, int arguments) {
    int64_t out[NUMBERS];
    int count = o->call(in, out);
    if (!fine_status(o, in, out[0]))
        expect(false, o->name, in, arguments, "the status");
    else if (out[0] == 0 && !o->fine(in, out))
        expect(false, o->name, in, arguments, "the answer");
    for (int i = 1; i < count && out[0]; i++)
        if (out[i] != (out[0] == -1 && o->place && i == count - 1 ? in[o->place] : 0))
            expect(false, o->name, in, arguments, "a field beside no answer");
}

static bool later(const int64_t *a, const int64_t *b) {
    return a[0] > b[0] || (a[0] == b[0] && a[1] > b[1]);
}

/* At most N and one, by a table at most one for each day. */
static bool fine_count(const struct operation *o, const int64_t *in, int arguments, int64_t count) {
    return in_range(0, count, is_ruled(o) ? last_day(in) - in[1] + 1 : in[arguments - 1] + 1);
}

/* Each later than the one before, none after the end, or after the day before it where it is excluded; by a table none before
   the start. */
static bool fine_list(const struct operation *o, const int64_t *in, int arguments, const int64_t *list, int64_t count) {
    const int64_t last[2] = {last_day(in), in[4]};
    for (int64_t i = 0; i < count; i++)
        if (!value_of_kind(in[0], list[2 * i], list[2 * i + 1]) || later(list + 2 * i, last)
            || (i > 0 && !later(list + 2 * i, list + 2 * i - 2)) || (is_ruled(o) && later(in + 1, list + 2 * i)))
            return false;
    return fine_count(o, in, arguments, count);
}

/* The slice is a block of its own, or the middle of one; nothing lent is also NULL. */
static void compare_list(const struct operation *o, const int64_t *in, int arguments, size_t lent_len) {
    size_t guard = chance(2) ? GUARD : 0, all = lent_len + 2 * guard;
    bool none = lent_len == 0 && chance(2);
    int64_t *block = malloc(all * sizeof *block);
    if (!block && all) {
        perror("raw");
        exit(1);
    }
    fill(block, all);
    ordered_number r = o->list(in, none ? NULL : block + guard, lent_len);
    size_t listed = r.status == 0 ? 2 * (size_t)r.value : 0;
    if (!fine_status(o, in, r.status) || (r.status && r.value))
        expect(false, o->name, in, arguments, "the status, or a count beside no answer");
    else if (listed > lent_len || (listed && !fine_list(o, in, arguments, block + guard, r.value)))
        expect(false, o->name, in, arguments, "the list"), listed = 0;
    bool kept = true;
    for (size_t i = 0; i < all; i++)
        kept = kept && (block[i] == pattern(i) || (i >= guard && i < guard + listed));
    if (!kept)
        expect(false, o->name, in, arguments, "a number that is no tick was written");
    free(block);
}

static void compare_count(const struct operation *o, const int64_t *in, int arguments, size_t lent_len) {
    ordered_number r = o->count(in, lent_len);
    if (!fine_status(o, in, r.status) || (r.status && r.value))
        expect(false, o->name, in, arguments, "the status, or a count beside no answer");
    else if (r.status == 0 && (!fine_count(o, in, arguments, r.value) || (size_t)r.value > lent_len / 2))
        expect(false, o->name, in, arguments, "the count");
}

/* No more than the list needs by much: just enough, a little less or more, or any few. */
static size_t length_for(const struct operation *o, const int64_t *in, int arguments) {
    ordered_number r = is_ruled(o)      ? count_ruled(in, SIZE_MAX)
                       : arguments == 7 ? count_bold(in, SIZE_MAX)
                                        : count_light(in, SIZE_MAX);
    int64_t length = chance(4) ? from(0, 40) : 2 * r.value + ONE_OF(0, 0, 0, 1, -1, -2, 7);
    return length < 0 || chance(20) ? 0 : (size_t)length;
}

static void compare(const struct operation *o) {
    int64_t in[ARGUMENTS];
    int arguments = arguments_for(o->takes, in);
    bool takes_table = strchr(o->takes, 't');
    if (takes_table && (!drawn_table.at || chance(TABLE_STAYS)))
        draw_table();
    if (o->call)
        compare_call(o, in, arguments);
    else if (o->list)
        compare_list(o, in, arguments, length_for(o, in, arguments));
    else
        compare_count(o, in, arguments, chance(2) ? (size_t)hostile() : (size_t)from(0, 40));
    if (takes_table && !still_laid_out(table_memory, drawn_table, &table_text))
        expect(false, o->name, in, arguments, "bytes of the table were written");
}

/* With calls enough, each operation must have had each status that it can have. */
static void expect_all_seen(int64_t count) {
    for (int i = 0; i < OPERATIONS && count / OPERATIONS >= ENOUGH; i++)
        for (int status = -1; status < QUESTIONS; status++) {
            bool can = status == 0 || (status == -1 ? operations[i].none : operations[i].asks >> status & 1);
            if (can && !seen[i][status + 1] && differences++ < SHOWN)
                printf("  %s: never the status %d\n", operations[i].name, status);
        }
}

int main(int argc, char **argv) {
    int64_t count = count_and_seed(argc, argv);
    table_memory = fenced_off(TEXT_ROOM);
    for (int64_t i = 0; i < count; i++)
        compare(&operations[draw() % OPERATIONS]);
    expect_all_seen(count);
    printf("raw: %" PRId64 " calls of %d exports, seed %s;", count, OPERATIONS, argv[2]);
    for (int status = -1; status < QUESTIONS; status++) {
        int64_t times = 0;
        for (int i = 0; i < OPERATIONS; i++)
            times += seen[i][status + 1];
        printf(" %d: %" PRId64 ",", status, times);
    }
    printf(" %" PRId64 " differences\n", differences);
    return differences > 0 || count < 1;
}
