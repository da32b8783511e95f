/* House rules compared with a second implementation: rules TABLES LISTS SEED. Tables are read by tables.h: good ones, which are
   then damaged at each byte, replaced, removed or put in, and spoilt ones. Lists are found by brute force: the calendar is walked
   day by day, each day of the span is asked whether it is of the row's unit, and these are counted by the step; on kinds 1, 2, 3
   and 8, ends excluded too, from one day to the whole calendar. All lent numbers are compared, and what stands beside them.
   Exits 1 on a difference. */
#define _DEFAULT_SOURCE /* mmap */
#include <inttypes.h>
#include <stdbool.h>
#include <stdio.h>
#include <stdlib.h>
#include <string.h>

#include "calls.h"
#include "draw.h"
#include "expect.h"
#include "house.h"
#include "questions.h"

enum { DAYS = 3652059, GUARD = 5, BEHIND = 7, SHORT_SPAN = 4000, MEAN_SPAN = 3000, TABLE_STAYS = 8, COUNTED_ONE_IN = 100 };
enum { UNITS = 4, STATUSES = 17 };

/* The walk: 1 any day, 2 the first of a month, 3 the first of a January. A day is of each unit up to its own. */
static uint8_t unit_on[DAYS + 1];

static void walk(void) {
    static const int lengths[] = {31, 28, 31, 30, 31, 30, 31, 31, 30, 31, 30, 31};
    int year = 1, month = 1, day = 1;
    for (int n = 1; n <= DAYS; n++) {
        bool leap = (year % 4 == 0 && year % 100 != 0) || year % 400 == 0;
        unit_on[n] = day > 1 ? RULE_DAY : month > 1 ? RULE_MONTH : RULE_YEAR;
        if (++day > lengths[month - 1] + (leap && month == 2))
            day = 1, month++;
        if (month > 12)
            month = 1, year++;
    }
}

static struct fenced table_memory, lent_memory;
static int64_t verdicts[STATUSES], damaged, counted; /* tables by their status; of these damaged ones; counted at each length */

/* The table by a count for each length, where its rows read: tables.h goes by the rows' ends alone. */
static int64_t refuse_by_each_length(const struct rule_list *rules) {
    static int8_t changes[LAST_LENGTH + 2];
    memset(changes, 0, sizeof changes);
    for (int64_t i = 0; i < rules->count; i++)
        changes[rules->rows[i].from]++, changes[rules->rows[i].to + 1]--;
    int depth = 0, least = MOST_ROWS + 1, most = 0;
    for (int i = 0; i <= LAST_LENGTH; i++) {
        depth += changes[i];
        least = depth < least ? depth : least, most = depth > most ? depth : most;
    }
    return least < 1 ? 15 : most > 1 ? 16 : 0;
}

/* Shows the table of a difference, if it is one of the first. */
static void show(bool same, struct bytes table) {
    if (same || differences > SHOWN)
        return;
    printf("    of the table ");
    for (size_t i = 0; i < table.len; i++)
        printf(table.at[i] == '\n' ? "\\n" : table.at[i] < 32 || table.at[i] > 126 ? "\\x%02x" : "%c", table.at[i]);
    printf("\n");
}

static void compare_table(const struct text *text) {
    struct rule_list rules;
    struct bytes table = laid_out(table_memory, text);
    int64_t status = refuse_table(table, &rules), len = (int64_t)text->len;
    if (status != 12 && chance(COUNTED_ONE_IN)) {
        counted++;
        expect(refuse_by_each_length(&rules) == status, "tables.h", &len, 1, "it goes wrong by the rows' ends");
    }
    int64_t want[2] = {status, status ? 0 : rules.count}, got[2];
    ordered_number answer = ordered_rules(text->len || chance(2) ? table.at : NULL, text->len);
    numbers_of(answer, got);
    verdicts[status]++;
    expect_numbers("rules", &len, 1, got, "expected", want, 2);
    show(got[0] == want[0] && got[1] == want[1], table);
    expect(still_laid_out(table_memory, table, text), "rules", &len, 1, "bytes were written");
}

/* A good table and all that one byte makes of it, or a spoilt one, until so many were read. */
static void compare_tables(int64_t count) {
    static struct text good, text;
    struct rule rows[MOST_ROWS + 1];
    int64_t tables = 0;
    for (int i = 0; i < STORED_TABLES; i++) { /* the first ones are accepted: requests.c relies on it */
        struct rule_list rules;
        bool accepted = !refuse_table(table_at(i), &rules);
        expect(accepted == (i < ACCEPTED_TABLES), "stored table", &(int64_t){i}, 1, "another verdict");
    }
    for (text.len = 0; tables < count;) {
        int64_t rows_count = draw_rules(rows, draw_count(), INT64_MAX);
        write_rules(&good, rows, rows_count);
        compare_table(&good), tables++;
        for (int i = 0; i < 20 && tables < count; i++, tables++) {
            struct rule spoilt_rows[MOST_ROWS + 1];
            memcpy(spoilt_rows, rows, sizeof rows);
            write_rules(&text, spoilt_rows, spoil_rules(spoilt_rows, rows_count));
            compare_table(&text);
        }
        if (good.len > 200 && !chance(20)) /* of the long ones few, or nothing else would be read */
            continue;
        for (size_t at = 0; at <= good.len; at++)
            for (int way = 0; way < DAMAGES && tables < count; way++, tables++, damaged++) {
                text = good;
                damage(&text, at, way);
                compare_table(&text);
            }
    }
}

/* A span: its days, and whether a day more was written behind them, which is excluded. */
struct span {
    int64_t kind, start, last;
    bool excluded;
};

static int64_t days_asked, days_most;

/* Lengths beside the ends of a row, short ones, and any; long ones only while there is time for them. */
static int64_t draw_length(const struct rule_list *rules) {
    const struct rule *row = &rules->rows[from(0, rules->count - 1)];
    int64_t step = from(-2, 2), beside = chance(2) ? row->from + step : row->to + step;
    int64_t few = from(0, 800), any = (int64_t)any_size(LAST_LENGTH), length = few;
    switch (draw() % 8) {
    case 0:
    case 1:
    case 2: length = beside; break;
    case 3: length = any; break;
    case 4: length = from(0, 40); break;
    default:;
    }
    length = (int64_t)clamp(0, length, LAST_LENGTH);
    return length > SHORT_SPAN && (!chance(8) || days_asked + length > days_most) ? few : length;
}

/* Often at the first of a month or year, a day beside it, the first day or the last. */
static struct span draw_span(int64_t length) {
    int64_t most = DAYS - length, start = from(1, most), step = from(-1, 1);
    switch (draw() % 8) {
    case 0: start = 1; break;
    case 1: start = most; break;
    case 2: start = new_year(date_at(start).year) + step; break;
    case 3: start = start - date_at(start).day + 1 + step; break;
    default:;
    }
    start = (int64_t)clamp(1, start, most);
    return (struct span){ONE_OF(1, 2, 3, 8), start, start + length, start + length < DAYS && chance(3)};
}

/* Every day of the span is asked; a tick is each step-th of those that are of the unit, from the first on. */
static int64_t ticks_by_walk(struct span s, struct rule row, int32_t *to) {
    int64_t count = 0, left_out = 0;
    for (int64_t day = s.start; day <= s.last; day++) {
        if (unit_on[day] < row.unit)
            continue;
        if (left_out == 0)
            to[count++] = (int32_t)day;
        left_out = left_out + 1 == row.step ? 0 : left_out + 1;
    }
    days_asked += s.last - s.start + 1;
    return count;
}

static int64_t lists[UNITS][9], lists_excluded, lists_whole, ticks, too_short; /* by unit and kind; one number too few or none */

static void compare_list(struct span s, struct bytes table, const struct text *text, const struct rule_list *rules) {
    static int32_t want[DAYS];
    struct rule row = rule_for(rules, s.last - s.start);
    int64_t count = ticks_by_walk(s, row, want), excluding_number = s.excluded ? excluding() : 0;
    size_t lent_len = lent_for(count), above = chance(2) ? 0 : GUARD, all = GUARD + lent_len + above;
    int64_t *block = (int64_t *)(void *)(lent_memory.at + lent_memory.size) - all, *lent = block + GUARD;
    bool room = lent_len >= 2 * (size_t)count, none = lent_len == 0 && chance(2);
    const int64_t in[] = {s.kind, s.start, 0, s.last + s.excluded, 0, excluding_number, (int64_t)lent_len};
    int64_t expected[2] = {room ? 0 : 11, room ? count : 0}, got[2];

    fill(block, all);
    numbers_of(ordered_ticks_ruled(AXIS_OF(in), table.at, table.len, none ? NULL : lent, lent_len), got);
    expect_numbers("ticks_ruled", in, 7, got, "expected", expected, 2);
    show(got[0] == expected[0] && got[1] == expected[1], table);
    bool same = true;
    size_t written = room ? 2 * (size_t)count : 0;
    for (size_t i = 0; i < all; i++) {
        size_t at = i - GUARD;
        bool tick = i >= GUARD && at < written;
        same = same && block[i] == (!tick ? pattern(i) : at % 2 ? 0 : want[at / 2]);
    }
    expect(same, "ticks_ruled", in, 7, "the lent numbers");
    show(same, table);
    numbers_of(ordered_count_ruled(AXIS_OF(in), table.at, table.len, lent_len), got);
    expect_numbers("count_ruled", in, 7, got, "expected", expected, 2);
    numbers_of(ordered_count_ruled(AXIS_OF(in), table.at, table.len, SIZE_MAX), got);
    expect_numbers("count_ruled, all", in, 7, got, "expected", (const int64_t[]){0, count}, 2);
    expect(still_laid_out(table_memory, table, text), "ticks_ruled", in, 7, "bytes of the table were written");
    lists[row.unit][s.kind]++, ticks += count, too_short += !room;
    lists_excluded += s.excluded, lists_whole += s.last - s.start == LAST_LENGTH;
}

/* The first three lists are of all days, by each unit in turn, step 1; then drawn ones, some by one table. */
static void compare_lists(int64_t count) {
    static struct text text;
    struct rule_list rules;
    struct bytes table = {NULL, 0};
    days_most = MEAN_SPAN * count;
    for (int64_t i = 0; i < count; i++) {
        bool whole = i < RULE_YEAR, another = i <= RULE_YEAR || chance(TABLE_STAYS);
        if (whole)
            rules = (struct rule_list){{{0, LAST_LENGTH, RULE_DAY + i, 1}}, 1};
        else if (another)
            rules.count = draw_rules(rules.rows, draw_count(), INT64_MAX);
        if (another) {
            write_rules(&text, rules.rows, rules.count);
            table = laid_out(table_memory, &text);
        }
        compare_list(draw_span(whole ? LAST_LENGTH : draw_length(&rules)), table, &text, &rules);
    }
}

int main(int argc, char **argv) {
    setvbuf(stdout, NULL, _IOLBF, 0); /* what was printed stays if a sanitizer ends the run */
    if (argc != 4) {
        fprintf(stderr, "usage: rules TABLES LISTS SEED\n");
        return 1;
    }
    int64_t tables = strtoll(argv[1], NULL, 10), list_count = strtoll(argv[2], NULL, 10);
    seed_with(strtoull(argv[3], NULL, 10));
    walk();
    table_memory = fenced_off(TEXT_ROOM);
    lent_memory = fenced_off((ORDERED_LENT_RULED_MOST + BEHIND + 2 * GUARD) * sizeof(int64_t));
    compare_tables(tables);
    compare_lists(list_count);
    printf("rules: %" PRId64 " tables (%" PRId64 " with one byte changed, %" PRId64 " counted at each length): accepted %" PRId64
           ", 12: %" PRId64 ", 15: %" PRId64 ", 16: %" PRId64 "\n", tables, damaged, counted, verdicts[0], verdicts[12],
           verdicts[15], verdicts[16]);
    static const char *const units[] = {"", "days", "months", "years"};
    printf("rules: %" PRId64 " lists of kinds 1, 2, 3 and 8", list_count);
    for (int unit = RULE_DAY; unit <= RULE_YEAR; unit++)
        printf(", by %s %" PRId64 " %" PRId64 " %" PRId64 " %" PRId64, units[unit], lists[unit][1], lists[unit][2],
               lists[unit][3], lists[unit][8]);
    printf("; %" PRId64 " with the end excluded, %" PRId64 " of the whole calendar, %" PRId64 " lent too few numbers; %" PRId64
           " ticks of %" PRId64 " days\n", lists_excluded, lists_whole, too_short, ticks, days_asked);
    printf("rules: %" PRId64 " compared, %" PRId64 " differences\n", compared, differences);
    return differences > 0 || tables < 1 || list_count < 1;
}
