/* Tables of house rules for the clients: a second reading of their bytes, from document 02 and plate's page, and a few that
   request lines name by number. The lines are split first, then their fields; whether each length has a row is told by the rows'
   ends in order, and not row by row. */
#ifndef TABLES_H
#define TABLES_H

#include <stdbool.h>
#include <stddef.h>
#include <stdint.h>
#include <stdlib.h>
#include <string.h>

enum { MOST_ROWS = 64, LONGEST_LINE = 120, FIELDS_OF_ROW = 4, LAST_LENGTH = 3652058 };
enum rule_unit { RULE_DAY = 1, RULE_MONTH, RULE_YEAR };

/* Bytes, as a call takes them: a table, a line of it, a field. */
struct bytes {
    const uint8_t *at;
    size_t len;
};

struct rule {
    int64_t from, to, unit, step;
};

struct rule_list {
    struct rule rows[MOST_ROWS];
    int64_t count;
};

static inline bool bytes_are(struct bytes b, const char *text) {
    return b.len == strlen(text) && !memcmp(b.at, text, b.len);
}

/* The parts that end in the mark, at most so many; gives how many, or -1 where there are more, or bytes behind the last one. */
static inline int split_at(struct bytes b, uint8_t mark, struct bytes *parts, int most) {
    int count = 0;
    for (size_t from = 0; from < b.len;) {
        const uint8_t *end = memchr(b.at + from, mark, b.len - from);
        if (!end || count == most)
            return -1;
        parts[count++] = (struct bytes){b.at + from, (size_t)(end - b.at) - from};
        from = (size_t)(end - b.at) + 1;
    }
    return count;
}

/* A number of plate's: at most one minus, 1 to 12 digits. */
static inline bool read_whole(struct bytes field, int64_t *number) {
    char text[1 + 12 + 1] = "";
    if (field.len >= sizeof text)
        return false;
    memcpy(text, field.at, field.len);
    size_t sign = text[0] == '-', digits = strspn(text + sign, "0123456789");
    *number = strtoll(text, NULL, 10);
    return digits >= 1 && digits <= 12 && sign + digits == field.len;
}

/* Four fields with one space between them; the last one gets the space that it lacks, in a copy of the line. */
static inline bool read_rule(struct bytes line, struct rule *rule) {
    uint8_t copy[LONGEST_LINE + 1];
    struct bytes field[FIELDS_OF_ROW];
    if (line.len > LONGEST_LINE)
        return false;
    memcpy(copy, line.at, line.len);
    copy[line.len] = ' ';
    if (split_at((struct bytes){copy, line.len + 1}, ' ', field, FIELDS_OF_ROW) != FIELDS_OF_ROW)
        return false;
    rule->unit = bytes_are(field[2], "day") ? RULE_DAY : bytes_are(field[2], "month") ? RULE_MONTH
               : bytes_are(field[2], "year") ? RULE_YEAR : 0;
    return rule->unit && read_whole(field[0], &rule->from) && read_whole(field[1], &rule->to) && read_whole(field[3], &rule->step)
        && rule->from >= 0 && rule->from <= rule->to && rule->to <= LAST_LENGTH && rule->step >= 1 && rule->step <= 1000;
}

static inline int by_place(const void *a, const void *b) {
    int64_t x = ((const int64_t *)a)[0], y = ((const int64_t *)b)[0];
    return (x > y) - (x < y);
}

/* How many rows the lengths have, the least and the most: the rows' ends in order, each with what it adds. */
static inline void count_rows(const struct rule_list *rules, int64_t *least, int64_t *most) {
    int64_t ends[2 * MOST_ROWS + 2][2] = {{0, 0}, {LAST_LENGTH + 1, 0}}, depth = 0;
    size_t count = 2;
    for (int64_t i = 0; i < rules->count; i++) {
        ends[count][0] = rules->rows[i].from, ends[count++][1] = 1;
        ends[count][0] = rules->rows[i].to + 1, ends[count++][1] = -1;
    }
    qsort(ends, count, sizeof ends[0], by_place);
    *least = MOST_ROWS + 1, *most = 0;
    for (size_t i = 0; ends[i][0] <= LAST_LENGTH; i++) {
        depth += ends[i][1];
        if (ends[i + 1][0] == ends[i][0]) /* no length between them */
            continue;
        *least = depth < *least ? depth : *least;
        *most = depth > *most ? depth : *most;
    }
}

/* 0 and the rows of an accepted table; else 12, 15 or 16. */
static inline int64_t refuse_table(struct bytes table, struct rule_list *rules) {
    struct bytes lines[1 + MOST_ROWS];
    int count = split_at(table, '\n', lines, 1 + MOST_ROWS);
    if (count < 1 || !bytes_are(lines[0], "from to unit step"))
        return 12;
    for (rules->count = 0; rules->count < count - 1; rules->count++)
        if (!read_rule(lines[1 + rules->count], &rules->rows[rules->count]))
            return 12;
    int64_t least, most;
    count_rows(rules, &least, &most);
    return least < 1 ? 15 : most > 1 ? 16 : 0;
}

/* The row for a length, of an accepted table. */
static inline struct rule rule_for(const struct rule_list *rules, int64_t length) {
    int64_t i = 0;
    while (length < rules->rows[i].from || length > rules->rows[i].to)
        i++;
    return rules->rows[i];
}

/* Those that a request names by its number, from 0 on: six that are accepted, by which no list has more than 4097 ticks, then one
   or two for each refusal. */
#define NAMES "from to unit step\n"
static const char *const stored_tables[] = {
    NAMES "0 13 day 1\n14 69 day 7\n70 1095 month 1\n1096 7304 month 6\n7305 36524 year 5\n36525 3652058 year 100\n",
    NAMES "3653 3652058 year 10\n0 3652 day 28\n",
    NAMES "0 0 day 1\n1 1 day 1\n2 2 day 2\n3 3 month 1\n4 4 year 1\n5 5 day 1000\n006 000003652058 month 36\n",
    NAMES "0 3652058 month 120\n",
    NAMES "0 3652058 day 1000\n",
    NAMES "0 3652058 year 3\n",
    NAMES,
    NAMES "0 13 day 1\n15 3652058 year 3\n",
    NAMES "1 3652058 year 3\n1 1 day 1\n",
    NAMES "0 13 day 1\n13 3652058 year 3\n",
    NAMES "0 3652058 year 0\n",
    "",
};
enum { STORED_TABLES = sizeof stored_tables / sizeof stored_tables[0], ACCEPTED_TABLES = 6 };

/* What any other number names: a table that the client has drawn. */
static struct bytes drawn_table;

/* The stored one without a byte is NULL. */
static inline struct bytes table_at(int64_t number) {
    if (number < 0 || number >= STORED_TABLES)
        return drawn_table;
    const char *text = stored_tables[number];
    return (struct bytes){*text ? (const uint8_t *)text : NULL, strlen(text)};
}

#endif
