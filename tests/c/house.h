/* Random tables of house rules, good and spoilt ones, and memory between fences: what a call reads or writes beside its slices
   ends the program. The client defines _DEFAULT_SOURCE before its first include. */
#ifndef HOUSE_H
#define HOUSE_H

#include <stdbool.h>
#include <stddef.h>
#include <stdint.h>
#include <stdio.h>
#include <stdlib.h>
#include <string.h>
#include <sys/mman.h>
#include <unistd.h>

#include "draw.h"
#include "tables.h"

/* Bytes whose neighbours on both sides can neither be read nor written. */
struct fenced {
    uint8_t *at;
    size_t size;
};

static inline struct fenced fenced_off(size_t least) {
    size_t page = (size_t)sysconf(_SC_PAGESIZE), size = (least + page - 1) / page * page;
    uint8_t *at = mmap(NULL, size + 2 * page, PROT_NONE, MAP_PRIVATE | MAP_ANONYMOUS, -1, 0);
    if (at == MAP_FAILED || mprotect(at + page, size, PROT_READ | PROT_WRITE)) {
        perror("a fence");
        exit(1);
    }
    return (struct fenced){at + page, size};
}

/* A table's text; a row has at most 47 bytes. */
enum { TEXT_ROOM = 4096, OTHER = 0xee, SEEN_BESIDE = 64 };
struct text {
    uint8_t at[TEXT_ROOM];
    size_t len;
};

/* The text at the upper fence, or at the lower one; the rest of the memory is OTHER. */
static inline struct bytes laid_out(struct fenced memory, const struct text *text) {
    uint8_t *to = chance(2) ? memory.at + memory.size - text->len : memory.at;
    memset(memory.at, OTHER, memory.size);
    memcpy(to, text->at, text->len);
    return (struct bytes){to, text->len};
}

/* Is it still as it was laid out, and what stands beside it? */
static inline bool still_laid_out(struct fenced memory, struct bytes table, const struct text *text) {
    const uint8_t *behind = table.at + table.len, *end = memory.at + memory.size;
    bool same = table.len == text->len && !memcmp(table.at, text->at, table.len);
    for (const uint8_t *p = table.at; p > memory.at && table.at - p < SEEN_BESIDE; p--)
        same = same && p[-1] == OTHER;
    for (const uint8_t *p = behind; p < end && p - behind < SEEN_BESIDE; p++)
        same = same && *p == OTHER;
    return same;
}

static inline void add_text(struct text *to, const char *more) {
    size_t len = strlen(more);
    memcpy(to->at + to->len, more, len);
    to->len += len;
}

/* Mostly as one writes it; now and then with zeros before it, up to 12 digits, or as -0. */
static inline void add_number(struct text *to, int64_t number) {
    char digits[40];
    int width = chance(10) ? (int)from(1, 12) : 1;
    if (number < 0)
        snprintf(digits, sizeof digits, "-%0*lld", width, -(long long)number);
    else
        snprintf(digits, sizeof digits, "%s%0*lld", number == 0 && chance(10) ? "-" : "", width, (long long)number);
    add_text(to, digits);
}

static inline void write_rules(struct text *to, const struct rule *rows, int64_t count) {
    static const char *const units[] = {" day ", " month ", " year "};
    to->len = 0;
    add_text(to, NAMES);
    for (int64_t i = 0; i < count; i++) {
        add_number(to, rows[i].from);
        add_text(to, " ");
        add_number(to, rows[i].to);
        add_text(to, units[rows[i].unit - 1]);
        add_number(to, rows[i].step);
        add_text(to, "\n");
    }
}

static inline int by_number(const void *a, const void *b) {
    int64_t x = *(const int64_t *)a, y = *(const int64_t *)b;
    return (x > y) - (x < y);
}

/* Unit and step of a row, so that no list by it has more than about so many ticks. */
static inline void draw_step(struct rule *row, int64_t most) {
    static const int64_t days[] = {1, 30, 365};
    do {
        int64_t any = from(1, 1000);
        row->unit = from(RULE_DAY, RULE_YEAR);
        row->step = ONE_OF(1, 1, 2, 3, 7, 10, 12, 100, 999, 1000, any, any);
    } while (row->to / (days[row->unit - 1] * row->step) > most);
}

/* All lengths parted into rows at drawn ends, small ones as often as large ones; then the rows are shuffled. */
static inline int64_t draw_rules(struct rule *rows, int64_t count, int64_t most) {
    int64_t ends[MOST_ROWS] = {LAST_LENGTH};
    for (int64_t i = 1; i < count; i++) {
        ends[i] = (int64_t)any_size(LAST_LENGTH - 1);
        for (int64_t j = 0; j < i; j++)
            if (ends[j] == ends[i]) { /* no two rows end alike */
                i--;
                break;
            }
    }
    qsort(ends, (size_t)count, sizeof ends[0], by_number);
    for (int64_t i = 0; i < count; i++) {
        rows[i].from = i ? ends[i - 1] + 1 : 0, rows[i].to = ends[i];
        draw_step(&rows[i], most);
    }
    for (int64_t i = count - 1; i > 0; i--) {
        int64_t j = from(0, i);
        struct rule row = rows[i];
        rows[i] = rows[j], rows[j] = row;
    }
    return count;
}

/* Mostly a few rows, now and then as many as there may be. */
static inline int64_t draw_count(void) {
    return chance(30) ? from(MOST_ROWS - 1, MOST_ROWS) : chance(4) ? from(1, MOST_ROWS) : from(1, 6);
}

/* One or two faults: lengths without a row or with two, ends and steps out of order or range, a row too many. Room for one row
   more than there may be. */
static inline int64_t spoil_rules(struct rule *rows, int64_t count) {
    for (int64_t faults = chance(3) ? 2 : 1; faults > 0 && count > 0; faults--) {
        struct rule *row = &rows[from(0, count - 1)];
        int64_t end = row->to;
        switch (draw() % 12) {
        case 0: *row = rows[--count]; break;
        case 1:
            if (count <= MOST_ROWS)
                rows[count++] = *row;
            break;
        case 2: row->from++; break;
        case 3: row->from--; break;
        case 4: row->to++; break;
        case 5: row->to--; break;
        case 6: row->to = row->from, row->from = end; break;
        case 7: row->step = ONE_OF(0, -1, 1001, 1000, INT64_C(4294967297), INT64_C(999999999999)); break;
        case 8: row->to = ONE_OF(LAST_LENGTH + 1, LAST_LENGTH, INT64_C(4294967296), INT64_C(1000000000000)); break;
        case 9: row->from = ONE_OF(-1, 0, 1, -INT64_C(4294967296), INT64_C(4294967296)); break;
        case 10: /* as many as there may be, or one more */
            for (int64_t most = MOST_ROWS + from(0, 1); count < most; count++) {
                row = &rows[from(0, count - 1)];
                rows[count] = *row;
                if (row->from < row->to) /* parted in two */
                    row->to = from(row->from, row->to - 1), rows[count].from = row->to + 1;
            }
            break;
        default: row->from = 0, row->to = LAST_LENGTH;
        }
    }
    return count;
}

/* A byte that stands in a table, or close to one that does, or any other. */
static inline uint8_t any_byte(void) {
    static const char near[] = "0123456789- \n \n0019daymonthyear\r\tDMY+./:,";
    return chance(4) ? (uint8_t)draw() : (uint8_t)near[draw() % sizeof near]; /* the NUL at its end too */
}

/* One byte replaced, removed or put in: at a place, in one of these three ways. */
enum { DAMAGES = 3 };
static inline void damage(struct text *text, size_t at, int way) {
    uint8_t byte = any_byte();
    size_t behind = text->len - at;
    if (way == 0 && behind)
        text->at[at] = byte == text->at[at] ? byte ^ 1 : byte;
    else if (way == 1 && behind)
        memmove(text->at + at, text->at + at + 1, behind - 1), text->len--;
    else if (way == 2)
        memmove(text->at + at + 1, text->at + at, behind), text->at[at] = byte, text->len++;
}

/* A table for a call: good, spoilt in its rows or in a byte or two, or no table at all. */
static inline void draw_text(struct text *to, int64_t most) {
    struct rule rows[MOST_ROWS + 1];
    int64_t count = draw_rules(rows, draw_count(), most);
    int way = (int)(draw() % 8);
    if (way == 0)
        count = spoil_rules(rows, count);
    write_rules(to, rows, count);
    for (int64_t faults = way == 1 ? from(1, 2) : 0; faults > 0; faults--) {
        size_t at = draw() % (to->len + 1);
        damage(to, at, (int)(draw() % DAMAGES));
    }
    if (way == 2 && chance(4)) /* cut off */
        to->len = draw() % (to->len + 1);
    if (way == 2 && chance(4)) /* any bytes */
        for (to->len = (size_t)any_size(300), count = 0; count < (int64_t)to->len; count++)
            to->at[count] = any_byte();
}

#endif
