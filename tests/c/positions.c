/* Pixels compared with exact positions: width * offset / span cut toward zero, in whole numbers of 128 bits; the width is the
   high limit less the low one, offset and span are nanoseconds from the start. positions COUNT SEED draws that many mappings of
   each kind, many of them beside a whole position, and prints as a table how many pixels are not at the cut position. Exits 1 on
   a difference from what is proved of them. */
#include <inttypes.h>
#include <stdbool.h>
#include <stdio.h>
#include <stdlib.h>

#include "calls.h"
#include "draw.h"
#include "expect.h"
#include "mappings.h"
#include "questions.h"

enum { ARGUMENTS = 10 };

/* A mapping with what is known of it; the position is cut, and counts from the low limit as the pixel does. */
struct mapping {
    int64_t in[ARGUMENTS];
    wide offset, span, width, position, pixel;
    bool by_days, whole;
};

/* The columns of the table. One nearer, or one farther: than the position, from the low limit. */
enum column { MAPPINGS, WHOLE, EQUAL, NEARER_WHOLE, NEARER_ELSE, FARTHER, OTHER, COLUMNS };
static int64_t table[KINDS + 1][2][COLUMNS];

enum met {
    BY_NANOSECONDS, BY_DAYS, LONGEST_BY_NANOSECONDS, SHORTEST_BY_DAYS, WHOLE_POSITION, LIMITS_SWAPPED, LIMITS_EQUAL, LIMITS_APART,
    START_ALONE, AT_START, AT_END, END_SHORT, END_EXCLUDED, ONE_NEARER_WHOLE, ONE_NEARER_ELSE, ONE_FARTHER, METS
};
static const struct need needs[METS] = {
    {"a span in nanoseconds", ALL_KINDS}, {"a span in whole days", ALL_KINDS},
    {"the longest span in nanoseconds", ALL_KINDS & ~(1 << 7)}, /* of durations question 5 refuses it */
    {"the shortest span in whole days", ALL_KINDS}, {"a whole position", ALL_KINDS}, {"swapped limits", ALL_KINDS},
    {"equal limits", ALL_KINDS}, {"limits as far apart as they go", ALL_KINDS}, {"a start that is the end", ALL_KINDS},
    {"a value at the start", ALL_KINDS}, {"a value at the end", ALL_KINDS}, {"an end one short of the high limit", ALL_KINDS},
    {"an excluded end", DATE_KINDS}, {"a pixel one nearer at a whole position, in nanoseconds", ALL_KINDS},
    {"a pixel one nearer elsewhere, in nanoseconds", TIME_KINDS}, {"a pixel one farther, in nanoseconds", TIME_KINDS}
};
static int64_t met[KINDS + 1][METS];

static void check(bool same, const struct mapping *m, const char *otherwise) {
    expect(same, "map", m->in, ARGUMENTS, otherwise);
}

/* Until question 5, which only durations have, does not refuse it. */
static struct mapping draw_mapping(int64_t kind) {
    struct mapping m = {0};
    do
        draw_inside(kind, m.in);
    while (refuse_axis(m.in, ALL_KINDS) == 5);
    wide start = nanoseconds(kind, m.in[1], m.in[2]);
    m.offset = nanoseconds(kind, m.in[HEAD], m.in[TAIL]) - start;
    m.span = nanoseconds(kind, m.in[3], m.in[4]) - start;
    m.width = m.in[HIGH] - m.in[LOW];
    m.by_days = m.span > INT64_MAX;
    if (m.span > 0) {
        m.position = m.width * m.offset / m.span;
        m.whole = m.width * m.offset % m.span == 0;
    }
    return m;
}

/* False where the call was refused. */
static bool ask(struct mapping *m) {
    ordered_pixel answer = ordered_map(AXIS_OF(m->in), m->in[LOW], m->in[HIGH], m->in[HEAD], m->in[TAIL]);
    check(answer.status == 0, m, "refused");
    m->pixel = (wide)answer.pixel - m->in[LOW];
    return answer.status == 0;
}

static enum column column_of(const struct mapping *m) {
    if (m->pixel == m->position)
        return EQUAL;
    if (m->pixel == nearer(m->position))
        return m->whole ? NEARER_WHOLE : NEARER_ELSE;
    return m->pixel == m->position + (m->width < 0 ? -1 : 1) ? FARTHER : OTHER;
}

/* All kinds: the start is at the low limit, the end at the high one or one short of it. */
static void check_ends(const struct mapping *m) {
    if (m->offset == 0)
        check(m->pixel == 0, m, "the start is not at the low limit");
    else if (m->offset == m->span)
        check(m->pixel == m->width || m->pixel == nearer(m->width), m, "the end is not at the high limit or one short of it");
}

/* All kinds: at most one off, and not to the far side of a whole position. Kind 7 adds a little before the cut, so that its
   position in whole days may be missed. */
static void check_position(const struct mapping *m, enum column column) {
    int64_t kind = m->in[0];
    bool at = column == EQUAL || column == NEARER_WHOLE;
    check(column != OTHER, m, "more than one from its position");
    if (m->whole)
        check(at, m, "a whole position, and the pixel neither at it nor one nearer");
    if (m->by_days && kind != 7)
        check(m->pixel == m->width * (m->offset / DAY) / (m->span / DAY), m, "not at the position in whole days");
    if (of_dates(kind))
        check(at, m, "a date neither at its position nor one nearer at a whole one");
}

static void note(const struct mapping *m, enum column column) {
    int64_t kind = m->in[0], *row = table[kind][m->by_days], *seen = met[kind], border = INT64_MAX;
    row[MAPPINGS]++, row[WHOLE] += m->whole, row[column]++;
    seen[m->by_days ? BY_DAYS : BY_NANOSECONDS]++;
    seen[LONGEST_BY_NANOSECONDS] += !m->by_days && m->span > border - step_on(kind);
    seen[SHORTEST_BY_DAYS] += m->by_days && m->span - step_on(kind) <= border;
    seen[WHOLE_POSITION] += m->whole;
    seen[LIMITS_SWAPPED] += m->width < 0;
    seen[LIMITS_EQUAL] += m->width == 0;
    seen[LIMITS_APART] += m->width == WIDEST || m->width == -WIDEST;
    seen[AT_START] += m->offset == 0;
    seen[AT_END] += m->offset == m->span;
    seen[END_SHORT] += m->offset == m->span && m->pixel != m->width;
    seen[END_EXCLUDED] += m->in[EXCLUDED] != 0;
    seen[ONE_NEARER_WHOLE] += !m->by_days && column == NEARER_WHOLE;
    seen[ONE_NEARER_ELSE] += !m->by_days && column == NEARER_ELSE;
    seen[ONE_FARTHER] += !m->by_days && column == FARTHER;
}

/* Compares one more mapping. False where the start is the end: it has no position for the table, only a pixel. */
static bool compare(int64_t kind) {
    struct mapping m = draw_mapping(kind);
    if (!ask(&m))
        return true;
    check_ends(&m);
    met[kind][START_ALONE] += m.span == 0;
    if (m.span == 0)
        return false;
    enum column column = column_of(&m);
    check_position(&m, column);
    note(&m, column);
    return true;
}

static void print_table(void) {
    printf("| kind | by | mappings | whole positions | equal | one nearer, whole | one nearer, else | one farther | other |\n");
    printf("|---|---|---|---|---|---|---|---|---|\n");
    for (int row = 0; row < 2 * KINDS; row++) {
        printf("| %d | %s |", 1 + row / 2, row % 2 ? "whole days" : "nanoseconds");
        for (int column = 0; column < COLUMNS; column++)
            printf(" %" PRId64 " |", table[1 + row / 2][row % 2][column]);
        printf("\n");
    }
}

int main(int argc, char **argv) {
    int64_t mappings = count_and_seed(argc, argv);
    for (int64_t i = 0; i < mappings; i++)
        for (int64_t kind = 1; kind <= KINDS; kind++)
            while (!compare(kind))
                ;
    expect_all_met(mappings, needs, &met[0][0], METS);
    print_table();
    printf("positions: %" PRId64 " mappings of each kind, seed %s: %" PRId64 " compared, %" PRId64 " differences\n", mappings,
           argv[2], compared, differences);
    return differences > 0 || mappings < 1;
}
