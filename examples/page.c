/* Draws a date axis as an SVG picture on standard output:
   page KIND START END HINT [WIDTH] [--light N] [--segments] [--to-before] [--rules FILE]
   The kind is date, month, year, stamp, stampmonth, stampyear, span or week. Start and end are YYYY-MM-DD for date, month, year
   and week, YYYY-MM-DDThh:mm:ss for the stamps, whole seconds for a span. The hint is how many ticks are wished for, the width
   in pixels. With --light up to N + 1 light ticks stand between the bold ones, grey and without a label. With --segments each
   day, week, month or year is a segment of the line, and the labels stand at the centres. With --to-before the end is not in the
   span, as in "to 1 April" for up to 31 March: there is no tick on it, but the line still goes to it. With --rules the ticks of a
   date, month, year or week axis go by the table of house rules in that file, as rules.txt is one, and not by the hint. As page
   --sheet it draws one sheet with an axis of each kind.
   A mark whose pixel is its exact position is crisp, any other softened: half as dark and over two pixels. How many are softened
   stands in the title, on the sheet beside each axis.
   Where the library refuses a call or a table, its question is named on standard error and the exit status is 1. */
#include <ctype.h>
#include <errno.h>
#include <inttypes.h>
#include <stdbool.h>
#include <stdio.h>
#include <stdlib.h>
#include <string.h>

#include "ordered.h"

enum { MARGIN = 60, LEAST_WIDTH = 200, LINE_Y = 16, HEIGHT = 52 };     /* pixels */
enum { BOLD_MARK = 6, LIGHT_MARK = 3 };                                /* the lengths of the marks */
enum { GLYPH = 6, GAP = 8, ROW = 12, LEAST_SEGMENT = 4 };              /* a letter, and the least distances, in pixels */
enum { SHEET_HEAD = 44, SHEET_LEFT = 150, SHEET_ROW = 64, EDGE = 20 }; /* the sheet: above all axes, left of them, each */
enum { TICKS = ORDERED_LENT_MOST / 2 };
enum { TABLE_ROOM = 8192 }; /* 64 rows have less than half of it: a longer file is refused by its beginning, too */
static const int64_t SECOND = 1000000000;

/* Head and tail, as the library has them. */
typedef struct {
    int64_t head, tail;
} value;

typedef struct {
    const char *name, *from, *to; /* kind, start and end, as they were given */
    int64_t kind;
    value start, end;
    int64_t hint, light, width;
    bool with_light, segments, to_before;
    const char *rules; /* the file of the table; NULL: none */
    const uint8_t *table;
    size_t table_len;
} picture;

/* The six numbers of ORDERED_AXIS, and the pixels of its ends. */
#define AXIS(p) (p)->kind, (p)->start.head, (p)->start.tail, (p)->end.head, (p)->end.tail, (p)->to_before
#define LIMITS(p) MARGIN, (p)->width - MARGIN

/* A place on the line; exact where it lies on its pixel, and is not cut to it. */
typedef struct {
    int64_t pixel;
    bool exact;
} place;

/* The same with two rows of text. */
typedef struct {
    place at;
    char upper[40], lower[40];
} label;

/* All that stands on a line: ticks or centres with their labels, the places of light ticks, and of the ends of segments. */
typedef struct {
    label bold[TICKS];
    place light[TICKS], edges[TICKS];
    int64_t bold_count, light_count, edge_count;
} marks;

static void usage(const char *what) {
    fprintf(stderr, "page: %s\nusage: page KIND START END HINT [WIDTH] [--light N] [--segments] [--to-before] [--rules FILE], or "
                    "page --sheet\n"
                    "kinds: date, month, year, week (YYYY-MM-DD); stamp, stampmonth, stampyear (YYYY-MM-DDThh:mm:ss); "
                    "span (seconds)\n", what);
    exit(2);
}

/* Goes on only where a call was answered. */
static void expect_answer(const char *call, int64_t status) {
    if (status == ORDERED_ANSWERED)
        return;
    fprintf(stderr, "page: %s: ", call);
    if (status != ORDERED_NONE)
        fprintf(stderr, "refused by question %" PRId64 ": ", status);
    fprintf(stderr, "%s\n", ordered_status_text(status));
    exit(1);
}

/* In the form, a 0 stands for any digit. */
static bool has_form(const char *text, const char *form) {
    for (; *form; text++, form++)
        if (*form == '0' ? !isdigit((unsigned char)*text) : *text != *form)
            return false;
    return !*text;
}

static int64_t read_number(const char *text) {
    char *end;
    errno = 0;
    int64_t number = strtoll(text, &end, 10);
    if (!*text || *end || errno)
        usage("a number does not read");
    return number;
}

static int64_t read_kind(const char *name) {
    static const char *const names[] = {"date", "month", "year", "stamp", "stampmonth", "stampyear", "span", "week"};
    for (int i = 0; i < ORDERED_KIND_WEEK; i++)
        if (!strcmp(name, names[i]))
            return i + 1;
    usage("the kind is not known");
    return 0;
}

/* Only the form is read here; whether the date is a real one is asked of the library. */
static value read_value(int64_t kind, const char *text) {
    int year, month, day, hour = 0, minute = 0, second = 0;
    if (kind == ORDERED_KIND_SPAN)
        return (value){read_number(text), 0};
    bool dated = kind < ORDERED_KIND_STAMP || kind == ORDERED_KIND_WEEK;
    if (!has_form(text, dated ? "0000-00-00" : "0000-00-00T00:00:00"))
        usage("start or end does not read");
    sscanf(text, "%4d-%2d-%2dT%2d:%2d:%2d", &year, &month, &day, &hour, &minute, &second);
    ordered_number number = ordered_day_number(year, month, day);
    expect_answer(text, number.status);
    if (hour > 23 || minute > 59 || second > 59)
        expect_answer(text, ORDERED_QUESTION_ENDS);
    return (value){number.value, ((hour * 60 + minute) * 60 + second) * SECOND};
}

static picture read_axis(const char *name, const char *from, const char *to) {
    picture p = {.name = name, .from = from, .to = to, .width = 800};
    p.kind = read_kind(name);
    p.start = read_value(p.kind, from), p.end = read_value(p.kind, to);
    return p;
}

/* The table's bytes, as they are; whether they may be listed by is asked of the library. */
static void read_rules(picture *p, const char *name) {
    static uint8_t bytes[TABLE_ROOM];
    FILE *file = fopen(name, "rb");
    if (file)
        p->table = bytes, p->table_len = fread(bytes, 1, sizeof bytes, file);
    if (!file || ferror(file)) {
        fprintf(stderr, "page: %s: %s\n", name, strerror(errno));
        exit(1);
    }
    fclose(file);
    p->rules = name;
    expect_answer(name, ordered_rules(p->table, p->table_len).status);
}

static picture read_arguments(int argc, char **argv) {
    if (argc < 5)
        usage("at least four arguments are needed");
    picture p = read_axis(argv[1], argv[2], argv[3]);
    p.hint = read_number(argv[4]);
    int i = 5;
    if (i < argc && argv[i][0] != '-')
        p.width = read_number(argv[i++]);
    for (; i < argc; i++)
        if (!strcmp(argv[i], "--segments"))
            p.segments = true;
        else if (!strcmp(argv[i], "--to-before"))
            p.to_before = true;
        else if (!strcmp(argv[i], "--light") && i + 1 < argc)
            p.with_light = true, p.light = read_number(argv[++i]);
        else if (!strcmp(argv[i], "--rules") && i + 1 < argc)
            read_rules(&p, argv[++i]);
        else
            usage("an option does not read");
    if (p.width < LEAST_WIDTH)
        usage("the width is at least 200");
    return p;
}

/* A fraction is shown only where there is one, without zeros at its end. */
static void write_fraction(char *to, size_t room, int64_t fraction) {
    int digits = 9;
    if (fraction == 0)
        return;
    for (; fraction % 10 == 0; fraction /= 10)
        digits--;
    snprintf(to, room, ".%0*" PRId64, digits, fraction);
}

/* The week of ISO 8601 with its own year, which may be another one than the date's. */
static void write_week(char *to, size_t room, int64_t day_number) {
    ordered_week_date w = ordered_week_date_of(day_number);
    expect_answer("ordered_week_date_of", w.status);
    snprintf(to, room, "%04" PRId64 "-W%02" PRId64, w.year, w.week);
}

/* A date, or its month where months and years are listed, but for days by a table; below it the time of a stamp, or the week. A
   span shows its seconds, which the library rounds down. */
static label label_at(const picture *p, value v, place at) {
    label l = {at, "", ""};
    if (p->kind == ORDERED_KIND_SPAN) {
        bool below = v.head < 0 && v.tail > 0;
        int64_t seconds = below ? v.head + 1 : v.head;
        int end = snprintf(l.upper, sizeof l.upper, "%s%" PRId64, below && !seconds ? "-" : "", seconds);
        write_fraction(l.upper + end, sizeof l.upper - (size_t)end, below ? SECOND - v.tail : v.tail);
        return l;
    }
    ordered_date d = ordered_date_of(v.head);
    expect_answer("ordered_date_of", d.status);
    int end = snprintf(l.upper, sizeof l.upper, "%04" PRId64 "-%02" PRId64, d.year, d.month);
    if (p->kind == ORDERED_KIND_DATE || p->kind == ORDERED_KIND_STAMP || p->kind == ORDERED_KIND_WEEK || (p->rules && d.day > 1))
        snprintf(l.upper + end, sizeof l.upper - (size_t)end, "-%02" PRId64, d.day);
    if (p->kind == ORDERED_KIND_WEEK)
        write_week(l.lower, sizeof l.lower, v.head);
    if (p->kind == ORDERED_KIND_STAMP) {
        int64_t s = v.tail / SECOND;
        end = snprintf(l.lower, sizeof l.lower, "%02" PRId64 ":%02" PRId64 ":%02" PRId64, s / 3600, s / 60 % 60, s % 60);
        write_fraction(l.lower + end, sizeof l.lower - (size_t)end, v.tail % SECOND);
    }
    return l;
}

static place segment_place(const picture *p, int64_t segment, value v) {
    ordered_pixel answer = ordered_segment_map(AXIS(p), LIMITS(p), segment, v.head, v.tail);
    expect_answer("ordered_segment_map", answer.status);
    return (place){answer.pixel, answer.exact};
}

/* Of a tick, or of the centre of its segment. */
static place tick_place(const picture *p, value v) {
    if (p->segments)
        return segment_place(p, ORDERED_SEGMENT_CENTRE, v);
    ordered_pixel answer = ordered_map(AXIS(p), LIMITS(p), v.head, v.tail);
    expect_answer("ordered_map", answer.status);
    return (place){answer.pixel, answer.exact};
}

/* By the table; it may list more ticks than a picture has room for. */
static ordered_number list_by_rules(const picture *p, int64_t *lent, size_t lent_len) {
    ordered_number count = ordered_count_ruled(AXIS(p), p->table, p->table_len, SIZE_MAX);
    expect_answer("ordered_count_ruled", count.status);
    if (count.value > TICKS) {
        fprintf(stderr, "page: %s lists %" PRId64 " ticks, and a picture has room for %d\n", p->rules, count.value, TICKS);
        exit(1);
    }
    return ordered_ticks_ruled(AXIS(p), p->table, p->table_len, lent, lent_len);
}

/* The ticks of the axis, or the centres of its segments, with their labels. */
static void list_bold(const picture *p, marks *to) {
    static int64_t lent[ORDERED_LENT_MOST];
    ordered_number count = p->rules      ? list_by_rules(p, lent, ORDERED_LENT_MOST)
                           : p->segments ? ordered_segment_ticks_bold(AXIS(p), p->hint, lent, ORDERED_LENT_MOST)
                                         : ordered_ticks_bold(AXIS(p), p->hint, lent, ORDERED_LENT_MOST);
    const char *call = p->rules ? "ordered_ticks_ruled" : p->segments ? "ordered_segment_ticks_bold" : "ordered_ticks_bold";
    expect_answer(call, count.status);
    for (to->bold_count = 0; to->bold_count < count.value; to->bold_count++) {
        value v = {lent[2 * to->bold_count], lent[2 * to->bold_count + 1]};
        to->bold[to->bold_count] = label_at(p, v, tick_place(p, v));
    }
}

static bool is_bold(const marks *m, int64_t pixel) {
    for (int64_t i = 0; i < m->bold_count; i++)
        if (m->bold[i].at.pixel == pixel)
            return true;
    return false;
}

/* The light ticks that do not stand on the pixel of a bold one; those are listed before. */
static void list_light(const picture *p, marks *to) {
    static int64_t lent[ORDERED_LENT_MOST];
    ordered_number count = p->segments
        ? ordered_segment_ticks_light(AXIS(p), to->bold_count, p->light, lent, ORDERED_LENT_MOST)
        : ordered_ticks_light(AXIS(p), to->bold_count, p->light, lent, ORDERED_LENT_MOST);
    expect_answer(p->segments ? "ordered_segment_ticks_light" : "ordered_ticks_light", count.status);
    for (int64_t i = 0; i < count.value; i++) {
        place at = tick_place(p, (value){lent[2 * i], lent[2 * i + 1]});
        if (!is_bold(to, at.pixel))
            to->light[to->light_count++] = at;
    }
}

/* The left ends of all segments, and the last at the end of the line, before which a part is blank if the end is not in the span;
   none where they would stand too close. */
static void list_edges(const picture *p, marks *to) {
    ordered_number size = ordered_size(AXIS(p));
    expect_answer("ordered_size", size.status);
    if (size.value >= TICKS || size.value * LEAST_SEGMENT > p->width - 2 * MARGIN)
        return;
    ordered_step step = ordered_values(AXIS(p), 0);
    for (; step.status == ORDERED_ANSWERED && to->edge_count < size.value; step = ordered_values(AXIS(p), step.next))
        to->edges[to->edge_count++] = segment_place(p, ORDERED_SEGMENT_EXACT, (value){step.head, step.tail});
    if (step.status != ORDERED_NONE) /* the cursor ends in none */
        expect_answer("ordered_values", step.status);
    to->edges[to->edge_count++] = segment_place(p, ORDERED_SEGMENT_LAST, p->end);
}

static void list_marks(const picture *p, marks *to) {
    list_bold(p, to);
    if (p->with_light)
        list_light(p, to);
    if (p->segments)
        list_edges(p, to);
}

static int64_t softened(const marks *m) {
    int64_t count = 0;
    for (int64_t i = 0; i < m->bold_count; i++)
        count += !m->bold[i].at.exact;
    for (int64_t i = 0; i < m->light_count; i++)
        count += !m->light[i].exact;
    for (int64_t i = 0; i < m->edge_count; i++)
        count += !m->edges[i].exact;
    return count;
}

static void write_softened(const marks *m) {
    printf("%" PRId64 " of %" PRId64 " softened", softened(m), m->bold_count + m->light_count + m->edge_count);
}

/* Below the line, which stays black. A softened mark is as a screen shows a hairline between two pixels: half of it on each of
   them, its own and the next. */
static void draw_mark(place at, int length, const char *colour) {
    if (at.exact)
        printf("<path d=\"M%" PRId64 ".5 %dv%d\" stroke=\"%s\" shape-rendering=\"crispEdges\"/>\n", at.pixel, LINE_Y + 1, length,
               colour);
    else
        printf("<path d=\"M%" PRId64 " %dv%d\" stroke=\"%s\" stroke-width=\"2\" stroke-opacity=\"0.5\"/>\n", at.pixel + 1,
               LINE_Y + 1, length, colour);
}

/* The same of a centre. */
static void draw_dot(place at, const char *radius, const char *colour) {
    if (at.exact)
        printf("<circle cx=\"%" PRId64 ".5\" cy=\"%d.5\" r=\"%s\" fill=\"%s\"/>\n", at.pixel, LINE_Y, radius, colour);
    else
        printf("<circle cx=\"%" PRId64 "\" cy=\"%d.5\" r=\"%s\" fill=\"%s\" fill-opacity=\"0.5\"/>\n", at.pixel + 1, LINE_Y,
               radius, colour);
}

static void draw_text(const label *l, int row, const char *text) {
    if (*text)
        printf("<text x=\"%" PRId64 ".5\" y=\"%d\">%s</text>\n", l->at.pixel, LINE_Y + 1 + BOLD_MARK + ROW * row, text);
}

/* A label that would touch the one before it is left out; its mark stays. */
static void draw_labels(const marks *m) {
    int64_t free_from = INT64_MIN;
    for (const label *l = m->bold; l < m->bold + m->bold_count; l++) {
        size_t upper = strlen(l->upper), lower = strlen(l->lower);
        int64_t half = GLYPH * (int64_t)(upper > lower ? upper : lower) / 2;
        if (l->at.pixel - half < free_from)
            continue;
        draw_text(l, 1, l->upper);
        draw_text(l, 2, l->lower);
        free_from = l->at.pixel + half + GAP;
    }
}

static void draw_axis(const picture *p, const marks *m) {
    printf("<path d=\"M%d %d.5H%" PRId64 "\" stroke=\"black\"/>\n", MARGIN, LINE_Y, p->width - MARGIN + 1);
    for (int64_t i = 0; i < m->light_count; i++)
        if (p->segments)
            draw_dot(m->light[i], "2", "gray");
        else
            draw_mark(m->light[i], LIGHT_MARK, "gray");
    for (int64_t i = 0; i < m->edge_count; i++)
        draw_mark(m->edges[i], BOLD_MARK, "black");
    for (int64_t i = 0; i < m->bold_count; i++)
        if (p->segments)
            draw_dot(m->bold[i].at, "2.5", "black");
        else
            draw_mark(m->bold[i].at, BOLD_MARK, "black");
    draw_labels(m);
}

/* White ground: the picture can be read on a dark page too. */
static void begin_svg(int64_t width, int64_t height) {
    printf("<svg xmlns=\"http://www.w3.org/2000/svg\" width=\"%" PRId64 "\" height=\"%" PRId64 "\" font-family=\"monospace\" "
           "font-size=\"10\" text-anchor=\"middle\">\n"
           "<rect width=\"%" PRId64 "\" height=\"%" PRId64 "\" fill=\"white\"/>\n", width, height, width, height);
}

static void draw_picture(const picture *p) {
    static marks m;
    list_marks(p, &m); /* all calls come first: a refused one leaves no half of a picture */
    begin_svg(p->width, HEIGHT);
    printf("<title>%s %s to %s%s%s, ", p->name, p->from, p->to_before ? "before " : "", p->to,
           p->rules ? " by house rules" : "");
    write_softened(&m);
    printf("</title>\n");
    draw_axis(p, &m);
    printf("</svg>\n");
}

/* The axes of the sheet: hint and limit of the light hint stand beside start and end. */
static const struct {
    const char *name, *from, *to;
    int64_t hint, light;
} sheet[] = {
    {"date", "2021-03-01", "2021-08-31", 6, 30},
    {"month", "2021-01-01", "2022-12-31", 8, 24},
    {"year", "1991-01-01", "2021-01-01", 6, 31},
    {"stamp", "2021-03-01T18:00:00", "2021-03-02T12:00:00", 9, 36},
    {"stampmonth", "2021-02-15T12:00:00", "2022-02-15T12:00:00", 6, 12},
    {"stampyear", "2001-01-01T00:00:00", "2021-12-31T23:59:59", 7, 21},
    {"span", "-3600", "7200", 7, 40},
    {"week", "2020-11-15", "2021-05-15", 8, 26},
};
enum { AXES = sizeof sheet / sizeof sheet[0] };

/* The kind's name, the span and how many marks are softened, left of an axis. */
static void draw_name(const picture *p, const marks *m) {
    printf("<g text-anchor=\"start\">\n<text x=\"%d\" y=\"%d\" font-size=\"12\" font-weight=\"bold\">%s</text>\n", EDGE,
           LINE_Y + 2, p->name);
    printf("<text x=\"%d\" y=\"%d\">%s</text>\n", EDGE, LINE_Y + 2 + ROW + 2, p->from);
    printf("<text x=\"%d\" y=\"%d\">to %s%s</text>\n", EDGE, LINE_Y + 2 + 2 * ROW + 2, p->to,
           p->kind == ORDERED_KIND_SPAN ? " seconds" : "");
    printf("<text x=\"%d\" y=\"%d\" fill=\"gray\">", EDGE, LINE_Y + 2 + 3 * ROW + 2);
    write_softened(m);
    printf("</text>\n</g>\n");
}

static void draw_sheet(void) {
    static picture pictures[AXES];
    static marks m[AXES];
    for (int i = 0; i < AXES; i++) { /* all calls come first here too */
        picture *p = &pictures[i];
        *p = read_axis(sheet[i].name, sheet[i].from, sheet[i].to);
        p->hint = sheet[i].hint, p->light = sheet[i].light, p->with_light = true;
        list_marks(p, &m[i]);
    }
    begin_svg(SHEET_LEFT + pictures[0].width, SHEET_HEAD + AXES * SHEET_ROW);
    printf("<title>an axis of each kind</title>\n");
    printf("<text x=\"%d\" y=\"26\" font-size=\"13\" text-anchor=\"start\">An axis of each kind, with bold and light ticks: "
           "crisp on their exact pixel, softened elsewhere</text>\n", EDGE);
    for (int i = 0; i < AXES; i++) {
        printf("<g transform=\"translate(0 %d)\">\n", SHEET_HEAD + i * SHEET_ROW);
        draw_name(&pictures[i], &m[i]);
        printf("<g transform=\"translate(%d 0)\">\n", SHEET_LEFT);
        draw_axis(&pictures[i], &m[i]);
        printf("</g>\n</g>\n");
    }
    printf("</svg>\n");
}

int main(int argc, char **argv) {
    if (argc == 2 && !strcmp(argv[1], "--sheet")) {
        draw_sheet();
    } else {
        picture p = read_arguments(argc, argv);
        draw_picture(&p);
    }
    if (fflush(stdout) || ferror(stdout)) {
        perror("page");
        return 1;
    }
    return 0;
}
