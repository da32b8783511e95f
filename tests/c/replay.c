/* Compares the archive with answers of the oracle, every number: replay FILE reads stored lines `request = answer`,
   replay REQUESTS ANSWERS COUNT [TALLY] the two side by side, and adds its tally to that file, for oracle/compare.
   Exits 1 on a difference, an unread line, or a line too few. */
#define _DEFAULT_SOURCE /* getline */
#include <inttypes.h>
#include <stdbool.h>
#include <stdio.h>
#include <stdlib.h>
#include <string.h>

#include "operations.h"

/* BEHIND: the longest lent slice has that many numbers more than the list, and as many stand behind it, not lent. */
enum { BEHIND = 7, KINDS = 8, QUESTIONS = 17, SHOWN = 5, SHOWN_NUMBERS = 12, SHOWN_BYTES = 160 };

static int64_t lines, equal, nones, refused[QUESTIONS], panics, beyond, left_out, differences, unread;
static int64_t doubtful, apart; /* within the logarithm's rounding; of these, the Rust says otherwise */
static int64_t lists, ticks, calls, short_calls; /* accepted lists; calls of list and count; those that 11 refuses */

/* What a line comes to: equal, or a section of docs/DIFFERENCES.md, or no explanation; refusals of what the Rust cannot be
   asked are compared with document 01 only, and what kind 8 answers, which the Rust lacks, is left out. */
enum outcome { EQUAL, NARROWER, PANIC, LOGARITHM, WRAPPED, UNEXPLAINED, UNASKED, LEFT_OUT, OUTCOMES };
static const char *const outcomes[] = {"equal",   "narrower",    "panic",   "logarithm",
                                       "wrapped", "unexplained", "unasked", "left-out"};

/* The lines by operation, kind (0: none of 1 to 7), outcome and the question that refused (0: none did). */
static int64_t tally[ROWS][KINDS][OUTCOMES][QUESTIONS];

static void print_numbers(const int64_t *numbers, int count) {
    for (int i = 0; i < count && i < SHOWN_NUMBERS; i++)
        printf(" %" PRId64, numbers[i]);
    if (count > SHOWN_NUMBERS)
        printf(" ..");
}

/* One call each of list and count (where there is one) with a lent slice of this length; want is 0, the count and the list, or
   a refusal.
   False: one of them says otherwise, or a number behind the list has changed; then got is what the archive said. */
static bool same_list(const struct row *row, const int64_t *in, const int64_t *want, size_t lent_len, int64_t *got) {
    static int64_t lent[NUMBERS + 2 * BEHIND];
    size_t listed = want[0] ? 0 : 2 * (size_t)want[1], all = lent_len + BEHIND;
    fill(lent, all);
    ordered_number list = row->list(in, lent, lent_len), count = row->count ? row->count(in, lent_len) : list;
    calls++;
    bool same = list.status == want[0] && list.value == want[1] && count.status == want[0] && count.value == want[1] &&
                !memcmp(lent, want + 2, listed * sizeof lent[0]);
    for (size_t i = listed; i < all; i++)
        same = same && lent[i] == pattern(i);
    got[0] = list.status, got[1] = list.value, got[2] = count.status, got[3] = count.value;
    memcpy(got + 4, lent, (all < SHOWN_NUMBERS ? all : SHOWN_NUMBERS) * sizeof got[0]);
    return same;
}

/* The same with no room, with one number too few, just enough, one more, and more; a refused call with three lengths. */
static bool same_lists(const struct row *row, const int64_t *in, const int64_t *want, int64_t *got, size_t *lent_len) {
    static const int64_t too_short[2] = {11, 0};
    size_t exact = want[0] ? 0 : 2 * (size_t)want[1];
    const size_t lengths[] = {0, exact - 1, exact, exact + 1, exact + BEHIND};
    for (int i = 0; i < 5; i++) {
        if (!exact && i < 2)
            continue;
        *lent_len = lengths[i];
        short_calls += *lent_len < exact;
        if (!same_list(row, in, *lent_len < exact ? too_short : want, *lent_len, got))
            return false;
    }
    if (!row->count)
        return true;
    /* No number of a length is too large. */
    *lent_len = SIZE_MAX;
    ordered_number count = row->count(in, SIZE_MAX);
    got[2] = count.status, got[3] = count.value;
    return count.status == want[0] && count.value == want[1];
}

/* One request and the oracle's answer. False: they do not read. */
static bool replay(const char *request, const char *answer) {
    static int64_t in[ARGUMENTS], told[NUMBERS], got[NUMBERS], want[NUMBERS], exact[NUMBERS];
    const struct row *row = read_request(request, in);
    if (!row)
        return false;
    bool panic = !strcmp(answer, "panic"), skip = !strcmp(answer, "skip"), none = !strcmp(answer, "-1");
    int told_count = panic || skip || none ? 0 : read_numbers(answer, told, NUMBERS);
    if (!panic && !skip && !none && (told_count < 2 || told[0] != 0))
        return false;

    /* What the archive must say: document 01's refusal or its own answer, else what the oracle said. */
    int64_t number = row->refusal(in);
    bool with_axis = row->arguments >= 6;
    if (skip && !number && with_axis && in[0] == 8) {
        tally[row - rows][0][LEFT_OUT][0]++, left_out++;
        return true;
    }
    int exact_count = !number && row->exact ? row->exact(in, exact) : 0;
    int count = row->call ? call_row(row, in, got) : number ? 2 : exact_count ? exact_count : told_count;
    bool known = true, unfit = !number && told_count && row->fits && !row->fits(in, told + 1);
    memset(want, 0, sizeof want[0] * (size_t)count);
    if (number)
        want[0] = number;
    else if (exact_count && !panic && !skip)
        memcpy(want, exact, sizeof want[0] * (size_t)count);
    else if (none && row->none) {
        want[0] = row->none;
        if (row->place)
            want[count - 1] = in[row->place];
    } else if ((panic || unfit) && row->panic)
        want[0] = row->panic;
    else if (told_count == count && (row->call || (told_count >= 2 && told_count == 2 + 2 * told[1])))
        memcpy(want, told, sizeof want[0] * (size_t)count);
    else
        known = false; /* skip too: nothing to compare with */

    size_t lent_len = 0;
    bool same = known && (row->list ? same_lists(row, in, want, got, &lent_len)
                                    : !memcmp(want, got, sizeof want[0] * (size_t)count));
    bool rounded = exact_count && (exact_count != told_count || memcmp(exact, told, sizeof told[0] * (size_t)told_count));
    bool wrapped = unfit && row->fits == day_unmapped && day_answered(in, told + 1); /* to a real date */
    enum outcome outcome = !same         ? UNEXPLAINED
                           : skip        ? UNASKED
                           : panic       ? PANIC
                           : wrapped     ? WRAPPED
                           : rounded     ? LOGARITHM
                           : want[0] > 0 ? NARROWER
                                         : EQUAL;
    bool on_axis = with_axis && in_range(1, in[0], 7);
    tally[row - rows][on_axis ? in[0] : 0][outcome][same && want[0] > 0 ? want[0] : 0]++;
    if (!same) {
        if (differences++ < SHOWN) {
            printf("  %s", row->name);
            print_numbers(in, row->arguments);
            printf(": the oracle %.*s%s, ", SHOWN_BYTES, answer, strlen(answer) > SHOWN_BYTES ? ".." : "");
            if (number)
                printf("document 01 refuses by %" PRId64 ", ", number);
            if (unfit)
                printf("which question 10 refuses, ");
            if (exact_count) {
                printf("document 01 has");
                print_numbers(want, count);
                printf(", ");
            }
            if (row->list && known)
                printf("lent %zu: the archive's list %" PRId64 " %" PRId64 ", count %" PRId64 " %" PRId64 ", lent numbers",
                       lent_len, got[0], got[1], got[2], got[3]), print_numbers(got + 4, SHOWN_NUMBERS);
            else
                printf("the archive"), print_numbers(got, row->list ? 0 : count);
            printf("\n");
        }
        return true;
    }
    if (row->list && !number)
        lists++, ticks += want[1];
    if (number && !(none && number == row->none))
        refused[number]++;
    else if (exact_count)
        doubtful++, apart += rounded;
    else if (panic)
        panics++;
    else if (unfit)
        beyond++;
    else
        equal++, nones += none && row->none == -1;
    return true;
}

static FILE *opened(const char *name) {
    FILE *file = fopen(name, "r");
    if (!file) {
        perror(name);
        exit(1);
    }
    return file;
}

/* The next line without its end; NULL after the last one. */
static char *next_line(FILE *file, char **line, size_t *room) {
    ssize_t length = getline(line, room, file);
    if (length < 0)
        return NULL;
    if ((*line)[length - 1] == '\n')
        (*line)[length - 1] = 0;
    return *line;
}

/* All lines of a stored file, or of two files; false if one breaks off, or ends before the other. */
static bool replay_all(FILE *requests, FILE *answers) {
    char *line = NULL, *second = NULL;
    size_t room = 0, second_room = 0;
    bool together = true;
    for (int64_t place = 1; next_line(requests, &line, &room); place++) {
        if (line[0] == '#') /* how the file was made */
            continue;
        char *answer = NULL;
        if (answers) {
            answer = next_line(answers, &second, &second_room);
            if (!answer) {
                together = false;
                break;
            }
        } else if ((answer = strstr(line, " = "))) {
            *answer = 0, answer += 3;
        }
        lines++;
        if ((!answer || !replay(line, answer)) && unread++ < SHOWN)
            printf("  line %" PRId64 " does not read: %s%s%s\n", place, line, answer ? " = " : "",
                   answer ? answer : "");
    }
    if (answers && together && next_line(answers, &second, &second_room))
        together = false;
    together = together && !ferror(requests) && !(answers && ferror(answers));
    free(line);
    free(second);
    return together;
}

/* Adds a line for each number of the tally: operation, kind, outcome, question, lines. */
static bool add_tally(const char *name) {
    FILE *file = fopen(name, "a");
    const int64_t *counts = &tally[0][0][0][0];
    for (int i = 0; file && i < ROWS * KINDS * OUTCOMES * QUESTIONS; i++)
        if (counts[i])
            fprintf(file, "%s %d %s %d %" PRId64 "\n", rows[i / (KINDS * OUTCOMES * QUESTIONS)].name,
                    i / (OUTCOMES * QUESTIONS) % KINDS, outcomes[i / QUESTIONS % OUTCOMES], i % QUESTIONS, counts[i]);
    return file && !fclose(file);
}

int main(int argc, char **argv) {
    setvbuf(stdout, NULL, _IOLBF, 0); /* what was printed stays if a sanitizer ends the run */
    if (argc != 2 && argc != 4 && argc != 5) {
        fprintf(stderr, "usage: replay FILE, or replay REQUESTS ANSWERS COUNT [TALLY]\n");
        return 1;
    }
    FILE *requests = opened(argv[1]), *answers = argc > 2 ? opened(argv[2]) : NULL;
    bool together = replay_all(requests, answers);
    fclose(requests);
    if (answers)
        fclose(answers);

    const char *name = strrchr(argv[1], '/');
    int64_t by_document = 0;
    for (int i = 0; i < QUESTIONS; i++)
        by_document += refused[i];
    printf("replay: %s: %" PRId64 " lines, %" PRId64 " equal, %" PRId64 " refused by document 01", answers ? "both" :
           name ? name + 1 : argv[1], lines, equal, by_document);
    for (int i = 0, shown = 0; i < QUESTIONS; i++)
        if (refused[i])
            printf("%s%d: %" PRId64, shown++ ? ", " : " (", i, refused[i]);
    printf("%s, %" PRId64 " panics and %" PRId64 " far dates answered 10, %" PRId64 " differences\n", by_document ? ")" : "",
           panics, beyond, differences);
    if (left_out)
        printf("replay: left out, since the Rust lacks kind 8: %" PRId64 "\n", left_out);
    if (nones)
        printf("replay: of the equal ones, %" PRId64 " are none\n", nones);
    if (lists)
        printf("replay: %" PRId64 " lists with %" PRId64 " ticks, %" PRId64 " calls of list and count, %" PRId64
               " of them refused by 11\n", lists, ticks, calls, short_calls);
    if (doubtful)
        printf("replay: %" PRId64 " within the logarithm's rounding have document 01's period, where the Rust has another in %"
               PRId64 "\n", doubtful, apart);

    bool enough = lines > 0 && (argc == 2 || lines == strtoll(argv[3], NULL, 10));
    if (unread)
        printf("replay: %" PRId64 " lines do not read\n", unread);
    if (!together)
        printf("replay: %s\n", answers ? "one side ends before the other" : "the file breaks off");
    if (!enough)
        printf("replay: %s\n", lines ? "another count of lines than was asked for" : "no line to compare");
    bool tallied = argc < 5 || add_tally(argv[4]);
    if (!tallied)
        printf("replay: %s cannot be written\n", argv[4]);
    return unread || !together || !enough || !tallied || differences;
}
