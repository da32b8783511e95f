/* What a client compares: it is counted, and the first differences are printed, each with its call and the arguments. */
#ifndef EXPECT_H
#define EXPECT_H

#include <inttypes.h>
#include <stdbool.h>
#include <stdint.h>
#include <stdio.h>
#include <string.h>

enum { SHOWN = 5 };

static int64_t compared, differences;

static inline void print_numbers(const int64_t *numbers, int count) {
    for (int i = 0; i < count; i++)
        printf(" %" PRId64, numbers[i]);
}

/* False: it is one of the first differences, and its line has been begun. */
static inline bool is_fine(bool same, const char *call, const int64_t *in, int arguments) {
    compared++;
    if (same || differences++ >= SHOWN)
        return true;
    printf("  %s", call);
    print_numbers(in, arguments);
    return false;
}

static inline void expect(bool same, const char *call, const int64_t *in, int arguments, const char *otherwise) {
    if (!is_fine(same, call, in, arguments))
        printf(": %s\n", otherwise);
}

/* What a call answered beside what it must answer, and who says so. */
static inline void expect_numbers(const char *call, const int64_t *in, int arguments, const int64_t *got, const char *says,
                                  const int64_t *want, int count) {
    if (is_fine(!memcmp(got, want, (size_t)count * sizeof got[0]), call, in, arguments))
        return;
    printf(": %s", says);
    print_numbers(want, count);
    printf(", got");
    print_numbers(got, count);
    printf("\n");
}

#endif
