/* Converts dates and day numbers through the archive: convert 1970-01-01 719163
   Each argument is YYYY-MM-DD or a day number (0001-01-01 is 1); each gets one line. */
#include <errno.h>
#include <inttypes.h>
#include <stdio.h>
#include <stdlib.h>
#include <string.h>

#include "ordered.h"

/* The library asks all that matters of a date; here only the form is read. */
static int is_date(const char *text, int *year, int *month, int *day) {
    int end = 0;
    return strlen(text) == 10 && strspn(text, "0123456789-") == 10
        && sscanf(text, "%4d-%2d-%2d%n", year, month, day, &end) == 3 && end == 10;
}

static int is_number(const char *text, int64_t *number) {
    char *end;
    errno = 0;
    *number = strtoll(text, &end, 10);
    return *text && !*end && !errno;
}

int main(int argc, char **argv) {
    int unread = 0;
    for (int i = 1; i < argc; i++) {
        int year, month, day;
        int64_t number;
        if (is_date(argv[i], &year, &month, &day)) {
            ordered_number answer = ordered_day_number(year, month, day);
            if (answer.status == 0)
                printf("%s is day %" PRId64 "\n", argv[i], answer.value);
            else
                printf("%s refused: %" PRId64 "\n", argv[i], answer.status);
        } else if (is_number(argv[i], &number)) {
            ordered_date answer = ordered_date_of(number);
            if (answer.status == 0)
                printf("day %" PRId64 " is %04" PRId64 "-%02" PRId64 "-%02" PRId64 "\n", number, answer.year,
                       answer.month, answer.day);
            else
                printf("day %" PRId64 " refused: %" PRId64 "\n", number, answer.status);
        } else {
            fprintf(stderr, "%s: neither YYYY-MM-DD nor a day number\n", argv[i]);
            unread = 1;
        }
    }
    return unread;
}
