/* Answers request lines as the oracle does, from the archive: status and numbers, a list as its count and pairs. */
#define _DEFAULT_SOURCE /* getline */
#include <inttypes.h>
#include <stdio.h>

#include "operations.h"

/* Fills in the answer and gives how many numbers it has; 0: the line does not read. */
static int answer(const char *request, int64_t *out) {
    int64_t in[ARGUMENTS];
    const struct row *row = read_request(request, in);
    if (!row)
        return 0;
    if (row->call)
        return call_row(row, in, out);
    int count = numbers_of(row->list(in, out + 2, NUMBERS - 2), out);
    return count + 2 * (int)out[1];
}

int main(void) {
    static int64_t out[NUMBERS];
    char *line = NULL;
    size_t room = 0;
    while (getline(&line, &room, stdin) >= 0) {
        line[strcspn(line, "\n")] = 0;
        int count = answer(line, out);
        for (int i = 0; i < count; i++)
            printf("%s%" PRId64, i ? " " : "", out[i]);
        printf("%s\n", count ? "" : "unread");
    }
    free(line);
    return fflush(stdout) != 0;
}
