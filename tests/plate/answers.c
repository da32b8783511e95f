/* The archive's answers for reading.py: a request is a line of eight numbers, kind, start, end, hint, low and high; its answer
   is a line with the list's status and count, then four numbers for each tick: head, tail, and status and pixel of its
   mapping, whose flags plate does not print. */
#include <inttypes.h>
#include <stdio.h>

#include "ordered.h"

enum { NUMBERS = 8, TICKS = 4097 };

/* plate's ends always belong to the axis. */
#define AXIS(in) (in)[0], (in)[1], (in)[2], (in)[3], (in)[4], 0

static void print_answer(const int64_t *in) {
    static int64_t lent[2 * TICKS];
    ordered_number list = ordered_ticks_bold(AXIS(in), in[5], lent, 2 * TICKS);
    printf("%" PRId64 " %" PRId64, list.status, list.value);
    for (int64_t i = 0; i < list.value; i++) {
        int64_t head = lent[2 * i], tail = lent[2 * i + 1];
        ordered_pixel p = ordered_map(AXIS(in), in[6], in[7], head, tail);
        printf(" %" PRId64 " %" PRId64 " %" PRId64 " %" PRId64, head, tail, p.status, p.pixel);
    }
    printf("\n");
}

int main(void) {
    int64_t in[NUMBERS];
    for (;;) {
        int read = 0;
        while (read < NUMBERS && scanf("%" SCNd64, &in[read]) == 1)
            read++;
        if (read < NUMBERS)
            return read > 0 || fflush(stdout) != 0;
        print_answer(in);
    }
}
