/* Makes the calls of the request lines on standard input, first alone, then on four threads at once, and compares every answer
   and lent number; measures the stack of every export. Exits 1 on a difference, or above the stack that the header states. */
#define _DEFAULT_SOURCE /* getline, and stacks of our own */
#include <inttypes.h>
#include <pthread.h>
#include <stdbool.h>
#include <stdio.h>
#include <stdlib.h>
#include <string.h>
#include <ucontext.h>

#include "operations.h"

/* Less than MOST_STACK, and than RULED_STACK with a table, is what the header says. BEHIND: so many numbers more than the list
   are lent. */
enum { MOST_STACK = 1024, RULED_STACK = 24576, STACK = 1 << 16, PAINT = 0xa5 };
enum { THREADS = 4, BEHIND = 3, FIELDS = 4, MOST_N = 4096 };
enum { BLOCK = 512, SHORT_ROUNDS = 20, LIST_ROUNDS = 3 }; /* so many calls are made so often before the next ones */
enum { COUNTS = 3 }; /* exports that have no row of their own: three lists have a count beside them */

/* A call, and what it gave alone: its status and numbers, and all lent numbers after it. */
struct asked {
    const struct row *row;
    bool counts; /* the count of the row's list, not the list */
    int64_t in[ARGUMENTS], out[FIELDS], *lent;
    size_t lent_len;
};

static struct asked *asked;
static size_t asked_count, room;

static void *checked(void *memory) {
    if (!memory) {
        perror("threads");
        exit(1);
    }
    return memory;
}

/* Never inlined: the stack of all calls is counted from the same place. */
__attribute__((noinline)) static void perform(const struct asked *a, int64_t *out, int64_t *lent) {
    if (a->counts)
        numbers_of(a->row->count(a->in, a->lent_len), out);
    else if (a->row->list)
        numbers_of(a->row->list(a->in, lent, a->lent_len), out);
    else
        a->row->call(a->in, out);
}

/* Asks for the answer alone. A list gets the numbers that it needs, and a few more. */
static void add(struct asked a) {
    static int64_t lent[ORDERED_LENT_MOST];
    if (a.row->list) {
        a.lent_len = ORDERED_LENT_MOST;
        perform(&a, a.out, lent);
        a.lent_len = 2 * (size_t)a.out[1] + BEHIND;
    }
    a.lent = checked(malloc((a.lent_len + 1) * sizeof *a.lent)); /* never of 0 bytes, which may be NULL */
    fill(a.lent, a.lent_len);
    perform(&a, a.out, a.lent);
    if (asked_count == room)
        asked = checked(realloc(asked, (room = 2 * room + 1024) * sizeof *asked));
    asked[asked_count++] = a;
}

/* A request as it stands, a list by a hint also with the largest N; of both the count too, where there is one. */
static bool read_line(const char *line) {
    struct asked a = {0};
    if (!(a.row = read_request(line, a.in)))
        return false;
    add(a);
    if (!a.row->list)
        return true;
    struct asked longest = a;
    if (!a.row->ruled)
        longest.in[a.row->arguments - 1] = MOST_N;
    add(longest);
    if (a.row->count) {
        a.counts = longest.counts = true;
        add(a);
        add(longest);
    }
    return true;
}

/* One of the threads; `at` is where it begins in each block. */
struct worker {
    pthread_t thread;
    size_t at;
    int64_t calls, differences;
};

static pthread_barrier_t all_here;

/* Requests come operation by operation: all threads go through a block together, so that they are in the same call at the same
   time, each with other numbers. A number that calls share would be seen. */
static void *work(void *given) {
    struct worker *w = given;
    int64_t *lent = checked(malloc((ORDERED_LENT_MOST + BEHIND) * sizeof *lent));
    for (size_t block = 0; block < asked_count; block += BLOCK) {
        size_t size = asked_count - block < BLOCK ? asked_count - block : BLOCK;
        size_t rounds = asked[block].row->list ? LIST_ROUNDS : SHORT_ROUNDS;
        pthread_barrier_wait(&all_here);
        for (size_t i = 0; i < rounds * size; i++, w->calls++) {
            const struct asked *a = &asked[block + (w->at + i) % size];
            int64_t out[FIELDS] = {0};
            fill(lent, a->lent_len);
            perform(a, out, lent);
            w->differences += memcmp(out, a->out, sizeof out) || memcmp(lent, a->lent, a->lent_len * sizeof *lent);
        }
    }
    free(lent);
    return NULL;
}

static void compare_threads(int64_t *calls, int64_t *differences) {
    static struct worker workers[THREADS];
    if (pthread_barrier_init(&all_here, NULL, THREADS))
        checked(NULL);
    for (size_t i = 0; i < THREADS; i++) {
        workers[i].at = i * BLOCK / THREADS;
        if (pthread_create(&workers[i].thread, NULL, work, &workers[i]))
            checked(NULL);
    }
    for (int i = 0; i < THREADS; i++) {
        pthread_join(workers[i].thread, NULL);
        *calls += workers[i].calls, *differences += workers[i].differences;
    }
}

/* The stack below is painted; what a call has written there is no longer paint. */
static _Alignas(64) unsigned char painted[STACK];
static const unsigned char *frame; /* where the frame of a call begins */
static const struct asked *measured; /* the export: the first of its calls */
static ucontext_t here, there;

/* An empty call of the same form. */
static int note_frame(const int64_t *in, int64_t *out) {
    frame = (const unsigned char *)__builtin_frame_address(0) + 2 * sizeof(void *); /* above what was saved */
    out[0] = in[0];
    return 1;
}

/* Runs on the painted stack: the empty call, then all calls of the export. */
static void make_calls(void) {
    static int64_t lent[ORDERED_LENT_MOST + BEHIND], out[FIELDS];
    static const struct row empty = {.call = note_frame};
    perform(&(struct asked){.row = &empty}, out, lent);
    for (const struct asked *a = measured; a < asked + asked_count; a++)
        if (a->row == measured->row && a->counts == measured->counts)
            perform(a, out, lent);
}

/* The bytes of stack that the calls of an export take, the arguments that are handed over on it too. */
static int64_t stack_of(const struct asked *first) {
    const unsigned char *lowest = painted;
    measured = first;
    memset(painted, PAINT, sizeof painted);
    getcontext(&there);
    there.uc_stack.ss_sp = painted, there.uc_stack.ss_size = sizeof painted, there.uc_link = &here;
    makecontext(&there, make_calls, 0);
    swapcontext(&here, &there);
    while (*lowest == PAINT)
        lowest++;
    return frame - lowest;
}

/* The most that an export takes, and its name. */
struct most {
    int64_t bytes;
    const char *name;
};

/* Of the exports without a table, and of those with one; gives how many exports there were. */
static int measure_exports(struct most *plain, struct most *ruled) {
    static bool seen[ROWS][2];
    int exports = 0;
    for (const struct asked *a = asked; a < asked + asked_count; a++) {
        if (seen[a->row - rows][a->counts])
            continue;
        seen[a->row - rows][a->counts] = true, exports++;
        struct most *most = strstr(a->row->name, "rule") ? ruled : plain;
        int64_t bytes = stack_of(a);
        if (bytes > most->bytes)
            *most = (struct most){bytes, a->row->name};
    }
    return exports;
}

int main(void) {
    int64_t calls = 0, differences = 0;
    struct most plain = {0, ""}, ruled = {0, ""};
    char *line = NULL;
    size_t line_room = 0;
    while (getline(&line, &line_room, stdin) >= 0) {
        line[strcspn(line, "\n")] = 0;
        if (!read_line(line)) {
            fprintf(stderr, "threads: does not read: %s\n", line);
            return 1;
        }
    }
    free(line);
    compare_threads(&calls, &differences);
    int exports = measure_exports(&plain, &ruled);
    printf("threads: %" PRId64 " calls of %d exports on %d threads, %" PRId64 " differences, at most %" PRId64
           " bytes of stack (%s), with a table %" PRId64 " (%s)\n", calls, exports, THREADS, differences, plain.bytes, plain.name,
           ruled.bytes, ruled.name);
    bool above = plain.bytes >= MOST_STACK || ruled.bytes >= RULED_STACK;
    if (above)
        printf("threads: the header says less than %d, with a table less than %d\n", MOST_STACK, RULED_STACK);
    return differences > 0 || above || exports != ROWS + COUNTS;
}
