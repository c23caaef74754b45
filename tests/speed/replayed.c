/*
 * What a replayed record costs beside the call that it replays, on this processor: a round of calls is made
 * again and again on a box of some capacities, and its records are replayed on a bench of the largest.
 * Prints a line for each box: nanoseconds a call, nanoseconds a replayed record, and how many times as much that is.
 * tests/speed/run builds and runs it.
 */
#include <stdbool.h>
#include <stdio.h>
#include <stdlib.h>
#include <time.h>

#include "foamgangway.h"
#include "foamgangway_trace.h"

enum { ROUNDS = 2000, MOST_RECORDS = 6 * ROUNDS + 3, TRIES = 7 };
enum { WORDS = 8192, BYTES = 65536 };

struct box { const char *name; uint64_t actors, mailboxes, data, links, monitors, timers; };

static uint64_t table[WORDS], bench_table[WORDS];
static uint8_t area[BYTES], bench_area[BYTES];
static uint8_t trace[(size_t)MOST_RECORDS * FG_TRACE_MOST];
static size_t used, ends[MOST_RECORDS], records;

#define BOX table, WORDS, area, BYTES
#define BENCH bench_table, WORDS, bench_area, BYTES

static double now(void)
{
    struct timespec t;
    clock_gettime(CLOCK_MONOTONIC, &t);
    return (double)t.tv_sec * 1e9 + (double)t.tv_nsec;
}

/* Stores a record behind the ones before it. */
static void store(void *to, const uint8_t *record, size_t len)
{
    (void)to;
    for (size_t i = 0; i < len; i++)
        trace[used + i] = record[i];
    used += len;
    ends[records++] = used;
}

/* The box begins with one track, which runs. */
static void begin(struct fg_tracer *tracer, const struct box *b)
{
    fg_traced_start(tracer, BOX, b->actors, b->mailboxes, b->data, b->links, b->monitors, b->timers);
    fg_traced_spawn(tracer, BOX, 1);
    fg_traced_next(tracer, BOX);
}

/* One round: a message to itself, taken and looked at, the clock, and the turn given up and back. */
static void round_of_calls(struct fg_tracer *tracer)
{
    static const uint8_t reading[8] = { 1, 2, 3, 4, 5, 6, 7, 8 };
    fg_traced_notify(tracer, BOX, FG_ACTOR_FACTOR, 1, reading, sizeof reading);
    fg_traced_receive(tracer, BOX, FG_ANY_SENDER, FG_ANY_CLASS, FG_ANY_TAG, FG_WAIT_NOT);
    fg_traced_shown(tracer, BOX);
    fg_traced_advance(tracer, BOX, 1000);
    fg_traced_yield(tracer, BOX);
    fg_traced_next(tracer, BOX);
}

/* Nanoseconds of all calls after the first three; with a sink, they are recorded too. */
static double calls(const struct box *b, void (*sink)(void *, const uint8_t *, size_t))
{
    struct fg_tracer tracer = { sink, NULL };
    double from;
    begin(&tracer, b);
    from = now();
    for (int i = 0; i < ROUNDS; i++)
        round_of_calls(&tracer);
    return now() - from;
}

/* Nanoseconds of all records after the first three; every one must be right. */
static double replays(void)
{
    double from = 0;
    for (size_t n = 0; n < records; n++) {
        size_t at = n == 0 ? 0 : ends[n - 1];
        if (n == 3)
            from = now();
        if (!fg_replay(BENCH, n, trace + at, ends[n] - at)) {
            printf("record %zu is not right\n", n);
            exit(EXIT_FAILURE);
        }
    }
    return now() - from;
}

static double least(double a, double b) { return a < b ? a : b; }

static void measure(const struct box *b)
{
    double made = 1e18, replayed = 1e18, count = 6.0 * ROUNDS;
    used = records = 0;
    calls(b, store);
    for (int i = 0; i < TRIES; i++) {
        made = least(made, calls(b, NULL));
        replayed = least(replayed, replays());
    }
    printf("%-8s %8.0f ns a call %8.0f ns a record %6.2f times\n", b->name, made / count, replayed / count, replayed / made);
}

int main(void)
{
    static const struct box boxes[] = {
        { "small", 4, 4, 4, 4, 4, 4 },
        { "middle", 16, 64, 64, 32, 32, 16 },
        { "largest", FG_MAX_ACTORS, FG_MAX_MAILBOXES, FG_MAX_DATA, FG_MAX_LINKS, FG_MAX_MONITORS, FG_MAX_TIMERS },
    };
    for (size_t i = 0; i < sizeof boxes / sizeof boxes[0]; i++)
        measure(&boxes[i]);
    return 0;
}
