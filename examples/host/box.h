/*
 * What the boxes of this folder share: two buffers, tracks that take turns, a clock, a trace.
 *
 * A program first says how much it has room for (ACTORS, MAILBOXES, DATA, LINKS, MONITORS, TIMERS), then includes this,
 * and then writes its tracks. They are plain functions that the small scheduler below calls when it is their turn; each
 * goes on until it waits or ends. The box has no real clock: it sleeps by moving the runtime's clock, so that what it
 * prints is always the same.
 */
#ifndef BOX_H
#define BOX_H

#include <inttypes.h>
#include <stdio.h>
#include <stdlib.h>

#include "foamgangway_trace.h"

static uint64_t table[FG_WORDS(ACTORS, MAILBOXES, DATA, LINKS, MONITORS, TIMERS)];
static uint8_t area[FG_BYTES(DATA)];

/* Where the records of the calls go: nowhere, until a file is opened. */
static struct fg_tracer tracer;

/* Both buffers, as every call takes them, and what every traced call takes. */
#define BUFFERS table, sizeof table / sizeof table[0], area, sizeof area
#define BOX &tracer, BUFFERS

struct track {
    const char *name;
    void (*turn)(struct track *self, uint64_t why);
    uint64_t id;
    uint64_t timer;
    int begun;
    unsigned degrees;
};

/* The track in each of the runtime's slots. */
static struct track *in_slot[ACTORS];

static uint64_t now_us;

/* Prints the time in milliseconds and the track that speaks. */
static inline void say(const struct track *who)
{
    printf("%5" PRIu64 " %s: ", now_us / 1000, who->name);
}

/* Stops the box where a call that cannot be refused here is. */
static inline void expect(uint64_t no, const char *call)
{
    if (no == FG_DONE)
        return;
    printf("%s answers %" PRIu64 "\n", call, no);
    exit(EXIT_FAILURE);
}

/* Puts a track into the runtime, at its priority. */
static inline void begin(struct track *track, uint64_t priority)
{
    struct fg_made made = fg_traced_spawn(BOX, priority);
    expect(made.no, "spawn");
    in_slot[made.id % FG_ACTOR_FACTOR] = track;
    track->id = made.id;
    track->begun = 0;
    track->degrees = 20;
    say(track);
    printf("spawned as %" PRIu64 "\n", made.id);
}

/* Ends the running track and says who was told. */
static inline void end(struct track *self, uint64_t reason)
{
    struct fg_ended ended = fg_traced_exit(BOX, reason);
    expect(ended.no, "exit");
    say(self);
    printf("ended, notices sent %" PRIu64 ", lost %" PRIu64 "\n", ended.sent, ended.lost);
}

/* Takes any message; FG_WAITING means that the track now waits for the next. */
static inline struct fg_received receive_any(void)
{
    return fg_traced_receive(BOX, FG_ANY_SENDER, FG_ANY_CLASS, FG_ANY_TAG, FG_WAIT_FOREVER);
}

/* ---- The scheduler. ---- */

static inline struct track *track_of(uint64_t id)
{
    struct track *track = in_slot[id % FG_ACTOR_FACTOR];
    if (track != NULL && track->id == id)
        return track;
    printf("no track has id %" PRIu64 "\n", id);
    exit(EXIT_FAILURE);
}

/* A board would sleep here. */
static inline void sleep_us(int64_t us)
{
    struct fg_advanced advanced = fg_traced_advance(BOX, (uint64_t)us);
    expect(advanced.no, "advance");
    now_us += (uint64_t)us;
}

static inline void run(void)
{
    for (;;) {
        struct fg_turn turn = fg_traced_next(BOX);
        if (turn.no == FG_WAITING && turn.sleep < 0)
            return;
        if (turn.no == FG_WAITING) {
            sleep_us(turn.sleep);
            continue;
        }
        expect(turn.no, "next");
        struct track *track = track_of(turn.id);
        track->turn(track, turn.reason);
    }
}

static inline void print_free(void)
{
    struct fg_counts report = fg_traced_report(BOX);
    expect(report.no, "report");
    printf("free:");
    for (int i = 0; i < 6; i++)
        printf(" %" PRIu64, report.free[i]);
    printf("\n");
}

/* ---- The trace. ---- */

/* A board would write to flash here. Each record is written at once, so that a crash loses none. */
static void store(void *file, const uint8_t *record, size_t len)
{
    if (fwrite(record, 1, len, file) == len && fflush(file) == 0)
        return;
    perror("the trace");
    exit(EXIT_FAILURE);
}

static inline void open_trace(const char *name)
{
    FILE *file = fopen(name, "wb");
    if (file == NULL) {
        perror(name);
        exit(EXIT_FAILURE);
    }
    tracer = (struct fg_tracer){ .sink = store, .ctx = file };
}

/* ---- The box: starts, with a trace where a file was named, and runs until nobody waits for anything. ---- */

static inline void start_box(int count, char **words)
{
    if (count > 1)
        open_trace(words[1]);
    expect(fg_traced_start(BOX, ACTORS, MAILBOXES, DATA, LINKS, MONITORS, TIMERS), "start");
}

static inline void run_box(void)
{
    run();
    printf("%5" PRIu64 " box: nothing is left to wait for\n", now_us / 1000);
    print_free();
}

#endif
