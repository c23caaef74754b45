/*
 * Every call of foamgangway_trace.h: those of tests/traces/every_call.txt, in their order. Their trace goes to
 * standard output and is that file's, byte for byte. It is compiled as C and as C++.
 */
#include <stdio.h>

#include "foamgangway_trace.h"

static uint64_t table[FG_WORDS(4, 8, 8, 4, 4, 4)];
static uint8_t area[FG_BYTES(8)];
static const uint8_t abc[] = { 'a', 'b', 'c' };

#define BOX &tracer, table, sizeof table / sizeof table[0], area, sizeof area
#define ANY FG_ANY_SENDER, FG_ANY_CLASS, FG_ANY_TAG

static void print(void *file, const uint8_t *record, size_t len)
{
    fwrite(record, 1, len, (FILE *)file);
}

/* Looking at a payload is no call from C, but can be recorded. */
static void show(const struct fg_tracer *tracer, struct fg_place place)
{
    uint8_t record[FG_TRACE_MOST];
    size_t len = fg_trace_show(record, sizeof record, area + place.offset, (size_t)place.length);
    tracer->sink(tracer->ctx, record, len);
}

static void nobody_runs(struct fg_tracer tracer)
{
    fg_traced_start(BOX, 4, 8, 8, 4, 4, 4);
    fg_traced_yield(BOX);
    fg_traced_next(BOX);
    fg_traced_spawn(BOX, 4);
    fg_traced_spawn(BOX, 1);
    fg_traced_spawn(BOX, 1);
}

static void first_runs(struct fg_tracer tracer)
{
    fg_traced_next(BOX);
    fg_traced_next(BOX);
    fg_traced_link(BOX, 257);
    fg_traced_unlink(BOX, 257);
    fg_traced_unlink(BOX, 257);
    fg_traced_monitor(BOX, 257);
    fg_traced_demonitor(BOX, 128);
    fg_traced_link(BOX, 257);
    fg_traced_every(BOX, 1000);
    fg_traced_cancel(BOX, 64);
    fg_traced_after(BOX, 1000);
    fg_traced_notify(BOX, 257, 7, abc, sizeof abc);
    fg_traced_yield(BOX);
}

static void second_runs(struct fg_tracer tracer)
{
    fg_traced_next(BOX);
    fg_traced_receive(BOX, ANY, FG_WAIT_NOT);
    show(&tracer, fg_traced_shown(BOX));
    fg_traced_receive(BOX, ANY, FG_WAIT_NOT);
    fg_traced_receive(BOX, ANY, FG_WAIT_FOREVER);
}

static void time_passes(struct fg_tracer tracer)
{
    fg_traced_next(BOX);
    fg_traced_receive(BOX, ANY, 2);
    fg_traced_next(BOX);
    fg_traced_advance(BOX, 1000);
    fg_traced_next(BOX);
    fg_traced_exit(BOX, FG_EXIT_CRASH);
    fg_traced_report(BOX);
}

static void thermometer(struct fg_tracer tracer)
{
    static const uint8_t degrees[] = { '2', '1', '.', '5' };
    uint8_t slice[4];
    fg_traced_bus(BOX, 0, 2, 0, 0);
    fg_traced_bus(BOX, 2, 2, 0, 1);
    fg_traced_subscribe(BOX, 0);
    fg_traced_next(BOX);
    fg_traced_subscribe(BOX, 0);
    fg_traced_publish(BOX, 0, degrees, sizeof degrees);
    fg_traced_read(BOX, 0, slice, 3);
    fg_traced_read(BOX, 0, slice, sizeof slice);
    fg_traced_read(BOX, 0, slice, sizeof slice);
    fg_traced_unsubscribe(BOX, 0);
    fg_traced_unsubscribe(BOX, 0);
    fg_traced_advance(BOX, 1000);
    fg_traced_report(BOX);
}

int main(void)
{
    struct fg_tracer tracer = { print, stdout };
    nobody_runs(tracer);
    first_runs(tracer);
    second_runs(tracer);
    time_passes(tracer);
    thermometer(tracer);
    return 0;
}
