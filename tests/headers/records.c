/*
 * Every reader and writer of the records in runtime messages, of both editions, from C and from C++: what is written is read
 * again, field by field, and nobody reads what is not its own. Says nothing where all is right.
 */
#include <stdio.h>
#include <string.h>

#include "foamgangway.h"

#define LARGE (UINT64_C(1) << 48)

static int wrong;

static void expect(int holds, const char *what)
{
    if (holds)
        return;
    printf("not so: %s\n", what);
    wrong = 1;
}

#define EXPECT(condition) expect(condition, #condition)

/* What is written to a slice of just that length, and not to a shorter one. */
static void writers(void)
{
    static const uint8_t tick[] = { 10, 0, 3, 0, 64, 0, 0, 0, 0, 0, 0, 0 };
    static const uint8_t old_exit[] = { 12, 0, 2, 0, 65, 0, 0, 0, 0xFD, 0xFF, 128, 0, 0, 0 };
    uint8_t out[FG_EXIT_BYTES];
    EXPECT(fg_write_tick(out, FG_TICK_BYTES - 1, 64) == FG_MALFORMED);
    EXPECT(fg_write_tick(out, FG_TICK_BYTES, 64) == FG_DONE);
    EXPECT(sizeof tick == FG_TICK_BYTES && memcmp(out, tick, sizeof tick) == 0);
    EXPECT(fg_write_exit(out, FG_EXIT_BYTES - 1, 256, 0, 0) == FG_MALFORMED);
    EXPECT(fg_write_old_tick(out, FG_OLD_TICK_BYTES - 1, 64) == FG_MALFORMED);
    EXPECT(fg_write_old_exit(out, FG_OLD_EXIT_BYTES - 1, 65, FG_EXIT_CRASH, 128) == FG_MALFORMED);
    EXPECT(fg_write_old_exit(out, FG_OLD_EXIT_BYTES, 65, FG_EXIT_CRASH, 128) == FG_DONE);
    EXPECT(sizeof old_exit == FG_OLD_EXIT_BYTES && memcmp(out, old_exit, sizeof old_exit) == 0);
}

/* A tick of either edition, by the readers of both. */
static void ticks(void)
{
    uint8_t out[FG_TICK_BYTES], old[FG_OLD_TICK_BYTES];
    struct fg_tick_record tick, from_old;
    struct fg_old_tick_record refused, taken;
    EXPECT(fg_write_tick(out, sizeof out, LARGE + 1) == FG_DONE && fg_write_old_tick(old, sizeof old, 64) == FG_DONE);
    tick = fg_read_tick(out, sizeof out);
    EXPECT(tick.no == FG_DONE && tick.kind == FG_KIND_TICK && tick.id == LARGE + 1);
    from_old = fg_read_tick(old, sizeof old);
    EXPECT(from_old.no == FG_DONE && from_old.kind == FG_KIND_OLD_TICK && from_old.id == 64);
    refused = fg_read_old_tick(out, sizeof out);
    EXPECT(refused.no == FG_MALFORMED && refused.id == 0);
    taken = fg_read_old_tick(old, sizeof old);
    EXPECT(taken.no == FG_DONE && taken.id == 64);
    EXPECT(fg_read_exit(out, sizeof out).no == FG_MALFORMED && fg_read_old_exit(old, sizeof old).no == FG_MALFORMED);
}

/* The same of an exit notice. */
static void exits(void)
{
    uint8_t out[FG_EXIT_BYTES], old[FG_OLD_EXIT_BYTES];
    struct fg_exit_record notice, from_old;
    struct fg_old_exit_record refused, taken;
    EXPECT(fg_write_exit(out, sizeof out, LARGE, FG_EXIT_CRASH, LARGE + 128) == FG_DONE);
    EXPECT(fg_write_old_exit(old, sizeof old, 65, FG_EXIT_KILLED, 128) == FG_DONE);
    notice = fg_read_exit(out, sizeof out);
    EXPECT(notice.no == FG_DONE && notice.kind == FG_KIND_EXIT && notice.actor == LARGE);
    EXPECT(notice.reason == FG_EXIT_CRASH && notice.monitor == LARGE + 128);
    from_old = fg_read_exit(old, sizeof old);
    EXPECT(from_old.no == FG_DONE && from_old.kind == FG_KIND_OLD_EXIT && from_old.actor == 65);
    EXPECT(from_old.reason == FG_EXIT_KILLED && from_old.monitor == 128);
    refused = fg_read_old_exit(out, sizeof out);
    EXPECT(refused.no == FG_MALFORMED && refused.actor == 0 && refused.reason == 0 && refused.monitor == 0);
    taken = fg_read_old_exit(old, sizeof old);
    EXPECT(taken.no == FG_DONE && taken.actor == 65 && taken.reason == FG_EXIT_KILLED && taken.monitor == 128);
    EXPECT(fg_read_tick(out, sizeof out).no == FG_MALFORMED && fg_read_old_tick(old, sizeof old).no == FG_MALFORMED);
}

int main(void)
{
    writers();
    ticks();
    exits();
    return wrong;
}
