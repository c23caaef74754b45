/*
 * A third school-lab box in plain C: a dosing pump that makes a stroke every 10 ms, and keeps that beat though it comes late.
 *
 * Each stroke keeps the board busy, and the runtime learns of it by an advance. Most take 3 ms. The third takes 13: the beat
 * of 40 ms comes while it lasts, and the fourth stroke is 3 ms late, but the fifth comes at 50. The sixth takes 26: of the
 * beats that come meanwhile, at 70 and 80 ms, the pump gets one tick, and the stroke after it is at 90 again. Its end takes
 * its timer with it; the autopsy of its trace tells that the next beat would have been at 100.
 *
 * box.h has what it shares with the other boxes of this folder. With a file's name as its argument it also writes a trace of
 * its calls there, for ./replay and ./autopsy.
 */
enum { ACTORS = 1, MAILBOXES = 2, DATA = 2, LINKS = 0, MONITORS = 0, TIMERS = 1 };

#include "box.h"

enum { BEAT_US = 10000, STROKES = 8 };

/* The header's limits hold before the box runs: with 10, the beat in milliseconds, this is not even compiled. */
_Static_assert(FG_MIN_INTERVAL <= BEAT_US && BEAT_US <= FG_MAX_STEP, "a beat is in microseconds");

/* How long each stroke takes. */
static const int64_t stroke_us[STROKES] = { 3000, 3000, 13000, 3000, 3000, 26000, 3000, 3000 };

static void pump_turn(struct track *self, uint64_t why);

static struct track pump = { .name = "pump", .turn = pump_turn };
static unsigned strokes;

/* Makes a stroke. The board is busy meanwhile, and then says how long it was. */
static void stroke(struct track *self)
{
    int64_t busy_us = stroke_us[strokes++];
    say(self);
    printf("stroke %u, %" PRId64 " ms\n", strokes, busy_us / 1000);
    sleep_us(busy_us);
}

/* Begins the beat. */
static void begin_beat(struct track *self)
{
    struct fg_made timer = fg_traced_every(BOX, BEAT_US);
    expect(timer.no, "every");
    self->timer = timer.id;
    self->begun = 1;
}

static void pump_turn(struct track *self, uint64_t why)
{
    (void)why;
    if (!self->begun)
        begin_beat(self);
    while (strokes < STROKES) {
        struct fg_received got = receive_any();
        if (got.no == FG_WAITING)
            return;
        expect(got.no, "receive");
        stroke(self);
    }
    end(self, FG_EXIT_NORMAL);
}

int main(int count, char **words)
{
    start_box(count, words);
    begin(&pump, 0);
    run_box();
    return EXIT_SUCCESS;
}
