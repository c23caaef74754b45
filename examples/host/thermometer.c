/*
 * Another school-lab box in plain C: one thermometer, and two tracks that read it, over a bus.
 *
 * The thermometer publishes a reading every 100 ms. It does not know who reads. The heater looks every 100 ms and misses
 * none. The display looks every half second only. It subscribes when it looks for the first time, and so sees nothing that
 * was published before. The bus keeps three readings: when the display looks again, those before the last three have made
 * way. Then the thermometer breaks, and its last reading, which the display has not seen, ends by age. That way nobody
 * takes an old reading for a new one.
 *
 * box.h has what it shares with the other box of this folder. With a file's name as its argument it also writes a trace of
 * its calls there, for ./replay and ./autopsy.
 */
enum { ACTORS = 3, MAILBOXES = 4, DATA = 8, LINKS = 0, MONITORS = 0, TIMERS = 3 };

#include "box.h"

enum { READINGS = 3, READERS = 2, NEVER_BY_READS = 0, AGE_MS = 350 };
enum { MEASURE_US = 100000, HEAT_US = 100000, SHOW_US = 500000, LAST_MEASURED_US = 1100000 };

static void thermometer_turn(struct track *self, uint64_t why);
static void heater_turn(struct track *self, uint64_t why);
static void display_turn(struct track *self, uint64_t why);

static struct track thermometer = { .name = "thermometer", .turn = thermometer_turn };
static struct track heater = { .name = "heater", .turn = heater_turn };
static struct track display = { .name = "display", .turn = display_turn };

/* The number of the bus. */
static uint64_t readings;

static void make_bus(void)
{
    struct fg_made made = fg_traced_bus(BOX, READINGS, READERS, NEVER_BY_READS, AGE_MS);
    expect(made.no, "bus");
    readings = made.id;
    printf("%5" PRIu64 " box: bus %" PRIu64 " keeps %d readings, each for %d ms\n", now_us / 1000, made.id, READINGS, AGE_MS);
}

/* The track's turn comes again and again, so often. */
static void begin_ticking(struct track *self, uint64_t interval_us)
{
    struct fg_made timer = fg_traced_every(BOX, interval_us);
    expect(timer.no, "every");
    self->timer = timer.id;
    self->begun = 1;
}

/* Says whether a tick has come; where none has, the track now waits for it. */
static int ticked(void)
{
    struct fg_received got = receive_any();
    if (got.no == FG_WAITING)
        return 0;
    expect(got.no, "receive");
    return 1;
}

static void subscribe(struct track *self)
{
    expect(fg_traced_subscribe(BOX, readings), "subscribe");
    say(self);
    printf("subscribes\n");
}

/* Reads all that is new, oldest first, and answers how much that was. */
static unsigned read_all(struct track *self)
{
    uint8_t reading[1];
    unsigned count = 0;
    for (;;) {
        struct fg_copied copied = fg_traced_read(BOX, readings, reading, sizeof reading);
        if (copied.no == FG_NOTHING)
            return count;
        expect(copied.no, "read");
        count++;
        say(self);
        printf("reads %u degrees\n", reading[0]);
    }
}

/* ---- The thermometer: publishes what it measures, for whoever reads. ---- */

static void measure(struct track *self)
{
    uint8_t reading[1];
    self->degrees++;
    reading[0] = (uint8_t)self->degrees;
    say(self);
    printf("%u degrees\n", self->degrees);
    expect(fg_traced_publish(BOX, readings, reading, sizeof reading), "publish");
}

static void thermometer_turn(struct track *self, uint64_t why)
{
    (void)why;
    if (!self->begun)
        begin_ticking(self, MEASURE_US);
    while (ticked()) {
        measure(self);
        if (now_us == LAST_MEASURED_US) {
            end(self, FG_EXIT_CRASH);
            return;
        }
    }
}

/* ---- The heater: reads each as it comes, and goes off where none does. ---- */

static void heater_turn(struct track *self, uint64_t why)
{
    (void)why;
    if (!self->begun) {
        begin_ticking(self, HEAT_US);
        subscribe(self);
    }
    while (ticked()) {
        if (read_all(self) == 0) {
            say(self);
            printf("no new reading, so it goes off\n");
            end(self, FG_EXIT_NORMAL);
            return;
        }
    }
}

/* ---- The display: comes late, and looks seldom. ---- */

static int subscribed;

static void show_readings(struct track *self)
{
    if (!subscribed) {
        subscribe(self);
        subscribed = 1;
    }
    if (read_all(self) == 0) {
        say(self);
        printf("nothing new\n");
    }
}

static void display_turn(struct track *self, uint64_t why)
{
    (void)why;
    if (!self->begun)
        begin_ticking(self, SHOW_US);
    while (ticked()) {
        show_readings(self);
        if (now_us > LAST_MEASURED_US) {
            end(self, FG_EXIT_NORMAL);
            return;
        }
    }
}

int main(int count, char **words)
{
    start_box(count, words);
    make_bus();
    begin(&thermometer, 0);
    begin(&heater, 1);
    begin(&display, 1);
    run_box();
    return EXIT_SUCCESS;
}
