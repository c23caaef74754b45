/*
 * A school-lab box in plain C: a heater, a pump and a watchdog, each a track of the runtime.
 *
 * box.h has what it shares with the other box of this folder: how the tracks take turns, and how the box sleeps.
 *
 * The run shows the accident that ids with ages prevent: the watchdog sends a stop message to a heater
 * that has already ended, while the next heater works in the same slot. The message is refused.
 *
 * With a file's name as its argument it also writes a trace of its calls there, for ./replay and ./autopsy.
 */
enum { ACTORS = 4, MAILBOXES = 16, DATA = 16, LINKS = 4, MONITORS = 4, TIMERS = 4 };

#include "box.h"

enum { TAG_READING = 1, TAG_STOP = 2 };
enum { TICK_US = 100000, PUMP_FAILS_US = 350000, PATIENCE_MS = 250 };

static void heater_turn(struct track *self, uint64_t why);
static void pump_turn(struct track *self, uint64_t why);
static void watchdog_turn(struct track *self, uint64_t why);

static struct track watchdog = { .name = "watchdog", .turn = watchdog_turn };
static struct track heater = { .name = "heater", .turn = heater_turn };
static struct track pump = { .name = "pump", .turn = pump_turn };

/* The payload in hand, where it lies in the area. */
static const uint8_t *payload_in_hand(size_t *len)
{
    struct fg_place place = fg_traced_shown(BOX);
    expect(place.no, "shown");
    *len = (size_t)place.length;
    return area + place.offset;
}

static struct fg_exit_record exit_in_hand(void)
{
    size_t len;
    const uint8_t *bytes = payload_in_hand(&len);
    struct fg_exit_record notice = fg_read_exit(bytes, len);
    expect(notice.no, "read_exit");
    return notice;
}

static uint64_t tick_in_hand(void)
{
    size_t len;
    const uint8_t *bytes = payload_in_hand(&len);
    struct fg_tick_record tick = fg_read_tick(bytes, len);
    expect(tick.no, "read_tick");
    return tick.id;
}

/* Prints what an exit notice says. */
static void print_notice(struct fg_exit_record notice)
{
    struct fg_word word = fg_reason_word(notice.reason);
    printf("%" PRIu64 " has ended (%.*s), ", notice.actor, (int)word.len, (const char *)word.bytes);
    if (notice.monitor == 0)
        printf("by link\n");
    else
        printf("by monitor %" PRIu64 "\n", notice.monitor);
}

/* ---- The heater: warms up at every tick and tells the watchdog. ---- */

static void heater_begin(struct track *self)
{
    struct fg_made timer = fg_traced_every(BOX, TICK_US);
    expect(timer.no, "every");
    self->timer = timer.id;
    self->begun = 1;
}

static void heater_tick(struct track *self)
{
    uint8_t reading[1];
    self->degrees += 5;
    reading[0] = (uint8_t)self->degrees;
    say(self);
    printf("timer %" PRIu64 " ticks, %u degrees\n", tick_in_hand(), self->degrees);
    expect(fg_traced_notify(BOX, watchdog.id, TAG_READING, reading, sizeof reading), "notify");
}

/* Without its pump a heater must not go on. */
static void heater_loses_partner(struct track *self)
{
    say(self);
    print_notice(exit_in_hand());
    expect(fg_traced_cancel(BOX, self->timer), "cancel");
    end(self, FG_EXIT_NORMAL);
}

static void heater_turn(struct track *self, uint64_t why)
{
    (void)why;
    if (!self->begun)
        heater_begin(self);
    for (;;) {
        struct fg_received got = receive_any();
        if (got.no == FG_WAITING)
            return;
        expect(got.no, "receive");
        if (got.class_ == FG_CLASS_TIMER) {
            heater_tick(self);
        } else if (got.class_ == FG_CLASS_EXIT) {
            heater_loses_partner(self);
            return;
        } else if (got.tag == TAG_STOP) {
            say(self);
            printf("told to stop by %" PRIu64 "\n", got.sender);
            end(self, FG_EXIT_NORMAL);
            return;
        }
    }
}

/* ---- The pump: linked to the heater, and blocked after a while. ---- */

static void pump_begin(struct track *self)
{
    struct fg_made timer = fg_traced_after(BOX, PUMP_FAILS_US);
    expect(timer.no, "after");
    expect(fg_traced_link(BOX, heater.id), "link");
    self->timer = timer.id;
    self->begun = 1;
}

static void pump_turn(struct track *self, uint64_t why)
{
    struct fg_received got;
    (void)why;
    if (!self->begun)
        pump_begin(self);
    got = receive_any();
    if (got.no == FG_WAITING)
        return;
    expect(got.no, "receive");
    say(self);
    printf("the rotor is blocked\n");
    end(self, FG_EXIT_CRASH);
}

/* ---- The watchdog: watches both, starts a new heater, stops it in the end. ---- */

static uint64_t first_heater;
static const uint8_t nothing[1];

static void watch(struct track *self, const struct track *other)
{
    struct fg_made made = fg_traced_monitor(BOX, other->id);
    expect(made.no, "monitor");
    say(self);
    printf("watches %" PRIu64 " by monitor %" PRIu64 "\n", other->id, made.id);
}

static void watchdog_begin(struct track *self)
{
    watch(self, &heater);
    watch(self, &pump);
    first_heater = heater.id;
    self->begun = 1;
}

/* The accident: the watchdog has kept the id of the heater that ended. */
static void stop_heaters(struct track *self)
{
    uint64_t no = fg_traced_notify(BOX, first_heater, TAG_STOP, nothing, 0);
    say(self);
    printf("stop to %" PRIu64 " answers %" PRIu64 "%s\n", first_heater, no,
           no == FG_UNKNOWN ? ", that track has ended" : "");
    no = fg_traced_notify(BOX, heater.id, TAG_STOP, nothing, 0);
    say(self);
    printf("stop to %" PRIu64 " answers %" PRIu64 "\n", heater.id, no);
}

static void watchdog_reads(struct track *self)
{
    size_t len;
    const uint8_t *bytes = payload_in_hand(&len);
    say(self);
    printf("reads %u degrees\n", len == 1 ? bytes[0] : 0u);
}

/* Says whether the watchdog is done. */
static int watchdog_notice(struct track *self)
{
    struct fg_exit_record notice = exit_in_hand();
    say(self);
    print_notice(notice);
    if (notice.actor == first_heater) {
        begin(&heater, 1);
        watch(self, &heater);
        return 0;
    }
    return notice.actor == heater.id;
}

/* While the first heater works all messages count, then only exit notices, and not for ever. */
static struct fg_received watchdog_receive(void)
{
    if (heater.id == first_heater)
        return receive_any();
    return fg_traced_receive(BOX, FG_ANY_SENDER, FG_CLASS_EXIT, FG_ANY_TAG, PATIENCE_MS);
}

static void watchdog_turn(struct track *self, uint64_t why)
{
    if (!self->begun)
        watchdog_begin(self);
    if (why == FG_RUNS_TIMEOUT)
        stop_heaters(self);
    for (;;) {
        struct fg_received got = watchdog_receive();
        if (got.no == FG_WAITING)
            return;
        expect(got.no, "receive");
        if (got.class_ != FG_CLASS_EXIT) {
            watchdog_reads(self);
        } else if (watchdog_notice(self)) {
            end(self, FG_EXIT_NORMAL);
            return;
        }
    }
}

int main(int count, char **words)
{
    if (sizeof table / sizeof table[0] < fg_words_needed(ACTORS, MAILBOXES, DATA, LINKS, MONITORS, TIMERS) ||
        sizeof area < fg_bytes_needed(DATA))
        return EXIT_FAILURE;
    printf("before the start report answers %" PRIu64 "\n", fg_report(BUFFERS).no);
    start_box(count, words);
    begin(&watchdog, 0);
    begin(&heater, 1);
    begin(&pump, 1);
    run_box();
    return EXIT_SUCCESS;
}
