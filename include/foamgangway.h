/*
 * Foamgangway: the tables of a single-threaded, cooperative actor runtime.
 *
 * All state lies in two buffers that the caller lends to every call: a table of 64-bit words and a
 * payload area of bytes. Both come first in every call, each as a pointer and a length (in words, in
 * bytes). The runtime keeps no other state, allocates nothing and never blocks.
 *
 * No two slices of one call may overlap: table, payload area and, in fg_notify and fg_publish, the
 * payload, in fg_read the slice that is written to. That is the caller's duty; so is that every pointer
 * is good for its length, and not null even where the length is 0.
 *
 * Every call but fg_start first tests that the buffers are sound and answers FG_UNSOUND if not. Tests
 * go in the order FG_UNSOUND, FG_NOT_NOW, FG_MALFORMED, FG_UNKNOWN, FG_NO_ROOM. With these five, the
 * refusals, nothing has changed and every other number answered is 0.
 */
#ifndef FOAMGANGWAY_H
#define FOAMGANGWAY_H

#include <stdbool.h>
#include <stddef.h>
#include <stdint.h>

#ifdef __cplusplus
extern "C" {
#endif

/* The number that every call answers, alone or as the field `no`. */
enum fg_number {
    FG_DONE = 0,      /* done */
    FG_MALFORMED = 1, /* malformed argument */
    FG_NO_ROOM = 2,   /* no room */
    FG_UNKNOWN = 3,   /* no such actor, timer, monitor, link or bus, or not the caller's, or not subscribed */
    FG_NOT_NOW = 4,   /* no actor is running, or, for fg_next, one is */
    FG_NOTHING = 5,   /* receive with wait 0 found nothing, and the hand is released; read: nothing new */
    FG_WAITING = 6,   /* receive: the caller now waits, its hand is released; next: idle */
    FG_UNSOUND = 7    /* the buffers are not sound or too short */
};

/* Capacities: actors, mailbox entries and data entries from 1, the others from 0. */
#define FG_MAX_ACTORS 256
#define FG_MAX_MAILBOXES 256
#define FG_MAX_DATA 256
#define FG_MAX_LINKS 128
#define FG_MAX_MONITORS 128
#define FG_MAX_TIMERS 64

/* An actor id is age * 256 + slot, a timer id age * 64 + slot, a monitor id age * 128 + slot; 0 is never an id. A slot's age
 * counts its uses. After the last one, of age FG_MAX_AGE, it is worn and not used again. Ids need 64 bits. */
#define FG_ACTOR_FACTOR 256
#define FG_TIMER_FACTOR 64
#define FG_MONITOR_FACTOR 128
#define FG_MAX_AGE (UINT64_C(1) << 40)

#define FG_MAX_PRIORITY 3                     /* 0 is first */
#define FG_MAX_PAYLOAD 252                    /* bytes of a message */
#define FG_ENTRY_BYTES 256                    /* bytes of a data entry: header and payload */
#define FG_HEADER_BYTES 4                     /* bytes of a header */
#define FG_MAX_TAG 134217726                  /* largest tag of a message */
#define FG_MAX_CLOCK (UINT64_C(1) << 62)      /* microseconds */
#define FG_MAX_STEP UINT64_C(4294967295)      /* microseconds: delays, intervals, advances */
#define FG_MIN_INTERVAL 100                   /* microseconds: intervals */
#define FG_MAX_WAIT INT64_C(86400000)         /* milliseconds, a day: waits, but for FG_WAIT_FOREVER */

/* Buses, which are numbered from 0; what one can have, from 1 each; when what was published on it ends, from 0. */
#define FG_MAX_BUSES 32
#define FG_MAX_BUS_ENTRIES 16
#define FG_MAX_SUBSCRIBERS 32
#define FG_MAX_READS 32
#define FG_MAX_BUS_AGE 2147483647             /* milliseconds */

/* A filter of fg_receive that takes any sender, class, tag. Every other number may be asked for as a sender, also 4294967295,
 * which meant any in the old edition. */
#define FG_ANY_SENDER UINT64_C(18446744073709551615)
#define FG_ANY_CLASS 15
#define FG_ANY_TAG 134217727

/* Waits of fg_receive; a positive one is in milliseconds, at most FG_MAX_WAIT. */
#define FG_WAIT_FOREVER (-1)
#define FG_WAIT_NOT 0

/* Classes of messages. */
#define FG_CLASS_NOTIFY 0
#define FG_CLASS_REQUEST 1
#define FG_CLASS_REPLY 2
#define FG_CLASS_TIMER 3
#define FG_CLASS_EXIT 4

/* Why an actor runs, as fg_next says. */
#define FG_RUNS_READY 0   /* spawned or yielded */
#define FG_RUNS_MESSAGE 1 /* a message that its filter matches has come */
#define FG_RUNS_TIMEOUT 2 /* its wait is over */

/* Exit reasons: 0 to 65531 are the application's. */
#define FG_EXIT_NORMAL 65532
#define FG_EXIT_CRASH 65533
#define FG_EXIT_KILLED 65534
#define FG_EXIT_OVERFLOW 65535
#define FG_MAX_REASON 65535

/* Bytes of the records in runtime messages, and their kinds. */
#define FG_TICK_BYTES 12
#define FG_EXIT_BYTES 22
#define FG_KIND_TICK 3
#define FG_KIND_EXIT 4

/* Those of the old edition, with ids of 32 bits, which this runtime does not write. */
#define FG_OLD_TICK_BYTES 8
#define FG_OLD_EXIT_BYTES 14
#define FG_KIND_OLD_TICK 1
#define FG_KIND_OLD_EXIT 2

/* Bytes of the longest record of a trace. */
#define FG_TRACE_MOST 288

/* How long the two buffers must be; they may be longer, and what is past the needed part is never changed.
 * As constants, for static arrays: */
#define FG_WORDS(actors, mailboxes, data, links, monitors, timers) \
    (1176 + 10 * (actors) + 3 * (mailboxes) + 6 * (data) + 2 * (links) + 3 * (monitors) + 4 * (timers))
#define FG_BYTES(data) (FG_ENTRY_BYTES * (data))

/* And as functions. Words of the table for capacities in range: */
static inline size_t fg_words_needed(uint64_t actors, uint64_t mailboxes, uint64_t data, uint64_t links,
                                     uint64_t monitors, uint64_t timers)
{
    return (size_t)FG_WORDS(actors, mailboxes, data, links, monitors, timers);
}

/* Bytes of the payload area: */
static inline size_t fg_bytes_needed(uint64_t data)
{
    return (size_t)FG_BYTES(data);
}

struct fg_made { uint64_t no, id; };
struct fg_turn { uint64_t no, id, reason; int64_t sleep; };
/* `class` is a word of C++, hence `class_`. */
struct fg_received { uint64_t no, sender, class_, tag, length; };
struct fg_place { uint64_t no, offset, length; };
struct fg_ended { uint64_t no, sent, lost; };
struct fg_advanced { uint64_t no, fired; };
/* Free counts: actors, mailbox entries, data entries, links, monitors, timers. */
struct fg_counts { uint64_t no, free[6]; };
struct fg_copied { uint64_t no, length; };
/* `kind` says which edition was read: FG_KIND_TICK or FG_KIND_OLD_TICK, FG_KIND_EXIT or FG_KIND_OLD_EXIT. */
struct fg_tick_record { uint64_t no; uint16_t kind; uint64_t id; };
struct fg_exit_record { uint64_t no; uint16_t kind; uint64_t actor; uint16_t reason; uint64_t monitor; };
struct fg_old_tick_record { uint64_t no; uint32_t id; };
struct fg_old_exit_record { uint64_t no; uint32_t actor; uint16_t reason; uint32_t monitor; };
/* The letters of a word, `len` of them, no zero at the end. */
struct fg_word { uint8_t bytes[8]; size_t len; };

/* The two buffers, first in every call. */
#define FG_BUFFERS uint64_t *t, size_t t_len, uint8_t *p, size_t p_len

/* Starts over: every entry free, ages and clock 0. Needs nothing of the buffers but their lengths. */
uint64_t fg_start(FG_BUFFERS, uint64_t actors, uint64_t mailboxes, uint64_t data, uint64_t links,
                  uint64_t monitors, uint64_t timers);

/* Makes an actor at the tail of its priority's queue and answers its id. Needs no running actor. */
struct fg_made fg_spawn(FG_BUFFERS, uint64_t priority);

/* Runs the head of the first queue that is not empty: its id and why it runs. With none runnable answers
 * FG_WAITING and the microseconds to sleep, -1 where nothing is awaited. */
struct fg_turn fg_next(FG_BUFFERS);

/* Puts the running actor at the tail of its queue. */
uint64_t fg_yield(FG_BUFFERS);

/* Sends a message of 0 to 252 bytes to an actor, the caller included. */
uint64_t fg_notify(FG_BUFFERS, uint64_t target, uint64_t tag, const uint8_t *payload, size_t payload_len);

/* Releases the caller's hand, then takes the oldest message that the filter matches into it; without one the
 * caller waits: -1 for ever, 0 not at all, else so many milliseconds. More than FG_MAX_WAIT, a day, is FG_MALFORMED. So of
 * waits that are passed in microseconds by mistake those above 86.4 seconds are refused; a shorter one is taken, and lasts a
 * thousand times as long as was meant, a day at most. Woken, it calls fg_receive again. */
struct fg_received fg_receive(FG_BUFFERS, uint64_t sender, uint64_t class_, uint64_t tag, int64_t wait);

/* Where in the payload area the payload in hand lies; FG_UNKNOWN with nothing in hand. */
struct fg_place fg_shown(FG_BUFFERS);

/* Arms a timer that ticks once, after so many microseconds, and answers its id. */
struct fg_made fg_after(FG_BUFFERS, uint64_t delay);

/* Arms a timer that ticks every so many microseconds and answers its id. Less than FG_MIN_INTERVAL is FG_MALFORMED. So of
 * intervals that are passed in milliseconds by mistake those below 100 ms are refused; a longer one is taken. It keeps its
 * beat: however late fg_advance is called, it is due whole intervals after it was armed. Beats that were missed meanwhile give
 * one tick. */
struct fg_made fg_every(FG_BUFFERS, uint64_t interval);

/* Ends a timer of the caller; ticks already queued stay. */
uint64_t fg_cancel(FG_BUFFERS, uint64_t timer);

/* Links the caller and another actor: when one ends, the other is sent an exit notice. */
uint64_t fg_link(FG_BUFFERS, uint64_t partner);

/* Takes a link back, from either end. */
uint64_t fg_unlink(FG_BUFFERS, uint64_t partner);

/* Watches another actor: when it ends, the caller is sent an exit notice with the id answered here. */
struct fg_made fg_monitor(FG_BUFFERS, uint64_t target);

/* Takes a monitor of the caller back. */
uint64_t fg_demonitor(FG_BUFFERS, uint64_t monitor);

/* Ends the running actor; answers how many exit notices were sent and how many were lost for want of room. */
struct fg_ended fg_exit(FG_BUFFERS, uint64_t reason);

/* Moves the clock, fires due timers, then ends waits that are over, then what has stood on its bus for its age. Needs no
 * running actor. */
struct fg_advanced fg_advance(FG_BUFFERS, uint64_t us);

/* Answers how many entries of each pool are free. Needs no running actor. */
struct fg_counts fg_report(FG_BUFFERS);

/* Makes a bus for so many entries and so many subscribers, and answers its number, which stands as `id`. An entry ends after so
 * many reads, and after so many milliseconds; 0 for neither. Needs no running actor. */
struct fg_made fg_bus(FG_BUFFERS, uint64_t entries, uint64_t subscribers, uint64_t reads, uint64_t age_ms);

/* Publishes 0 to 252 bytes on a bus, for those who are subscribed to it now. They take a data entry. A full bus first ends its
 * oldest entry, read or not, and so never lacks room. */
uint64_t fg_publish(FG_BUFFERS, uint64_t bus, const uint8_t *payload, size_t payload_len);

/* Subscribes the caller to a bus: it can read what is published from now on. FG_MALFORMED where it is subscribed already. */
uint64_t fg_subscribe(FG_BUFFERS, uint64_t bus);

/* Takes the caller's subscription back. */
uint64_t fg_unsubscribe(FG_BUFFERS, uint64_t bus);

/* Copies the oldest entry of a bus that the caller has not read yet to the front of `out`, and answers its length. Never waits:
 * FG_NOTHING where there is nothing new. FG_MALFORMED where `out` is too short, and the entry stays unread. */
struct fg_copied fg_read(FG_BUFFERS, uint64_t bus, uint8_t *out, size_t out_len);

/* Writes the record of a tick, FG_TICK_BYTES; FG_MALFORMED where the slice is shorter. */
uint64_t fg_write_tick(uint8_t *out, size_t len, uint64_t id);

/* Reads the record of a tick, of either edition; FG_MALFORMED unless size, length and kind are exactly a tick's. */
struct fg_tick_record fg_read_tick(const uint8_t *bytes, size_t len);

/* Writes the record of an exit notice, FG_EXIT_BYTES; FG_MALFORMED where the slice is shorter. */
uint64_t fg_write_exit(uint8_t *out, size_t len, uint64_t actor, uint16_t reason, uint64_t monitor);

/* Reads the record of an exit notice, of either edition; `monitor` is 0 in the notice of a link. */
struct fg_exit_record fg_read_exit(const uint8_t *bytes, size_t len);

/* The same four as they were in the old edition, for boxes that still speak it: FG_OLD_TICK_BYTES and FG_OLD_EXIT_BYTES, and ids
 * of 32 bits. These readers refuse the kinds of today with FG_MALFORMED. */
uint64_t fg_write_old_tick(uint8_t *out, size_t len, uint32_t id);
struct fg_old_tick_record fg_read_old_tick(const uint8_t *bytes, size_t len);
uint64_t fg_write_old_exit(uint8_t *out, size_t len, uint32_t actor, uint16_t reason, uint32_t monitor);
struct fg_old_exit_record fg_read_old_exit(const uint8_t *bytes, size_t len);

/* The word of an exit reason: app, normal, crash, killed or overflow. */
struct fg_word fg_reason_word(uint16_t reason);

/*
 * Traces (docs/TRACE.md): a call and its answer as a record, to be stored and judged later.
 *
 * Each function below writes the record of the call of its name to the front of `out` and answers how many
 * bytes that are, at most FG_TRACE_MOST; 0, and nothing has changed, where `out` is too short. It takes the
 * call's own arguments, without the buffers, then the fields of its answer. It needs no runtime, and changes
 * none. foamgangway_trace.h makes a call and hands its record on, in one line.
 */
#define FG_RECORD uint8_t *out, size_t out_len

/* A start's record has the lengths of both buffers too: words of the table, bytes of the payload area. */
size_t fg_trace_start(FG_RECORD, uint64_t words, uint64_t bytes, uint64_t actors, uint64_t mailboxes,
                      uint64_t data, uint64_t links, uint64_t monitors, uint64_t timers, uint64_t no);

size_t fg_trace_spawn(FG_RECORD, uint64_t priority, uint64_t no, uint64_t id);
size_t fg_trace_next(FG_RECORD, uint64_t no, uint64_t id, uint64_t reason, int64_t sleep);
size_t fg_trace_yield(FG_RECORD, uint64_t no);

/* A payload over FG_MAX_PAYLOAD bytes is recorded by its length alone, and not read. */
size_t fg_trace_notify(FG_RECORD, uint64_t target, uint64_t tag, const uint8_t *payload, size_t payload_len,
                       uint64_t no);

size_t fg_trace_receive(FG_RECORD, uint64_t sender, uint64_t class_, uint64_t tag, int64_t wait, uint64_t no,
                        uint64_t its_sender, uint64_t its_class, uint64_t its_tag, uint64_t length);

/* The payload in hand as the caller saw it, where fg_shown said that it lies; of length 0 without one. */
size_t fg_trace_show(FG_RECORD, const uint8_t *part, size_t part_len);

size_t fg_trace_shown(FG_RECORD, uint64_t no, uint64_t offset, uint64_t length);
size_t fg_trace_after(FG_RECORD, uint64_t delay, uint64_t no, uint64_t id);
size_t fg_trace_every(FG_RECORD, uint64_t interval, uint64_t no, uint64_t id);
size_t fg_trace_cancel(FG_RECORD, uint64_t timer, uint64_t no);
size_t fg_trace_link(FG_RECORD, uint64_t partner, uint64_t no);
size_t fg_trace_unlink(FG_RECORD, uint64_t partner, uint64_t no);
size_t fg_trace_monitor(FG_RECORD, uint64_t target, uint64_t no, uint64_t id);
size_t fg_trace_demonitor(FG_RECORD, uint64_t monitor, uint64_t no);
size_t fg_trace_exit(FG_RECORD, uint64_t reason, uint64_t no, uint64_t sent, uint64_t lost);
size_t fg_trace_advance(FG_RECORD, uint64_t us, uint64_t no, uint64_t fired);

/* The six free counts in the order of struct fg_counts. */
size_t fg_trace_report(FG_RECORD, uint64_t no, uint64_t actors, uint64_t mailboxes, uint64_t data,
                       uint64_t links, uint64_t monitors, uint64_t timers);

size_t fg_trace_bus(FG_RECORD, uint64_t entries, uint64_t subscribers, uint64_t reads, uint64_t age_ms, uint64_t no,
                    uint64_t id);

/* As for fg_trace_notify, of a longer payload there is only its length. */
size_t fg_trace_publish(FG_RECORD, uint64_t bus, const uint8_t *payload, size_t payload_len, uint64_t no);

size_t fg_trace_subscribe(FG_RECORD, uint64_t bus, uint64_t no);
size_t fg_trace_unsubscribe(FG_RECORD, uint64_t bus, uint64_t no);

/* `room` is the length of the slice that was lent; then the number answered, and the bytes that were copied to it. */
size_t fg_trace_read(FG_RECORD, uint64_t bus, uint64_t room, uint64_t no, const uint8_t *bytes, size_t bytes_len);

/* Judges record number n of a trace, counted from 0: true where it is right on these buffers, and its call is
 * then made on them. Where it is not, nothing after it can be judged, and the buffers may have changed. 8,192
 * words and 65,536 bytes are long enough for every trace. */
bool fg_replay(FG_BUFFERS, uint64_t n, const uint8_t *record, size_t record_len);

#ifdef __cplusplus
}
#endif

#endif
