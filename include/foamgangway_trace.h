/*
 * Foamgangway, traced: every call of foamgangway.h once more, under the name fg_traced_.. and with a tracer in
 * front. It makes the call, writes its record and hands that to the tracer's sink; the answer is the call's.
 *
 *     made = fg_spawn(BUFFERS, 1);
 *     made = fg_traced_spawn(&tracer, BUFFERS, 1);
 *
 * A trace that ./replay can judge begins with a start that answers FG_DONE, and has every call on these buffers
 * from then on, in their order (docs/TRACE.md).
 */
#ifndef FOAMGANGWAY_TRACE_H
#define FOAMGANGWAY_TRACE_H

#include "foamgangway.h"

#ifdef __cplusplus
extern "C" {
#endif

/* Where records go: a ring buffer, a file, a wire. The sink is given `ctx` and a whole record, of at most
 * FG_TRACE_MOST bytes, which it must copy: they are gone when it returns. Without a sink nothing is recorded. */
struct fg_tracer {
    void (*sink)(void *ctx, const uint8_t *record, size_t len);
    void *ctx;
};

/* What every traced call takes first, and the buffers as it lends them on. */
#define FG_TRACED const struct fg_tracer *tracer, FG_BUFFERS
#define FG_LENT t, t_len, p, p_len

/* Hands the record that `writer` writes of these numbers to the sink. */
#define FG_HAND_ON(writer, ...)                                                            \
    do {                                                                                   \
        uint8_t record[FG_TRACE_MOST];                                                     \
        if (tracer->sink)                                                                  \
            tracer->sink(tracer->ctx, record, writer(record, sizeof record, __VA_ARGS__)); \
    } while (0)

static inline uint64_t fg_traced_start(FG_TRACED, uint64_t actors, uint64_t mailboxes, uint64_t data,
                                       uint64_t links, uint64_t monitors, uint64_t timers)
{
    uint64_t no = fg_start(FG_LENT, actors, mailboxes, data, links, monitors, timers);
    FG_HAND_ON(fg_trace_start, t_len, p_len, actors, mailboxes, data, links, monitors, timers, no);
    return no;
}

static inline struct fg_made fg_traced_spawn(FG_TRACED, uint64_t priority)
{
    struct fg_made made = fg_spawn(FG_LENT, priority);
    FG_HAND_ON(fg_trace_spawn, priority, made.no, made.id);
    return made;
}

static inline struct fg_turn fg_traced_next(FG_TRACED)
{
    struct fg_turn turn = fg_next(FG_LENT);
    FG_HAND_ON(fg_trace_next, turn.no, turn.id, turn.reason, turn.sleep);
    return turn;
}

static inline uint64_t fg_traced_yield(FG_TRACED)
{
    uint64_t no = fg_yield(FG_LENT);
    FG_HAND_ON(fg_trace_yield, no);
    return no;
}

static inline uint64_t fg_traced_notify(FG_TRACED, uint64_t target, uint64_t tag, const uint8_t *payload,
                                        size_t payload_len)
{
    uint64_t no = fg_notify(FG_LENT, target, tag, payload, payload_len);
    FG_HAND_ON(fg_trace_notify, target, tag, payload, payload_len, no);
    return no;
}

static inline struct fg_received fg_traced_receive(FG_TRACED, uint64_t sender, uint64_t class_, uint64_t tag,
                                                   int64_t wait)
{
    struct fg_received got = fg_receive(FG_LENT, sender, class_, tag, wait);
    FG_HAND_ON(fg_trace_receive, sender, class_, tag, wait, got.no, got.sender, got.class_, got.tag, got.length);
    return got;
}

static inline struct fg_place fg_traced_shown(FG_TRACED)
{
    struct fg_place place = fg_shown(FG_LENT);
    FG_HAND_ON(fg_trace_shown, place.no, place.offset, place.length);
    return place;
}

static inline struct fg_made fg_traced_after(FG_TRACED, uint64_t delay)
{
    struct fg_made made = fg_after(FG_LENT, delay);
    FG_HAND_ON(fg_trace_after, delay, made.no, made.id);
    return made;
}

static inline struct fg_made fg_traced_every(FG_TRACED, uint64_t interval)
{
    struct fg_made made = fg_every(FG_LENT, interval);
    FG_HAND_ON(fg_trace_every, interval, made.no, made.id);
    return made;
}

static inline uint64_t fg_traced_cancel(FG_TRACED, uint64_t timer)
{
    uint64_t no = fg_cancel(FG_LENT, timer);
    FG_HAND_ON(fg_trace_cancel, timer, no);
    return no;
}

static inline uint64_t fg_traced_link(FG_TRACED, uint64_t partner)
{
    uint64_t no = fg_link(FG_LENT, partner);
    FG_HAND_ON(fg_trace_link, partner, no);
    return no;
}

static inline uint64_t fg_traced_unlink(FG_TRACED, uint64_t partner)
{
    uint64_t no = fg_unlink(FG_LENT, partner);
    FG_HAND_ON(fg_trace_unlink, partner, no);
    return no;
}

static inline struct fg_made fg_traced_monitor(FG_TRACED, uint64_t target)
{
    struct fg_made made = fg_monitor(FG_LENT, target);
    FG_HAND_ON(fg_trace_monitor, target, made.no, made.id);
    return made;
}

static inline uint64_t fg_traced_demonitor(FG_TRACED, uint64_t monitor)
{
    uint64_t no = fg_demonitor(FG_LENT, monitor);
    FG_HAND_ON(fg_trace_demonitor, monitor, no);
    return no;
}

static inline struct fg_ended fg_traced_exit(FG_TRACED, uint64_t reason)
{
    struct fg_ended ended = fg_exit(FG_LENT, reason);
    FG_HAND_ON(fg_trace_exit, reason, ended.no, ended.sent, ended.lost);
    return ended;
}

static inline struct fg_advanced fg_traced_advance(FG_TRACED, uint64_t us)
{
    struct fg_advanced advanced = fg_advance(FG_LENT, us);
    FG_HAND_ON(fg_trace_advance, us, advanced.no, advanced.fired);
    return advanced;
}

static inline struct fg_counts fg_traced_report(FG_TRACED)
{
    struct fg_counts report = fg_report(FG_LENT);
    FG_HAND_ON(fg_trace_report, report.no, report.free[0], report.free[1], report.free[2], report.free[3],
               report.free[4], report.free[5]);
    return report;
}

static inline struct fg_made fg_traced_bus(FG_TRACED, uint64_t entries, uint64_t subscribers, uint64_t reads,
                                           uint64_t age_ms)
{
    struct fg_made made = fg_bus(FG_LENT, entries, subscribers, reads, age_ms);
    FG_HAND_ON(fg_trace_bus, entries, subscribers, reads, age_ms, made.no, made.id);
    return made;
}

static inline uint64_t fg_traced_publish(FG_TRACED, uint64_t bus, const uint8_t *payload, size_t payload_len)
{
    uint64_t no = fg_publish(FG_LENT, bus, payload, payload_len);
    FG_HAND_ON(fg_trace_publish, bus, payload, payload_len, no);
    return no;
}

static inline uint64_t fg_traced_subscribe(FG_TRACED, uint64_t bus)
{
    uint64_t no = fg_subscribe(FG_LENT, bus);
    FG_HAND_ON(fg_trace_subscribe, bus, no);
    return no;
}

static inline uint64_t fg_traced_unsubscribe(FG_TRACED, uint64_t bus)
{
    uint64_t no = fg_unsubscribe(FG_LENT, bus);
    FG_HAND_ON(fg_trace_unsubscribe, bus, no);
    return no;
}

static inline struct fg_copied fg_traced_read(FG_TRACED, uint64_t bus, uint8_t *out, size_t out_len)
{
    struct fg_copied copied = fg_read(FG_LENT, bus, out, out_len);
    FG_HAND_ON(fg_trace_read, bus, out_len, copied.no, out, (size_t)copied.length);
    return copied;
}

#ifdef __cplusplus
}
#endif

#endif
