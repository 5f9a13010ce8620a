#include "order.h"

#include <stddef.h>

// Before every stamp, and far enough from the type's end that times can be taken from each other.
static const int64_t PAST = INT64_MIN / 4;

static int64_t later(int64_t a, int64_t b)
{
    return a > b ? a : b;
}

void order_start(struct order *o, int64_t period, int64_t now, int64_t ahead)
{
    *o = (struct order){.period = period, .next = now + period, .turn = now, .meant = now, .read = now, .ahead = ahead, .time = now};
    for (int i = 0; i < NETWORKS; i++) o->line[i] = (struct line){.newest = PAST, .horizon = PAST};
}

void order_sleep(struct order *o, int64_t until)
{
    o->meant = until;
}

void order_turn(struct order *o, int64_t now)
{
    // The thread stood still, and perhaps the whole machine: then twins wait in the cards, without a stamp. The time since
    // the last turn does not count.
    if (now - o->meant > o->period / 4) {
        o->next += now - o->turn;
        o->late++;
    }
    // Without a sleep the next turn is to come at once.
    o->meant = o->turn = now;
    o->stepped = 0;
    for (int i = 0; i < NETWORKS; i++) o->line[i].empty = 0;
}

void order_read(struct order *o, int64_t now, int64_t ahead)
{
    o->read = now;
    if (ahead == o->ahead) return;
    // Stamps from before and behind the step cannot be compared, and it may have come while the ports were read.
    o->ahead = ahead;
    o->steps++;
    o->stepped = o->unsettled = 1;
    for (int i = 0; i < NETWORKS; i++) o->line[i].settled = 0;
}

int64_t order_stamp(struct order *o, int network, int64_t real)
{
    struct line *l = &o->line[network];
    // A frame without a stamp was queued behind those before it.
    if (real == 0) return l->newest;
    // No frame is stamped after it was read. One that says so, from a step that comes between stamp and queue, would wait.
    int64_t time = real - o->ahead < o->read ? real - o->ahead : o->read;
    l->newest = later(l->newest, time);
    return time;
}

void order_port(struct order *o, int network, int empty)
{
    struct line *l = &o->line[network];
    l->empty = empty;
    // In the turn of the step itself the port may have been read before the step: stamps of before could still come.
    if (empty && !o->stepped) l->settled = 1;
    l->horizon = empty ? later(l->newest, o->turn) : l->newest;
}

// Stamps cannot be compared: one frame of each port in turn, and no tick.
static enum call next_by_turns(struct order *o, const int64_t *const head[NETWORKS], int *network)
{
    int waiting = 0;
    o->next = o->turn + o->period;
    for (int i = 0; i < NETWORKS; i++) {
        if (head[i] != NULL) waiting = 1;
        // More may wait in this port: it is read first, so that the other does not run ahead.
        else if (!o->line[i].empty) return NOTHING;
    }
    if (waiting) {
        *network = head[o->whose] != NULL ? o->whose : 1 - o->whose;
        o->whose = 1 - *network;
        return FRAME;
    }
    // All that waited has been called.
    o->time = later(o->time, o->turn);
    if (o->line[0].settled && o->line[1].settled) {
        o->unsettled = 0;
        for (int i = 0; i < NETWORKS; i++) o->line[i].newest = o->line[i].horizon = PAST;
    }
    return NOTHING;
}

enum call order_next(struct order *o, const int64_t *const head[NETWORKS], int *network)
{
    if (o->unsettled) return next_by_turns(o, head, network);
    // Up to here all frames are known. The clock bounds it too: a stamp may be later than the turn's begin.
    int64_t horizon = o->turn;
    int first = -1;
    for (int i = 0; i < NETWORKS; i++) {
        if (o->line[i].horizon < horizon) horizon = o->line[i].horizon;
        if (head[i] != NULL && (first < 0 || *head[i] < *head[first])) first = i;
    }
    // The tick first on a tie.
    if (o->next <= horizon && (first < 0 || o->next <= *head[first])) {
        o->time = later(o->time, o->next);
        o->next += o->period;
        return TICK;
    }
    if (first >= 0 && *head[first] <= horizon) {
        o->time = later(o->time, *head[first]);
        *network = first;
        return FRAME;
    }
    o->time = later(o->time, horizon);
    return NOTHING;
}
