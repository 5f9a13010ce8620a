// An order of calls that does not do: the ports take turns, and a tick comes by the clock when it is due. host/test runs the
// receiver with it in place of host/order.c, to show that it sees the difference.
#include "order.h"

#include <stddef.h>

// Frames of one port before the other has its turn.
enum { BATCH = 1 };

static int left[NETWORKS], ticked;

void order_start(struct order *o, int64_t period, int64_t now, int64_t ahead)
{
    *o = (struct order){.period = period, .next = now + period, .turn = now, .ahead = ahead, .time = now};
}

void order_sleep(struct order *o, int64_t until)
{
    (void)o;
    (void)until;
}

void order_turn(struct order *o, int64_t now)
{
    o->turn = o->time = now;
    left[0] = left[1] = BATCH;
    ticked = 0;
}

void order_read(struct order *o, int64_t now, int64_t ahead)
{
    o->read = now;
    o->ahead = ahead;
}

int64_t order_stamp(struct order *o, int network, int64_t real)
{
    (void)network;
    (void)real;
    return o->turn;
}

void order_port(struct order *o, int network, int empty)
{
    o->line[network].empty = empty;
}

enum call order_next(struct order *o, const int64_t *const head[NETWORKS], int *network)
{
    for (int i = 0; i < NETWORKS; i++) {
        if (head[i] == NULL || left[i] == 0) continue;
        left[i]--;
        *network = i;
        return FRAME;
    }
    if (ticked || o->read < o->next) return NOTHING;
    ticked = 1;
    o->next = o->next + o->period > o->read ? o->next + o->period : o->read + o->period;
    return TICK;
}
