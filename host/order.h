// In which order frames and ticks are called. Nothing here calls the system: host/tests/order.c runs it by made-up clocks.
//
// All times are of one clock that only goes forward, in nanoseconds. A frame's time is the kernel's stamp, brought to that
// clock; a tick's time is when it is due. host/README.md has the rules and why simpler ones do not do.
#ifndef ORDER_H
#define ORDER_H

#include "host.h"

#include <stdint.h>

// What order knows of one port.
struct line {
    int64_t newest;  // the highest stamp read
    int64_t horizon; // every frame stamped up to here has been read
    int empty;       // the port said in this turn that nothing waits
    int settled;     // it has said so since the last step of real time
};

struct order {
    int64_t period; // from tick to tick
    int64_t next;   // when the next tick is due
    int64_t turn;   // when this turn began
    int64_t meant;  // when it was to begin at the latest
    int64_t read;   // when the ports had been read
    int64_t ahead;  // real time less the clock
    int64_t time;   // up to here all has been called
    struct line line[NETWORKS];
    int stepped;   // real time was found to have stepped in this turn
    int unsettled; // since a step: stamps cannot be compared
    int whose;     // then: the port that has its turn
    uint64_t late, steps; // turns that came late, and steps of real time
};

enum call { NOTHING, TICK, FRAME };

void order_start(struct order *o, int64_t period, int64_t now, int64_t ahead);

// The thread means to sleep until then.
void order_sleep(struct order *o, int64_t until);

// A turn begins. `now` is read BEFORE the ports are.
void order_turn(struct order *o, int64_t now);

// The ports have been read; the clock, and how far real time is ahead of it, AFTER that.
void order_read(struct order *o, int64_t now, int64_t ahead);

// A frame that was read in this turn has this stamp, 0 if none: its time. Behind order_read.
int64_t order_stamp(struct order *o, int network, int64_t real);

// A port has been read in this turn, until it said that nothing waits (empty) or until there was no room for more. Behind the
// stamps of its frames. A port that still has frames of an earlier turn is not read, and not said to be.
void order_port(struct order *o, int network, int empty);

// What is to be called now: a tick, the first waiting frame of `*network`, or nothing in this turn. `head` has for each port
// the time of its first waiting frame, or NULL.
enum call order_next(struct order *o, const int64_t *const head[NETWORKS], int *network);

#endif
