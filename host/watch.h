// What operators must hear of while the receiver runs, and when it is over: alarms of streams, rogues, losses and drops. The clock
// of all this is the order's time, up to which all frames have been called.
#ifndef WATCH_H
#define WATCH_H

#include "nippitsun.h"
#include "port.h"

// The slots in use of a table, one after the other.
#define EACH_SLOT(table, i) \
    for (size_t i = 0; i < NIPPITSUN_SLOTS_MOST; i++) \
        if ((table)[i].used)

// How many of the frames that are handed up have a second copy, by blocks of them.
struct share {
    unsigned before;      // hand-ups that belong to no block yet: the copies of the first ones may have come before them
    uint64_t resets;      // of the stream, at its last arrival
    unsigned ups, copies; // of this block
    int poor, good;       // a block with few copies is kept; one with enough was completed since the last second
    unsigned fewest;      // of the poor blocks, and the time of the last of them
    int64_t last;
    int said;
};

// A stream. A sender that is slow or stands still is no silence of a network: one begins with an arrival on the other network, and
// only if that comes well after the last one here, so that it is not the second copy of the same frame. Half of the set time
// lies before that arrival and half behind it.
struct watch {
    int64_t last[NETWORKS];  // the last arrival; at first, when the watch began
    int64_t since[NETWORKS]; // the arrival on the other network that began a silence; 0: none
    int silent[NETWORKS];
    uint64_t silences[NETWORKS], returns[NETWORKS];
    int64_t up;                // the last hand-up; at first, when the watch began
    int came;                  // there was an arrival
    int stuck, idle, awaited;  // said: nothing is handed up; nothing comes any more; nothing has come yet
    struct share share;
    uint64_t rogue, lost;      // the counters a second ago
    int roguing, losing;       // said
};

struct watches {
    const nippitsun_stream *table;
    struct port *ports;
    int64_t alarm; // so long a silence is said; 0: none is
    struct watch of[NIPPITSUN_SLOTS_MOST];
    uint64_t dropped[NETWORKS]; // the counters a second ago
    int dropping[NETWORKS];     // said
};

// The streams are open, and watched from this time on.
void watch_begin(struct watches *w, int64_t time);

// An arrival of a stream, and the order's time of it.
void watch_arrival(struct watches *w, nippitsun_arrival_answer a, int network, int64_t time);

// All frames up to this time have been called: says what has been silent for too long.
void watch_time(struct watches *w, int64_t time);

// A second has passed: says what came in it that is no silence.
void watch_second(struct watches *w, int64_t time);

#endif
