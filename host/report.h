// The counters, in words and for Prometheus.
#ifndef REPORT_H
#define REPORT_H

#include "nippitsun.h"
#include "order.h"
#include "port.h"
#include "up.h"
#include "watch.h"

struct report {
    const nippitsun_stream *table;
    struct port *ports;
    const struct order *order;
    const struct up *up;
    const struct watches *watches;
    int prp;          // the kind of trailer on the line (enum nippitsun_prp), or NO_PRP
    const char *file; // for the counters; NULL: none
    int warned;       // it could not be written
    int listening;    // the streams are open
    uint64_t ticks;
    uint64_t refused[UINT8_MAX + 1];
    uint64_t damaged;
};

// Takes the file for this receiver alone, or refuses.
void report_lock(const struct report *r);

// What turning a frame of a PRP line answered, and the port that it came on: a refusal, or a LAN that is not the port's.
void report_turn(struct report *r, nippitsun_prp_answer a, int port);

// All counters, on standard error.
void report_say(struct report *r);

// All counters, into the file: written beside it and renamed, so that nobody reads half of it.
void report_write(struct report *r);

#endif
