// What the words of the command line ask `receive` for.
#ifndef WORDS_H
#define WORDS_H

#include "host.h"
#include "nippitsun.h"
#include "up.h"

#include <stddef.h>
#include <stdint.h>

struct wishes {
    const char *interfaces[NETWORKS];
    struct settings streams[NIPPITSUN_SLOTS_MOST]; // in the order of their words
    size_t count;
    // All of them opened: so the library's refusals are there before any port is opened, and the filter has its keys.
    nippitsun_stream table[NIPPITSUN_SLOTS_MOST];
    uint8_t places[NIPPITSUN_PLACES]; // the index of that table
    uint16_t longest; // the largest R of all
    int64_t period, alarm, quiet; // quiet is 0 if it was not asked for
    uint64_t room, backlog;       // in kilobytes
    int prp;                      // the kind of trailer (enum nippitsun_prp), or NO_PRP
    int all, at_once, no_ring, check;
    const char *stats; // NULL: none
    enum give give;
};

// Reads all words, or ends the program. What was asked for to be printed is printed.
void read_words(struct wishes *w, int count, char **words);

// Ticks of the wait at the start.
uint16_t wait_of(const struct wishes *w);

#endif
