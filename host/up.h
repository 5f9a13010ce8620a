// What is handed up, on its way to standard output. It waits in a room of its own, so that a reader who stands still for a while
// does not hold up the receiver; no write to a pipe, terminal or socket waits.
#ifndef UP_H
#define UP_H

#include "nippitsun.h"

#include <stddef.h>
#include <stdint.h>

enum give { LINES, RAW, NOT_AT_ALL };

struct up {
    enum give give;
    int descriptor, by_send; // by send: it is a socket
    uint8_t *bytes;          // a ring of `size`, and behind it room for the longest form, so that one is written in one piece
    size_t size, from, used;
    uint16_t *lengths; // of the forms of the frames that wait, a ring of `places`
    size_t places, first, frames;
    size_t begun;     // bytes of the first of them that were given
    int error;        // why a write failed; 0: none did
    int64_t stalled;  // since when it has been full; 0: it is not
    uint64_t stalls;
};

// Opens standard output with a room of so many bytes. Others who share it notice nothing, or find it as it was at the end.
void up_open(struct up *u, enum give give, size_t size);

// Is there less room than a frame may need?
int up_full(const struct up *u);

// A frame was handed up. There is room.
void up_put(struct up *u, nippitsun_arrival_answer a, const uint8_t *frame);

// Gives what waits, as far as it is taken.
void up_write(struct up *u);

#endif
