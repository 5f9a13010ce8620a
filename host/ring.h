// A ring that is shared with the kernel (TPACKET_V2). Each frame is there as soon as its slot says so, and none hides behind
// others: "nothing waits" is true, which it is not with the blocks of TPACKET_V3.
#ifndef RING_H
#define RING_H

#include "frame.h"

// Slots at most.
enum { RING_MOST = 65520 };

struct ring {
    uint8_t *at; // NULL: there is none
    size_t bytes;
    unsigned slots, next, lent; // in all; the one to look at next; so many before it are not given back yet
};

// Gives a socket that is not bound yet a ring with about so many slots. Answers NULL, or the step that failed, with errno.
const char *ring_open(struct ring *r, int socket, unsigned slots);

void ring_close(struct ring *r);

// The next frame. Its bytes stay in the ring until the slot is given back. Answers 0 if none waits.
int ring_take(struct ring *r, struct frame *f);

// Gives the oldest of the slots that were taken back to the kernel.
void ring_give_back(struct ring *r, unsigned slots);

#endif
