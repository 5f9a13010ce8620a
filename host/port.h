// A port: a packet socket on one interface, and the frames that were read from it and not yet called.
#ifndef PORT_H
#define PORT_H

#include "frame.h"
#include "ring.h"

#include <linux/filter.h>

// Frames that are read from a port in one turn.
enum { QUEUE = 64 };

// How ports are opened. filter.len is 0 for no filter.
struct port_settings {
    struct sock_fprog filter;
    int room;       // bytes that the kernel may hold for a port without a ring
    unsigned slots; // of the ring; 0: none
};

struct port {
    const char *interface;
    int number; // of the network
    int socket; // -1: the interface is not there
    unsigned head, tail, freed; // the queue's first frame, its end, and the first whose place is not free yet
    struct frame queue[QUEUE];
    struct ring ring;
    uint8_t places[QUEUE][VLAN_TAG + FRAME_PLACE]; // for frames that are read without a ring
    int down;           // the interface went down or away since this was last looked at
    int poor, ringless; // it was said that the kernel gives less room, and no ring
    // Frames read; of them in the wait at the start, outgoing, without a stamp, and longer than a place; frames that the kernel dropped
    // for want of room; openings after the first; on a PRP line, frames with the other network's LAN.
    uint64_t frames, early, outgoing, unstamped, cut, dropped, reopened, crossed;
};

// What is known of a port's interface.
enum port_state { NOT_THERE, DOWN, NO_CARRIER, UP };

// Lets the kernel stamp frames from now on, for as long as the program runs.
void stamps_on(void);

// Opens the port. Answers NULL, or the step that failed, with errno; the port then is not there.
const char *port_open(struct port *p, const struct port_settings *settings);

// Reads what waits into the queue, which is empty, until nothing waits (answer 1) or the queue is full (0). A port that is not
// there has nothing waiting.
int port_read(struct port *p);

// The places of the frames that have been called are free again.
void port_free(struct port *p);

// An error waits at the socket: the interface went down. Takes it off, so that ppoll waits again.
void port_went_down(struct port *p);

// Adds up what the kernel dropped since this was asked for last: asking clears its own count.
void port_count_drops(struct port *p);

enum port_state port_state(const struct port *p);

// Is the port open on the interface that has this name now?
int port_has(const struct port *p, const char *interface);

// Closes a port that was just opened on the interface that the other one is bound to. Answers 1 if it was so.
int port_close_twin(struct port *p, const struct port *other);

// Closes a port whose interface was removed: its socket is bound to nothing, and stays so when there is such an interface
// again. Answers 1 if it was so.
int port_close_dead(struct port *p);

#endif
