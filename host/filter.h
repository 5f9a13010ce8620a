// The kernel's filter: what a port is given of the frames on its interface.
#ifndef FILTER_H
#define FILTER_H

#include "nippitsun.h"

#include <linux/filter.h>

// Instructions before the keys at most, for each key, and behind them.
enum { FILTER_HEAD = 24, FILTER_KEY = 7, FILTER_MOST = FILTER_HEAD + FILTER_KEY * NIPPITSUN_SLOTS_MOST + 1 };

// Writes the program (classic BPF) that lets through what the library may take: frames that come in, with F1C1 at the type
// field and the key of a slot in use. Frames that have these and are longer than the library takes, or have a group source,
// pass too, so that they are counted. Answers the number of instructions.
//
// Of a virtual link the destination is enough, whatever type and VLAN tag the frame has: its number may be any byte.
//
// On a PRP line (prp is of enum nippitsun_prp, else NO_PRP) frames have no F1C1, and the destination and VLAN id of a slot in use
// are enough; with the kind of 2012 they also end in 88FB. What else is wrong with a trailer the library says.
unsigned short filter_write(struct sock_filter program[FILTER_MOST], const nippitsun_stream table[NIPPITSUN_SLOTS_MOST], int prp);

#endif
