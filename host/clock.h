// The two clocks of the host, in nanoseconds. Ticks go by the one that only goes forward; the kernel stamps frames by real
// time, and by no other.
#ifndef CLOCK_H
#define CLOCK_H

#include <stdint.h>

static const int64_t MILLISECOND = 1000000, SECOND = 1000000000;

// CLOCK_MONOTONIC.
int64_t clock_now(void);

// How far real time is ahead of the clock above. Both are slewed alike, so only a step of real time moves them apart: as long
// as there was none this answers `known`, the answer before. Without one: 0.
int64_t clock_ahead(int64_t known);

// The time of day for people, with its end: ISO 8601 in local time, with milliseconds and the offset.
enum { CLOCK_TEXT = sizeof "2026-11-17T15:04:05.123+01:00" };
void clock_write(char text[CLOCK_TEXT]);

#endif
