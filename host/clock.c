#include "clock.h"

#include <stdio.h>
#include <stdlib.h>
#include <time.h>

// A change from here on is a step. Smaller ones add up until they are one: a stamp is wrong by no more than this.
enum { STEP = 200000 };

static int64_t read_clock(clockid_t which)
{
    struct timespec t;
    clock_gettime(which, &t);
    return t.tv_sec * SECOND + t.tv_nsec;
}

int64_t clock_now(void)
{
    return read_clock(CLOCK_MONOTONIC);
}

// From the tightest of some readings: the thread may be held up between the two clocks.
static int64_t measure_ahead(void)
{
    int64_t ahead = 0, tightest = INT64_MAX;
    for (int i = 0; i < 20; i++) {
        int64_t before = clock_now(), real = read_clock(CLOCK_REALTIME), after = clock_now();
        if (after - before >= tightest) continue;
        tightest = after - before;
        ahead = real - before - tightest / 2;
    }
    return ahead;
}

int64_t clock_ahead(int64_t known)
{
    int64_t quick = read_clock(CLOCK_REALTIME) - clock_now();
    if (llabs(quick - known) < STEP) return known;
    int64_t ahead = measure_ahead();
    return llabs(ahead - known) < STEP ? known : ahead;
}

void clock_write(char text[CLOCK_TEXT])
{
    struct timespec now;
    struct tm local;
    clock_gettime(CLOCK_REALTIME, &now);
    localtime_r(&now.tv_sec, &local);
    char day[32], offset[sizeof "+0100"];
    strftime(day, sizeof day, "%Y-%m-%dT%H:%M:%S", &local);
    strftime(offset, sizeof offset, "%z", &local);
    snprintf(text, CLOCK_TEXT, "%.19s.%03u%.3s:%.2s", day, (unsigned)(now.tv_nsec / MILLISECOND) % 1000, offset, offset + 3);
}
