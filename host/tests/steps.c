// A library for LD_PRELOAD: real time is moved on and back by 5 ms, every 100 ms. The kernel's stamps are not, so a receiver sees
// steps of real time without a right to set the clock.
#include <sys/syscall.h>
#include <time.h>
#include <unistd.h>

enum { EVERY = 100, BY = 5, MILLISECOND = 1000000, SECOND = 1000 * MILLISECOND };

int clock_gettime(clockid_t which, struct timespec *t)
{
    struct timespec steady;
    if (which != CLOCK_REALTIME) return (int)syscall(SYS_clock_gettime, which, t);
    if (syscall(SYS_clock_gettime, which, t) != 0 || syscall(SYS_clock_gettime, CLOCK_MONOTONIC, &steady) != 0) return -1;
    if ((steady.tv_sec * 1000 + steady.tv_nsec / MILLISECOND) / EVERY % 2 == 0) return 0;
    t->tv_nsec += BY * MILLISECOND;
    if (t->tv_nsec >= SECOND) {
        t->tv_nsec -= SECOND;
        t->tv_sec++;
    }
    return 0;
}
