#include "up.h"
#include "host.h"

#include <errno.h>
#include <fcntl.h>
#include <stdio.h>
#include <stdlib.h>
#include <string.h>
#include <sys/mman.h>
#include <sys/socket.h>
#include <sys/stat.h>
#include <unistd.h>

// Bytes of the forms of a frame: at most, before the digits of a line and behind them, and before a raw frame; and of any form at least,
// since a frame has two addresses and a type.
enum { BESIDE_LINE = 32, BESIDE_RAW = 2, LONGEST = 2 * NIPPITSUN_FRAME_MOST + BESIDE_LINE, SHORTEST = BESIDE_RAW + TYPE_AT + 2 };

// The largest slot, number and length, and the priority, with the bytes that end these texts in C.
_Static_assert(NIPPITSUN_SLOTS_MOST <= 100 && NIPPITSUN_FRAME_MOST <= 9999, "the digits of a slot and of a length");
_Static_assert(sizeof "99 65535 9999 " + sizeof " 7\n" <= BESIDE_LINE, "the longest line has room");

// ---- standard output, so that no write waits

static int flags_before;

static void put_flags_back(void)
{
    fcntl(STDOUT_FILENO, F_SETFL, flags_before);
}

static int open_output(void)
{
    int own = without_waiting(STDOUT_FILENO);
    if (own >= 0) return own;
    flags_before = fcntl(STDOUT_FILENO, F_GETFL);
    if (flags_before < 0 || fcntl(STDOUT_FILENO, F_SETFL, flags_before | O_NONBLOCK) != 0) fail("standard output");
    atexit(put_flags_back);
    return STDOUT_FILENO;
}

static void make_room(struct up *u, size_t size)
{
    u->size = size;
    u->places = size / SHORTEST + 1;
    size_t lengths = u->places * sizeof *u->lengths;
    // There before memory is locked, every page of it.
    void *room = mmap(NULL, lengths + size + LONGEST, PROT_READ | PROT_WRITE, MAP_PRIVATE | MAP_ANONYMOUS | MAP_POPULATE, -1, 0);
    if (room == MAP_FAILED) fail("the backlog");
    u->lengths = room;
    u->bytes = (uint8_t *)room + lengths;
}

void up_open(struct up *u, enum give give, size_t size)
{
    *u = (struct up){.give = give, .descriptor = STDOUT_FILENO};
    if (give == NOT_AT_ALL) return;
    make_room(u, size);
    struct stat what;
    if (fstat(STDOUT_FILENO, &what) != 0) fail("standard output");
    u->by_send = S_ISSOCK(what.st_mode);
    if (S_ISFIFO(what.st_mode) || S_ISCHR(what.st_mode)) u->descriptor = open_output();
}

// ---- what waits

int up_full(const struct up *u)
{
    if (u->give == NOT_AT_ALL) return 0;
    return u->size - u->used < (u->give == LINES ? LONGEST : NIPPITSUN_FRAME_MOST + BESIDE_RAW);
}

static size_t write_line(uint8_t *at, nippitsun_arrival_answer a, const uint8_t *frame)
{
    static const char digits[] = "0123456789abcdef";
    uint8_t *to = at + snprintf((char *)at, BESIDE_LINE, "%zu %u %zu ", a.slot, a.number, a.length);
    for (size_t i = 0; i < a.length; i++) {
        *to++ = (uint8_t)digits[frame[i] >> 4];
        *to++ = (uint8_t)digits[frame[i] & 15];
    }
    // Last, so that whoever takes the first four fields goes on as before.
    *to++ = ' ';
    *to++ = (uint8_t)(a.vlantag ? '0' + a.priority : '-');
    *to++ = '\n';
    return (size_t)(to - at);
}

static size_t write_raw(uint8_t *at, nippitsun_arrival_answer a, const uint8_t *frame)
{
    at[0] = (uint8_t)(a.length >> 8);
    at[1] = (uint8_t)a.length;
    memcpy(at + BESIDE_RAW, frame, a.length);
    return BESIDE_RAW + a.length;
}

void up_put(struct up *u, nippitsun_arrival_answer a, const uint8_t *frame)
{
    if (u->give == NOT_AT_ALL) return;
    size_t to = (u->from + u->used) % u->size;
    size_t length = u->give == LINES ? write_line(u->bytes + to, a, frame) : write_raw(u->bytes + to, a, frame);
    // What went over the end belongs to the beginning.
    if (to + length > u->size) memcpy(u->bytes, u->bytes + u->size, to + length - u->size);
    u->used += length;
    u->lengths[(u->first + u->frames) % u->places] = (uint16_t)length;
    u->frames++;
}

static void given(struct up *u, size_t bytes)
{
    u->from = (u->from + bytes) % u->size;
    u->used -= bytes;
    u->begun += bytes;
    while (u->frames > 0 && u->begun >= u->lengths[u->first]) {
        u->begun -= u->lengths[u->first];
        u->first = (u->first + 1) % u->places;
        u->frames--;
    }
}

void up_write(struct up *u)
{
    while (u->used > 0 && u->error == 0) {
        const uint8_t *at = u->bytes + u->from;
        size_t part = u->size - u->from < u->used ? u->size - u->from : u->used;
        ssize_t got = u->by_send ? send(u->descriptor, at, part, MSG_DONTWAIT | MSG_NOSIGNAL) : write(u->descriptor, at, part);
        if (got > 0) given(u, (size_t)got);
        else if (got == 0) u->error = EIO;
        else if (errno == EAGAIN || errno == EWOULDBLOCK) return;
        else if (errno != EINTR) u->error = errno;
    }
}
