// up-test: the line of a frame that is handed up, and the VLAN tag that is put back before, which has its priority.
//
// Every VLAN tag that there is stands beside a frame in a made-up ring, with and without its mark, or not at all. The frame that comes out
// of the ring must have all sixteen bits of it. The library decides it, and its line must end with the tag's priority, whatever the bit
// between that and the VLAN id is, or with `-` where there was no tag.
//
// Then lines of every length, with the largest slot and number, go through the smallest backlog to a reader who takes them in pieces.
// What he has must be the text that is made here, byte for byte; so must frames that are given raw. And wherever the backlog says that it
// is not full, the longest of either form must have room.
#include "frame.h"
#include "host.h"
#include "ring.h"
#include "up.h"

#include <errno.h>
#include <fcntl.h>
#include <linux/if_ether.h>
#include <linux/if_packet.h>
#include <stdarg.h>
#include <stdio.h>
#include <stdlib.h>
#include <string.h>
#include <unistd.h>

// The smallest backlog, a block of the ring, and the place where the kernel puts a frame in a slot.
enum { BACKLOG = 8 << 10, BLOCK = 1 << 17, FRAME_IN_SLOT = 98 };

// A frame without its VLAN tag, and as much of it as a line of it and its priority may need.
enum { SIZE = 60, LINE = 2 * NIPPITSUN_FRAME_MOST + 64 };

static const uint8_t dest[ADDRESS] = {2, 0, 0, 0, 0, 1}, source[ADDRESS] = {2, 0, 0, 0, 0, 2};

__attribute__((format(printf, 1, 2)))
static _Noreturn void wrong(const char *format, ...)
{
    va_list more;
    va_start(more, format);
    printf("FAILED: ");
    vprintf(format, more);
    printf("\n");
    va_end(more);
    exit(1);
}

static size_t put(uint8_t *to, const void *bytes, size_t length)
{
    memcpy(to, bytes, length);
    return length;
}

// The line that is wanted. A priority below 0 is none.
static size_t line_of(char line[LINE], size_t slot, unsigned number, const uint8_t *frame, size_t length, int priority)
{
    int at = sprintf(line, "%zu %u %zu ", slot, number, length);
    for (size_t i = 0; i < length; i++) at += sprintf(line + at, "%02x", frame[i]);
    at += priority < 0 ? sprintf(line + at, " -\n") : sprintf(line + at, " %d\n", priority);
    return (size_t)at;
}

// A backlog whose reader is at the other end of a pipe.
static int open_up(struct up *u, enum give give)
{
    int ends[2];
    up_open(u, give, BACKLOG);
    if (pipe2(ends, O_NONBLOCK) != 0) fail("pipe");
    u->descriptor = ends[1];
    u->by_send = 0;
    return ends[0];
}

static void close_up(struct up *u, int reader)
{
    close(u->descriptor);
    close(reader);
}

// ---- every VLAN tag

static _Alignas(struct tpacket2_hdr) uint8_t memory[BLOCK];

// A slot as the kernel fills it.
static void fill(uint32_t status, uint16_t mark, uint16_t tag, const uint8_t frame[SIZE])
{
    struct tpacket2_hdr head = {.tp_len = SIZE, .tp_snaplen = SIZE, .tp_mac = FRAME_IN_SLOT, .tp_vlan_tci = tag, .tp_vlan_tpid = mark};
    head.tp_status = TP_STATUS_USER | TP_STATUS_TS_SOFTWARE | status;
    put(memory, &head, sizeof head);
    put(memory + FRAME_IN_SLOT, frame, SIZE);
}

// What must stand behind the addresses: a VLAN tag with this mark, or nothing.
static size_t whole_of(uint8_t whole[SIZE + VLAN_TAG], const uint8_t frame[SIZE], int with_tag, uint16_t mark, uint16_t tag)
{
    const uint8_t bytes[VLAN_TAG] = {(uint8_t)(mark >> 8), (uint8_t)mark, (uint8_t)(tag >> 8), (uint8_t)tag};
    size_t at = put(whole, frame, TYPE_AT);
    if (with_tag) at += put(whole + at, bytes, sizeof bytes);
    return at + put(whole + at, frame + TYPE_AT, SIZE - TYPE_AT);
}

// The library's answer to a frame of the stream with this VLAN id, and its line.
static void hold_line(struct up *u, int reader, const uint8_t *whole, size_t length, uint16_t vlan, int priority)
{
    nippitsun_stream table[1] = {{0}};
    uint8_t places[NIPPITSUN_PLACES] = {0}, out[NIPPITSUN_FRAME_MOST];
    if (nippitsun_open(table, 1, places, sizeof places, dest, vlan, NIPPITSUN_RULE_VECTOR, 64, 9).refusal != 0) refuse("open %u", vlan);
    nippitsun_arrival_answer a = nippitsun_arrival(table, 1, 0, whole, length, out, sizeof out);
    if (a.verdict != NIPPITSUN_VERDICT_HANDED_UP || a.vlantag != (priority >= 0) || a.priority != (priority < 0 ? 0 : priority))
        wrong("VLAN id %u, priority %d: the library says verdict %u, refusal %u, priority %u, tag %u", vlan, priority, a.verdict, a.refusal, a.priority, a.vlantag);
    char wanted[LINE], is[LINE];
    size_t bytes = line_of(wanted, 0, 7, out, a.length, priority);
    up_put(u, a, out);
    up_write(u);
    ssize_t got = read(reader, is, sizeof is);
    if (got != (ssize_t)bytes || memcmp(is, wanted, bytes) != 0) wrong("VLAN id %u, priority %d: the line is %.*s", vlan, priority, got < 0 ? 0 : (int)got, is);
}

static unsigned try_tags(void)
{
    uint8_t frame[SIZE] = {0};
    const uint8_t behind[] = {0xF1, 0xC1, 0, 0, 0, 7, 0x88, 0xB5};
    put(frame, dest, ADDRESS);
    put(frame + ADDRESS, source, ADDRESS);
    put(frame + TYPE_AT, behind, sizeof behind);
    // No tag at all; a kernel that does not tell the mark; one that does; a mark that is no VLAN tag to the library.
    const struct {
        uint32_t status;
        uint16_t given, mark;
    } ways[] = {
        {0, 0, 0},
        {TP_STATUS_VLAN_VALID, 0, ETH_P_8021Q},
        {TP_STATUS_VLAN_VALID | TP_STATUS_VLAN_TPID_VALID, ETH_P_8021Q, ETH_P_8021Q},
        {TP_STATUS_VLAN_VALID | TP_STATUS_VLAN_TPID_VALID, ETH_P_8021AD, ETH_P_8021AD},
    };
    struct up u;
    int reader = open_up(&u, LINES);
    unsigned tried = 0;
    for (size_t way = 0; way < sizeof ways / sizeof ways[0]; way++) {
        for (unsigned tag = 0; tag <= UINT16_MAX; tag++, tried++) {
            struct ring ring = {.at = memory, .bytes = sizeof memory, .slots = 1};
            struct frame f;
            uint8_t whole[SIZE + VLAN_TAG];
            fill(ways[way].status, ways[way].given, (uint16_t)tag, frame);
            size_t length = whole_of(whole, frame, ways[way].mark != 0, ways[way].mark, (uint16_t)tag);
            if (!ring_take(&ring, &f)) wrong("the ring has no frame");
            if (f.length != length || memcmp(f.at, whole, length) != 0) wrong("tag %04x, mark %04x: it is not put back whole", tag, ways[way].mark);
            uint16_t vlan = tag & 0xFFF;
            if (ways[way].mark == ETH_P_8021Q && vlan <= NIPPITSUN_VLAN_MOST) hold_line(&u, reader, f.at, f.length, vlan, (int)(tag >> 13));
            if (ways[way].mark == 0) hold_line(&u, reader, f.at, f.length, 0, -1);
        }
    }
    close_up(&u, reader);
    return tried;
}

// ---- lines of every length

// Takes up to this many bytes of what was given, which must be those that are wanted.
static size_t take(int reader, const uint8_t *wanted, size_t most)
{
    static uint8_t is[1 << 16];
    ssize_t got = read(reader, is, most < sizeof is ? most : sizeof is);
    if (got < 0 && errno == EAGAIN) return 0;
    if (got < 0) fail("read");
    if (memcmp(is, wanted, (size_t)got) != 0) wrong("what is given is not what was handed up");
    return (size_t)got;
}

static unsigned try_forms(enum give give)
{
    enum { FRAMES = 2 * (NIPPITSUN_FRAME_MOST - TYPE_AT) };
    static uint8_t frame[NIPPITSUN_FRAME_MOST];
    uint8_t *wanted = malloc((size_t)FRAMES * LINE);
    if (wanted == NULL) fail("memory");
    struct up u;
    int reader = open_up(&u, give);
    size_t made = 0, taken = 0;
    unsigned handed_up = 0, full = 0;
    while (handed_up < FRAMES) {
        for (; handed_up < FRAMES && !up_full(&u); handed_up++) {
            // Every length that a frame may have, 1994 bytes among them, in an order that mixes short and long.
            size_t length = TYPE_AT + 2 + (size_t)handed_up * 887 % (NIPPITSUN_FRAME_MOST - TYPE_AT - 1);
            int priority = (int)(handed_up % 9) - 1;
            for (size_t i = 0; i < length; i++) frame[i] = (uint8_t)(handed_up + i);
            nippitsun_arrival_answer a = {.slot = NIPPITSUN_SLOTS_MOST - 1, .length = length, .number = UINT16_MAX, .verdict = NIPPITSUN_VERDICT_HANDED_UP};
            a.vlantag = priority >= 0;
            a.priority = (uint8_t)(priority < 0 ? 0 : priority);
            up_put(&u, a, frame);
            if (give == LINES) made += line_of((char *)wanted + made, a.slot, a.number, frame, length, priority);
            else {
                const uint8_t two[] = {(uint8_t)(length >> 8), (uint8_t)length};
                made += put(wanted + made, two, sizeof two);
                made += put(wanted + made, frame, length);
            }
        }
        full += up_full(&u) != 0;
        // A pipe holds more than the backlog, so it fills at times, and lines are given in parts.
        up_write(&u);
        if (u.error != 0) wrong("a write failed: %s", strerror(u.error));
        taken += take(reader, wanted + taken, 1 + handed_up * 31 % 9000);
    }
    while (taken < made) {
        up_write(&u);
        taken += take(reader, wanted + taken, made - taken);
    }
    if (u.frames != 0 || u.used != 0 || full == 0) wrong("the backlog was never full, or is not empty");
    close_up(&u, reader);
    free(wanted);
    return handed_up;
}

static void try_room(enum give give)
{
    static const uint8_t frame[NIPPITSUN_FRAME_MOST];
    const nippitsun_arrival_answer a = {.slot = NIPPITSUN_SLOTS_MOST - 1, .length = sizeof frame, .number = UINT16_MAX, .priority = 7, .vlantag = 1};
    struct up u;
    int reader = open_up(&u, give);
    for (size_t used = 0; used <= BACKLOG; used++) {
        u.used = used;
        u.frames = 0;
        if (up_full(&u)) continue;
        up_put(&u, a, frame);
        if (u.used > u.size) wrong("a backlog with %zu bytes is not full, and has no room", used);
    }
    close_up(&u, reader);
}

int main(void)
{
    hold_descriptors();
    unsigned tags = try_tags(), lines = try_forms(LINES), raw = try_forms(RAW);
    try_room(LINES);
    try_room(RAW);
    printf("up-test: %u VLAN tags put back whole or left out, and the priority of each on its line; %u lines and %u raw frames through a full backlog\n", tags, lines, raw);
    return 0;
}
