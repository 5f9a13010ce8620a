/* One cell of bench/before: CALL STREAMS FRAMES KEYS ORDER ROUNDS, all numbers. It prints the least time of a call among the
   rounds, in ns. Built with -DNO_INDEX it calls a library of before order 9, whose calls take no index.

   CALL 0 is a batch of new frames of 64 bytes, L = 64, of 0 to 32 FRAMES; 1 is an open and the close of that slot, the last one
   of STREAMS; 2 is as many single arrivals as FRAMES, and 3 each of them on both networks; 4 is a tick that resets none, and each
   stream had 2 * FRAMES before it or more. KEYS 0: VLAN ids differ; 1: the last bytes of the destinations; 2 and more: both at
   random, each number other keys. All but 1 have VLAN tags, with all priorities. ORDER 0: the same 64 frames over and over; 1: one
   that no processor foresees. */
#include <stdio.h>
#include <stdlib.h>
#include <time.h>

#include "../bindings/c/nippitsun.h"

#ifdef NO_INDEX
nippitsun_batch_answer batch_before(nippitsun_stream *, size_t, uint8_t, size_t, const uint8_t *, size_t, uint8_t *, size_t) __asm__("nippitsun_batch");
nippitsun_slot_answer open_before(nippitsun_stream *, size_t, const uint8_t *, uint16_t, uint8_t, uint16_t, uint16_t) __asm__("nippitsun_open");
uint8_t close_before(nippitsun_stream *, size_t, size_t) __asm__("nippitsun_close");
#define nippitsun_batch(table, slots, index, places, ...) batch_before(table, slots, __VA_ARGS__)
#define nippitsun_open(table, slots, index, places, ...) open_before(table, slots, __VA_ARGS__)
#define nippitsun_close(table, slots, index, places, ...) close_before(table, slots, __VA_ARGS__)
#define nippitsun_rebuild(table, slots, index, places) ((void)(index), 0)
#endif

enum { CALLS = 64, SIZE = 64, STEP = 2 + SIZE, FIXED = 64 };

static nippitsun_stream table[NIPPITSUN_SLOTS_MOST];
static uint8_t places[NIPPITSUN_PLACES];
static uint8_t packed[CALLS][NIPPITSUN_FRAMES_MOST * STEP], out[NIPPITSUN_FRAMES_MOST * STEP];
static uint16_t numbers[NIPPITSUN_SLOTS_MOST];
static size_t streams, frames;
static size_t fixed[FIXED];

static uint64_t dice(void) {
    static uint64_t x = 88172645463325252;
    x ^= x << 13;
    x ^= x >> 7;
    x ^= x << 17;
    return x >> 16;
}

static double now(void) {
    struct timespec t;
    clock_gettime(CLOCK_MONOTONIC, &t);
    return (double)t.tv_sec * 1e9 + (double)t.tv_nsec;
}

static void put(uint8_t *at, uint64_t value, int bytes) {
    while (bytes > 0) *at++ = (uint8_t)(value >> 8 * --bytes);
}

/* The next frame of a stream, behind its length. */
static void write_frame(uint8_t *at, size_t stream) {
    put(at, SIZE, 2);
    put(at + 2, table[stream].dest, 6);
    at += 2 + 12;
    if (table[stream].vlan != 0) {
        put(at, 0x81000000 | (numbers[stream] & 7u) << 13 | table[stream].vlan, 4);
        at += 4;
    }
    put(at, 0xF1C1, 2);
    put(at + 4, numbers[stream]++, 2);
}

static void write_all(int order) {
    static size_t turn;
    for (size_t i = 0; i < CALLS; i++)
        for (size_t j = 0; j < frames; j++) write_frame(packed[i] + j * STEP, order ? dice() % streams : fixed[turn++ % FIXED]);
}

static size_t batches(void) {
    size_t bad = 0;
    for (size_t i = 0; i < CALLS; i++) {
        nippitsun_batch_answer a = nippitsun_batch(table, streams, places, sizeof places, 0, frames, packed[i], sizeof packed[i], out, sizeof out);
        bad += a.refusal != 0 || a.frames != frames;
    }
    return bad;
}

static size_t arrivals(uint8_t networks) {
    size_t bad = 0;
    for (size_t i = 0; i < CALLS; i++)
        for (size_t j = 0; j < frames; j++)
            for (uint8_t network = 0; network < networks; network++) {
                nippitsun_arrival_answer a = nippitsun_arrival(table, streams, network, packed[i] + j * STEP + 2, SIZE, out, sizeof out);
                bad += a.verdict != (network == 0 ? NIPPITSUN_VERDICT_HANDED_UP : NIPPITSUN_VERDICT_DUPLICATE);
            }
    return bad;
}

static size_t ticks(void) {
    size_t bad = 0;
    for (size_t i = 0; i < CALLS; i++) bad += nippitsun_tick(table, streams).refusal != 0;
    return bad;
}

static size_t opens(const uint8_t *dest, uint16_t vlan) {
    size_t bad = 0;
    for (size_t i = 0; i < CALLS; i++) {
        nippitsun_slot_answer a = nippitsun_open(table, streams, places, sizeof places, dest, vlan, NIPPITSUN_RULE_VECTOR, 64, 100);
        bad += a.refusal != 0 || a.slot != streams - 1;
        bad += nippitsun_close(table, streams, places, sizeof places, a.slot) != 0;
    }
    return bad;
}

static size_t calls(int call, const uint8_t *dest, uint16_t vlan) {
    switch (call) {
    case 0: return batches();
    case 1: return opens(dest, vlan);
    case 4: return ticks();
    default: return arrivals(call == 2 ? 1 : 2);
    }
}

int main(int count, char **words) {
    if (count != 7) return 2;
    int call = atoi(words[1]), keys = atoi(words[4]), order = atoi(words[5]);
    streams = (size_t)atoi(words[2]);
    frames = (size_t)atoi(words[3]);
    for (int i = 2; i < keys; i++)
        for (size_t j = 0; j < NIPPITSUN_SLOTS_MOST; j++) dice();
    for (size_t i = 0; i < streams; i++) {
        uint64_t dest[] = {0x020304050600, 0x020000000000 + i, 0x020000000000 | dice() % (1ull << 40)};
        uint16_t vlan[] = {(uint16_t)(i + 1), 0, (uint16_t)(1 + dice() % 4094)};
        int kind = keys > 2 ? 2 : keys;
        table[i] = (nippitsun_stream){.dest = dest[kind], .vlan = vlan[kind], .window = 64, .time = 65535, .rule = NIPPITSUN_RULE_VECTOR,
            .used = (uint8_t)(call != 1 || i + 1 < streams), .state = {.anchor = 65535, .any = 1}};
    }
    for (size_t i = 0; i < FIXED; i++) fixed[i] = i % streams;
    for (size_t i = FIXED - 1; i > 0; i--) {
        size_t j = dice() % (i + 1), kept = fixed[i];
        fixed[i] = fixed[j];
        fixed[j] = kept;
    }
    uint8_t dest[6];
    put(dest, table[streams - 1].dest, 6);
    size_t bad = nippitsun_rebuild(table, streams, places, sizeof places);
    for (int i = 0; call == 4 && i < 2; i++) {
        write_all(0);
        bad += arrivals(1);
    }
    double least = 1e18;
    for (int rounds = atoi(words[6]); rounds > 0; rounds--) {
        write_all(order);
        double start = now();
        bad += calls(call, dest, table[streams - 1].vlan);
        double took = (now() - start) / CALLS;
        if (took < least) least = took;
    }
    if (bad != 0) return 1;
    printf("%.1f\n", least);
    return 0;
}
