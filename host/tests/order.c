// order-test: host/order.c by made-up clocks, in random runs. A sender with two networks, a kernel that stamps and queues, a
// thread that is held up anywhere, steps of real time, stops of the whole machine, and the proved receiver at the end. Each
// run is held to what the order promises:
//
// - no tick is called while a frame that was queued before the tick's time is not;
// - ticks are at least a period apart, by the times that they stand for;
// - but around a step of real time, frames and ticks are called in the order of their times;
// - no frame waits for one that may never come: what waits when both ports are empty is called within two turns, and what was
//   read beside a port that is always full is called when that port's frames of the same age have been read;
// - with L and R by the formulas of docs/INTEGRATION.md every index is handed up exactly once, however long the thread stood
//   still; with R one higher none is handed up twice where the whole machine stood still, and none is where real time stepped.
#include "nippitsun.h"
#include "order.h"

#include <inttypes.h>
#include <stdio.h>
#include <stdlib.h>
#include <string.h>

enum { INDICES = 240, AT_ONCE = 64, STOPS = 6, STEPS = 4, BYTES = 60 };

enum kind { STALLS, FLOOD, MACHINE, STEPPED, UNSTAMPED, KINDS };
static const char *const kind_words[KINDS] = {"thread held up", "one network flooded", "machine held up", "real time stepped",
                                               "stamps missing"};

struct copy {
    int64_t stamp, queued;
    int index; // -1: a frame of the flood, which has another number space: the stream's key does not fit
    int called;
};

static uint64_t state;
static uint64_t draw(uint64_t below)
{
    state ^= state << 13;
    state ^= state >> 7;
    state ^= state << 17;
    return (state >> 11) % below;
}

// ---- the world

static enum kind kind;
static int64_t now, spread, spacing, period, stop_from[STOPS], stop_to[STOPS], step_at[STEPS], step_to[STEPS];
static int stops, steps;
static struct copy *wire[NETWORKS];
static size_t copies[NETWORKS], got[NETWORKS];      // on the wire; read by the thread
static size_t waiting_from[NETWORKS];               // the first that was read and not called
static int64_t times[NETWORKS][AT_ONCE];            // the order's times of those
static size_t room_from[NETWORKS], room_to[NETWORKS];

static int64_t ahead_at(int64_t time)
{
    int64_t ahead = 1000000007;
    for (int i = 0; i < steps; i++)
        if (step_at[i] <= time) ahead = step_to[i];
    return ahead;
}

// Time passes; where the whole machine stops, the thread stops too.
static void pass(int64_t time)
{
    now += time;
    for (int i = 0; i < stops; i++)
        if (now > stop_from[i] && now < stop_to[i]) now = stop_to[i] + (int64_t)draw(5);
}

// A place at which the thread may be held up, for a moment or for long.
static void held_up(void)
{
    if (draw(60) == 0) pass((int64_t)draw((uint64_t)period / 4));
    if (draw(250) == 0) pass((int64_t)draw((uint64_t)(period * 12)));
    pass(1 + (int64_t)draw(3));
}

static int by_queue(const void *a, const void *b)
{
    const struct copy *x = a, *y = b;
    if (x->queued != y->queued) return x->queued < y->queued ? -1 : 1;
    return x->stamp < y->stamp ? -1 : x->stamp > y->stamp;
}

// A frame that comes in while the machine stands still is stamped when it goes on.
static int64_t stamped(int64_t time)
{
    for (int i = 0; i < stops; i++)
        if (time > stop_from[i] && time < stop_to[i]) return stop_to[i] + (int64_t)draw(20);
    return time;
}

static void make_world(void)
{
    period = 1000 + (int64_t)draw(3000);
    spacing = 50 + (int64_t)draw((uint64_t)period * 6);
    spread = (int64_t)draw((uint64_t)(draw(2) ? spacing * 20 : spacing / 2 + 1)) + 40;
    int64_t lag = kind == STALLS ? (int64_t)draw(30) : 0;
    now = 1000000;
    stops = steps = 0;
    int64_t length = spacing * INDICES + spread;
    if (kind == MACHINE)
        for (stops = 0; stops < STOPS; stops++) {
            stop_from[stops] = now + (int64_t)draw((uint64_t)length);
            stop_to[stops] = stop_from[stops] + 1 + (int64_t)draw((uint64_t)(draw(2) ? period * 8 : period * 5 / 4));
        }
    if (kind == STEPPED)
        for (int64_t at = now; steps < STEPS; steps++) {
            at += 1 + (int64_t)draw((uint64_t)length / STEPS);
            step_at[steps] = at;
            step_to[steps] = (int64_t)draw(2000000000);
        }
    size_t flood = kind == FLOOD ? (size_t)(length / 3) : 0;
    if (flood > 20000) flood = 20000;
    // One network loses much, the other little, and never both the same.
    uint64_t loses[NETWORKS] = {2 + draw(9), 2 + draw(9)};
    for (int b = 0; b < NETWORKS; b++) {
        wire[b] = calloc(INDICES + flood, sizeof *wire[b]);
        copies[b] = got[b] = waiting_from[b] = room_from[b] = room_to[b] = 0;
    }
    int64_t sent = now;
    for (int i = 0; i < INDICES; i++) {
        sent += spacing;
        if (draw(40) == 0) sent += period * 20;
        int lost = draw(loses[0]) == 0 ? 0 : draw(loses[1]) == 0 ? 1 : -1;
        for (int b = 0; b < NETWORKS; b++) {
            if (b == lost) continue;
            // The lag is part of the spread: a frame's delay ends where it is queued.
            int64_t at = stamped(sent + (int64_t)draw((uint64_t)(spread - lag)));
            wire[b][copies[b]++] = (struct copy){at, at + (int64_t)draw((uint64_t)lag + 1), i, 0};
        }
    }
    for (size_t i = 0; i < flood; i++) {
        int64_t at = 1000000 + (int64_t)draw((uint64_t)length);
        wire[1][copies[1]++] = (struct copy){at, at, -1, 0};
    }
    for (int b = 0; b < NETWORKS; b++) qsort(wire[b], copies[b], sizeof *wire[b], by_queue);
}

// ---- what is held

static uint64_t seed;
static _Noreturn void wrong(const char *what)
{
    printf("FAILED: %s, seed %" PRIu64 ": %s\n", kind_words[kind], seed, what);
    exit(1);
}

static nippitsun_stream table[1];
static uint8_t places[NIPPITSUN_PLACES];
static int handed_up[INDICES];

static void call_frame(int b, struct copy *c)
{
    if (c->called) wrong("a frame is called twice");
    c->called = 1;
    if (c->index < 0) return;
    uint8_t frame[BYTES] = {2, 0, 0, 0, 0, 1, 2, 0, 0, 0, 0, 2, 0xF1, 0xC1}, out[BYTES];
    frame[16] = (uint8_t)(c->index >> 8);
    frame[17] = (uint8_t)c->index;
    nippitsun_arrival_answer a = nippitsun_arrival(table, 1, (uint8_t)b, frame, sizeof frame, out, sizeof out);
    if (a.refusal != 0) wrong("refused");
    if (a.verdict == NIPPITSUN_VERDICT_HANDED_UP) handed_up[c->index]++;
}

static void check_tick(const struct order *o, int64_t tick, int64_t before)
{
    if (tick - before < period) wrong("two ticks are less than a period apart");
    if (o->unsettled) wrong("a tick while stamps cannot be compared");
    if (tick > now) wrong("a tick before its time");
    for (int b = 0; b < NETWORKS; b++)
        for (size_t i = waiting_from[b]; i < copies[b] && wire[b][i].queued < tick; i++)
            if (!wire[b][i].called) wrong("a tick overtakes a frame that was queued before it");
}

static void run(void)
{
    make_world();
    unsigned window = (unsigned)(spread / spacing + 2), time = (unsigned)(spread / period + (kind == MACHINE ? 3 : 2));
    memset(table, 0, sizeof table);
    memset(places, 0, sizeof places);
    memset(handed_up, 0, sizeof handed_up);
    uint8_t dest[] = {2, 0, 0, 0, 0, 1};
    if (nippitsun_open(table, 1, places, sizeof places, dest, 0, NIPPITSUN_RULE_VECTOR, (uint16_t)window, (uint16_t)time).refusal != 0)
        wrong("open");

    struct order o;
    order_start(&o, period, now, ahead_at(now));
    int64_t tick_before = now - period, called_before = INT64_MIN, both_empty = INT64_MIN, silent_turns = 0;
    uint64_t steps_before = 0;
    while (got[0] < copies[0] || got[1] < copies[1] || room_from[0] < room_to[0] || room_from[1] < room_to[1]) {
        held_up();
        int waits = room_from[0] < room_to[0] || room_from[1] < room_to[1];
        if (!waits && o.next > now) {
            int64_t wake = o.next;
            order_sleep(&o, wake);
            for (int b = 0; b < NETWORKS; b++)
                if (got[b] < copies[b] && wire[b][got[b]].queued < wake) wake = wire[b][got[b]].queued;
            if (wake > now) pass(wake - now);
        }
        held_up();
        int64_t clock = now;
        order_turn(&o, clock);
        int read[NETWORKS], empty[NETWORKS] = {0, 0};
        for (int b = 0; b < NETWORKS; b++) {
            held_up();
            read[b] = room_from[b] == room_to[b];
            if (!read[b]) continue;
            waiting_from[b] = got[b];
            room_from[b] = room_to[b] = 0;
            while (room_to[b] < AT_ONCE) {
                if (draw(20) == 0) held_up();
                if (got[b] == copies[b] || wire[b][got[b]].queued > now) {
                    empty[b] = 1;
                    break;
                }
                room_to[b]++;
                got[b]++;
            }
        }
        held_up();
        int64_t ahead = ahead_at(now);
        order_read(&o, now, ahead);
        for (int b = 0; b < NETWORKS; b++) {
            if (!read[b]) continue;
            for (size_t i = 0; i < room_to[b]; i++) {
                const struct copy *c = &wire[b][waiting_from[b] + i];
                // A frame without a stamp may be called too early, never too late.
                int64_t real = kind == UNSTAMPED && draw(5) == 0 ? 0 : c->stamp + ahead_at(c->stamp);
                times[b][i] = order_stamp(&o, b, real);
                if (times[b][i] > now) wrong("a stamp of the future");
            }
            order_port(&o, b, empty[b]);
        }
        int calm = o.steps == steps_before && !o.unsettled;
        steps_before = o.steps;
        unsigned frames = 0;
        for (enum call next = FRAME; next != NOTHING;) {
            const int64_t *head[NETWORKS];
            int b = 0;
            for (int i = 0; i < NETWORKS; i++) head[i] = room_from[i] < room_to[i] ? &times[i][room_from[i]] : NULL;
            int64_t due = o.next;
            next = order_next(&o, head, &b);
            if (next == TICK) {
                check_tick(&o, due, tick_before);
                if (calm && due < called_before) wrong("a tick is called after a later frame");
                tick_before = called_before = due;
                nippitsun_tick(table, 1);
            } else if (next == FRAME) {
                int64_t at = times[b][room_from[b]];
                if (calm && at > clock) wrong("a frame is called before its turn");
                if (calm && due <= at) wrong("a frame is called before a tick that is due no later");
                // Within one port stamps may be out of order by the lag, or missing.
                if (calm && at < called_before && kind != STALLS && kind != UNSTAMPED) wrong("a frame is called after a later one");
                if (calm && at > called_before) called_before = at;
                call_frame(b, &wire[b][waiting_from[b]++]);
                room_from[b]++;
                frames++;
            }
            if (draw(30) == 0) held_up();
        }
        if (!calm) called_before = INT64_MIN;
        if (!calm && o.next < clock + period) wrong("time in which stamps cannot be compared counts");
        // Both ports were found empty: all that was queued by the turn's begin has been called when the next one ends.
        for (int b = 0; b < NETWORKS; b++)
            for (size_t i = waiting_from[b]; calm && i < got[b]; i++)
                if (wire[b][i].queued <= both_empty && !wire[b][i].called) wrong("a frame waits beside empty ports");
        if (empty[0] && empty[1]) both_empty = clock;
        // Something waits and nothing is called: once, for a stamp behind the turn's begin; not for ever.
        waits = room_from[0] < room_to[0] || room_from[1] < room_to[1];
        silent_turns = frames == 0 && waits ? silent_turns + 1 : 0;
        if (silent_turns > 3) wrong("a frame waits for one that does not come");
    }
    for (int i = 0; i < INDICES; i++) {
        if (handed_up[i] > 1 && kind != UNSTAMPED) wrong("an index is handed up twice");
        if (handed_up[i] == 0 && (kind == STALLS || kind == FLOOD)) wrong("an index is missing");
    }
    for (int b = 0; b < NETWORKS; b++) free(wire[b]);
}

int main(int count, char **words)
{
    hold_descriptors();
    uint64_t runs = count > 1 ? read_number("runs", words[1], 1, UINT32_MAX) : 1000, done = 0;
    for (seed = 1; done < runs; seed++) {
        state = seed * UINT64_C(0x9E3779B97F4A7C15) | 1;
        for (int i = 0; i < 8; i++) draw(2);
        kind = (enum kind)(seed % KINDS);
        run();
        done++;
    }
    printf("order-test: %" PRIu64 " runs of %d indices: no tick overtook a frame, no index came twice\n", done, INDICES);
    return 0;
}
