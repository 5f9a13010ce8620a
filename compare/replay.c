/* The archives on cases that another program writes: each with its input, and with what it should answer and leave. The archives
 * are those that the kit leaves, and its own linker links them. `calls cases` of compare/ writes the cases, and `bench cases` those
 * of the benchmark's own exports, which are called where DECISIONS is defined (bench/replay.c).
 *
 * The C library's functions are declared here: the kit has no headers of it (tools/x86-64). */
#include "../bindings/c/nippitsun.h"

typedef uint8_t u8;
typedef uint16_t u16;
typedef uint64_t u64;
typedef nippitsun_stream stream;

long read(int, void *, u64);
int printf(const char *, ...);
void exit(int);
int memcmp(const void *, const void *, u64);

static u64 done;

static void stop(const char *why) {
    printf("replay: %s, after %lu cases\n", why, done);
    exit(1);
}

static u8 buffer[1 << 16];
static u64 from, until;

static int more(void) {
    if (from < until) return 1;
    long n = read(0, buffer, sizeof buffer);
    from = 0;
    until = n > 0 ? (u64)n : 0;
    return n > 0;
}

static void take(void *to, u64 n) {
    u8 *p = to;
    for (u64 i = 0; i < n; i++) {
        if (!more()) stop("the cases are cut");
        p[i] = buffer[from++];
    }
}

static u64 number(int bytes) {
    u64 x = 0;
    take(&x, bytes);
    return x;
}

static int same(const stream *a, const stream *b) {
    return a->dest == b->dest && a->vlan == b->vlan && a->window == b->window && a->time == b->time && a->rule == b->rule
        && a->used == b->used && memcmp(a->state.history, b->state.history, sizeof a->state.history) == 0
        && a->state.anchor == b->state.anchor && a->state.remaining == b->state.remaining && a->state.early == b->state.early
        && a->state.any == b->state.any
        && memcmp(&a->counts, &b->counts, sizeof a->counts) == 0;
}

#ifdef DECISIONS
struct decided { stream stream; u8 verdict; };
struct decided timing_decide(stream, u16, u8);
stream timing_row(stream, u16, u16, u8, u64);

/* A decision by value, or several in a row. */
static void decision(u8 kind) {
    stream s, t;
    take(&s, sizeof s);
    u16 n = number(2);
    u16 step = kind == 4 ? number(2) : 0;
    u8 network = number(1);
    u64 times = kind == 4 ? number(8) : 0;
    take(&t, sizeof t);
    if (kind == 3) {
        u8 verdict = number(1);
        struct decided d = timing_decide(s, n, network);
        if (!same(&d.stream, &t) || d.verdict != verdict) stop("DIFFERENT: one decision");
    } else {
        stream r = timing_row(s, n, step, network, times);
        if (!same(&r, &t)) stop("DIFFERENT: decisions in a row");
    }
}
#else
static void decision(u8 kind) {
    (void)kind;
    stop("a case of the benchmark's own exports");
}
#endif

/* The answer to one frame of a batch. */
static int same_answer(const nippitsun_arrival_answer *a) {
    u64 slot = number(8), length = number(8);
    u16 told = number(2);
    u8 verdict = number(1), refusal = number(1), priority = number(1), vlantag = number(1);
    return a->slot == slot && a->length == length && a->number == told && a->verdict == verdict && a->refusal == refusal
        && a->priority == priority && a->vlantag == vlantag;
}

static u8 index_lent[1 << 16], frame[1 << 16], out[1 << 16], second_out[1 << 16], wanted[1 << 16];
static stream table[256], after[256];

static void check_bytes(const u8 *left, u64 n, const char *why) {
    take(wanted, n);
    if (memcmp(left, wanted, n) != 0) stop(why);
}

/* A call of the product. A case has the arguments and the answer's fields of all calls, 0 where a call has none. */
static void call(u8 kind) {
    u64 slots = number(1), places = number(2), room = number(2), second_room = number(2), n = number(2);
    take(table, slots * sizeof *table);
    take(index_lent, places);
    take(out, room);
    take(second_out, second_room);
    nippitsun_sender sender = {number(2)};
    take(frame, n);
    u64 slot = number(8), count = number(8);
    u16 tag = number(2), vlan = number(2), window = number(2), time = number(2);
    u8 network = number(1), rule = number(1), prp = number(1), dest[6];
    take(dest, 6);

    u64 slot_told = 0, length = 0, resets = 0, damaged = 0, frames = 0;
    u16 number_told = 0;
    u8 verdict = 0, network_told = 0, refusal = 0, priority = 0, vlantag = 0;
    nippitsun_batch_answer batch;
    if (kind == 1 || kind == 2) {
        nippitsun_tag_answer a = kind == 1 ? nippitsun_take_tag(frame, n, out, room) : nippitsun_write_tag(frame, n, tag, out, room);
        length = a.length, number_told = a.number, refusal = a.refusal;
    } else if (kind == 5 || kind == 16) {
        nippitsun_arrival_answer a = kind == 5 ? nippitsun_arrival(table, slots, network, frame, n, out, room)
                                               : nippitsun_link_arrival(table, slots, network, frame, n, out, room);
        slot_told = a.slot, length = a.length, number_told = a.number, verdict = a.verdict, refusal = a.refusal;
        priority = a.priority, vlantag = a.vlantag;
    } else if (kind == 6) {
        nippitsun_slot_answer a = nippitsun_open(table, slots, index_lent, places, dest, vlan, rule, window, time);
        slot_told = a.slot, refusal = a.refusal;
    } else if (kind == 7) {
        refusal = nippitsun_close(table, slots, index_lent, places, slot);
    } else if (kind == 8) {
        refusal = nippitsun_reset(table, slots, slot);
    } else if (kind == 9) {
        nippitsun_tick_answer a = nippitsun_tick(table, slots);
        resets = a.resets, damaged = a.damaged, refusal = a.refusal;
    } else if (kind == 10) {
        batch = nippitsun_batch(table, slots, index_lent, places, network, count, frame, n, out, room);
        frames = batch.frames, refusal = batch.refusal;
    } else if (kind == 11) {
        nippitsun_tag_answer a = nippitsun_send(&sender, frame, n, out, room, second_out, second_room);
        length = a.length, number_told = a.number, refusal = a.refusal;
    } else if (kind == 12) {
        nippitsun_reset_sender(&sender);
    } else if (kind == 13 || kind == 14) {
        nippitsun_prp_answer a = kind == 13 ? nippitsun_from_prp(frame, n, prp, out, room)
                                            : nippitsun_to_prp(frame, n, network, prp, out, room);
        length = a.length, number_told = a.number, network_told = a.network, refusal = a.refusal;
    } else if (kind == 15) {
        refusal = nippitsun_rebuild(table, slots, index_lent, places);
    } else {
        stop("no such kind of case");
    }

    if (slot_told != number(8) || length != number(8) || resets != number(8) || damaged != number(8) || frames != number(8)
        || number_told != number(2) || verdict != number(1) || network_told != number(1) || refusal != number(1)
        || priority != number(1) || vlantag != number(1))
        stop("DIFFERENT: an answer");
    for (u64 i = 0; kind == 10 && i < NIPPITSUN_FRAMES_MOST; i++)
        if (!same_answer(batch.answers + i)) stop("DIFFERENT: the answer to a frame of a batch");
    take(after, slots * sizeof *after);
    for (u64 i = 0; i < slots; i++)
        if (!same(table + i, after + i)) stop("DIFFERENT: a record");
    check_bytes(index_lent, places, "DIFFERENT: an index");
    check_bytes(out, room, "DIFFERENT: an output");
    check_bytes(second_out, second_room, "DIFFERENT: an output");
    if (sender.next != number(2)) stop("DIFFERENT: a sender's next number");
}

int main(void) {
    while (more()) {
        u8 kind = number(1);
        if (kind == 3 || kind == 4) decision(kind);
        else call(kind);
        done++;
    }
    printf("%lu calls of the archives as the kit leaves them: answers, records, indexes, next numbers and output bytes equal\n", done);
    return done ? 0 : 1;
}
