/* Holds nippitsun.h to the compiled calls: every function, verdict and refusal number, and every field of a record in both
 * directions. A refused call must leave every byte of table, index, sender and outputs as it was, and answer 0 but for the number.
 * A batch must do what single arrivals in turn do, a send what the tag writer does, and a turn from PRP or to PRP what the tag
 * writer or reader does with the trailer off or on. An open, a close and a batch must do with an index what a look at every record
 * gives, and an arrival of a virtual link what order 10 says step by step. Every arrival must tell the VLAN tag's priority and
 * whether one was there as order 11 says.
 *
 * All areas are blocks of the heap of their exact size, so that bindings/c/memcheck sees an access behind their end. */
#include "nippitsun.h"

/* The C library's, declared here: the kit has no headers for the x86-64 build (tools/x86-64). */
int printf(const char *, ...);
void *malloc(size_t);
void free(void *);
void *memcpy(void *, const void *, size_t);
int memcmp(const void *, const void *, size_t);
void *mmap(void *, size_t, int, int, int, long);

static unsigned checks, failures;

static void check(int holds, const char *what, int line) {
    checks++;
    if (!holds) {
        failures++;
        printf("FAILED at line %d: %s\n", line, what);
    }
}
#define CHECK(what) check((what) != 0, #what, __LINE__)

/* ---- the areas, and a copy of each from before the call */

static nippitsun_stream *table, *table_before;
static nippitsun_sender *sender, sender_before;
static uint8_t *lent_index, *index_before;
static uint8_t *out, *out_before, *twin, *twin_before; /* the twin is a send's second output */
static size_t slots, index_places, room, twin_room;

static void *block(size_t bytes) { return bytes ? malloc(bytes) : NULL; }

static void copy(void *to, const void *from, size_t bytes) {
    if (bytes) memcpy(to, from, bytes);
}

static int equal(const void *a, const void *b, size_t bytes) { return bytes == 0 || memcmp(a, b, bytes) == 0; }

static void fill(void *to, size_t bytes, unsigned from) {
    for (size_t i = 0; i < bytes; i++) ((uint8_t *)to)[i] = (uint8_t)(from + 37 * i);
}

/* A table whose slots are free and hold something else in every other byte. */
static void make_table(size_t n) {
    free(table);
    free(table_before);
    slots = n;
    table = block(n * sizeof *table);
    table_before = block(n * sizeof *table);
    fill(table, n * sizeof *table, 11);
    for (size_t i = 0; i < n; i++) table[i].used = 0;
}

static void make_area(uint8_t **area, uint8_t **before, size_t n, unsigned from) {
    free(*area);
    free(*before);
    *area = block(n);
    *before = block(n);
    fill(*area, n, from);
}

static void make_index(size_t n) { make_area(&lent_index, &index_before, index_places = n, 90); }
static void make_out(size_t n) { make_area(&out, &out_before, room = n, 201); }
static void make_twin(size_t n) { make_area(&twin, &twin_before, twin_room = n, 77); }

static void make_outs(size_t n, size_t twin_n) {
    make_out(n);
    make_twin(twin_n);
}

/* A sender at first: all bytes zero. */
static void make_sender(void) {
    static const nippitsun_sender first;
    free(sender);
    sender = block(sizeof *sender);
    copy(sender, &first, sizeof first);
}

static void begin(void) {
    copy(table_before, table, slots * sizeof *table);
    sender_before = *sender;
    copy(index_before, lent_index, index_places);
    copy(out_before, out, room);
    copy(twin_before, twin, twin_room);
}

static int table_same(void) { return equal(table, table_before, slots * sizeof *table); }
static int index_same(void) { return equal(lent_index, index_before, index_places); }

static int same_from(size_t from, const uint8_t *area, const uint8_t *before, size_t n) {
    return from == n || equal(area + from, before + from, n - from);
}

static int out_same_from(size_t from) { return same_from(from, out, out_before, room); }
static int twin_same_from(size_t from) { return same_from(from, twin, twin_before, twin_room); }

static int others_same(size_t slot) {
    for (size_t i = 0; i < slots; i++)
        if (i != slot && !equal(table + i, table_before + i, sizeof *table)) return 0;
    return 1;
}

/* ---- order 9 in its own words: what an open, a close and a batch must make of the table and the index that are lent */

static size_t own_place(uint64_t dest, uint16_t vlan) {
    uint32_t mixed = (uint32_t)dest * 1234164911u + ((uint32_t)(dest >> 20) + vlan * 65536u) * 557513737u;
    return mixed >> 25;
}

/* Virtual links, all other streams, or both: what a call looks at. */
enum family { LINKS, REST, ALL };

static int has_key(const nippitsun_stream *s, uint64_t dest, uint16_t vlan, enum family among) {
    enum family own = s->rule == NIPPITSUN_RULE_LINK ? LINKS : REST;
    return s->used && s->dest == dest && s->vlan == vlan && (among == ALL || among == own);
}

/* The lowest slot in use with the key among these, or the number of slots. */
static size_t searched(uint64_t dest, uint16_t vlan, enum family among) {
    size_t i = 0;
    while (i < slots && !has_key(&table[i], dest, vlan, among)) i++;
    return i;
}

static size_t lowest_free(void) {
    size_t i = 0;
    while (i < slots && table[i].used) i++;
    return i;
}

/* The same by following the index. */
static size_t followed(uint64_t dest, uint16_t vlan, enum family among) {
    for (size_t n = 0; n < NIPPITSUN_PLACES; n++) {
        size_t name = lent_index[(own_place(dest, vlan) + n) % NIPPITSUN_PLACES];
        if (name == 0) return slots;
        if (name <= slots && has_key(&table[name - 1], dest, vlan, among)) return name - 1;
    }
    return slots;
}

/* A key that is not in use is never found by following, so the keys in use are all. Each is asked for among the links and among the
 * rest. */
static int agrees(void) {
    for (size_t i = 0; i < slots; i++)
        for (enum family among = LINKS; among <= REST; among++) {
            uint64_t dest = table[i].dest;
            uint16_t vlan = table[i].vlan;
            if (table[i].used && followed(dest, vlan, among) != searched(dest, vlan, among)) return 0;
        }
    return 1;
}

static uint8_t unfit(void) {
    if (slots > NIPPITSUN_SLOTS_MOST) return NIPPITSUN_REFUSED_TABLE;
    return index_places == NIPPITSUN_PLACES && agrees() ? NIPPITSUN_REFUSED_NOT : NIPPITSUN_REFUSED_INDEX;
}

/* Is the index the rebuilt one? */
static int is_rebuilt(void) {
    uint8_t made[NIPPITSUN_PLACES] = {0};
    for (size_t i = 0; i < slots; i++) {
        size_t place = own_place(table[i].dest, table[i].vlan);
        if (!table[i].used) continue;
        while (made[place]) place = (place + 1) % NIPPITSUN_PLACES;
        made[place] = (uint8_t)(i + 1);
    }
    return index_places == NIPPITSUN_PLACES && equal(lent_index, made, NIPPITSUN_PLACES);
}

/* ---- the calls. What is promised of every call is checked here. */

static unsigned refused[256], verdicts[256];

static void end(uint8_t refusal) {
    refused[refusal]++;
    if (refusal) CHECK(table_same() && index_same() && sender->next == sender_before.next && out_same_from(0) && twin_same_from(0));
}

/* Order 11 in its own words, of the frame as it was given. A refused one tells nothing. */
static int tells_priority(nippitsun_arrival_answer a, const uint8_t *frame) {
    int in_vlan = !a.refusal && frame[12] == 0x81 && frame[13] == 0x00;
    return a.vlantag == in_vlan && a.priority == (in_vlan ? (frame[14] << 8 | frame[15]) >> 13 : 0);
}

typedef nippitsun_arrival_answer arrival_call(nippitsun_stream *restrict, size_t, uint8_t, const uint8_t *restrict, size_t,
                                              uint8_t *restrict, size_t);

static nippitsun_arrival_answer arrive_by(arrival_call *call, uint8_t network, const uint8_t *frame, size_t n) {
    uint8_t *f = block(n);
    copy(f, frame, n);
    begin();
    nippitsun_arrival_answer a = call(table, slots, network, f, n, out, room);
    end(a.refusal);
    verdicts[a.verdict]++;
    CHECK(equal(f, frame, n));
    CHECK((a.refusal == NIPPITSUN_REFUSED_NOT) == (a.verdict != NIPPITSUN_VERDICT_NONE));
    if (a.refusal) CHECK(a.slot == 0 && a.length == 0 && a.number == 0);
    else CHECK(others_same(a.slot));
    if (a.verdict != NIPPITSUN_VERDICT_HANDED_UP) CHECK(a.length == 0);
    if (call == nippitsun_link_arrival) CHECK(a.priority == 0 && a.vlantag == 0);
    else CHECK(tells_priority(a, frame));
    CHECK(out_same_from(a.length));
    free(f);
    return a;
}

static nippitsun_arrival_answer arrive(uint8_t network, const uint8_t *frame, size_t n) {
    return arrive_by(nippitsun_arrival, network, frame, n);
}

static nippitsun_arrival_answer link_arrives(uint8_t network, const uint8_t *frame, size_t n) {
    return arrive_by(nippitsun_link_arrival, network, frame, n);
}

static uint8_t rebuild(void) {
    begin();
    uint8_t refusal = nippitsun_rebuild(table, slots, lent_index, index_places);
    end(refusal);
    CHECK(refusal == (slots > NIPPITSUN_SLOTS_MOST           ? NIPPITSUN_REFUSED_TABLE
                      : index_places != NIPPITSUN_PLACES ? NIPPITSUN_REFUSED_INDEX
                                                         : NIPPITSUN_REFUSED_NOT));
    CHECK(table_same() && (refusal || is_rebuilt()));
    return refusal;
}

/* With the index as it is, here and below. */
static nippitsun_slot_answer opened_so(const uint8_t *six, uint16_t vlan, uint8_t rule, uint16_t window, uint16_t time) {
    uint8_t *dest = block(6), not_fit = unfit();
    uint64_t key = 0;
    for (size_t i = 0; i < 6; i++) key = key << 8 | six[i];
    size_t holder = searched(key, vlan, ALL), free_slot = lowest_free();
    copy(dest, six, 6);
    begin();
    nippitsun_slot_answer a = nippitsun_open(table, slots, lent_index, index_places, dest, vlan, rule, window, time);
    end(a.refusal);
    CHECK(equal(dest, six, 6) && out_same_from(0));
    if (a.refusal) CHECK(a.slot == 0);
    else CHECK(others_same(a.slot) && is_rebuilt() && a.slot == free_slot);
    if (not_fit) CHECK(a.refusal == not_fit);
    else if (a.refusal != NIPPITSUN_REFUSED_SETTING)
        CHECK(a.refusal == (holder < slots         ? NIPPITSUN_REFUSED_TAKEN
                            : free_slot == slots ? NIPPITSUN_REFUSED_FULL
                                                 : NIPPITSUN_REFUSED_NOT));
    free(dest);
    return a;
}

static uint8_t closed_so(size_t slot) {
    uint8_t not_fit = unfit();
    begin();
    uint8_t refusal = nippitsun_close(table, slots, lent_index, index_places, slot);
    end(refusal);
    CHECK(others_same(slot));
    if (not_fit) CHECK(refusal == not_fit);
    else CHECK(refusal == (slot < slots && table_before[slot].used ? NIPPITSUN_REFUSED_NOT : NIPPITSUN_REFUSED_SLOT));
    if (!refusal) CHECK(is_rebuilt());
    return refusal;
}

/* With an index made anew: most tests write to the table. */
static nippitsun_slot_answer opened(const uint8_t *six, uint16_t vlan, uint8_t rule, uint16_t window, uint16_t time) {
    rebuild();
    return opened_so(six, vlan, rule, window, time);
}

static uint8_t closed(size_t slot) {
    rebuild();
    return closed_so(slot);
}

static uint8_t reset(size_t slot) {
    begin();
    uint8_t refusal = nippitsun_reset(table, slots, slot);
    end(refusal);
    CHECK(others_same(slot));
    return refusal;
}

static nippitsun_tick_answer ticked(void) {
    begin();
    nippitsun_tick_answer a = nippitsun_tick(table, slots);
    end(a.refusal);
    if (a.refusal) CHECK(a.resets == 0 && a.damaged == 0);
    return a;
}

static nippitsun_tag_answer taken(const uint8_t *frame, size_t n) {
    uint8_t *f = block(n);
    copy(f, frame, n);
    begin();
    nippitsun_tag_answer a = nippitsun_take_tag(f, n, out, room);
    end(a.refusal);
    CHECK(equal(f, frame, n) && out_same_from(a.length));
    if (a.refusal) CHECK(a.length == 0 && a.number == 0);
    free(f);
    return a;
}

static nippitsun_tag_answer written(const uint8_t *frame, size_t n, uint16_t number) {
    uint8_t *f = block(n);
    copy(f, frame, n);
    begin();
    nippitsun_tag_answer a = nippitsun_write_tag(f, n, number, out, room);
    end(a.refusal);
    CHECK(equal(f, frame, n) && out_same_from(a.length));
    if (a.refusal) CHECK(a.length == 0 && a.number == 0);
    free(f);
    return a;
}

/* Order 6 with the tag writer: it has the next number and as much room as the smaller output, and what it writes stands in
 * both. */
static nippitsun_tag_answer sent(const uint8_t *frame, size_t n) {
    uint8_t *f = block(n);
    copy(f, frame, n);
    begin();
    nippitsun_tag_answer a = nippitsun_send(sender, f, n, out, room, twin, twin_room);
    end(a.refusal);
    CHECK(equal(f, frame, n) && table_same());
    nippitsun_tag_answer want = nippitsun_write_tag(f, n, sender_before.next, out_before, room < twin_room ? room : twin_room);
    copy(twin_before, out_before, want.length);
    CHECK(a.length == want.length && a.number == want.number && a.refusal == want.refusal);
    CHECK(out_same_from(0) && twin_same_from(0));
    CHECK(sender->next == (want.refusal ? sender_before.next : (sender_before.next + 1) % 65536));
    free(f);
    return a;
}

static void sender_reset(void) {
    begin();
    nippitsun_reset_sender(sender);
    CHECK(sender->next == 0 && table_same() && out_same_from(0) && twin_same_from(0));
}

/* Bytes of a trailer of this kind, and of a frame's header: 8100 at 12 makes it longer by four. */
static size_t width_of(uint8_t kind) { return kind == NIPPITSUN_PRP_FIRST ? 4 : 6; }
static size_t header_of(const uint8_t *frame) { return frame[12] == 0x81 && frame[13] == 0x00 ? 18 : 14; }

/* Writes the trailer of a PRP frame of n bytes at its end. */
static void write_trailer(uint8_t *frame, size_t n, uint8_t kind, unsigned lan, uint16_t number) {
    const size_t size = n - header_of(frame);
    const uint8_t trailer[6] = {(uint8_t)(number >> 8), (uint8_t)number, (uint8_t)(lan << 4 | size >> 8), (uint8_t)size, 0x88, 0xFB};
    copy(frame + n - width_of(kind), trailer, width_of(kind));
}

static int same_turn(nippitsun_prp_answer a, nippitsun_prp_answer b) {
    return a.length == b.length && a.number == b.number && a.network == b.network && a.refusal == b.refusal;
}

static int only_output_changed(void) { return table_same() && sender->next == sender_before.next && twin_same_from(0); }

/* Order 7 with the tag writer: it has what stands before the trailer, and any source. 16 comes before 8. */
static nippitsun_prp_answer from_line(const uint8_t *frame, size_t n, uint8_t kind) {
    uint8_t *f = block(n), *tagged_frame = block(NIPPITSUN_FRAME_MOST);
    copy(f, frame, n);
    begin();
    nippitsun_prp_answer a = nippitsun_from_prp(f, n, kind, out, room), want = {0};
    end(a.refusal);
    CHECK(equal(f, frame, n) && only_output_changed());
    size_t bare = n < width_of(kind) ? 0 : n - width_of(kind);
    uint16_t number = bare ? (uint16_t)(frame[bare] << 8 | frame[bare + 1]) : 0;
    if (bare > 6) f[6] &= 0xFE;
    nippitsun_tag_answer t = nippitsun_write_tag(f, bare, number, tagged_frame, NIPPITSUN_FRAME_MOST);
    want.refusal = t.refusal;
    if (t.refusal == NIPPITSUN_REFUSED_NOT) {
        tagged_frame[6] = f[6] = frame[6];
        want.refusal = NIPPITSUN_REFUSED_TRAILER;
        for (uint8_t network = 0; network < 2; network++) {
            write_trailer(f, n, kind, 0xAu + network, number);
            if (!equal(f, frame, n)) continue;
            if (room < t.length) want.refusal = NIPPITSUN_REFUSED_ROOM;
            else want = (nippitsun_prp_answer){.length = t.length, .number = number, .network = network};
        }
    }
    copy(out_before, tagged_frame, want.length);
    CHECK(same_turn(a, want) && out_same_from(0));
    free(f);
    free(tagged_frame);
    return a;
}

/* Order 7 with the tag reader: what it writes must not be short, and the trailer stands behind it. */
static nippitsun_prp_answer to_line(const uint8_t *frame, size_t n, uint8_t network, uint8_t kind) {
    uint8_t *f = block(n), *line = block(NIPPITSUN_FRAME_MOST);
    copy(f, frame, n);
    begin();
    nippitsun_prp_answer a = nippitsun_to_prp(f, n, network, kind, out, room), want = {0};
    end(a.refusal);
    CHECK(equal(f, frame, n) && only_output_changed());
    nippitsun_tag_answer t = nippitsun_take_tag(f, n, line, NIPPITSUN_FRAME_MOST);
    size_t length = t.length + width_of(kind);
    if (network > 1) want.refusal = NIPPITSUN_REFUSED_NETWORK;
    else if (t.refusal) want.refusal = t.refusal;
    else if (t.length < header_of(line)) want.refusal = NIPPITSUN_REFUSED_SHORT;
    else if (room < length) want.refusal = NIPPITSUN_REFUSED_ROOM;
    else {
        write_trailer(line, length, kind, 0xAu + network, t.number);
        want = (nippitsun_prp_answer){.length = length, .number = t.number, .network = network};
    }
    copy(out_before, line, want.length);
    CHECK(same_turn(a, want) && out_same_from(0));
    free(f);
    free(line);
    return a;
}

/* ---- records, field by field */

static int same_state(nippitsun_state a, nippitsun_state b) {
    return equal(a.history, b.history, sizeof a.history) && a.anchor == b.anchor && a.remaining == b.remaining
        && a.early == b.early && a.any == b.any;
}

static int same_counts(nippitsun_counts a, nippitsun_counts b) {
    return a.arrivals0 == b.arrivals0 && a.arrivals1 == b.arrivals1 && a.passed == b.passed && a.discarded == b.discarded
        && a.rogue == b.rogue && a.disorder == b.disorder && a.lost == b.lost && a.resets == b.resets;
}

static int same(nippitsun_stream a, nippitsun_stream b) {
    return a.dest == b.dest && a.vlan == b.vlan && a.window == b.window && a.time == b.time && a.rule == b.rule
        && a.used == b.used && same_state(a.state, b.state) && same_counts(a.counts, b.counts);
}

static const nippitsun_state fresh = {.history = {0}, .anchor = 65535, .remaining = 0, .early = 0, .any = 1};
static const nippitsun_counts zero = {0, 0, 0, 0, 0, 0, 0, 0};

/* A distinct value in each field, all bytes of it distinct where it has several. */
static const nippitsun_stream distinct = {
    .dest = 0x0102030405060708,
    .vlan = 0x1112,
    .window = 0x1314,
    .time = 0x1516,
    .rule = 0x17,
    .used = 0x18,
    .state = {
        .history = {0x2122232425262728, 0xB1B2B3B4B5B6B7B8, 0xC1C2C3C4C5C6C7C8, 0xD1D2D3D4D5D6D7D8, 0xE1E2E3E4E5E6E7E8,
                    0xF1F2F3F4F5F6F7F8, 0x191A1B1C1D1E1F20, 0x393A3B3C3D3E3F40},
        .anchor = 0x292A,
        .remaining = 0x2B2C,
        .early = 0x2D2E,
        .any = 0x2F30,
    },
    .counts = {
        .arrivals0 = 0x3132333435363738,
        .arrivals1 = 0x4142434445464748,
        .passed = 0x5152535455565758,
        .discarded = 0x6162636465666768,
        .rogue = 0x7172737475767778,
        .disorder = 0x8182838485868788,
        .lost = 0x9192939495969798,
        .resets = 0xA1A2A3A4A5A6A7A8,
    },
};

/* A lawful record of the vector rule: window 4, time 9, the numbers 100 and 98 came, and older ones before. Its counters are
 * distinct. */
static nippitsun_stream running(void) {
    nippitsun_stream s = distinct;
    s.dest = 0x020304050607;
    s.vlan = 0;
    s.window = 4;
    s.time = 9;
    s.rule = NIPPITSUN_RULE_VECTOR;
    s.used = 1;
    s.state = (nippitsun_state){.history = {5}, .anchor = 100, .remaining = 6, .early = 0, .any = 0};
    return s;
}

/* ---- frames */

static const uint8_t running_dest[6] = {2, 3, 4, 5, 6, 7};
static uint8_t frame_bytes[2100];

/* A frame of n bytes to running_dest with a redundancy tag, behind a VLAN tag if vlan is not 0. */
static const uint8_t *tagged(size_t n, uint16_t vlan, uint16_t number) {
    size_t at = 12;
    fill(frame_bytes, n, 2);
    memcpy(frame_bytes, running_dest, 6);
    if (vlan) {
        memcpy(frame_bytes + 12, (uint8_t[]){0x81, 0x00, (uint8_t)(0xA0 | vlan >> 8), (uint8_t)vlan}, 4);
        at = 16;
    }
    memcpy(frame_bytes + at, (uint8_t[]){0xF1, 0xC1, 0xEE, 0xDD, (uint8_t)(number >> 8), (uint8_t)number}, 6);
    return frame_bytes;
}

static const uint8_t *untagged(size_t n) {
    fill(frame_bytes, n, 2);
    return frame_bytes;
}

/* The frame just made, with this first byte of its source. It is a group's if the byte is odd; those made above are even. */
static const uint8_t *from(uint8_t first, const uint8_t *made) {
    frame_bytes[6] = first;
    return made;
}

/* The frame just made, with this type in the two bytes at this place. */
static const uint8_t *typed(size_t at, unsigned type, const uint8_t *made) {
    frame_bytes[at] = (uint8_t)(type >> 8);
    frame_bytes[at + 1] = (uint8_t)type;
    return made;
}

/* Is the output the frame without the six bytes at this place? */
static int without(size_t n, size_t at) {
    return equal(out, frame_bytes, at) && equal(out + at, frame_bytes + at + 6, n - at - 6);
}

/* ---- a batch */

/* The frames of a batch, each behind its length. */
static uint8_t packed[70000];
static size_t packed_bytes, packed_count;

static void pack_none(void) { packed_bytes = packed_count = 0; }

static void pack(const uint8_t *frame, size_t n) {
    packed[packed_bytes] = (uint8_t)(n >> 8);
    packed[packed_bytes + 1] = (uint8_t)n;
    copy(packed + packed_bytes + 2, frame, n);
    packed_bytes += 2 + n;
    packed_count++;
}

static int same_answer(nippitsun_arrival_answer a, nippitsun_arrival_answer b) {
    return a.slot == b.slot && a.length == b.length && a.number == b.number && a.verdict == b.verdict && a.refusal == b.refusal
        && a.priority == b.priority && a.vlantag == b.vlantag;
}

/* Order 3 with single arrivals, on the table and the output as they were before the call: each has the room then left after
 * its two length bytes, or none if fewer than two are left, and 8 ends them. */
static nippitsun_batch_answer in_turn(uint8_t network, size_t count, const uint8_t *frames) {
    nippitsun_batch_answer b = {.frames = count};
    size_t at = 0, used = 0;
    for (size_t i = 0; i < count; i++) {
        size_t n = (size_t)frames[at] << 8 | frames[at + 1];
        int lengths_fit = room - used >= 2;
        nippitsun_arrival_answer a = nippitsun_arrival(table_before, slots, network, frames + at + 2, n,
                                                       lengths_fit ? out_before + used + 2 : NULL, lengths_fit ? room - used - 2 : 0);
        b.answers[i] = a;
        CHECK(tells_priority(a, frames + at + 2));
        if (a.refusal == NIPPITSUN_REFUSED_ROOM) {
            b.frames = i;
            break;
        }
        if (a.verdict == NIPPITSUN_VERDICT_HANDED_UP) {
            out_before[used] = (uint8_t)(a.length >> 8);
            out_before[used + 1] = (uint8_t)a.length;
            used += 2 + a.length;
        }
        at += 2 + n;
    }
    return b;
}

static nippitsun_batch_answer batched_so(uint8_t network, size_t count, const uint8_t *frames, size_t n) {
    uint8_t *f = block(n), not_fit = unfit();
    copy(f, frames, n);
    begin();
    nippitsun_batch_answer b = nippitsun_batch(table, slots, lent_index, index_places, network, count, f, n, out, room);
    nippitsun_batch_answer want = {.refusal = b.refusal};
    end(b.refusal);
    CHECK(equal(f, frames, n) && index_same());
    if (not_fit) CHECK(b.refusal == not_fit);
    else CHECK(b.refusal != NIPPITSUN_REFUSED_TABLE && b.refusal != NIPPITSUN_REFUSED_INDEX);
    if (b.refusal == NIPPITSUN_REFUSED_NOT) {
        want = in_turn(network, count, f);
        int tables = 1;
        for (size_t i = 0; i < slots; i++) tables &= same(table[i], table_before[i]);
        CHECK(tables && out_same_from(0));
    }
    int answers = 1;
    for (size_t i = 0; i < NIPPITSUN_FRAMES_MOST; i++) {
        answers &= same_answer(b.answers[i], want.answers[i]);
        if (i < b.frames) refused[b.answers[i].refusal]++;
    }
    CHECK(answers && b.frames == want.frames);
    free(f);
    return b;
}

static nippitsun_batch_answer batched_from(uint8_t network, size_t count, const uint8_t *frames, size_t n) {
    rebuild();
    return batched_so(network, count, frames, n);
}

/* The frames that are packed, and nothing behind them. */
static nippitsun_batch_answer batched(uint8_t network) { return batched_from(network, packed_count, packed, packed_bytes); }

/* ---- the tests */

/* One verdict after the other on one record: each changes exactly the fields that document 01 names. */
static void arrivals(void) {
    make_table(3);
    make_out(100);
    table[0] = distinct;
    table[1] = running();
    nippitsun_stream want = running();

    nippitsun_arrival_answer a = arrive(0, tagged(60, 0, 100), 60);
    CHECK(a.slot == 1 && a.number == 100 && a.verdict == NIPPITSUN_VERDICT_DUPLICATE && a.refusal == 0);
    want.counts.arrivals0++;
    want.counts.discarded++;
    CHECK(same(table[1], want) && same(table[0], distinct));

    a = arrive(1, tagged(60, 0, 104), 60);
    CHECK(a.slot == 1 && a.number == 104 && a.verdict == NIPPITSUN_VERDICT_ROGUE);
    want.counts.arrivals1++;
    want.counts.rogue++;
    CHECK(same(table[1], want));

    /* Behind the anchor and new: out of order, and remaining is renewed. */
    a = arrive(1, tagged(60, 0, 99), 60);
    CHECK(a.slot == 1 && a.number == 99 && a.verdict == NIPPITSUN_VERDICT_HANDED_UP && a.length == 54 && without(60, 12));
    want.counts.arrivals1++;
    want.counts.passed++;
    want.counts.disorder++;
    want.state.history[0] = 7;
    want.state.remaining = 9;
    CHECK(same(table[1], want));

    /* Two places up: 97 and 98 leave the window, and 97 never came. */
    a = arrive(0, tagged(61, 0, 102), 61);
    CHECK(a.verdict == NIPPITSUN_VERDICT_HANDED_UP && a.length == 55 && without(61, 12));
    want.counts.arrivals0++;
    want.counts.passed++;
    want.counts.disorder++;
    want.counts.lost++;
    want.state.history[0] = 13;
    want.state.anchor = 102;
    CHECK(same(table[1], want));

    /* The longest frame, with a VLAN tag, into an output that just holds it. Every number is taken, 0xFEDC too. */
    table[1].vlan = want.vlan = 0xABC;
    table[1].state = want.state = fresh;
    make_out(NIPPITSUN_FRAME_MOST - NIPPITSUN_TAG_LENGTH);
    a = arrive(0, tagged(NIPPITSUN_FRAME_MOST, 0xABC, 0xFEDC), NIPPITSUN_FRAME_MOST);
    CHECK(a.slot == 1 && a.number == 0xFEDC && a.verdict == NIPPITSUN_VERDICT_HANDED_UP && a.length == 1994 && without(2000, 16));
    want.state = (nippitsun_state){.history = {1}, .anchor = 0xFEDC, .remaining = 9, .early = 3, .any = 0};
    want.counts.arrivals0++;
    want.counts.passed++;
    CHECK(same(table[1], want) && same(table[0], distinct));

    /* The match rule: no rogue, no history, and no places for older numbers. */
    table[1].rule = want.rule = NIPPITSUN_RULE_MATCH;
    table[1].state.history[0] = want.state.history[0] = 0;
    table[1].state.early = want.state.early = 0;
    a = arrive(1, tagged(60, 0xABC, 5), 60);
    CHECK(a.verdict == NIPPITSUN_VERDICT_HANDED_UP && a.number == 5);
    want.state.anchor = 5;
    want.counts.arrivals1++;
    want.counts.passed++;
    want.counts.disorder++;
    CHECK(same(table[1], want));

    /* A frame and an output at odd addresses. */
    make_out(101);
    uint8_t *f = block(61);
    copy(f + 1, tagged(60, 0xABC, 6), 60);
    begin();
    a = nippitsun_arrival(table, slots, 1, f + 1, 60, out + 1, room - 1);
    CHECK(a.verdict == NIPPITSUN_VERDICT_HANDED_UP && a.length == 54 && a.number == 6 && tells_priority(a, f + 1));
    CHECK(equal(out + 1, f + 1, 16) && equal(out + 17, f + 23, 38) && out[0] == out_before[0] && out_same_from(55));
    free(f);
}

/* One number after the other from a start, L = 4, and what is in the record then. */
struct step { uint16_t number; uint8_t history; uint16_t early; uint64_t lost; };

static void start(const struct step *steps, size_t n) {
    table[0].counts.lost = 0;
    CHECK(reset(0) == 0);
    for (size_t i = 0; i < n; i++) {
        CHECK(arrive(i % 2, tagged(60, 0, steps[i].number), 60).verdict == NIPPITSUN_VERDICT_HANDED_UP);
        CHECK(table[0].state.history[0] == steps[i].history && table[0].state.early == steps[i].early);
        CHECK(table[0].counts.lost == steps[i].lost);
    }
}

/* A stream at its start: the places before its first number leave and are not lost, and what is missing behind it is. */
static void starts(void) {
    static const struct step late[] = {
        {100, 1, 3, 0},  /* the first */
        {101, 3, 2, 0},
        {99, 7, 2, 0},   /* older than the first, and handed up as every late one */
        {103, 13, 0, 0}, /* 98 and 99 leave: both are older than the first */
        {104, 11, 0, 0}, /* the first leaves */
        {105, 7, 0, 0},
        {106, 15, 0, 1}, /* 102 leaves, and never came */
    };
    static const struct step across[] = {
        {65534, 1, 3, 0},
        {0, 5, 1, 0},
        {3, 9, 0, 1}, /* 65533 leaves, which is older, then the first, and 65535, which never came */
    };
    static const struct step gap[] = {{200, 1, 3, 0}, {203, 9, 0, 0}, {206, 9, 0, 2}};
    make_table(1);
    make_out(60);
    CHECK(opened(running_dest, 0, NIPPITSUN_RULE_VECTOR, 4, 3).refusal == 0);
    start(late, sizeof late / sizeof *late);
    start(across, sizeof across / sizeof *across);
    start(gap, sizeof gap / sizeof *gap);

    /* Every L of one word, and those about the ends of the others: with no number missing lost stays 0. A match record has no
     * such places. */
    for (uint16_t window = NIPPITSUN_WINDOW_LEAST; window <= NIPPITSUN_WINDOW_MOST; window++) {
        if (window > 64 && (window + 1) % 64 > 2) continue;
        for (uint8_t rule = NIPPITSUN_RULE_VECTOR; rule <= NIPPITSUN_RULE_MATCH; rule++) {
            make_table(1);
            CHECK(opened(running_dest, 0, rule, window, 3).refusal == 0 && table[0].state.early == 0);
            for (uint16_t i = 0; i < 2 * window; i++) {
                CHECK(arrive(0, tagged(60, 0, (uint16_t)(65500 + i)), 60).verdict == NIPPITSUN_VERDICT_HANDED_UP);
                uint16_t left = rule == NIPPITSUN_RULE_VECTOR && i < window ? (uint16_t)(window - 1 - i) : 0;
                CHECK(table[0].state.early == left && table[0].counts.lost == 0);
            }
        }
    }
}

/* The places for older numbers in a record that is lent: at most L - 1, and the first stands next to them. */
static void places(void) {
    enum { vector = NIPPITSUN_RULE_VECTOR, match = NIPPITSUN_RULE_MATCH };
    static const struct { uint8_t rule; nippitsun_state state; int lawful; } cases[] = {
        {vector, {.history = {5}, .anchor = 100, .remaining = 6, .early = 0}, 1},
        {vector, {.history = {5}, .anchor = 100, .remaining = 6, .early = 1}, 1},
        {vector, {.history = {5}, .anchor = 100, .remaining = 6, .early = 2}, 0}, /* bit 1 is clear */
        {vector, {.history = {5}, .anchor = 100, .remaining = 6, .early = 3}, 1},
        {vector, {.history = {5}, .anchor = 100, .remaining = 6, .early = 4}, 0}, /* L */
        {vector, {.history = {15}, .anchor = 100, .remaining = 6, .early = 4}, 0},
        {vector, {.history = {15}, .anchor = 100, .remaining = 6, .early = 256}, 0},
        {vector, {.history = {15}, .anchor = 100, .remaining = 6, .early = 65535}, 0},
        {match, {.history = {0}, .anchor = 100, .remaining = 6, .early = 0}, 1},
        {match, {.history = {0}, .anchor = 100, .remaining = 6, .early = 3}, 0},
        {vector, {.history = {0}, .anchor = 65535, .remaining = 0, .early = 0, .any = 1}, 1},
        {vector, {.history = {0}, .anchor = 65535, .remaining = 0, .early = 3, .any = 1}, 0},
        {match, {.history = {0}, .anchor = 65535, .remaining = 0, .early = 1, .any = 1}, 0},
        {vector, {.history = {0}, .anchor = 65535, .remaining = 0, .early = 1, .any = 0}, 0}, /* without take-any */
    };
    make_out(60);
    for (size_t i = 0; i < sizeof cases / sizeof *cases; i++) {
        nippitsun_stream lent = running(), open = running();
        lent.rule = open.rule = cases[i].rule;
        lent.state = cases[i].state;
        make_table(2);
        table[0] = table[1] = lent;
        table[1].used = 0;
        nippitsun_stream not_used = table[1], ticked_once = lent;
        uint8_t refusal = cases[i].lawful ? NIPPITSUN_REFUSED_NOT : NIPPITSUN_REFUSED_DAMAGED;
        CHECK(arrive(0, tagged(60, 0, 101), 60).refusal == refusal);

        /* A tick leaves the places; it counts a damaged record and leaves all of it, and a free one whatever it holds. */
        table[0] = lent;
        nippitsun_tick_answer a = ticked();
        if (cases[i].lawful && lent.state.remaining) ticked_once.state.remaining--;
        CHECK(a.resets == 0 && a.damaged == !cases[i].lawful && same(table[0], ticked_once) && same(table[1], not_used));

        /* A reset takes them away and mends, and so does the tick that resets. */
        open.state = fresh;
        open.counts.resets++;
        CHECK(reset(0) == 0 && same(table[0], open));
        CHECK(arrive(0, tagged(60, 0, 101), 60).verdict == NIPPITSUN_VERDICT_HANDED_UP);
        table[0].state.remaining = 1;
        open.counts = table[0].counts;
        open.counts.resets++;
        CHECK(ticked().resets == 1 && same(table[0], open));
    }
}

/* ---- histories of several words (document 02, order 5) */

static void mark(nippitsun_state *s, unsigned place) { s->history[place / 64] |= (uint64_t)1 << place % 64; }

/* A history place by place, with no words, that moves one place at a time. */
static struct { uint8_t came[NIPPITSUN_WINDOW_MOST]; uint16_t early; uint64_t lost; } model;

static void model_moves(unsigned window) {
    if (model.early) model.early--;
    else model.lost += !model.came[window - 1];
    for (unsigned k = window - 1; k > 0; k--) model.came[k] = model.came[k - 1];
    model.came[0] = 0;
}

/* The arrival of the number that is d from the anchor, held to the model. */
static void arrives_at(int d) {
    int window = table[0].window;
    uint16_t anchor = table[0].state.anchor, number = (uint16_t)(anchor + d);
    uint8_t verdict = NIPPITSUN_VERDICT_HANDED_UP;
    if (d >= window || d <= -window) verdict = NIPPITSUN_VERDICT_ROGUE;
    else if (d <= 0) {
        if (model.came[-d]) verdict = NIPPITSUN_VERDICT_DUPLICATE;
        model.came[-d] = 1;
    } else {
        for (int i = 0; i < d; i++) model_moves((unsigned)window);
        model.came[0] = 1;
        anchor = number;
    }
    nippitsun_state want = {.history = {0}, .anchor = anchor, .remaining = 9, .early = model.early, .any = 0};
    for (unsigned k = 0; k < NIPPITSUN_WINDOW_MOST; k++)
        if (model.came[k]) mark(&want, k);
    CHECK(arrive(0, tagged(60, 0, number), 60).verdict == verdict);
    CHECK(same_state(table[0].state, want) && table[0].counts.lost == model.lost);
}

/* A stream with its first number. */
static void starts_at(uint16_t window, uint16_t number) {
    make_table(1);
    CHECK(opened(running_dest, 0, NIPPITSUN_RULE_VECTOR, window, 9).refusal == 0 && table[0].window == window);
    CHECK(arrive(0, tagged(60, 0, number), 60).verdict == NIPPITSUN_VERDICT_HANDED_UP);
    for (unsigned k = 0; k < NIPPITSUN_WINDOW_MOST; k++) model.came[k] = k == 0;
    model.early = (uint16_t)(window - 1);
    model.lost = 0;
    CHECK(table[0].state.early == model.early && table[0].state.history[0] == 1);
}

/* A number below n, the same ones in every run. */
static unsigned below(unsigned n) {
    static uint64_t dice = 3;
    dice = dice * 6364136223846793005u + 1;
    return (unsigned)(dice >> 33) % n;
}

static void words(void) {
    static const uint16_t windows[] = {2, 63, 64, 65, 127, 128, 129, 448, 511, 512};
    static const int ds[] = {1,   -1,  0,    63,   -64,  -63, 64,   -65, -63,  65,   -127, -128, 2,    127, -126,
                             128, -64, -447, -448, -449, 447, -510, 448, -511, -512, 511,  -511, -510, 512, -512,
                             510, 1,   -510, -511, -1,   1,   1,    -64, -128, 63,   1,    64,   -256, 256, -32768};
    make_out(60);
    for (size_t i = 0; i < sizeof windows / sizeof *windows; i++) {
        int window = windows[i];
        /* From the wrap on, and across it: each d, the ends of the window, and any d about it. */
        for (uint16_t from = 65000; from != 136; from = (uint16_t)(from + 168)) {
            starts_at(windows[i], from);
            for (size_t n = 0; n < sizeof ds / sizeof *ds; n++) {
                arrives_at(ds[n]);
                arrives_at(n % 2 ? window - 1 : -(window - 1));
                if (n % 4 == 0) arrives_at(n % 8 ? window : -window);
            }
            for (size_t n = 0; n < 100; n++) arrives_at(below(3) ? (int)below(2u * windows[i] + 3) - window - 1 : 1);
        }
    }

    /* A move across every border of two words, by one place and by more. */
    for (unsigned border = 64; border < NIPPITSUN_WINDOW_MOST; border += 64) {
        starts_at(NIPPITSUN_WINDOW_MOST, 65500);
        arrives_at((int)border - 1);
        CHECK(table[0].state.history[border / 64 - 1] >> 63 == 1 && table[0].state.history[border / 64] == 0);
        arrives_at(1);
        CHECK(table[0].state.history[border / 64 - 1] >> 63 == 0 && table[0].state.history[border / 64] == 1);
        arrives_at(63);
        CHECK(table[0].state.history[border / 64] >> 63 == 1 && (table[0].state.history[1] & 1) == 1);
    }

    /* The first stays in the largest window until 511 have come behind it, and is a duplicate until then. */
    starts_at(NIPPITSUN_WINDOW_MOST, 65400);
    arrives_at(511);
    CHECK(table[0].state.history[0] == 1 && table[0].state.history[7] == (uint64_t)1 << 63 && table[0].state.early == 0);
    arrives_at(-511);
    arrives_at(-512);
    CHECK(table[0].counts.discarded == 1 && table[0].counts.rogue == 1 && table[0].counts.lost == 0);
    arrives_at(1);
    CHECK(table[0].state.history[7] == 0 && table[0].counts.lost == 0);
    arrives_at(1);
    CHECK(table[0].counts.lost == 1);
}

/* A record that is lent: no bit at L or above in any word, and the places for older numbers in all of them. */
static void lent_words(void) {
    enum { none = 999 };
    static const struct { uint16_t window; unsigned place; uint16_t early; int lawful; } cases[] = {
        {64, 63, 0, 1},   {64, 64, 0, 0},   {64, 127, 0, 0},  {64, 511, 0, 0},   {65, 64, 0, 1},    {65, 65, 0, 0},
        {65, 128, 0, 0},  {127, 126, 0, 1}, {127, 127, 0, 0}, {127, 448, 0, 0},  {128, 127, 0, 1},  {128, 128, 0, 0},
        {128, 511, 0, 0}, {511, 510, 0, 1}, {511, 511, 0, 0}, {512, 511, 0, 1},  {512, none, 0, 1}, {2, 1, 0, 1},
        {2, 2, 0, 0},     {2, 66, 0, 0},    {4, 64, 0, 0},    {4, 320, 0, 0},    {513, 1, 0, 0},    {513, 512, 0, 0},
        {1, none, 0, 0},  {0, none, 0, 0},  {65535, 1, 0, 0}, {512, 255, 256, 1}, {512, 255, 255, 0}, {512, 255, 257, 0},
        {512, 1, 510, 1}, {512, none, 511, 1}, {512, 511, 512, 0}, {512, 447, 64, 1}, {512, 448, 64, 0}, {512, 511, 1, 0},
        {512, 510, 1, 1}, {65, 63, 1, 1},   {65, 64, 1, 0},   {65, none, 64, 1}, {65, none, 65, 0}, {129, 64, 64, 1},
        {129, 0, 64, 0},  {511, none, 510, 1}, {511, none, 511, 0},
    };
    make_out(60);
    for (size_t i = 0; i < sizeof cases / sizeof *cases; i++) {
        make_table(1);
        table[0] = running();
        table[0].window = cases[i].window;
        table[0].state = (nippitsun_state){.history = {1}, .anchor = 100, .remaining = 6, .early = cases[i].early, .any = 0};
        if (cases[i].place < NIPPITSUN_WINDOW_MOST) mark(&table[0].state, cases[i].place);
        nippitsun_stream lent = table[0];
        int in_range = cases[i].window >= NIPPITSUN_WINDOW_LEAST && cases[i].window <= NIPPITSUN_WINDOW_MOST;
        CHECK(ticked().damaged == !cases[i].lawful);
        table[0] = lent;
        CHECK(arrive(0, tagged(60, 0, 101), 60).refusal == (cases[i].lawful ? 0 : NIPPITSUN_REFUSED_DAMAGED));
        CHECK(reset(0) == (in_range ? 0 : NIPPITSUN_REFUSED_DAMAGED));
        if (in_range) CHECK(same_state(table[0].state, fresh));
    }

    /* Fresh records and those of the match rule have no bit in any word. */
    for (unsigned place = 0; place < NIPPITSUN_WINDOW_MOST; place++) {
        for (int rule = NIPPITSUN_RULE_VECTOR; rule <= NIPPITSUN_RULE_MATCH; rule++) {
            make_table(2);
            table[0] = table[1] = running();
            table[0].rule = (uint8_t)rule;
            table[1].rule = NIPPITSUN_RULE_MATCH;
            table[0].window = table[1].window = NIPPITSUN_WINDOW_MOST;
            table[0].state = fresh;
            table[1].state.history[0] = 0;
            CHECK(ticked().damaged == 0);
            mark(&table[0].state, place);
            mark(&table[1].state, place);
            CHECK(ticked().damaged == 2);
            CHECK(arrive(0, tagged(60, 0, 101), 60).refusal == NIPPITSUN_REFUSED_DAMAGED);
        }
    }
}

/* Open writes every field of a record that had another value in each. */
static void opens(void) {
    static const uint8_t dest[6] = {0xC1, 0xC2, 0xC3, 0xC4, 0xC5, 0xC6};
    make_table(2);
    make_out(0);
    table[0] = table[1] = distinct;
    table[1].used = 0;
    nippitsun_slot_answer a = opened(dest, 0x0321, NIPPITSUN_RULE_MATCH, 63, 0xB1B2);
    nippitsun_stream want = {.dest = 0xC1C2C3C4C5C6, .vlan = 0x0321, .window = 63, .time = 0xB1B2, .rule = 2, .used = 1,
                             .state = fresh, .counts = zero};
    CHECK(a.refusal == 0 && a.slot == 1 && same(table[1], want) && same(table[0], distinct));

    /* The bounds of the settings. */
    struct { uint16_t vlan; uint8_t rule; uint16_t window, time; int taken; } cases[] = {
        {0, 1, NIPPITSUN_WINDOW_LEAST, NIPPITSUN_TIME_LEAST, 1},
        {NIPPITSUN_VLAN_MOST, 2, NIPPITSUN_WINDOW_MOST, NIPPITSUN_TIME_MOST, 1},
        {NIPPITSUN_VLAN_MOST + 1, 1, 4, 3, 0},
        {65535, 1, 4, 3, 0},
        {0, 0, 4, 3, 0},
        {0, 3, NIPPITSUN_WINDOW_LEAST, 3, 1},
        {0, 3, NIPPITSUN_WINDOW_MOST, 3, 1},
        {0, 3, NIPPITSUN_WINDOW_LEAST - 1, 3, 0}, /* a virtual link does not use L, but it is in range */
        {0, 3, NIPPITSUN_WINDOW_MOST + 1, 3, 0},
        {0, 3, 4, NIPPITSUN_TIME_LEAST - 1, 0},
        {1, 3, 4, 3, 0},
        {256, 3, 4, 3, 0},
        {NIPPITSUN_VLAN_MOST, 3, 4, 3, 0},
        {0, 4, 4, 3, 0},
        {0, 255, 4, 3, 0},
        {0, 1, NIPPITSUN_WINDOW_LEAST - 1, 3, 0},
        {0, 1, NIPPITSUN_WINDOW_MOST + 1, 3, 0},
        {0, 1, 64, 3, 1},
        {0, 1, 65, 3, 1},
        {0, 1, 256 + 4, 3, 1},
        {0, 1, 512 + 4, 3, 0},
        {0, 1, 65535, 3, 0},
        {0, 1, 4, NIPPITSUN_TIME_LEAST - 1, 0},
    };
    for (size_t i = 0; i < sizeof cases / sizeof *cases; i++) {
        make_table(1);
        a = opened(dest, cases[i].vlan, cases[i].rule, cases[i].window, cases[i].time);
        CHECK(a.slot == 0 && a.refusal == (cases[i].taken ? NIPPITSUN_REFUSED_NOT : NIPPITSUN_REFUSED_SETTING));
        if (!cases[i].taken) continue;
        CHECK(table[0].window == cases[i].window && table[0].time == cases[i].time && table[0].vlan == cases[i].vlan);
        CHECK(table[0].rule == cases[i].rule && same_state(table[0].state, fresh) && same_counts(table[0].counts, zero));
    }

    make_table(2);
    CHECK(opened(dest, 7, 1, 4, 3).slot == 0);
    CHECK(opened(dest, 7, 1, 4, 3).refusal == NIPPITSUN_REFUSED_TAKEN);
    CHECK(opened(dest, 8, 1, 4, 3).slot == 1);
    CHECK(opened(dest, 9, 1, 4, 3).refusal == NIPPITSUN_REFUSED_FULL);
}

static void closes_resets_and_ticks(void) {
    make_table(3);
    make_out(0);

    /* Close keeps every other field. */
    table[1] = distinct;
    nippitsun_stream want = distinct;
    want.used = 0;
    CHECK(closed(1) == 0 && same(table[1], want));
    CHECK(closed(1) == NIPPITSUN_REFUSED_SLOT);
    CHECK(closed(3) == NIPPITSUN_REFUSED_SLOT);
    CHECK(closed(SIZE_MAX) == NIPPITSUN_REFUSED_SLOT);

    /* Reset gives the fresh state. A damaged state is mended, settings out of range are not. */
    CHECK(reset(1) == NIPPITSUN_REFUSED_SLOT);
    CHECK(reset(3) == NIPPITSUN_REFUSED_SLOT);
    table[1] = distinct;
    CHECK(reset(1) == NIPPITSUN_REFUSED_DAMAGED);
    table[1] = running();
    table[1].state = distinct.state;
    want = running();
    want.state = fresh;
    want.counts.resets++;
    CHECK(reset(1) == 0 && same(table[1], want));

    /* A tick: one stream is reset, one loses a tick, one is damaged, one is free. */
    make_table(4);
    table[0] = running();
    table[1] = distinct;
    table[2] = running();
    table[2].state.remaining = 1;
    nippitsun_stream reset_one = table[2], older = table[0];
    nippitsun_tick_answer a = ticked();
    CHECK(a.resets == 1 && a.damaged == 1 && a.refusal == 0);
    older.state.remaining--;
    reset_one.state = fresh;
    reset_one.counts.resets++;
    CHECK(same(table[0], older) && same(table[1], distinct) && same(table[2], reset_one) && same(table[3], table_before[3]));

    /* Counts that do not fit into a byte's half: 40 reset, 24 damaged. */
    make_table(64);
    for (size_t i = 0; i < 64; i++) {
        table[i] = i < 40 ? running() : distinct;
        table[i].state.remaining = 1;
    }
    a = ticked();
    CHECK(a.resets == 40 && a.damaged == 24);
}

static void refusals(void) {
    static const size_t sizes[] = {0, 13, 14, 19, 20, 23, 24, 60};

    /* 1 comes before everything else, also where everything else is wrong. */
    make_table(NIPPITSUN_SLOTS_MOST + 1);
    make_out(0);
    table[0] = distinct;
    CHECK(arrive(9, tagged(2001, 0, 1), 2001).refusal == NIPPITSUN_REFUSED_TABLE);
    CHECK(opened(running_dest, 65535, 9, 0, 0).refusal == NIPPITSUN_REFUSED_TABLE);
    CHECK(closed(99) == NIPPITSUN_REFUSED_TABLE);
    CHECK(reset(99) == NIPPITSUN_REFUSED_TABLE);
    CHECK(ticked().refusal == NIPPITSUN_REFUSED_TABLE);
    make_table(NIPPITSUN_SLOTS_MOST);
    table[63] = running();
    make_out(100);
    nippitsun_arrival_answer last = arrive(0, tagged(60, 0, 101), 60);
    CHECK(last.slot == 63 && last.verdict == NIPPITSUN_VERDICT_HANDED_UP);

    /* An arrival's others, each with all the later ones wrong too. */
    make_table(1);
    make_out(13);
    table[0] = running();
    table[0].rule = 4;
    CHECK(arrive(2, from(1, tagged(2001, 0, 1)), 2001).refusal == NIPPITSUN_REFUSED_NETWORK);
    CHECK(arrive(255, from(1, tagged(2001, 0, 1)), 2001).refusal == NIPPITSUN_REFUSED_NETWORK);
    CHECK(arrive(1, from(1, tagged(2001, 0, 1)), 2001).refusal == NIPPITSUN_REFUSED_LONG);
    CHECK(arrive(1, from(1, untagged(13)), 13).refusal == NIPPITSUN_REFUSED_SHORT);
    CHECK(arrive(1, from(1, tagged(19, 0, 1)), 19).refusal == NIPPITSUN_REFUSED_SHORT);
    CHECK(arrive(1, from(1, tagged(23, 5, 1)), 23).refusal == NIPPITSUN_REFUSED_SHORT);
    CHECK(arrive(1, from(1, untagged(60)), 60).refusal == NIPPITSUN_REFUSED_UNTAGGED);
    CHECK(arrive(1, from(1, tagged(60, 5, 1)), 60).refusal == NIPPITSUN_REFUSED_GROUP);
    CHECK(arrive(1, from(1, tagged(60, 0, 1)), 60).refusal == NIPPITSUN_REFUSED_GROUP);
    CHECK(arrive(1, tagged(60, 5, 1), 60).refusal == NIPPITSUN_REFUSED_UNKNOWN);
    CHECK(arrive(1, tagged(60, 0, 1), 60).refusal == NIPPITSUN_REFUSED_DAMAGED);
    table[0].rule = 1;
    CHECK(arrive(1, from(1, tagged(20, 0, 1)), 20).refusal == NIPPITSUN_REFUSED_GROUP);
    CHECK(arrive(1, tagged(20, 0, 1), 20).refusal == NIPPITSUN_REFUSED_ROOM);
    /* 8 is given for a duplicate too. */
    CHECK(arrive(1, tagged(20, 0, 100), 20).refusal == NIPPITSUN_REFUSED_ROOM);

    /* The tag calls. */
    make_out(NIPPITSUN_FRAME_MOST);
    nippitsun_tag_answer t = written(untagged(NIPPITSUN_UNTAGGED_MOST), NIPPITSUN_UNTAGGED_MOST, 0xABCD);
    CHECK(t.refusal == 0 && t.length == 2000 && t.number == 0xABCD && equal(out, frame_bytes, 12) && equal(out + 18, frame_bytes + 12, 1982));
    CHECK(equal(out + 12, (uint8_t[]){0xF1, 0xC1, 0, 0, 0xAB, 0xCD}, 6));
    make_out(0);
    CHECK(written(from(1, untagged(1995)), 1995, 1).refusal == NIPPITSUN_REFUSED_LONG);
    CHECK(written(from(1, untagged(13)), 13, 1).refusal == NIPPITSUN_REFUSED_SHORT);
    CHECK(written(from(1, tagged(14, 0, 1)), 14, 1).refusal == NIPPITSUN_REFUSED_TAGGED);
    make_out(65);
    CHECK(written(from(1, untagged(60)), 60, 1).refusal == NIPPITSUN_REFUSED_GROUP);
    CHECK(written(untagged(60), 60, 1).refusal == NIPPITSUN_REFUSED_ROOM);
    make_out(67);
    t = written(untagged(60), 60, 1);
    CHECK(t.refusal == 0 && t.length == 66 && t.number == 1);

    make_out(55);
    CHECK(taken(untagged(2001), 2001).refusal == NIPPITSUN_REFUSED_LONG);
    CHECK(taken(tagged(19, 0, 1), 19).refusal == NIPPITSUN_REFUSED_SHORT);
    CHECK(taken(untagged(60), 60).refusal == NIPPITSUN_REFUSED_UNTAGGED);
    CHECK(taken(tagged(62, 0, 1), 62).refusal == NIPPITSUN_REFUSED_ROOM);
    t = taken(tagged(60, 5, 0xBEEF), 60);
    CHECK(t.refusal == 0 && t.length == 54 && t.number == 0xBEEF && without(60, 16));

    /* Nothing behind the end of a frame is read: memcheck sees it. */
    for (size_t i = 0; i < sizeof sizes / sizeof *sizes; i++) {
        taken(tagged(sizes[i], 0, 1), sizes[i]);
        taken(tagged(sizes[i], 5, 1), sizes[i]);
        written(untagged(sizes[i]), sizes[i], 1);
    }
}

/* Every first byte of a source, with and without a VLAN tag: an odd one reaches no stream and gets no tag, and a tag is taken
 * out all the same. A group destination is a key as any other. */
static void sources(void) {
    static const uint8_t group[6] = {0x01, 0x00, 0x5E, 0x00, 0x00, 0x07};
    make_table(2);
    make_outs(100, 100);
    for (unsigned first = 0; first < 256; first++) {
        unsigned refusal = first % 2 ? NIPPITSUN_REFUSED_GROUP : NIPPITSUN_REFUSED_NOT;
        table[0] = table[1] = running();
        table[1].vlan = 5;
        CHECK(arrive(0, from((uint8_t)first, tagged(60, 0, 101)), 60).refusal == refusal);
        CHECK(arrive(1, from((uint8_t)first, tagged(60, 5, 101)), 60).refusal == refusal);
        CHECK(written(from((uint8_t)first, untagged(60)), 60, 1).refusal == refusal);
        CHECK(sent(from((uint8_t)first, untagged(60)), 60).refusal == refusal);
        CHECK(taken(from((uint8_t)first, tagged(60, 0, 7)), 60).number == 7 && out[6] == first);
    }
    make_table(1);
    CHECK(opened(group, 0, NIPPITSUN_RULE_VECTOR, 4, 3).refusal == 0);
    tagged(60, 0, 7);
    memcpy(frame_bytes, group, 6);
    CHECK(arrive(0, from(0x01, frame_bytes), 60).refusal == NIPPITSUN_REFUSED_GROUP);
    CHECK(arrive(0, from(0xFE, frame_bytes), 60).verdict == NIPPITSUN_VERDICT_HANDED_UP);
}

static int unreached_from(const nippitsun_batch_answer *b, size_t from) {
    static const nippitsun_arrival_answer mark;
    for (size_t i = from; i < NIPPITSUN_FRAMES_MOST; i++)
        if (!same_answer(b->answers[i], mark)) return 0;
    return 1;
}

static void one_running(size_t n) {
    make_table(1);
    table[0] = running();
    make_out(n);
}

static void batches(void) {
    nippitsun_batch_answer b;

    /* Every verdict in its place, and the frames handed up one behind the other. */
    static const uint16_t numbers[] = {100, 101, 101, 110, 99};
    static const uint8_t verdict[] = {2, 1, 2, 3, 1};
    one_running(200);
    pack_none();
    for (size_t i = 0; i < 5; i++) pack(tagged(60, 0, numbers[i]), 60);
    b = batched(1);
    CHECK(b.refusal == 0 && b.frames == 5 && unreached_from(&b, 5));
    for (size_t i = 0; i < 5; i++) CHECK(b.answers[i].verdict == verdict[i] && b.answers[i].number == numbers[i]);
    CHECK(out[0] == 0 && out[1] == 54 && out[56] == 0 && out[57] == 54);
    CHECK(equal(out + 2, frame_bytes, 12) && equal(out + 58 + 12, frame_bytes + 18, 42));
    fill(out_before, room, 201);
    CHECK(out_same_from(112));

    /* 8 ends the call and is answered too: for a twin that lacks room, for a rogue, for the last frame. */
    one_running(56);
    pack_none();
    for (size_t i = 0; i < 3; i++) pack(tagged(60, 0, 101), 60);
    b = batched(0);
    CHECK(b.frames == 1 && b.answers[0].verdict == 1 && b.answers[1].refusal == NIPPITSUN_REFUSED_ROOM && unreached_from(&b, 2));
    one_running(100);
    pack_none();
    pack(tagged(60, 0, 101), 60);
    pack(tagged(60, 0, 500), 60);
    b = batched(0);
    CHECK(b.frames == 1 && b.answers[1].refusal == NIPPITSUN_REFUSED_ROOM && unreached_from(&b, 2));
    /* A smaller one behind it is not reached. */
    one_running(55);
    pack_none();
    pack(tagged(60, 0, 101), 60);
    pack(tagged(20, 0, 102), 20);
    b = batched(0);
    CHECK(b.frames == 0 && b.answers[0].refusal == NIPPITSUN_REFUSED_ROOM && unreached_from(&b, 1));

    /* Small outputs, and two frames that need 16 bytes each. */
    static const struct { size_t room, fits; } rooms[] = {{0, 0}, {1, 0}, {2, 0}, {15, 0}, {16, 1}, {17, 1}, {18, 1}, {31, 1}, {32, 2}};
    for (size_t i = 0; i < sizeof rooms / sizeof *rooms; i++) {
        one_running(rooms[i].room);
        pack_none();
        pack(tagged(20, 0, 101), 20);
        pack(tagged(20, 0, 102), 20);
        CHECK(batched(1).frames == rooms[i].fits);
    }

    /* The other refusals go on with no room at all. Lengths of 0 and above 2000 are refused in their places. */
    static const uint8_t why[] = {3, 3, 4, 4, 5, 14, 6, 7};
    static uint8_t longest[65535];
    pack_none();
    pack(untagged(2001), 2001);
    pack(longest, sizeof longest);
    pack(NULL, 0);
    pack(tagged(19, 0, 1), 19);
    pack(untagged(60), 60);
    pack(from(1, tagged(60, 0, 101)), 60);
    pack(tagged(60, 5, 101), 60);
    pack(tagged(60, 0, 101), 60);
    for (size_t bytes = 0; bytes < 3; bytes++) {
        one_running(bytes);
        table[0].rule = 4;
        b = batched(0);
        CHECK(b.frames == 8 && unreached_from(&b, 8));
        for (size_t i = 0; i < 8; i++) CHECK(b.answers[i].refusal == why[i]);
        table[0].rule = 1;
        b = batched(0);
        CHECK(b.frames == 7 && b.answers[7].refusal == NIPPITSUN_REFUSED_ROOM);
    }

    /* No frames are a good call, whatever the buffer holds; and what stands behind the last is ignored. */
    one_running(100);
    b = batched_from(0, 0, packed, 100);
    CHECK(b.refusal == 0 && b.frames == 0 && unreached_from(&b, 0));
    pack_none();
    pack(tagged(60, 0, 101), 60);
    fill(packed + packed_bytes, 7, 255);
    b = batched_from(0, 1, packed, packed_bytes + 7);
    CHECK(b.frames == 1 && b.answers[0].verdict == NIPPITSUN_VERDICT_HANDED_UP && unreached_from(&b, 1));

    /* 1, 18, 2, 15, in this order and before any frame: the first is good each time (18 is in refused_by_index). */
    make_table(NIPPITSUN_SLOTS_MOST + 1);
    CHECK(batched_from(2, 33, packed, packed_bytes).refusal == NIPPITSUN_REFUSED_TABLE);
    one_running(100);
    CHECK(batched_from(2, 33, packed, packed_bytes).refusal == NIPPITSUN_REFUSED_NETWORK);
    CHECK(batched_from(255, 1, packed, packed_bytes).refusal == NIPPITSUN_REFUSED_NETWORK);
    CHECK(batched_from(0, SIZE_MAX, packed, packed_bytes).refusal == NIPPITSUN_REFUSED_BATCH);
    CHECK(batched_from(0, (size_t)1 << 32, packed, packed_bytes).refusal == NIPPITSUN_REFUSED_BATCH);
    for (size_t cut = 0; cut < packed_bytes; cut++) CHECK(batched_from(0, 1, packed, cut).refusal == NIPPITSUN_REFUSED_BATCH);
    /* The second has no length, half a length, no bytes, too few. */
    memcpy(packed + packed_bytes, (uint8_t[]){0, 4, 1, 2, 3}, 5);
    for (size_t more = 0; more <= 5; more++) CHECK(batched_from(0, 2, packed, packed_bytes + more).refusal == NIPPITSUN_REFUSED_BATCH);
    pack_none();
    for (size_t i = 0; i < 33; i++) pack(NULL, 0);
    CHECK(batched(0).refusal == NIPPITSUN_REFUSED_BATCH);
    CHECK(batched_from(0, 32, packed, packed_bytes).frames == 32);

    /* 32 of the longest frames, into the room that is always enough, and one byte less. */
    size_t enough = NIPPITSUN_FRAMES_MOST * (2 + NIPPITSUN_UNTAGGED_MOST);
    CHECK(enough == 63872);
    pack_none();
    for (uint16_t i = 0; i < NIPPITSUN_FRAMES_MOST; i++) pack(tagged(2000, 0, (uint16_t)(101 + i)), 2000);
    one_running(enough);
    b = batched(0);
    CHECK(b.frames == 32 && b.answers[31].verdict == NIPPITSUN_VERDICT_HANDED_UP && out[0] == 0x07 && out[1] == 0xCA);
    one_running(enough - 1);
    b = batched(0);
    CHECK(b.frames == 31 && b.answers[31].refusal == NIPPITSUN_REFUSED_ROOM);

    /* The rest is called again with a new output: in the end that is the one batch. */
    one_running(enough);
    b = batched(0);
    nippitsun_stream at_once = table[0];
    one_running(5 * 1996 + 1000);
    size_t count = packed_count, at = 0;
    while (count > 0) {
        b = batched_from(0, count, packed + at, packed_bytes - at);
        CHECK(b.frames > 0);
        if (b.frames == 0) break;
        count -= b.frames;
        at += b.frames * 2002;
        fill(out, room, 201);
    }
    CHECK(at == packed_bytes && same(table[0], at_once));
}

/* Batches of all kinds, each held to single arrivals in turn. */
static void batches_in_turn(void) {
    static const size_t lengths[] = {0, 13, 19, 20, 24, 64, 300, 2001};
    static const unsigned rooms[] = {20, 100, 4000};
    unsigned ended = 0, whole = 0;
    for (size_t i = 0; i < 3000; i++) {
        make_table(3);
        make_out(below(rooms[below(3)]));
        for (size_t s = 0; s < 3; s++) table[s] = running();
        table[0].vlan = 7;
        table[1].vlan = 5;
        table[2].window = (uint16_t[]){4, 64, 65, 512}[below(4)];
        table[2].state.early = (uint16_t)(below(2) * (table[2].window - 1u));
        if (below(3) == 0) table[2].state = distinct.state;
        pack_none();
        for (size_t n = below(NIPPITSUN_FRAMES_MOST + 1); n > 0; n--) {
            size_t length = lengths[below(8)];
            uint16_t vlan = below(2) ? 5 : 0;
            tagged(length, vlan, (uint16_t)(90 + below(below(8) ? 40 : 600)));
            if (vlan && below(2)) typed(14, below(16) << 12 | 5 * below(2), frame_bytes);
            if (below(12) == 0) frame_bytes[13] = 0;
            if (below(12) == 0) frame_bytes[6] |= 1;
            if (below(12) == 0) frame_bytes[5] ^= 1;
            pack(frame_bytes, length);
        }
        if (batched((uint8_t)below(2)).frames < packed_count) ended++;
        else whole++;
    }
    CHECK(ended > 300 && whole > 300);
}

/* ---- the index (document 02, order 9) */

/* The destination of the n-th key with no VLAN id that has this own place, and its six bytes. */
static uint64_t dest_at(size_t place, size_t n) {
    uint64_t dest = 0x020304050000;
    for (;; dest++)
        if (own_place(dest, 0) == place && n-- == 0) return dest;
}

static const uint8_t *six_of(uint64_t dest) {
    static uint8_t six[6];
    for (size_t i = 0; i < 6; i++) six[i] = (uint8_t)(dest >> 8 * (5 - i));
    return six;
}

static nippitsun_stream running_to(uint64_t dest) {
    nippitsun_stream s = running();
    s.dest = dest;
    return s;
}

static void all_places(uint8_t name) {
    for (size_t i = 0; i < index_places; i++) lent_index[i] = name;
}

/* One frame to this destination, in a batch. The slot that has it, or the number of slots. */
static size_t slot_by_batch(uint64_t dest) {
    pack_none();
    tagged(60, 0, 100);
    memcpy(frame_bytes, six_of(dest), 6);
    pack(frame_bytes, 60);
    nippitsun_batch_answer b = batched_so(0, 1, packed, packed_bytes);
    CHECK(b.refusal == 0 && b.frames == 1);
    return b.answers[0].refusal == NIPPITSUN_REFUSED_UNKNOWN ? slots : b.answers[0].slot;
}

/* Calls with an index that is in agreement, and calls with one that is not: all three take it, or none. The good ones here leave
 * the table but for a slot that is opened and closed again. */
static void taken_or_refused(int fits) {
    uint8_t want = fits ? NIPPITSUN_REFUSED_NOT : NIPPITSUN_REFUSED_INDEX, kept[NIPPITSUN_PLACES];
    uint64_t other = dest_at(77, 9);
    CHECK(unfit() == want && lowest_free() < slots && searched(other, 0, ALL) == slots);
    copy(kept, lent_index, sizeof kept);
    CHECK(batched_so(0, 0, NULL, 0).refusal == want);
    nippitsun_slot_answer a = opened_so(six_of(other), 0, NIPPITSUN_RULE_VECTOR, 4, 3);
    CHECK(a.refusal == want);
    if (fits) CHECK(closed_so(a.slot) == 0);
    copy(lent_index, kept, sizeof kept);
    CHECK(closed_so(slots) == (fits ? NIPPITSUN_REFUSED_SLOT : NIPPITSUN_REFUSED_INDEX));
}

/* What a place may hold: names are passed over that are no slot's in use with the key, and an empty place ends the following. */
static void named_places(void) {
    uint64_t first = dest_at(120, 0), second = dest_at(120, 1), third = dest_at(3, 0);
    make_out(100);
    make_index(NIPPITSUN_PLACES);

    /* Zeros agree with free slots alone, as they are in a table of zeros or of anything else. */
    make_table(4);
    all_places(0);
    taken_or_refused(1);
    table[2] = running_to(first);
    taken_or_refused(0);
    CHECK(arrive(0, tagged(60, 0, 1), 60).refusal == NIPPITSUN_REFUSED_UNKNOWN && reset(2) == 0 && ticked().refusal == 0);

    /* A slot by the table's end, one far beyond it, a free one with the same key, one with another key. */
    static const uint8_t passed_over[] = {5, 64, 65, 255, 2, 4};
    table[1] = running_to(first);
    table[1].used = 0;
    table[3] = running_to(second);
    for (size_t i = 0; i < sizeof passed_over; i++)
        for (size_t many = 0; many < 20; many++) {
            all_places(0);
            for (size_t n = 0; n < many; n++) lent_index[(120 + n) % 128] = passed_over[i];
            lent_index[(120 + many) % 128] = 3;
            lent_index[(121 + many) % 128] = 4;
            taken_or_refused(1);
            CHECK(slot_by_batch(first) == 2 && slot_by_batch(second) == 3 && slot_by_batch(third) == slots);
            lent_index[(120 + many) % 128] = passed_over[i]; /* in place of its name */
            taken_or_refused(0);
            lent_index[(120 + many) % 128] = 0; /* before its name */
            lent_index[(122 + many) % 128] = 3;
            taken_or_refused(0);
        }

    /* The last place of all is still reached, round the end, and the one before the own place is no nearer. */
    table[3].used = 0;
    all_places(200);
    taken_or_refused(0);
    lent_index[119] = 3;
    taken_or_refused(1);
    CHECK(slot_by_batch(first) == 2);
    lent_index[118] = 0;
    taken_or_refused(0);

    /* All places name slot 0: in agreement if it is the only one in use, if none is, and if the others have its key. */
    make_table(3);
    all_places(1);
    taken_or_refused(1);
    table[0] = running_to(first);
    table[0].used = 0x80;
    taken_or_refused(1);
    CHECK(slot_by_batch(first) == 0 && slot_by_batch(second) == slots);
    table[1] = running_to(first);
    taken_or_refused(1);
    CHECK(slot_by_batch(first) == 0);
    all_places(2); /* the higher of the two */
    taken_or_refused(0);
    all_places(1);
    table[1].vlan = 5;
    taken_or_refused(0);
    table[1] = running_to(second);
    taken_or_refused(0);

    /* Keys that no frame has: a destination of more than 52 bits has the own place of its low 52, and is another key. */
    table[0] = running_to(first | (uint64_t)1 << 52);
    table[1] = running_to(first | (uint64_t)0xFFF << 52);
    for (unsigned names = 0; names < 4; names++) {
        all_places(0);
        for (size_t n = 0; n < 2; n++)
            if (names >> n & 1) lent_index[120 + n] = (uint8_t)(n + 1);
        taken_or_refused(names == 3);
    }
    CHECK(rebuild() == 0 && lent_index[120] == 1 && lent_index[121] == 2 && slot_by_batch(first) == slots);
}

/* A good open and a good close leave the rebuilt index, whatever agreeing one they were lent. */
static void index_made_anew(void) {
    uint64_t first = dest_at(127, 0), second = dest_at(127, 1);
    make_out(100);
    make_index(NIPPITSUN_PLACES);

    /* No place is empty and none names a free slot: the new one gets its place. */
    make_table(2);
    table[0] = running_to(first);
    all_places(1);
    CHECK(opened_so(six_of(second), 0, NIPPITSUN_RULE_VECTOR, 4, 3).slot == 1 && lent_index[127] == 1 && lent_index[0] == 2);
    CHECK(slot_by_batch(first) == 0 && slot_by_batch(second) == 1);

    /* Two slots with one key, and the index names the lower alone: when that is closed the higher is found. */
    for (size_t lower = 0; lower < 3; lower++)
        for (size_t higher = lower + 1; higher < 4; higher++) {
            make_table(4);
            table[lower] = table[higher] = running_to(first);
            all_places(0);
            lent_index[127] = (uint8_t)(lower + 1);
            CHECK(slot_by_batch(first) == lower);
            CHECK(closed_so(lower) == 0 && lent_index[127] == higher + 1 && lent_index[0] == 0);
            CHECK(slot_by_batch(first) == higher);
            CHECK(opened_so(six_of(first), 0, NIPPITSUN_RULE_VECTOR, 4, 3).refusal == NIPPITSUN_REFUSED_TAKEN);
            CHECK(closed_so(higher) == 0 && slot_by_batch(first) == slots);
            CHECK(opened_so(six_of(first), 0, NIPPITSUN_RULE_VECTOR, 4, 3).slot == 0);
        }

    /* 64 streams with one own place, from the last round to the first, found after each open and after each close. */
    make_table(NIPPITSUN_SLOTS_MOST);
    all_places(0);
    for (size_t i = 0; i < slots; i++) {
        CHECK(opened_so(six_of(dest_at(127, i)), 0, NIPPITSUN_RULE_VECTOR, 4, 3).slot == i);
        CHECK(lent_index[(127 + i) % 128] == i + 1 && slot_by_batch(dest_at(127, i)) == i);
    }
    CHECK(opened_so(six_of(dest_at(127, 64)), 0, NIPPITSUN_RULE_VECTOR, 4, 3).refusal == NIPPITSUN_REFUSED_FULL);
    for (size_t i = 0; i < slots; i += 3) CHECK(closed_so(i) == 0);
    for (size_t i = 0; i < slots; i++) CHECK(slot_by_batch(dest_at(127, i)) == (i % 3 ? i : slots));
    CHECK(opened_so(six_of(dest_at(127, 64)), 0, NIPPITSUN_RULE_VECTOR, 4, 3).slot == 0 && lent_index[127] == 1);

    /* Of any table and whatever stood in the index. */
    for (size_t n = 0; n <= NIPPITSUN_SLOTS_MOST; n++) {
        make_table(n);
        for (size_t i = 0; i < n; i++) table[i].used = (uint8_t)(below(3) ? below(256) : 0);
        make_index(NIPPITSUN_PLACES);
        CHECK(rebuild() == 0 && unfit() == 0);
    }
}

/* 18 comes behind 1 and before all others, and no refusal changes a place: the index is in agreement, and is not the rebuilt one,
 * so that an index made anew would show. */
static void refused_by_index(void) {
    static const size_t not_places[] = {0, 1, 64, 127, 129, 256};
    uint64_t first = dest_at(9, 0), second = dest_at(9, 1);
    make_out(100);

    /* By the number of places, with all else wrong and with all else right. */
    for (size_t i = 0; i < sizeof not_places / sizeof *not_places; i++)
        for (size_t n = 0; n < 3; n++) {
            make_index(not_places[i]);
            all_places(0);
            make_table(n);
            CHECK(opened_so(running_dest, 65535, 9, 0, 0).refusal == NIPPITSUN_REFUSED_INDEX);
            CHECK(opened_so(running_dest, 0, 1, 4, 3).refusal == NIPPITSUN_REFUSED_INDEX);
            CHECK(closed_so(99) == NIPPITSUN_REFUSED_INDEX);
            CHECK(batched_so(2, 33, packed, 1).refusal == NIPPITSUN_REFUSED_INDEX);
            CHECK(batched_so(0, 0, NULL, 0).refusal == NIPPITSUN_REFUSED_INDEX);
            CHECK(rebuild() == NIPPITSUN_REFUSED_INDEX);
            make_table(NIPPITSUN_SLOTS_MOST + 1);
            CHECK(opened_so(running_dest, 65535, 9, 0, 0).refusal == NIPPITSUN_REFUSED_TABLE);
            CHECK(closed_so(99) == NIPPITSUN_REFUSED_TABLE && rebuild() == NIPPITSUN_REFUSED_TABLE);
            CHECK(batched_so(2, 33, packed, 1).refusal == NIPPITSUN_REFUSED_TABLE);
        }

    /* By what it holds. */
    make_index(NIPPITSUN_PLACES);
    make_table(2);
    table[0] = running_to(first);
    all_places(0);
    CHECK(opened_so(six_of(first), 65535, 9, 0, 0).refusal == NIPPITSUN_REFUSED_INDEX);
    CHECK(opened_so(six_of(first), 0, 1, 4, 3).refusal == NIPPITSUN_REFUSED_INDEX);
    CHECK(closed_so(99) == NIPPITSUN_REFUSED_INDEX && closed_so(0) == NIPPITSUN_REFUSED_INDEX);
    CHECK(batched_so(2, 33, packed, 1).refusal == NIPPITSUN_REFUSED_INDEX);
    CHECK(batched_so(0, 33, packed, 1).refusal == NIPPITSUN_REFUSED_INDEX);
    make_table(NIPPITSUN_SLOTS_MOST + 1);
    table[0] = running_to(first);
    CHECK(opened_so(six_of(first), 65535, 9, 0, 0).refusal == NIPPITSUN_REFUSED_TABLE);
    CHECK(closed_so(99) == NIPPITSUN_REFUSED_TABLE && batched_so(2, 33, packed, 1).refusal == NIPPITSUN_REFUSED_TABLE);

    /* In a table of no slots any 128 places are in agreement. */
    make_table(0);
    make_index(NIPPITSUN_PLACES);
    CHECK(opened_so(running_dest, 65535, 9, 0, 0).refusal == NIPPITSUN_REFUSED_SETTING);
    CHECK(opened_so(running_dest, 0, 1, 4, 3).refusal == NIPPITSUN_REFUSED_FULL);
    CHECK(closed_so(0) == NIPPITSUN_REFUSED_SLOT && batched_so(0, 0, NULL, 0).refusal == NIPPITSUN_REFUSED_NOT);

    /* The others of each call, which leave an index that is not the rebuilt one. */
    make_table(2);
    table[0] = running_to(first);
    table[1] = running_to(second);
    all_places(255);
    lent_index[40] = 1;
    lent_index[77] = 2;
    CHECK(unfit() == 0 && !is_rebuilt());
    CHECK(opened_so(running_dest, 0, 4, 4, 3).refusal == NIPPITSUN_REFUSED_SETTING);
    CHECK(opened_so(six_of(second), 0, 1, 4, 3).refusal == NIPPITSUN_REFUSED_TAKEN);
    CHECK(opened_so(running_dest, 0, 1, 4, 3).refusal == NIPPITSUN_REFUSED_FULL);
    CHECK(closed_so(2) == NIPPITSUN_REFUSED_SLOT && closed_so(SIZE_MAX) == NIPPITSUN_REFUSED_SLOT);
    CHECK(batched_so(2, 33, packed, 1).refusal == NIPPITSUN_REFUSED_NETWORK);
    CHECK(batched_so(0, 33, packed, 1).refusal == NIPPITSUN_REFUSED_BATCH);
    CHECK(slot_by_batch(first) == 0 && slot_by_batch(second) == 1 && !is_rebuilt());
    table[1].used = 0;
    CHECK(closed_so(1) == NIPPITSUN_REFUSED_SLOT && !is_rebuilt());
    CHECK(opened_so(six_of(second), 0, 1, 4, 3).slot == 1 && is_rebuilt());
}

/* Calls of all kinds with indexes of all kinds, each held to a look at every record. The keys are few, so that some slots have the
 * same and many the same own place. */
static void indexes_in_turn(void) {
    static const size_t most[] = {3, 16, 64};
    unsigned fit = 0, not_fit = 0, not_rebuilt = 0;
    make_index(NIPPITSUN_PLACES);
    for (size_t i = 0; i < 20000; i++) {
        make_table(below((unsigned)most[below(3)] + 1));
        make_out(200);
        unsigned in_use = 1 + below(4), keys = 1 + below(40);
        for (size_t s = 0; s < slots; s++) {
            table[s] = running_to(0x020304050000 + below(keys));
            table[s].vlan = (uint16_t)(below(2) * 5);
            table[s].rule = (uint8_t)(below(2) ? 1 : below(5));
            table[s].used = (uint8_t)(below(in_use + 1) ? 1 + below(255) : 0);
        }
        rebuild();
        for (size_t n = below(3) * below(60); n > 0; n--) {
            size_t place = below(NIPPITSUN_PLACES);
            lent_index[place] = (uint8_t)below(below(3) ? (unsigned)slots + 2 : 256);
        }
        if (unfit()) not_fit++;
        else fit++, not_rebuilt += !is_rebuilt();
        uint64_t dest = 0x020304050000 + below(keys + 2);
        switch (below(4)) {
        case 0: opened_so(six_of(dest), (uint16_t)(below(2) * 5), (uint8_t)(1 + below(3)), (uint16_t)(below(8) ? 4 : 1), 3); break;
        case 1: closed_so(below((unsigned)slots + 2)); break;
        default:
            pack_none();
            for (size_t n = below(8); n > 0; n--) {
                tagged(60, (uint16_t)(below(2) * 5), (uint16_t)(95 + below(10)));
                memcpy(frame_bytes, six_of(0x020304050000 + below(keys + 2)), 6);
                pack(frame_bytes, 60);
            }
            batched_so((uint8_t)below(2), packed_count, packed, packed_bytes);
        }
        /* What takes no index changes no agreement. */
        int agreed = agrees();
        arrive(0, tagged(60, 0, 101), 60);
        link_arrives(0, tagged(60, 0, 101), 60);
        reset(below((unsigned)slots + 1));
        ticked();
        CHECK(agrees() == agreed);
    }
    CHECK(fit > 2000 && not_fit > 2000 && not_rebuilt > 1000);
}

/* ---- virtual links (document 02, order 10) */

/* A lawful record of a virtual link to running_dest, with this last number and distinct counters. */
static nippitsun_stream link_running(uint16_t last) {
    nippitsun_stream s = running();
    s.rule = NIPPITSUN_RULE_LINK;
    s.state = (nippitsun_state){.history = {0}, .anchor = last, .remaining = 6, .early = 0, .any = 0};
    return s;
}

/* A frame of n bytes to running_dest that ends in this number. */
static const uint8_t *linked(size_t n, uint8_t number) {
    fill(frame_bytes, n, 2);
    memcpy(frame_bytes, running_dest, 6);
    frame_bytes[n - 1] = number;
    return frame_bytes;
}

/* Is the output the frame just made, without its last byte? */
static int shorter(size_t n) { return equal(out, frame_bytes, n - 1); }

/* The order's own words: is this number handed up after the last one? The steps are taken one by one: 1 follows 0 and 255. */
static int up_after(unsigned last, unsigned number) {
    if (number == 0) return last != 0;
    for (unsigned steps = 1; steps <= 127; steps++) {
        last = last == 255 ? 1 : last + 1;
        if (last == number) return 1;
    }
    return 0;
}

/* What a record must be behind an arrival of a virtual link. */
static nippitsun_stream link_after(nippitsun_stream s, uint8_t network, uint8_t number) {
    int is_up = s.state.any || up_after(s.state.anchor, number);
    if (network) s.counts.arrivals1++;
    else s.counts.arrivals0++;
    if (is_up) s.counts.passed++;
    else s.counts.discarded++;
    if (is_up) s.state = (nippitsun_state){.history = {0}, .anchor = number, .remaining = s.time, .early = 0, .any = 0};
    return s;
}

/* Both verdicts on one record, from fresh on: each changes exactly the fields that it should. */
static void links(void) {
    make_table(3);
    make_out(100);
    table[0] = distinct;
    table[1] = link_running(0);
    table[1].state = fresh;
    nippitsun_stream want = table[1];

    nippitsun_arrival_answer a = link_arrives(0, linked(60, 200), 60);
    CHECK(a.slot == 1 && a.number == 200 && a.verdict == NIPPITSUN_VERDICT_HANDED_UP && a.length == 59 && shorter(60));
    want.counts.arrivals0++;
    want.counts.passed++;
    want.state = (nippitsun_state){.history = {0}, .anchor = 200, .remaining = 9, .early = 0, .any = 0};
    CHECK(same(table[1], want) && same(table[0], distinct));

    /* The twin. */
    table[1].state.remaining = want.state.remaining = 3;
    make_out(59);
    a = link_arrives(1, linked(60, 200), 60);
    CHECK(a.slot == 1 && a.number == 200 && a.verdict == NIPPITSUN_VERDICT_DUPLICATE && out_same_from(0));
    want.counts.arrivals1++;
    want.counts.discarded++;
    CHECK(same(table[1], want));

    /* Numbers that are passed over are not noticed: nothing is lost or out of order. */
    a = link_arrives(1, linked(60, 250), 60);
    CHECK(a.verdict == NIPPITSUN_VERDICT_HANDED_UP && a.length == 59 && shorter(60));
    want.counts.arrivals1++;
    want.counts.passed++;
    want.state.anchor = 250;
    want.state.remaining = 9;
    CHECK(same(table[1], want));

    /* The shortest frame, which is a header and the number, and the longest, each into an output that just holds it. */
    make_out(14);
    a = link_arrives(0, linked(15, 251), 15);
    CHECK(a.verdict == NIPPITSUN_VERDICT_HANDED_UP && a.length == 14 && shorter(15));
    make_out(NIPPITSUN_FRAME_MOST - 1);
    a = link_arrives(0, linked(NIPPITSUN_FRAME_MOST, 252), NIPPITSUN_FRAME_MOST);
    CHECK(a.verdict == NIPPITSUN_VERDICT_HANDED_UP && a.length == 1999 && shorter(2000));
    want.counts.arrivals0 += 2;
    want.counts.passed += 2;
    want.state.anchor = 252;
    CHECK(same(table[1], want));

    /* What stands at the type field means nothing: a VLAN tag with any id, our own mark, one cut short. */
    static const unsigned types[] = {0x8100, 0xF1C1, 0x88A8, 0x88FB, 0x0800, 0};
    make_out(100);
    for (size_t i = 0; i < sizeof types / sizeof *types; i++) {
        table[1] = want = link_running(7);
        linked(60, 8);
        frame_bytes[14] = 0;
        frame_bytes[15] = 5;
        a = link_arrives(1, typed(12, types[i], frame_bytes), 60);
        CHECK(a.verdict == NIPPITSUN_VERDICT_HANDED_UP && a.number == 8 && a.length == 59 && shorter(60));
        CHECK(same(table[1], link_after(want, 1, 8)));
        linked(15, 9);
        CHECK(link_arrives(0, typed(12, types[i], frame_bytes), 15).verdict == NIPPITSUN_VERDICT_HANDED_UP && shorter(15));
    }

    /* A tick resets it as any stream, and so does a reset; L does not count. */
    for (uint16_t window = NIPPITSUN_WINDOW_LEAST; window <= NIPPITSUN_WINDOW_MOST; window += 255) {
        table[1] = want = link_running(100);
        table[1].window = want.window = window;
        for (unsigned n = 0; n < 6; n++) CHECK(ticked().resets == (n == 5));
        want.state = fresh;
        want.counts.resets++;
        CHECK(same(table[1], want));
        CHECK(link_arrives(0, linked(60, 100), 60).verdict == NIPPITSUN_VERDICT_HANDED_UP);
        CHECK(link_arrives(0, linked(60, 99), 60).verdict == NIPPITSUN_VERDICT_DUPLICATE);
        want = link_after(link_after(want, 0, 100), 0, 99);
        CHECK(same(table[1], want));
        want.state = fresh;
        want.counts.resets++;
        CHECK(reset(1) == 0 && same(table[1], want));
    }

    /* A frame and an output at odd addresses. */
    make_out(101);
    table[1] = link_running(8);
    uint8_t *f = block(61);
    copy(f + 1, linked(60, 9), 60);
    begin();
    a = nippitsun_link_arrival(table, slots, 1, f + 1, 60, out + 1, room - 1);
    CHECK(a.verdict == NIPPITSUN_VERDICT_HANDED_UP && a.length == 59 && a.number == 9);
    CHECK(equal(out + 1, f + 1, 59) && out[0] == out_before[0] && out_same_from(60));
    free(f);
}

/* Every number after every last one, and after none. */
static void link_numbers(void) {
    static const struct { int last; uint8_t number; int is_up; } cases[] = {
        {255, 1, 1}, {255, 127, 1}, {255, 128, 0}, {255, 255, 0}, {255, 254, 0}, {255, 0, 1},   {7, 0, 1},
        {0, 0, 0},   {0, 1, 1},     {0, 127, 1},   {0, 128, 0},   {0, 255, 0},   {-1, 0, 1},    {-1, 255, 1},
        {1, 1, 0},   {1, 2, 1},     {1, 128, 1},   {1, 129, 0},   {1, 255, 0},   {128, 255, 1}, {128, 1, 0},
        {129, 1, 1}, {200, 72, 1},  {200, 73, 0},  {254, 255, 1}, {254, 1, 1},   {254, 126, 1}, {254, 127, 0},
    };
    make_table(1);
    make_out(60);
    for (int last = -1; last <= 255; last++)
        for (unsigned number = 0; number <= 255; number++) {
            table[0] = link_running((uint16_t)last);
            if (last < 0) table[0].state = fresh;
            nippitsun_stream want = link_after(table[0], (uint8_t)(number & 1), (uint8_t)number);
            nippitsun_arrival_answer a = link_arrives((uint8_t)(number & 1), linked(60, (uint8_t)number), 60);
            CHECK(a.refusal == 0 && a.slot == 0 && a.number == number && same(table[0], want));
            CHECK((a.verdict == NIPPITSUN_VERDICT_HANDED_UP) == (want.counts.passed != distinct.counts.passed));
            CHECK(a.verdict == NIPPITSUN_VERDICT_HANDED_UP || a.verdict == NIPPITSUN_VERDICT_DUPLICATE);
            if (a.verdict == NIPPITSUN_VERDICT_HANDED_UP) CHECK(a.length == 59 && shorter(60));
        }
    for (size_t i = 0; i < sizeof cases / sizeof *cases; i++) {
        table[0] = link_running((uint16_t)cases[i].last);
        if (cases[i].last < 0) table[0].state = fresh;
        unsigned verdict = cases[i].is_up ? NIPPITSUN_VERDICT_HANDED_UP : NIPPITSUN_VERDICT_DUPLICATE;
        CHECK(link_arrives(0, linked(60, cases[i].number), 60).verdict == verdict);
    }

    /* A sender over its wraps and two starts, on both networks in turn: each frame is handed up once. */
    table[0].state = fresh;
    nippitsun_counts before = table[0].counts;
    for (unsigned start = 0; start < 2; start++)
        for (unsigned index = 0; index < 700; index++) {
            uint8_t number = (uint8_t)(index == 0 ? 0 : 1 + (index - 1) % 255);
            CHECK(link_arrives(index & 1, linked(60, number), 60).verdict == NIPPITSUN_VERDICT_HANDED_UP);
            CHECK(link_arrives(!(index & 1), linked(60, number), 60).verdict == NIPPITSUN_VERDICT_DUPLICATE);
        }
    before.arrivals0 += 1400;
    before.arrivals1 += 1400;
    before.passed += 1400;
    before.discarded += 1400;
    CHECK(same_counts(table[0].counts, before));
}

/* Each refusal with all the later ones wrong too. There is no 5, and 14 comes before 6. */
static void refused_links(void) {
    make_table(NIPPITSUN_SLOTS_MOST + 1);
    make_out(0);
    table[0] = link_running(1);
    CHECK(link_arrives(9, from(1, linked(2001, 2)), 2001).refusal == NIPPITSUN_REFUSED_TABLE);
    make_table(NIPPITSUN_SLOTS_MOST);
    table[63] = link_running(1);
    table[63].state.remaining = 10; /* above R */
    CHECK(link_arrives(2, from(1, linked(2001, 2)), 2001).refusal == NIPPITSUN_REFUSED_NETWORK);
    CHECK(link_arrives(255, from(1, linked(14, 2)), 14).refusal == NIPPITSUN_REFUSED_NETWORK);
    CHECK(link_arrives(1, from(1, linked(2001, 2)), 2001).refusal == NIPPITSUN_REFUSED_LONG);
    for (size_t n = 0; n < 15; n++) CHECK(link_arrives(1, from(1, untagged(n)), n).refusal == NIPPITSUN_REFUSED_SHORT);
    linked(60, 2);
    frame_bytes[0] ^= 0x80;
    CHECK(link_arrives(1, from(1, frame_bytes), 60).refusal == NIPPITSUN_REFUSED_GROUP);
    CHECK(link_arrives(1, from(2, frame_bytes), 60).refusal == NIPPITSUN_REFUSED_UNKNOWN);
    CHECK(link_arrives(1, from(1, linked(60, 2)), 60).refusal == NIPPITSUN_REFUSED_GROUP);
    CHECK(link_arrives(1, linked(60, 2), 60).refusal == NIPPITSUN_REFUSED_DAMAGED);
    table[63].state.remaining = 9;
    for (size_t n = 0; n < 59; n++) {
        make_out(n);
        CHECK(link_arrives(1, linked(60, 2), 60).refusal == NIPPITSUN_REFUSED_ROOM);
        /* For a duplicate too. */
        CHECK(link_arrives(1, linked(60, 1), 60).refusal == NIPPITSUN_REFUSED_ROOM);
    }
    make_out(59);
    nippitsun_arrival_answer a = link_arrives(1, linked(60, 2), 60);
    CHECK(a.slot == 63 && a.verdict == NIPPITSUN_VERDICT_HANDED_UP && shorter(60));

    /* Every bit of the destination is the key's, and every first byte of a source is looked at. */
    for (unsigned bit = 0; bit < 48; bit++) {
        linked(60, 3);
        frame_bytes[bit / 8] ^= (uint8_t)(1 << bit % 8);
        CHECK(link_arrives(0, frame_bytes, 60).refusal == NIPPITSUN_REFUSED_UNKNOWN);
    }
    for (unsigned first = 0; first < 256; first++) {
        table[63] = link_running(2);
        unsigned refusal = first % 2 ? NIPPITSUN_REFUSED_GROUP : NIPPITSUN_REFUSED_NOT;
        CHECK(link_arrives(0, from((uint8_t)first, linked(60, 3)), 60).refusal == refusal);
    }
    /* A group destination is a key as any other; it is what virtual links have. */
    static const uint8_t group[6] = {0x03, 0, 0, 0, 0x12, 0x34};
    make_table(1);
    CHECK(opened(group, 0, NIPPITSUN_RULE_LINK, 2, 1).refusal == 0);
    linked(60, 0);
    memcpy(frame_bytes, group, 6);
    CHECK(link_arrives(0, frame_bytes, 60).verdict == NIPPITSUN_VERDICT_HANDED_UP);
}

/* Records that are lent: which of them are lawful. */
static void link_records(void) {
    static const struct { nippitsun_state state; int lawful; } cases[] = {
        {{.history = {0}, .anchor = 0, .remaining = 1}, 1},
        {{.history = {0}, .anchor = 255, .remaining = 9}, 1},
        {{.history = {0}, .anchor = 256, .remaining = 9}, 0},
        {{.history = {0}, .anchor = 65535, .remaining = 9}, 0},
        {{.history = {0}, .anchor = 255, .remaining = 0}, 0},
        {{.history = {0}, .anchor = 255, .remaining = 10}, 0},
        {{.history = {1}, .anchor = 255, .remaining = 9}, 0},
        {{.history = {0, 0, 0, 0, 0, 0, 0, 1}, .anchor = 255, .remaining = 9}, 0},
        {{.history = {0}, .anchor = 255, .remaining = 9, .early = 1}, 0},
        {{.history = {0}, .anchor = 65535, .remaining = 0, .any = 1}, 1},
        {{.history = {0}, .anchor = 65535, .remaining = 0, .any = 256}, 1},
        {{.history = {0}, .anchor = 255, .remaining = 0, .any = 1}, 0},
        {{.history = {0}, .anchor = 65535, .remaining = 1, .any = 1}, 0},
        {{.history = {1}, .anchor = 65535, .remaining = 0, .any = 1}, 0},
    };
    make_table(2);
    make_out(60);
    for (size_t i = 0; i < sizeof cases / sizeof *cases; i++) {
        table[0] = link_running(0);
        table[0].state = cases[i].state;
        table[1] = table[0];
        table[1].used = 0;
        nippitsun_stream lent = table[0];
        CHECK(ticked().damaged == !cases[i].lawful);
        table[0] = lent;
        CHECK(link_arrives(0, linked(60, 1), 60).refusal == (cases[i].lawful ? NIPPITSUN_REFUSED_NOT : NIPPITSUN_REFUSED_DAMAGED));
        CHECK(reset(0) == 0 && same_state(table[0].state, fresh));
        CHECK(link_arrives(0, linked(60, 1), 60).verdict == NIPPITSUN_VERDICT_HANDED_UP);
    }
}

/* Each arrival looks at its own family alone, and an open at both. */
static void two_families(void) {
    make_index(NIPPITSUN_PLACES);
    make_out(200);
    for (size_t link = 0; link < 2; link++) {
        /* A stream of each family with one key, the link's first or last. */
        make_table(3);
        table[link] = link_running(100);
        table[1 - link] = running();
        nippitsun_stream plain = running(), want = link_running(100);
        for (uint8_t rule = NIPPITSUN_RULE_VECTOR; rule <= NIPPITSUN_RULE_LINK; rule++)
            CHECK(opened(running_dest, 0, rule, 4, 3).refusal == NIPPITSUN_REFUSED_TAKEN);
        linked(60, 101);
        CHECK(link_arrives(0, frame_bytes, 60).slot == link && same(table[1 - link], plain));
        want = link_after(want, 0, 101);
        CHECK(same(table[link], want));
        CHECK(arrive(0, tagged(60, 0, 101), 60).slot == 1 - link && same(table[link], want));
        /* A frame with a tag is a link's frame too, if it is given to that call: its number is its last byte. */
        CHECK(link_arrives(1, tagged(60, 0, 101), 60).number == frame_bytes[59]);
        want = link_after(want, 1, frame_bytes[59]);
        CHECK(same(table[link], want));
        pack_none();
        pack(tagged(60, 0, 102), 60);
        pack(linked(60, 102), 60);
        nippitsun_batch_answer b = batched(0);
        CHECK(b.frames == 2 && b.answers[0].slot == 1 - link && b.answers[0].verdict == NIPPITSUN_VERDICT_HANDED_UP);
        CHECK(b.answers[1].refusal == NIPPITSUN_REFUSED_UNTAGGED && same(table[link], want));

        /* Without the other stream there is none for the other call, and an open is refused all the same. */
        CHECK(closed(1 - link) == 0);
        CHECK(arrive(0, tagged(60, 0, 103), 60).refusal == NIPPITSUN_REFUSED_UNKNOWN);
        CHECK(batched(0).answers[0].refusal == NIPPITSUN_REFUSED_UNKNOWN && same(table[link], want));
        CHECK(opened(running_dest, 0, NIPPITSUN_RULE_VECTOR, 4, 3).refusal == NIPPITSUN_REFUSED_TAKEN);
        CHECK(closed(link) == 0 && link_arrives(0, linked(60, 103), 60).refusal == NIPPITSUN_REFUSED_UNKNOWN);
        CHECK(opened(running_dest, 0, NIPPITSUN_RULE_VECTOR, 4, 3).slot == 0);
        CHECK(link_arrives(0, linked(60, 103), 60).refusal == NIPPITSUN_REFUSED_UNKNOWN);
        CHECK(opened(running_dest, 0, NIPPITSUN_RULE_LINK, 4, 3).refusal == NIPPITSUN_REFUSED_TAKEN);
    }

    /* Other rules that are none, 0 and 4 too, are of the rest: damaged, and a plain arrival says so. */
    static const uint8_t none[] = {0, 4, 131, 255};
    for (size_t i = 0; i < sizeof none; i++) {
        make_table(1);
        table[0] = link_running(100);
        table[0].rule = none[i];
        CHECK(arrive(0, tagged(60, 0, 101), 60).refusal == NIPPITSUN_REFUSED_DAMAGED);
        CHECK(link_arrives(0, linked(60, 101), 60).refusal == NIPPITSUN_REFUSED_UNKNOWN);
    }

    /* Of two links with one key the lower one has the arrival, damaged or not. */
    make_table(2);
    table[0] = table[1] = link_running(100);
    CHECK(link_arrives(0, linked(60, 101), 60).slot == 0);
    table[0].window = 1;
    CHECK(link_arrives(0, linked(60, 102), 60).refusal == NIPPITSUN_REFUSED_DAMAGED);

    /* A link with a VLAN id is damaged, and no arrival hears it. */
    make_table(2);
    table[0] = link_running(100);
    table[0].vlan = 5;
    CHECK(arrive(0, tagged(60, 5, 101), 60).refusal == NIPPITSUN_REFUSED_UNKNOWN);
    CHECK(link_arrives(0, tagged(60, 5, 101), 60).refusal == NIPPITSUN_REFUSED_UNKNOWN);
    CHECK(link_arrives(0, linked(60, 101), 60).refusal == NIPPITSUN_REFUSED_UNKNOWN);
    pack_none();
    pack(tagged(60, 5, 101), 60);
    CHECK(batched(0).answers[0].refusal == NIPPITSUN_REFUSED_UNKNOWN);
    for (uint8_t rule = NIPPITSUN_RULE_VECTOR; rule <= NIPPITSUN_RULE_MATCH; rule++)
        CHECK(opened(running_dest, 5, rule, 4, 3).refusal == NIPPITSUN_REFUSED_TAKEN);
    CHECK(opened(running_dest, 5, NIPPITSUN_RULE_LINK, 4, 3).refusal == NIPPITSUN_REFUSED_SETTING);
    CHECK(ticked().damaged == 1 && reset(0) == NIPPITSUN_REFUSED_DAMAGED);
    CHECK(closed(0) == 0 && opened(running_dest, 5, NIPPITSUN_RULE_VECTOR, 4, 3).slot == 0);
}

/* Following is asked for twice of a key, among the links and among the rest, from one place. */
static void families_indexed(void) {
    uint64_t first = dest_at(127, 0), second = dest_at(127, 1);
    make_out(100);
    make_index(NIPPITSUN_PLACES);
    for (size_t link = 0; link < 2; link++) {
        make_table(4);
        table[link] = link_running(100);
        table[link].dest = first;
        table[1 - link] = running_to(first);
        /* Both are named, in any order; a rebuild names both. */
        all_places(0);
        lent_index[127] = 2;
        lent_index[0] = 1;
        taken_or_refused(1);
        CHECK(slot_by_batch(first) == 1 - link);
        CHECK(rebuild() == 0 && lent_index[127] == 1 && lent_index[0] == 2);
        taken_or_refused(1);
        CHECK(slot_by_batch(first) == 1 - link && slot_by_batch(second) == slots);
        /* One alone is not enough, whichever it is. */
        for (uint8_t name = 1; name <= 2; name++) {
            all_places(0);
            lent_index[127] = name;
            taken_or_refused(0);
        }
        /* In one family the lower is enough. */
        table[link].rule = NIPPITSUN_RULE_VECTOR;
        all_places(0);
        lent_index[127] = 1;
        taken_or_refused(1);
        CHECK(slot_by_batch(first) == 0);
        table[0].rule = table[1].rule = NIPPITSUN_RULE_LINK;
        taken_or_refused(1);
        CHECK(slot_by_batch(first) == slots);
    }

    /* Where `rule` alone is written to, an index that a call has made stays good. */
    for (unsigned i = 0; i < 500; i++) {
        make_table(8);
        for (size_t s = 0; s < slots; s++) table[s] = running_to(below(2) ? first : second);
        for (size_t s = 0; s < slots; s++) table[s].used = (uint8_t)below(3);
        rebuild();
        for (size_t s = 0; s < slots; s++) table[s].rule = (uint8_t)below(5);
        CHECK(unfit() == 0);
        closed_so(below(8));
    }
}

/* Calls of all kinds in turn, on tables that hold both families. */
static void families_in_turn(void) {
    unsigned up = 0, again = 0, unknown = 0;
    make_index(NIPPITSUN_PLACES);
    for (unsigned i = 0; i < 4000; i++) {
        make_table(below(12));
        make_out(50 + below(20));
        for (size_t s = 0; s < slots; s++) {
            table[s] = below(2) ? link_running((uint16_t)below(below(8) ? 256 : 300)) : running();
            table[s].dest += below(3);
            table[s].used = (uint8_t)below(3);
            if (below(6) == 0) table[s].state = fresh;
            if (below(12) == 0) table[s].vlan = 5;
        }
        for (unsigned n = 0; n < 20; n++) {
            uint8_t network = (uint8_t)below(2), number = (uint8_t)below(256);
            linked(50 + below(20), number);
            size_t bytes = 50 + below(20);
            frame_bytes[5] = (uint8_t)(frame_bytes[5] + below(4));
            frame_bytes[bytes - 1] = number;
            uint64_t dest = 0x020304050600 + frame_bytes[5];
            size_t slot = searched(dest, 0, LINKS);
            nippitsun_stream was = slot < slots ? table[slot] : distinct;
            nippitsun_arrival_answer a = link_arrives(network, frame_bytes, bytes);
            if (slot == slots) {
                unknown++;
                CHECK(a.refusal == NIPPITSUN_REFUSED_UNKNOWN);
                continue;
            }
            int is_lawful = was.state.any || was.state.anchor <= 255;
            CHECK(a.refusal == (!is_lawful         ? NIPPITSUN_REFUSED_DAMAGED
                                : room < bytes - 1 ? NIPPITSUN_REFUSED_ROOM
                                                   : NIPPITSUN_REFUSED_NOT));
            if (a.refusal) continue;
            nippitsun_stream want = link_after(was, network, number);
            int is_up = want.counts.passed != was.counts.passed;
            CHECK(a.slot == slot && a.number == number && same(table[slot], want));
            CHECK(a.verdict == (is_up ? NIPPITSUN_VERDICT_HANDED_UP : NIPPITSUN_VERDICT_DUPLICATE));
            if (is_up) CHECK(a.length == bytes - 1 && shorter(bytes));
            up += (unsigned)is_up;
            again += (unsigned)!is_up;
        }
    }
    CHECK(up > 1000 && again > 1000 && unknown > 1000);
}

/* ---- priorities (document 02, order 11) */

/* A number with each verdict of running(), and the record behind its arrival on network 0. */
static const uint16_t number_for[] = {[NIPPITSUN_VERDICT_HANDED_UP] = 101, [NIPPITSUN_VERDICT_DUPLICATE] = 100,
                                      [NIPPITSUN_VERDICT_ROGUE] = 110};

static nippitsun_stream decided(uint8_t verdict, nippitsun_stream s) {
    s.counts.arrivals0++;
    if (verdict == NIPPITSUN_VERDICT_DUPLICATE) s.counts.discarded++;
    if (verdict == NIPPITSUN_VERDICT_ROGUE) s.counts.rogue++;
    if (verdict != NIPPITSUN_VERDICT_HANDED_UP) return s;
    s.counts.passed++;
    s.counts.lost++;
    s.state = (nippitsun_state){.history = {11}, .anchor = 101, .remaining = 9, .early = 0, .any = 0};
    return s;
}

static int tells(nippitsun_arrival_answer a, unsigned priority, unsigned vlantag) {
    return a.priority == priority && a.vlantag == vlantag;
}

/* A frame of n bytes with a VLAN tag of these two bytes: priority, one bit more, VLAN id. */
static const uint8_t *in_vlan(size_t n, unsigned control, uint16_t number) { return typed(14, control, tagged(n, 1, number)); }

/* Every value of a VLAN tag with every verdict. Output and record are what they would be with any other priority. */
static void priorities(void) {
    for (unsigned control = 0; control <= 65535; control++) {
        nippitsun_arrival_answer a;
        for (uint8_t verdict = NIPPITSUN_VERDICT_HANDED_UP; verdict <= NIPPITSUN_VERDICT_ROGUE; verdict++) {
            one_running(60);
            table[0].vlan = control % 4096;
            nippitsun_stream want = decided(verdict, table[0]);
            a = arrive(0, in_vlan(60, control, number_for[verdict]), 60);
            if (want.vlan > NIPPITSUN_VLAN_MOST) {
                CHECK(a.refusal == NIPPITSUN_REFUSED_DAMAGED && tells(a, 0, 0));
                continue;
            }
            CHECK(a.refusal == 0 && a.slot == 0 && a.number == number_for[verdict] && a.verdict == verdict);
            CHECK(tells(a, control / 8192, 1) && same(table[0], want));
            if (verdict == NIPPITSUN_VERDICT_HANDED_UP) CHECK(a.length == 54 && without(60, 16));
        }

        /* Where F1C1 stands at 12 there is none, though what is handed up begins with one. */
        one_running(60);
        a = arrive(0, typed(20, control, typed(18, 0x8100, tagged(60, 0, 101))), 60);
        CHECK(a.verdict == NIPPITSUN_VERDICT_HANDED_UP && tells(a, 0, 0) && without(60, 12) && out[12] == 0x81 && out[13] == 0x00);
        CHECK(same(table[0], decided(a.verdict, running())));
        /* Of two the first counts. */
        unsigned first = control * 5 & 0xF000;
        one_running(60);
        a = arrive(0, typed(24, control, typed(22, 0x8100, in_vlan(60, first, 101))), 60);
        CHECK(a.verdict == NIPPITSUN_VERDICT_HANDED_UP && tells(a, first / 8192, 1) && without(60, 16));
    }

    /* Frames of every length. */
    for (size_t n = 0; n <= NIPPITSUN_FRAME_MOST + 1; n++) {
        unsigned control = (unsigned)n % 16 << 12;
        one_running(NIPPITSUN_UNTAGGED_MOST);
        nippitsun_arrival_answer a = arrive(0, in_vlan(n, control, 101), n);
        if (n < 24 || n > NIPPITSUN_FRAME_MOST) CHECK(a.refusal != 0 && tells(a, 0, 0));
        else CHECK(a.verdict == NIPPITSUN_VERDICT_HANDED_UP && tells(a, control / 8192, 1) && without(n, 16));
    }

    /* A tag that says 0 is one, and with VLAN id 0 it has the key of none: two copies may differ. The bit below is no priority. */
    static const struct { unsigned control, priority; } with_id_0[] = {{0x0000, 0}, {0x1000, 0}, {0xA000, 5}, {0xB000, 5}, {0xF000, 7}};
    for (size_t i = 0; i < sizeof with_id_0 / sizeof *with_id_0; i++)
        for (uint16_t number = 101; number < 111; number++) {
            if (number == 101) one_running(60);
            nippitsun_arrival_answer a[2];
            for (unsigned n = 0; n < 2; n++) {
                unsigned bare = (n + number) % 2;
                const uint8_t *frame = bare ? tagged(60, 0, number) : in_vlan(60, with_id_0[i].control, number);
                a[n] = arrive((uint8_t)bare, frame, 60);
                CHECK(bare ? tells(a[n], 0, 0) : tells(a[n], with_id_0[i].priority, 1));
            }
            CHECK(a[0].verdict == NIPPITSUN_VERDICT_HANDED_UP && a[1].verdict == NIPPITSUN_VERDICT_DUPLICATE);
        }
}

/* Each refusal of a frame whose tag says 7, behind one that was taken. */
static void refused_priorities(void) {
    static const uint8_t why[] = {1, 2, 3, 4, 5, 14, 6, 7, 8, 8};
    for (unsigned i = 0; i < sizeof why; i++) {
        one_running(100);
        table[0].vlan = 5;
        CHECK(tells(arrive(0, in_vlan(60, 0xE005, 101), 60), 7, 1));
        in_vlan(2001, i == 6 ? 0xE006 : 0xE005, i == 9 ? 101 : 102);
        if (i == 0) make_table(NIPPITSUN_SLOTS_MOST + 1);
        if (i == 4) typed(16, 0x0800, frame_bytes);
        if (i == 5) from(1, frame_bytes);
        if (i == 7) table[0].window = 1;
        if (i >= 8) make_out(53);
        nippitsun_arrival_answer a = arrive(i == 1 ? 2 : 0, frame_bytes, i == 2 ? 2001 : i == 3 ? 23 : 60);
        CHECK(a.refusal == why[i] && tells(a, 0, 0));
    }
    /* What stands at 12 is 8100 or no VLAN tag, and one behind another is no type field. */
    static const unsigned types[] = {0x88A8, 0x9100, 0x8101, 0x8000, 0x0081, 0x0100, 0};
    one_running(100);
    for (size_t i = 0; i < sizeof types / sizeof *types; i++)
        CHECK(arrive(0, typed(12, types[i], in_vlan(60, 0xE000, 101)), 60).refusal == NIPPITSUN_REFUSED_UNTAGGED);
    CHECK(arrive(0, typed(16, 0x8100, in_vlan(60, 0xE000, 101)), 60).refusal == NIPPITSUN_REFUSED_UNTAGGED);
}

/* Every priority in its place of a batch, frames without a VLAN tag and refused ones between, and all verdicts. */
static void batched_priorities(void) {
    static const struct { int control; uint16_t number; uint8_t verdict, refusal; } cases[] = {
        {-1, 101, 1, 0},     {0x0000, 102, 1, 0}, {0xF000, 102, 2, 0}, {0x3000, 103, 1, 0}, {-1, 103, 2, 0},     {0x4000, 104, 1, 0},
        {0xE006, 105, 0, 6}, {0x7000, 105, 1, 0}, {0x8000, 106, 1, 0}, {-1, 107, 1, 0},     {0xA000, 500, 3, 0}, {-1, 500, 3, 0},
        {0xBFFF, 108, 0, 6}, {0xB000, 108, 1, 0}, {0xC000, 108, 2, 0}, {0xD000, 109, 1, 0}, {0xE000, 110, 1, 0}, {0x0000, 110, 2, 0},
        {0xF000, 111, 1, 0}, {-1, 112, 1, 0},     {0x2000, 113, 1, 0},
    };
    enum { count = sizeof cases / sizeof *cases };
    size_t last = count, ends = 0;
    for (size_t bytes = 1000; bytes-- > 0;) {
        /* 32 of priority 7 before each, so that nothing of them may stay. */
        one_running(NIPPITSUN_FRAMES_MOST * 60);
        pack_none();
        for (uint16_t i = 0; i < NIPPITSUN_FRAMES_MOST; i++) pack(in_vlan(60, 0xE000, (uint16_t)(101 + i)), 60);
        nippitsun_batch_answer b = batched(0);
        for (size_t i = 0; i < NIPPITSUN_FRAMES_MOST; i++) CHECK(b.answers[i].verdict == 1 && tells(b.answers[i], 7, 1));

        one_running(bytes);
        pack_none();
        for (size_t i = 0; i < count; i++) {
            int control = cases[i].control;
            pack(control < 0 ? tagged(60, 0, cases[i].number) : in_vlan(60, (unsigned)control, cases[i].number), 60);
        }
        b = batched(0);
        CHECK(b.refusal == 0 && unreached_from(&b, b.frames + 1));
        for (size_t i = 0; i < b.frames; i++) {
            CHECK(b.answers[i].verdict == cases[i].verdict && b.answers[i].refusal == cases[i].refusal);
            if (cases[i].refusal || cases[i].control < 0) CHECK(tells(b.answers[i], 0, 0));
            else CHECK(tells(b.answers[i], (unsigned)cases[i].control / 8192, 1));
        }
        /* 8 ends it before each frame that is decided: nothing is told of that one. */
        if (b.frames < count) CHECK(b.answers[b.frames].refusal == NIPPITSUN_REFUSED_ROOM && tells(b.answers[b.frames], 0, 0));
        ends += b.frames < last;
        last = b.frames;

        /* A call that is refused tells nothing of any. */
        if (bytes % 100) continue;
        b = batched(2);
        CHECK(b.refusal == NIPPITSUN_REFUSED_NETWORK && unreached_from(&b, 0));
        b = batched_from(0, count, packed, packed_bytes - 1);
        CHECK(b.refusal == NIPPITSUN_REFUSED_BATCH && unreached_from(&b, 0));
        all_places(0);
        b = batched_so(0, count, packed, packed_bytes);
        CHECK(b.refusal == NIPPITSUN_REFUSED_INDEX && unreached_from(&b, 0));
    }
    CHECK(last == 0 && ends > 12);
}

/* A virtual link's arrival reads no VLAN tag, whatever stands there. */
static void link_priorities(void) {
    for (unsigned control = 0; control <= 65535; control += 17) {
        one_running(60);
        CHECK(arrive(0, in_vlan(60, 0xE000, 101), 60).priority == 7);
        table[0] = link_running(7);
        for (uint8_t verdict = NIPPITSUN_VERDICT_HANDED_UP; verdict <= NIPPITSUN_VERDICT_DUPLICATE; verdict++) {
            nippitsun_arrival_answer a = link_arrives(0, typed(14, control, typed(12, 0x8100, linked(60, 8))), 60);
            CHECK(a.verdict == verdict && tells(a, 0, 0));
        }
        make_out(58);
        CHECK(link_arrives(0, frame_bytes, 60).refusal == NIPPITSUN_REFUSED_ROOM);
    }
}

/* ---- the sending side (document 02, order 6) */

/* Is the output the frame with a tag of this number at this place, and does the twin begin as it does? */
static int with_tag(size_t n, size_t at, uint16_t number) {
    const uint8_t tag[6] = {0xF1, 0xC1, 0, 0, (uint8_t)(number >> 8), (uint8_t)number};
    return equal(out, frame_bytes, at) && equal(out + at, tag, 6) && equal(out + at + 6, frame_bytes + at, n - at)
        && equal(twin, out, n + 6);
}

/* What is sent: every byte of both outputs, the number and the length. */
static void sends(void) {
    make_table(0);
    make_sender();
    CHECK(sender->next == 0);
    make_outs(100, 70);
    nippitsun_tag_answer a = sent(untagged(60), 60);
    CHECK(a.refusal == 0 && a.number == 0 && a.length == 66 && with_tag(60, 12, 0) && sender->next == 1);
    a = sent(untagged(61), 61);
    CHECK(a.refusal == 0 && a.number == 1 && a.length == 67 && with_tag(61, 12, 1) && sender->next == 2);

    /* Behind a VLAN tag, whatever type follows it. The number has its high byte first. */
    sender->next = 0xABCD;
    a = sent(typed(12, 0x8100, untagged(60)), 60);
    CHECK(a.number == 0xABCD && a.length == 66 && with_tag(60, 16, 0xABCD) && sender->next == 0xABCE);
    a = sent(typed(16, 0x8100, typed(12, 0x8100, untagged(60))), 60);
    CHECK(a.number == 0xABCE && with_tag(60, 16, 0xABCE));
    /* F1C1 that is not at the type field is no tag. */
    a = sent(typed(16, 0xF1C1, untagged(60)), 60);
    CHECK(a.number == 0xABCF && with_tag(60, 12, 0xABCF));
    a = sent(typed(20, 0xF1C1, typed(12, 0x8100, untagged(60))), 60);
    CHECK(a.number == 0xABD0 && with_tag(60, 16, 0xABD0));

    /* The number is 0 again after 65535. */
    sender->next = 65535;
    a = sent(untagged(60), 60);
    CHECK(a.number == 65535 && with_tag(60, 12, 65535) && sender->next == 0);
    a = sent(untagged(60), 60);
    CHECK(a.number == 0 && with_tag(60, 12, 0) && sender->next == 1);

    /* A reset, whatever the next number is, and also where it is 0. */
    static const uint16_t next[] = {1, 2, 255, 256, 0x8000, 65535, 0};
    for (size_t i = 0; i < sizeof next / sizeof *next; i++) {
        sender->next = next[i];
        sender_reset();
        CHECK(sent(untagged(60), 60).number == 0 && with_tag(60, 12, 0));
    }

    /* The longest and the shortest frames, into outputs that just hold them. */
    make_outs(NIPPITSUN_FRAME_MOST, NIPPITSUN_FRAME_MOST);
    a = sent(untagged(NIPPITSUN_UNTAGGED_MOST), NIPPITSUN_UNTAGGED_MOST);
    CHECK(a.refusal == 0 && a.number == 1 && a.length == 2000 && with_tag(1994, 12, 1));
    make_outs(20, 20);
    a = sent(untagged(14), 14);
    CHECK(a.refusal == 0 && a.number == 2 && a.length == 20 && with_tag(14, 12, 2));
    make_outs(24, 24);
    a = sent(typed(12, 0x8100, untagged(18)), 18);
    CHECK(a.refusal == 0 && a.number == 3 && a.length == 24 && with_tag(18, 16, 3));

    /* Frame and outputs in one block, at odd addresses: the bytes around them keep their values too. */
    make_outs(300, 300);
    copy(out + 51, untagged(60), 60);
    copy(twin, out, 300);
    a = nippitsun_send(sender, out + 51, 60, out + 115, 67, out + 187, 68);
    CHECK(a.refusal == 0 && a.number == 4 && a.length == 66 && sender->next == 5);
    CHECK(nippitsun_write_tag(frame_bytes, 60, 4, twin + 115, 67).length == 66);
    CHECK(nippitsun_write_tag(frame_bytes, 60, 4, twin + 187, 68).length == 66);
    CHECK(equal(out, twin, 300));
}

/* Refusals 3, 4, 13, 14, 8. What sent() checks of each: no output byte has changed, and no number is used up. */
static void refused_sends(void) {
    make_table(0);
    make_sender();
    sender->next = 77;

    /* Each with all the later ones wrong too, whichever output is too small. */
    static const size_t small[][2] = {{0, 0}, {0, 2000}, {2000, 0}, {1, 65}, {65, 66}, {66, 65}};
    for (size_t i = 0; i < sizeof small / sizeof *small; i++) {
        make_outs(small[i][0], small[i][1]);
        CHECK(sent(from(1, tagged(2100, 0, 1)), 2100).refusal == NIPPITSUN_REFUSED_LONG);
        CHECK(sent(from(1, tagged(1995, 0, 1)), 1995).refusal == NIPPITSUN_REFUSED_LONG);
        CHECK(sent(from(1, tagged(1995, 5, 1)), 1995).refusal == NIPPITSUN_REFUSED_LONG);
        CHECK(sent(from(1, tagged(13, 0, 1)), 13).refusal == NIPPITSUN_REFUSED_SHORT);
        CHECK(sent(from(1, tagged(17, 5, 1)), 17).refusal == NIPPITSUN_REFUSED_SHORT);
        CHECK(sent(from(1, tagged(14, 0, 1)), 14).refusal == NIPPITSUN_REFUSED_TAGGED);
        CHECK(sent(from(1, tagged(18, 5, 1)), 18).refusal == NIPPITSUN_REFUSED_TAGGED);
        CHECK(sent(from(1, tagged(1994, 0, 1)), 1994).refusal == NIPPITSUN_REFUSED_TAGGED);
        CHECK(sent(from(1, untagged(60)), 60).refusal == NIPPITSUN_REFUSED_GROUP);
        CHECK(sent(from(0xFF, typed(12, 0x8100, untagged(60))), 60).refusal == NIPPITSUN_REFUSED_GROUP);
        CHECK(sent(untagged(60), 60).refusal == NIPPITSUN_REFUSED_ROOM);
        CHECK(sent(typed(12, 0x8100, untagged(60)), 60).refusal == NIPPITSUN_REFUSED_ROOM);
        CHECK(sender->next == 77);
    }

    /* So they are with room. The rules of 14 and of 18 bytes: a frame behind a VLAN tag has its type at 16. */
    make_outs(NIPPITSUN_FRAME_MOST, NIPPITSUN_FRAME_MOST + 1);
    CHECK(sent(untagged(1995), 1995).refusal == NIPPITSUN_REFUSED_LONG);
    CHECK(sent(tagged(60, 0, 1), 60).refusal == NIPPITSUN_REFUSED_TAGGED);
    CHECK(sent(tagged(60, 5, 1), 60).refusal == NIPPITSUN_REFUSED_TAGGED);
    CHECK(sent(from(1, untagged(60)), 60).refusal == NIPPITSUN_REFUSED_GROUP);
    CHECK(sender->next == 77);
    for (size_t n = 0; n < 20; n++) {
        CHECK(sent(untagged(n), n).refusal == (n < 14 ? NIPPITSUN_REFUSED_SHORT : NIPPITSUN_REFUSED_NOT));
        CHECK(sent(typed(12, 0x8100, untagged(n)), n).refusal == (n < 18 ? NIPPITSUN_REFUSED_SHORT : NIPPITSUN_REFUSED_NOT));
    }
    CHECK(sender->next == 77 + 6 + 2);

    /* Room for the frame and six bytes more, in both. */
    static const size_t sizes[] = {14, 60, 300, 1994};
    static const size_t rooms[] = {0, 1, 5, 6, 7, 50};
    for (size_t i = 0; i < sizeof sizes / sizeof *sizes; i++)
        for (size_t j = 0; j < 36; j++) {
            size_t n = sizes[i], more = rooms[j % 6], twin_more = rooms[j / 6];
            make_outs(n + more, n + twin_more);
            int fits = more >= NIPPITSUN_TAG_LENGTH && twin_more >= NIPPITSUN_TAG_LENGTH;
            CHECK(sent(untagged(n), n).refusal == (fits ? NIPPITSUN_REFUSED_NOT : NIPPITSUN_REFUSED_ROOM));
        }

    /* Refused frames between two that are sent. */
    make_sender();
    make_outs(100, 66);
    CHECK(sent(untagged(60), 60).number == 0);
    CHECK(sent(untagged(1995), 1995).refusal == NIPPITSUN_REFUSED_LONG);
    CHECK(sent(untagged(13), 13).refusal == NIPPITSUN_REFUSED_SHORT);
    CHECK(sent(tagged(60, 0, 1), 60).refusal == NIPPITSUN_REFUSED_TAGGED);
    CHECK(sent(from(1, untagged(60)), 60).refusal == NIPPITSUN_REFUSED_GROUP);
    CHECK(sent(untagged(61), 61).refusal == NIPPITSUN_REFUSED_ROOM);
    nippitsun_tag_answer a = sent(untagged(60), 60);
    CHECK(a.refusal == 0 && a.number == 1 && with_tag(60, 12, 1));
    /* At the wrap too. */
    sender->next = 65535;
    CHECK(sent(untagged(61), 61).refusal == NIPPITSUN_REFUSED_ROOM);
    CHECK(sent(untagged(60), 60).number == 65535);
    CHECK(sent(untagged(61), 61).refusal == NIPPITSUN_REFUSED_ROOM);
    CHECK(sent(untagged(60), 60).number == 0);
}

/* Sends of all kinds, each held to the tag writer by sent(). Without a reset a frame carries how many were sent before it,
 * modulo 65536. */
static void sends_in_turn(void) {
    static const size_t lengths[] = {0, 13, 14, 17, 18, 60, 300, 1994, 1995};
    unsigned refusals = 0, index = 0;
    make_table(0);
    make_sender();
    for (size_t i = 0; i < 3000; i++) {
        size_t n = lengths[below(9)];
        make_outs(n + 4 + below(40), n + 4 + below(40));
        untagged(n);
        if (below(3) == 0) typed(12, 0x8100, frame_bytes);
        if (below(8) == 0) typed(below(2) ? 12 : 16, 0xF1C1, frame_bytes);
        if (below(8) == 0) from(1, frame_bytes);
        nippitsun_tag_answer a = sent(frame_bytes, n);
        if (a.refusal) refusals++;
        else CHECK(a.number == index++);
    }
    CHECK(refusals > 300 && index > 300);
    make_outs(20, 20);
    for (; index < 2 * 65536 + 2; index++) CHECK(sent(untagged(14), 14).number == index % 65536);
    CHECK(sender->next == 2);
    sender_reset();
    CHECK(sent(untagged(14), 14).number == 0);
}

/* What is sent is taken apart again, and a receiver hands each up once, from the network where it comes first. */
static void sent_and_received(void) {
    enum { n = 60 };
    uint8_t on_network[2][n + NIPPITSUN_TAG_LENGTH];
    make_table(1);
    make_sender();
    make_outs(100, 90);
    CHECK(opened(untagged(n), 0, NIPPITSUN_RULE_VECTOR, 4, 3).refusal == 0);
    sender->next = 65000;
    for (unsigned i = 0; i < 1000; i++) {
        uint16_t number = (uint16_t)(65000 + i);
        nippitsun_tag_answer a = sent(untagged(n), n);
        CHECK(a.number == number);
        copy(on_network[0], out, a.length);
        copy(on_network[1], twin, a.length);
        nippitsun_tag_answer t = taken(on_network[i % 2], a.length);
        CHECK(t.refusal == 0 && t.number == number && t.length == n && equal(out, frame_bytes, n));
        nippitsun_arrival_answer u = arrive(i % 2, on_network[i % 2], a.length);
        CHECK(u.verdict == NIPPITSUN_VERDICT_HANDED_UP && u.number == number && u.length == n && equal(out, frame_bytes, n));
        u = arrive(1 - i % 2, on_network[1 - i % 2], a.length);
        CHECK(u.verdict == NIPPITSUN_VERDICT_DUPLICATE && u.number == number);
    }
    nippitsun_counts counts = table[0].counts;
    CHECK(counts.passed == 1000 && counts.discarded == 1000 && counts.rogue == 0 && counts.disorder == 0 && counts.lost == 0);

    /* The stream stands at 463. A sender that is reset is a rogue to it, until R ticks have passed with nothing handed up. */
    sender_reset();
    nippitsun_tag_answer a = sent(untagged(n), n);
    copy(on_network[0], out, a.length);
    CHECK(a.number == 0 && arrive(0, on_network[0], a.length).verdict == NIPPITSUN_VERDICT_ROGUE);
    CHECK(ticked().resets == 0 && ticked().resets == 0 && ticked().resets == 1);
    CHECK(arrive(0, on_network[0], a.length).verdict == NIPPITSUN_VERDICT_HANDED_UP);
}

/* ---- PRP lines (document 02, order 7) */

static const uint8_t kinds[2] = {NIPPITSUN_PRP_FIRST, NIPPITSUN_PRP_2012};

/* The frame just made, of n bytes, with a trailer behind it. */
static const uint8_t *line_of(uint8_t kind, unsigned lan, uint16_t number, size_t n, const uint8_t *made) {
    write_trailer(frame_bytes, n + width_of(kind), kind, lan, number);
    return made;
}

/* The same frame byte by byte: as it is on each line, and with its tag. */
static void turns(void) {
    static const uint8_t head[12] = {2, 3, 4, 5, 6, 7, 2, 9, 9, 9, 9, 1}, vlan[4] = {0x81, 0x00, 0xA1, 0x23};
    static const uint8_t rest[5] = {0x08, 0x00, 0xC1, 0xC2, 0xC3}, tag[6] = {0xF1, 0xC1, 0, 0, 0xAB, 0xCD};
    static const uint8_t first[4] = {0xAB, 0xCD, 0xA0, 7}, of_2012[6] = {0xAB, 0xCD, 0xA0, 9, 0x88, 0xFB};
    make_table(1);
    for (unsigned i = 0; i < 8; i++) {
        uint8_t kind = kinds[i & 1], network = (uint8_t)(i >> 1 & 1), line[40], with_tag[40];
        size_t width = width_of(kind), at = i & 4 ? 16 : 12, line_bytes = at + 5 + width, with_tag_bytes = at + 11;
        copy(line, head, 12);
        copy(line + 12, vlan, at - 12);
        copy(with_tag, line, at);
        copy(line + at, rest, 5);
        copy(line + at + 5, kind == NIPPITSUN_PRP_FIRST ? first : of_2012, width);
        if (network) line[at + 7] = 0xB0;
        copy(with_tag + at, tag, 6);
        copy(with_tag + at + 6, rest, 5);

        make_outs(50, 9);
        nippitsun_prp_answer a = from_line(line, line_bytes, kind);
        CHECK(a.refusal == 0 && a.network == network && a.number == 0xABCD && a.length == with_tag_bytes);
        CHECK(equal(out, with_tag, with_tag_bytes));
        a = to_line(with_tag, with_tag_bytes, network, kind);
        CHECK(a.refusal == 0 && a.network == network && a.number == 0xABCD && a.length == line_bytes);
        CHECK(equal(out, line, line_bytes));
        /* The reserved bytes of a tag are not on the line. */
        with_tag[at + 2] = 0xEE;
        with_tag[at + 3] = 0xDD;
        a = to_line(with_tag, with_tag_bytes, network, kind);
        CHECK(a.refusal == 0 && equal(out, line, line_bytes));
    }

    /* Frame and output in one block, at odd addresses: the bytes around them keep their values too. */
    for (unsigned i = 0; i < 2; i++) {
        size_t width = width_of(kinds[i]), n = 60 + width;
        make_outs(200, 200);
        copy(out + 51, line_of(kinds[i], 0xB, 7, 60, untagged(60)), n);
        copy(twin, out, 200);
        nippitsun_prp_answer a = nippitsun_from_prp(out + 51, n, kinds[i], out + 51 + n, 66);
        CHECK(a.refusal == 0 && a.network == 1 && a.number == 7 && a.length == 66);
        CHECK(nippitsun_write_tag(frame_bytes, 60, 7, twin + 51 + n, 66).length == 66 && equal(out, twin, 200));
        fill(out + 51, n, 99);
        a = nippitsun_to_prp(out + 51 + n, 66, 1, kinds[i], out + 51, n);
        CHECK(a.refusal == 0 && a.length == n && equal(out, twin, 200));
    }
}

/* From PRP: 3, 4, 13, 16, 8. To PRP: 2, 3, 4, 5, 4 again, 8. Each with all the later ones wrong too, and then with room. */
static void refused_turns(void) {
    make_table(0);
    for (unsigned i = 0; i < 2; i++) {
        uint8_t kind = kinds[i];
        size_t width = width_of(kind), most = 1994 + width;
        static const size_t rooms[] = {0, 1, 17, NIPPITSUN_FRAME_MOST + 100};
        for (size_t j = 0; j < sizeof rooms / sizeof *rooms; j++) {
            make_outs(rooms[j], 9);
            uint8_t room_refusal = room < 100 ? NIPPITSUN_REFUSED_ROOM : NIPPITSUN_REFUSED_NOT;
            CHECK(from_line(tagged(2100, 0, 1), 2100, kind).refusal == NIPPITSUN_REFUSED_LONG);
            CHECK(from_line(tagged(most + 1, 0, 1), most + 1, kind).refusal == NIPPITSUN_REFUSED_LONG);
            CHECK(from_line(tagged(most + 1, 5, 1), most + 1, kind).refusal == NIPPITSUN_REFUSED_LONG);
            CHECK(from_line(tagged(13 + width, 0, 1), 13 + width, kind).refusal == NIPPITSUN_REFUSED_SHORT);
            CHECK(from_line(tagged(17 + width, 5, 1), 17 + width, kind).refusal == NIPPITSUN_REFUSED_SHORT);
            CHECK(from_line(tagged(14 + width, 0, 1), 14 + width, kind).refusal == NIPPITSUN_REFUSED_TAGGED);
            CHECK(from_line(tagged(18 + width, 5, 1), 18 + width, kind).refusal == NIPPITSUN_REFUSED_TAGGED);
            CHECK(from_line(tagged(most, 0, 1), most, kind).refusal == NIPPITSUN_REFUSED_TAGGED);
            CHECK(from_line(line_of(kind, 0xA, 7, 60, tagged(60, 5, 1)), 60 + width, kind).refusal == NIPPITSUN_REFUSED_TAGGED);
            CHECK(from_line(untagged(60), 60, kind).refusal == NIPPITSUN_REFUSED_TRAILER);
            CHECK(from_line(typed(12, 0x8100, untagged(60)), 60, kind).refusal == NIPPITSUN_REFUSED_TRAILER);
            CHECK(from_line(untagged(most), most, kind).refusal == NIPPITSUN_REFUSED_TRAILER);
            CHECK(from_line(line_of(kind, 0xB, 7, 60, untagged(60)), 60 + width, kind).refusal == room_refusal);
            CHECK(from_line(line_of(kind, 0xA, 7, 60, typed(12, 0x8100, untagged(60))), 60 + width, kind).refusal == room_refusal);

            CHECK(to_line(untagged(2001), 2001, 2, kind).refusal == NIPPITSUN_REFUSED_NETWORK);
            CHECK(to_line(untagged(3), 3, 255, kind).refusal == NIPPITSUN_REFUSED_NETWORK);
            CHECK(to_line(untagged(2001), 2001, 0, kind).refusal == NIPPITSUN_REFUSED_LONG);
            CHECK(to_line(tagged(2001, 5, 1), 2001, 1, kind).refusal == NIPPITSUN_REFUSED_LONG);
            CHECK(to_line(untagged(13), 13, 0, kind).refusal == NIPPITSUN_REFUSED_SHORT);
            CHECK(to_line(typed(12, 0x8100, untagged(17)), 17, 1, kind).refusal == NIPPITSUN_REFUSED_SHORT);
            CHECK(to_line(untagged(14), 14, 0, kind).refusal == NIPPITSUN_REFUSED_UNTAGGED);
            CHECK(to_line(untagged(19), 19, 1, kind).refusal == NIPPITSUN_REFUSED_UNTAGGED);
            CHECK(to_line(typed(12, 0x8100, untagged(23)), 23, 0, kind).refusal == NIPPITSUN_REFUSED_UNTAGGED);
            CHECK(to_line(untagged(60), 60, 1, kind).refusal == NIPPITSUN_REFUSED_UNTAGGED);
            CHECK(to_line(tagged(19, 0, 1), 19, 0, kind).refusal == NIPPITSUN_REFUSED_SHORT);
            CHECK(to_line(tagged(23, 5, 1), 23, 1, kind).refusal == NIPPITSUN_REFUSED_SHORT);
            /* The second 4: without its tag the frame has a VLAN tag, and no type behind it. */
            CHECK(to_line(typed(18, 0x8100, tagged(20, 0, 1)), 20, 0, kind).refusal == NIPPITSUN_REFUSED_SHORT);
            CHECK(to_line(typed(18, 0x8100, tagged(23, 0, 1)), 23, 1, kind).refusal == NIPPITSUN_REFUSED_SHORT);
            CHECK(to_line(typed(18, 0x8100, tagged(24, 0, 1)), 24, 0, kind).refusal == room_refusal);
            CHECK(to_line(typed(22, 0x8100, tagged(24, 5, 1)), 24, 1, kind).refusal == room_refusal);
            CHECK(to_line(tagged(60, 0, 1), 60, 0, kind).refusal == room_refusal);
            CHECK(to_line(tagged(NIPPITSUN_FRAME_MOST, 5, 1), NIPPITSUN_FRAME_MOST, 1, kind).refusal == room_refusal);
        }
    }
}

/* Every length about the shortest and the longest, behind a VLAN tag too, into outputs that just hold the result, have a byte
 * more, and lack one. No result is longer than 2000 bytes. */
static void turned_lengths(void) {
    make_table(0);
    for (unsigned i = 0; i < 4; i++)
        for (size_t n = 0; n < 2010; n = n == 40 ? 1980 : n + 1) {
            uint8_t kind = kinds[i & 1];
            size_t width = width_of(kind), header = i & 2 ? 18 : 14, result = n + 6 - width;
            unsigned refusal = n > (kind == NIPPITSUN_PRP_FIRST ? 1998 : 2000) ? NIPPITSUN_REFUSED_LONG
                             : n < header + width ? NIPPITSUN_REFUSED_SHORT
                                                  : NIPPITSUN_REFUSED_NOT;
            untagged(n);
            if (header == 18) typed(12, 0x8100, frame_bytes);
            if (n >= header + width) line_of(kind, 0xB, 7, n - width, frame_bytes);
            make_outs(refusal ? 100 : result, 9);
            nippitsun_prp_answer a = from_line(frame_bytes, n, kind);
            CHECK(a.refusal == refusal && a.length == (refusal ? 0 : result) && a.length <= NIPPITSUN_FRAME_MOST);
            if (refusal) continue;
            make_out(result - 1);
            CHECK(from_line(frame_bytes, n, kind).refusal == NIPPITSUN_REFUSED_ROOM);
            make_out(result + 1);
            CHECK(from_line(frame_bytes, n, kind).length == result);
        }
    for (unsigned i = 0; i < 4; i++)
        for (size_t n = 0; n < 2010; n = n == 40 ? 1980 : n + 1) {
            uint8_t kind = kinds[i & 1];
            size_t result = n - 6 + width_of(kind);
            unsigned refusal = n > NIPPITSUN_FRAME_MOST    ? NIPPITSUN_REFUSED_LONG
                             : n < (i & 2 ? 24u : 20u) ? NIPPITSUN_REFUSED_SHORT
                                                       : NIPPITSUN_REFUSED_NOT;
            tagged(n, i & 2 ? 5 : 0, 7);
            make_outs(refusal ? 100 : result, 9);
            nippitsun_prp_answer a = to_line(frame_bytes, n, 1, kind);
            CHECK(a.refusal == refusal && a.length == (refusal ? 0 : result) && a.length <= NIPPITSUN_FRAME_MOST);
            if (refusal) continue;
            make_out(result - 1);
            CHECK(to_line(frame_bytes, n, 1, kind).refusal == NIPPITSUN_REFUSED_ROOM);
            make_out(result + 1);
            CHECK(to_line(frame_bytes, n, 1, kind).length == result);
        }

    /* The longest of each kind, and one byte more. What comes of the longest has 2000 bytes. */
    static const struct { uint8_t kind; size_t n; unsigned refusal; } longest[] = {
        {NIPPITSUN_PRP_FIRST, 1997, 0}, {NIPPITSUN_PRP_FIRST, 1998, 0}, {NIPPITSUN_PRP_FIRST, 1999, 3},
        {NIPPITSUN_PRP_FIRST, 2000, 3}, {NIPPITSUN_PRP_FIRST, 2001, 3}, {NIPPITSUN_PRP_2012, 1997, 0},
        {NIPPITSUN_PRP_2012, 1998, 0},  {NIPPITSUN_PRP_2012, 1999, 0},  {NIPPITSUN_PRP_2012, 2000, 0},
        {NIPPITSUN_PRP_2012, 2001, 3},
    };
    make_out(NIPPITSUN_FRAME_MOST);
    for (size_t i = 0; i < sizeof longest / sizeof *longest; i++) {
        uint8_t kind = longest[i].kind;
        size_t n = longest[i].n, bare = n - width_of(kind);
        nippitsun_prp_answer a = from_line(line_of(kind, 0xA, 7, bare, untagged(bare)), n, kind);
        CHECK(a.refusal == longest[i].refusal && a.length == (a.refusal ? 0 : bare + 6));
    }
}

/* A trailer in each way that is not one: every LAN with the fitting size and those beside it, every size with LAN A and B, every
 * bit of 88FB. No frame has a trailer of both kinds. */
static void trailers(void) {
    make_table(0);
    make_outs(100, 9);
    for (unsigned i = 0; i < 4; i++) {
        uint8_t kind = kinds[i & 1];
        size_t n = 60 + width_of(kind), fitting = n - (i & 2 ? 18 : 14);
        for (unsigned lan = 0; lan < 16; lan++)
            for (unsigned size = 0; size < 4096; size++) {
                int is_lan = lan == 0xA || lan == 0xB, is_one = is_lan && size == fitting;
                if (!is_lan && size + 1 < fitting) size = (unsigned)fitting - 1;
                if (!is_lan && size > fitting + 1) size = 4095;
                untagged(60);
                if (i & 2) typed(12, 0x8100, frame_bytes);
                typed(62, lan << 12 | size, line_of(kind, lan, 7, 60, frame_bytes));
                nippitsun_prp_answer a = from_line(frame_bytes, n, kind);
                CHECK(a.refusal == (is_one ? NIPPITSUN_REFUSED_NOT : NIPPITSUN_REFUSED_TRAILER));
                CHECK(a.network == (is_one && lan == 0xB));
            }
        /* With the other setting. */
        untagged(60);
        if (i & 2) typed(12, 0x8100, frame_bytes);
        CHECK(from_line(line_of(kind, 0xA, 7, 60, frame_bytes), n, kinds[1 - (i & 1)]).refusal == NIPPITSUN_REFUSED_TRAILER);
    }
    for (unsigned bit = 0; bit < 16; bit++) {
        typed(64, 0x88FBu ^ 1u << bit, line_of(NIPPITSUN_PRP_2012, 0xA, 7, 60, untagged(60)));
        CHECK(from_line(frame_bytes, 66, NIPPITSUN_PRP_2012).refusal == NIPPITSUN_REFUSED_TRAILER);
    }
    CHECK(from_line(line_of(NIPPITSUN_PRP_2012, 0xA, 7, 60, untagged(60)), 66, NIPPITSUN_PRP_2012).refusal == NIPPITSUN_REFUSED_NOT);
}

/* Every value of each byte that a turn is given: the kind, the network, and the source's first. */
static void turned_bytes(void) {
    make_table(0);
    make_outs(100, 9);
    for (unsigned byte = 0; byte < 256; byte++) {
        /* 0 is the first edition, and every other value is 2012: no value is refused. */
        uint8_t kind = (uint8_t)byte, other = byte ? NIPPITSUN_PRP_FIRST : NIPPITSUN_PRP_2012;
        size_t n = byte ? 66 : 64;
        CHECK(from_line(line_of(kind, 0xB, 7, 60, untagged(60)), n, kind).length == 66);
        CHECK(from_line(line_of(other, 0xB, 7, 60, untagged(60)), 130 - n, kind).refusal == NIPPITSUN_REFUSED_TRAILER);
        CHECK(to_line(tagged(66, 0, 7), 66, 1, kind).length == n);
        CHECK((out[64] == 0x88 && out[65] == 0xFB) == (byte != 0));

        for (unsigned i = 0; i < 2; i++) {
            uint8_t given = (uint8_t)byte, refusal = byte < 2 ? NIPPITSUN_REFUSED_NOT : NIPPITSUN_REFUSED_NETWORK;
            make_out(100);
            CHECK(to_line(tagged(60, 0, 7), 60, given, kinds[i]).refusal == refusal);
            /* 14 is in neither list. */
            line_of(kinds[i], 0xA, 7, 60, from(given, untagged(60)));
            CHECK(from_line(frame_bytes, 60 + width_of(kinds[i]), kinds[i]).refusal == 0 && out[6] == byte);
            CHECK(to_line(from(given, tagged(60, 0, 7)), 60, 0, kinds[i]).refusal == 0 && out[6] == byte);
        }
    }
}

/* What the tag stands before becomes the type of the frame on the line, and its size counts from there. */
static void former_types(void) {
    uint8_t line[66];
    make_table(0);
    for (unsigned i = 0; i < 2; i++) {
        uint8_t kind = kinds[i];
        size_t n = 54 + width_of(kind);
        make_outs(100, 9);
        /* A VLAN tag: four bytes fewer, and the tag comes behind it when the frame is turned again. */
        CHECK(to_line(typed(18, 0x8100, tagged(60, 0, 7)), 60, 0, kind).length == n && out[56] == 0xA0 && out[57] == n - 18);
        copy(line, out, n);
        CHECK(from_line(line, n, kind).length == 60 && out[12] == 0x81 && out[16] == 0xF1 && out[17] == 0xC1);
        copy(frame_bytes, out, 60);
        CHECK(to_line(frame_bytes, 60, 0, kind).length == n && equal(out, line, n));
        /* A second VLAN tag is no part of the header. */
        CHECK(to_line(typed(22, 0x8100, tagged(60, 5, 7)), 60, 1, kind).length == n && out[56] == 0xB0 && out[57] == n - 18);

        /* F1C1: it is turned, and can't be turned back. */
        for (uint16_t vlan = 0; vlan < 2; vlan++) {
            make_out(100);
            CHECK(to_line(typed(vlan ? 22 : 18, 0xF1C1, tagged(60, vlan, 7)), 60, 0, kind).length == n);
            copy(line, out, n);
            CHECK(from_line(line, n, kind).refusal == NIPPITSUN_REFUSED_TAGGED);
        }
        /* F1C1 that is not at the type field is no tag. */
        CHECK(from_line(line_of(kind, 0xA, 7, 60, typed(16, 0xF1C1, untagged(60))), 60 + width_of(kind), kind).length == 66);
    }
}

/* Turns of all kinds, each held to the tag writer and reader by from_line() and to_line(). A PRP frame that is turned gives
 * itself when it is turned back. */
static void turns_in_turn(void) {
    static const size_t lengths[] = {0, 13, 14, 17, 18, 20, 60, 300, 1994, 1995};
    static uint8_t line[NIPPITSUN_FRAME_MOST + 100];
    unsigned there = 0, back = 0, turn_refused = 0;
    make_table(0);
    for (size_t i = 0; i < 6000; i++) {
        uint8_t kind = (uint8_t)(below(2) * (1 + below(255)));
        size_t n = lengths[below(10)], width = width_of(kind);
        unsigned vlan = below(2);
        untagged(n);
        if (vlan) typed(12, 0x8100, frame_bytes);
        if (below(8) == 0) typed(vlan ? 16 : 12, below(2) ? 0xF1C1 : 0x8100, frame_bytes);
        unsigned lan = below(8) ? 0xA + below(2) : below(16);
        if (n >= 14 && n >= header_of(frame_bytes)) line_of(kind, lan, (uint16_t)below(65536), n, frame_bytes);
        if (below(8) == 0) frame_bytes[n + below(6)] ^= (uint8_t)(1u << below(8));
        make_outs(n + below(12), 9);
        copy(line, frame_bytes, n + width);
        nippitsun_prp_answer a = from_line(line, n + width, kind);
        if (a.refusal) turn_refused++;
        else {
            there++;
            copy(frame_bytes, out, a.length);
            make_out(n + width);
            nippitsun_prp_answer b = to_line(frame_bytes, a.length, a.network, kind);
            CHECK(b.refusal == 0 && b.number == a.number && b.network == a.network && equal(out, line, n + width));
        }
        tagged(n, (uint16_t)vlan, (uint16_t)below(65536));
        if (below(8) == 0) typed(vlan ? 22 : 18, below(2) ? 0xF1C1 : 0x8100, frame_bytes);
        if (below(16) == 0) frame_bytes[vlan ? 16 : 12] ^= 1;
        make_out(n + below(8));
        a = to_line(frame_bytes, n, (uint8_t)(below(16) ? below(2) : below(256)), kind);
        if (a.refusal) turn_refused++;
        else back++;
    }
    CHECK(there > 500 && back > 500 && turn_refused > 500);
}

/* What comes on two PRP lines is turned and received: each command is handed up once, from the line where it comes first. */
static void lines_received(void) {
    enum { n = 60 };
    uint8_t with_tag[n + NIPPITSUN_TAG_LENGTH];
    for (unsigned k = 0; k < 2; k++) {
        make_table(1);
        make_outs(100, 9);
        CHECK(opened(untagged(n), 0, NIPPITSUN_RULE_VECTOR, 4, 3).refusal == 0);
        for (unsigned i = 0; i < 2000; i++) {
            uint16_t number = (uint16_t)(65000 + i / 2);
            unsigned network = (i ^ i >> 1) & 1; /* A and B, B and A, in turns */
            line_of(kinds[k], 0xA + network, number, n, untagged(n));
            nippitsun_prp_answer a = from_line(frame_bytes, n + width_of(kinds[k]), kinds[k]);
            CHECK(a.refusal == 0 && a.network == network && a.number == number && a.length == sizeof with_tag);
            copy(with_tag, out, a.length);
            nippitsun_arrival_answer u = arrive(a.network, with_tag, a.length);
            CHECK(u.number == number && u.verdict == (i % 2 ? NIPPITSUN_VERDICT_DUPLICATE : NIPPITSUN_VERDICT_HANDED_UP));
            if (i % 2 == 0) CHECK(u.length == n && equal(out, frame_bytes, n));
        }
        nippitsun_counts counts = table[0].counts;
        CHECK(counts.arrivals0 == 1000 && counts.arrivals1 == 1000 && counts.passed == 1000 && counts.discarded == 1000);
        CHECK(counts.rogue == 0 && counts.disorder == 0 && counts.lost == 0);
    }
}

/* What is sent with a priority is received with it, on both networks and over PRP lines. */
static void sent_priorities(void) {
    enum { n = 60, with_tag = n + NIPPITSUN_TAG_LENGTH };
    uint8_t on_network[2][with_tag], turned[with_tag];
    for (unsigned control = 0; control <= 0xF000; control += 0x1000) {
        make_table(1);
        make_sender();
        make_outs(100, 100);
        CHECK(opened(untagged(n), 0, NIPPITSUN_RULE_VECTOR, 4, 3).refusal == 0);
        CHECK(sent(typed(14, control, typed(12, 0x8100, untagged(n))), n).length == with_tag);
        copy(on_network[0], out, with_tag);
        copy(on_network[1], twin, with_tag);
        for (uint8_t network = 0; network < 2; network++) {
            CHECK(tells(arrive(network, on_network[network], with_tag), control / 8192, 1));
            for (unsigned i = 0; i < 2; i++) {
                nippitsun_prp_answer a = to_line(on_network[network], with_tag, network, kinds[i]);
                copy(frame_bytes, out, a.length);
                CHECK(from_line(frame_bytes, a.length, kinds[i]).length == with_tag);
                copy(turned, out, with_tag);
                CHECK(tells(arrive(network, turned, with_tag), control / 8192, 1));
            }
        }
    }
}

/* 1 comes before anything else: a table of more than 64 slots is refused and not read, nor is its index; and if the index is not
 * of 128 places, neither is. A batch's network and count are refused before the frames are read. And where one of a send's outputs is
 * too small the other is not touched, nor is the output of a turn that is refused. No contract can say that, so here the table and
 * the index lie where a read or a store ends this program, and so do these frames and this output. */
static void unread(void) {
    enum { no_access = 0, own_and_blank = 0x22 }; /* PROT_NONE; MAP_PRIVATE and MAP_ANONYMOUS, on Linux */
    static const size_t lengths[] = {65, 65 * sizeof(nippitsun_stream), 4160000, SIZE_MAX / sizeof(nippitsun_stream)};
    static const size_t places_given[] = {0, 127, NIPPITSUN_PLACES, 129, SIZE_MAX};
    nippitsun_stream *t = mmap(NULL, 65536, no_access, own_and_blank, -1, 0);
    uint8_t *x = mmap(NULL, 65536, no_access, own_and_blank, -1, 0);
    const uint8_t *frames = mmap(NULL, 65536, no_access, own_and_blank, -1, 0);
    CHECK(t != (void *)-1 && x != (void *)-1 && frames != (void *)-1);
    make_out(100);
    for (size_t i = 0; i < sizeof lengths / sizeof *lengths; i++) {
        size_t n = lengths[i];
        CHECK(nippitsun_arrival(t, n, 0, tagged(60, 0, 1), 60, out, room).refusal == NIPPITSUN_REFUSED_TABLE);
        CHECK(nippitsun_link_arrival(t, n, 2, frames, 65536, out, room).refusal == NIPPITSUN_REFUSED_TABLE);
        CHECK(nippitsun_reset(t, n, 64) == NIPPITSUN_REFUSED_TABLE);
        CHECK(nippitsun_tick(t, n).refusal == NIPPITSUN_REFUSED_TABLE);
        for (size_t k = 0; k < sizeof places_given / sizeof *places_given; k++) {
            size_t places = places_given[k];
            CHECK(nippitsun_open(t, n, x, places, running_dest, 0, 1, 4, 3).refusal == NIPPITSUN_REFUSED_TABLE);
            CHECK(nippitsun_close(t, n, x, places, 64) == NIPPITSUN_REFUSED_TABLE);
            CHECK(nippitsun_batch(t, n, x, places, 2, 33, frames, 65536, out, room).refusal == NIPPITSUN_REFUSED_TABLE);
            CHECK(nippitsun_rebuild(t, n, x, places) == NIPPITSUN_REFUSED_TABLE);
        }
    }
    for (size_t k = 0; k < sizeof places_given / sizeof *places_given; k++) {
        size_t places = places_given[k];
        if (places == NIPPITSUN_PLACES) continue;
        CHECK(nippitsun_open(t, 64, x, places, running_dest, 0, 1, 4, 3).refusal == NIPPITSUN_REFUSED_INDEX);
        CHECK(nippitsun_close(t, 64, x, places, 64) == NIPPITSUN_REFUSED_INDEX);
        CHECK(nippitsun_batch(t, 64, x, places, 2, 33, frames, 65536, out, room).refusal == NIPPITSUN_REFUSED_INDEX);
        CHECK(nippitsun_rebuild(t, 64, x, places) == NIPPITSUN_REFUSED_INDEX);
    }
    make_table(64);
    make_index(NIPPITSUN_PLACES);
    CHECK(nippitsun_batch(table, 64, lent_index, 128, 2, 33, frames, 65536, out, room).refusal == NIPPITSUN_REFUSED_NETWORK);
    CHECK(nippitsun_batch(table, 64, lent_index, 128, 0, 33, frames, 65536, out, room).refusal == NIPPITSUN_REFUSED_BATCH);
    CHECK(nippitsun_batch(table, 64, lent_index, 128, 0, 0, frames, 65536, out, room).refusal == NIPPITSUN_REFUSED_NOT);
    uint8_t *output = mmap(NULL, 65536, no_access, own_and_blank, -1, 0);
    CHECK(output != (void *)-1);
    CHECK(nippitsun_link_arrival(table, 64, 2, frames, 65536, output, 65536).refusal == NIPPITSUN_REFUSED_NETWORK);
    CHECK(nippitsun_link_arrival(table, 64, 0, frames, 2001, output, 65536).refusal == NIPPITSUN_REFUSED_LONG);
    CHECK(nippitsun_link_arrival(table, 64, 0, frames, 14, output, 65536).refusal == NIPPITSUN_REFUSED_SHORT);
    table[63] = link_running(9);
    CHECK(nippitsun_link_arrival(table, 64, 0, linked(60, 10), 60, output, 58).refusal == NIPPITSUN_REFUSED_ROOM);
    CHECK(nippitsun_link_arrival(table, 64, 0, linked(60, 9), 60, output, 65536).verdict == NIPPITSUN_VERDICT_DUPLICATE);
    make_sender();
    make_out(65);
    CHECK(nippitsun_send(sender, untagged(60), 60, output, 65536, out, room).refusal == NIPPITSUN_REFUSED_ROOM);
    CHECK(nippitsun_send(sender, untagged(60), 60, out, room, output, 65536).refusal == NIPPITSUN_REFUSED_ROOM);
    for (unsigned i = 0; i < 2; i++) {
        uint8_t kind = kinds[i];
        size_t n = 60 + width_of(kind);
        line_of(kind, 0xC, 7, 60, untagged(60));
        CHECK(nippitsun_from_prp(frame_bytes, n, kind, output, 65536).refusal == NIPPITSUN_REFUSED_TRAILER);
        line_of(kind, 0xB, 7, 60, untagged(60));
        CHECK(nippitsun_from_prp(frame_bytes, n, kind, output, 65).refusal == NIPPITSUN_REFUSED_ROOM);
        typed(18, 0x8100, tagged(23, 0, 1));
        CHECK(nippitsun_to_prp(frame_bytes, 23, 0, kind, output, 65536).refusal == NIPPITSUN_REFUSED_SHORT);
        CHECK(nippitsun_to_prp(tagged(66, 0, 1), 66, 0, kind, output, n - 1).refusal == NIPPITSUN_REFUSED_ROOM);
    }
}

/* NULL with length 0, for each area of each call. */
static void nothing(void) {
    make_table(0);
    make_outs(0, 0);
    make_index(0);
    CHECK(table == NULL && lent_index == NULL && out == NULL && twin == NULL);
    CHECK(opened_so(running_dest, 0, 1, 4, 3).refusal == NIPPITSUN_REFUSED_INDEX && closed_so(0) == NIPPITSUN_REFUSED_INDEX);
    CHECK(batched_so(0, 0, NULL, 0).refusal == NIPPITSUN_REFUSED_INDEX && rebuild() == NIPPITSUN_REFUSED_INDEX);
    make_index(NIPPITSUN_PLACES);
    CHECK(arrive(0, NULL, 0).refusal == NIPPITSUN_REFUSED_SHORT);
    CHECK(arrive(0, tagged(60, 0, 1), 60).refusal == NIPPITSUN_REFUSED_UNKNOWN);
    CHECK(link_arrives(0, NULL, 0).refusal == NIPPITSUN_REFUSED_SHORT);
    CHECK(link_arrives(0, linked(60, 1), 60).refusal == NIPPITSUN_REFUSED_UNKNOWN);
    CHECK(opened(running_dest, 0, 1, 4, 3).refusal == NIPPITSUN_REFUSED_FULL);
    CHECK(closed(0) == NIPPITSUN_REFUSED_SLOT);
    CHECK(reset(0) == NIPPITSUN_REFUSED_SLOT);
    nippitsun_tick_answer a = ticked();
    CHECK(a.resets == 0 && a.damaged == 0 && a.refusal == 0);
    CHECK(taken(NULL, 0).refusal == NIPPITSUN_REFUSED_SHORT);
    CHECK(taken(tagged(60, 0, 1), 60).refusal == NIPPITSUN_REFUSED_ROOM);
    CHECK(written(NULL, 0, 1).refusal == NIPPITSUN_REFUSED_SHORT);
    CHECK(written(untagged(60), 60, 1).refusal == NIPPITSUN_REFUSED_ROOM);
    CHECK(sent(NULL, 0).refusal == NIPPITSUN_REFUSED_SHORT);
    CHECK(sent(untagged(60), 60).refusal == NIPPITSUN_REFUSED_ROOM);
    for (unsigned i = 0; i < 2; i++) {
        size_t n = 60 + width_of(kinds[i]);
        CHECK(from_line(NULL, 0, kinds[i]).refusal == NIPPITSUN_REFUSED_SHORT);
        CHECK(from_line(line_of(kinds[i], 0xA, 7, 60, untagged(60)), n, kinds[i]).refusal == NIPPITSUN_REFUSED_ROOM);
        CHECK(to_line(NULL, 0, 0, kinds[i]).refusal == NIPPITSUN_REFUSED_SHORT);
        CHECK(to_line(tagged(60, 0, 1), 60, 0, kinds[i]).refusal == NIPPITSUN_REFUSED_ROOM);
    }
    make_twin(66);
    CHECK(sent(untagged(60), 60).refusal == NIPPITSUN_REFUSED_ROOM);
    make_outs(66, 0);
    CHECK(sent(untagged(60), 60).refusal == NIPPITSUN_REFUSED_ROOM);
    make_out(0);
    CHECK(batched_from(0, 0, NULL, 0).refusal == NIPPITSUN_REFUSED_NOT);
    CHECK(batched_from(0, 1, NULL, 0).refusal == NIPPITSUN_REFUSED_BATCH);
    pack_none();
    pack(tagged(60, 0, 101), 60);
    CHECK(batched(0).answers[0].refusal == NIPPITSUN_REFUSED_UNKNOWN);
    make_table(1);
    table[0] = running();
    CHECK(batched(0).answers[0].refusal == NIPPITSUN_REFUSED_ROOM);
    CHECK(arrive(0, tagged(60, 0, 101), 60).refusal == NIPPITSUN_REFUSED_ROOM);
    table[0] = link_running(9);
    CHECK(link_arrives(0, linked(60, 10), 60).refusal == NIPPITSUN_REFUSED_ROOM);
}

int main(void) {
    make_sender();
    make_index(NIPPITSUN_PLACES);
    arrivals();
    starts();
    places();
    words();
    lent_words();
    opens();
    closes_resets_and_ticks();
    refusals();
    sources();
    batches();
    batches_in_turn();
    named_places();
    index_made_anew();
    refused_by_index();
    indexes_in_turn();
    links();
    link_numbers();
    refused_links();
    link_records();
    two_families();
    families_indexed();
    families_in_turn();
    priorities();
    refused_priorities();
    batched_priorities();
    link_priorities();
    sends();
    refused_sends();
    sends_in_turn();
    sent_and_received();
    turns();
    refused_turns();
    turned_lengths();
    trailers();
    turned_bytes();
    former_types();
    turns_in_turn();
    lines_received();
    sent_priorities();
    unread();
    nothing();
    make_table(0);
    make_index(0);
    make_outs(0, 0);
    free(sender);
    for (int n = 1; n < 256; n++) CHECK((refused[n] > 0) == (n <= NIPPITSUN_REFUSED_TRAILER || n == NIPPITSUN_REFUSED_INDEX));
    for (int v = 1; v <= 3; v++) CHECK(verdicts[v] > 0);
    printf("%u checks of the C calls, %u failed: every verdict, refusals 1 to %d and %d, every field of a record, every number sent, "
           "every trailer of PRP, every number of a virtual link, every VLAN tag\n",
           checks, failures, NIPPITSUN_REFUSED_TRAILER, NIPPITSUN_REFUSED_INDEX);
    return failures != 0;
}
