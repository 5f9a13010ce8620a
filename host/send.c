// send: the frames of a stream on two network interfaces, numbered and tagged by the proved sender, with losses and skew; or of
// many streams by the clock; with tags, or with the trailers of a PRP line. Or the frames of virtual links, which are numbered here:
// no proved sender does it. Each frame carries its index, so that a test can tell which came through, and may carry a priority that
// follows from it. A copy that can't be sent is dropped, and the other network's goes out all the same.
#include "clock.h"
#include "host.h"
#include "nippitsun.h"

#include <errno.h>
#include <getopt.h>
#include <inttypes.h>
#include <linux/if_packet.h>
#include <net/if.h>
#include <sched.h>
#include <signal.h>
#include <stdio.h>
#include <stdlib.h>
#include <string.h>
#include <sys/socket.h>
#include <time.h>

// Of each block of this many indices one is lost on network 0 and another one on network 1. So no index is lost on both,
// and the networks lose at one rate: a receiver that falls behind does not read one of them faster than the other.
enum { BLOCK = 10 };

// Frames between two pauses, so that the receiver can keep up, and the pause in nanoseconds.
enum { BETWEEN = 256, PAUSE = 100000 };

// How long a full queue is waited for where copies go out by the clock, in nanoseconds.
enum { PATIENCE = 2000000 };

// The frame's bytes before the index: two addresses, a VLAN tag if there is one, the type 88B5 hex of local experiments.
enum { INDEX_BYTES = 8, LONGEST_HEAD = TYPE_AT + VLAN_TAG + 2 };

// The least bytes of a frame that a card sends, without the frame check sequence; and the bytes of a PRP trailer: number, LAN and size, and
// 88FB with the kind of 2012.
enum { CARD_LEAST = 60, TRAILER_FIRST = 4, TRAILER_2012 = 6 };

// The number of a virtual link's frame stands in its last byte: 0 at a start, then 1 to 255, and 1 again.
enum { LINK_NUMBER = 1, LINK_LAST = 255 };

static const char usage[] =
    "usage: send [OPTION].. INTERFACE0 INTERFACE1\n"
    "  --dest DEST    destination address in hex (020000000001)\n"
    "  --vlan ID      put a VLAN tag in; none without this option, but for --priority\n"
    "  --priority P   the VLAN tag's priority, 0 to 7 (0), or each: that of an index is the index modulo 8. Without --vlan the tag has VLAN id 0\n"
    "  --first N      the first index (0); the sender begins with N modulo 65536 as its number, or with the number of the N-th frame behind a start (--afdx)\n"
    "  --count N      indices to send (1000)\n"
    "  --restart N    after every N indices the sender is reset: the next frame has number 0, and indices go on; and\n"
    "    --silent MS  nothing is sent for MS milliseconds before that (0)\n"
    "  --size N       bytes of a frame before the tag, or what is in its place, is put in (60)\n"
    "  --prp KIND     a PRP line: trailers of the first edition (first) or of 2012 (2012) in place of tags\n"
    "  --afdx         an AFDX virtual link: the number is the last byte, 0 and then 1 to 255 again and again, in place of a tag\n"
    "  --network N    send on network N alone\n"
    "  --skew N       either network is ahead of the other by up to N indices (16)\n"
    "  --lossless     lose none; else each network loses one in 10, never both the same\n"
    "  --seed N       another seed, other losses and another skew (1)\n"
    "  --every US     by the clock: an index every US microseconds, lossless, and\n"
    "    --apart US   the second copy US microseconds behind the first; network 0 has the first of every other index (0)\n"
    "    --streams N  as many streams as that, with VLAN ids from that of --vlan on, or with addresses from --dest on (--afdx), one after the other in equal steps (1)\n"
    "    --unequal N  network 0 loses every N-th index\n"
    "  --help         print this text\n";

// Priorities in a VLAN tag, and the bit that they begin at; what stands for one that follows from the index, and for none asked for.
enum { PRIORITIES = 8, PRIORITY_AT = 13, EACH = PRIORITIES, NOT_ASKED = -1 };

struct plan {
    uint8_t dest[ADDRESS];
    int vlan, priority;        // vlan: -1 is no VLAN tag
    int lossless, alone;       // alone: the only network; -1: both
    int prp;                   // the kind of trailer (enum nippitsun_prp), or NO_PRP
    int afdx;
    uint64_t first, indices, restart, skew, seed, streams, unequal; // restart: indices from one reset of the sender to the next
    int64_t every, apart, silent;
    size_t size;
};

static void sleep_for(int64_t nanoseconds)
{
    nanosleep(&(struct timespec){nanoseconds / SECOND, nanoseconds % SECOND}, NULL);
}

// One step of xorshift. The seed is never 0.
static uint64_t draw(uint64_t *state)
{
    *state ^= *state << 13;
    *state ^= *state >> 7;
    *state ^= *state << 17;
    return *state;
}

// Is this index lost on this network? The answer is the same whenever it is asked for.
static int is_lost(uint64_t seed, int network, uint64_t index)
{
    uint64_t state = seed * UINT64_C(0x9E3779B97F4A7C15) + index / BLOCK + 1;
    if (state == 0) state = 1;
    for (int i = 0; i < 8; i++) draw(&state);
    uint64_t on0 = draw(&state) % BLOCK;
    uint64_t on1 = (on0 + 1 + draw(&state) % (BLOCK - 1)) % BLOCK;
    return index % BLOCK == (network == 0 ? on0 : on1);
}

// The VLAN tag of a frame without its mark, or -1: none. The bit between priority and VLAN id is 0. Streams differ in the VLAN id, and
// virtual links in the address.
static int tag_of(const struct plan *p, uint64_t stream, uint64_t index)
{
    if (p->vlan < 0) return -1;
    int priority = p->priority == EACH ? (int)(index % PRIORITIES) : p->priority;
    return priority << PRIORITY_AT | (p->afdx ? p->vlan : p->vlan + (int)stream);
}

// Answers where the index is to stand.
static size_t make_frame(uint8_t *frame, const uint8_t *dest, int tag, size_t size)
{
    static const uint8_t source[ADDRESS] = {2, 0, 0, 0, 0, 2};
    size_t at = TYPE_AT;
    memset(frame, 0, size);
    memcpy(frame, dest, ADDRESS);
    memcpy(frame + ADDRESS, source, ADDRESS);
    if (tag >= 0) {
        frame[at] = 0x81;
        frame[at + 1] = 0x00;
        frame[at + 2] = (uint8_t)(tag >> 8);
        frame[at + 3] = (uint8_t)tag;
        at += VLAN_TAG;
    }
    frame[at] = 0x88;
    frame[at + 1] = 0xB5;
    return at + 2;
}

// A network.
static struct line {
    const char *interface;
    int port; // the socket that sends there
    uint64_t sent, dropped;
    uint64_t missed; // dropped since a copy went out; 0: the last one did
    int64_t looked;  // when the interface was last looked for by its name
} lines[NETWORKS];

// By how many nanoseconds a copy went out late, at most: a machine that is busy holds the sender up.
static int64_t latest;

// One for each stream; a virtual link's has the next number in the same field, and begins with 0 as all do.
static nippitsun_sender senders[NIPPITSUN_SLOTS_MOST];

// The copies that wait for their network: place k is in room k modulo rooms.
static uint8_t *waiting;
static uint64_t rooms;

// Of a copy with its tag, or with the number of a virtual link.
static size_t copy_length(const struct plan *p)
{
    return p->size + (p->afdx ? LINK_NUMBER : NIPPITSUN_TAG_LENGTH);
}

static size_t trailer_length(const struct plan *p)
{
    return p->prp == NIPPITSUN_PRP_FIRST ? TRAILER_FIRST : TRAILER_2012;
}

// Room for as many copies as can wait at once, so far as one network, or the first copies, can be ahead.
static void make_room(const struct plan *p)
{
    // By the clock a first copy goes out while it is due before the oldest that waits. Due times are cut to whole nanoseconds.
    rooms = p->every == 0 ? p->skew : ((uint64_t)p->apart + 1) * p->streams / (uint64_t)p->every + 1;
    // None waits over a restart.
    if (rooms > p->restart * p->streams) rooms = p->restart * p->streams;
    waiting = calloc(rooms, copy_length(p));
    if (waiting == NULL) refuse("no memory for %" PRIu64 " copies that wait for their network", rooms);
}

// Both copies of a virtual link's frame are the same: its number stands behind the payload.
static void number_link(nippitsun_sender *s, const uint8_t *plain, size_t size, uint8_t *out0, uint8_t *out1)
{
    for (int network = 0; network < NETWORKS; network++) {
        uint8_t *out = network == 0 ? out0 : out1;
        memcpy(out, plain, size);
        out[size] = (uint8_t)s->next;
    }
    s->next = s->next == LINK_LAST ? 1 : s->next + 1;
}

// The copy of a place for a network: place k is index k / streams of stream k modulo streams. When it is asked for first, one
// call makes both copies, and the other network's waits. The answer stands until the next call.
static const uint8_t *copy_for(const struct plan *p, int network, uint64_t place, int is_first)
{
    static uint8_t now[NIPPITSUN_FRAME_MOST];
    uint8_t *later = waiting + place % rooms * copy_length(p);
    if (!is_first) return later;
    uint64_t stream = place % p->streams, index = p->first + place / p->streams;
    uint8_t plain[NIPPITSUN_UNTAGGED_MOST];
    uint8_t dest[ADDRESS];
    memcpy(dest, p->dest, ADDRESS);
    if (p->afdx) dest[ADDRESS - 1] = (uint8_t)(dest[ADDRESS - 1] + stream);
    size_t index_at = make_frame(plain, dest, tag_of(p, stream, index), p->size);
    for (int i = 0; i < INDEX_BYTES; i++) plain[index_at + i] = (uint8_t)(index >> 8 * (INDEX_BYTES - 1 - i));
    uint8_t *out0 = network == 0 ? now : later, *out1 = network == 0 ? later : now;
    if (p->afdx) {
        number_link(&senders[stream], plain, p->size, out0, out1);
        return now;
    }
    nippitsun_tag_answer a = nippitsun_send(&senders[stream], plain, p->size, out0, copy_length(p), out1, copy_length(p));
    if (a.refusal != 0) refuse("tag: %u, %s", a.refusal, refusal_words(a.refusal));
    return now;
}

// The number of the interface that a socket is bound to; of one that was removed: -1.
static int bound_to(int port)
{
    struct sockaddr_ll where;
    socklen_t size = sizeof where;
    return getsockname(port, (struct sockaddr *)&where, &size) != 0 ? -1 : where.sll_ifindex;
}

// The interface of a network was removed, and its socket is bound to none: it is bound to the one that has the name now, if there
// is one. It is looked for once a second. The other network's may have been given the name: that one is not taken.
static int open_anew(int network)
{
    struct line *l = &lines[network];
    int64_t now = clock_now();
    if (l->looked != 0 && now - l->looked < SECOND) return 0;
    l->looked = now;
    struct sockaddr_ll where = {.sll_family = AF_PACKET, .sll_ifindex = (int)if_nametoindex(l->interface)};
    if (where.sll_ifindex == 0 || where.sll_ifindex == bound_to(lines[1 - network].port)) return 0;
    return bind(l->port, (struct sockaddr *)&where, sizeof where) == 0;
}

static int is_full_queue(int why)
{
    return why == ENOBUFS || why == EAGAIN || why == EINTR;
}

// Gives a frame to a network: 0, or the error with which it was not taken.
static int give(const struct plan *p, int network, const uint8_t *frame, size_t length)
{
    struct line *l = &lines[network];
    // A full queue is waited for, as losses are chosen, not met. But not for long, and not again while nothing goes out: a card that
    // is stuck must not hold the other network up. By the clock hardly at all: a second copy that goes out late, when the receiver has
    // reset the stream, is handed up once more. Some kernels speak of a full queue where the far end is down.
    int64_t end = l->missed == 0 ? clock_now() + (p->every == 0 ? SECOND : PATIENCE) : 0;
    for (;;) {
        if (send(l->port, frame, length, MSG_DONTWAIT) >= 0) return 0;
        int why = errno;
        if ((why == ENXIO || why == ENODEV) && open_anew(network)) continue;
        if (!is_full_queue(why) || clock_now() >= end) return why;
        sleep_for(PAUSE);
    }
}

// Sends a copy on a network, but for the networks that are left out, or drops it.
static void send_copy(const struct plan *p, int network, const uint8_t *copy)
{
    if (p->alone >= 0 && p->alone != network) return;
    size_t length = copy_length(p);
    uint8_t turned[NIPPITSUN_FRAME_MOST];
    if (p->prp != NO_PRP) {
        nippitsun_prp_answer a = nippitsun_to_prp(copy, length, (uint8_t)network, (uint8_t)p->prp, turned, sizeof turned);
        if (a.refusal != 0) refuse("to PRP: %u, %s", a.refusal, refusal_words(a.refusal));
        copy = turned;
        length = a.length;
    }
    struct line *l = &lines[network];
    int why = give(p, network, copy, length);
    if (why == 0) {
        if (l->missed != 0) say_now("back: network %d (%s): copies go out again, %" PRIu64 " were dropped", network, l->interface, l->missed);
        l->missed = 0;
        l->sent++;
    } else {
        if (l->missed == 0)
            say_now("dropped: network %d (%s): %s; its copies are dropped until they go out again", network, l->interface,
                is_full_queue(why) ? "its queue is full" : strerror(why));
        l->missed++;
        l->dropped++;
    }
}

// Sends the indices from `from` on, and ends before `to`.
static void send_by_chance(const struct plan *p, uint64_t from, uint64_t to)
{
    uint64_t next[NETWORKS] = {from, from}, since_pause = 0, state = p->seed;
    while (next[0] < to || next[1] < to) {
        int network = (int)(draw(&state) >> 32 & 1);
        uint64_t other = next[1 - network];
        if (next[network] == to || (next[network] > other && next[network] - other >= p->skew)) network = 1 - network;
        uint64_t index = next[network]++;
        const uint8_t *copy = copy_for(p, network, index, index >= next[1 - network]);
        if (!p->lossless && is_lost(p->seed, network, index)) continue;
        send_copy(p, network, copy);
        if (++since_pause == BETWEEN) {
            since_pause = 0;
            sleep_for(PAUSE);
        }
    }
}

// The same, copy by copy: the first copies place by place, and the second ones behind them.
static void send_by_clock(const struct plan *p, uint64_t from, uint64_t to)
{
    // Before all other programs, where that is allowed: what is held up here is no delay of the networks.
    sched_setscheduler(0, SCHED_FIFO, &(struct sched_param){.sched_priority = 10});
    uint64_t begin = from * p->streams, end = to * p->streams, at[2] = {begin, begin};
    int64_t start = clock_now();
    while (at[0] < end || at[1] < end) {
        int64_t due[2];
        for (int copy = 0; copy < 2; copy++)
            due[copy] = start + (int64_t)(at[copy] - begin) * p->every / (int64_t)p->streams + (copy == 0 ? 0 : p->apart);
        int copy = at[0] == end || (at[1] < at[0] && due[1] <= due[0]);
        int64_t now = clock_now();
        if (due[copy] > now) {
            sleep_for(due[copy] - now);
            continue;
        }
        if (now - due[copy] > latest) latest = now - due[copy];
        uint64_t place = at[copy]++, index = place / p->streams;
        // Streams begin on different networks, so that at any time each network has first copies.
        int network = (int)((index + place % p->streams + (uint64_t)copy) & 1);
        const uint8_t *frame = copy_for(p, network, place, copy == 0);
        if (network == 0 && p->unequal != 0 && index % p->unequal == p->unequal - 1) continue;
        send_copy(p, network, frame);
    }
}

// Copies on a network of each stream. Of some streams more may have been dropped than of others: what was dropped of any counts.
static uint64_t sent_of_each(const struct plan *p, int network)
{
    return lines[network].sent / p->streams;
}

static uint64_t dropped_of_each(const struct plan *p, int network)
{
    return (lines[network].sent + lines[network].dropped) / p->streams - sent_of_each(p, network);
}

static int read_priority(const char *text)
{
    if (strcmp(text, "each") == 0) return EACH;
    if (text[0] < '0' || text[0] >= '0' + PRIORITIES || text[1] != 0) refuse("--priority is 0 to %d, or each", PRIORITIES - 1);
    return text[0] - '0';
}

int main(int count, char **words)
{
    hold_descriptors();
    // A reader of standard error that has gone does not stop the frames.
    signal(SIGPIPE, SIG_IGN);
    static const struct option options[] = {
        {"dest", required_argument, NULL, 'd'},    {"vlan", required_argument, NULL, 'v'},    {"first", required_argument, NULL, 'f'},
        {"count", required_argument, NULL, 'c'},   {"restart", required_argument, NULL, 'r'}, {"silent", required_argument, NULL, 'q'},
        {"size", required_argument, NULL, 'z'},    {"network", required_argument, NULL, 'w'}, {"skew", required_argument, NULL, 'k'},
        {"lossless", no_argument, NULL, 'n'},      {"seed", required_argument, NULL, 's'},    {"every", required_argument, NULL, 'e'},
        {"apart", required_argument, NULL, 'a'},   {"streams", required_argument, NULL, 'm'}, {"unequal", required_argument, NULL, 'u'},
        {"prp", required_argument, NULL, 'p'},     {"afdx", no_argument, NULL, 'x'},          {"priority", required_argument, NULL, 'y'},
        {"help", no_argument, NULL, 'h'},          {NULL, 0, NULL, 0},
    };
    const uint64_t hour = UINT64_C(3600000000);
    struct plan p = {{2, 0, 0, 0, 0, 1}, .vlan = -1, .priority = NOT_ASKED, .alone = -1, .prp = NO_PRP, .indices = 1000, .skew = 16, .seed = 1, .streams = 1, .size = 60};
    for (int o; (o = getopt_long(count, words, "", options, NULL)) != -1;) {
        switch (o) {
        case 'd': read_address(optarg, p.dest); break;
        case 'v': p.vlan = (int)read_number("VLAN id", optarg, 0, 4095); break;
        case 'y': p.priority = read_priority(optarg); break;
        case 'f': p.first = read_number("first", optarg, 0, INT64_MAX); break;
        case 'c': p.indices = read_number("count", optarg, 1, INT32_MAX); break;
        case 'r': p.restart = read_number("restart", optarg, 1, INT32_MAX); break;
        case 'q': p.silent = (int64_t)read_number("silent", optarg, 0, hour / 1000) * MILLISECOND; break;
        case 'z': p.size = read_number("size", optarg, LONGEST_HEAD + INDEX_BYTES, NIPPITSUN_UNTAGGED_MOST); break;
        case 'p': p.prp = read_prp(optarg); break;
        case 'x': p.afdx = 1; break;
        case 'w': p.alone = (int)read_number("network", optarg, 0, NETWORKS - 1); break;
        case 'k': p.skew = read_number("skew", optarg, 1, 65535); break;
        case 'n': p.lossless = 1; break;
        case 's': p.seed = read_number("seed", optarg, 1, UINT64_MAX); break;
        case 'e': p.every = (int64_t)read_number("every", optarg, 1, hour) * 1000; break;
        case 'a': p.apart = (int64_t)read_number("apart", optarg, 0, hour) * 1000; break;
        case 'm': p.streams = read_number("streams", optarg, 1, NIPPITSUN_SLOTS_MOST); break;
        case 'u': p.unequal = read_number("unequal", optarg, 2, UINT32_MAX); break;
        default: say_usage(usage, o == 'h');
        }
    }
    if (count - optind != NETWORKS) {
        say("send: interfaces given: %d, needed: %d, for network 0 and network 1", count - optind, NETWORKS);
        say_usage(usage, 0);
    }
    if (p.every == 0 && (p.apart != 0 || p.streams != 1 || p.unequal != 0)) refuse("--apart, --streams and --unequal go with --every");
    if (p.afdx && p.prp != NO_PRP) refuse("--prp and --afdx: a frame of a virtual link has no trailer");
    if (p.afdx && p.priority != NOT_ASKED && p.vlan < 0) refuse("--priority with --afdx needs --vlan: a frame of a virtual link has no VLAN tag without it");
    if (p.afdx && p.dest[ADDRESS - 1] + p.streams - 1 > UINT8_MAX) refuse("--streams with --afdx needs room for as many addresses in the last byte of --dest");
    if (!p.afdx && p.streams > 1 && (p.vlan < 0 || p.vlan + (int)p.streams - 1 > NIPPITSUN_VLAN_MOST))
        refuse("--streams needs --vlan, and room for as many ids");
    // A priority needs a tag to stand in, and a tag has one.
    if (p.priority != NOT_ASKED && p.vlan < 0) p.vlan = 0;
    if (p.priority == NOT_ASKED) p.priority = 0;
    if (p.restart == 0 && p.silent != 0) refuse("--silent goes with --restart");
    if (p.restart >= p.indices) refuse("--restart %" PRIu64 " is never reached: --count is %" PRIu64, p.restart, p.indices);
    if (p.restart == 0) p.restart = p.indices;
    // A card pads a frame of fewer bytes, behind the trailer, whose size then fits no more, or behind the number: so the frame is padded
    // before.
    size_t behind = p.afdx ? LINK_NUMBER : trailer_length(&p);
    if ((p.afdx || p.prp != NO_PRP) && p.size < CARD_LEAST - behind) p.size = CARD_LEAST - behind;
    if (output_is_closed()) refuse("standard output is closed");
    make_room(&p);
    for (int i = 0; i < NETWORKS; i++) {
        lines[i].interface = words[optind + i];
        // The network that is left out need not be there.
        lines[i].port = p.alone < 0 || p.alone == i ? open_sender(lines[i].interface) : -1;
    }

    uint64_t first = p.afdx && p.first > 0 ? (p.first - 1) % LINK_LAST + 1 : p.first;
    for (uint64_t i = 0; i < p.streams; i++) senders[i].next = (uint16_t)first;
    for (uint64_t from = 0, to; from < p.indices; from = to) {
        to = p.indices - from < p.restart ? p.indices : from + p.restart;
        if (from > 0) {
            sleep_for(p.silent);
            for (uint64_t i = 0; i < p.streams; i++) nippitsun_reset_sender(&senders[i]);
        }
        if (p.every == 0) send_by_chance(&p, from, to);
        else send_by_clock(&p, from, to);
    }
    printf("indices %" PRIu64 " sent0 %" PRIu64 " sent1 %" PRIu64 " dropped0 %" PRIu64 " dropped1 %" PRIu64 " late %" PRId64 "\n", p.indices,
        sent_of_each(&p, 0), sent_of_each(&p, 1), dropped_of_each(&p, 0), dropped_of_each(&p, 1), latest / 1000);
    if (fflush(stdout) != 0) fail("standard output");
    return 0;
}
