// filter-test: what the kernel's filter lets through and stops, held to what the library says of the same frames.
//
// Each frame goes two ways. With no tag beside it, through the kernel itself: the filter is attached to a socket, and what
// comes out of it has passed. And in every form, with a tag beside it or not, coming in or going out, through an interpreter
// of the few instructions that the filter has. Both must agree, and with the library: the frame as the host would give it,
// with its tag put back, is let through if the library takes it or finds it damaged in any way that operators should see
// (0, 3 and 14 with F1C1 and an open key, 7, 8), and stopped if it would be refused as foreign (5, 6, and 3 and 14 with another
// key). Short frames (4) may go either way.
//
// Some streams are virtual links. What goes to their destinations is let through whatever its type and VLAN tag are, and held to the
// arrival of a virtual link.
//
// Then the same for PRP lines of each kind, without such links. There what has an open key is let through whatever is wrong with its
// trailer (0, 3, 13, 14, 16), so that it is counted; but with the kind of 2012 only if it ends in 88FB.
#include "filter.h"
#include "host.h"

#include <errno.h>
#include <inttypes.h>
#include <linux/if_ether.h>
#include <linux/if_packet.h>
#include <stdio.h>
#include <stdlib.h>
#include <string.h>
#include <sys/socket.h>
#include <unistd.h>

// Longer than the library takes, with room for a tag.
enum { LONGEST = NIPPITSUN_FRAME_MOST + 40 };

struct form {
    size_t length; // as the kernel holds it
    uint8_t bytes[LONGEST];
    int beside, outgoing;
    uint16_t mark, tci;
};

static uint64_t state = 88172645463325252;
static unsigned draw(unsigned below)
{
    state ^= state << 13;
    state ^= state >> 7;
    state ^= state << 17;
    return (unsigned)((state >> 16) % below);
}

static const struct sock_filter *program;

static uint32_t load(const struct form *f, const struct sock_filter *i, int *bad)
{
    switch (i->k) {
    case (uint32_t)(SKF_AD_OFF + SKF_AD_PKTTYPE): return f->outgoing ? PACKET_OUTGOING : PACKET_HOST;
    case (uint32_t)(SKF_AD_OFF + SKF_AD_VLAN_TAG_PRESENT): return (uint32_t)f->beside;
    case (uint32_t)(SKF_AD_OFF + SKF_AD_VLAN_TPID): return f->mark;
    case (uint32_t)(SKF_AD_OFF + SKF_AD_VLAN_TAG): return f->tci;
    }
    size_t bytes = BPF_SIZE(i->code) == BPF_W ? 4 : BPF_SIZE(i->code) == BPF_H ? 2 : 1;
    *bad = (uint64_t)i->k + bytes > f->length;
    uint32_t n = 0;
    for (size_t k = 0; !*bad && k < bytes; k++) n = n << 8 | f->bytes[i->k + k];
    return n;
}

static int passes(const struct form *f)
{
    uint32_t a = 0, x = 0, kept = 0;
    for (const struct sock_filter *i = program;; i++) {
        int bad = 0;
        switch (i->code) {
        case BPF_LD | BPF_W | BPF_ABS:
        case BPF_LD | BPF_H | BPF_ABS:
        case BPF_LD | BPF_B | BPF_ABS:
            a = load(f, i, &bad);
            if (bad) return 0;
            break;
        case BPF_LD | BPF_H | BPF_IND: {
            struct sock_filter at_x = {.code = i->code, .k = x + i->k};
            a = load(f, &at_x, &bad);
            if (bad) return 0;
            break;
        }
        case BPF_LD | BPF_W | BPF_LEN: a = (uint32_t)f->length; break;
        case BPF_ALU | BPF_SUB | BPF_K: a -= i->k; break;
        case BPF_MISC | BPF_TAX: x = a; break;
        case BPF_LD | BPF_IMM: a = i->k; break;
        case BPF_LD | BPF_MEM: a = kept; break;
        case BPF_ST: kept = a; break;
        case BPF_ALU | BPF_AND | BPF_K: a &= i->k; break;
        case BPF_JMP | BPF_JA: i += i->k; break;
        case BPF_JMP | BPF_JEQ | BPF_K: i += a == i->k ? i->jt : i->jf; break;
        case BPF_RET | BPF_K: return i->k != 0 && i->k >= f->length;
        default: refuse("instruction %u has no meaning here", i->code);
        }
    }
}

// The same through the kernel. Its socket shows no tag and no direction, so this is for frames that come in with none beside.
static int passes_kernel(const int pair[2], const struct form *f)
{
    uint8_t out[LONGEST];
    if (send(pair[0], f->bytes, f->length, 0) < 0 && errno != EPERM) fail("send");
    ssize_t got = recv(pair[1], out, sizeof out, MSG_DONTWAIT);
    if (got < 0 && errno != EAGAIN) fail("recv");
    if (got >= 0 && (size_t)got != f->length) refuse("the kernel has cut a frame of %zu bytes to %zd", f->length, got);
    return got >= 0;
}

static void put(uint8_t bytes[LONGEST], size_t at, unsigned two)
{
    if (at + 1 >= LONGEST) return;
    bytes[at] = (uint8_t)(two >> 8);
    bytes[at + 1] = (uint8_t)two;
}

static size_t width(int prp)
{
    return prp == NIPPITSUN_PRP_FIRST ? 4 : 6;
}

// Writes a trailer of this kind over a frame's end. The size is what fits, but for what is to be wrong with it.
static void put_trailer(uint8_t *frame, size_t length, int prp, unsigned lan, unsigned wrong)
{
    if (length < width(prp)) return;
    size_t behind = length > TYPE_AT + 1 && frame[TYPE_AT] == 0x81 && frame[TYPE_AT + 1] == 0 ? TYPE_AT + VLAN_TAG + 2 : TYPE_AT + 2;
    size_t at = length - width(prp);
    put(frame, at + 2, lan << 12 | (((unsigned)(length - behind) + wrong) & 0xFFF));
    if (prp == NIPPITSUN_PRP_2012) put(frame, at + 4, ETH_P_PRP);
}

// The frame as the host gives it to the library, with the tag put back.
static size_t complete(uint8_t whole[LONGEST + VLAN_TAG], const struct form *f)
{
    memcpy(whole, f->bytes, f->length);
    if (!f->beside || f->length < TYPE_AT) return f->length;
    memmove(whole + TYPE_AT + VLAN_TAG, whole + TYPE_AT, f->length - TYPE_AT);
    put(whole, TYPE_AT, f->mark);
    put(whole, TYPE_AT + 2, f->tci);
    return f->length + VLAN_TAG;
}

static int goes_to_link(const nippitsun_stream *table, const uint8_t *frame, size_t length)
{
    uint64_t dest = 0;
    for (int i = 0; length >= ADDRESS && i < ADDRESS; i++) dest = dest << 8 | frame[i];
    for (size_t i = 0; length >= ADDRESS && i < NIPPITSUN_SLOTS_MOST; i++)
        if (table[i].used && table[i].rule == NIPPITSUN_RULE_LINK && table[i].dest == dest) return 1;
    return 0;
}

// What the library says of it, and, by the rest, what it would say if it were not too long and had neither a group source nor,
// on a PRP line, a wrong trailer or F1C1: is it one of ours?
static unsigned says(nippitsun_stream *table, const struct form *f, int prp, int by_the_rest)
{
    uint8_t whole[LONGEST + VLAN_TAG], turned[NIPPITSUN_FRAME_MOST], out[NIPPITSUN_FRAME_MOST];
    const uint8_t *given = whole;
    size_t length = complete(whole, f);
    if (by_the_rest && length > ADDRESS) whole[ADDRESS] &= 0xFE;
    if (by_the_rest && length > NIPPITSUN_FRAME_MOST) length = NIPPITSUN_FRAME_MOST;
    if (goes_to_link(table, whole, length))
        return nippitsun_link_arrival(table, NIPPITSUN_SLOTS_MOST, 0, whole, length, out, sizeof out).refusal;
    if (prp != NO_PRP) {
        // Turned, it has two bytes more with the first edition.
        if (by_the_rest && prp == NIPPITSUN_PRP_FIRST && length > NIPPITSUN_FRAME_MOST - 2) length = NIPPITSUN_FRAME_MOST - 2;
        if (by_the_rest) {
            size_t at = length > TYPE_AT + 1 && whole[TYPE_AT] == 0x81 && whole[TYPE_AT + 1] == 0 ? TYPE_AT + VLAN_TAG : TYPE_AT;
            if (at + 2 <= length) put(whole, at, 0x88B5);
            put_trailer(whole, length, prp, 0xA, 0);
        }
        nippitsun_prp_answer a = nippitsun_from_prp(whole, length, (uint8_t)prp, turned, sizeof turned);
        if (a.refusal != 0) return a.refusal;
        given = turned;
        length = a.length;
    }
    return nippitsun_arrival(table, NIPPITSUN_SLOTS_MOST, 0, given, length, out, sizeof out).refusal;
}

// Type fields that matter: ours, VLAN, the outer tag of a provider, other traffic, near misses.
static unsigned type(void)
{
    static const unsigned types[] = {0xF1C1, 0xF1C1, 0xF1C1, 0x8100, 0x8100, 0x88A8, 0x0800, 0xF1C0, 0xC1F1, 0x9100};
    return types[draw(sizeof types / sizeof types[0])];
}

static void make(struct form *f, const nippitsun_stream *table, int prp)
{
    static const size_t lengths[] = {0, 1, 5, 6, 12, 13, 14, 15, 16, 17, 18, 19, 20, 21, 22, 23, 24, 25, 26, 60, 64, 1514,
                                     1995, 1996, 1997, 1998, 1999, 2000, 2001, 2004, 2030};
    f->length = lengths[draw(sizeof lengths / sizeof lengths[0])];
    for (size_t i = 0; i < LONGEST; i++) f->bytes[i] = (uint8_t)draw(256);
    // An open key, or one that differs in one bit of the destination or in the id.
    const nippitsun_stream *s = &table[draw(NIPPITSUN_SLOTS_MOST)];
    uint64_t dest = s->dest;
    unsigned vlan = s->vlan;
    if (draw(4) == 0) dest ^= UINT64_C(1) << draw(48);
    if (draw(4) == 0) vlan ^= 1U << draw(12);
    for (int i = 0; i < ADDRESS; i++) f->bytes[i] = (uint8_t)(dest >> 8 * (ADDRESS - 1 - i));
    unsigned tci = vlan | draw(16) << 12;
    put(f->bytes, TYPE_AT, type());
    put(f->bytes, TYPE_AT + 2, tci);
    put(f->bytes, TYPE_AT + 4, type());
    put(f->bytes, TYPE_AT + 6, tci ^ (draw(2) ? 1 : 0));
    put(f->bytes, TYPE_AT + 8, type());
    f->beside = (int)draw(2);
    // The kernel takes these two out of a frame, and no other.
    f->mark = draw(4) == 0 ? ETH_P_8021AD : ETH_P_8021Q;
    f->tci = (uint16_t)tci;
    f->outgoing = draw(8) == 0;
    // A trailer that is good, or has a size or a LAN that is one off; of the line's kind or the other; or none.
    if (prp == NO_PRP || draw(8) == 0) return;
    static const unsigned lans[] = {0xA, 0xB, 0xA, 0xB, 0xA, 0xB, 0x9, 0xC}, wrongs[] = {0, 0, 0, 0, 0, 0, 1, 0xFFF};
    uint8_t whole[LONGEST + VLAN_TAG];
    size_t length = complete(whole, f), taken_out = length - f->length;
    put_trailer(whole, length, draw(4) == 0 ? 1 - prp : prp, lans[draw(8)], wrongs[draw(8)]);
    // Its end as the kernel holds it.
    for (size_t i = 1; i <= 6 && f->length >= TYPE_AT + i; i++) f->bytes[f->length - i] = whole[f->length + taken_out - i];
}

// Does the frame end as all frames of such a line do?
static int ends_so(const struct form *f, int prp)
{
    return prp != NIPPITSUN_PRP_2012 || (f->length >= 2 && f->bytes[f->length - 2] == 0x88 && f->bytes[f->length - 1] == 0xFB);
}

// So many frames of a line, half of them with a full table and half with holes in it. Answers 0, or 1 if the filter failed.
static int try_line(const char *name, int prp, uint64_t frames)
{
    // Keys that share destinations and ids, with the smallest and largest id, in a full table; then the same with holes.
    nippitsun_stream table[NIPPITSUN_SLOTS_MOST];
    uint8_t places[NIPPITSUN_PLACES] = {0};
    memset(table, 0, sizeof table);
    for (unsigned i = 0; i < NIPPITSUN_SLOTS_MOST; i++) {
        uint8_t dest[ADDRESS] = {i % 3 == 0 ? 1 : 2, i % 2 ? 0x80 : 0, 0, 0, i % 5 == 0 ? 0xFF : 0, (uint8_t)(i / 8)};
        uint16_t vlan = (uint16_t[]){0, 1, 2, 100, 2048, 4093, 4094, 7}[i % 8];
        // A link's destination is no other stream's, and differs from those by one bit.
        uint8_t rule = prp == NO_PRP && i % 16 == 8 ? NIPPITSUN_RULE_LINK : NIPPITSUN_RULE_VECTOR;
        if (rule == NIPPITSUN_RULE_LINK) dest[2] = 0x40;
        nippitsun_slot_answer a = nippitsun_open(table, NIPPITSUN_SLOTS_MOST, places, sizeof places, dest, vlan, rule, 64, 65535);
        if (a.refusal != 0) refuse("open %u: %u", i, a.refusal);
    }
    static struct sock_filter written[FILTER_MOST];
    program = written;
    uint64_t let[UINT8_MAX + 1] = {0}, stopped[UINT8_MAX + 1] = {0}, of_kernel = 0, long_ones = 0, of_links = 0;
    for (int holes = 0; holes < 2; holes++) {
        for (unsigned i = 0; holes && i < NIPPITSUN_SLOTS_MOST; i++)
            if (i % 3 != 1 && nippitsun_close(table, NIPPITSUN_SLOTS_MOST, places, sizeof places, i) != 0) refuse("close %u", i);
        struct sock_fprog attach = {filter_write(written, table, prp), written};
        int pair[2];
        if (socketpair(AF_UNIX, SOCK_DGRAM, 0, pair) != 0) fail("socketpair");
        if (setsockopt(pair[1], SOL_SOCKET, SO_ATTACH_FILTER, &attach, sizeof attach) != 0) fail("SO_ATTACH_FILTER");
        for (uint64_t n = 0; n < frames / 2; n++) {
            static struct form f;
            make(&f, table, prp);
            int pass = passes(&f);
            unsigned refusal = says(table, &f, prp, 0), ours = says(table, &f, prp, 1);
            int must_stop = f.outgoing || ours == 5 || ours == 6 || !ends_so(&f, prp);
            int must_pass = !must_stop && ours != 4;
            if ((must_pass && !pass) || (must_stop && pass)) {
                printf("FAILED: %s, frame %" PRIu64 " of %zu bytes, %s, tag beside %d mark %04x tci %04x, at 12: %02x%02x %02x%02x %02x%02x: "
                       "the library says %u, the filter %s it\n", name, n, f.length, f.outgoing ? "outgoing" : "coming in", f.beside, f.mark,
                       f.tci, f.bytes[12], f.bytes[13], f.bytes[14], f.bytes[15], f.bytes[16], f.bytes[17], ours, pass ? "passes" : "stops");
                return 1;
            }
            if (!f.beside && !f.outgoing) {
                of_kernel++;
                if (passes_kernel(pair, &f) != pass) {
                    printf("FAILED: %s, frame %" PRIu64 ": the kernel does not do with the filter what this test does\n", name, n);
                    return 1;
                }
            }
            if (f.outgoing) continue;
            if (refusal == 3 && ours == 0) long_ones++;
            if (refusal == 0 && goes_to_link(table, f.bytes, f.length)) of_links++;
            (pass ? let : stopped)[refusal]++;
        }
        close(pair[0]);
        close(pair[1]);
    }
    // A test that never met a form shows nothing of it.
    int foreign = prp == NO_PRP ? NIPPITSUN_REFUSED_UNTAGGED : NIPPITSUN_REFUSED_TRAILER;
    if (let[0] == 0 || let[3] == 0 || let[14] == 0 || stopped[4] == 0 || stopped[foreign] == 0 || stopped[6] == 0 || stopped[14] == 0
        || long_ones == 0 || of_kernel == 0 || (prp == NO_PRP && of_links == 0) || (prp != NO_PRP && (let[13] == 0 || let[16] == 0 || stopped[13] == 0)))
        refuse("some form was never made");
    if (let[5] != 0 || let[6] != 0 || stopped[0] != 0) refuse("the counts do not agree");
    printf("filter-test, %s: %" PRIu64 " frames, %" PRIu64 " of them through the kernel too; let through %" PRIu64 " that the library takes, "
           "%" PRIu64 " too long, %" PRIu64 " short, %" PRIu64 " with a group source",
           name, frames, of_kernel, let[0], let[3], let[4], let[14]);
    if (prp == NO_PRP) printf(", %" PRIu64 " of virtual links", of_links);
    if (prp != NO_PRP) printf(", %" PRIu64 " with F1C1, %" PRIu64 " with no fitting trailer", let[13], let[16]);
    printf("; stopped %" PRIu64 " foreign, %" PRIu64 " without a stream, %" PRIu64 " too long, %" PRIu64 " short, %" PRIu64 " with a group source\n",
           stopped[foreign], stopped[6], stopped[3], stopped[4], stopped[14]);
    return 0;
}

int main(int count, char **words)
{
    hold_descriptors();
    uint64_t frames = count > 1 ? read_number("frames", words[1], 1, UINT32_MAX) : 200000;
    return try_line("tags", NO_PRP, frames) || try_line("PRP of the first edition", NIPPITSUN_PRP_FIRST, frames)
        || try_line("PRP of 2012", NIPPITSUN_PRP_2012, frames);
}
