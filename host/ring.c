#include "ring.h"
#include "clock.h"

#include <errno.h>
#include <linux/net_tstamp.h>
#include <sys/mman.h>
#include <sys/socket.h>

// A slot has a header, an address, room for a VLAN tag, and the frame: 2304 bytes hold all of a frame that may be. No slot goes over
// the end of its block.
enum { SLOT = 2304, BLOCK = 1 << 17, IN_BLOCK = BLOCK / SLOT, TAG_ROOM = 16 };

// What stands before the frame's bytes at least.
enum { FRONT = TPACKET_ALIGN(sizeof(struct tpacket2_hdr)) + sizeof(struct sockaddr_ll) + VLAN_TAG };

_Static_assert(FRONT + TAG_ROOM + 64 + FRAME_PLACE <= SLOT, "a slot holds a frame");

const char *ring_open(struct ring *r, int socket, unsigned slots)
{
    // The kernel's own stamps, as without a ring.
    int version = TPACKET_V2, room = TAG_ROOM, stamps = SOF_TIMESTAMPING_SOFTWARE;
    if (setsockopt(socket, SOL_PACKET, PACKET_VERSION, &version, sizeof version) != 0) return "PACKET_VERSION";
    if (setsockopt(socket, SOL_PACKET, PACKET_RESERVE, &room, sizeof room) != 0) return "PACKET_RESERVE";
    if (setsockopt(socket, SOL_PACKET, PACKET_TIMESTAMP, &stamps, sizeof stamps) != 0) return "PACKET_TIMESTAMP";
    unsigned blocks = slots < IN_BLOCK ? 1 : slots / IN_BLOCK;
    struct tpacket_req size = {.tp_block_size = BLOCK, .tp_block_nr = blocks, .tp_frame_size = SLOT, .tp_frame_nr = blocks * IN_BLOCK};
    if (setsockopt(socket, SOL_PACKET, PACKET_RX_RING, &size, sizeof size) != 0) return "PACKET_RX_RING";
    size_t bytes = (size_t)blocks * BLOCK;
    void *at = mmap(NULL, bytes, PROT_READ | PROT_WRITE, MAP_SHARED, socket, 0);
    if (at == MAP_FAILED) return "mmap";
    *r = (struct ring){.at = at, .bytes = bytes, .slots = size.tp_frame_nr};
    return NULL;
}

void ring_close(struct ring *r)
{
    if (r->at != NULL) munmap(r->at, r->bytes);
    r->at = NULL;
}

static struct tpacket2_hdr *slot(const struct ring *r, unsigned i)
{
    return (struct tpacket2_hdr *)(r->at + (size_t)(i / IN_BLOCK) * BLOCK + (size_t)(i % IN_BLOCK) * SLOT);
}

int ring_take(struct ring *r, struct frame *f)
{
    struct tpacket2_hdr *h = slot(r, r->next);
    uint32_t status = __atomic_load_n(&h->tp_status, __ATOMIC_ACQUIRE);
    if (!(status & TP_STATUS_USER)) return 0;
    const struct sockaddr_ll *from = (const struct sockaddr_ll *)((const uint8_t *)h + TPACKET_ALIGN(sizeof *h));
    size_t place = h->tp_mac;
    *f = (struct frame){
        .time = status & TP_STATUS_TS_SOFTWARE ? h->tp_sec * SECOND + h->tp_nsec : 0,
        .outgoing = from->sll_pkttype == PACKET_OUTGOING,
        .whole = h->tp_len,
        .length = h->tp_snaplen < FRAME_PLACE ? h->tp_snaplen : FRAME_PLACE,
    };
    // The slot's bounds are not believed. What does not lie within is no frame: the library refuses it as short.
    if (place < FRONT || place + f->length > SLOT) {
        place = FRONT;
        f->length = 0;
    }
    f->at = (uint8_t *)h + place;
    frame_put_tag_back(f, status, h->tp_vlan_tpid, h->tp_vlan_tci);
    r->next = (r->next + 1) % r->slots;
    r->lent++;
    return 1;
}

void ring_give_back(struct ring *r, unsigned slots)
{
    for (; slots > 0; slots--, r->lent--) {
        struct tpacket2_hdr *h = slot(r, (r->next + r->slots - r->lent) % r->slots);
        __atomic_store_n(&h->tp_status, TP_STATUS_KERNEL, __ATOMIC_RELEASE);
    }
}
