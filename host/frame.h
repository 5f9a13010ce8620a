// A frame that was read from a port and not yet called.
#ifndef FRAME_H
#define FRAME_H

#include "host.h"
#include "nippitsun.h"

#include <linux/if_ether.h>
#include <linux/if_packet.h>
#include <stddef.h>
#include <stdint.h>
#include <string.h>

// One byte more than a frame may have: a longer one, which is cut to this, is still too long for the library.
enum { FRAME_PLACE = NIPPITSUN_FRAME_MOST + 1 };

struct frame {
    int64_t time; // first the kernel's stamp in real time, 0 if it has none; then what order makes of it
    int outgoing; // this machine has sent it: it is no arrival
    size_t whole; // bytes that the socket had of it: more than FRAME_PLACE were cut
    size_t length;
    uint8_t *at; // in the ring, or in the port's own place; there is room for a VLAN tag before it
};

// The kernel has taken the VLAN tag out of the frame, and says so in `status`: puts all of it back. Without it the key would have VLAN id
// 0, and the frame no priority. A tag of zeros is one too: VLAN id 0 with priority 0.
static inline void frame_put_tag_back(struct frame *f, uint32_t status, uint16_t mark, uint16_t tag)
{
    if (!(status & TP_STATUS_VLAN_VALID) || f->length < TYPE_AT) return;
    if (!(status & TP_STATUS_VLAN_TPID_VALID)) mark = ETH_P_8021Q;
    memmove(f->at - VLAN_TAG, f->at, TYPE_AT);
    f->at -= VLAN_TAG;
    f->length += VLAN_TAG;
    f->at[TYPE_AT] = (uint8_t)(mark >> 8);
    f->at[TYPE_AT + 1] = (uint8_t)mark;
    f->at[TYPE_AT + 2] = (uint8_t)(tag >> 8);
    f->at[TYPE_AT + 3] = (uint8_t)tag;
}

#endif
