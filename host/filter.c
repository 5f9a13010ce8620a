#include "filter.h"
#include "host.h"

#include <linux/if_ether.h>
#include <linux/if_packet.h>
#include <string.h>

// What stands beside a frame is read as if it lay at these places.
#define BESIDE(what) ((uint32_t)(SKF_AD_OFF + (what)))

// Puts a part behind what is there. A load from behind the frame's end stops the frame: one so short is too short for the
// library as well.
#define PUT(at, part) (memcpy(at, part, sizeof part), (at) += sizeof part / sizeof part[0])

// Not what this machine sends.
static const struct sock_filter coming_in[] = {
    /* 0 */ BPF_STMT(BPF_LD | BPF_W | BPF_ABS, BESIDE(SKF_AD_PKTTYPE)),
    /* 1 */ BPF_JUMP(BPF_JMP | BPF_JEQ | BPF_K, PACKET_OUTGOING, 0, 1),
    /* 2 */ BPF_STMT(BPF_RET | BPF_K, 0),
};

// F1C1 at the type field; then the VLAN tag is loaded, or 0.
static const struct sock_filter tagged[] = {
    // The card or the kernel has taken a VLAN tag out: it stands beside the frame, and the program puts it back. So the
    // library sees this tag alone: its mark must be 8100, and the type field is the one at 12, behind it. A second tag
    // that is still in the frame is no F1C1.
    /*  0 */ BPF_STMT(BPF_LD | BPF_B | BPF_ABS, BESIDE(SKF_AD_VLAN_TAG_PRESENT)),
    /*  1 */ BPF_JUMP(BPF_JMP | BPF_JEQ | BPF_K, 0, 8, 0), // none: to 10
    /*  2 */ BPF_STMT(BPF_LD | BPF_H | BPF_ABS, BESIDE(SKF_AD_VLAN_TPID)),
    /*  3 */ BPF_JUMP(BPF_JMP | BPF_JEQ | BPF_K, ETH_P_8021Q, 0, 3), // other: to 7
    /*  4 */ BPF_STMT(BPF_LD | BPF_H | BPF_ABS, TYPE_AT),
    /*  5 */ BPF_JUMP(BPF_JMP | BPF_JEQ | BPF_K, REDUNDANCY_TYPE, 0, 1), // other: to 7
    /*  6 */ BPF_JUMP(BPF_JMP | BPF_JA, 1, 0, 0), // to 8
    /*  7 */ BPF_STMT(BPF_RET | BPF_K, 0),
    /*  8 */ BPF_STMT(BPF_LD | BPF_H | BPF_ABS, BESIDE(SKF_AD_VLAN_TAG)),
    /*  9 */ BPF_JUMP(BPF_JMP | BPF_JA, 9, 0, 0), // to the end
    // No tag beside the frame: F1C1 at 12 and VLAN id 0, or 8100 at 12 and F1C1 behind the tag.
    /* 10 */ BPF_STMT(BPF_LD | BPF_H | BPF_ABS, TYPE_AT),
    /* 11 */ BPF_JUMP(BPF_JMP | BPF_JEQ | BPF_K, REDUNDANCY_TYPE, 0, 2), // other: to 14
    /* 12 */ BPF_STMT(BPF_LD | BPF_IMM, 0),
    /* 13 */ BPF_JUMP(BPF_JMP | BPF_JA, 5, 0, 0), // to the end
    /* 14 */ BPF_JUMP(BPF_JMP | BPF_JEQ | BPF_K, ETH_P_8021Q, 0, 2), // other: to 17
    /* 15 */ BPF_STMT(BPF_LD | BPF_H | BPF_ABS, TYPE_AT + VLAN_TAG),
    /* 16 */ BPF_JUMP(BPF_JMP | BPF_JEQ | BPF_K, REDUNDANCY_TYPE, 1, 0), // to 18
    /* 17 */ BPF_STMT(BPF_RET | BPF_K, 0),
    /* 18 */ BPF_STMT(BPF_LD | BPF_H | BPF_ABS, TYPE_AT + 2),
};

// A PRP line, 2012: the last two bytes are 88FB. The first load stops what is too short to have a type.
static const struct sock_filter trailer[] = {
    /* 0 */ BPF_STMT(BPF_LD | BPF_H | BPF_ABS, TYPE_AT),
    /* 1 */ BPF_STMT(BPF_LD | BPF_W | BPF_LEN, 0),
    /* 2 */ BPF_STMT(BPF_ALU | BPF_SUB | BPF_K, 2),
    /* 3 */ BPF_STMT(BPF_MISC | BPF_TAX, 0),
    /* 4 */ BPF_STMT(BPF_LD | BPF_H | BPF_IND, 0),
    /* 5 */ BPF_JUMP(BPF_JMP | BPF_JEQ | BPF_K, ETH_P_PRP, 1, 0),
    /* 6 */ BPF_STMT(BPF_RET | BPF_K, 0),
};

// A PRP line: the VLAN tag is loaded, or 0. Whatever the type is, the frame is not stopped for it.
static const struct sock_filter any_type[] = {
    // Beside the frame. One with another mark is no VLAN tag to the library: put back, the mark is the frame's type.
    /*  0 */ BPF_STMT(BPF_LD | BPF_B | BPF_ABS, BESIDE(SKF_AD_VLAN_TAG_PRESENT)),
    /*  1 */ BPF_JUMP(BPF_JMP | BPF_JEQ | BPF_K, 0, 4, 0), // none: to 6
    /*  2 */ BPF_STMT(BPF_LD | BPF_H | BPF_ABS, BESIDE(SKF_AD_VLAN_TPID)),
    /*  3 */ BPF_JUMP(BPF_JMP | BPF_JEQ | BPF_K, ETH_P_8021Q, 0, 6), // other: to 10
    /*  4 */ BPF_STMT(BPF_LD | BPF_H | BPF_ABS, BESIDE(SKF_AD_VLAN_TAG)),
    /*  5 */ BPF_JUMP(BPF_JMP | BPF_JA, 5, 0, 0), // to the end
    // In the frame, or there is none.
    /*  6 */ BPF_STMT(BPF_LD | BPF_H | BPF_ABS, TYPE_AT),
    /*  7 */ BPF_JUMP(BPF_JMP | BPF_JEQ | BPF_K, ETH_P_8021Q, 0, 2), // other: to 10
    /*  8 */ BPF_STMT(BPF_LD | BPF_H | BPF_ABS, TYPE_AT + 2),
    /*  9 */ BPF_JUMP(BPF_JMP | BPF_JA, 1, 0, 0), // to the end
    /* 10 */ BPF_STMT(BPF_LD | BPF_IMM, 0),
};

// The VLAN id, kept for the keys.
static const struct sock_filter keep_id[] = {
    /* 0 */ BPF_STMT(BPF_ALU | BPF_AND | BPF_K, 0x0FFF),
    /* 1 */ BPF_STMT(BPF_ST, 0),
};

_Static_assert(sizeof coming_in + sizeof tagged + sizeof keep_id <= FILTER_HEAD * sizeof(struct sock_filter), "the head");
_Static_assert(sizeof coming_in + sizeof trailer + sizeof any_type + sizeof keep_id <= FILTER_HEAD * sizeof(struct sock_filter), "the head");

unsigned short filter_write(struct sock_filter program[FILTER_MOST], const nippitsun_stream table[NIPPITSUN_SLOTS_MOST], int prp)
{
    struct sock_filter *at = program;
    PUT(at, coming_in);
    for (size_t i = 0; i < NIPPITSUN_SLOTS_MOST; i++) {
        if (!table[i].used || table[i].rule != NIPPITSUN_RULE_LINK) continue;
        const struct sock_filter link[] = {
            BPF_STMT(BPF_LD | BPF_W | BPF_ABS, 2),
            BPF_JUMP(BPF_JMP | BPF_JEQ | BPF_K, (uint32_t)table[i].dest, 0, 3),
            BPF_STMT(BPF_LD | BPF_H | BPF_ABS, 0),
            BPF_JUMP(BPF_JMP | BPF_JEQ | BPF_K, (uint32_t)(table[i].dest >> 32), 0, 1),
            BPF_STMT(BPF_RET | BPF_K, UINT32_MAX), // all of the frame
        };
        PUT(at, link);
    }
    if (prp == NO_PRP) PUT(at, tagged);
    else {
        if (prp == NIPPITSUN_PRP_2012) PUT(at, trailer);
        PUT(at, any_type);
    }
    PUT(at, keep_id);
    for (size_t i = 0; i < NIPPITSUN_SLOTS_MOST; i++) {
        if (!table[i].used || table[i].rule == NIPPITSUN_RULE_LINK) continue;
        // The low four bytes of the destination differ more often than the high two.
        const struct sock_filter key[FILTER_KEY] = {
            BPF_STMT(BPF_LD | BPF_W | BPF_ABS, 2),
            BPF_JUMP(BPF_JMP | BPF_JEQ | BPF_K, (uint32_t)table[i].dest, 0, 5),
            BPF_STMT(BPF_LD | BPF_H | BPF_ABS, 0),
            BPF_JUMP(BPF_JMP | BPF_JEQ | BPF_K, (uint32_t)(table[i].dest >> 32), 0, 3),
            BPF_STMT(BPF_LD | BPF_MEM, 0),
            BPF_JUMP(BPF_JMP | BPF_JEQ | BPF_K, table[i].vlan, 0, 1),
            BPF_STMT(BPF_RET | BPF_K, UINT32_MAX), // all of the frame
        };
        PUT(at, key);
    }
    *at++ = (struct sock_filter)BPF_STMT(BPF_RET | BPF_K, 0);
    return (unsigned short)(at - program);
}
