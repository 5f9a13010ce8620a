/* Nippitsun for C and C++: a receiver for frames that arrive on two networks, with redundancy tags or as AFDX virtual links; the
 * tag in and out, a sender, and the frames of PRP lines turned into tagged ones and back.
 *
 * The calls are the exported functions of the crates `port` and `port_*`, proved to do what document 01 says, with orders 1, 3,
 * 4, 5, 6, 7, 9, 10 and 11 of document 02 (order 2 changes no answer). This header is written by hand: bindings/c/test.c holds it
 * to the compiled code, and bindings/check to the sources. C11 or C++11, x86-64; link with libport.a, which is called
 * libnippitsun.a once it is installed (docs/LINKING.md).
 *
 * What the caller owes. The proof takes it for granted, and no call can test it:
 *
 * - An area is a pointer and a number of ELEMENTS: records for a table, bytes for an index, a frame, the frames of a batch and an
 *   output. So many are there, and a table is aligned for its records. The pointer may be NULL where the number is 0. The
 *   destination of an open and a sender have no number: the six bytes, and the one sender, aligned for its field, are always
 *   there, and their pointers are never NULL.
 * - The areas of one call lie apart: no byte of the table, the index, the sender, the frame or frames, the output or either of
 *   two, or the destination belongs to another.
 * - They are lent for the call alone. No call keeps a pointer, and nobody else reads a table, an index, a sender or an output, or
 *   writes to any of the areas, while the call runs.
 * - So a table has one caller at a time, and its index with it. Two ports that share a table share a lock too, held for the whole
 *   call: the verdict and its marking are one call, and two calls at once could hand a command up twice. A sender has one caller
 *   at a time too: two calls at once could give two commands one number, and the receivers then hand up one of them.
 *
 * Nothing else is asked for. Every value of every argument and every bit pattern of a record or a sender is taken, and a call
 * that can't do its work refuses: it answers a number of enum nippitsun_refusal and changes nothing, no record, counter, place of
 * an index, next number or output byte. Every call ends, allocates nothing and keeps no state of its own. */
#ifndef NIPPITSUN_H
#define NIPPITSUN_H

#include <stddef.h>
#include <stdint.h>

#define NIPPITSUN_VERSION "0.15.1"
#define NIPPITSUN_VERSION_MAJOR 0
#define NIPPITSUN_VERSION_MINOR 15
#define NIPPITSUN_VERSION_PATCH 1

#ifdef __cplusplus
#define NIPPITSUN_ASSERT(what, why) static_assert(what, why)
#define NIPPITSUN_ALIGNOF(type) alignof(type)
#define NIPPITSUN_APART __restrict
extern "C" {
#else
#define NIPPITSUN_ASSERT(what, why) _Static_assert(what, why)
#define NIPPITSUN_ALIGNOF(type) _Alignof(type)
#define NIPPITSUN_APART restrict
#endif

/* ---- sizes (document 01, "Sizes") */

#define NIPPITSUN_SLOTS_MOST 64      /* slots in a table; 0 is allowed */
#define NIPPITSUN_FRAME_MOST 2000    /* bytes in a frame */
#define NIPPITSUN_UNTAGGED_MOST 1994 /* bytes in a frame before the tag is put in */
#define NIPPITSUN_WINDOW_LEAST 2     /* the window L */
#define NIPPITSUN_WINDOW_MOST 512    /* document 02, order 5 */
#define NIPPITSUN_HISTORY_WORDS 8    /* of 64 bits: one bit for each place of the largest window */
#define NIPPITSUN_TIME_LEAST 1 /* the reset time R, in ticks */
#define NIPPITSUN_TIME_MOST 65535
#define NIPPITSUN_VLAN_MOST 4094 /* the VLAN id in a key; 0 is a frame with no VLAN tag */
#define NIPPITSUN_TAG_LENGTH 6   /* bytes of the redundancy tag */
#define NIPPITSUN_FRAMES_MOST 32 /* frames in a batch (document 02, order 3); 0 is allowed */
#define NIPPITSUN_PLACES 128     /* places of an index (document 02, order 9), for a table of any length */

/* The rule of a stream. By it a stream is of one of two families: nippitsun_link_arrival looks at slots of NIPPITSUN_RULE_LINK
 * alone, nippitsun_arrival and nippitsun_batch look at all others. */
enum nippitsun_rule {
    NIPPITSUN_RULE_VECTOR = 1,
    NIPPITSUN_RULE_MATCH = 2,
    NIPPITSUN_RULE_LINK = 3 /* an AFDX virtual link (document 02, order 10): its VLAN id is 0, and L is in range and not used */
};

/* The kind of trailer on a PRP line (document 02, order 7): it is set for the line, and no frame is taken as both. A call takes
 * every byte: 0 is the first edition, and every other value is 2012. */
enum nippitsun_prp {
    NIPPITSUN_PRP_FIRST = 0, /* the first edition's, 4 bytes: number, LAN and size */
    NIPPITSUN_PRP_2012 = 1   /* that of 2012, 6 bytes: the same, then 88FB */
};

/* The verdict on an arrival. */
enum nippitsun_verdict {
    NIPPITSUN_VERDICT_NONE = 0, /* the call was refused; or, in a batch, the frame was refused or not reached */
    NIPPITSUN_VERDICT_HANDED_UP = 1,
    NIPPITSUN_VERDICT_DUPLICATE = 2,
    NIPPITSUN_VERDICT_ROGUE = 3
};

/* Why a call was refused (document 01, "Calls and the order of checks"; 14 is of order 1, 15 of order 3, 16 of order
 * 7, 18 of order 9; 17 is never given). Where several hold, a call answers the first in its own order, which stands beside its
 * declaration. */
enum nippitsun_refusal {
    NIPPITSUN_REFUSED_NOT = 0,
    NIPPITSUN_REFUSED_TABLE = 1,    /* the table has more than 64 slots */
    NIPPITSUN_REFUSED_NETWORK = 2,  /* the network is not 0 or 1 */
    NIPPITSUN_REFUSED_LONG = 3,     /* frame too long */
    NIPPITSUN_REFUSED_SHORT = 4,    /* frame short */
    NIPPITSUN_REFUSED_UNTAGGED = 5, /* no F1C1 at the type field */
    NIPPITSUN_REFUSED_UNKNOWN = 6,  /* no slot in use has the key; for an arrival: none of its family */
    NIPPITSUN_REFUSED_DAMAGED = 7,  /* the record is damaged; for reset: its settings are out of range */
    NIPPITSUN_REFUSED_ROOM = 8,     /* output too small; for a send: either of the two */
    NIPPITSUN_REFUSED_SETTING = 9,  /* a setting outside the sizes; a virtual link with another VLAN id than 0 */
    NIPPITSUN_REFUSED_TAKEN = 10,   /* a slot in use has the key, of either family */
    NIPPITSUN_REFUSED_FULL = 11,    /* no free slot */
    NIPPITSUN_REFUSED_SLOT = 12,    /* slot beyond the table or free */
    NIPPITSUN_REFUSED_TAGGED = 13,  /* the frame already carries F1C1 */
    NIPPITSUN_REFUSED_GROUP = 14,   /* group source address: the lowest bit of the first source byte is set */
    NIPPITSUN_REFUSED_BATCH = 15,   /* a batch: count above 32, or lengths that run past the buffer */
    NIPPITSUN_REFUSED_TRAILER = 16, /* no trailer of the set kind with a fitting size and a LAN of A or B */
    NIPPITSUN_REFUSED_INDEX = 18    /* index not of 128 places or not in agreement with the table; for a rebuild: the former */
};

/* ---- the stream record
 *
 * A table is an array of these, made and kept by the caller. All bytes zero is a table of free slots. The fields may be read
 * between two calls; a caller who writes to them may damage a record, which a call then refuses or a tick then counts, and who
 * writes to `dest`, `vlan` or `used` makes the index anew (below). A record has 152 bytes, and each of them belongs to a field;
 * where each field stands is asserted at the end of this file. Since 0.6.0 the history has eight words: a record that was kept
 * from an earlier version is not to be lent.
 *
 * A virtual link's record is lawful with VLAN id 0, a history of zeros, early 0 and, without take-any, an anchor of at most 255.
 * One with another VLAN id is damaged, and no arrival hears it. */

/* What an arrival and a tick change. */
typedef struct nippitsun_state {
    uint64_t history[NIPPITSUN_HISTORY_WORDS]; /* bit k of the history, bit k % 64 of word k / 64, stands for the number
                                                  anchor - k; with the match rule and a virtual link: zeros */
    uint16_t anchor;    /* the number that differences are taken from; of a virtual link: the last that was handed up */
    uint16_t remaining; /* ticks left until the stream is reset */
    uint16_t early;     /* so many places of the window still stand for numbers older than the first that was handed up since
                           the open or the reset: L - 1 after that first, one less with each place that the window moves,
                           then 0. They leave without being counted as lost. 0 in a fresh record, and with every rule but
                           vector */
    uint16_t any;       /* take-any: 0 is no, every other value is yes; calls write 0 and 1 */
} nippitsun_state;

/* The counters. They wrap to zero after 2^64 - 1. */
typedef struct nippitsun_counts {
    uint64_t arrivals0; /* arrivals on network 0, whatever the verdict */
    uint64_t arrivals1; /* arrivals on network 1 */
    uint64_t passed;    /* handed up */
    uint64_t discarded; /* duplicates */
    uint64_t rogue;     /* outside the window; does not rise of a virtual link */
    uint64_t disorder;  /* handed up out of order; does not rise of a virtual link */
    uint64_t lost;      /* numbers that left the window and had not been handed up: what comes of them later is a rogue. Those
                           older than the first since the open or the reset are not counted. Rises with the vector rule alone */
    uint64_t resets;    /* times the stream became fresh, by ticks or by reset */
} nippitsun_counts;

typedef struct nippitsun_stream {
    uint64_t dest;   /* the key's destination: its six bytes as one number, high byte first */
    uint16_t vlan;   /* the key's VLAN id */
    uint16_t window; /* the window L */
    uint16_t time;   /* the reset time R, in ticks */
    uint8_t rule;    /* enum nippitsun_rule */
    uint8_t used;    /* 0 is a free slot, every other value a slot in use; calls write 0 and 1 */
    nippitsun_state state;
    nippitsun_counts counts;
} nippitsun_stream;

/* ---- the index (document 02, order 9)
 *
 * Beside each table the caller makes and keeps its index, NIPPITSUN_PLACES bytes, by which a key's slot is found without a look at
 * every record. A byte is a place: 0 is empty, and k + 1 names slot k. nippitsun_open, nippitsun_close and nippitsun_batch take the
 * index with its table; no other call on a table but nippitsun_rebuild does.
 *
 * Each key has a place of its own. Following goes on from there, round the end, over the places that do not name a slot in use
 * with the key, until an empty one or all 128. It is asked for twice of each key, among the slots of NIPPITSUN_RULE_LINK and
 * among the rest, from the same place: index and table agree when it finds the lowest of those slots in use with the key, or
 * none if there is none. The three calls look at this before all else but the table's length, and answer 18 if it is not so. A
 * good open and a good close leave the index that nippitsun_rebuild makes of the table. A batch only reads it, and no arrival,
 * reset or tick changes whether the two agree. So who begins with an index in agreement and leaves the rest to the calls never
 * gets 18, unless memory is damaged.
 *
 * - At the start: zeros in the table and in the index. An index of zeros agrees with a table of free slots, and with no other.
 * - Any other table needs nippitsun_rebuild once before the three calls: one that was kept over a restart or read from a file, and
 *   one whose `dest`, `vlan` or `used` the caller has written to. So the index need not be kept with the table. Where `rule` alone
 *   was written to, an index that a call has made stays good: it names every slot in use, whatever its rule.
 * - nippitsun_rebuild mends a damaged index, too. It can't tell whether the table is sound: it takes any.
 * - Nobody need know which place a key has, or write to an index by hand. */

/* ---- the answers
 *
 * `refusal` is a number of enum nippitsun_refusal. Where it is not 0, every other field is 0. */

/* Of an arrival.
 *
 * `priority` and `vlantag` are of the frame as it came, whatever the verdict (document 02, order 11). Where 8100 stands at 12 a
 * VLAN tag is there, and the upper three bits of the two bytes at 14 are its priority; a tag that says 0 is not the same as none.
 * Where F1C1 stands at 12 there is none, though what is handed up may then begin with one. A tag with VLAN id 0 has the key of no
 * tag, and its priority all the same. The two copies of a command may differ in both fields: an answer tells its own.
 *
 * To sort commands: eight queues in an array, with `priority` as the place in it, and each queue keeps the order. So a frame with
 * no VLAN tag comes to those of priority 0, as is the default of IEEE 802.1Q; for another choice look at `vlantag`. The standard
 * recommends 7 as the highest, and 1 below 0.
 *
 * Up to 0.13.0 the two bytes were padding, which a library of that time does not set; the linker takes it all the same. */
typedef struct nippitsun_arrival_answer {
    size_t slot;      /* the slot of the stream */
    size_t length;    /* bytes written to the output: 0 but for a frame handed up */
    uint16_t number;  /* the number in the tag; of a virtual link: the frame's last byte */
    uint8_t verdict;  /* enum nippitsun_verdict */
    uint8_t refusal;
    uint8_t priority; /* the VLAN tag's, 0 to 7; 0 where there is none, and of a virtual link */
    uint8_t vlantag;  /* 1: a VLAN tag was there; 0: none, or a virtual link, whose arrival reads none */
} nippitsun_arrival_answer;

/* Of a batch. */
typedef struct nippitsun_batch_answer {
    nippitsun_arrival_answer answers[NIPPITSUN_FRAMES_MOST]; /* of each frame in its place; all 0 where it was not reached */
    size_t frames; /* how many frames came before one that was refused with 8, else the count */
    uint8_t refusal;
} nippitsun_batch_answer;

/* Of an open. */
typedef struct nippitsun_slot_answer {
    size_t slot; /* the slot that was filled */
    uint8_t refusal;
} nippitsun_slot_answer;

/* Of a tick. */
typedef struct nippitsun_tick_answer {
    uint64_t resets;  /* streams that this tick reset */
    uint64_t damaged; /* records in use that are damaged */
    uint8_t refusal;
} nippitsun_tick_answer;

/* Of a tag call, and of a send. */
typedef struct nippitsun_tag_answer {
    size_t length;   /* bytes written to the output; of a send: to each of its two */
    uint16_t number; /* the number in the tag */
    uint8_t refusal;
} nippitsun_tag_answer;

/* Of a turn from PRP or to PRP. */
typedef struct nippitsun_prp_answer {
    size_t length;   /* bytes written to the output */
    uint16_t number; /* the number in the trailer and in the tag */
    uint8_t network; /* 0 is LAN A, 1 is LAN B */
    uint8_t refusal;
} nippitsun_prp_answer;

/* ---- the calls on a table. Refusals are given in the order in which they stand here. */

/* A frame came in on a network. Refusals 1, 2, 3, 4, 5, 14, 6, 7, 8.
 * The lowest slot in use with the frame's key that is no virtual link's has the arrival. Handed up: the frame without its tag
 * stands at the start of the output, and the bytes after it keep their values. Duplicate and rogue write nothing to the output.
 * The output must hold frame_bytes - 6 bytes for every verdict; NIPPITSUN_FRAME_MOST bytes are always enough. */
nippitsun_arrival_answer nippitsun_arrival(nippitsun_stream *NIPPITSUN_APART table, size_t slots, uint8_t network,
                                           const uint8_t *NIPPITSUN_APART frame, size_t frame_bytes,
                                           uint8_t *NIPPITSUN_APART out, size_t out_bytes);

/* A frame of an AFDX virtual link came in on a network (document 02, order 10). Refusals 1, 2, 3, 4 (below 15 bytes), 14, 6, 7,
 * 8. Its number is its last byte, 0 to 255, and its key the destination with VLAN id 0: no type and no VLAN tag is read, and
 * 8100 at 12 means nothing. So the frame ends in the number as it is given here, without its frame check sequence and without
 * padding that a card has put behind it. The lowest slot in use with the key and NIPPITSUN_RULE_LINK has the arrival.
 *
 * A sender numbers its first frame 0, then 1 to 255, and 1 again. After one of 1 to 255 the numbers one to 127 steps forward in
 * that ring of 255 are handed up; so is 0, which says that the sender has started anew. After 0 the numbers 1 to 127 are. A
 * fresh stream hands any number up. All else is a duplicate: there is no rogue, nothing counts as out of order or lost, and a
 * number that is passed over is not noticed.
 *
 * Handed up: the frame without its last byte stands at the start of the output, frame_bytes - 1 bytes, and the bytes after it
 * keep their values. A duplicate writes nothing to the output. The output must hold frame_bytes - 1 bytes for both verdicts;
 * NIPPITSUN_FRAME_MOST bytes are always enough. */
nippitsun_arrival_answer nippitsun_link_arrival(nippitsun_stream *NIPPITSUN_APART table, size_t slots, uint8_t network,
                                                const uint8_t *NIPPITSUN_APART frame, size_t frame_bytes,
                                                uint8_t *NIPPITSUN_APART out, size_t out_bytes);

/* Several frames came in on a network: `count` of them, NIPPITSUN_FRAMES_MOST at most, in one buffer. Each stands behind its
 * length in two bytes, high byte first; what stands behind the last is ignored. Refusals 1, 18, 2, 15: the call looks at no frame
 * then and changes nothing, and 0 stands in `frames` and in all answers. A count of 0 is a good call, and does nothing. The index
 * is looked at once, before the first frame, and each frame's slot is found by it.
 *
 * Each frame is a nippitsun_arrival in its turn, with the same verdict, priority, record, counters and refusal as if it had come
 * alone, and its answer stands in answers[] at its place. What is handed up is packed into the output from its start, in the order
 * in which it came and in the form of the input: two length bytes, then the frame without its tag, `length` bytes. Duplicates,
 * rogues and refused frames take no byte of the output, not even for a length. The bytes after the last frame keep their values.
 *
 * The room of a frame is what is left of the output behind its two length bytes, and none if fewer than two are left. A frame
 * that is refused with 3, 4, 5, 14, 6 or 7 is answered and the rest go on, room or not. A frame that is refused with 8 ends
 * the call, a duplicate and a rogue too: they need the room as in a single arrival. That frame is answers[frames], and those
 * behind it were not reached: their answers are all 0, which no arrival answers. What the frames before it changed stays. So,
 * where `frames` is below `count`, make room and call again with the buffer from the frame at `frames` on (the lengths of those
 * before it lead there) and `count - frames`.
 *
 * NIPPITSUN_FRAMES_MOST * (2 + NIPPITSUN_UNTAGGED_MOST) = 63872 bytes of output are always enough. With 1996 bytes, one such
 * frame, each call gets on by a frame at least. No byte of the output is one of the frames' buffer: no frame is handed up in
 * its own place. The answer has 784 bytes and comes back by value. */
nippitsun_batch_answer nippitsun_batch(nippitsun_stream *NIPPITSUN_APART table, size_t slots,
                                       const uint8_t *NIPPITSUN_APART index, size_t places, uint8_t network, size_t count,
                                       const uint8_t *NIPPITSUN_APART frames, size_t frames_bytes,
                                       uint8_t *NIPPITSUN_APART out, size_t out_bytes);

/* Opens a stream: fills the lowest free slot with a fresh record, counters zero, and makes the index anew. Refusals 1, 18, 9,
 * 10, 11. A slot in use with the key refuses it (10) whatever its rule, so a key has one stream at most. `dest` points to the
 * destination's six bytes, as they stand in a frame. It is never NULL. */
nippitsun_slot_answer nippitsun_open(nippitsun_stream *NIPPITSUN_APART table, size_t slots, uint8_t *NIPPITSUN_APART index,
                                     size_t places, const uint8_t *NIPPITSUN_APART dest, uint16_t vlan, uint8_t rule,
                                     uint16_t window, uint16_t time);

/* Closes a slot: it becomes free, its other fields stay, and the index is made anew. A damaged record can be closed. Answers the
 * refusal: 1, 18, 12. */
uint8_t nippitsun_close(nippitsun_stream *NIPPITSUN_APART table, size_t slots, uint8_t *NIPPITSUN_APART index, size_t places,
                        size_t slot);

/* Makes the index anew from any table, whatever stood in it before. The table is only read. Answers the refusal: 1, and 18 if the
 * index is not of NIPPITSUN_PLACES places. */
uint8_t nippitsun_rebuild(const nippitsun_stream *NIPPITSUN_APART table, size_t slots, uint8_t *NIPPITSUN_APART index,
                          size_t places);

/* Resets a stream: fresh state, and resets rises. This mends a damaged record whose settings are in range. Answers the
 * refusal: 1, 12, and 7 if the settings are out of range. */
uint8_t nippitsun_reset(nippitsun_stream *table, size_t slots, size_t slot);

/* One tick: takes 1 from remaining in every lawful record that has some left, and resets a stream where that gives 0.
 * Damaged and free records keep what they hold, but they are written back: a table that is mapped read-only faults, and nobody
 * reads one while a tick runs. Refusal 1. */
nippitsun_tick_answer nippitsun_tick(nippitsun_stream *table, size_t slots);

/* ---- the tag, with no table */

/* Takes the tag out and writes the frame without it to the start of the output; the bytes after it keep their values.
 * Refusals 3, 4, 5, 8: any source is taken. The output must hold frame_bytes - 6 bytes; NIPPITSUN_FRAME_MOST bytes are always
 * enough. */
nippitsun_tag_answer nippitsun_take_tag(const uint8_t *NIPPITSUN_APART frame, size_t frame_bytes, uint8_t *NIPPITSUN_APART out,
                                        size_t out_bytes);

/* Puts a tag with this number into the frame and writes the tagged frame to the start of the output; the bytes after it keep
 * their values. Refusals 3 (above NIPPITSUN_UNTAGGED_MOST), 4, 13, 14, 8. The output must hold frame_bytes + 6 bytes;
 * NIPPITSUN_FRAME_MOST bytes are always enough. */
nippitsun_tag_answer nippitsun_write_tag(const uint8_t *NIPPITSUN_APART frame, size_t frame_bytes, uint16_t number,
                                         uint8_t *NIPPITSUN_APART out, size_t out_bytes);

/* ---- the sending side (document 02, order 6), with no table
 *
 * One sender for each stream: for all frames to one destination and VLAN id, and for no others. A receiver follows the numbers
 * of each such key by themselves. No call here looks at the key. */

/* A sender stream, made and kept by the caller. All bytes zero is a sender at first. Every value is a sender: no call refuses
 * one. */
typedef struct nippitsun_sender {
    uint16_t next; /* the number that the next frame gets: 0 at first and after a reset, and 0 again after 65535 */
} nippitsun_sender;

/* Makes a pair of a frame that has no tag: puts a tag with the sender's next number into it, and writes the same tagged frame to
 * the start of both outputs, or to neither; the bytes after it keep their values. The caller then sends one on each network.
 * `next` rises by 1, and 65535 is followed by 0. The answer tells the number that the frame got, and the length of the tagged
 * frame.
 * Refusals 3 (above NIPPITSUN_UNTAGGED_MOST), 4, 13, 14, 8, as of nippitsun_write_tag: then no byte of either output has changed,
 * and no number is used up. 8 is given if either output holds fewer than frame_bytes + 6 bytes. The two may differ in length, and
 * NIPPITSUN_FRAME_MOST bytes are always enough. */
nippitsun_tag_answer nippitsun_send(nippitsun_sender *NIPPITSUN_APART sender, const uint8_t *NIPPITSUN_APART frame,
                                    size_t frame_bytes, uint8_t *NIPPITSUN_APART out0, size_t out0_bytes,
                                    uint8_t *NIPPITSUN_APART out1, size_t out1_bytes);

/* Resets a sender: its next number is 0, as at first. It answers nothing, since there is nothing to refuse. To the receivers it
 * is as if the sender's program started anew: they follow the new numbers once their streams are reset, by R ticks with nothing
 * handed up or by call. Until then they may take what is sent for duplicates or rogues, which are not handed up. */
void nippitsun_reset_sender(nippitsun_sender *sender);

/* ---- PRP lines (document 02, order 7), with no table
 *
 * A frame of a PRP line has no tag. It ends in a trailer, high bytes first: the number in 16 bits, LAN in 4 bits (A or B hex), the
 * size in 12 bits, and 88FB if the kind is that of 2012. The size counts the bytes after the type field, the trailer's too. The
 * type field stands at 12, and at 16 where 8100 stands at 12.
 *
 * `kind` is a value of enum nippitsun_prp, the line's setting. With the wrong one no frame of the line is taken, and most are
 * refused with 16. The first edition's trailer is told from other bytes by LAN and size alone: where a frame without a trailer ends
 * in random bytes, one of 32768 is taken for one. */

/* Turns a PRP frame into a tagged one: takes the trailer off, puts a tag with the trailer's number in at the type field, and
 * writes the tagged frame to the start of the output; the bytes after it keep their values. The answer tells the number, the
 * length, and the network that LAN gives: A is 0, B is 1. nippitsun_arrival takes the tagged frame with that network.
 * Refusals 3 (the tagged frame would have more than NIPPITSUN_FRAME_MOST bytes: above 1998 bytes with the first edition, above
 * 2000 with 2012), 4 (shorter than its header and trailer together), 13, 16, 8. Any source is taken, but an arrival then refuses a
 * group's. The output must hold frame_bytes + 6 bytes less the trailer's; NIPPITSUN_FRAME_MOST bytes are always enough. */
nippitsun_prp_answer nippitsun_from_prp(const uint8_t *NIPPITSUN_APART frame, size_t frame_bytes, uint8_t kind,
                                        uint8_t *NIPPITSUN_APART out, size_t out_bytes);

/* Turns a tagged frame into a PRP frame for a network: takes the tag out, puts a trailer of this kind behind the frame, with the
 * tag's number and the network's LAN (0 is A, 1 is B), and writes it to the start of the output; the bytes after it keep their
 * values. The answer tells the number, the length, and the network again. What nippitsun_from_prp wrote becomes the PRP frame
 * that it was, with the same kind and the network that was told. To send on two PRP lines, turn the one output of nippitsun_send
 * for network 0 and the other for network 1.
 * Refusals 2, 3, 4, 5, 4 again (the frame without its tag is short: 8100 then stands at 12, and fewer than 18 bytes are left), 8.
 * Any source is taken, and any type behind the tag: if that is F1C1, nippitsun_from_prp refuses what comes of it with 13. The
 * output must hold frame_bytes - 6 bytes and the trailer; NIPPITSUN_FRAME_MOST bytes are always enough. */
nippitsun_prp_answer nippitsun_to_prp(const uint8_t *NIPPITSUN_APART frame, size_t frame_bytes, uint8_t network, uint8_t kind,
                                      uint8_t *NIPPITSUN_APART out, size_t out_bytes);

/* ---- the layout, as the crates record, calls, batch, port, port_tick, port_prp and sender have it */

#define NIPPITSUN_TYPE(type, size, aligned) \
    NIPPITSUN_ASSERT(sizeof(type) == (size) && NIPPITSUN_ALIGNOF(type) == (aligned), "layout of " #type)
#define NIPPITSUN_FIELD(type, field, at, size) \
    NIPPITSUN_ASSERT(offsetof(type, field) == (at) && sizeof(((type *)0)->field) == (size), "layout of " #type ", " #field)

NIPPITSUN_TYPE(size_t, 8, 8);

NIPPITSUN_TYPE(nippitsun_state, 72, 8);
NIPPITSUN_FIELD(nippitsun_state, history, 0, 64);
NIPPITSUN_FIELD(nippitsun_state, anchor, 64, 2);
NIPPITSUN_FIELD(nippitsun_state, remaining, 66, 2);
NIPPITSUN_FIELD(nippitsun_state, early, 68, 2);
NIPPITSUN_FIELD(nippitsun_state, any, 70, 2);

NIPPITSUN_TYPE(nippitsun_counts, 64, 8);
NIPPITSUN_FIELD(nippitsun_counts, arrivals0, 0, 8);
NIPPITSUN_FIELD(nippitsun_counts, arrivals1, 8, 8);
NIPPITSUN_FIELD(nippitsun_counts, passed, 16, 8);
NIPPITSUN_FIELD(nippitsun_counts, discarded, 24, 8);
NIPPITSUN_FIELD(nippitsun_counts, rogue, 32, 8);
NIPPITSUN_FIELD(nippitsun_counts, disorder, 40, 8);
NIPPITSUN_FIELD(nippitsun_counts, lost, 48, 8);
NIPPITSUN_FIELD(nippitsun_counts, resets, 56, 8);

NIPPITSUN_TYPE(nippitsun_stream, 152, 8);
NIPPITSUN_FIELD(nippitsun_stream, dest, 0, 8);
NIPPITSUN_FIELD(nippitsun_stream, vlan, 8, 2);
NIPPITSUN_FIELD(nippitsun_stream, window, 10, 2);
NIPPITSUN_FIELD(nippitsun_stream, time, 12, 2);
NIPPITSUN_FIELD(nippitsun_stream, rule, 14, 1);
NIPPITSUN_FIELD(nippitsun_stream, used, 15, 1);
NIPPITSUN_FIELD(nippitsun_stream, state, 16, 72);
NIPPITSUN_FIELD(nippitsun_stream, counts, 88, 64);

NIPPITSUN_TYPE(nippitsun_arrival_answer, 24, 8);
NIPPITSUN_FIELD(nippitsun_arrival_answer, slot, 0, 8);
NIPPITSUN_FIELD(nippitsun_arrival_answer, length, 8, 8);
NIPPITSUN_FIELD(nippitsun_arrival_answer, number, 16, 2);
NIPPITSUN_FIELD(nippitsun_arrival_answer, verdict, 18, 1);
NIPPITSUN_FIELD(nippitsun_arrival_answer, refusal, 19, 1);
NIPPITSUN_FIELD(nippitsun_arrival_answer, priority, 20, 1);
NIPPITSUN_FIELD(nippitsun_arrival_answer, vlantag, 21, 1);

NIPPITSUN_TYPE(nippitsun_batch_answer, 784, 8);
NIPPITSUN_FIELD(nippitsun_batch_answer, answers, 0, 768);
NIPPITSUN_FIELD(nippitsun_batch_answer, frames, 768, 8);
NIPPITSUN_FIELD(nippitsun_batch_answer, refusal, 776, 1);

NIPPITSUN_TYPE(nippitsun_slot_answer, 16, 8);
NIPPITSUN_FIELD(nippitsun_slot_answer, slot, 0, 8);
NIPPITSUN_FIELD(nippitsun_slot_answer, refusal, 8, 1);

NIPPITSUN_TYPE(nippitsun_tick_answer, 24, 8);
NIPPITSUN_FIELD(nippitsun_tick_answer, resets, 0, 8);
NIPPITSUN_FIELD(nippitsun_tick_answer, damaged, 8, 8);
NIPPITSUN_FIELD(nippitsun_tick_answer, refusal, 16, 1);

NIPPITSUN_TYPE(nippitsun_tag_answer, 16, 8);
NIPPITSUN_FIELD(nippitsun_tag_answer, length, 0, 8);
NIPPITSUN_FIELD(nippitsun_tag_answer, number, 8, 2);
NIPPITSUN_FIELD(nippitsun_tag_answer, refusal, 10, 1);

NIPPITSUN_TYPE(nippitsun_prp_answer, 16, 8);
NIPPITSUN_FIELD(nippitsun_prp_answer, length, 0, 8);
NIPPITSUN_FIELD(nippitsun_prp_answer, number, 8, 2);
NIPPITSUN_FIELD(nippitsun_prp_answer, network, 10, 1);
NIPPITSUN_FIELD(nippitsun_prp_answer, refusal, 11, 1);

NIPPITSUN_TYPE(nippitsun_sender, 2, 2);
NIPPITSUN_FIELD(nippitsun_sender, next, 0, 2);

#undef NIPPITSUN_TYPE
#undef NIPPITSUN_FIELD
#undef NIPPITSUN_ASSERT
#undef NIPPITSUN_ALIGNOF
#undef NIPPITSUN_APART

#ifdef __cplusplus
}
#endif

#endif
