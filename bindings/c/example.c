/* A sender and a controller's receiver in short: one stream, a command that is sent on both networks and comes on both, and a
 * tick. docs/LINKING.md says how to build it. */
#include "nippitsun.h"

#include <stdio.h>

static nippitsun_stream table[8]; /* all zero: eight free slots */
static uint8_t places[NIPPITSUN_PLACES]; /* the table's index; all zero: no slot is in use */
static uint8_t out[NIPPITSUN_FRAME_MOST];

static nippitsun_sender sender; /* all zero: its first frame gets the number 0 */
static uint8_t out0[NIPPITSUN_FRAME_MOST], out1[NIPPITSUN_FRAME_MOST]; /* what goes out on network 0 and on network 1 */

static void receive(uint8_t network, const uint8_t *frame, size_t bytes) {
    nippitsun_arrival_answer a = nippitsun_arrival(table, 8, network, frame, bytes, out, sizeof out);
    if (a.refusal != NIPPITSUN_REFUSED_NOT)
        printf("network %d: refused (%d)\n", network, a.refusal);
    else if (a.verdict == NIPPITSUN_VERDICT_HANDED_UP) /* carry out the command in out[], in the order of its priority */
        printf("network %d: number %d handed up, priority %d, %zu bytes\n", network, a.number, a.priority, a.length);
    else
        printf("network %d: number %d is a %s\n", network, a.number, a.verdict == NIPPITSUN_VERDICT_DUPLICATE ? "duplicate" : "rogue");
}

int main(void) {
    static const uint8_t destination[6] = {2, 0, 0, 0, 0, 1};
    /* VLAN 7, the vector rule, a window of 4 numbers, reset after 3 ticks with nothing handed up. */
    nippitsun_slot_answer opened = nippitsun_open(table, 8, places, sizeof places, destination, 7, NIPPITSUN_RULE_VECTOR, 4, 3);
    if (opened.refusal) return 1;

    /* The command as an ordinary frame: destination, source, VLAN tag (priority 5, VLAN 7), type, and what to do. */
    static const uint8_t frame[] = {2, 0, 0, 0, 0, 1, 2, 0, 0, 0, 0, 2, 0x81, 0x00, 0xA0, 7, 0x08, 0x00, 0xAB};
    nippitsun_tag_answer sent = nippitsun_send(&sender, frame, sizeof frame, out0, sizeof out0, out1, sizeof out1);
    if (sent.refusal) return 1;
    printf("number %d sent, %zu bytes on each network\n", sent.number, sent.length);

    receive(0, out0, sent.length);
    receive(1, out1, sent.length);
    receive(1, out1, 19); /* cut short on its way */

    nippitsun_tick_answer t = nippitsun_tick(table, 8);
    printf("tick: %d streams reset, %d records damaged\n", (int)t.resets, (int)t.damaged);
    printf("handed up %d, duplicates %d\n", (int)table[opened.slot].counts.passed, (int)table[opened.slot].counts.discarded);
    return 0;
}
