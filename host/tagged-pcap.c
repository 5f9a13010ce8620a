// tagged-pcap: frames on standard input, each with the number for its tag; a capture of the tagged frames on standard output.
// A record of the input is the number and the frame's length, two bytes each, high byte first, and the frame. Or a sender numbers
// the frames, and both copies are in the capture. For a PRP line the tag becomes a trailer, and the copies of both LANs are in it.
// checks/tshark lets tshark read the tags and trailers that the proved calls have written here.
#include "host.h"
#include "nippitsun.h"

#include <getopt.h>
#include <stdio.h>

static unsigned two_bytes(const uint8_t *at)
{
    return (unsigned)at[0] << 8 | at[1];
}

// The fields of a pcap file are in the machine's own byte order.
static void put(uint32_t number)
{
    fwrite(&number, sizeof number, 1, stdout);
}

// The time stamp is the place in the file, in microseconds.
static void put_frame(const uint8_t *frame, size_t length)
{
    static uint32_t place;
    put(place / 1000000);
    put(place % 1000000);
    put((uint32_t)length);
    put((uint32_t)length);
    fwrite(frame, 1, length, stdout);
    place++;
}

static const char usage[] =
    "usage: tagged-pcap [OPTION].. <RECORDS >CAPTURE\n"
    "  a record is the number for the tag and the frame's length, two bytes each, high byte first, and the frame\n"
    "  --sender N  a sender numbers the frames from N on: a record has no number, and both copies are written\n"
    "  --prp KIND  of a PRP line: a trailer of this kind, first or 2012, in place of the tag, and both copies are written, LAN A first\n"
    "  --help      print this text\n";

int main(int count, char **words)
{
    hold_descriptors();
    static const struct option options[] = {
        {"sender", required_argument, NULL, 's'},
        {"prp", required_argument, NULL, 'p'},
        {"help", no_argument, NULL, 'h'},
        {NULL, 0, NULL, 0},
    };
    nippitsun_sender sender = {0};
    int by_sender = 0, prp = NO_PRP;
    for (int o; (o = getopt_long(count, words, "", options, NULL)) != -1;) {
        switch (o) {
        case 's':
            by_sender = 1;
            sender.next = (uint16_t)read_number("number", optarg, 0, UINT16_MAX);
            break;
        case 'p': prp = read_prp(optarg); break;
        default: say_usage(usage, o == 'h');
        }
    }
    if (optind != count) say_usage(usage, 0);
    if (output_is_closed()) refuse("standard output is closed");

    // pcap with microseconds, version 2.4, no limit on the length that matters here, Ethernet.
    put(0xA1B2C3D4);
    fwrite((uint16_t[]){2, 4}, 2, 2, stdout);
    put(0);
    put(0);
    put(65535);
    put(1);

    // The number, if there is one, and the length.
    uint8_t head[4], *length_at = by_sender ? head : head + 2;
    uint8_t frame[NIPPITSUN_UNTAGGED_MOST], tagged[NETWORKS][NIPPITSUN_FRAME_MOST], turned[NIPPITSUN_FRAME_MOST];
    for (unsigned record = 1; fread(head, by_sender ? 2 : 4, 1, stdin) == 1; record++) {
        unsigned length = two_bytes(length_at);
        if (length > sizeof frame || fread(frame, 1, length, stdin) != length) refuse("record %u is cut or too long", record);
        nippitsun_tag_answer a = by_sender ? nippitsun_send(&sender, frame, length, tagged[0], sizeof tagged[0], tagged[1], sizeof tagged[1])
                                           : nippitsun_write_tag(frame, length, (uint16_t)two_bytes(head), tagged[0], sizeof tagged[0]);
        if (a.refusal != 0) refuse("record %u: %u, %s", record, a.refusal, refusal_words(a.refusal));
        for (int copy = 0; copy < (by_sender || prp != NO_PRP ? NETWORKS : 1); copy++) {
            const uint8_t *its = tagged[by_sender ? copy : 0];
            size_t bytes = a.length;
            if (prp != NO_PRP) {
                nippitsun_prp_answer t = nippitsun_to_prp(its, bytes, (uint8_t)copy, (uint8_t)prp, turned, sizeof turned);
                if (t.refusal != 0) refuse("record %u, to PRP: %u, %s", record, t.refusal, refusal_words(t.refusal));
                its = turned;
                bytes = t.length;
            }
            put_frame(its, bytes);
        }
    }
    if (fflush(stdout) != 0) fail("standard output");
    return 0;
}
