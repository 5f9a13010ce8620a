// flood: frames on each interface at the highest rate that the machine gives, one thread an interface, until a signal or for
// some time. They are foreign (untagged broadcasts, or untagged to a stream's address), or frames of a stream with the redundancy
// tag and rising numbers, as its sender or as a faulty tap sends them, and with priorities in their VLAN tags that follow from the numbers.
#include "clock.h"
#include "host.h"
#include "nippitsun.h"

#include <errno.h>
#include <getopt.h>
#include <inttypes.h>
#include <linux/if_packet.h>
#include <pthread.h>
#include <signal.h>
#include <stdio.h>
#include <string.h>
#include <sys/socket.h>
#include <time.h>

enum { AT_ONCE = 64, INTERFACES = 4, SIZE = 60 };

static const char usage[] =
    "usage: flood [OPTION].. INTERFACE..\n"
    "  --stream DEST,VLAN   frames of this stream with F1C1 and a number; without it untagged broadcasts\n"
    "  --untagged           without F1C1 and a number: foreign frames to the stream's address\n"
    "  --reflected          with a group source\n"
    "  --priorities         number N has priority N modulo 8 in its VLAN tag, and the bit behind that where N / 8 is odd; with VLAN id 0 too\n"
    "  --count N            so many on each interface; without it until SIGTERM\n"
    "  --rate N             so many a second on each interface, in bursts of 64; without it as fast as can be\n"
    "  --help               print this text\n";

struct line {
    const char *interface;
    pthread_t thread;
    int port;
    uint64_t sent;
};

static uint8_t dest[ADDRESS] = {0xFF, 0xFF, 0xFF, 0xFF, 0xFF, 0xFF};
static int vlan = -1, untagged, reflected, priorities;
static uint64_t most = UINT64_MAX, rate;
static volatile sig_atomic_t asked_to_end;

static void ask_to_end(int signal)
{
    (void)signal;
    asked_to_end = 1;
}

// Is there a VLAN tag?
static int has_tag(void)
{
    return vlan > 0 || (vlan == 0 && priorities);
}

static size_t make(uint8_t frame[SIZE + VLAN_TAG + NIPPITSUN_TAG_LENGTH])
{
    uint8_t plain[SIZE + VLAN_TAG] = {0};
    memcpy(plain, dest, ADDRESS);
    plain[ADDRESS] = 2;
    plain[2 * ADDRESS - 1] = 3;
    size_t at = TYPE_AT, length = SIZE;
    if (has_tag()) {
        plain[at++] = 0x81;
        plain[at++] = 0;
        plain[at++] = (uint8_t)(vlan >> 8);
        plain[at++] = (uint8_t)vlan;
        length += VLAN_TAG;
    }
    plain[at] = 0x88;
    plain[at + 1] = 0xB6;
    memcpy(frame, plain, length);
    if (vlan >= 0 && !untagged) length = nippitsun_write_tag(plain, length, 0, frame, SIZE + VLAN_TAG + NIPPITSUN_TAG_LENGTH).length;
    // The writer takes no group source, so it is set behind the writer.
    if (reflected) frame[ADDRESS] |= 1;
    return length;
}

static void number(uint8_t *frame, uint64_t n)
{
    size_t at = has_tag() ? TYPE_AT + VLAN_TAG + 4 : TYPE_AT + 4;
    frame[at] = (uint8_t)(n >> 8);
    frame[at + 1] = (uint8_t)n;
    if (priorities) frame[TYPE_AT + 2] = (uint8_t)((n & 7) << 5 | (n >> 3 & 1) << 4 | (unsigned)vlan >> 8);
}

static void *send_all(void *given)
{
    struct line *l = given;
    uint8_t frames[AT_ONCE][SIZE + VLAN_TAG + NIPPITSUN_TAG_LENGTH];
    struct iovec parts[AT_ONCE];
    struct mmsghdr messages[AT_ONCE];
    memset(messages, 0, sizeof messages);
    for (int i = 0; i < AT_ONCE; i++) {
        parts[i] = (struct iovec){frames[i], make(frames[i])};
        messages[i].msg_hdr.msg_iov = &parts[i];
        messages[i].msg_hdr.msg_iovlen = 1;
    }
    int64_t start = clock_now();
    while (!asked_to_end && l->sent < most) {
        for (int i = 0; vlan >= 0 && !untagged && i < AT_ONCE; i++) number(frames[i], l->sent + (uint64_t)i);
        unsigned now = most - l->sent < AT_ONCE ? (unsigned)(most - l->sent) : AT_ONCE;
        int got = sendmmsg(l->port, messages, now, 0);
        if (got < 0 && errno != ENOBUFS && errno != EAGAIN && errno != EINTR && errno != ENETDOWN) fail(l->interface);
        if (got > 0) l->sent += (uint64_t)got;
        if (rate == 0) continue;
        int64_t due = start + (int64_t)(l->sent * (uint64_t)SECOND / rate), pause = due - clock_now();
        if (pause > 0) nanosleep(&(struct timespec){pause / SECOND, pause % SECOND}, NULL);
    }
    return NULL;
}

int main(int count, char **words)
{
    hold_descriptors();
    static const struct option options[] = {
        {"stream", required_argument, NULL, 's'}, {"untagged", no_argument, NULL, 'u'},  {"reflected", no_argument, NULL, 'g'},
        {"count", required_argument, NULL, 'c'},  {"rate", required_argument, NULL, 'r'}, {"priorities", no_argument, NULL, 'p'},
        {"help", no_argument, NULL, 'h'},         {NULL, 0, NULL, 0},
    };
    for (int o; (o = getopt_long(count, words, "", options, NULL)) != -1;) {
        switch (o) {
        case 's': {
            char *comma = strchr(optarg, ',');
            if (comma == NULL) refuse("'%s' is not DEST,VLAN", optarg);
            *comma = 0;
            read_address(optarg, dest);
            vlan = (int)read_number("VLAN id", comma + 1, 0, NIPPITSUN_VLAN_MOST);
            break;
        }
        case 'u': untagged = 1; break;
        case 'g': reflected = 1; break;
        case 'p': priorities = 1; break;
        case 'c': most = read_number("count", optarg, 1, INT64_MAX); break;
        case 'r': rate = read_number("rate", optarg, 1, 1000000000); break;
        default: say_usage(usage, o == 'h');
        }
    }
    if (optind == count || count - optind > INTERFACES) say_usage(usage, 0);
    if (priorities && (vlan < 0 || untagged)) refuse("--priorities goes with --stream, and not with --untagged");
    struct sigaction ends = {.sa_handler = ask_to_end};
    sigaction(SIGINT, &ends, NULL);
    sigaction(SIGTERM, &ends, NULL);
    struct line lines[INTERFACES] = {{0}};
    int used = count - optind;
    for (int i = 0; i < used; i++) {
        lines[i].interface = words[optind + i];
        lines[i].port = open_sender(lines[i].interface);
        // Straight to the interface, without the queue before it.
        int on = 1;
        if (setsockopt(lines[i].port, SOL_PACKET, PACKET_QDISC_BYPASS, &on, sizeof on) != 0) fail("PACKET_QDISC_BYPASS");
    }
    int64_t start = clock_now();
    for (int i = 0; i < used; i++)
        if ((errno = pthread_create(&lines[i].thread, NULL, send_all, &lines[i])) != 0) fail("thread");
    for (int i = 0; i < used; i++) pthread_join(lines[i].thread, NULL);
    int64_t took = clock_now() - start;
    for (int i = 0; i < used; i++)
        printf("%s sent %" PRIu64 ", %.0f a second\n", lines[i].interface, lines[i].sent, (double)lines[i].sent * (double)SECOND / (double)took);
    return 0;
}
