// count: reads every frame of an interface, counts it and does nothing else. host/rate measures the receivers beside it.
#include "host.h"

#include <arpa/inet.h>
#include <errno.h>
#include <inttypes.h>
#include <linux/if_ether.h>
#include <linux/if_packet.h>
#include <net/if.h>
#include <poll.h>
#include <signal.h>
#include <stdio.h>
#include <string.h>
#include <sys/socket.h>

enum { AT_ONCE = 64, LONGEST = 2048 };

static volatile sig_atomic_t asked_to_end;

static void ask_to_end(int signal)
{
    (void)signal;
    asked_to_end = 1;
}

int main(int count, char **words)
{
    hold_descriptors();
    if (count != 3) say_usage("usage: count ROOM-IN-KILOBYTES INTERFACE\n", count == 2 && strcmp(words[1], "--help") == 0);
    int room = (int)read_number("room", words[1], 1, 1 << 20) << 10, s = socket(AF_PACKET, SOCK_RAW, 0);
    if (s < 0) fail("packet socket");
    struct sockaddr_ll where = {.sll_family = AF_PACKET, .sll_protocol = htons(ETH_P_ALL), .sll_ifindex = (int)if_nametoindex(words[2])};
    if (setsockopt(s, SOL_SOCKET, SO_RCVBUFFORCE, &room, sizeof room) != 0) fail("SO_RCVBUFFORCE");
    if (bind(s, (struct sockaddr *)&where, sizeof where) != 0) fail(words[2]);
    struct sigaction ends = {.sa_handler = ask_to_end};
    sigaction(SIGTERM, &ends, NULL);
    fprintf(stderr, "listening on %s\n", words[2]);

    static uint8_t frames[AT_ONCE][LONGEST];
    static struct mmsghdr messages[AT_ONCE];
    struct iovec parts[AT_ONCE];
    for (int i = 0; i < AT_ONCE; i++) {
        parts[i] = (struct iovec){frames[i], LONGEST};
        messages[i].msg_hdr.msg_iov = &parts[i];
        messages[i].msg_hdr.msg_iovlen = 1;
    }
    uint64_t all = 0;
    for (;;) {
        int got = recvmmsg(s, messages, AT_ONCE, MSG_DONTWAIT, NULL);
        if (got > 0) all += (uint64_t)got;
        else if (errno != EAGAIN && errno != EINTR) fail("receive");
        else if (asked_to_end) break;
        else poll(&(struct pollfd){.fd = s, .events = POLLIN}, 1, 100);
    }
    struct tpacket_stats kernel = {0};
    socklen_t size = sizeof kernel;
    getsockopt(s, SOL_PACKET, PACKET_STATISTICS, &kernel, &size);
    fprintf(stderr, "frames %" PRIu64 " dropped %u\n", all, kernel.tp_drops);
    return 0;
}
