#include "port.h"
#include "clock.h"

#include <arpa/inet.h>
#include <errno.h>
#include <linux/errqueue.h>
#include <linux/net_tstamp.h>
#include <net/if.h>
#include <sys/ioctl.h>
#include <sys/socket.h>
#include <time.h>
#include <unistd.h>

// The kernel's own stamps. The cards' stamps are of clocks that cannot be compared.
// Not SO_TIMESTAMPNS: that gives a frame that has no stamp the time of its reading.
static int ask_for_stamps(int s)
{
    int flags = SOF_TIMESTAMPING_RX_SOFTWARE | SOF_TIMESTAMPING_SOFTWARE;
    return setsockopt(s, SOL_SOCKET, SO_TIMESTAMPING, &flags, sizeof flags);
}

// Type 0: until it is bound, the socket would take the frames of every interface.
static int packet_socket(void)
{
    return socket(AF_PACKET, SOCK_RAW, 0);
}

void stamps_on(void)
{
    // The kernel stamps as long as any socket asks for it, and begins a moment later. This one is bound to nothing and stays
    // open, so that a port that is opened while the program runs need not wait.
    int s = packet_socket();
    if (s < 0) fail_packet_socket("give it the right by 'setcap cap_net_raw,cap_net_admin+ep PROGRAM', or use the unit nippitsun-receive.service");
    if (ask_for_stamps(s) != 0) fail("SO_TIMESTAMPING");
    nanosleep(&(struct timespec){0, 20 * MILLISECOND}, NULL);
}

// A socket with a ring, if one is asked for and to be had.
static int make_socket(struct port *p, unsigned slots)
{
    int s = packet_socket();
    if (s < 0 || slots == 0) return s;
    const char *step = ring_open(&p->ring, s, slots);
    if (step == NULL) return s;
    if (!p->ringless) say("warning: %s: no ring: %s: %s; frames are read by system calls", p->interface, step, strerror(errno));
    p->ringless = 1;
    // Some steps may be done, and are not undone.
    close(s);
    return packet_socket();
}

// The room for frames that wait without a ring.
static const char *make_room(struct port *p, int s, int room)
{
    int on = 1;
    if (setsockopt(s, SOL_PACKET, PACKET_AUXDATA, &on, sizeof on) != 0) return "PACKET_AUXDATA";
    // The kernel doubles this, for its own records of a frame. Without the right to pass the machine's limit
    // (CAP_NET_ADMIN) the limit itself is taken, which may be enough.
    if (setsockopt(s, SOL_SOCKET, SO_RCVBUFFORCE, &room, sizeof room) == 0) return NULL;
    int given = 0;
    socklen_t size = sizeof given;
    setsockopt(s, SOL_SOCKET, SO_RCVBUF, &room, sizeof room);
    getsockopt(s, SOL_SOCKET, SO_RCVBUF, &given, &size);
    int poor = given / 2 < room;
    if (poor && !p->poor) say("warning: %s has no more room for waiting frames than net.core.rmem_max allows", p->interface);
    p->poor |= poor;
    return NULL;
}

static const char *set_up(struct port *p, int s, const struct port_settings *settings)
{
    // All of it before the bind: no frame comes in before the filter and the stamps.
    if (settings->filter.len != 0
        && setsockopt(s, SOL_SOCKET, SO_ATTACH_FILTER, &settings->filter, sizeof settings->filter) != 0) return "SO_ATTACH_FILTER";
    if (ask_for_stamps(s) != 0) return "SO_TIMESTAMPING";
    const char *failed = p->ring.at == NULL ? make_room(p, s, settings->room) : NULL;
    if (failed != NULL) return failed;
    struct sockaddr_ll where = {.sll_family = AF_PACKET, .sll_protocol = htons(ETH_P_ALL)};
    where.sll_ifindex = (int)if_nametoindex(p->interface);
    if (where.sll_ifindex == 0) return p->interface;
    if (bind(s, (struct sockaddr *)&where, sizeof where) != 0) return p->interface;
    // The streams' destinations are group addresses or not ours: the interface must let them through.
    struct packet_mreq all = {.mr_ifindex = where.sll_ifindex, .mr_type = PACKET_MR_PROMISC};
    if (setsockopt(s, SOL_PACKET, PACKET_ADD_MEMBERSHIP, &all, sizeof all) != 0) return "PACKET_MR_PROMISC";
    return NULL;
}

static void close_port(struct port *p)
{
    ring_close(&p->ring);
    close(p->socket);
    p->socket = -1;
}

const char *port_open(struct port *p, const struct port_settings *settings)
{
    p->head = p->tail = p->freed = 0;
    p->socket = make_socket(p, settings->slots);
    if (p->socket < 0) return "packet socket";
    const char *failed = set_up(p, p->socket, settings);
    if (failed != NULL) {
        int why = errno;
        close_port(p);
        errno = why;
    }
    return failed;
}

// A frame that was read without a ring: its length as the socket had it, its stamp and its VLAN tag stand beside it.
static void complete(struct frame *f, struct msghdr *message, size_t whole)
{
    f->whole = whole;
    f->length = whole < FRAME_PLACE ? whole : FRAME_PLACE;
    f->time = 0;
    for (struct cmsghdr *c = CMSG_FIRSTHDR(message); c != NULL; c = CMSG_NXTHDR(message, c)) {
        if (c->cmsg_level == SOL_SOCKET && c->cmsg_type == SCM_TIMESTAMPING) {
            struct scm_timestamping t;
            memcpy(&t, CMSG_DATA(c), sizeof t);
            f->time = t.ts[0].tv_sec * SECOND + t.ts[0].tv_nsec;
        }
        if (c->cmsg_level != SOL_PACKET || c->cmsg_type != PACKET_AUXDATA) continue;
        struct tpacket_auxdata aux;
        memcpy(&aux, CMSG_DATA(c), sizeof aux);
        frame_put_tag_back(f, aux.tp_status, aux.tp_vlan_tpid, aux.tp_vlan_tci);
    }
}

// Counts a frame that is in the queue.
static void count(struct port *p, const struct frame *f)
{
    p->frames++;
    // A packet socket also shows what this machine sends, if no filter stops it.
    if (f->outgoing) p->outgoing++;
    if (f->time == 0) p->unstamped++;
    if (f->whole <= FRAME_PLACE || p->cut++ != 0) return;
    say_now("cut: network %d (%s): a frame of %zu bytes is longer than a place that frames are read into; such frames are refused with 3",
            p->number, p->interface, f->whole);
}

static int read_ring(struct port *p)
{
    // A small ring may have fewer slots than the queue has places.
    while (p->tail < QUEUE && p->ring.lent < p->ring.slots) {
        struct frame *f = &p->queue[p->tail];
        if (!ring_take(&p->ring, f)) return 1;
        p->tail++;
        count(p, f);
    }
    return 0;
}

static int read_socket(struct port *p)
{
    enum { CONTROL = CMSG_SPACE(sizeof(struct tpacket_auxdata)) + CMSG_SPACE(sizeof(struct scm_timestamping)) };
    static _Alignas(struct cmsghdr) char controls[QUEUE][CONTROL];
    static struct mmsghdr messages[QUEUE];
    static struct iovec parts[QUEUE];
    static struct sockaddr_ll from[QUEUE];
    while (p->tail < QUEUE) {
        unsigned most = QUEUE - p->tail;
        for (unsigned i = 0; i < most; i++) {
            parts[i] = (struct iovec){p->places[p->tail + i] + VLAN_TAG, FRAME_PLACE};
            messages[i].msg_hdr = (struct msghdr){
                .msg_name = &from[i],
                .msg_namelen = sizeof from[i],
                .msg_iov = &parts[i],
                .msg_iovlen = 1,
                .msg_control = controls[i],
                .msg_controllen = CONTROL,
            };
        }
        // MSG_TRUNC: the length is that of the whole frame.
        int got = recvmmsg(p->socket, messages, most, MSG_DONTWAIT | MSG_TRUNC, NULL);
        // Fewer than asked for is no proof that nothing waits; this is.
        if (got < 0 && (errno == EAGAIN || errno == EWOULDBLOCK)) return 1;
        // An interface that went down says so before the frames that still wait.
        if (got < 0 && errno == ENETDOWN) p->down = 1;
        if (got < 0 && (errno == EINTR || errno == ENETDOWN)) continue;
        if (got < 0) fail("receive");
        for (int i = 0; i < got; i++) {
            struct frame *f = &p->queue[p->tail];
            f->at = p->places[p->tail++] + VLAN_TAG;
            f->outgoing = from[i].sll_pkttype == PACKET_OUTGOING;
            complete(f, &messages[i].msg_hdr, messages[i].msg_len);
            count(p, f);
        }
    }
    return 0;
}

int port_read(struct port *p)
{
    p->head = p->tail = p->freed = 0;
    if (p->socket < 0) return 1;
    return p->ring.at != NULL ? read_ring(p) : read_socket(p);
}

void port_free(struct port *p)
{
    if (p->ring.at != NULL) ring_give_back(&p->ring, p->head - p->freed);
    p->freed = p->head;
}

void port_went_down(struct port *p)
{
    int why = 0;
    socklen_t size = sizeof why;
    getsockopt(p->socket, SOL_SOCKET, SO_ERROR, &why, &size);
    p->down = 1;
}

void port_count_drops(struct port *p)
{
    struct tpacket_stats kernel = {0};
    socklen_t size = sizeof kernel;
    if (p->socket >= 0 && getsockopt(p->socket, SOL_PACKET, PACKET_STATISTICS, &kernel, &size) == 0) p->dropped += kernel.tp_drops;
}

// The number of the interface that the port is bound to, below 0 if it was removed; 0 if there is no socket.
static int bound_to(const struct port *p)
{
    struct sockaddr_ll bound;
    socklen_t size = sizeof bound;
    return p->socket < 0 || getsockname(p->socket, (struct sockaddr *)&bound, &size) != 0 ? 0 : bound.sll_ifindex;
}

enum port_state port_state(const struct port *p)
{
    // By the number: the interface may have another name by now.
    int number = bound_to(p);
    struct ifreq asked = {0};
    if (number <= 0 || if_indextoname((unsigned)number, asked.ifr_name) == NULL || ioctl(p->socket, SIOCGIFFLAGS, &asked) != 0) return NOT_THERE;
    if (!(asked.ifr_flags & IFF_UP)) return DOWN;
    return asked.ifr_flags & IFF_RUNNING ? UP : NO_CARRIER;
}

int port_has(const struct port *p, const char *interface)
{
    int number = bound_to(p);
    return number > 0 && (unsigned)number == if_nametoindex(interface);
}

int port_close_twin(struct port *p, const struct port *other)
{
    // A name may have changed hands after it was looked up.
    int number = bound_to(p);
    if (number <= 0 || number != bound_to(other)) return 0;
    close_port(p);
    return 1;
}

int port_close_dead(struct port *p)
{
    p->down = 0;
    // A socket whose interface went down only is still bound, and goes on when that comes up.
    if (bound_to(p) >= 0) return 0;
    port_count_drops(p);
    close_port(p);
    return 1;
}
