// receive: two network interfaces, the proved receiver, one stream of frames on standard output. host/README.md says how
// to run it and why it does what it does.
#include "clock.h"
#include "filter.h"
#include "host.h"
#include "nippitsun.h"
#include "order.h"
#include "port.h"
#include "report.h"
#include "up.h"
#include "watch.h"
#include "words.h"

#include <errno.h>
#include <inttypes.h>
#include <net/if.h>
#include <poll.h>
#include <signal.h>
#include <stdlib.h>
#include <string.h>
#include <sys/mman.h>
#include <time.h>

// How long frames are still taken and given after a signal.
static const int64_t LAST_TURNS = 5000000000;

static struct wishes wishes;
static nippitsun_stream table[NIPPITSUN_SLOTS_MOST];
static uint8_t places[NIPPITSUN_PLACES]; // the table's index: zeros, as no slot is in use, and then what the opens make of it
static struct port ports[NETWORKS];
static struct port_settings settings;
static struct order order;
static struct up up;
static struct watches watches = {.table = table, .ports = ports};
static struct report report = {.table = table, .ports = ports, .order = &order, .up = &up, .watches = &watches};

// The destinations of virtual links. All frames that go there are theirs: no other stream has one of these.
static uint64_t links[NIPPITSUN_SLOTS_MOST];
static size_t link_count;

// Ticks of the wait at the start that are still to come. Until then the table is empty, and nothing is called.
static uint16_t ticks_to_wait;
static volatile sig_atomic_t asked_to_end, asked_to_say;

static void on_signal(int signal)
{
    if (signal == SIGUSR1) asked_to_say = 1;
    else asked_to_end = 1;
}

// ---- calls

// Does a frame go to a virtual link's destination?
static int goes_to_link(const uint8_t *frame, size_t length)
{
    if (link_count == 0 || length < ADDRESS) return 0;
    uint64_t dest = 0;
    for (int i = 0; i < ADDRESS; i++) dest = dest << 8 | frame[i];
    size_t i = 0;
    while (i < link_count && links[i] != dest) i++;
    return i < link_count;
}

static void arrive(int network, const uint8_t *frame, size_t length)
{
    uint8_t out[NIPPITSUN_FRAME_MOST];
    nippitsun_arrival_answer a = goes_to_link(frame, length)
        ? nippitsun_link_arrival(table, NIPPITSUN_SLOTS_MOST, (uint8_t)network, frame, length, out, sizeof out)
        : nippitsun_arrival(table, NIPPITSUN_SLOTS_MOST, (uint8_t)network, frame, length, out, sizeof out);
    if (a.verdict == NIPPITSUN_VERDICT_HANDED_UP) up_put(&up, a, out);
    report.refused[a.refusal]++;
    if (a.verdict != NIPPITSUN_VERDICT_NONE) watch_arrival(&watches, a, network, order.time);
}

// A frame of a PRP line arrives on the network that LAN gives, whatever port it came on.
static void arrive_by_lan(int port, const uint8_t *frame, size_t length)
{
    uint8_t tagged[NIPPITSUN_FRAME_MOST];
    nippitsun_prp_answer a = nippitsun_from_prp(frame, length, (uint8_t)wishes.prp, tagged, sizeof tagged);
    report_turn(&report, a, port);
    if (a.refusal == 0) arrive(a.network, tagged, a.length);
}

// The first waiting frame of a port. It is turned here and no earlier: the order goes by the port that it came on.
static void call(int port)
{
    struct port *p = &ports[port];
    const struct frame *f = &p->queue[p->head++];
    if (f->outgoing) return;
    if (ticks_to_wait > 0) p->early++;
    else if (wishes.prp == NO_PRP) arrive(port, f->at, f->length);
    else arrive_by_lan(port, f->at, f->length);
}

static void open_streams(void)
{
    for (size_t i = 0; i < wishes.count; i++) {
        const struct settings *s = &wishes.streams[i];
        uint8_t refusal = nippitsun_open(table, NIPPITSUN_SLOTS_MOST, places, sizeof places, s->dest, s->vlan, s->rule, s->window, s->time).refusal;
        if (refusal == 0) continue;
        // It was taken when the words were read, and only opens have changed this table and its index: the memory is damaged.
        say("failed: refused (%u): %s", refusal, refusal_words(refusal));
        exit(1);
    }
    watch_begin(&watches, order.time);
    report.listening = 1;
    say("listening on %s and %s", ports[0].interface, ports[1].interface);
}

// A table that knows nothing must not hand up while a copy of what was handed up before a restart may be on its way: for R ticks.
static void tick(void)
{
    if (ticks_to_wait > 0) {
        if (--ticks_to_wait == 0) open_streams();
        return;
    }
    report.damaged = nippitsun_tick(table, NIPPITSUN_SLOTS_MOST).damaged;
    report.ticks++;
}

static int waits(const struct port *p)
{
    return p->head < p->tail;
}

static int any_waits(void)
{
    return waits(&ports[0]) || waits(&ports[1]);
}

// Reads the ports, and brings the stamps to the order's clock.
static void read_ports(void)
{
    order_turn(&order, clock_now());
    int read[NETWORKS], empty[NETWORKS] = {0, 0};
    for (int i = 0; i < NETWORKS; i++) {
        read[i] = !waits(&ports[i]);
        if (read[i]) empty[i] = port_read(&ports[i]);
    }
    int64_t ahead = clock_ahead(order.ahead);
    order_read(&order, clock_now(), ahead);
    for (int i = 0; i < NETWORKS; i++) {
        if (!read[i]) continue;
        for (unsigned k = 0; k < ports[i].tail; k++) ports[i].queue[k].time = order_stamp(&order, i, ports[i].queue[k].time);
        order_port(&order, i, empty[i]);
    }
}

// Reads both ports and calls what is due, as long as there is room for what may be handed up. Answers the number of frames.
static unsigned turn(void)
{
    read_ports();
    unsigned frames = 0;
    for (enum call next = FRAME; next != NOTHING && !up_full(&up);) {
        const int64_t *head[NETWORKS];
        int network = 0;
        for (int i = 0; i < NETWORKS; i++) head[i] = waits(&ports[i]) ? &ports[i].queue[ports[i].head].time : NULL;
        next = order_next(&order, head, &network);
        if (next == TICK) tick();
        if (next == FRAME) {
            call(network);
            frames++;
        }
    }
    for (int i = 0; i < NETWORKS; i++) port_free(&ports[i]);
    watch_time(&watches, order.time);
    return frames;
}

// ---- between turns

// An interface that was removed is said to be gone, and looked for at once and then each second.
static void look_after(int network, int each_second)
{
    struct port *p = &ports[network];
    const struct port *other = &ports[1 - network];
    // What still waits in the socket of a removed interface is read first.
    int look = (p->down || each_second) && order.line[network].empty && !waits(p);
    int gone = look && port_close_dead(p);
    if (gone) say_now("gone: network %d (%s): the interface is not there; trying each second", network, p->interface);
    if ((!gone && !each_second) || p->socket >= 0) return;
    // The other network's interface may have this name by now. One that is not there is not tried: a ring takes its time.
    if (if_nametoindex(p->interface) == 0 || port_has(other, p->interface) || port_open(p, &settings) != NULL || port_close_twin(p, other)) return;
    p->reopened++;
    say_now("again: network %d (%s): the interface is there and open", network, p->interface);
}

// What the kernel had dropped when standard output was found to take nothing; whether that was said, and when it was last. A small backlog
// may fill and empty many times a second.
static uint64_t dropped_before[NETWORKS];
static int stall_said;
static int64_t stall_last_said = INT64_MIN / 2;

static void say_stall(int64_t now)
{
    stall_said = now - stall_last_said >= SECOND;
    if (!stall_said) return;
    stall_last_said = now;
    say_now("stalled: standard output takes nothing, and the backlog of %" PRIu64 " KB is full: nothing more is read, and ticks stop", wishes.backlog);
}

static void stand_still(int64_t now)
{
    up.stalled = now;
    up.stalls++;
    for (int i = 0; i < NETWORKS; i++) {
        port_count_drops(&ports[i]);
        dropped_before[i] = ports[i].dropped;
    }
    say_stall(now);
}

static void go_on(int64_t now)
{
    int64_t stood = now - up.stalled;
    up.stalled = 0;
    if (!stall_said) return;
    for (int i = 0; i < NETWORKS; i++) port_count_drops(&ports[i]);
    say_now("again: standard output takes frames after %" PRId64 " ms; dropped by the kernel meanwhile on network 0 (%s): %" PRIu64 ", on network 1 (%s): %" PRIu64,
            stood / MILLISECOND, ports[0].interface, ports[0].dropped - dropped_before[0], ports[1].interface, ports[1].dropped - dropped_before[1]);
}

// Gives what was handed up. While the backlog is full nothing is read and no tick is called, so that frames and ticks stay in the
// order of stamps; the order takes this for a turn that comes late.
static void give(int64_t now)
{
    up_write(&up);
    if (up.error != 0) return;
    if (up.stalled == 0 && up_full(&up)) stand_still(now);
    else if (up.stalled != 0 && up.used <= up.size / 2) go_on(now);
    else if (up.stalled != 0 && !stall_said) say_stall(now);
}

// Waits until then at the latest: for frames, if they are read, and for standard output, if something waits for it.
static void wait_until(int64_t until, int reading, const sigset_t *held, const sigset_t *outside)
{
    int64_t now = clock_now(), pause = until > now ? until - now : 0;
    if (reading && pause != 0) order_sleep(&order, until);
    struct timespec limit = {pause / SECOND, pause % SECOND};
    struct pollfd wait[NETWORKS + 1] = {[NETWORKS] = {.fd = up.used > 0 ? up.descriptor : -1, .events = POLLOUT}};
    for (int i = 0; i < NETWORKS; i++) wait[i] = (struct pollfd){.fd = reading ? ports[i].socket : -1, .events = POLLIN};
    int ready = ppoll(wait, NETWORKS + 1, &limit, outside);
    if (ready < 0 && errno != EINTR) fail("ppoll");
    if (ready <= 0) return;
    for (int i = 0; i < NETWORKS; i++)
        if (wait[i].revents & POLLERR) port_went_down(&ports[i]);
    // Where a frame waits already ppoll lets no signal in, and in a flood one always does.
    sigprocmask(SIG_SETMASK, outside, NULL);
    sigprocmask(SIG_BLOCK, held, NULL);
}

static void each_second_say(void)
{
    watch_second(&watches, order.time);
    report_write(&report);
}

static int64_t earlier(int64_t a, int64_t b)
{
    return a < b ? a : b;
}

// Receives until a signal, until all is quiet, or until standard output fails.
static void run(const sigset_t *held, const sigset_t *outside)
{
    int64_t now = clock_now(), last = now, second = now + SECOND, end = INT64_MAX;
    int over = 0; // no port is read any more
    do {
        int reading = !over && up.stalled == 0, waited = ticks_to_wait > 0;
        int64_t until = earlier(second, end);
        if (reading) until = asked_to_end || any_waits() ? now : earlier(until, order.next);
        if (reading && wishes.quiet != 0 && !waited) until = earlier(until, last + wishes.quiet);
        wait_until(until, reading, held, outside);

        unsigned frames = reading ? turn() : 0;
        now = clock_now();
        give(now);
        if (frames != 0 || waited) last = now;
        int each_second = now >= second;
        if (reading)
            for (int i = 0; i < NETWORKS; i++) look_after(i, each_second);
        if (each_second) {
            each_second_say();
            second = now + SECOND;
        }
        if (asked_to_say) report_say(&report);
        asked_to_say = 0;
        if (asked_to_end && end == INT64_MAX) end = now + LAST_TURNS;
        int quiet = wishes.quiet != 0 && now - last >= wishes.quiet;
        if (reading && up.stalled == 0 && !any_waits() && ((asked_to_end && frames == 0) || quiet)) over = 1;
        if (over) end = earlier(end, now + LAST_TURNS);
        // In the wait nothing is owed to anybody.
        if (asked_to_end && ticks_to_wait > 0) return;
    } while (up.error == 0 && now < end && !(over && up.used == 0));
}

// ---- the beginning

// A page that has to be fetched back from the disk is a stall. Without the right to lock so much the program goes on. Only what
// is there now is locked, which is all that the turns use: a limit that is just enough for it must not make later requests
// fail.
static void lock_memory(void)
{
    // A locked stack that grows counts against the limit too, so it has grown before.
    volatile char stack[1 << 16];
    for (size_t i = 0; i < sizeof stack; i += 1024) stack[i] = 0;
    // The time zone's file is read once.
    tzset();
    if (mlockall(MCL_CURRENT) != 0) say("warning: memory is not locked: %s", strerror(errno));
}

// The signals come in at ppoll alone, so none is missed between the test of the flag and the wait.
static void hold_signals(sigset_t *held, sigset_t *outside)
{
    struct sigaction action = {.sa_handler = on_signal};
    sigemptyset(held);
    for (size_t i = 0; i < 3; i++) {
        int signal = (int[]){SIGINT, SIGTERM, SIGUSR1}[i];
        sigaddset(held, signal);
        sigaction(signal, &action, NULL);
    }
    sigprocmask(SIG_BLOCK, held, outside);
}

// A small frame takes about 0.4 KB of a socket's room, and a slot of a ring: as many frames with the one as with the other.
static unsigned ring_slots(void)
{
    uint64_t slots = wishes.no_ring ? 0 : (wishes.room << 10) / 416;
    if (slots <= RING_MOST) return (unsigned)slots;
    say("warning: --room %" PRIu64 ": the ring has its most, %d frames", wishes.room, RING_MOST);
    return RING_MOST;
}

static void list_links(void)
{
    EACH_SLOT(wishes.table, i)
        if (wishes.table[i].rule == NIPPITSUN_RULE_LINK) links[link_count++] = wishes.table[i].dest;
}

static void open_ports(void)
{
    static struct sock_filter program[FILTER_MOST];
    settings = (struct port_settings){.filter = {.filter = program}, .room = (int)wishes.room << 10, .slots = ring_slots()};
    if (!wishes.all) settings.filter.len = filter_write(program, wishes.table, wishes.prp);
    stamps_on();
    for (int i = 0; i < NETWORKS; i++) {
        const char *failed = port_open(&ports[i], &settings);
        if (failed != NULL) fail(failed);
    }
}

static void name_ports(void)
{
    for (int i = 0; i < NETWORKS; i++) {
        ports[i].interface = wishes.interfaces[i];
        ports[i].number = i;
        if (if_nametoindex(ports[i].interface) == 0) refuse("there is no interface '%s'", ports[i].interface);
    }
    // One wire for both would make each frame its own twin. By number: an interface may have two names.
    if (if_nametoindex(ports[0].interface) == if_nametoindex(ports[1].interface)) refuse("both networks are on interface '%s'", ports[0].interface);
}

// Was something handed up that could not be given? It is said.
static int say_not_given(void)
{
    if (up.frames == 0) return 0;
    say("failed: standard output: %s; %zu frames that were handed up were not given", up.error != 0 ? strerror(up.error) : "its reader takes nothing", up.frames);
    return 1;
}

static _Noreturn void end(void)
{
    each_second_say();
    report_say(&report);
    exit(say_not_given());
}

// The machine has failed. What was handed up before that is given as far as it is taken, and the rest is said.
static void give_up(void)
{
    up_write(&up);
    say_not_given();
}

int main(int count, char **words)
{
    hold_descriptors();
    // A reader of standard output that has gone is a failed write, which is said.
    signal(SIGPIPE, SIG_IGN);
    read_words(&wishes, count, words);
    if (output_is_closed() && wishes.give != NOT_AT_ALL) refuse("standard output is closed");
    report.prp = wishes.prp;
    report.file = wishes.stats;
    watches.alarm = wishes.alarm;
    list_links();
    name_ports();
    report_lock(&report);
    sigset_t held, outside;
    hold_signals(&held, &outside);
    up_open(&up, wishes.give, wishes.backlog << 10);
    // Before there are rings: they are the kernel's and stay in memory, but would count against the limit.
    lock_memory();
    open_ports();
    ticks_to_wait = wait_of(&wishes);
    order_start(&order, wishes.period, clock_now(), clock_ahead(0));
    if (ticks_to_wait == 0) open_streams();
    else
        say("waiting for %u ticks of %" PRId64 " ms, %" PRId64 " ms in all: copies of what was handed up before may still come", ticks_to_wait,
            wishes.period / MILLISECOND, ticks_to_wait * (wishes.period / MILLISECOND));
    before_failing = give_up;
    run(&held, &outside);
    end();
}
