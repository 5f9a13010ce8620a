#include "report.h"

#include <errno.h>
#include <fcntl.h>
#include <inttypes.h>
#include <limits.h>
#include <stdio.h>
#include <string.h>
#include <sys/file.h>
#include <unistd.h>

void report_turn(struct report *r, nippitsun_prp_answer a, int port)
{
    r->refused[a.refusal]++;
    if (a.refusal != 0 || a.network == port) return;
    // Said once: with crossed cables it is so of every frame.
    if (r->ports[port].crossed++ != 0) return;
    say("warning: LAN %c came on the card for network %d, %s: are the cables crossed?", 'A' + a.network, port, r->ports[port].interface);
}

// ---- in words

static void say_stream(const struct report *r, size_t slot)
{
    const nippitsun_stream *s = &r->table[slot];
    const nippitsun_counts *c = &s->counts;
    const struct watch *w = &r->watches->of[slot];
    char dest[ADDRESS_TEXT];
    write_address(dest, s->dest);
    say("slot %zu dest %s vlan %u rule %s L %u R %u arrivals0 %" PRIu64 " arrivals1 %" PRIu64 " passed %" PRIu64 " discarded %" PRIu64 " rogue %" PRIu64
        " out_of_order %" PRIu64 " lost %" PRIu64 " resets %" PRIu64 " silences0 %" PRIu64 " returns0 %" PRIu64 " silences1 %" PRIu64 " returns1 %" PRIu64,
        slot, dest, s->vlan, rule_words(s->rule), s->window, s->time, c->arrivals0, c->arrivals1, c->passed, c->discarded, c->rogue, c->disorder, c->lost,
        c->resets, w->silences[0], w->returns[0], w->silences[1], w->returns[1]);
}

static void say_network(const struct report *r, int network)
{
    struct port *p = &r->ports[network];
    port_count_drops(p);
    // On a PRP line alone.
    char crossed[32] = "";
    if (r->prp != NO_PRP) snprintf(crossed, sizeof crossed, " crossed %" PRIu64, p->crossed);
    say("network %d (%s) frames %" PRIu64 " early %" PRIu64 " outgoing %" PRIu64 " dropped %" PRIu64 " unstamped %" PRIu64 " cut %" PRIu64 " reopened %" PRIu64 "%s",
        network, p->interface, p->frames, p->early, p->outgoing, p->dropped, p->unstamped, p->cut, p->reopened, crossed);
}

void report_say(struct report *r)
{
    EACH_SLOT(r->table, i) say_stream(r, i);
    for (unsigned n = 1; n <= UINT8_MAX; n++)
        if (r->refused[n] != 0) say("refused %u (%s) %" PRIu64, n, refusal_words(n), r->refused[n]);
    if (r->damaged != 0) say("damaged %" PRIu64, r->damaged);
    for (int b = 0; b < NETWORKS; b++) say_network(r, b);
    say("output waiting %zu stalls %" PRIu64, r->up->frames, r->up->stalls);
    say("ticks %" PRIu64 " late_turns %" PRIu64 " clock_steps %" PRIu64, r->ticks, r->order->late, r->order->steps);
}

// ---- the file for Prometheus

static void head(FILE *f, const char *name, const char *type, const char *help)
{
    fprintf(f, "# HELP nippitsun_%s %s\n# TYPE nippitsun_%s %s\n", name, help, name, type);
}

static void stream_labels(FILE *f, const struct report *r, size_t slot)
{
    char dest[ADDRESS_TEXT];
    write_address(dest, r->table[slot].dest);
    fprintf(f, "slot=\"%zu\",dest=\"%s\",vlan=\"%u\"", slot, dest, r->table[slot].vlan);
}

// One number of each stream, at this place of its counters.
static void by_stream(FILE *f, const struct report *r, const char *name, const char *help, size_t at)
{
    head(f, name, "counter", help);
    EACH_SLOT(r->table, i)
    {
        uint64_t n;
        memcpy(&n, (const char *)&r->table[i].counts + at, sizeof n);
        fprintf(f, "nippitsun_%s{", name);
        stream_labels(f, r, i);
        fprintf(f, "} %" PRIu64 "\n", n);
    }
}

static uint64_t arrivals(const struct report *r, size_t slot, int network)
{
    const nippitsun_counts *c = &r->table[slot].counts;
    return network == 0 ? c->arrivals0 : c->arrivals1;
}

static uint64_t silent(const struct report *r, size_t slot, int network)
{
    return (uint64_t)r->watches->of[slot].silent[network];
}

static uint64_t silences(const struct report *r, size_t slot, int network)
{
    return r->watches->of[slot].silences[network];
}

static uint64_t returns(const struct report *r, size_t slot, int network)
{
    return r->watches->of[slot].returns[network];
}

static void by_stream_and_network(FILE *f, const struct report *r, const char *name, const char *type, const char *help,
                                  uint64_t (*number)(const struct report *, size_t, int))
{
    head(f, name, type, help);
    EACH_SLOT(r->table, i)
    for (int b = 0; b < NETWORKS; b++) {
        fprintf(f, "nippitsun_%s{", name);
        stream_labels(f, r, i);
        fprintf(f, ",network=\"%d\"} %" PRIu64 "\n", b, number(r, i, b));
    }
}

static void by_network(FILE *f, const char *name, const char *type, const char *help, const uint64_t number[NETWORKS])
{
    head(f, name, type, help);
    for (int b = 0; b < NETWORKS; b++) fprintf(f, "nippitsun_%s{network=\"%d\"} %" PRIu64 "\n", name, b, number[b]);
}

static void alone(FILE *f, const char *name, const char *type, const char *help, uint64_t number)
{
    head(f, name, type, help);
    fprintf(f, "nippitsun_%s %" PRIu64 "\n", name, number);
}

static void write_all(FILE *f, const struct report *r)
{
    const struct port *p = r->ports;
    enum port_state state[NETWORKS] = {port_state(&p[0]), port_state(&p[1])};
    alone(f, "listening", "gauge", "1 once the wait at the start is over and the streams are open.", (uint64_t)r->listening);
    by_stream_and_network(f, r, "arrivals_total", "counter", "Arrivals of a stream on a network.", arrivals);
    by_stream(f, r, "passed_total", "Frames handed up.", offsetof(nippitsun_counts, passed));
    by_stream(f, r, "discarded_total", "Duplicates.", offsetof(nippitsun_counts, discarded));
    by_stream(f, r, "rogue_total", "Frames outside the window.", offsetof(nippitsun_counts, rogue));
    by_stream(f, r, "out_of_order_total", "Frames handed up out of order.", offsetof(nippitsun_counts, disorder));
    by_stream(f, r, "lost_total", "Numbers after the first that left the window and were not handed up.",
              offsetof(nippitsun_counts, lost));
    by_stream(f, r, "resets_total", "Times the stream became fresh.", offsetof(nippitsun_counts, resets));
    by_stream_and_network(f, r, "silent", "gauge", "1 while a network has no arrivals of a stream and the other has.", silent);
    by_stream_and_network(f, r, "silences_total", "counter", "Times a network fell silent for a stream.", silences);
    by_stream_and_network(f, r, "returns_total", "counter", "Times a silent network had arrivals again.", returns);
    head(f, "refused_total", "counter", "Frames that the receiver refused, by number.");
    for (unsigned n = 1; n <= UINT8_MAX; n++)
        if (is_refusal(n)) fprintf(f, "nippitsun_refused_total{number=\"%u\"} %" PRIu64 "\n", n, r->refused[n]);
    alone(f, "damaged", "gauge", "Records in use that are damaged, at the last tick.", r->damaged);
    by_network(f, "frames_total", "counter", "Frames read from a network.", (uint64_t[]){p[0].frames, p[1].frames});
    by_network(f, "early_total", "counter", "Frames read in the wait at the start, and not called.", (uint64_t[]){p[0].early, p[1].early});
    by_network(f, "outgoing_total", "counter", "Frames read that this machine sent.", (uint64_t[]){p[0].outgoing, p[1].outgoing});
    by_network(f, "dropped_total", "counter", "Frames that the kernel dropped for want of room.", (uint64_t[]){p[0].dropped, p[1].dropped});
    by_network(f, "unstamped_total", "counter", "Frames without the kernel's time stamp.", (uint64_t[]){p[0].unstamped, p[1].unstamped});
    by_network(f, "cut_total", "counter", "Frames longer than a place that frames are read into.", (uint64_t[]){p[0].cut, p[1].cut});
    by_network(f, "reopened_total", "counter", "Times an interface was there again.", (uint64_t[]){p[0].reopened, p[1].reopened});
    if (r->prp != NO_PRP)
        by_network(f, "crossed_total", "counter", "Frames with the other network's LAN in their trailer.", (uint64_t[]){p[0].crossed, p[1].crossed});
    by_network(f, "open", "gauge", "1 while the interface is there, open and administratively up.", (uint64_t[]){state[0] > DOWN, state[1] > DOWN});
    by_network(f, "carrier", "gauge", "1 while the interface has a carrier.", (uint64_t[]){state[0] == UP, state[1] == UP});
    alone(f, "output_waiting", "gauge", "Frames handed up that wait for standard output.", r->up->frames);
    alone(f, "stalls_total", "counter", "Times the backlog for standard output was full.", r->up->stalls);
    alone(f, "ticks_total", "counter", "Ticks.", r->ticks);
    alone(f, "late_turns_total", "counter", "Turns that came late by more than a quarter of a tick.", r->order->late);
    alone(f, "clock_steps_total", "counter", "Steps of real time.", r->order->steps);
}

// A name beside the file. Answers 0 if it is too long for a name.
static int name_beside(char name[PATH_MAX], const struct report *r, const char *end)
{
    if (snprintf(name, PATH_MAX, "%s%s", r->file, end) < PATH_MAX) return 1;
    errno = ENAMETOOLONG;
    return 0;
}

void report_lock(const struct report *r)
{
    char name[PATH_MAX];
    if (r->file == NULL || !name_beside(name, r, ".lock")) return;
    // Held for as long as the program runs.
    int lock = open(name, O_RDWR | O_CREAT | O_CLOEXEC, 0644);
    if (lock < 0) say("warning: %s: %s", name, strerror(errno));
    else if (flock(lock, LOCK_EX | LOCK_NB) != 0 && errno == EWOULDBLOCK) refuse("--stats %s: another receiver writes it", r->file);
}

static int write_file(const struct report *r)
{
    char beside[PATH_MAX];
    FILE *f = name_beside(beside, r, ".new") ? fopen(beside, "w") : NULL;
    if (f == NULL) return 0;
    write_all(f, r);
    int good = !ferror(f);
    return fclose(f) == 0 && good && rename(beside, r->file) == 0;
}

void report_write(struct report *r)
{
    if (r->file == NULL) return;
    for (int b = 0; b < NETWORKS; b++) port_count_drops(&r->ports[b]);
    // The receiver goes on: commands matter more than their count.
    int failed = !write_file(r);
    if (failed && !r->warned) say("warning: %s: %s", r->file, strerror(errno));
    if (!failed && r->warned) say_now("again: %s: counters are written again", r->file);
    r->warned = failed;
}
