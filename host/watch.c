#include "watch.h"
#include "clock.h"

#include <inttypes.h>
#include <stdarg.h>
#include <stdio.h>

// Hand-ups of a block. By the formulas the window is twice as wide as networks that are in order lie apart: so at least half of as many
// frames have their second copies within them, however the networks change places. A virtual link has no window, and its L is for this
// alone.
static unsigned block_of(const nippitsun_stream *s)
{
    enum { LEAST = 16 };
    return s->window > LEAST ? s->window : LEAST;
}

__attribute__((format(printf, 4, 5)))
static void say_slot(const struct watches *w, size_t slot, const char *word, const char *format, ...)
{
    char dest[ADDRESS_TEXT], text[1024];
    write_address(dest, w->table[slot].dest);
    va_list more;
    va_start(more, format);
    vsnprintf(text, sizeof text, format, more);
    va_end(more);
    say_now("%s: slot %zu dest %s vlan %u: %s", word, slot, dest, w->table[slot].vlan, text);
}

void watch_begin(struct watches *w, int64_t time)
{
    EACH_SLOT(w->table, i)
        w->of[i] = (struct watch){.last = {time, time}, .up = time, .share.before = w->table[i].window};
}

// ---- an arrival

// Second copies belong to no block for as long as those of frames before it may come.
static void count_share(struct share *s, const nippitsun_stream *stream, int verdict, int64_t time)
{
    if (stream->counts.resets != s->resets) {
        s->resets = stream->counts.resets;
        s->before = stream->window;
        s->ups = s->copies = 0;
    }
    if (s->before > 0) {
        if (verdict == NIPPITSUN_VERDICT_HANDED_UP) s->before--;
        return;
    }
    if (verdict == NIPPITSUN_VERDICT_DUPLICATE) s->copies++;
    if (verdict != NIPPITSUN_VERDICT_HANDED_UP || ++s->ups < block_of(stream)) return;
    if (2 * s->copies >= block_of(stream)) s->good = 1;
    else {
        if (!s->poor || s->copies < s->fewest) s->fewest = s->copies;
        s->poor = 1;
        s->last = time;
    }
    s->ups = s->copies = 0;
}

static void hear_network(struct watches *w, size_t slot, int network, int64_t time)
{
    struct watch *s = &w->of[slot];
    s->since[network] = 0;
    s->last[network] = time;
    if (s->since[1 - network] == 0 && time - s->last[1 - network] > w->alarm / 2) s->since[1 - network] = time;
    if (!s->silent[network]) return;
    s->silent[network] = 0;
    s->returns[network]++;
    // The copies that were missing were this network's, which was said.
    s->share.poor = 0;
    s->share.ups = s->share.copies = 0;
    say_slot(w, slot, "back", "arrivals on network %d (%s) again", network, w->ports[network].interface);
}

static void hear_verdict(struct watches *w, size_t slot, int verdict, int64_t time)
{
    struct watch *s = &w->of[slot];
    if (verdict != NIPPITSUN_VERDICT_HANDED_UP) {
        if (s->stuck || w->alarm == 0 || time - s->up < w->alarm) return;
        s->stuck = 1;
        say_slot(w, slot, "alarm", "arrivals, but nothing handed up for %" PRId64 " ms", w->alarm / MILLISECOND);
        return;
    }
    s->up = time;
    if (s->stuck) say_slot(w, slot, "back", "frames are handed up again");
    s->stuck = 0;
}

void watch_arrival(struct watches *w, nippitsun_arrival_answer a, int network, int64_t time)
{
    struct watch *s = &w->of[a.slot];
    hear_network(w, a.slot, network, time);
    hear_verdict(w, a.slot, a.verdict, time);
    if (s->idle) say_slot(w, a.slot, "back", "arrivals again");
    if (s->awaited) say_slot(w, a.slot, "back", "the first frame has come");
    s->idle = s->awaited = 0;
    s->came = 1;
    count_share(&s->share, &w->table[a.slot], a.verdict, time);
}

// ---- time passes

static const char *state_of(const struct port *p)
{
    static const char *const states[] = {[NOT_THERE] = "not there", [DOWN] = "down", [NO_CARRIER] = "no carrier", [UP] = "up"};
    return states[port_state(p)];
}

static void watch_networks(struct watches *w, size_t slot, int64_t time)
{
    struct watch *s = &w->of[slot];
    for (int b = 0; b < NETWORKS; b++) {
        if (s->silent[b] || s->since[b] == 0 || time - s->since[b] < w->alarm / 2) continue;
        s->silent[b] = 1;
        s->silences[b]++;
        say_slot(w, slot, "alarm", "no arrival on network %d (%s, %s) for %" PRId64 " ms, while network %d (%s) has arrivals", b, w->ports[b].interface,
                 state_of(&w->ports[b]), w->alarm / MILLISECOND, 1 - b, w->ports[1 - b].interface);
    }
}

static void watch_stream(struct watches *w, size_t slot, int64_t time)
{
    struct watch *s = &w->of[slot];
    int64_t last = s->last[0] > s->last[1] ? s->last[0] : s->last[1];
    if (s->idle || s->awaited || time - last < w->alarm) return;
    if (s->came) {
        s->idle = 1;
        say_slot(w, slot, "alarm", "no arrival on network 0 (%s, %s) or network 1 (%s, %s) for %" PRId64 " ms", w->ports[0].interface,
                 state_of(&w->ports[0]), w->ports[1].interface, state_of(&w->ports[1]), w->alarm / MILLISECOND);
    } else {
        s->awaited = 1;
        say_slot(w, slot, "alarm", "nothing has come yet on network 0 (%s, %s) or network 1 (%s, %s)", w->ports[0].interface,
                 state_of(&w->ports[0]), w->ports[1].interface, state_of(&w->ports[1]));
    }
}

void watch_time(struct watches *w, int64_t time)
{
    if (w->alarm == 0) return;
    EACH_SLOT(w->table, i)
    {
        watch_networks(w, i, time);
        watch_stream(w, i, time);
    }
}

// ---- each second

// A cut cable is said as such, and flapping ones are not: there both networks have arrivals behind a poor block.
static void watch_share(struct watches *w, size_t slot)
{
    const struct watch *s = &w->of[slot];
    struct share *of = &w->of[slot].share;
    if (s->silent[0] || s->silent[1]) of->poor = 0;
    else if (of->poor && s->last[0] > of->last && s->last[1] > of->last) {
        if (!of->said) say_slot(w, slot, "alarm", "of %u handed up in a row %u had a second copy", block_of(&w->table[slot]), of->fewest);
        of->said = 1;
        of->poor = 0;
    } else if (!of->poor && of->good && of->said) {
        say_slot(w, slot, "back", "second copies come again");
        of->said = 0;
    }
    of->good = 0;
}

static void watch_counters(struct watches *w, size_t slot, int64_t time)
{
    struct watch *s = &w->of[slot];
    const nippitsun_counts *c = &w->table[slot].counts;
    uint64_t rogue = c->rogue - s->rogue, lost = c->lost - s->lost;
    s->rogue = c->rogue;
    s->lost = c->lost;
    if (rogue != 0)
        say_slot(w, slot, "rogues", "%" PRIu64 " in the last second, nothing handed up for %" PRId64 " ms", rogue, (time - s->up) / MILLISECOND);
    else if (s->roguing) say_slot(w, slot, "over", "no more rogues");
    s->roguing = rogue != 0;
    if (lost != 0) say_slot(w, slot, "lost", "%" PRIu64 " in the last second", lost);
    else if (s->losing) say_slot(w, slot, "over", "none lost any more");
    s->losing = lost != 0;
}

static void watch_drops(struct watches *w, int network)
{
    struct port *p = &w->ports[network];
    port_count_drops(p);
    uint64_t dropped = p->dropped - w->dropped[network];
    w->dropped[network] = p->dropped;
    if (dropped != 0) say_now("dropped by the kernel on network %d (%s): %" PRIu64 " in the last second", network, p->interface, dropped);
    else if (w->dropping[network]) say_now("over: no more dropped on network %d (%s)", network, p->interface);
    w->dropping[network] = dropped != 0;
}

void watch_second(struct watches *w, int64_t time)
{
    EACH_SLOT(w->table, i)
    {
        if (w->alarm != 0) watch_share(w, i);
        watch_counters(w, i, time);
    }
    for (int b = 0; b < NETWORKS; b++) watch_drops(w, b);
}
