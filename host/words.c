#include "words.h"
#include "clock.h"

#include <errno.h>
#include <inttypes.h>
#include <stdarg.h>
#include <stdio.h>
#include <stdlib.h>
#include <string.h>

static const char usage[] =
    "usage: receive [OPTION].. INTERFACE0 INTERFACE1\n"
    "  --open DEST,VLAN,RULE,L,R   a stream: address in hex, id, vector or match, window, reset time in ticks; again for more. DEST,0,afdx,L,R is an AFDX virtual link\n"
    "  --conf FILE                 the words of FILE in this place: a line OPTIONS=WORDS and a line INTERFACES=WORDS\n"
    "  --tick MS                   a tick every MS milliseconds (100)\n"
    "  --at-once                   no wait at the start. Without this it lasts R ticks, the largest R, and nothing is handed up in it: copies of what was handed up before a restart may still come\n"
    "  --room KB                   room for waiting frames of a port, in kilobytes (1024): one frame for each 416 bytes\n"
    "  --no-ring                   read frames by system calls and not from a ring that is shared with the kernel\n"
    "  --backlog KB                what may wait for standard output, in kilobytes (4096); when it is full nothing more is read, and ticks stop\n"
    "  --prp first|2012            a PRP line, with trailers of the first edition or of 2012 in place of tags\n"
    "  --all                       no filter in the kernel: foreign frames are counted as refusals 5 and 6 (16 and 6 with --prp), or 14 with a group source; to look for a wrong key\n"
    "  --alarm MS                  say so when a stream has arrivals on one network and for MS milliseconds none on the other, none on either, or none that is handed up; or when few second copies come (1000; 0: never)\n"
    "  --stats FILE                write all counters to FILE each second, in the text form that Prometheus reads\n"
    "  --quiet MS                  end after MS milliseconds without a frame\n"
    "  --give lines|raw|nothing    frames handed up: 'SLOT NUMBER LENGTH HEX PRIORITY', PRIORITY being the VLAN tag's, 0 to 7, or - where there is none; or two bytes of length and the frame (lines)\n"
    "  --check                     read all words, say whether they are good, and open nothing\n"
    "  --version                   print the version\n"
    "  --help                      print this text\n";

_Static_assert(sizeof usage <= LINE_MOST, "the usage is said whole");

static _Noreturn void misused(const char *format, ...)
{
    char text[1024];
    va_list more;
    va_start(more, format);
    vsnprintf(text, sizeof text, format, more);
    va_end(more);
    say("receive: %s", text);
    say_usage(usage, 0);
}

// ---- streams

// Adds to a list of settings that are outside their bounds.
__attribute__((format(printf, 2, 3)))
static void add(char list[256], const char *format, ...)
{
    size_t length = strlen(list);
    length += (size_t)snprintf(list + length, 256 - length, "%s", length == 0 ? ": " : ", ");
    va_list more;
    va_start(more, format);
    vsnprintf(list + length, 256 - length, format, more);
    va_end(more);
}

static int is_link(const struct settings *s)
{
    return s->rule == NIPPITSUN_RULE_LINK;
}

// What refusal 9 is about.
static void list_outside(char list[256], const struct settings *s)
{
    list[0] = 0;
    if (is_link(s)) {
        if (s->vlan != 0) add(list, "VLAN id %u is not 0, as afdx asks", s->vlan);
    } else if (s->vlan > NIPPITSUN_VLAN_MOST) add(list, "VLAN id %u is not from 0 to %d", s->vlan, NIPPITSUN_VLAN_MOST);
    if (s->rule < NIPPITSUN_RULE_VECTOR || s->rule > NIPPITSUN_RULE_LINK)
        add(list, "rule %u is not %d (vector), %d (match) or %d (afdx)", s->rule, NIPPITSUN_RULE_VECTOR, NIPPITSUN_RULE_MATCH, NIPPITSUN_RULE_LINK);
    if (s->window < NIPPITSUN_WINDOW_LEAST || s->window > NIPPITSUN_WINDOW_MOST)
        add(list, "L %u is not from %d to %d", s->window, NIPPITSUN_WINDOW_LEAST, NIPPITSUN_WINDOW_MOST);
    if (s->time < NIPPITSUN_TIME_LEAST) add(list, "R %u is not from %d to %d", s->time, NIPPITSUN_TIME_LEAST, NIPPITSUN_TIME_MOST);
}

static void open_stream(struct wishes *w, const char *text)
{
    struct settings s = read_settings(text);
    nippitsun_slot_answer a =
        nippitsun_open(w->table, NIPPITSUN_SLOTS_MOST, w->places, NIPPITSUN_PLACES, s.dest, s.vlan, s.rule, s.window, s.time);
    char outside[256] = "";
    if (a.refusal == NIPPITSUN_REFUSED_SETTING) list_outside(outside, &s);
    if (a.refusal != 0) refuse("open %s: %u, %s%s", text, a.refusal, refusal_words(a.refusal), outside);
    // A frame of a virtual link has nothing but its destination to be known by: no type, and no VLAN tag that means something.
    for (size_t i = 0; i < w->count; i++)
        if (is_link(&s) != is_link(&w->streams[i]) && memcmp(s.dest, w->streams[i].dest, ADDRESS) == 0)
            refuse("open %s: an afdx stream and another one have this destination, and frames are told apart by it alone", text);
    if (s.time == 1) say("warning: open %s: R = 1 is never safe: a tick may fall between two copies", text);
    if (s.time > w->longest) w->longest = s.time;
    w->streams[w->count++] = s;
}

uint16_t wait_of(const struct wishes *w)
{
    return w->at_once ? 0 : w->longest;
}

// ---- a file of words, as the unit has it

enum { OPTIONS, INTERFACES, NAMES };
static const char *const names[NAMES] = {"OPTIONS=", "INTERFACES="};
static const char blanks[] = " \t";

// What stands behind the name, without blanks around it and without one pair of quotes. NULL: a quote that does not end.
static char *unquote(char *text)
{
    text += strspn(text, blanks);
    size_t length = strlen(text);
    while (length > 0 && strchr(blanks, text[length - 1]) != NULL) length--;
    text[length] = 0;
    if (text[0] != '"' && text[0] != '\'') return text;
    if (length < 2 || text[length - 1] != text[0]) return NULL;
    text[length - 1] = 0;
    return text + 1;
}

static void read_line(const char *file, unsigned number, char *line, char *values[NAMES])
{
    if (line[0] == '#' || line[0] == ';' || line[strspn(line, blanks)] == 0) return;
    for (int i = 0; i < NAMES; i++) {
        size_t length = strlen(names[i]);
        if (strncmp(line, names[i], length) != 0) continue;
        char *value = unquote(line + length);
        if (value == NULL) break;
        if (values[i] != NULL) refuse("%s, line %u: %.*s stands there already", file, number, (int)length - 1, names[i]);
        values[i] = strdup(value);
        if (values[i] == NULL) fail("memory");
        return;
    }
    refuse("%s, line %u: neither OPTIONS= nor INTERFACES=", file, number);
}

static void read_file(const char *file, char *values[NAMES])
{
    FILE *f = fopen(file, "r");
    if (f == NULL) refuse("%s: %s", file, strerror(errno));
    char *line = NULL;
    size_t room = 0;
    ssize_t length;
    for (unsigned number = 1; (length = getline(&line, &room, f)) >= 0; number++) {
        if (length > 0 && line[length - 1] == '\n') line[length - 1] = 0;
        read_line(file, number, line, values);
    }
    if (ferror(f)) refuse("%s: %s", file, strerror(errno));
    free(line);
    fclose(f);
}

// ---- the words, one after the other

// Those that are not read yet. The first ones are of a file.
struct rest {
    char **words;
    int count, of_file;
    const char *file;
};

static char *next_word(struct rest *r)
{
    if (r->count == 0) return NULL;
    r->count--;
    if (r->of_file > 0) r->of_file--;
    return *r->words++;
}

// The words of a file come next: its options and then its interfaces, in whatever order the lines are.
static void put_file(struct rest *r, const char *file)
{
    char *values[NAMES] = {NULL, NULL};
    read_file(file, values);
    size_t most = (size_t)r->count;
    for (int i = 0; i < NAMES; i++) most += values[i] == NULL ? 0 : strlen(values[i]);
    char **all = calloc(most + 1, sizeof *all);
    if (all == NULL) fail("memory");
    int of_file = 0;
    for (int i = 0; i < NAMES; i++)
        for (char *word; (word = strsep(&values[i], blanks)) != NULL;)
            if (*word != 0) all[of_file++] = word;
    memcpy(all + of_file, r->words, (size_t)r->count * sizeof *all);
    *r = (struct rest){all, of_file + r->count, of_file, file};
}

// An option: its letter in the switch, and whether a value goes with it.
struct option {
    const char *name;
    char letter;
    int has_value;
};

// Whole names alone: getopt_long would take the beginning of one too, and receive-rust does not.
static const struct option *find_option(const char *word, size_t length)
{
    static const struct option options[] = {
        {"--open", 'o', 1},    {"--conf", 'f', 1},    {"--tick", 't', 1}, {"--at-once", 'i', 0}, {"--room", 'r', 1},  {"--no-ring", 'n', 0},
        {"--backlog", 'b', 1}, {"--prp", 'p', 1},     {"--all", 'a', 0},  {"--alarm", 'm', 1},   {"--stats", 's', 1}, {"--quiet", 'q', 1},
        {"--give", 'g', 1},    {"--check", 'c', 0},   {"--version", 'v', 0}, {"--help", 'h', 0},
    };
    for (size_t i = 0; i < sizeof options / sizeof options[0]; i++)
        if (strlen(options[i].name) == length && strncmp(options[i].name, word, length) == 0) return &options[i];
    return NULL;
}

static int64_t read_time(const char *what, const char *value, uint64_t least)
{
    return (int64_t)read_number(what, value, least, 3600000) * MILLISECOND;
}

static enum give read_give(const char *value)
{
    if (strcmp(value, "lines") == 0) return LINES;
    if (strcmp(value, "raw") == 0) return RAW;
    if (strcmp(value, "nothing") == 0) return NOT_AT_ALL;
    refuse("--give is lines, raw or nothing");
}

static void take_option(struct wishes *w, char letter, const char *value)
{
    switch (letter) {
    case 'o': open_stream(w, value); break;
    case 't': w->period = read_time("tick", value, 1); break;
    case 'i': w->at_once = 1; break;
    case 'r': w->room = read_number("room", value, 1, 1 << 20); break;
    case 'n': w->no_ring = 1; break;
    case 'b': w->backlog = read_number("backlog", value, 8, 1 << 20); break;
    case 'p': w->prp = read_prp(value); break;
    case 'a': w->all = 1; break;
    case 'm': w->alarm = read_time("alarm", value, 0); break;
    case 's': w->stats = value; break;
    case 'q': w->quiet = read_time("quiet", value, 1); break;
    case 'g': w->give = read_give(value); break;
    case 'c': w->check = 1; break;
    case 'v': say_usage("nippitsun " NIPPITSUN_VERSION "\n", 1);
    case 'h': say_usage(usage, 1);
    }
}

static void read_option(struct wishes *w, struct rest *r, const char *word, int in_file)
{
    // The value stands behind '=', or is the next word.
    size_t length = strcspn(word, "=");
    const char *value = word[length] == '=' ? word + length + 1 : NULL;
    const struct option *option = find_option(word, length);
    if (option == NULL) misused("unrecognized option '%.*s'", (int)length, word);
    if (value != NULL && !option->has_value) misused("option '%s' doesn't allow an argument", option->name);
    if (value == NULL && option->has_value && (value = next_word(r)) == NULL) misused("option '%s' requires an argument", option->name);
    if (option->letter != 'f') take_option(w, option->letter, value);
    else if (in_file) refuse("%s names a --conf of its own", r->file);
    else put_file(r, value);
}

void read_words(struct wishes *w, int count, char **words)
{
    *w = (struct wishes){.period = 100 * MILLISECOND, .alarm = SECOND, .room = 1024, .backlog = 4096, .prp = NO_PRP, .give = LINES};
    struct rest r = {words + 1, count - 1, 0, NULL};
    int interfaces = 0, only_interfaces = 0;
    while (r.count > 0) {
        int in_file = r.of_file > 0;
        const char *word = next_word(&r);
        if (only_interfaces || word[0] != '-' || word[1] == 0) {
            if (interfaces < NETWORKS) w->interfaces[interfaces] = word;
            interfaces++;
        } else if (strcmp(word, "--") == 0) only_interfaces = 1;
        else read_option(w, &r, word, in_file);
    }
    if (interfaces != NETWORKS) misused("interfaces given: %d, needed: %d, for network 0 and network 1", interfaces, NETWORKS);
    if (w->count == 0) refuse("no stream: --open names one");
    for (size_t i = 0; i < w->count; i++)
        if (w->prp != NO_PRP && is_link(&w->streams[i])) refuse("--prp holds for all streams, and frames of an afdx stream have no trailer");
    if (!w->check) return;
    if (strcmp(w->interfaces[0], w->interfaces[1]) == 0) refuse("both networks are on interface '%s'", w->interfaces[0]);
    printf("good: %zu streams on %s and %s, a wait of %" PRId64 " ms at the start\n", w->count, w->interfaces[0], w->interfaces[1],
           wait_of(w) * w->period / MILLISECOND);
    end_asked();
}
