#include "host.h"
#include "clock.h"
#include "nippitsun.h"

#include <errno.h>
#include <fcntl.h>
#include <inttypes.h>
#include <linux/if_packet.h>
#include <net/if.h>
#include <poll.h>
#include <stdarg.h>
#include <stdio.h>
#include <stdlib.h>
#include <string.h>
#include <sys/socket.h>
#include <sys/stat.h>
#include <unistd.h>

static int closed_output;

void hold_descriptors(void)
{
    for (int i = STDIN_FILENO; i <= STDERR_FILENO; i++) {
        int closed = fcntl(i, F_GETFD) < 0;
        if (i == STDOUT_FILENO) closed_output = closed;
        // The lowest number that is free is this one.
        if (closed && open("/dev/null", O_RDWR) != i) fail("/dev/null");
    }
}

int output_is_closed(void)
{
    return closed_output;
}

int without_waiting(int descriptor)
{
    struct stat what;
    if (fstat(descriptor, &what) != 0 || !(S_ISFIFO(what.st_mode) || S_ISCHR(what.st_mode))) return -1;
    char name[32];
    snprintf(name, sizeof name, "/proc/self/fd/%d", descriptor);
    return open(name, O_WRONLY | O_NONBLOCK | O_CLOEXEC | O_NOCTTY);
}

// A line goes out in one write, or is not said. A terminal that has some room may not have enough: only a description that does
// not block makes sure of it. Where there is none, a pipe that has room takes a line without a wait.
static int put_line(const char *line, size_t length)
{
    static int where = -1;
    if (where < 0) where = without_waiting(STDERR_FILENO);
    if (where >= 0) return write(where, line, length) == (ssize_t)length;
    struct pollfd room = {.fd = STDERR_FILENO, .events = POLLOUT};
    if (poll(&room, 1, 0) != 1 || !(room.revents & POLLOUT)) return 0;
    ssize_t got = send(STDERR_FILENO, line, length, MSG_DONTWAIT | MSG_NOSIGNAL);
    if (got < 0 && errno == ENOTSOCK) got = write(STDERR_FILENO, line, length);
    return got == (ssize_t)length;
}

// The line `before`, which may be empty, and this text.
static void say_behind(const char *before, const char *format, va_list more)
{
    static uint64_t unsaid;
    char line[LINE_MOST];
    if (unsaid != 0) {
        int length = snprintf(line, sizeof line, "%" PRIu64 " lines were not said: standard error takes nothing\n", unsaid);
        if (put_line(line, (size_t)length)) unsaid = 0;
    }
    size_t length = (size_t)snprintf(line, sizeof line, "%s", before);
    length += (size_t)vsnprintf(line + length, sizeof line - length, format, more);
    // What is longer is cut.
    if (length > sizeof line - 1) length = sizeof line - 1;
    line[length] = '\n';
    // Behind lines that could not be said none is said before that has been.
    if (unsaid != 0 || !put_line(line, length + 1)) unsaid++;
}

void say(const char *format, ...)
{
    va_list more;
    va_start(more, format);
    say_behind("", format, more);
    va_end(more);
}

void say_now(const char *format, ...)
{
    char now[CLOCK_TEXT + 1];
    clock_write(now);
    strcat(now, " ");
    va_list more;
    va_start(more, format);
    say_behind(now, format, more);
    va_end(more);
}

_Noreturn void refuse(const char *format, ...)
{
    va_list more;
    va_start(more, format);
    say_behind("refused: ", format, more);
    va_end(more);
    exit(2);
}

void (*before_failing)(void);

_Noreturn void fail(const char *what)
{
    int why = errno;
    if (before_failing != NULL) before_failing();
    errno = why;
    say("failed: %s: %s", what, strerror(errno));
    exit(1);
}

_Noreturn void fail_packet_socket(const char *remedy)
{
    if (errno != EPERM) fail("packet socket");
    say("failed: packet socket: %s; it needs the right CAP_NET_RAW: run it as root, %s", strerror(errno), remedy);
    exit(1);
}

static int find_number(const char *text, uint64_t least, uint64_t most, uint64_t *number)
{
    char *end;
    errno = 0;
    *number = strtoull(text, &end, 10);
    // strtoull takes a sign and leading blanks; a setting has neither.
    return text[0] >= '0' && text[0] <= '9' && *end == 0 && errno == 0 && *number >= least && *number <= most;
}

uint64_t read_number(const char *what, const char *text, uint64_t least, uint64_t most)
{
    uint64_t n;
    if (!find_number(text, least, most, &n)) refuse("%s '%s' is no number from %" PRIu64 " to %" PRIu64, what, text, least, most);
    return n;
}

static int hex_digit(char c)
{
    if (c >= '0' && c <= '9') return c - '0';
    if (c >= 'a' && c <= 'f') return c - 'a' + 10;
    if (c >= 'A' && c <= 'F') return c - 'A' + 10;
    return -1;
}

void read_address(const char *text, uint8_t dest[ADDRESS])
{
    const char *at = text;
    for (int i = 0; i < ADDRESS; i++) {
        if (i > 0 && *at == ':') at++;
        int high = hex_digit(at[0]);
        int low = high < 0 ? -1 : hex_digit(at[1]);
        if (low < 0) refuse("'%s' is no address of six bytes in hex", text);
        dest[i] = (uint8_t)(high << 4 | low);
        at += 2;
    }
    if (*at != 0) refuse("'%s' is no address of six bytes in hex", text);
}

void write_address(char text[ADDRESS_TEXT], uint64_t dest)
{
    for (int i = 0; i < ADDRESS; i++) snprintf(text + 3 * i, 4, "%02x%s", (unsigned)(dest >> 8 * (ADDRESS - 1 - i) & 255), i < ADDRESS - 1 ? ":" : "");
}

static const char *const rules[] = {[NIPPITSUN_RULE_VECTOR] = "vector", [NIPPITSUN_RULE_MATCH] = "match", [NIPPITSUN_RULE_LINK] = "afdx"};

const char *rule_words(uint8_t rule)
{
    return rule < NIPPITSUN_RULE_VECTOR || rule > NIPPITSUN_RULE_LINK ? "none" : rules[rule];
}

// A name or, for the library to judge, any number that a rule's byte holds.
static uint8_t read_rule(const char *text)
{
    for (uint8_t rule = NIPPITSUN_RULE_VECTOR; rule <= NIPPITSUN_RULE_LINK; rule++)
        if (strcmp(text, rules[rule]) == 0) return rule;
    uint64_t n;
    if (!find_number(text, 0, UINT8_MAX, &n)) refuse("rule '%s' is not vector, match or afdx", text);
    return (uint8_t)n;
}

// A field of a record, which may hold more than the library takes: what does not fit into it is refused here, with the sizes that it has.
static uint16_t read_field(const char *what, const char *text, uint64_t least, uint64_t most)
{
    uint64_t n;
    if (!find_number(text, 0, UINT16_MAX, &n)) refuse("%s '%s' is no number from %" PRIu64 " to %" PRIu64, what, text, least, most);
    return (uint16_t)n;
}

struct settings read_settings(const char *text)
{
    enum { DEST, VLAN, RULE, WINDOW, TIME, PARTS };
    struct settings s;
    char *parts[PARTS], *copy = strdup(text), *rest = copy;
    if (copy == NULL) fail("memory");
    size_t found = 0;
    for (char *part; (part = strsep(&rest, ",")) != NULL; found++) {
        if (*part == 0 || found == PARTS) refuse("'%s' is not DEST,VLAN,RULE,L,R", text);
        parts[found] = part;
    }
    if (found != PARTS) refuse("'%s' is not DEST,VLAN,RULE,L,R", text);
    read_address(parts[DEST], s.dest);
    s.vlan = read_field("VLAN id", parts[VLAN], 0, NIPPITSUN_VLAN_MOST);
    s.rule = read_rule(parts[RULE]);
    s.window = read_field("window L", parts[WINDOW], NIPPITSUN_WINDOW_LEAST, NIPPITSUN_WINDOW_MOST);
    s.time = read_field("reset time R", parts[TIME], NIPPITSUN_TIME_LEAST, NIPPITSUN_TIME_MOST);
    free(copy);
    return s;
}

int read_prp(const char *text)
{
    if (strcmp(text, "first") == 0) return NIPPITSUN_PRP_FIRST;
    if (strcmp(text, "2012") == 0) return NIPPITSUN_PRP_2012;
    refuse("--prp is first or 2012");
}

// By number. One that is not here is no refusal.
static const char *const refusals[] = {
    [NIPPITSUN_REFUSED_TABLE] = "the table has more than 64 slots",
    [NIPPITSUN_REFUSED_NETWORK] = "network is not 0 or 1",
    [NIPPITSUN_REFUSED_LONG] = "frame too long",
    [NIPPITSUN_REFUSED_SHORT] = "frame short",
    [NIPPITSUN_REFUSED_UNTAGGED] = "no F1C1 at the type field",
    [NIPPITSUN_REFUSED_UNKNOWN] = "no slot in use has the key",
    [NIPPITSUN_REFUSED_DAMAGED] = "the record is damaged",
    [NIPPITSUN_REFUSED_ROOM] = "output too small",
    [NIPPITSUN_REFUSED_SETTING] = "a setting outside the sizes",
    [NIPPITSUN_REFUSED_TAKEN] = "a slot in use has the key",
    [NIPPITSUN_REFUSED_FULL] = "no free slot",
    [NIPPITSUN_REFUSED_SLOT] = "slot beyond the table or free",
    [NIPPITSUN_REFUSED_TAGGED] = "frame already carries F1C1",
    [NIPPITSUN_REFUSED_GROUP] = "group source address",
    [NIPPITSUN_REFUSED_BATCH] = "count above 32, or lengths that run past the buffer",
    [NIPPITSUN_REFUSED_TRAILER] = "no trailer of the set kind with a fitting size and a LAN of A or B",
    [NIPPITSUN_REFUSED_INDEX] = "index not of 128 places or not in agreement with the table",
};

int is_refusal(unsigned number)
{
    return number < sizeof refusals / sizeof refusals[0] && refusals[number] != NULL;
}

const char *refusal_words(unsigned number)
{
    return is_refusal(number) ? refusals[number] : "a number that no refusal has";
}

int open_sender(const char *interface)
{
    int s = socket(AF_PACKET, SOCK_RAW, 0);
    if (s < 0) fail_packet_socket("or give it the right by 'setcap cap_net_raw+ep PROGRAM'");
    // Type 0: the kernel gives it no frame.
    struct sockaddr_ll where = {.sll_family = AF_PACKET, .sll_ifindex = (int)if_nametoindex(interface)};
    if (where.sll_ifindex == 0) refuse("there is no interface '%s'", interface);
    if (bind(s, (struct sockaddr *)&where, sizeof where) != 0) fail(interface);
    return s;
}

_Noreturn void end_asked(void)
{
    if (output_is_closed()) refuse("standard output is closed");
    if (fflush(stdout) != 0) fail("standard output");
    exit(0);
}

_Noreturn void say_usage(const char *usage, int asked)
{
    if (asked) {
        fputs(usage, stdout);
        end_asked();
    }
    // Without its last line end, which comes with the line.
    say("%.*s", (int)strlen(usage) - 1, usage);
    exit(2);
}
