// What the host programs share: reading settings from the command line, the refusals in words, a socket that sends.
#ifndef HOST_H
#define HOST_H

#include <stdint.h>

// Networks, bytes of an Ethernet address, and the places and the type of document 01, "The frame".
enum { NETWORKS = 2, ADDRESS = 6, TYPE_AT = 12, VLAN_TAG = 4, REDUNDANCY_TYPE = 0xF1C1 };

// What stands for enum nippitsun_prp on a line that has tags and no trailers.
enum { NO_PRP = -1 };

// The settings of one open, as the command line gives them. The library judges them; here only what no such field can
// hold is refused.
struct settings {
    uint8_t dest[ADDRESS];
    uint16_t vlan;
    uint8_t rule;
    uint16_t window;
    uint16_t time;
};

// First of all in every program: descriptors 0 to 2 that are closed get /dev/null. Else the next one that is opened, a packet
// socket, say, would be standard output, and what is printed would go out on its network.
void hold_descriptors(void);

// Was standard output closed before that?
int output_is_closed(void);

// A line on standard error. It never waits: what can't be taken now is left out, and the next line that can be said is preceded
// by how many were not. A line that has more bytes than this, with its end, is cut.
enum { LINE_MOST = 4096 };
void say(const char *format, ...) __attribute__((format(printf, 1, 2)));

// The same with the time in front.
void say_now(const char *format, ...) __attribute__((format(printf, 1, 2)));

// Ends the program with status 2: what was asked for can't be done.
_Noreturn void refuse(const char *format, ...) __attribute__((format(printf, 1, 2)));

// What fail does first, if it is set.
extern void (*before_failing)(void);

// Ends the program with status 1: the machine did not do what it was asked to.
_Noreturn void fail(const char *what);

// The same where no packet socket is to be had: names the right that is missing, and how to get it.
_Noreturn void fail_packet_socket(const char *remedy);

// A pipe or terminal opened once more so that no write to it waits; a description of our own, so others who share it go on waiting
// there. Below 0: it is something else, or that is not allowed.
int without_waiting(int descriptor);

// A decimal number from least to most, or refuse.
uint64_t read_number(const char *what, const char *text, uint64_t least, uint64_t most);

// Six bytes in hex, with or without colons, or refuse.
void read_address(const char *text, uint8_t dest[ADDRESS]);

// A destination as people read it, six bytes in hex with colons, from the number that a stream's record has.
enum { ADDRESS_TEXT = sizeof "01:00:5e:00:00:07" };
void write_address(char text[ADDRESS_TEXT], uint64_t dest);

// DEST,VLAN,RULE,L,R, or refuse.
struct settings read_settings(const char *text);

// How a stream's rule is called there; afdx is a virtual link.
const char *rule_words(uint8_t rule);

// The kind of trailer on a PRP line (enum nippitsun_prp): first or 2012, or refuse.
int read_prp(const char *text);

// Has a refusal this number?
int is_refusal(unsigned number);

// The words of documents 01 and 02 for a refusal number.
const char *refusal_words(unsigned number);

// A packet socket that sends on one interface and is given no frame, or refuse. It needs the right CAP_NET_RAW.
int open_sender(const char *interface);

// Ends the program with status 0 when what was asked for has been printed, or refuses if there is no standard output.
_Noreturn void end_asked(void);

// Prints the usage, or whatever else was asked for, and ends the program with status 0 if it was asked for (on standard output), 2 if not.
_Noreturn void say_usage(const char *usage, int asked);

#endif
