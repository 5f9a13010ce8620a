/* Counts the instructions in which the search of an arrival passes a slot, for checks/search. A second process runs the
   arrivals, and this one lets it do one instruction at a time. The same at every run, and no time. Status 77: a process may
   not be traced here. */
#define _GNU_SOURCE
#include "../bindings/c/nippitsun.h"
#include <elf.h>
#include <signal.h>
#include <stdio.h>
#include <string.h>
#include <sys/ptrace.h>
#include <sys/uio.h>
#include <sys/user.h>
#include <sys/wait.h>
#include <unistd.h>

/* The frame's key, and what a slot in front of its stream holds of it. */
enum { DEST = 2, VLAN = 5, OTHER = 4000 };

struct passed {
    const char *name;
    uint64_t dest;
    uint16_t vlan;
    uint8_t used;
};

enum { OTHER_BOTH, OTHER_VLAN, OTHER_VLAN_FREE, OTHER_BOTH_FREE, OTHER_DEST, OTHER_DEST_FREE, KEY_FREE, KINDS };

static const struct passed kinds[KINDS] = {
    [OTHER_BOTH] = {"another VLAN id and another destination", DEST + 1, OTHER, 1},
    [OTHER_VLAN] = {"another VLAN id and the frame's destination", DEST, OTHER, 1},
    [OTHER_VLAN_FREE] = {"free, another VLAN id and the frame's destination", DEST, OTHER, 0},
    [OTHER_BOTH_FREE] = {"free, another VLAN id and another destination", DEST + 1, OTHER, 0},
    [OTHER_DEST] = {"the frame's VLAN id and another destination", DEST + 1, VLAN, 1},
    [OTHER_DEST_FREE] = {"free, the frame's VLAN id and another destination", DEST + 1, VLAN, 0},
    [KEY_FREE] = {"free, with the frame's key", DEST, VLAN, 0},
};

/* So many slots are passed: the difference of two calls leaves what a slot costs. */
static const size_t before[] = {30, 62};
enum { TURNS = sizeof before / sizeof *before };

static nippitsun_stream table[NIPPITSUN_SLOTS_MOST];
static uint8_t out[NIPPITSUN_FRAME_MOST];
static const uint8_t frame[64] = {0, 0, 0, 0, 0, DEST, [12] = 0x81, 0, 0x20, VLAN, 0xF1, 0xC1, 0, 0, 0xFD, 0xE8, 8};

/* Functions of their own: the process that counts knows a call by their addresses. They differ, so that no compiler makes one
   of them. */
__attribute__((noinline)) static void begins(void) { __asm__ volatile("/* begins */"); }
__attribute__((noinline)) static void ends(void) { __asm__ volatile("/* ends */"); }

/* The arrival of a duplicate, which changes counters alone, behind `slots` slots of one kind. Was it found there? */
static int arrives(const struct passed *p, size_t slots) {
    memset(table, 0, sizeof table);
    for (size_t i = 0; i < slots; i++) table[i] = (nippitsun_stream){.dest = p->dest, .vlan = p->vlan, .used = p->used};
    table[slots] = (nippitsun_stream){.dest = DEST, .vlan = VLAN, .window = 64, .time = 100, .rule = NIPPITSUN_RULE_VECTOR, .used = 1,
        .state = {.history = {UINT64_MAX}, .anchor = 0xFDE8, .remaining = 100}};
    begins();
    nippitsun_arrival_answer a = nippitsun_arrival(table, NIPPITSUN_SLOTS_MOST, 0, frame, sizeof frame, out, sizeof out);
    ends();
    return a.refusal == 0 && a.verdict == NIPPITSUN_VERDICT_DUPLICATE && a.slot == slots;
}

/* Every kind, and every number of slots. */
static void run(void) {
    if (ptrace(PTRACE_TRACEME, 0, NULL, NULL) != 0) _exit(77);
    raise(SIGSTOP);
    for (int k = 0; k < KINDS; k++)
        for (int t = 0; t < TURNS; t++)
            if (!arrives(&kinds[k], before[t])) _exit(1);
    _exit(0);
}

/* The address of the next instruction. */
static uintptr_t place(pid_t child) {
    struct user_regs_struct r;
    struct iovec v = {&r, sizeof r};
    if (ptrace(PTRACE_GETREGSET, child, (void *)NT_PRSTATUS, &v) != 0) return 0;
#ifdef __x86_64__
    return r.rip;
#else
    return r.pc;
#endif
}

int main(void) {
    pid_t child = fork();
    if (child == 0) run();
    int status;
    if (child < 0 || waitpid(child, &status, 0) != child) return 1;
    long counted[KINDS * TURNS], steps = 0;
    int calls = 0;
    while (WIFSTOPPED(status)) {
        /* A signal is no instruction: it is handed on, so that a fault ends the other process, and it is not counted. */
        long sent = WSTOPSIG(status) == SIGTRAP || WSTOPSIG(status) == SIGSTOP ? 0 : WSTOPSIG(status);
        if (sent == 0) {
            uintptr_t at = place(child);
            steps = at == (uintptr_t)begins ? 0 : steps + 1;
            if (at == (uintptr_t)ends && calls < KINDS * TURNS) counted[calls++] = steps;
        }
        if (ptrace(PTRACE_SINGLESTEP, child, NULL, (void *)sent) != 0 || waitpid(child, &status, 0) != child)
            return puts("the other process can't be led one instruction at a time"), 1;
    }
    if (WIFEXITED(status) && WEXITSTATUS(status) == 77) return 77;
    if (!WIFEXITED(status) || WEXITSTATUS(status) != 0 || calls != KINDS * TURNS) {
        puts("the arrivals did not end as they should");
        return 1;
    }
    long each[KINDS], slots = (long)(before[1] - before[0]);
    for (int k = 0; k < KINDS; k++) {
        long more = counted[k * TURNS + 1] - counted[k * TURNS];
        each[k] = more / slots;
        printf("a slot with this is passed in %2ld instructions: %s\n", each[k], kinds[k].name);
        if (more % slots != 0) return puts("the slots do not cost the same"), 1;
    }
    /* With another VLAN id nothing else of the slot is looked at; else the destination; whether it is in use comes last. */
    if (each[OTHER_VLAN] != each[OTHER_BOTH] || each[OTHER_VLAN_FREE] != each[OTHER_BOTH] ||
        each[OTHER_BOTH_FREE] != each[OTHER_BOTH])
        return puts("with another VLAN id the search goes on in the slot"), 1;
    if (each[OTHER_DEST] <= each[OTHER_BOTH] || each[OTHER_DEST_FREE] != each[OTHER_DEST] || each[KEY_FREE] <= each[OTHER_DEST])
        return puts("VLAN id, destination and use are not compared in this order"), 1;
    printf("with another VLAN id a slot is passed in %ld instructions, whatever else it holds; the destination takes %ld more, and "
           "then its use %ld\n", each[OTHER_BOTH], each[OTHER_DEST] - each[OTHER_BOTH], each[KEY_FREE] - each[OTHER_DEST]);
    return 0;
}
