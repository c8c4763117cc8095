/*
 * The step bench of document 01, changed as items 1 (validate), 2 (lowering
 * tells what it left), 3 (how many nodes are free), 5 (a store without a link)
 * and 14 (a run that tests the ranges once) of document 02 ask, written a
 * second time in plain C.
 *
 * Written from the documents alone, so that a slip in the proved library and
 * a slip here are unlikely to be the same one.  No globals, no exit, nothing
 * allocated: every function works on what it is handed.
 */
#ifndef BENCH_H
#define BENCH_H

#include <stdbool.h>
#include <stddef.h>
#include <stdint.h>
#include <stdio.h>

enum {
    MAX_CELLS = 64,
    MAX_TASKS = 16,
    MAX_NODES = 128,

    SETUP_HEAD = 6,   /* mark, N, P, K, zero */
    VALUE_BYTES = 4,  /* one starting value in the setup */
    ENTRY_BYTES = 10, /* mark, task, kind, cell, zero, value */
    REPLY_BYTES = 8,  /* mark, number, task, value */

    MAX_SETUP = SETUP_HEAD + VALUE_BYTES * MAX_CELLS,
    MAX_SCHEDULE = 65530,
    MAX_ENTRIES = MAX_SCHEDULE / ENTRY_BYTES,
    /* One byte more than can be accepted: enough to see refusal 23. */
    MAX_INPUT = MAX_SETUP + MAX_SCHEDULE + 1
};

enum phase {
    IDLE = 0,
    L1, L2, L3, L4, L5,
    LINKED,
    S1, S2, S3,
    S5 = 11, S6, S7, /* 10 is no phase: item 2 let the others keep their numbers */
    R1,
    V1, /* validate's one step, which the documents know as phase 15 only */
    PHASES /* one past the last */
};

enum kind { GO = 0, LOAD, STORE, RELEASE, VALIDATE, KINDS };

enum number {
    /* replies */
    MOVED = 0,
    LOADED = 1,
    TOOK = 2,
    LOST = 3,
    RELEASED = 4,
    GOOD = 5,
    GONE = 6,
    /* refusals */
    BAD_SIZES = 11,
    BAD_TASK = 12,
    BAD_KIND = 13,
    BAD_CELL = 14,
    NOT_ZERO = 15,
    BAD_CALL = 16,
    BAD_GO = 17,
    UNUSED = 18, /* given nowhere: item 5 took its only use away */
    BAD_MARK = 19,
    CUT = 20,
    NO_ROOM = 21,
    DAMAGED = 22,
    TOO_LONG = 23,
    BAD_QUESTION = 24,
    NUMBERS
};

/* One task record; the comments give document 01's names. */
struct task {
    uint8_t phase;
    uint8_t cell;   /* x */
    uint32_t value; /* Y */
    uint8_t held;   /* m */
    uint8_t own;
    uint8_t cursor;
};

struct machine {
    uint8_t cells;              /* N */
    uint8_t tasks;              /* P */
    uint8_t nodes;              /* K */
    uint8_t free;               /* nodes below K with count 0, kept step by step */
    uint8_t node_of[MAX_CELLS]; /* the node each cell points at */
    uint32_t value[MAX_NODES];
    uint8_t count[MAX_NODES];
    struct task task[MAX_TASKS];
};

struct answer {
    uint8_t number; /* a reply or a refusal */
    uint8_t task;
    uint32_t value;
    uint8_t met;    /* accepted entries: the phase the entry found its task in */
};

/* The six numbers of a run, in the order they are printed. */
struct report {
    uint32_t accepted;
    uint32_t refusal;
    uint32_t loads;
    uint32_t load_steps;
    uint32_t turned_back;
    uint32_t swaps;
};

static inline bool is_phase(unsigned phase)
{
    return phase <= S3 || (phase >= S5 && phase < PHASES);
}

static inline bool is_refusal(unsigned number)
{
    return number >= BAD_SIZES;
}

/*
 * Fills the machine from the setup at the start of the input.  Returns 0 and
 * the setup's length in *used, or the refusal with the machine all zeros and
 * *used 0.
 */
unsigned bench_setup(struct machine *machine, const uint8_t *input,
                     size_t length, size_t *used);

/* Whether every number of the record is in the range that refusal 22 gives it. */
bool bench_in_range(const struct machine *machine);

/*
 * Applies the entry at the start of the left bytes.  A refusal leaves the
 * machine as it was.
 */
struct answer bench_apply(struct machine *machine, const uint8_t *entry,
                          size_t left);

/*
 * Runs a schedule up to its end or its first refused entry, one 8-byte reply
 * an entry tried.  Reply bytes past the last one written are not touched.
 */
struct report bench_run(struct machine *machine, const uint8_t *schedule,
                        size_t length, uint8_t *replies, size_t room);

/*
 * How many nodes are free.  Returns 0 and their number in *free_nodes, or 22
 * and leaves *free_nodes alone.
 */
typedef unsigned free_question(const struct machine *machine,
                               unsigned *free_nodes);

/* Answered from the kept total, whatever the counts are. */
unsigned bench_free(const struct machine *machine, unsigned *free_nodes);

/* Answered by looking at every node, to compare the total with. */
unsigned bench_free_counted(const struct machine *machine,
                            unsigned *free_nodes);

/* Who asks during a run, and where the answers go. */
struct display {
    free_question *ask;
    uint8_t *free_nodes;
    size_t room; /* later answers are lost */
};

/*
 * The same as bench_run; the display asks after every entry that was tried.
 * The ranges are tested at the run's start and at each entry.
 */
struct report bench_run_shown(struct machine *machine, const uint8_t *schedule,
                              size_t length, uint8_t *replies, size_t room,
                              const struct display *display);

/*
 * The same, but the ranges are tested at the start only, as item 14 asks.  This
 * one is for times.  The library is compared with the slow one above, which
 * takes nothing on trust; check.c compares the two.
 */
struct report bench_run_once(struct machine *machine, const uint8_t *schedule,
                             size_t length, uint8_t *replies, size_t room,
                             const struct display *display);

/*
 * How many of the listed tasks hold the node.  Returns 0 and the count in
 * *holders, or 24 and leaves *holders alone.
 */
unsigned bench_holders(const struct task *list, size_t length, unsigned node,
                       unsigned *holders);

/* Prints the program's whole text for an input. */
void bench_print(FILE *out, const uint8_t *input, size_t length);

#endif
