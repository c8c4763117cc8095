/*
 * The proved step bench for C. Link target/staticlib/libkemilunda.a, which
 * tests/archive makes. It keeps no state, and asks the linker for
 * memcpy, memset, memmove and memcmp at most (tests/link/run looks). A setup and
 * its run take less than 2 KiB of stack, any other function less than 256 bytes
 * (tests/speed/stack looks; docs/SPEED.md has the figures).
 *
 * Every function takes any bytes at all. What each one gives is proved; the
 * proofs are about the Rattle source, not about this file or the compiler.
 */
#ifndef KEMILUNDA_H
#define KEMILUNDA_H

#include <stddef.h>
#include <stdint.h>

#ifdef __cplusplus
extern "C" {
#endif

/*
 * The setup record at the front of INPUT. Gives 0 where it is accepted, else
 * its refusal: 20 too short, 19 wrong mark, 15 the spare byte is not zero,
 * 11 sizes out of range.
 */
uint32_t kemilunda_setup(const uint8_t *input, size_t input_size);

/* How many bytes that setup record takes, 0 where it is refused. */
size_t kemilunda_setup_bytes(const uint8_t *input, size_t input_size);

/*
 * An entry of a schedule has 10 bytes: 45 4E, task, kind, cell, 00, value (4,
 * the lowest byte first). Its kind:
 *
 *    0  go: the task makes the next step of its call
 *    1  load
 *    2  store
 *    3  release
 *    4  validate: is the link still good?
 *
 * The cell is zero for all but load and store, the value for all but store.
 *
 * The number of a reply; the value is 0 for all but 1:
 *
 *    0  the call has begun, or moved on
 *    1  the load has finished, with its value
 *    2  the store took
 *    3  the store is lost: another one took since the task's load; or, at once, the
 *       task has no link on that cell, being idle or linked to another, and
 *       nothing changes
 *    4  the link is released
 *    5  good: no store to the cell took since the task's load
 *    6  gone: one did; the link stays until a store to the cell or a release ends it
 *
 * or the entry's refusal:
 *
 *   12  no such task
 *   13  no such kind
 *   14  no such cell, in a load or store
 *   15  one of the zeros above is something else
 *   16  the call can't begin now: a load wants an idle task, a store one with no
 *       call running, a release or validate one that is linked
 *   17  the task has no step to make, being idle or linked
 *   18  no longer given
 *   19  the first two bytes are not 45 4E
 *   20  the last entry is cut
 *
 * 22, a damaged machine (one with a task in phase 10 or above 15, say, or with
 * more nodes kept as free than it has), is never given here: every run starts
 * from a fresh machine, and no step damages one.
 */

/* Where a run's numbers stand in NUMBERS, the last argument of both runs. */
enum {
    KEMILUNDA_ACCEPTED,    /* entries accepted */
    KEMILUNDA_REFUSAL,     /* the refusal that ended the run, or 0 */
    KEMILUNDA_LOADS,       /* loads begun */
    KEMILUNDA_LOAD_STEPS,  /* steps that loads made, phases 1 to 5 */
    KEMILUNDA_TURNED_BACK, /* checks that turned a load back */
    KEMILUNDA_SWAPS,       /* swaps that took */
    KEMILUNDA_NUMBERS
};

/*
 * Sets a machine up from the front of INPUT and runs the entries after it.
 *
 * A refused setup gives its number, and REPLIES and NUMBERS are left alone.
 * Otherwise the result is 0, NUMBERS holds the run's six numbers, and REPLIES
 * starts with 8 bytes for each entry that was tried: 41 4E, number, task,
 * value (4, the lowest byte first). An entry that is refused ends the run, with
 * its number in the last of the replies; what REPLIES has behind it stays.
 *
 * Give REPLIES 8 bytes for every 10 of the schedule, or part of 10. With more
 * than 65,530 bytes of schedule (23), or else with less room than that (21),
 * no entry is tried: REPLIES stays, and all numbers but the refusal are 0.
 *
 * INPUT, REPLIES and NUMBERS must not overlap.
 */
uint32_t kemilunda_run(const uint8_t *input, size_t input_size,
                       uint8_t *replies, size_t replies_size,
                       uint32_t numbers[KEMILUNDA_NUMBERS]);

/*
 * The same run, with the same result, replies and numbers, for a display that
 * shows after every entry how many nodes are free: those with count 0, which a
 * store may take. The answers come from a total that the steps keep; no nodes
 * are counted.
 *
 * FREE_NODES starts with one byte for each entry that was tried, the refused one
 * included: how many nodes are free after it. Before the first entry these are
 * all but one for each cell and one for each task. What FREE_NODES has behind
 * the last of these bytes stays. It may have room for fewer: then the first ones
 * are written, and that is no refusal. Where the setup is refused, or no entry is
 * tried, all of it stays.
 *
 * INPUT, REPLIES, FREE_NODES and NUMBERS must not overlap.
 */
uint32_t kemilunda_run_free(const uint8_t *input, size_t input_size,
                            uint8_t *replies, size_t replies_size,
                            uint8_t *free_nodes, size_t free_nodes_size,
                            uint32_t numbers[KEMILUNDA_NUMBERS]);

/*
 * A schedule may be written as text: a line for each entry with its task, kind,
 * cell and value as decimal numbers, such as 1,2,0,9 for task 1 that stores 9 to
 * cell 0. One comma stands between two numbers, one newline (0A) behind the last,
 * and there is nothing else: no spaces, no signs, and a 0 in front only where the
 * number is 0. Each of the first three is 255 or less, the value 4294967295 or
 * less. No machine is asked whether such an entry would be taken.
 *
 * Both functions give 0, with the number of bytes that they wrote in WRITTEN, or
 * else a refusal. A refusal leaves the output and WRITTEN as they were. Where
 * they write, the output's bytes behind the last one written stay. What comes out
 * of one goes through the other, and gives what the first was handed. No bytes at
 * all are a schedule of no entries. Of several faults the first of these counts:
 *
 *   23  more than 6,553 newlines to import, or 65,530 bytes to export
 *
 * then what the first bad line has, if there is one:
 *
 *   30  no line as above; so is one without its newline, at the end of the text
 *   31  a line as above, but a number in it is too large, by however much
 *
 * or the first bad entry:
 *
 *   20  fewer than 10 bytes are left
 *   19  it doesn't begin with 45 4E
 *   15  its sixth byte is not zero
 *
 * and with no such line or entry:
 *
 *   32  there is less room for the output than all of it takes
 *
 * Entries take 10 bytes for each line. A line takes 23 bytes at most, so 150,719
 * bytes are room enough for any text. Input, output and WRITTEN must not overlap.
 */

/* The entries that TEXT has lines for. */
uint32_t kemilunda_import(const uint8_t *text, size_t text_size,
                          uint8_t *entries, size_t entries_size,
                          size_t *written);

/* The lines for ENTRIES. */
uint32_t kemilunda_export(const uint8_t *entries, size_t entries_size,
                          uint8_t *text, size_t text_size, size_t *written);

#ifdef __cplusplus
}
#endif

#endif
