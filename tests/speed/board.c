/*
 * board: calls each function for C on a stack of its own that is painted first,
 * and counts the bytes that were written there: with the call's own frame, and
 * what memcpy and memset take, which the machine code of the library alone does
 * not tell.  Each call must do its work, and take no more than the number of
 * bytes that is the argument.
 */
#define _XOPEN_SOURCE 700
#include <kemilunda.h>
#include <stdbool.h>
#include <stdio.h>
#include <stdlib.h>
#include <string.h>
#include <ucontext.h>

enum {
    STACK = 1 << 16, /* far more than is asked for, so that too much is seen */
    PAINT = 0xa5,
    ENTRY = 10,
    MOST_ENTRIES = 64
};

static _Alignas(16) uint8_t stack[STACK];
static ucontext_t here, there;

/* 64 cells with 16 tasks and 128 nodes, then entries */
static uint8_t input[6 + 4 * 64 + ENTRY * MOST_ENTRIES];
static size_t setup_bytes, input_bytes;

static uint8_t replies[8 * MOST_ENTRIES], free_nodes[MOST_ENTRIES];
static uint8_t text[64 * MOST_ENTRIES], entries[ENTRY * MOST_ENTRIES];
static uint32_t numbers[KEMILUNDA_NUMBERS];
static size_t text_bytes, written;
static bool did; /* its work */

static void entry(uint8_t task, uint8_t kind, uint8_t cell, uint8_t value)
{
    const uint8_t bytes[ENTRY] = {0x45, 0x4e, task, kind, cell, 0, value};

    memcpy(input + input_bytes, bytes, sizeof bytes);
    input_bytes += sizeof bytes;
}

static void go(uint8_t task, unsigned times)
{
    while (times--)
        entry(task, 0, 0, 0);
}

static void make_input(void)
{
    const uint8_t head[] = {0x53, 0x55, 64, 16, 128, 0};

    memcpy(input, head, sizeof head);
    input_bytes = setup_bytes = sizeof head + 4 * 64;
    /* two load cell 63; the first store takes and seeks a node, the second is lost */
    entry(15, 1, 63, 0);
    go(15, 4);
    entry(0, 1, 63, 0);
    go(0, 4);
    entry(15, 2, 63, 7);
    go(15, 6);
    entry(0, 2, 63, 8);
    go(0, 3);
    /* a load that is validated and released */
    entry(0, 1, 63, 0);
    go(0, 4);
    entry(0, 4, 0, 0);
    go(0, 1);
    entry(0, 3, 0, 0);
    go(0, 1);
}

/* every entry, and one swap */
static bool all_accepted(void)
{
    return numbers[KEMILUNDA_REFUSAL] == 0 &&
           numbers[KEMILUNDA_ACCEPTED] * ENTRY == input_bytes - setup_bytes &&
           numbers[KEMILUNDA_SWAPS] == 1;
}

static void setup(void)
{
    did = kemilunda_setup(input, input_bytes) == 0;
}

static void setup_size(void)
{
    did = kemilunda_setup_bytes(input, input_bytes) == setup_bytes;
}

static void run(void)
{
    did = kemilunda_run(input, input_bytes, replies, sizeof replies,
                        numbers) == 0 &&
          all_accepted();
}

static void run_free(void)
{
    did = kemilunda_run_free(input, input_bytes, replies, sizeof replies,
                             free_nodes, sizeof free_nodes, numbers) == 0 &&
          all_accepted();
}

static void export(void)
{
    did = kemilunda_export(input + setup_bytes, input_bytes - setup_bytes,
                           text, sizeof text, &text_bytes) == 0;
}

static void import(void)
{
    did = kemilunda_import(text, text_bytes, entries, sizeof entries,
                           &written) == 0 &&
          written == input_bytes - setup_bytes &&
          memcmp(entries, input + setup_bytes, written) == 0;
}

/* Calls f on the painted stack; returns the bytes from its top to the last one written. */
static size_t taken(void (*f)(void))
{
    size_t untouched = 0;

    memset(stack, PAINT, sizeof stack);
    if (getcontext(&there) != 0)
        return SIZE_MAX;
    there.uc_stack.ss_sp = stack;
    there.uc_stack.ss_size = sizeof stack;
    there.uc_link = &here;
    makecontext(&there, f, 0);
    did = false;
    if (swapcontext(&here, &there) != 0)
        return SIZE_MAX;
    while (untouched < sizeof stack && stack[untouched] == PAINT)
        untouched++;
    return sizeof stack - untouched;
}

int main(int argc, char **argv)
{
    static const struct {
        const char *name;
        void (*call)(void);
    } calls[] = {
        {"kemilunda_setup", setup},   {"kemilunda_setup_bytes", setup_size},
        {"kemilunda_run", run},       {"kemilunda_run_free", run_free},
        {"kemilunda_export", export}, {"kemilunda_import", import},
    };
    const unsigned long most = argc == 2 ? strtoul(argv[1], NULL, 10) : 0;
    int status = 0;

    if (most == 0) {
        fprintf(stderr, "usage: board BYTES\n");
        return 2;
    }
    make_input();
    for (size_t i = 0; i < sizeof calls / sizeof *calls; i++) {
        /* once on the stack that is there: the linker looks functions up at their first call */
        calls[i].call();
        const size_t bytes = taken(calls[i].call);

        if (did && bytes <= most) {
            printf("ok %-22s %5zu bytes of %lu written on its stack\n",
                   calls[i].name, bytes, most);
        } else {
            printf("FAILED %s %s: %zu bytes written on its stack, and %lu are allowed\n",
                   calls[i].name, did ? "grew" : "did not do its work", bytes,
                   most);
            status = 1;
        }
    }
    return status;
}
