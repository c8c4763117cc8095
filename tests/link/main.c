/*
 * What a C program has to do to use the proved step bench: one header, one
 * archive, buffers of its own.  Prints document 01's case 3 from its replies,
 * what becomes of a setup and of a reply buffer that are refused, what a
 * validate in place of the store finds, how stores without a link go after a
 * restart, how many nodes are free after each entry of cases 3 and 10, and case
 * 3's schedule as text.
 */
#include <kemilunda.h>
#include <stdio.h>
#include <string.h>

enum {
    ENTRIES = 9,
    REPLY = 8,
    ROOM = REPLY * ENTRIES,
    SETUP = 10, /* bytes, those of a setup with one cell */
    LINE = 23, /* the most bytes that a line has */
    MOST = 22, /* entries, those of case 10 */
    RESTARTED = 16, /* entries, those after a restart */
    POOL = 4, /* where the size of the pool stands in a setup */
    STORE = 60, /* where the store's entry begins */
    KIND = 3,
    VALUE = 6,
    /* no number of free nodes (128 at most), no byte of case 3's entries or replies */
    UNTOUCHED = 0xAA,
    NO_LENGTH = 77 /* nothing here is so long */
};

static const uint8_t CASE_3[] = {
    0x53, 0x55, 1, 1, 3, 0,           /* setup: 1 cell, 1 task, 3 nodes */
    7, 0, 0, 0,                       /* cell 0 starts with 7 */
    0x45, 0x4E, 0, 1, 0, 0, 0, 0, 0, 0, /* task 0: load cell 0 */
    0x45, 0x4E, 0, 0, 0, 0, 0, 0, 0, 0, /* go, four times */
    0x45, 0x4E, 0, 0, 0, 0, 0, 0, 0, 0,
    0x45, 0x4E, 0, 0, 0, 0, 0, 0, 0, 0,
    0x45, 0x4E, 0, 0, 0, 0, 0, 0, 0, 0,
    0x45, 0x4E, 0, 2, 0, 0, 9, 0, 0, 0, /* store 9 to cell 0 */
    0x45, 0x4E, 0, 0, 0, 0, 0, 0, 0, 0, /* go, three times */
    0x45, 0x4E, 0, 0, 0, 0, 0, 0, 0, 0,
    0x45, 0x4E, 0, 0, 0, 0, 0, 0, 0, 0,
};

#define ENTRY(task, kind, cell, value) 0x45, 0x4E, task, kind, cell, 0, value, 0, 0, 0
#define GO(task) ENTRY(task, 0, 0, 0)
#define LOADED(task) ENTRY(task, 1, 0, 0), GO(task), GO(task), GO(task), GO(task)

static const uint8_t CASE_10[] = {
    0x53, 0x55, 1, 2, 5, 0, /* setup: 1 cell, 2 tasks, 5 nodes */
    7, 0, 0, 0,
    LOADED(0), LOADED(1),
    ENTRY(1, 2, 0, 9),      /* task 1: store 9 to cell 0, which takes node 3 */
    GO(1), GO(1), GO(1), GO(1), GO(1), GO(1), GO(1),
    ENTRY(0, 2, 0, 8),      /* task 0: store 8, lost, which gives node 0 back */
    GO(0), GO(0), GO(0)
};

static const uint8_t RESTART[] = {
    0x53, 0x55, 2, 2, 6, 0, /* setup: 2 cells, 2 tasks, 6 nodes */
    7, 0, 0, 0, 8, 0, 0, 0,
    ENTRY(0, 2, 0, 9),      /* task 0: store 9 to cell 0 and to cell 1, */
    ENTRY(0, 2, 1, 9),      /* without a link: both are lost at once */
    LOADED(0),              /* 7, as before */
    ENTRY(0, 2, 0, 9),      /* with a link, the store takes */
    GO(0), GO(0), GO(0),
    LOADED(1)               /* 9 */
};

static void print_reply(const uint8_t *reply)
{
    unsigned long value = (unsigned long)reply[4] | (unsigned long)reply[5] << 8 |
                          (unsigned long)reply[6] << 16 | (unsigned long)reply[7] << 24;

    printf("%02X %02X: number %u, task %u, value %lu\n", reply[0], reply[1],
           reply[2], reply[3], value);
}

static void print_numbers(const uint32_t numbers[KEMILUNDA_NUMBERS])
{
    printf("accepted %lu, refusal %lu, loads %lu, load steps %lu, "
           "turned back %lu, swaps %lu\n",
           (unsigned long)numbers[KEMILUNDA_ACCEPTED],
           (unsigned long)numbers[KEMILUNDA_REFUSAL],
           (unsigned long)numbers[KEMILUNDA_LOADS],
           (unsigned long)numbers[KEMILUNDA_LOAD_STEPS],
           (unsigned long)numbers[KEMILUNDA_TURNED_BACK],
           (unsigned long)numbers[KEMILUNDA_SWAPS]);
}

static size_t bytes_touched(const uint8_t *bytes, size_t size)
{
    size_t touched = 0;

    for (size_t i = 0; i < size; i++)
        touched += bytes[i] != UNTOUCHED;
    return touched;
}

static void print_restart(void)
{
    uint8_t replies[REPLY * RESTARTED];
    uint32_t numbers[KEMILUNDA_NUMBERS];

    printf("restart: run %lu\n",
           (unsigned long)kemilunda_run(RESTART, sizeof RESTART, replies,
                                        sizeof replies, numbers));
    for (size_t i = 0; i < RESTARTED; i++)
        print_reply(replies + REPLY * i);
    print_numbers(numbers);
}

/* How many nodes are free after each entry, for as many as there is room. */
static void print_free(const uint8_t *input, size_t size, size_t room)
{
    uint8_t replies[REPLY * MOST], free_nodes[MOST];
    uint32_t numbers[KEMILUNDA_NUMBERS];

    memset(free_nodes, UNTOUCHED, sizeof free_nodes);
    printf("run %lu\n",
           (unsigned long)kemilunda_run_free(input, size, replies, sizeof replies,
                                             free_nodes, room, numbers));
    printf("free:");
    for (size_t i = 0; i < MOST; i++)
        if (free_nodes[i] != UNTOUCHED)
            printf(" %u", free_nodes[i]);
    printf("\n");
    print_numbers(numbers);
}

/* Case 3's schedule to text and back; two refusals leave the output and its length. */
static void print_text(void)
{
    const uint8_t *entries = CASE_3 + SETUP;
    const size_t size = sizeof CASE_3 - SETUP;
    uint8_t text[LINE * ENTRIES], back[sizeof CASE_3 - SETUP];
    size_t length = NO_LENGTH, written = NO_LENGTH;
    unsigned long result;

    memset(back, UNTOUCHED, sizeof back);
    result = kemilunda_export(entries, size, text, sizeof text, &length);
    printf("export %lu, of %lu bytes\n%.*s", result, (unsigned long)length,
           (int)length, (const char *)text);

    /* the last line isn't closed */
    result = kemilunda_import(text, length - 1, back, sizeof back, &written);
    printf("import %lu, %zu bytes written, length %zu\n", result,
           bytes_touched(back, sizeof back), written);
    /* the room is one byte short */
    result = kemilunda_import(text, length, back, sizeof back - 1, &written);
    printf("import %lu, %zu bytes written, length %zu\n", result,
           bytes_touched(back, sizeof back), written);

    result = kemilunda_import(text, length, back, sizeof back, &written);
    printf("import %lu, %zu bytes written, length %zu: %s\n", result,
           bytes_touched(back, sizeof back), written,
           memcmp(back, entries, size) == 0 ? "the same entries" : "others");
}

int main(void)
{
    uint8_t input[sizeof CASE_3];
    uint8_t replies[ROOM];
    uint32_t numbers[KEMILUNDA_NUMBERS] = { 1, 2, 3, 4, 5, 6 };

    memcpy(input, CASE_3, sizeof input);
    memset(replies, UNTOUCHED, sizeof replies);

    printf("case 3: setup %lu, of %zu bytes\n",
           (unsigned long)kemilunda_setup(input, sizeof input),
           kemilunda_setup_bytes(input, sizeof input));
    printf("run %lu\n", (unsigned long)kemilunda_run(input, sizeof input, replies,
                                                     sizeof replies, numbers));
    for (size_t i = 0; i < ENTRIES; i++)
        print_reply(replies + REPLY * i);
    print_numbers(numbers);

    /* the pool is one node short: nothing is written, the numbers stay */
    memset(replies, UNTOUCHED, sizeof replies);
    input[POOL] = 2;
    printf("2 nodes: setup %lu, of %zu bytes\n",
           (unsigned long)kemilunda_setup(input, sizeof input),
           kemilunda_setup_bytes(input, sizeof input));
    printf("run %lu\n", (unsigned long)kemilunda_run(input, sizeof input, replies,
                                                     sizeof replies, numbers));
    printf("%zu bytes of replies\n", bytes_touched(replies, sizeof replies));
    print_numbers(numbers);

    /* the reply buffer is one byte short: the numbers say why nothing ran */
    input[POOL] = 3;
    printf("room for %d bytes: run %lu\n", ROOM - 1,
           (unsigned long)kemilunda_run(input, sizeof input, replies, ROOM - 1,
                                        numbers));
    printf("%zu bytes of replies\n", bytes_touched(replies, sizeof replies));
    print_numbers(numbers);

    /* good at its first go; at the second there is no step to make */
    input[STORE + KIND] = 4;
    input[STORE + VALUE] = 0;
    printf("validate: run %lu\n",
           (unsigned long)kemilunda_run(input, sizeof input, replies,
                                        sizeof replies, numbers));
    for (size_t i = 5; i < 8; i++)
        print_reply(replies + REPLY * i);
    print_numbers(numbers);

    print_restart();
    printf("case 3, free nodes\n");
    print_free(CASE_3, sizeof CASE_3, MOST);
    printf("validate, free nodes\n"); /* the refused entry has a number too */
    print_free(input, sizeof input, MOST);
    printf("case 10, free nodes\n");
    print_free(CASE_10, sizeof CASE_10, MOST);
    printf("room for 18\n"); /* fewer numbers, the same run */
    print_free(CASE_10, sizeof CASE_10, 18);
    printf("case 3 as text\n");
    print_text();
    return 0;
}
