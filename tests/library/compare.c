/*
 * library FIRST_SEED COUNT KEEP_DIR
 *
 * Runs the library for C and the second program on one random input a seed,
 * in this process, with buffers of several sizes, and compares all that the
 * header promises: results, numbers, replies, free nodes and the bytes that are
 * left alone.  The second program counts the free nodes one by one.  A difference
 * is also an answer of 18, which the header says is given no more.  Exit status:
 * 0 all equal and everything reachable met, 1 differences, 2 could not run, 3 all
 * equal but something reachable never met.
 */
#include "../random/coverage.h"
#include "../random/driver.h"
#include "../random/generate.h"
#include "../random/readable.h"
#include "../second/bench.h"

#include <kemilunda.h>
#include <stdlib.h>
#include <string.h>

enum {
    /* a schedule that is refused for its length may come with room enough */
    MOST_ROOM = REPLY_BYTES * (MAX_GENERATED / ENTRY_BYTES + 2),
    MOST_FREE = MAX_GENERATED / ENTRY_BYTES + 16,
    MARGIN = 61, /* odd, so that the replies start at no even address */
    FULL_LISTINGS = 10 /* later differences are shown without one */
};

/* One call of both. */
struct trial {
    uint64_t seed;
    const uint8_t *input;
    size_t length;
    size_t room;      /* for replies */
    bool asks;        /* how many nodes are free, after every entry */
    size_t free_room; /* for the answers; 0 where it doesn't ask */
};

/* What the call gave, and each of its buffers between two margins. */
struct outcome {
    uint32_t result;
    uint32_t numbers[KEMILUNDA_NUMBERS];
    uint8_t replies[MARGIN + MOST_ROOM + MARGIN];
    uint8_t free_nodes[MARGIN + MOST_FREE + MARGIN];
};

/* Before a call every byte and number has a value that depends on its place. */

static uint8_t byte_before(const struct trial *t, size_t place)
{
    return (uint8_t)(t->seed + 37 * place + place / 256);
}

static void prepare(struct outcome *o, const struct trial *t)
{
    for (size_t i = 0; i < KEMILUNDA_NUMBERS; i++)
        o->numbers[i] = (uint32_t)(t->seed * 2654435761u + i);
    for (size_t i = 0; i < MARGIN + t->room + MARGIN; i++)
        o->replies[i] = byte_before(t, i);
    for (size_t i = 0; i < MARGIN + t->free_room + MARGIN; i++)
        o->free_nodes[i] = byte_before(t, i);
}

/* The two programs ------------------------------------------------------- */

static void run_library(struct outcome *o, const struct trial *t)
{
    prepare(o, t);
    if (t->asks)
        o->result = kemilunda_run_free(t->input, t->length, o->replies + MARGIN,
                                       t->room, o->free_nodes + MARGIN,
                                       t->free_room, o->numbers);
    else
        o->result = kemilunda_run(t->input, t->length, o->replies + MARGIN,
                                  t->room, o->numbers);
}

static void run_second(struct outcome *o, const struct trial *t)
{
    struct display d = { bench_free_counted, o->free_nodes + MARGIN, t->free_room };
    struct machine m;
    size_t used;

    prepare(o, t);
    o->result = bench_setup(&m, t->input, t->length, &used);
    if (o->result != 0)
        return;

    struct report r = bench_run_shown(&m, t->input + used, t->length - used,
                                      o->replies + MARGIN, t->room, &d);

    o->numbers[KEMILUNDA_ACCEPTED] = r.accepted;
    o->numbers[KEMILUNDA_REFUSAL] = r.refusal;
    o->numbers[KEMILUNDA_LOADS] = r.loads;
    o->numbers[KEMILUNDA_LOAD_STEPS] = r.load_steps;
    o->numbers[KEMILUNDA_TURNED_BACK] = r.turned_back;
    o->numbers[KEMILUNDA_SWAPS] = r.swaps;
}

/* How many replies go with the numbers: 21 and 23 come before any entry. */
static size_t replies_due(const struct outcome *o)
{
    uint32_t refusal = o->numbers[KEMILUNDA_REFUSAL];

    if (o->result != 0)
        return 0;
    return o->numbers[KEMILUNDA_ACCEPTED] +
           (refusal != 0 && refusal != NO_ROOM && refusal != TOO_LONG);
}

/* Differences ------------------------------------------------------------ */

static void print_trial(const struct trial *t)
{
    printf("seed %llu, room for %zu reply bytes", (unsigned long long)t->seed,
           t->room);
    if (t->asks)
        printf(" and %zu answers", t->free_room);
    printf(": ");
}

/* Each of these says what differs and returns true, or says nothing. */

static bool differ(const struct trial *t, const char *what,
                   unsigned long library, unsigned long second)
{
    if (library == second)
        return false;
    print_trial(t);
    printf("%s: library %lu, second %lu\n", what, library, second);
    return true;
}

static bool numbers_differ(const struct trial *t, const struct outcome *library,
                           const struct outcome *second)
{
    static const char *const names[KEMILUNDA_NUMBERS] = {
        "entries accepted", "refusal", "loads begun", "load steps",
        "checks turned back", "swaps that took"
    };
    bool found = false;

    for (size_t i = 0; i < KEMILUNDA_NUMBERS; i++)
        found |= differ(t, names[i], library->numbers[i], second->numbers[i]);
    return found;
}

/* One of the two buffers, and how many of its bytes go with one entry. */
struct buffer {
    const char *name;
    size_t room;
    size_t each;
};

static bool bytes_differ(const struct trial *t, struct buffer b,
                         const uint8_t *library, const uint8_t *second,
                         size_t *last)
{
    size_t size = MARGIN + b.room + MARGIN, i = 0;

    if (memcmp(library, second, size) == 0)
        return false;
    while (library[i] == second[i])
        i++;
    print_trial(t);
    printf("%s, byte %ld: library %02X, second %02X\n", b.name,
           (long)i - MARGIN, library[i], second[i]);
    if (i >= MARGIN && i < MARGIN + b.room)
        *last = (i - MARGIN) / b.each + 1; /* later entries had no part in it */
    return true;
}

/* Held to the header, not to the second program. */
static bool wrote_elsewhere(const struct trial *t, struct buffer b,
                            const uint8_t *bytes, size_t entries)
{
    size_t from = MARGIN, to = MARGIN + b.each * entries;

    if (to > MARGIN + b.room)
        to = MARGIN + b.room;
    for (size_t i = 0; i < MARGIN + b.room + MARGIN; i++) {
        if ((i < from || i >= to) && bytes[i] != byte_before(t, i)) {
            print_trial(t);
            printf("%s, byte %ld is no entry's, but changed\n", b.name,
                   (long)i - MARGIN);
            return true;
        }
    }
    return false;
}

static bool buffers_differ(const struct trial *t, const struct outcome *library,
                           const struct outcome *second, size_t *last)
{
    struct buffer replies = { "replies", t->room, REPLY_BYTES };
    struct buffer free_nodes = { "free nodes", t->free_room, 1 };
    size_t entries = replies_due(library);

    return bytes_differ(t, replies, library->replies, second->replies, last) ||
           bytes_differ(t, free_nodes, library->free_nodes, second->free_nodes,
                        last) ||
           wrote_elsewhere(t, replies, library->replies, entries) ||
           wrote_elsewhere(t, free_nodes, library->free_nodes, entries);
}

/* Of an outcome that both have; a run's refusal is its last reply as well. */
static bool both_gave_18(const struct trial *t, const struct outcome *o,
                         size_t *last)
{
    size_t entries = replies_due(o), i = 0;

    while (i < entries && o->replies[MARGIN + REPLY_BYTES * i + 2] != UNUSED)
        i++;
    if (i == entries && o->result != UNUSED)
        return false;
    print_trial(t);
    printf("both give 18\n");
    *last = i + 1;
    return true;
}

/* Calls of kemilunda_run_free -------------------------------------------- */

/* By the room that FREE_NODES has, where there are answers and where not. */
struct asked {
    unsigned long none;
    unsigned long some;
    unsigned long all;
    unsigned long more;
    unsigned long refused;  /* the last answer is a refused entry's */
    unsigned long setup;    /* no answers to the room: the setup is refused, */
    unsigned long no_room;  /* the replies have none, */
    unsigned long too_long; /* or the schedule is too long */
};

static void cover_asked(struct asked *a, const struct trial *t,
                        const struct outcome *o)
{
    size_t due = replies_due(o), room = t->free_room;
    uint32_t refusal = o->result == 0 ? o->numbers[KEMILUNDA_REFUSAL] : 0;

    a->none += due > 0 && room == 0;
    a->some += room > 0 && room < due;
    a->all += due > 0 && room == due;
    a->more += due > 0 && room > due;
    a->refused += due > 0 && room >= due && refusal != 0;
    a->setup += room > 0 && o->result != 0;
    a->no_room += room > 0 && refusal == NO_ROOM;
    a->too_long += room > 0 && refusal == TOO_LONG;
}

static unsigned print_asked(FILE *out, const struct asked *a)
{
    const struct row rows[] = {
        { "no room for an answer", a->none },
        { "room for some answers", a->some },
        { "room for all answers", a->all },
        { "room for more than all", a->more },
        { "a refused entry's answer", a->refused },
        { "all room stays, the setup is refused", a->setup },
        { "all room stays, 21", a->no_room },
        { "all room stays, 23", a->too_long },
    };

    return coverage_rows(out, "kemilunda_run_free call", rows,
                         sizeof rows / sizeof rows[0]);
}

/* One seed --------------------------------------------------------------- */

struct tally {
    unsigned long inputs;
    unsigned long runs;
    unsigned long differences;
    struct coverage coverage;
    struct asked asked;
};

/* Both functions about the setup; *used is its length by the second program. */
static bool setups_differ(const struct trial *t, size_t *used)
{
    struct machine m;
    unsigned refusal = bench_setup(&m, t->input, t->length, used);
    bool found = differ(t, "setup", kemilunda_setup(t->input, t->length), refusal);

    found |= differ(t, "bytes of the setup",
                    kemilunda_setup_bytes(t->input, t->length), *used);
    return found;
}

static bool trial_differs(struct tally *tally, const struct trial *t,
                          size_t *last)
{
    static struct outcome library, second;
    bool found;

    run_library(&library, t);
    run_second(&second, t);
    tally->runs++;
    if (second.result == 0 && second.numbers[KEMILUNDA_REFUSAL] == NO_ROOM)
        tally->coverage.number[NO_ROOM]++;
    if (t->asks)
        cover_asked(&tally->asked, t, &second);

    found = differ(t, "result", library.result, second.result);
    found |= numbers_differ(t, &library, &second);
    return buffers_differ(t, &library, &second, last) || found ||
           both_gave_18(t, &library, last);
}

static bool runs_differ(struct tally *tally, struct trial t, size_t room,
                        size_t *last)
{
    t.room = room;
    return trial_differs(tally, &t, last);
}

static bool asked_differ(struct tally *tally, struct trial t, size_t room,
                         size_t free_room, size_t *last)
{
    t.room = room;
    t.asks = true;
    t.free_room = free_room;
    return trial_differs(tally, &t, last);
}

/* The entries that are tried where the replies have room. */
static size_t entries_tried(struct trial t, size_t room)
{
    static struct outcome second;

    t.room = room;
    run_second(&second, &t);
    return replies_due(&second);
}

static void compare(uint64_t seed, const char *dir, struct tally *tally)
{
    static uint8_t input[MAX_GENERATED];
    struct trial t = { .seed = seed, .input = input,
                       .length = generate(seed, input, sizeof input) };
    size_t last = SIZE_MAX; /* entries worth showing */
    size_t used;
    bool found = setups_differ(&t, &used);
    /* for every entry; after a refused setup for as many as its bytes could be */
    size_t exact = REPLY_BYTES * ((t.length - used + ENTRY_BYTES - 1) / ENTRY_BYTES);
    size_t tried = entries_tried(t, exact);

    tally->inputs++;
    cover(&tally->coverage, input, t.length);
    found = found || runs_differ(tally, t, exact, &last) ||
            runs_differ(tally, t, exact + 1 + seed % 15, &last);
    found = found || asked_differ(tally, t, exact, tried, &last) ||
            asked_differ(tally, t, exact, tried + 1 + seed % 15, &last);
    if (!found && tried > 0)
        found = asked_differ(tally, t, exact + 1, seed % tried, &last);
    if (!found && exact > 0)
        found = runs_differ(tally, t, exact - 1, &last) ||
                runs_differ(tally, t, seed % exact, &last) ||
                asked_differ(tally, t, seed % exact, tried, &last);
    if (!found)
        return;

    tally->differences++;
    keep_input(dir, seed, input, t.length);
    if (tally->differences <= FULL_LISTINGS)
        readable(stdout, input, t.length, last);
    fflush(stdout);
}

/* ------------------------------------------------------------------------ */

int main(int argc, char **argv)
{
    static struct tally tally;
    uint64_t first, count;

    if (argc != 4 || !number_argument(argv[1], &first) ||
        !number_argument(argv[2], &count)) {
        fprintf(stderr, "usage: library FIRST_SEED COUNT KEEP_DIR\n");
        return 2;
    }
    make_folder(argv[3]);

    double began = seconds();

    for (uint64_t i = 0; i < count; i++)
        compare(first + i, argv[3], &tally);

    double took = seconds() - began;
    unsigned never = coverage_print(stdout, &tally.coverage);

    if (tally.coverage.number[NO_ROOM] == 0) { /* here a buffer can be too short */
        printf("never met: refusal %d\n", NO_ROOM);
        never++;
    }
    never += print_asked(stdout, &tally.asked);
    printf("%.1f seconds, %lu runs, %.1f MB of input\n", took, tally.runs,
           (double)tally.coverage.bytes / 1e6);
    if (never > 0)
        printf("coverage: %u reachable things never met\n", never);
    printf("library: %lu inputs, %lu differences\n", tally.inputs, tally.differences);
    if (fflush(stdout) != 0)
        return 2;
    return tally.differences > 0 ? 1 : never > 0 ? 3 : 0;
}
