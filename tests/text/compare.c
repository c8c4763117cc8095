/*
 * text FIRST_SEED COUNT KEEP_DIR
 *
 * Runs the library's import and export and those of the second program on one
 * random schedule a seed, whole and damaged, with outputs of several sizes, and
 * compares all that the header promises: results, lengths, every byte of the
 * output and around it; that the input stays; and that what was accepted comes
 * back the same.  Exit status: 0 all equal and everything named met, 1
 * differences, 2 could not run, 3 all equal but something named never met.
 */
#include "../random/driver.h"
#include "../second/bytes.h"
#include "../second/chance.h"
#include "ways.h"

#include <kemilunda.h>
#include <stdlib.h>
#include <string.h>

enum {
    MORE_ROOM = 15,
    MOST_ROOM = MAX_LINE * MAX_LINES + MORE_ROOM,
    MARGIN = 61, /* odd, so that nothing starts at an even address */
    MOST_WAYS = 100
};

/* Import and export ------------------------------------------------------ */

typedef uint32_t converter(const uint8_t *input, size_t length, uint8_t *output,
                           size_t room, size_t *written);

enum { IMPORT, EXPORT, DIRECTIONS };

struct direction {
    const char *name;
    converter *library;
    converter *second;
    const struct way *(*way)(size_t i);
};

static const struct direction TO[DIRECTIONS] = {
    { "import", kemilunda_import, text_import, text_way },
    { "export", kemilunda_export, text_export, entry_way },
};

/* The room that an output has, beside what the undamaged schedule needs. */
enum room { EMPTY, SHORT, ONE_SHORT, EXACT, LONGER, ROOMS };

static const char *const ROOM_NAMES[ROOMS] = {
    "empty", "short", "one byte short", "exact", "longer"
};

/* One call of both. */
struct trial {
    uint64_t seed;
    unsigned to;            /* IMPORT or EXPORT */
    const struct way *way;  /* NULL where nothing is damaged */
    const struct input *in;
    size_t need;            /* of the undamaged schedule */
    size_t room;
};

/* What has been met ------------------------------------------------------ */

enum { LENGTHS = 7, BOUNDS = LENGTHS - 1, MOST_REFUSAL = SHORT_OUTPUT };

/* Of each direction, by the second program's account. */
struct met {
    unsigned long result[MOST_REFUSAL + 1];
    unsigned long tight[MOST_REFUSAL + 1]; /* refused with too little room as well */
    unsigned long room[ROOMS];             /* of undamaged schedules that aren't empty */
    unsigned long way[MOST_WAYS];
    unsigned long first[MOST_REFUSAL + 1]; /* the bad line or entry is the first, */
    unsigned long between[MOST_REFUSAL + 1];
    unsigned long last[MOST_REFUSAL + 1];
    unsigned long length[LENGTHS];         /* accepted */
    unsigned long digits[LINE_NUMBERS][11];
    unsigned long came_back;
};

struct tally {
    unsigned long schedules;
    unsigned long calls;
    unsigned long bytes;
    unsigned long differences;
    struct met met[DIRECTIONS];
};

static size_t length_class(size_t units)
{
    static const size_t bounds[BOUNDS] = { 1, 2, 10, 100, 1000, MAX_LINES };
    size_t class = 0;

    while (class < BOUNDS && units >= bounds[class])
        class++;
    return class;
}

static size_t digits_of(uint32_t number)
{
    size_t digits = 1;

    for (; number >= 10; number /= 10)
        digits++;
    return digits;
}

static void cover_entries(struct met *m, const uint8_t *entries, size_t length)
{
    m->length[length_class(length / ENTRY_BYTES)]++;
    for (size_t at = 0; at < length; at += ENTRY_BYTES) {
        for (size_t i = 0; i < 3; i++)
            m->digits[i][digits_of(entries[at + 2 + i])]++;
        m->digits[3][digits_of(read32(entries + at + 6))]++;
    }
}

static void cover_place(struct met *m, const struct trial *t, uint32_t result)
{
    if (t->in->bad == UNKNOWN || t->in->units < 3)
        return;
    if (t->in->bad == 0)
        m->first[result]++;
    else if (t->in->bad == t->in->units - 1)
        m->last[result]++;
    else
        m->between[result]++;
}

static void cover(struct met *m, const struct trial *t, uint32_t result)
{
    m->result[result]++;
    if (result != 0 && result != SHORT_OUTPUT)
        m->tight[result] += t->room < t->need;
    if (t->way != NULL)
        cover_place(m, t, result);
}

/* Both outcomes ---------------------------------------------------------- */

struct outcome {
    uint32_t result;
    size_t written;
    uint8_t output[MARGIN + MOST_ROOM + MARGIN];
};

/* Before a call every byte has a value that depends on its place. */
static uint8_t byte_before(const struct trial *t, size_t place)
{
    return (uint8_t)(t->seed + 37 * place + place / 256);
}

static void run(struct outcome *o, const struct trial *t, converter *convert,
                const uint8_t *input)
{
    /* far from any length in both halves, so that a refusal that sets one is seen */
    o->written = (size_t)((t->seed + 1) * UINT64_C(0x9E3779B97F4A7C15));
    for (size_t i = 0; i < MARGIN + t->room + MARGIN; i++)
        o->output[i] = byte_before(t, i);
    o->result = convert(input, t->in->length, o->output + MARGIN, t->room, &o->written);
}

static bool says(const struct trial *t, const char *what)
{
    printf("seed %llu, %s, %s, %zu bytes for %zu: %s",
           (unsigned long long)t->seed, TO[t->to].name,
           t->way == NULL ? "not damaged" : t->way->name, t->room, t->need, what);
    return true;
}

/* Each of these says what differs and returns true, or says nothing. */

static bool numbers_differ(const struct trial *t, const char *what,
                           uint64_t library, uint64_t second)
{
    if (library == second)
        return false;
    says(t, what);
    printf(": library %llu, not %llu\n", (unsigned long long)library,
           (unsigned long long)second);
    return true;
}

static bool outputs_differ(const struct trial *t, const struct outcome *library,
                           const struct outcome *second)
{
    size_t i = 0;

    if (memcmp(library->output, second->output, MARGIN + t->room + MARGIN) == 0)
        return false;
    while (library->output[i] == second->output[i])
        i++;
    says(t, "output");
    printf(", byte %ld: library %02X, not %02X\n", (long)i - MARGIN,
           library->output[i], second->output[i]);
    return true;
}

/* Held to the header, not to the second program. */
static bool wrote_elsewhere(const struct trial *t, const struct outcome *o)
{
    size_t written = o->result == 0 ? o->written : 0;

    for (size_t i = 0; i < MARGIN + t->room + MARGIN; i++) {
        if ((i < MARGIN || i >= MARGIN + written) && o->output[i] != byte_before(t, i)) {
            says(t, "output");
            printf(", byte %ld is outside what was written, but changed\n", (long)i - MARGIN);
            return true;
        }
    }
    return false;
}

/* What was accepted, the other way round. */
static bool comes_back(const struct trial *t, const struct outcome *o)
{
    static uint8_t back[MOST_INPUT];
    size_t length = t->in->length;
    size_t written = 0;

    memset(back, 0xA5, length); /* the trial before may have left the same bytes */
    return TO[1 - t->to].library(o->output + MARGIN, o->written, back, length,
                                 &written) == 0 &&
           written == length && memcmp(back, t->in->bytes, length) == 0;
}

/* The refusal that the way itself names; more newlines than may be go first. */
static uint32_t due(const struct trial *t)
{
    size_t newlines = 0;

    if (t->way == NULL)
        return t->room < t->need ? SHORT_OUTPUT : 0;
    if (t->to == EXPORT || t->way->due == ANY)
        return t->way->due;
    for (size_t i = 0; i < t->in->length; i++)
        newlines += t->in->bytes[i] == '\n';
    return newlines > MAX_LINES ? TOO_LONG : t->way->due;
}

static bool trial_differs(struct tally *tally, const struct trial *t)
{
    static struct outcome library, second;
    static uint8_t input[MARGIN + MOST_INPUT];
    struct met *m = &tally->met[t->to];
    /* some of what stands behind the input too, as a newline that closes a line */
    size_t seen = t->in->length + MARGIN;
    uint32_t named = due(t);
    bool found;

    memcpy(input + MARGIN, t->in->bytes, seen);
    run(&library, t, TO[t->to].library, input + MARGIN);
    run(&second, t, TO[t->to].second, t->in->bytes);
    tally->calls++;
    tally->bytes += t->in->length;
    cover(m, t, second.result);

    found = numbers_differ(t, "result", library.result, second.result);
    if (named != ANY)
        found |= numbers_differ(t, "refusal due", library.result, named);
    found |= numbers_differ(t, "written", library.written, second.written);
    found = outputs_differ(t, &library, &second) || wrote_elsewhere(t, &library) || found;
    if (memcmp(input + MARGIN, t->in->bytes, seen) != 0)
        found = says(t, "the input was changed\n");
    if (found || second.result != 0)
        return found;

    cover_entries(m, t->to == IMPORT ? second.output + MARGIN : t->in->bytes,
                  t->to == IMPORT ? second.written : t->in->length);
    if (!comes_back(t, &library))
        return says(t, "does not come back the same\n");
    m->came_back++;
    return false;
}

/* One seed --------------------------------------------------------------- */

static size_t pick_room(enum room room, size_t need, uint32_t *state)
{
    switch (room) {
    case EMPTY:
        return 0;
    case SHORT:
        return need == 0 ? 0 : chance(state) % need;
    case ONE_SHORT:
        return need == 0 ? 0 : need - 1;
    case EXACT:
        return need;
    default:
        return need + 1 + chance(state) % MORE_ROOM;
    }
}

static void keep(struct tally *tally, const struct trial *t, const char *dir)
{
    tally->differences++;
    keep_input(dir, t->seed, t->in->bytes, t->in->length);
    fflush(stdout);
}

/* Undamaged: with the room that is needed, and with another one. */
static void compare_good(struct tally *tally, struct trial t, uint32_t *state,
                         const char *dir)
{
    const enum room rooms[] = { EXACT, (enum room)(chance(state) % ROOMS) };

    for (size_t i = 0; i < 2; i++) {
        t.room = pick_room(rooms[i], t.need, state);
        tally->met[t.to].room[rooms[i]] += t.need > 0;
        if (trial_differs(tally, &t)) {
            keep(tally, &t, dir);
            return;
        }
    }
}

static void compare_damaged(struct tally *tally, struct trial t, size_t way,
                            struct input *in, uint32_t *state, const char *dir)
{
    t.way = TO[t.to].way(way);
    tally->met[t.to].way[way]++;
    damage(in, t.way, state);
    t.room = pick_room((enum room)(chance(state) % ROOMS), t.need, state);
    if (trial_differs(tally, &t))
        keep(tally, &t, dir);
}

static size_t way_count(const struct direction *to)
{
    size_t count = 0;

    while (to->way(count) != NULL)
        count++;
    return count;
}

/* Short ones mostly; long ones take as much time as hundreds of these. */
static size_t pick_units(uint64_t seed, uint32_t *state)
{
    uint32_t pick = chance(state) % 1000;

    if (pick < 500)
        return seed % 40;
    if (pick < 900)
        return chance(state) % 10;
    if (pick < 990)
        return chance(state) % 200;
    if (pick < 996)
        return chance(state) % 1000;
    return pick < 998 ? chance(state) % MAX_LINES : MAX_LINES;
}

/* The longest one is the same every time: to make it takes longer than the rest. */
static void make_least(struct schedule *s, size_t units, uint32_t *state)
{
    static struct schedule longest;
    uint32_t fixed = 1;

    if (units < MAX_LINES) {
        make_schedule(s, units, state);
        return;
    }
    if (longest.text.length == 0)
        make_schedule(&longest, MAX_LINES, &fixed);
    *s = longest;
}

static void compare_to(struct tally *tally, unsigned to, uint64_t seed,
                       uint32_t *state, const char *dir)
{
    static struct schedule s;
    size_t way = seed % way_count(&TO[to]);
    size_t least = TO[to].way(way)->least;
    size_t units = pick_units(seed, state);
    struct input *in = to == IMPORT ? &s.text : &s.entries;

    make_schedule(&s, units, state);

    struct trial t = { .seed = seed, .to = to, .in = in,
                       .need = to == IMPORT ? s.entries.length : s.text.length };

    compare_good(tally, t, state, dir);
    if (units < least) { /* too few to be damaged in this way */
        make_least(&s, least, state);
        t.need = to == IMPORT ? s.entries.length : s.text.length;
    }
    compare_damaged(tally, t, way, in, state, dir);
}

static void compare(struct tally *tally, uint64_t seed, const char *dir)
{
    uint32_t state = (uint32_t)(seed * 2654435761u);

    tally->schedules++;
    for (unsigned to = 0; to < DIRECTIONS; to++)
        compare_to(tally, to, seed, &state, dir);
}

/* The tables ------------------------------------------------------------- */

/* Each prints the table of one thing; the numbers' names must last so long. */

static unsigned print_numbers(const char *thing, const unsigned long *met,
                              const uint32_t *numbers, size_t count)
{
    struct row rows[10];
    char names[10][24];

    for (size_t i = 0; i < count; i++) {
        snprintf(names[i], sizeof names[i], "%lu", (unsigned long)numbers[i]);
        rows[i] = (struct row){ names[i], met[numbers[i]] };
    }
    return coverage_rows(stdout, thing, rows, count);
}

static unsigned print_named(const char *thing, const unsigned long *met,
                            const char *const *names, size_t count)
{
    struct row rows[MOST_WAYS];

    for (size_t i = 0; i < count; i++)
        rows[i] = (struct row){ names[i], met[i] };
    return coverage_rows(stdout, thing, rows, count);
}

static unsigned print_ways(const struct direction *to, const struct met *m)
{
    const char *names[MOST_WAYS];
    size_t count = way_count(to);

    for (size_t i = 0; i < count; i++)
        names[i] = to->way(i)->name;
    return print_named("way of damage, time", m->way, names, count);
}

static unsigned print_digits(const struct met *m)
{
    static const char *const names[LINE_NUMBERS] = {
        "accepted, the task's digit", "accepted, the kind's digit",
        "accepted, the cell's digit", "accepted, the value's digit"
    };
    static const uint32_t counts[] = { 1, 2, 3, 4, 5, 6, 7, 8, 9, 10 };
    unsigned never = 0;

    for (size_t i = 0; i < LINE_NUMBERS; i++)
        never += print_numbers(names[i], m->digits[i], counts, i < 3 ? 3 : 10);
    return never;
}

static unsigned print_met(unsigned to, const struct met *m)
{
    static const char *const lengths[LENGTHS] = {
        "0", "1", "2 to 9", "10 to 99", "100 to 999", "1,000 to 6,552", "6,553"
    };
    /* first the two that any line or entry can have */
    static const uint32_t results[DIRECTIONS][6] = {
        { BAD_FORM, TOO_LARGE, TOO_LONG, SHORT_OUTPUT, 0 },
        { BAD_MARK, NOT_ZERO, CUT, TOO_LONG, SHORT_OUTPUT, 0 },
    };
    const uint32_t *of = results[to];
    size_t count = to == IMPORT ? 5 : 6;
    unsigned never = 0;

    printf("%s\n", TO[to].name);
    never += print_numbers("result", m->result, of, count);
    never += print_numbers("too little room too, refusal", m->tight, of, count - 2);
    never += print_numbers("the first one is bad, refusal", m->first, of, 2);
    never += print_numbers("one between is bad, refusal", m->between, of, 2);
    never += print_numbers("the last one is bad, refusal", m->last, of, 2);
    never += print_named("not damaged, room", m->room, ROOM_NAMES, ROOMS);
    never += print_named("accepted, length", m->length, lengths, LENGTHS);
    never += print_digits(m);
    never += print_ways(&TO[to], m);
    printf("accepted and came back the same: %lu\n", m->came_back);
    return never;
}

int main(int argc, char **argv)
{
    static struct tally tally;
    uint64_t first, count;
    unsigned never = 0;

    if (argc != 4 || !number_argument(argv[1], &first) ||
        !number_argument(argv[2], &count)) {
        fprintf(stderr, "usage: text FIRST_SEED COUNT KEEP_DIR\n");
        return 2;
    }
    make_folder(argv[3]);

    double began = seconds();

    for (uint64_t i = 0; i < count; i++)
        compare(&tally, first + i, argv[3]);

    double took = seconds() - began;

    for (unsigned to = 0; to < DIRECTIONS; to++)
        never += print_met(to, &tally.met[to]);
    printf("%.1f seconds, %lu calls, %.1f MB of input\n", took, tally.calls,
           (double)tally.bytes / 1e6);
    if (never > 0)
        printf("coverage: %u things never met\n", never);
    printf("text: %lu schedules, %lu differences\n", tally.schedules, tally.differences);
    if (fflush(stdout) != 0)
        return 2;
    return tally.differences > 0 ? 1 : never > 0 ? 3 : 0;
}
