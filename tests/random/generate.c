#include "generate.h"

#include "../second/bench.h"

#include <string.h>

/* Dice ------------------------------------------------------------------- */

struct dice {
    uint64_t state;
};

/* splitmix64: small, good enough, and the same everywhere */
static uint64_t roll(struct dice *d)
{
    uint64_t z = d->state += 0x9E3779B97F4A7C15u;

    z = (z ^ (z >> 30)) * 0xBF58476D1CE4E5B9u;
    z = (z ^ (z >> 27)) * 0x94D049BB133111EBu;
    return z ^ (z >> 31);
}

static uint32_t below(struct dice *d, uint32_t n)
{
    return (uint32_t)(roll(d) % n);
}

static uint32_t between(struct dice *d, uint32_t low, uint32_t high)
{
    return low + below(d, high - low + 1);
}

static bool chance(struct dice *d, unsigned percent)
{
    return below(d, 100) < percent;
}

/* Bytes being written ---------------------------------------------------- */

struct tape {
    uint8_t *out;
    size_t length;
    size_t cap;
};

static void put(struct tape *t, const uint8_t *bytes, size_t length)
{
    if (length > t->cap - t->length)
        length = t->cap - t->length;
    memcpy(t->out + t->length, bytes, length);
    t->length += length;
}

static void put_byte(struct tape *t, uint8_t byte)
{
    put(t, &byte, 1);
}

static void put32(struct tape *t, uint32_t value)
{
    for (unsigned shift = 0; shift < 32; shift += 8)
        put_byte(t, (uint8_t)(value >> shift));
}

static void make_entry(uint8_t entry[ENTRY_BYTES], uint8_t task, uint8_t kind,
                       uint8_t cell, uint32_t value)
{
    entry[0] = 'E';
    entry[1] = 'N';
    entry[2] = task;
    entry[3] = kind;
    entry[4] = cell;
    entry[5] = 0;
    for (unsigned i = 0; i < 4; i++)
        entry[6 + i] = (uint8_t)(value >> (8 * i));
}

/* Styles ----------------------------------------------------------------- */

#define AT(phase) (1u << (phase))

enum crowd { ANY_CELLS, FEW_CELLS, MANY_CELLS, CROWDS };

/* How the tasks of one input behave; hot to park are percentages. */
struct style {
    enum crowd crowd;
    uint8_t hot;           /* loads that go for cell 0 */
    uint8_t stores;        /* links that end in a store, not a release */
    uint8_t validates;     /* moves of a linked task that leave it linked */
    uint8_t unlinked;      /* moves of an idle or linked task: stores without a link */
    uint8_t stay;          /* entries that stay with the task that moved last */
    uint8_t park;          /* tasks parked where an entry leaves them in one of the phases */
    unsigned park_phases;
    unsigned park_entries; /* how long a parked task may stand still */
};

static const struct style STYLES[] = {
    /* contention: everybody on cell 0, one step each in any order */
    { FEW_CELLS, 100, 90, 15, 5, 0, 0, 0, 0 },
    /* the same with some links given up, so counts fall in other ways */
    { FEW_CELLS, 90, 50, 20, 10, 20, 0, 0, 0 },
    /* stalled loads: the pointer is read, then nothing for a long time */
    { FEW_CELLS, 100, 95, 10, 5, 30, 60, AT(L2) | AT(L3), 300 },
    /* stalled between check and copy, or holding a link for long */
    { FEW_CELLS, 95, 85, 20, 15, 40, 50, AT(L4) | AT(LINKED), 200 },
    /* stalled stores: the swap comes when the cell has long moved on */
    { FEW_CELLS, 100, 100, 10, 10, 40, 60, AT(S1) | AT(S2) | AT(S7), 150 },
    /* stalled between swap and end, old nodes pile up */
    { FEW_CELLS, 100, 100, 10, 5, 30, 50, AT(S3) | AT(S5), 150 },
    /* several tasks looking for a free node at the same time */
    { FEW_CELLS, 100, 100, 10, 5, 10, 50, AT(S6) | AT(LINKED), 60 },
    /* long probing: the first free node is many cells away */
    { MANY_CELLS, 100, 95, 10, 5, 50, 30, AT(LINKED) | AT(S2), 120 },
    { MANY_CELLS, 80, 95, 10, 10, 85, 40, AT(LINKED) | AT(L3), 200 },
    /* bursts: one task runs many steps, then another */
    { ANY_CELLS, 60, 85, 15, 15, 92, 0, 0, 0 },
    { FEW_CELLS, 100, 95, 15, 10, 85, 20, AT(L2) | AT(L3) | AT(L4) | AT(LINKED), 100 },
    /* releases more than stores */
    { ANY_CELLS, 70, 20, 20, 20, 50, 10, AT(R1) | AT(LINKED), 40 },
    /* all over the cells */
    { ANY_CELLS, 0, 80, 20, 15, 40, 10, AT(L2) | AT(S2) | AT(S6), 80 },
    /* links kept long and asked about again and again while others store */
    { FEW_CELLS, 90, 85, 60, 15, 30, 50, AT(LINKED), 80 },
    /* stalled validates: the cell moves on between the beginning and the step */
    { FEW_CELLS, 100, 90, 50, 10, 30, 60, AT(V1) | AT(LINKED), 120 },
    { MANY_CELLS, 50, 75, 50, 15, 60, 40, AT(V1) | AT(S2), 60 },
    /* as after a restart: most stores come without a link */
    { FEW_CELLS, 60, 85, 20, 40, 30, 20, AT(L4) | AT(LINKED) | AT(S2), 40 },
    { ANY_CELLS, 40, 80, 20, 60, 60, 20, AT(LINKED), 80 },
};

enum { STYLE_COUNT = sizeof STYLES / sizeof STYLES[0] };

static struct style pick_style(struct dice *d)
{
    if (chance(d, 85))
        return STYLES[below(d, STYLE_COUNT)];

    struct style s;

    s.crowd = (enum crowd)below(d, CROWDS);
    s.hot = (uint8_t)below(d, 101);
    s.stores = (uint8_t)below(d, 101);
    s.validates = (uint8_t)below(d, 81);
    s.unlinked = (uint8_t)below(d, 61);
    s.stay = (uint8_t)below(d, 96);
    s.park = (uint8_t)below(d, 80);
    s.park_phases = (unsigned)below(d, 1u << PHASES) & ~(unsigned)AT(IDLE);
    s.park_entries = between(d, 1, 300);
    return s;
}

/* Which values an input uses: equal ones are what hides a change. */
enum values { TINY, EDGES, ANY, VALUE_MOODS };

static uint32_t pick_value(struct dice *d, enum values mood)
{
    static const uint32_t edges[] = {
        0, 1, 0xFF, 0x100, 0xFFFF, 0x10000, 0x01020304, 0x7FFFFFFF,
        0x80000000, 0xFFFFFFFE, 0xFFFFFFFF
    };

    switch (mood) {
    case TINY:
        return below(d, 3);
    case EDGES:
        return edges[below(d, sizeof edges / sizeof edges[0])];
    default:
        return (uint32_t)roll(d);
    }
}

/* Setup ------------------------------------------------------------------ */

struct sizes {
    uint8_t cells, tasks, nodes;
};

static struct sizes pick_sizes(struct dice *d, const struct style *s)
{
    static const struct sizes corners[] = {
        { 1, 1, 3 }, { 1, 1, 128 }, { 1, 2, 5 }, { 1, 16, 33 },
        { 1, 16, 128 }, { 64, 1, 66 }, { 64, 1, 128 }, { 64, 16, 96 },
        { 64, 16, 97 }, { 64, 16, 128 }
    };
    struct sizes z;

    if (chance(d, 15))
        return corners[below(d, sizeof corners / sizeof corners[0])];

    if (s->crowd == FEW_CELLS)
        z.cells = (uint8_t)between(d, 1, 3);
    else if (s->crowd == MANY_CELLS)
        z.cells = (uint8_t)between(d, 8, MAX_CELLS);
    else
        z.cells = (uint8_t)between(d, 1, MAX_CELLS);

    /* two to five tasks meet deepest in a few hundred entries */
    z.tasks = (uint8_t)(chance(d, 65) ? between(d, 2, 5)
                                      : between(d, 1, MAX_TASKS));

    unsigned least = z.cells + 2u * z.tasks;

    if (chance(d, 60))
        z.nodes = (uint8_t)least; /* no spare node: most reuse */
    else if (chance(d, 20))
        z.nodes = MAX_NODES;
    else
        z.nodes = (uint8_t)between(d, least, MAX_NODES);
    return z;
}

/* One input being made --------------------------------------------------- */

struct maker {
    struct dice dice;
    struct tape tape;
    struct style style;
    struct sizes sizes;
    enum values values;
    struct machine guide;         /* the second program's, run along */
    unsigned parked[MAX_TASKS];   /* entries each task still stands still for */
    uint8_t last;                 /* the task that moved last */
};

static void put_setup(struct maker *k)
{
    struct tape *t = &k->tape;
    size_t start = t->length, used;

    put_byte(t, 'S');
    put_byte(t, 'U');
    put_byte(t, k->sizes.cells);
    put_byte(t, k->sizes.tasks);
    put_byte(t, k->sizes.nodes);
    put_byte(t, 0);
    for (unsigned i = 0; i < k->sizes.cells; i++)
        put32(t, pick_value(&k->dice, k->values));
    bench_setup(&k->guide, t->out + start, t->length - start, &used);
}

/* Writes an entry and lets the guide follow. */
static void put_made(struct maker *k, const uint8_t entry[ENTRY_BYTES])
{
    uint8_t task = entry[2];

    put(&k->tape, entry, ENTRY_BYTES);
    bench_apply(&k->guide, entry, ENTRY_BYTES);

    uint8_t phase = k->guide.task[task].phase;

    if ((k->style.park_phases & AT(phase)) && chance(&k->dice, k->style.park))
        k->parked[task] = 1 + below(&k->dice, k->style.park_entries);
    k->last = task;
}

static void put_entry(struct maker *k, uint8_t task, uint8_t kind, uint8_t cell,
                      uint32_t value)
{
    uint8_t entry[ENTRY_BYTES];

    make_entry(entry, task, kind, cell, value);
    put_made(k, entry);
}

static uint8_t pick_cell(struct maker *k)
{
    if (chance(&k->dice, k->style.hot))
        return 0;
    return (uint8_t)below(&k->dice, k->sizes.cells);
}

static void move_store(struct maker *k, uint8_t task)
{
    put_entry(k, task, STORE, k->guide.task[task].cell,
              pick_value(&k->dice, k->values));
}

static uint8_t other_cell(struct maker *k, uint8_t cell)
{
    unsigned cells = k->sizes.cells;

    if (cells == 1)
        return cell;
    return (uint8_t)((cell + between(&k->dice, 1, cells - 1)) % cells);
}

/* Whether there is a cell that it could name in a store without a link. */
static bool has_unlinked(const struct maker *k, uint8_t task)
{
    uint8_t phase = k->guide.task[task].phase;

    return phase == IDLE || (phase == LINKED && k->sizes.cells > 1);
}

/* Such a store; half of them of a cell by the style's choice. */
static void make_unlinked(struct maker *k, uint8_t task,
                          uint8_t entry[ENTRY_BYTES])
{
    struct dice *d = &k->dice;
    const struct task *t = &k->guide.task[task];
    uint8_t cell = chance(d, 50) ? pick_cell(k)
                                 : (uint8_t)below(d, k->sizes.cells);

    if (t->phase == LINKED && cell == t->cell)
        cell = other_cell(k, cell);
    make_entry(entry, task, STORE, cell, pick_value(d, k->values));
}

/* A move towards the end of the task's call and link. */
static void move_on(struct maker *k, uint8_t task)
{
    uint8_t phase = k->guide.task[task].phase;

    if (phase == IDLE)
        put_entry(k, task, LOAD, pick_cell(k), 0);
    else if (phase != LINKED)
        put_entry(k, task, GO, 0, 0);
    else if (chance(&k->dice, k->style.stores))
        move_store(k, task);
    else
        put_entry(k, task, RELEASE, 0, 0);
}

static void move_unlinked(struct maker *k, uint8_t task)
{
    uint8_t entry[ENTRY_BYTES];

    make_unlinked(k, task, entry);
    put_made(k, entry);
}

/* Any move that the task can make now. */
static void move(struct maker *k, uint8_t task)
{
    if (has_unlinked(k, task) && chance(&k->dice, k->style.unlinked))
        move_unlinked(k, task);
    else if (k->guide.task[task].phase == LINKED && chance(&k->dice, k->style.validates))
        put_entry(k, task, VALIDATE, 0, 0);
    else
        move_on(k, task);
}

static uint8_t pick_task(struct maker *k)
{
    uint8_t awake[MAX_TASKS];
    unsigned count = 0;

    if (k->parked[k->last] == 0 && chance(&k->dice, k->style.stay))
        return k->last;
    for (unsigned p = 0; p < k->sizes.tasks; p++)
        if (k->parked[p] == 0)
            awake[count++] = (uint8_t)p;
    if (count > 0)
        return awake[below(&k->dice, count)];

    /* all parked: wake one */
    uint8_t task = (uint8_t)below(&k->dice, k->sizes.tasks);

    k->parked[task] = 0;
    return task;
}

/* So many entries, each of which is accepted. */
static void play(struct maker *k, unsigned entries)
{
    while (entries-- > 0) {
        move(k, pick_task(k));
        for (unsigned p = 0; p < k->sizes.tasks; p++)
            if (k->parked[p] > 0)
                k->parked[p]--;
    }
}

/* One task alone until it is idle or linked; no new validate holds it up. */
static void run_alone(struct maker *k, uint8_t task, uint8_t until)
{
    while (k->guide.task[task].phase != until)
        move_on(k, task);
}

/* Leaves the task in a call of the kind, not at its end; idle for GO. */
static void stop_in(struct maker *k, uint8_t task, enum kind call)
{
    unsigned steps = 0;

    run_alone(k, task, call == GO || call == LOAD ? IDLE : LINKED);
    if (call == LOAD) {
        put_entry(k, task, LOAD, pick_cell(k), 0);
        steps = below(&k->dice, 4); /* the fourth would end it */
    } else if (call == STORE) {
        move_store(k, task);
        steps = below(&k->dice, 3); /* the third may end it */
    } else if (call != GO) {
        put_entry(k, task, (uint8_t)call, 0, 0);
    }
    while (steps-- > 0)
        put_entry(k, task, GO, 0, 0);
}

static unsigned pick_length(struct dice *d)
{
    if (chance(d, 10))
        return below(d, 50);
    if (chance(d, 4))
        return between(d, 600, 2500);
    return between(d, 50, 600);
}

/* A schedule without a fault, of which the later faults are made. */
static void good_schedule(struct maker *k)
{
    play(k, pick_length(&k->dice));
    if (chance(&k->dice, 30)) /* let every call end, each task alone */
        for (unsigned p = 0; p < k->sizes.tasks; p++)
            if (k->guide.task[p].phase != IDLE)
                run_alone(k, (uint8_t)p, IDLE);
}

/*
 * Two tasks link to cell 0 and one of them stores, always the same one, so
 * that every store walks on to the next free node: the only quick way to the
 * top of a pool of 128 and round to its start.
 */
static void climbing_schedule(struct maker *k)
{
    struct dice *d = &k->dice;
    unsigned pairs = between(d, 70, 110);

    k->tape.length = 0;
    k->style = STYLES[0];
    k->style.stores = 100;
    k->sizes.cells = (uint8_t)between(d, 56, MAX_CELLS);
    k->sizes.tasks = (uint8_t)between(d, 2, MAX_TASKS);
    k->sizes.nodes = MAX_NODES;
    put_setup(k);

    uint8_t one = (uint8_t)below(d, k->sizes.tasks);

    while (pairs-- > 0) {
        uint8_t two = (uint8_t)((one + between(d, 1, k->sizes.tasks - 1u)) %
                                k->sizes.tasks);

        run_alone(k, one, LINKED);
        run_alone(k, two, LINKED);
        run_alone(k, one, IDLE);
        run_alone(k, two, IDLE);
    }
}

/* Refused entries -------------------------------------------------------- */

/* A byte from low up, the two ends more often than the rest. */
static uint8_t too_big(struct dice *d, unsigned low)
{
    if (chance(d, 40))
        return (uint8_t)low;
    if (chance(d, 20))
        return 255;
    return (uint8_t)between(d, low, 255);
}

static uint8_t not_zero(struct dice *d)
{
    return chance(d, 50) ? (uint8_t)(1u << below(d, 8))
                         : (uint8_t)between(d, 1, 255);
}

static void wrong_mark(struct dice *d, uint8_t *mark)
{
    switch (below(d, 6)) {
    case 0: mark[0] ^= not_zero(d); break;
    case 1: mark[1] ^= not_zero(d); break;
    case 2: mark[0] = 'N'; mark[1] = 'E'; break;
    case 3: mark[0] = 'A'; mark[1] = 'N'; break; /* the reply's */
    case 4: mark[0] = 0; mark[1] = 0; break;
    default:
        mark[0] ^= not_zero(d);
        mark[1] ^= not_zero(d);
    }
}

static void break_zero(struct dice *d, uint8_t *entry)
{
    uint8_t kind = entry[3];

    if (kind != STORE && chance(d, 40))
        entry[6 + below(d, 4)] = not_zero(d); /* any one byte of the value */
    else if ((kind == GO || kind == RELEASE || kind == VALIDATE) && chance(d, 50))
        entry[4] = not_zero(d); /* a cell where none is named */
    else
        entry[5] = not_zero(d);
}

/* A store in the middle of a call. */
static void early_store(struct maker *k, uint8_t *entry)
{
    struct dice *d = &k->dice;
    uint8_t task = (uint8_t)below(d, k->sizes.tasks);
    const struct task *t = &k->guide.task[task];

    if (t->phase == IDLE || t->phase == LINKED || chance(d, 50))
        stop_in(k, task, (enum kind)between(d, LOAD, VALIDATE));
    make_entry(entry, task, STORE,
               chance(d, 50) ? t->cell : other_cell(k, t->cell),
               pick_value(d, k->values));
}

/* An entry that is whole but comes at the wrong time. */
static void wrong_time(struct maker *k, uint8_t *entry)
{
    struct dice *d = &k->dice;
    uint8_t task = (uint8_t)below(d, k->sizes.tasks);
    const struct task *t = &k->guide.task[task];
    unsigned pick = below(d, 8);

    if (pick < 3) { /* go with no call to go on with */
        run_alone(k, task, chance(d, 50) ? IDLE : LINKED);
        if (t->phase == LINKED && chance(d, 50)) { /* straight after a validate */
            put_entry(k, task, VALIDATE, 0, 0);
            put_entry(k, task, GO, 0, 0);
        } else if (has_unlinked(k, task) && chance(d, 50)) {
            move_unlinked(k, task); /* which begins nothing */
        }
        make_entry(entry, task, GO, 0, 0);
    } else if (pick < 6) {
        early_store(k, entry);
    } else if (pick < 7) { /* load in the middle of a call, or while linked */
        if (t->phase == IDLE)
            run_alone(k, task, LINKED);
        make_entry(entry, task, LOAD, pick_cell(k), 0);
    } else { /* release without a link */
        if (t->phase == LINKED)
            run_alone(k, task, IDLE);
        make_entry(entry, task, RELEASE, 0, 0);
    }
}

static void right_time(struct maker *k, uint8_t *entry)
{
    uint8_t task = pick_task(k);
    const struct task *t = &k->guide.task[task];

    if (has_unlinked(k, task) && chance(&k->dice, 40))
        make_unlinked(k, task, entry);
    else if (t->phase == IDLE)
        make_entry(entry, task, LOAD, pick_cell(k), 0);
    else if (t->phase != LINKED)
        make_entry(entry, task, GO, 0, 0);
    else if (chance(&k->dice, 40))
        make_entry(entry, task, STORE, t->cell, pick_value(&k->dice, k->values));
    else
        make_entry(entry, task, chance(&k->dice, 50) ? RELEASE : VALIDATE, 0, 0);
}

/* One more fault in one field, whatever else is wrong with the entry. */
static void wrong_field(struct maker *k, uint8_t *entry)
{
    struct dice *d = &k->dice;

    switch (below(d, 6)) {
    case 0:
        wrong_mark(d, entry);
        break;
    case 1:
        entry[2] = too_big(d, k->sizes.tasks);
        break;
    case 2:
        entry[3] = too_big(d, KINDS);
        break;
    case 3:
        break_zero(d, entry);
        break;
    default: /* a cell that isn't there; only load and store name one */
        if (entry[3] != LOAD && entry[3] != STORE) {
            entry[3] = chance(d, 50) ? LOAD : STORE;
            memset(entry + 6, 0, 4);
        }
        entry[4] = too_big(d, k->sizes.cells);
    }
}

/* One fault or several at once: the order of the refusals must show. */
static void wrong_entry(struct maker *k, uint8_t *entry)
{
    unsigned fields = chance(&k->dice, 45) ? 0 : between(&k->dice, 1, 2);

    if (chance(&k->dice, 65)) {
        wrong_time(k, entry);
    } else {
        right_time(k, entry);
        fields++;
    }
    while (fields-- > 0)
        wrong_field(k, entry);
    if (chance(&k->dice, 10)) /* the zero byte comes in the middle of the order */
        entry[5] = not_zero(&k->dice);
}

/* The same for a validate, which the dice above seldom give. */
static void wrong_validate(struct maker *k, uint8_t *entry)
{
    struct dice *d = &k->dice;
    uint8_t task = (uint8_t)below(d, k->sizes.tasks);
    bool early = chance(d, 75);
    unsigned percent = chance(d, 50) ? 0 : 40; /* of a fault in each field */

    if (!early)
        run_alone(k, task, LINKED);
    else if (k->guide.task[task].phase == LINKED || chance(d, 70))
        stop_in(k, task, (enum kind)below(d, KINDS)); /* else where it stands */
    make_entry(entry, task, VALIDATE, 0, 0);
    if (!early || chance(d, percent))
        break_zero(d, entry);
    if (chance(d, percent))
        entry[2] = too_big(d, k->sizes.tasks);
    if (chance(d, percent))
        wrong_mark(d, entry);
}

/* Another call on the same cell, before a validate has made its step. */
static void call_in_validate(struct maker *k, uint8_t *entry)
{
    struct dice *d = &k->dice;
    uint8_t task = (uint8_t)below(d, k->sizes.tasks);
    uint8_t kind = (uint8_t)between(d, LOAD, RELEASE);

    stop_in(k, task, VALIDATE);
    make_entry(entry, task, kind, kind == RELEASE ? 0 : k->guide.task[task].cell,
               kind == STORE ? pick_value(d, k->values) : 0);
}

/* A store without a link that names no cell, or whose sixth byte is not zero. */
static void wrong_unlinked(struct maker *k, uint8_t *entry)
{
    struct dice *d = &k->dice;
    uint8_t task = (uint8_t)below(d, k->sizes.tasks);
    unsigned pick = below(d, 10);

    run_alone(k, task, chance(d, 50) ? IDLE : LINKED);
    make_unlinked(k, task, entry);
    if (pick < 6)
        entry[4] = too_big(d, k->sizes.cells);
    if (pick > 4)
        entry[5] = not_zero(d);
}

static void put_refused(struct maker *k)
{
    uint8_t entry[ENTRY_BYTES];
    unsigned pick = below(&k->dice, 100);

    if (pick < 25)
        wrong_validate(k, entry);
    else if (pick < 31)
        call_in_validate(k, entry);
    else if (pick < 40)
        early_store(k, entry);
    else if (pick < 46)
        wrong_unlinked(k, entry);
    else
        wrong_entry(k, entry);
    put(&k->tape, entry, sizeof entry);
}

static void refused_schedule(struct maker *k)
{
    play(k, pick_length(&k->dice));
    put_refused(k);
    /* What follows a refused entry must not be tried. */
    if (chance(&k->dice, 60))
        play(k, below(&k->dice, 20));
    if (chance(&k->dice, 10))
        put_refused(k);
}

/* Less than an entry at the end, its mark sometimes wrong as well. */
static void put_cut(struct maker *k)
{
    uint8_t entry[ENTRY_BYTES];

    right_time(k, entry);
    if (chance(&k->dice, 40))
        wrong_mark(&k->dice, entry);
    if (chance(&k->dice, 30))
        wrong_field(k, entry);
    put(&k->tape, entry, between(&k->dice, 1, ENTRY_BYTES - 1));
}

/* Damage ----------------------------------------------------------------- */

static void swap_entries(struct maker *k, size_t setup)
{
    struct tape *t = &k->tape;
    uint8_t kept[ENTRY_BYTES];

    /* another damage may have taken a byte of the setup itself */
    if (t->length < setup + 2 * ENTRY_BYTES)
        return;

    size_t entries = (t->length - setup) / ENTRY_BYTES;
    uint8_t *first = t->out + setup +
                     ENTRY_BYTES * below(&k->dice, (uint32_t)entries - 1);

    memcpy(kept, first, ENTRY_BYTES);
    memcpy(first, first + ENTRY_BYTES, ENTRY_BYTES);
    memcpy(first + ENTRY_BYTES, kept, ENTRY_BYTES);
}

static void damage(struct maker *k, size_t setup)
{
    struct dice *d = &k->dice;
    struct tape *t = &k->tape;
    size_t at = below(d, (uint32_t)t->length);

    switch (below(d, 6)) {
    case 0:
    case 1:
        t->out[at] ^= (uint8_t)(1u << below(d, 8));
        break;
    case 2:
        t->out[at] = (uint8_t)below(d, 256);
        break;
    case 3: /* one byte gone: all marks after it are off */
        memmove(t->out + at, t->out + at + 1, t->length - at - 1);
        t->length--;
        break;
    case 4: /* one byte too many */
        if (t->length == t->cap)
            break;
        memmove(t->out + at + 1, t->out + at, t->length - at);
        t->out[at] = (uint8_t)below(d, 256);
        t->length++;
        break;
    default:
        swap_entries(k, setup);
    }
}

static void damaged_schedule(struct maker *k)
{
    size_t setup = k->tape.length;
    unsigned times = between(&k->dice, 1, 3);

    good_schedule(k);
    while (times-- > 0 && k->tape.length > 0)
        damage(k, setup);
}

/* Refused setups --------------------------------------------------------- */

static void wrong_size(struct maker *k, uint8_t *head)
{
    struct dice *d = &k->dice;

    switch (below(d, 8)) {
    case 0: head[2] = 0; break;
    case 1: head[2] = too_big(d, MAX_CELLS + 1); break;
    case 2: head[3] = 0; break;
    case 3: head[3] = too_big(d, MAX_TASKS + 1); break;
    case 4: head[4] = too_big(d, MAX_NODES + 1); break;
    case 5: head[4] = (uint8_t)below(d, k->sizes.cells + 2u * k->sizes.tasks); break;
    default: head[4] = (uint8_t)(k->sizes.cells + 2u * k->sizes.tasks - 1);
    }
}

static void refused_setup(struct maker *k)
{
    struct dice *d = &k->dice;
    struct tape *t = &k->tape;
    unsigned faults = chance(d, 45) ? 1 : between(d, 2, 3);
    size_t whole;

    t->length = 0;
    put_setup(k);
    whole = t->length;
    play(k, below(d, 20));

    while (faults-- > 0) {
        switch (below(d, 11)) {
        case 0:
        case 1:
            if (t->length >= 2)
                wrong_mark(d, t->out);
            break;
        case 2:
        case 3:
            if (t->length >= SETUP_HEAD)
                t->out[5] = not_zero(d);
            break;
        case 4:
        case 5:
        case 6:
            if (t->length >= SETUP_HEAD)
                wrong_size(k, t->out);
            break;
        case 7: /* cut in the head */
        case 8:
            if (t->length > SETUP_HEAD)
                t->length = below(d, SETUP_HEAD);
            break;
        case 9: /* cut in the values, the last byte more often */
            if (t->length >= whole)
                t->length = chance(d, 30)
                    ? whole - 1
                    : between(d, SETUP_HEAD, (uint32_t)whole - 1);
            break;
        default: /* cut anywhere */
            if (t->length > 0)
                t->length = below(d, (uint32_t)t->length);
        }
    }
}

/* Long, empty and wild --------------------------------------------------- */

/* Around 65,530 bytes of schedule; k->tape holds only the setup so far. */
static void limit_schedule(struct maker *k)
{
    struct dice *d = &k->dice;
    struct tape *t = &k->tape;
    size_t setup = t->length;
    unsigned pick = below(d, 10);

    play(k, MAX_ENTRIES);
    if (pick < 3) /* as long as it may be, mostly without a fault */
        return;
    if (pick == 3) { /* a fault late in a full schedule */
        t->length -= ENTRY_BYTES * (size_t)between(d, 1, 50);
        put_refused(k);
        while (t->length < setup + MAX_SCHEDULE)
            put_byte(t, 0);
        t->length = setup + MAX_SCHEDULE;
    } else if (pick == 4) { /* the last entry cut */
        t->length -= between(d, 1, 9);
    } else if (pick == 5 || pick == 6) { /* one byte too many */
        put_byte(t, (uint8_t)below(d, 256));
    } else if (pick == 7) { /* just over, past 16 bits of length too */
        size_t more = between(d, 2, 30);

        while (more-- > 0)
            put_byte(t, (uint8_t)below(d, 256));
    } else if (pick == 8) { /* another entry, or some */
        play(k, between(d, 1, 20));
    } else { /* far over */
        play(k, between(d, 100, MAX_ENTRIES));
    }
}

/* Over the limit; the bytes don't matter then, so no guide is run for them. */
static void too_long_schedule(struct maker *k)
{
    struct dice *d = &k->dice;
    struct tape *t = &k->tape;
    size_t goal = t->length + MAX_SCHEDULE + between(d, 1, 10);

    if (chance(d, 30))
        goal += below(d, 40000);
    play(k, below(d, 100));

    bool entries = chance(d, 50); /* entries to the end, or noise */

    while (t->length < goal) {
        uint8_t entry[ENTRY_BYTES];

        make_entry(entry, 0, GO, 0, 0);
        if (!entries)
            memset(entry, (int)below(d, 256), sizeof entry);
        put(t, entry, sizeof entry);
    }
    t->length = goal;
}

/* Well-formed entries in any order: most are refused early. */
static void wild_schedule(struct maker *k)
{
    struct dice *d = &k->dice;
    unsigned entries = between(d, 1, 40);

    while (entries-- > 0) {
        uint8_t entry[ENTRY_BYTES];
        uint8_t kind = chance(d, 70) ? GO : (uint8_t)below(d, KINDS + 1);
        bool names_cell = kind == LOAD || kind == STORE;

        make_entry(entry, (uint8_t)below(d, k->sizes.tasks + 1), kind,
                   names_cell ? (uint8_t)below(d, k->sizes.cells + 1) : 0,
                   kind == STORE ? pick_value(d, k->values) : 0);
        if (chance(d, 5))
            entry[below(d, ENTRY_BYTES)] = (uint8_t)below(d, 256);
        put(&k->tape, entry, sizeof entry);
    }
}

static void noise(struct maker *k)
{
    unsigned length = below(&k->dice, 300);

    if (chance(&k->dice, 50))
        k->tape.length = 0; /* not even a setup */
    while (length-- > 0)
        put_byte(&k->tape, (uint8_t)below(&k->dice, 256));
}

size_t generate(uint64_t seed, uint8_t *out, size_t cap)
{
    struct maker k;

    memset(&k, 0, sizeof k);
    k.dice.state = seed;
    k.tape.out = out;
    k.tape.cap = cap;
    k.style = pick_style(&k.dice);
    k.sizes = pick_sizes(&k.dice, &k.style);
    k.values = (enum values)below(&k.dice, VALUE_MOODS);
    put_setup(&k);

    unsigned pick = below(&k.dice, 100);

    if (pick < 30) {
        good_schedule(&k);
    } else if (pick < 31) {
        climbing_schedule(&k);
    } else if (pick < 74) {
        refused_schedule(&k);
    } else if (pick < 79) {
        play(&k, pick_length(&k.dice));
        put_cut(&k);
    } else if (pick < 83) {
        damaged_schedule(&k);
    } else if (pick < 95) {
        refused_setup(&k);
    } else if (pick < 96) {
        if (chance(&k.dice, 40))
            k.tape.length = 0; /* empty input, else an empty schedule */
    } else if (pick < 97) {
        limit_schedule(&k);
    } else if (pick < 99) {
        too_long_schedule(&k);
    } else if (chance(&k.dice, 50)) {
        wild_schedule(&k);
    } else {
        noise(&k);
    }
    return k.tape.length;
}
