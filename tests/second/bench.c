#include "bench.h"

#include "bytes.h"

#include <string.h>

static const uint8_t SETUP_MARK[2] = { 0x53, 0x55 };
static const uint8_t REPLY_MARK[2] = { 0x41, 0x4E };

static bool sizes_allowed(unsigned cells, unsigned tasks, unsigned nodes)
{
    return cells >= 1 && cells <= MAX_CELLS &&
           tasks >= 1 && tasks <= MAX_TASKS &&
           nodes >= cells + 2 * tasks && nodes <= MAX_NODES;
}

/* Setup ------------------------------------------------------------------ */

static void make_fresh(struct machine *m, const uint8_t *values)
{
    for (unsigned i = 0; i < m->cells; i++) {
        m->node_of[i] = (uint8_t)i;
        m->value[i] = read32(values + VALUE_BYTES * i);
        m->count[i] = 1;
    }
    for (unsigned p = 0; p < m->tasks; p++) {
        unsigned own = m->cells + p;

        m->task[p].own = (uint8_t)own;
        m->count[own] = 1;
    }
    m->free = (uint8_t)(m->nodes - m->cells - m->tasks);
}

unsigned bench_setup(struct machine *m, const uint8_t *input, size_t length,
                     size_t *used)
{
    memset(m, 0, sizeof *m);
    *used = 0;

    if (length < SETUP_HEAD)
        return CUT;
    if (!has_mark(input, SETUP_MARK))
        return BAD_MARK;
    if (input[5] != 0)
        return NOT_ZERO;
    if (!sizes_allowed(input[2], input[3], input[4]))
        return BAD_SIZES;

    size_t values = (size_t)VALUE_BYTES * input[2];

    if (length - SETUP_HEAD < values)
        return CUT;

    m->cells = input[2];
    m->tasks = input[3];
    m->nodes = input[4];
    make_fresh(m, input + SETUP_HEAD);
    *used = SETUP_HEAD + values;
    return 0;
}

/* The range test --------------------------------------------------------- */

static bool task_in_range(const struct machine *m, const struct task *t)
{
    return is_phase(t->phase) && t->cell < m->cells && t->held < m->nodes &&
           t->own < m->nodes && t->cursor < m->nodes;
}

/* All that an answer about free nodes has to rest on. */
static bool total_in_range(const struct machine *m)
{
    return sizes_allowed(m->cells, m->tasks, m->nodes) && m->free <= m->nodes;
}

/* Looks only at places below N, P and K; the rest is never used. */
bool bench_in_range(const struct machine *m)
{
    if (!total_in_range(m))
        return false;
    for (unsigned i = 0; i < m->cells; i++)
        if (m->node_of[i] >= m->nodes)
            return false;
    for (unsigned i = 0; i < m->nodes; i++)
        if (m->count[i] > m->tasks + 1)
            return false;
    for (unsigned p = 0; p < m->tasks; p++)
        if (!task_in_range(m, &m->task[p]))
            return false;
    return true;
}

/* One step --------------------------------------------------------------- */

/*
 * The one place where a step changes a count, so that no step can forget the
 * total.  One that would go below 0 or above K is damage: nothing is changed.
 */
static bool set_count(struct machine *m, uint8_t node, unsigned count)
{
    int total = m->free - (m->count[node] == 0) + (count == 0);

    if (total < 0 || total > m->nodes)
        return false;
    m->free = (uint8_t)total;
    m->count[node] = (uint8_t)count;
    return true;
}

/* Raising P+1 is damage: no sound machine has more than P+1 on a node. */
static bool raise_count(struct machine *m, uint8_t node)
{
    unsigned count = m->count[node];

    return count <= m->tasks && set_count(m, node, count + 1);
}

enum { NOT_LOWERED = -1 }; /* it was 0, or the total can't follow: damage */

/* Gives the number left behind: a later look might find another one. */
static int lower_count(struct machine *m, uint8_t node)
{
    unsigned count = m->count[node];

    if (count == 0 || !set_count(m, node, count - 1))
        return NOT_LOWERED;
    return (int)count - 1;
}

/*
 * One atomic step of a task that is in a call.  Writes a load's value to
 * *value.  Returns the reply, or DAMAGED before anything was changed.
 */
static unsigned step(struct machine *m, struct task *t, uint32_t *value)
{
    uint8_t *pointer = &m->node_of[t->cell];
    int left;

    switch (t->phase) {
    case L1:
        t->held = *pointer;
        t->phase = L2;
        return MOVED;

    case L2: /* announce first, copy later: the order the printed figure lost */
        if (!raise_count(m, t->held))
            return DAMAGED;
        t->phase = L3;
        return MOVED;

    case L3: /* only now is the node known to be held while in the cell */
        t->phase = *pointer == t->held ? L4 : L5;
        return MOVED;

    case L4:
        *value = m->value[t->held];
        t->phase = LINKED;
        return LOADED;

    case L5: /* too late: take the announcement back and start again */
        if (lower_count(m, t->held) == NOT_LOWERED)
            return DAMAGED;
        t->phase = L1;
        return MOVED;

    case S1:
        m->value[t->own] = t->value;
        t->phase = S2;
        return MOVED;

    case S2: /* node numbers, not values: equal values may hide a change */
        if (*pointer == t->held) {
            *pointer = t->own;
            t->phase = S3;
        } else {
            t->phase = S7;
        }
        return MOVED;

    case S3: /* the cell's share of the old node's count */
        left = lower_count(m, t->held);
        if (left == NOT_LOWERED)
            return DAMAGED;
        if (left == 1) { /* not 0: this task still holds the old node itself */
            t->own = t->held;
            t->phase = IDLE;
            return TOOK;
        }
        t->phase = S5;
        return MOVED;

    case S5: /* others held the old node at S3: leave it and look for a free one */
        if (lower_count(m, t->held) == NOT_LOWERED)
            return DAMAGED;
        t->cursor = (uint8_t)((t->held + 1) % m->nodes);
        t->phase = S6;
        return MOVED;

    case S6: /* test and take in the same step, or two tasks get one node */
        if (m->count[t->cursor] == 0) {
            if (!set_count(m, t->cursor, 1))
                return DAMAGED;
            t->own = t->cursor;
            t->phase = IDLE;
            return TOOK;
        }
        t->cursor = (uint8_t)((t->cursor + 1) % m->nodes);
        return MOVED;

    case S7: /* lost: only the held node is given back, never the own one */
        if (lower_count(m, t->held) == NOT_LOWERED)
            return DAMAGED;
        t->phase = IDLE;
        return LOST;

    case R1:
        if (lower_count(m, t->held) == NOT_LOWERED)
            return DAMAGED;
        t->phase = IDLE;
        return RELEASED;

    case V1: /* what S2 would find now; good or gone, the link stays */
        t->phase = LINKED;
        return *pointer == t->held ? GOOD : GONE;
    }
    return BAD_GO; /* idle and linked: there is no step to make */
}

/* One entry -------------------------------------------------------------- */

static struct answer answer(unsigned number, uint8_t task, uint32_t value)
{
    struct answer a = { (uint8_t)number, task, value, 0 };

    return a;
}

static bool zeros_kept(const uint8_t *entry)
{
    uint8_t kind = entry[3];
    bool names_cell = kind == LOAD || kind == STORE;

    return entry[5] == 0 && (names_cell || entry[4] == 0) &&
           (kind == STORE || read32(entry + 6) == 0);
}

/* The faults that show in the entry's own bytes; 0 if it has none. */
static unsigned field_fault(const struct machine *m, const uint8_t *entry)
{
    uint8_t task = entry[2], kind = entry[3], cell = entry[4];

    if (!has_mark(entry, ENTRY_MARK))
        return BAD_MARK;
    if (task >= m->tasks)
        return BAD_TASK;
    if (kind >= KINDS)
        return BAD_KIND;
    if (!zeros_kept(entry))
        return NOT_ZERO;
    if ((kind == LOAD || kind == STORE) && cell >= m->cells)
        return BAD_CELL;
    return 0;
}

static unsigned begin_load(struct task *t, uint8_t cell)
{
    if (t->phase != IDLE)
        return BAD_CALL;
    t->phase = L1;
    t->cell = cell;
    return MOVED;
}

static unsigned begin_store(struct task *t, uint8_t cell, uint32_t value)
{
    if (t->phase != IDLE && t->phase != LINKED)
        return BAD_CALL;
    if (t->phase == IDLE || t->cell != cell)
        return LOST; /* no link there: the paper's false, which changes nothing */
    t->phase = S1; /* a stale link too: that shows at S2 */
    t->value = value;
    return MOVED;
}

/* Release and validate: the entry names no cell, so only the link is asked for. */
static unsigned begin_on_link(struct task *t, enum phase first)
{
    if (t->phase != LINKED)
        return BAD_CALL;
    t->phase = (uint8_t)first;
    return MOVED;
}

/* An entry for a machine that is in range, and stays so. */
static struct answer apply_in_range(struct machine *m, const uint8_t *entry,
                                    size_t left)
{
    if (left < ENTRY_BYTES)
        return answer(CUT, 0, 0);

    uint8_t task = entry[2], kind = entry[3], cell = entry[4];
    unsigned number = field_fault(m, entry);

    if (number == BAD_MARK) /* what follows a wrong mark is no task byte */
        return answer(BAD_MARK, 0, 0);
    if (number != 0)
        return answer(number, task, 0);

    struct task *t = &m->task[task];
    uint8_t met = t->phase;
    uint32_t value = 0;

    if (kind == LOAD)
        number = begin_load(t, cell);
    else if (kind == STORE)
        number = begin_store(t, cell, read32(entry + 6));
    else if (kind == RELEASE)
        number = begin_on_link(t, R1);
    else if (kind == VALIDATE)
        number = begin_on_link(t, V1);
    else
        number = step(m, t, &value);

    struct answer a = answer(number, task, value);

    if (!is_refusal(number))
        a.met = met;
    return a;
}

struct answer bench_apply(struct machine *m, const uint8_t *entry, size_t left)
{
    if (!bench_in_range(m))
        return answer(DAMAGED, 0, 0);
    return apply_in_range(m, entry, left);
}

/* A whole schedule ------------------------------------------------------- */

static void write_reply(uint8_t *reply, struct answer a)
{
    reply[0] = REPLY_MARK[0];
    reply[1] = REPLY_MARK[1];
    reply[2] = a.number;
    reply[3] = a.task;
    write32(reply + 4, a.value);
}

/* now: the phase an accepted entry left its task in. */
static void count_entry(struct report *r, struct answer a, uint8_t now)
{
    r->accepted++;
    if (a.met == IDLE && now == L1) /* a store here leaves its task idle */
        r->loads++;
    if (a.met >= L1 && a.met <= L5)
        r->load_steps++;
    if (a.met == L3 && now == L5)
        r->turned_back++;
    if (a.met == S2 && now == S3)
        r->swaps++;
}

/* An answer is at most K, so it has room in a byte. */
static void show_free(const struct display *d, const struct machine *m, size_t i)
{
    unsigned free_nodes;

    if (i < d->room && d->ask(m, &free_nodes) == 0)
        d->free_nodes[i] = (uint8_t)free_nodes;
}

/* once: the entries rely on the test at the start, and make none themselves. */
static struct report run(struct machine *m, const uint8_t *schedule,
                         size_t length, uint8_t *replies, size_t room,
                         const struct display *display, bool once)
{
    struct report r = { 0 };
    /* a cut last entry needs room for its refusal too */
    size_t entries = length / ENTRY_BYTES + (length % ENTRY_BYTES != 0);

    if (!bench_in_range(m))
        r.refusal = DAMAGED;
    else if (length > MAX_SCHEDULE)
        r.refusal = TOO_LONG;
    else if (room / REPLY_BYTES < entries)
        r.refusal = NO_ROOM;
    if (r.refusal != 0)
        return r;

    for (size_t i = 0; i < entries; i++) {
        size_t at = i * ENTRY_BYTES;
        struct answer a = once ? apply_in_range(m, schedule + at, length - at)
                               : bench_apply(m, schedule + at, length - at);

        write_reply(replies + i * REPLY_BYTES, a);
        show_free(display, m, i);
        if (is_refusal(a.number)) {
            r.refusal = a.number;
            break;
        }
        count_entry(&r, a, m->task[a.task].phase);
    }
    return r;
}

struct report bench_run_shown(struct machine *m, const uint8_t *schedule,
                              size_t length, uint8_t *replies, size_t room,
                              const struct display *display)
{
    return run(m, schedule, length, replies, room, display, false);
}

struct report bench_run_once(struct machine *m, const uint8_t *schedule,
                             size_t length, uint8_t *replies, size_t room,
                             const struct display *display)
{
    return run(m, schedule, length, replies, room, display, true);
}

struct report bench_run(struct machine *m, const uint8_t *schedule,
                        size_t length, uint8_t *replies, size_t room)
{
    static const struct display none; /* no room: it never asks */

    return bench_run_shown(m, schedule, length, replies, room, &none);
}

/* The free nodes --------------------------------------------------------- */

/* No walk, and no range test of the rest, which would be one as well. */
unsigned bench_free(const struct machine *m, unsigned *free_nodes)
{
    if (!total_in_range(m))
        return DAMAGED;
    *free_nodes = m->free;
    return 0;
}

unsigned bench_free_counted(const struct machine *m, unsigned *free_nodes)
{
    unsigned found = 0;

    if (!sizes_allowed(m->cells, m->tasks, m->nodes))
        return DAMAGED;
    for (unsigned i = 0; i < m->nodes; i++)
        found += m->count[i] == 0;
    *free_nodes = found;
    return 0;
}

/* The holders question --------------------------------------------------- */

static bool holds_by_phase(uint8_t phase)
{
    return (phase >= L3 && phase <= S3) || phase == S5 ||
           (phase >= S7 && phase <= V1);
}

unsigned bench_holders(const struct task *list, size_t length, unsigned node,
                       unsigned *holders)
{
    unsigned found = 0;

    if (length > MAX_TASKS || node >= MAX_NODES)
        return BAD_QUESTION;
    for (size_t i = 0; i < length; i++)
        if (holds_by_phase(list[i].phase) && list[i].held == node)
            found++;
    *holders = found;
    return 0;
}

/* The printed text ------------------------------------------------------- */

/* Printed from the reply bytes, so that those are compared as well. */
static void print_replies(FILE *out, const uint8_t *replies, size_t written)
{
    for (size_t i = 0; i < written; i++) {
        const uint8_t *reply = replies + i * REPLY_BYTES;

        fprintf(out, "%zu %u %u %lu\n", i + 1, reply[3], reply[2],
                (unsigned long)read32(reply + 4));
    }
}

void bench_print(FILE *out, const uint8_t *input, size_t length)
{
    struct machine m;
    uint8_t replies[MAX_ENTRIES * REPLY_BYTES];
    size_t used;
    unsigned refusal = bench_setup(&m, input, length, &used);

    if (refusal != 0) {
        fprintf(out, "setup %u\n", refusal);
        return;
    }
    fprintf(out, "cells %u tasks %u nodes %u\n", m.cells, m.tasks, m.nodes);

    struct report r = bench_run(&m, input + used, length - used, replies,
                                sizeof replies);
    /* too long a schedule is refused as a whole: no entry has a line */
    bool line_for_refusal = r.refusal != 0 && r.refusal != TOO_LONG;

    print_replies(out, replies, r.accepted + (line_for_refusal ? 1 : 0));
    fprintf(out, "end %lu %lu %lu %lu %lu %lu\n",
            (unsigned long)r.accepted, (unsigned long)r.refusal,
            (unsigned long)r.loads, (unsigned long)r.load_steps,
            (unsigned long)r.turned_back, (unsigned long)r.swaps);
}
