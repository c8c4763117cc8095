#include "coverage.h"

#include "driver.h"
#include "readable.h"

#include <string.h>

/* All faults at once ----------------------------------------------------- */

/*
 * bench_apply stops at its first fault.  These look for each fault alone, to
 * tell how often the order of two refusals was put to the test.
 */

static void note_others(unsigned long order[NUMBERS][NUMBERS], unsigned given,
                        const bool fault[NUMBERS])
{
    for (unsigned i = 0; i < NUMBERS; i++)
        if (fault[i] && i != given)
            order[given][i]++;
}

static bool has_value(const uint8_t *entry)
{
    return entry[6] != 0 || entry[7] != 0 || entry[8] != 0 || entry[9] != 0;
}

static void entry_faults(const struct machine *m, const uint8_t *e, size_t left,
                         bool fault[NUMBERS])
{
    fault[BAD_MARK] = (left > 0 && e[0] != 'E') || (left > 1 && e[1] != 'N');
    fault[CUT] = left < ENTRY_BYTES;
    if (fault[CUT])
        return;

    uint8_t task = e[2], kind = e[3], cell = e[4];
    bool names_cell = kind == LOAD || kind == STORE;
    bool names_none = kind == GO || kind == RELEASE || kind == VALIDATE;

    fault[BAD_TASK] = task >= m->tasks;
    fault[BAD_KIND] = kind >= KINDS;
    fault[NOT_ZERO] = e[5] != 0 || (cell != 0 && names_none) ||
                      (has_value(e) && kind < KINDS && kind != STORE);
    fault[BAD_CELL] = names_cell && cell >= m->cells;
    if (fault[BAD_TASK])
        return;

    const struct task *t = &m->task[task];

    bool runs = t->phase != IDLE && t->phase != LINKED;

    fault[BAD_CALL] = (kind == LOAD && t->phase != IDLE) ||
                      (kind == STORE && runs) ||
                      ((kind == RELEASE || kind == VALIDATE) &&
                       t->phase != LINKED);
    fault[BAD_GO] = kind == GO && !runs;
}

static void setup_faults(const uint8_t *s, size_t length, bool fault[NUMBERS])
{
    fault[BAD_MARK] = (length > 0 && s[0] != 'S') || (length > 1 && s[1] != 'U');
    fault[CUT] = length < SETUP_HEAD;
    if (fault[CUT])
        return;
    fault[CUT] = length < SETUP_HEAD + 4u * s[2];
    fault[NOT_ZERO] = s[5] != 0;
    fault[BAD_SIZES] = s[2] < 1 || s[2] > 64 || s[3] < 1 || s[3] > 16 ||
                       s[4] < s[2] + 2 * s[3] || s[4] > 128;
}

/* The walk --------------------------------------------------------------- */

/* What has to be remembered from entry to entry of one input. */
struct walk {
    unsigned long swaps[MAX_CELLS];    /* swaps each cell has seen */
    unsigned long seen[MAX_TASKS];     /* the same, when the task read its cell */
    unsigned long busy_met[MAX_TASKS]; /* busy nodes in the task's S6 walk */
    bool turned[MAX_TASKS];
    uint8_t validated[MAX_TASKS];      /* how its link's last validate ended, or 0 */
    bool began_good[MAX_TASKS];        /* its cell was still at its node then */
    bool loaded[MAX_TASKS];            /* it has begun a load */
    bool tried[MAX_TASKS];             /* its last entry: a store without a link */
    bool kept[MAX_TASKS];              /* its link has outlived such a store */
    bool passed_over[MAX_TASKS];       /* another's such store met it in the set */
};

static void cover_load_step(struct coverage *c, struct walk *w,
                            const struct machine *after, struct answer a)
{
    const struct task *t = &after->task[a.task];

    if (a.met == L1)
        w->seen[a.task] = w->swaps[t->cell];
    if (a.met == L3 && t->phase == L5) {
        c->turned_back++;
        w->turned[a.task] = true;
    }
    if (a.met == L3 && t->phase == L4 && w->seen[a.task] != w->swaps[t->cell])
        c->came_back++;
}

static void cover_store_step(struct coverage *c, struct walk *w,
                             const struct machine *before,
                             const struct machine *after, struct answer a)
{
    const struct task *t = &after->task[a.task];

    if (a.met == S2 && t->phase == S3)
        w->swaps[t->cell]++;
    if (a.met == S2 && t->phase == S7 &&
        before->value[before->node_of[t->cell]] == before->value[t->held])
        c->lost_equal++;
    if (a.met == S3 && a.number == TOOK)
        c->ended_at_s3++;
    if (a.met == S5) {
        c->s5_at_1 += before->count[t->held] == 1;
        w->busy_met[a.task] = 0;
    }
    if (a.met == S6 && a.number == MOVED) {
        w->busy_met[a.task]++;
        if (t->cursor == 0) {
            c->cursor_wraps++;
            c->wraps_at_128 += after->nodes == MAX_NODES;
        }
    }
    if (a.met == S6 && a.number == TOOK) {
        unsigned long walked = w->busy_met[a.task];

        c->ended_at_s6++;
        if (walked >= 3)
            c->long_walks++;
        if (walked > c->longest_walk)
            c->longest_walk = walked;
    }
}

/* By the nodes' counts: the kept total is one of the things to be compared. */
static void cover_free(struct coverage *c, const struct machine *before,
                       const struct machine *after, struct answer a)
{
    unsigned were, are;

    if (bench_free_counted(before, &were) != 0 ||
        bench_free_counted(after, &are) != 0)
        return;
    c->taken[a.met] += are < were;
    c->freed[a.met] += are > were;
}

static void cover_validate_step(struct validates *v, struct walk *w,
                                const struct machine *before, struct answer a)
{
    const struct task *t = &before->task[a.task];
    uint8_t node = before->node_of[t->cell];
    uint8_t last = w->validated[a.task];

    v->good_elsewhere += a.number == GOOD && t->cell != 0;
    v->gone_equal += a.number == GONE &&
                     before->value[node] == before->value[t->held];
    v->gone_between += a.number == GONE && w->began_good[a.task];
    v->good_good += last == GOOD && a.number == GOOD;
    v->good_gone += last == GOOD && a.number == GONE;
    v->gone_gone += last == GONE && a.number == GONE;
    w->validated[a.task] = a.number;
}

/* Of a link: its start, the calls begun on it, the step of a validate. */
static void cover_link(struct validates *v, struct walk *w,
                       const struct machine *before,
                       const struct machine *after, struct answer a)
{
    const struct task *t = &after->task[a.task];

    if (a.met == L4)
        w->validated[a.task] = 0;
    if (a.met == LINKED && t->phase == V1)
        w->began_good[a.task] = before->node_of[t->cell] == t->held;
    if (a.met == LINKED && t->phase == S1) {
        v->stored_good += w->validated[a.task] == GOOD;
        v->stored_gone += w->validated[a.task] == GONE;
    }
    if (a.met == V1)
        cover_validate_step(v, w, before, a);
}

/* The call that a task in the phase has running; GO where it has none. */
static enum kind running(uint8_t phase)
{
    if (phase >= L1 && phase <= L5)
        return LOAD;
    if (phase >= S1 && phase <= S7)
        return STORE;
    return phase == R1 ? RELEASE : phase == V1 ? VALIDATE : GO;
}

/* Between the passing check and the swap, which would take now. */
static bool in_set(const struct machine *m, const struct task *t)
{
    return (t->phase == L4 || t->phase == LINKED || t->phase == S1 ||
            t->phase == S2) && m->node_of[t->cell] == t->held;
}

/* What the other tasks do on the cell that is named in vain. */
static void cover_others(struct unlinked *u, struct walk *w,
                         const struct machine *m, uint8_t task, uint8_t cell)
{
    bool idle = m->task[task].phase == IDLE;

    for (unsigned p = 0; p < m->tasks; p++) {
        const struct task *t = &m->task[p];

        if (p == task || t->cell != cell)
            continue;
        u->in_call[running(t->phase)]++;
        if (in_set(m, t)) {
            u->in_set_idle += idle;
            u->in_set_linked += !idle;
            w->passed_over[p] = true;
        }
    }
}

static void cover_unlinked(struct unlinked *u, struct walk *w,
                           const struct machine *m, uint8_t task, uint8_t cell)
{
    const struct task *t = &m->task[task];
    bool idle = t->phase == IDLE, good = m->node_of[t->cell] == t->held;

    u->fresh += idle && !w->loaded[task];
    u->idle += idle && w->loaded[task] && t->cell != cell;
    u->again += idle && w->loaded[task] && t->cell == cell;
    u->good += !idle && good;
    u->stale += !idle && !good;
    u->twice += w->tried[task];
    w->tried[task] = true;
    w->kept[task] = !idle;
    cover_others(u, w, m, task, cell);
}

/* Accepted entries: stores without a link, and what comes of the links since. */
static void cover_since(struct unlinked *u, struct walk *w,
                        const struct machine *before, const uint8_t *entry,
                        struct answer a)
{
    bool kept = w->kept[a.task];

    if (entry[3] == STORE && a.number == LOST) {
        cover_unlinked(u, w, before, a.task, entry[4]);
        return;
    }
    u->load_after += entry[3] == LOAD && w->tried[a.task];
    u->kept_took += kept && a.number == TOOK;
    u->kept_lost += kept && a.number == LOST;
    u->kept_good += kept && a.number == GOOD;
    u->kept_gone += kept && a.number == GONE;
    u->kept_released += kept && a.number == RELEASED;
    u->in_set_took += w->passed_over[a.task] && a.number == TOOK;
    w->tried[a.task] = false;
    if (entry[3] == LOAD) {
        w->loaded[a.task] = true;
        w->kept[a.task] = w->passed_over[a.task] = false;
    }
}

/* Refused stores, and a go that finds nothing begun by one without a link. */
static void cover_refused_store(struct unlinked *u, const struct walk *w,
                                const struct machine *m, const uint8_t *entry,
                                struct answer a)
{
    if (a.number == BAD_GO)
        u->go_after += w->tried[a.task];
    if (entry[3] != STORE)
        return;
    /* a task byte that is too large, or none, has no record */
    if (a.number != BAD_CALL && a.number != BAD_CELL && a.number != NOT_ZERO)
        return;

    const struct task *t = &m->task[a.task];
    bool idle = t->phase == IDLE, linked = t->phase == LINKED;

    switch (a.number) {
    case BAD_CALL:
        if (t->cell == entry[4])
            u->own[running(t->phase)]++;
        else
            u->other[running(t->phase)]++;
        break;
    case BAD_CELL:
        u->no_cell_idle += idle;
        u->no_cell_linked += linked;
        break;
    case NOT_ZERO:
        u->zero_idle += idle;
        u->zero_linked += linked && t->cell != entry[4];
    }
}

/* A refused validate, and what is refused during one or after one. */
static void cover_refused_on_link(struct validates *v, const struct walk *w,
                                  const struct machine *m,
                                  const uint8_t *entry, struct answer a)
{
    uint8_t kind = entry[3];
    bool validate = kind == VALIDATE;
    bool cell = entry[4] != 0, spare = entry[5] != 0, value = has_value(entry);

    switch (a.number) {
    case BAD_CALL:
        v->during[kind] += m->task[a.task].phase == V1;
        if (validate)
            v->early[running(m->task[a.task].phase)]++;
        break;
    case BAD_GO:
        v->go_after += m->task[a.task].phase == LINKED && w->validated[a.task] != 0;
        break;
    case NOT_ZERO:
        v->for_cell += validate && cell && !spare && !value;
        v->for_spare += validate && spare && !cell && !value;
        v->for_value += validate && value && !cell && !spare;
    }
}

static void cover_refused(struct coverage *c, const struct walk *w,
                          const struct machine *m, const uint8_t *entry,
                          size_t left, struct answer a)
{
    bool fault[NUMBERS] = { false };

    entry_faults(m, entry, left, fault);
    note_others(c->entry_order, a.number, fault);
    if (a.number == CUT) {
        c->cut[left]++;
        return;
    }
    if (entry[3] == VALIDATE)
        note_others(c->validate_order, a.number, fault);
    cover_refused_on_link(&c->validates, w, m, entry, a);
    cover_refused_store(&c->unlinked, w, m, entry, a);
}

static void cover_entry(struct coverage *c, struct walk *w, struct machine *m,
                        const uint8_t *entry, size_t left, bool *stop)
{
    struct machine before = *m;
    struct answer a = bench_apply(m, entry, left);

    c->number[a.number]++;
    *stop = is_refusal(a.number);
    if (*stop) {
        cover_refused(c, w, m, entry, left, a);
        return;
    }
    c->phase[a.met]++;
    cover_load_step(c, w, m, a);
    cover_store_step(c, w, &before, m, a);
    cover_free(c, &before, m, a);
    cover_link(&c->validates, w, &before, m, a);
    cover_since(&c->unlinked, w, &before, entry, a);

    unsigned long busy = 0;

    for (unsigned p = 0; p < m->tasks; p++)
        busy += m->task[p].phase != IDLE;
    if (busy > c->most_busy)
        c->most_busy = busy;
}

static void cover_refused_setup(struct coverage *c, unsigned refusal,
                                const uint8_t *input, size_t length)
{
    bool fault[NUMBERS] = { false };

    c->number[refusal]++;
    setup_faults(input, length, fault);
    note_others(c->setup_order, refusal, fault);
    if (refusal == CUT)
        c->setup_cut[length < SETUP_HEAD ? length : SETUP_HEAD]++;
}

void cover(struct coverage *c, const uint8_t *input, size_t length)
{
    struct machine m;
    struct walk w;
    size_t at;
    unsigned refusal = bench_setup(&m, input, length, &at);
    unsigned turned = 0;

    memset(&w, 0, sizeof w);
    c->inputs++;
    c->bytes += length;
    if (refusal != 0) {
        cover_refused_setup(c, refusal, input, length);
        return;
    }
    if (length - at > MAX_SCHEDULE) {
        c->number[TOO_LONG]++;
        return;
    }
    c->empty_schedules += length == at;
    c->full_schedules += length - at == MAX_SCHEDULE;

    for (bool stop = false; at < length && !stop; at += ENTRY_BYTES)
        cover_entry(c, &w, &m, input + at, length - at, &stop);

    for (unsigned p = 0; p < m.tasks; p++)
        turned += w.turned[p];
    c->turned_two += turned >= 2;
}

/* The tables ------------------------------------------------------------- */

/* Pairs of faults that one record can have: the first is the one to give. */
static const uint8_t ENTRY_ORDERS[][2] = {
    { 20, 19 },
    { 19, 12 }, { 19, 13 }, { 19, 15 }, { 19, 14 }, { 19, 16 }, { 19, 17 },
    { 12, 13 }, { 12, 15 }, { 12, 14 },
    { 13, 15 },
    { 15, 14 }, { 15, 16 }, { 15, 17 },
    { 14, 16 },
};

static const uint8_t VALIDATE_ORDERS[][2] = {
    { 19, 12 }, { 19, 15 }, { 19, 16 },
    { 12, 15 },
    { 15, 16 },
};

static const uint8_t SETUP_ORDERS[][2] = {
    { 20, 19 }, /* cut in the head */
    { 19, 15 }, { 19, 11 }, { 19, 20 },
    { 15, 11 }, { 15, 20 },
    { 11, 20 },
};

#define COUNT_OF(array) (sizeof(array) / sizeof(array)[0])

/* Not 18, 21, 22 and 24: the first is given nowhere, the program's own buffer is
 * large enough, no machine from an accepted setup is damaged, and no bytes ask
 * the holders question. */
static bool reachable(unsigned number)
{
    return number <= GONE || number == TOO_LONG ||
           (number >= BAD_SIZES && number < NO_ROOM && number != UNUSED);
}

static unsigned missing(FILE *out, unsigned long met, const char *what,
                        unsigned number)
{
    if (met > 0)
        return 0;
    fprintf(out, "never met: %s %u\n", what, number);
    return 1;
}

static unsigned print_orders(FILE *out, const char *what,
                             const uint8_t pairs[][2], size_t count,
                             const unsigned long order[NUMBERS][NUMBERS])
{
    unsigned never = 0;

    fprintf(out, "%s, refusal given before another fault:\n", what);
    for (size_t i = 0; i < count; i++) {
        unsigned given = pairs[i][0], other = pairs[i][1];
        unsigned long met = order[given][other];

        fprintf(out, "  %u<%u %lu%s", given, other, met,
                i % 8 == 7 || i + 1 == count ? "\n" : "");
        if (met == 0) {
            fprintf(out, "\nnever met: %s %u before %u\n", what, given, other);
            never++;
        }
    }
    return never;
}

static void print_depth(FILE *out, const struct coverage *c)
{
    fprintf(out, "depth:\n");
    fprintf(out, "  S6 walks past 3 busy nodes or more %lu, longest %lu\n",
            c->long_walks, c->longest_walk);
    fprintf(out, "  cursor back to node 0 %lu, in a pool of 128 %lu\n",
            c->cursor_wraps, c->wraps_at_128);
    fprintf(out, "  checks turned back %lu, inputs with 2 tasks or more turned back %lu\n",
            c->turned_back, c->turned_two);
    fprintf(out, "  checks passed on a node that had left and come back %lu\n", c->came_back);
    fprintf(out, "  stores lost to an equal value %lu\n", c->lost_equal);
    fprintf(out, "  most tasks busy at once %lu\n", c->most_busy);
}

static unsigned print_stores(FILE *out, const struct coverage *c)
{
    const struct row rows[] = {
        { "took at S3", c->ended_at_s3 },
        { "took at S6", c->ended_at_s6 },
        { "at S5 with 1 on m, more were left at S3", c->s5_at_1 },
    };

    return coverage_rows(out, "store", rows, COUNT_OF(rows));
}

/* S3 can't leave one more: its own task still holds m. */
static unsigned print_free(FILE *out, const struct coverage *c)
{
    const struct row rows[] = {
        { "one less at L2, a load raised a free one", c->taken[L2] },
        { "one less at S6", c->taken[S6] },
        { "one more at L5", c->freed[L5] },
        { "one more at S5", c->freed[S5] },
        { "one more at S7", c->freed[S7] },
        { "one more at R1", c->freed[R1] },
    };

    return coverage_rows(out, "free node", rows, COUNT_OF(rows));
}

static unsigned print_validates(FILE *out, const struct validates *v)
{
    const struct row rows[] = {
        { "good, of a cell other than 0", v->good_elsewhere },
        { "gone, though the cell's value is the same", v->gone_equal },
        { "gone at the step, good when it began", v->gone_between },
        { "good after good on one link", v->good_good },
        { "gone after good on one link", v->good_gone },
        { "gone after gone on one link", v->gone_gone },
        { "store begun after a good one", v->stored_good },
        { "store begun after a gone one", v->stored_gone },
        { "go after its end, 17", v->go_after },
        { "load begun before its step, 16", v->during[LOAD] },
        { "store begun before its step, 16", v->during[STORE] },
        { "release begun before its step, 16", v->during[RELEASE] },
        { "begun while idle, 16", v->early[GO] },
        { "begun in a load, 16", v->early[LOAD] },
        { "begun in a store, 16", v->early[STORE] },
        { "begun in a release, 16", v->early[RELEASE] },
        { "begun in a validate, 16", v->early[VALIDATE] },
        { "its cell not zero, 15", v->for_cell },
        { "its sixth byte not zero, 15", v->for_spare },
        { "its value not zero, 15", v->for_value },
    };

    return coverage_rows(out, "validate", rows, COUNT_OF(rows));
}

static unsigned print_unlinked(FILE *out, const struct unlinked *u)
{
    const struct row rows[] = {
        { "while idle, before any load", u->fresh },
        { "while idle, another cell than the last", u->idle },
        { "while idle, the cell last linked to", u->again },
        { "while linked elsewhere, the link is good", u->good },
        { "while linked elsewhere, the link is stale", u->stale },
        { "twice in a row", u->twice },
        { "while idle, then a load", u->load_after },
        { "then a go, 17", u->go_after },
        { "kept link: store took", u->kept_took },
        { "kept link: store lost", u->kept_lost },
        { "kept link: validated good", u->kept_good },
        { "kept link: validated gone", u->kept_gone },
        { "kept link: released", u->kept_released },
        { "another loads there", u->in_call[LOAD] },
        { "another stores there", u->in_call[STORE] },
        { "another releases there", u->in_call[RELEASE] },
        { "another validates there", u->in_call[VALIDATE] },
        { "another is in the set there, while idle", u->in_set_idle },
        { "another is in the set there, while linked", u->in_set_linked },
        { "another was in the set there, its store took", u->in_set_took },
        { "no such cell, while idle, 14", u->no_cell_idle },
        { "no such cell, while linked, 14", u->no_cell_linked },
        { "its sixth byte not zero, while idle, 15", u->zero_idle },
        { "its sixth byte not zero, while linked, 15", u->zero_linked },
    };

    return coverage_rows(out, "unlinked store", rows, COUNT_OF(rows));
}

static unsigned print_early_stores(FILE *out, const struct unlinked *u)
{
    const struct row rows[] = {
        { "in a load, its cell, 16", u->own[LOAD] },
        { "in a load, another cell, 16", u->other[LOAD] },
        { "in a store, its cell, 16", u->own[STORE] },
        { "in a store, another cell, 16", u->other[STORE] },
        { "in a release, its cell, 16", u->own[RELEASE] },
        { "in a release, another cell, 16", u->other[RELEASE] },
        { "in a validate, its cell, 16", u->own[VALIDATE] },
        { "in a validate, another cell, 16", u->other[VALIDATE] },
    };

    return coverage_rows(out, "early store", rows, COUNT_OF(rows));
}

static unsigned print_lengths(FILE *out, const struct coverage *c)
{
    unsigned never = 0;

    fprintf(out, "cut entries by length:");
    for (unsigned i = 1; i < ENTRY_BYTES; i++)
        fprintf(out, " %u:%lu", i, c->cut[i]);
    fprintf(out, "\nsetups cut in the head by length:");
    for (unsigned i = 0; i < SETUP_HEAD; i++)
        fprintf(out, " %u:%lu", i, c->setup_cut[i]);
    fprintf(out, ", in the values: %lu\n", c->setup_cut[SETUP_HEAD]);
    fprintf(out, "schedules empty %lu, of exactly 65530 bytes %lu\n",
            c->empty_schedules, c->full_schedules);

    for (unsigned i = 1; i < ENTRY_BYTES; i++)
        never += missing(out, c->cut[i], "cut entry of length", i);
    for (unsigned i = 0; i <= SETUP_HEAD; i++)
        never += missing(out, c->setup_cut[i], "cut setup of length", i);
    return never;
}

unsigned coverage_print(FILE *out, const struct coverage *c)
{
    unsigned never = 0;

    fprintf(out, "accepted entries by phase:\n");
    for (unsigned i = 0; i < PHASES; i++) {
        if (!is_phase(i))
            continue;
        fprintf(out, "  phase %2u %-6s %9lu\n", i, phase_name(i), c->phase[i]);
        never += missing(out, c->phase[i], "phase", i);
    }
    fprintf(out, "replies and refusals:\n");
    for (unsigned i = 0; i < NUMBERS; i++) {
        if (i > GONE && i < BAD_SIZES)
            continue;
        fprintf(out, "  %-7s %2u %11lu%s\n", is_refusal(i) ? "refusal" : "reply", i,
                c->number[i], reachable(i) ? "" :
                i == UNUSED ? "  (given nowhere)" : "  (not through the program)");
        if (reachable(i))
            never += missing(out, c->number[i], is_refusal(i) ? "refusal" : "reply", i);
    }
    never += print_orders(out, "entries", ENTRY_ORDERS, COUNT_OF(ENTRY_ORDERS),
                          c->entry_order);
    never += print_orders(out, "validates", VALIDATE_ORDERS,
                          COUNT_OF(VALIDATE_ORDERS), c->validate_order);
    never += print_orders(out, "setups", SETUP_ORDERS, COUNT_OF(SETUP_ORDERS),
                          c->setup_order);
    never += print_lengths(out, c);
    never += print_stores(out, c);
    never += print_free(out, c);
    never += print_validates(out, &c->validates);
    never += print_unlinked(out, &c->unlinked);
    never += print_early_stores(out, &c->unlinked);
    print_depth(out, c);
    return never;
}
