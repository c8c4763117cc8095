/*
 * Checks of the second program's functions where the program's bytes can't
 * reach: damaged machines, short reply buffers, the holders question, the
 * machine after document 01's cases, after a validate, after a store without a
 * link and after each step that changes a count, how long a store alone can take,
 * how many nodes are free, and that a run that tests the ranges once gives what
 * one that tests them at each entry gives.  Prints what fails; exit status 1 then.
 */
#include "bench.h"
#include "chance.h"
#include "check.h"

#include <string.h>

/* The value is 7 in every cell. */
static struct machine fresh(uint8_t cells, uint8_t tasks, uint8_t nodes)
{
    uint8_t setup[MAX_SETUP] = { 0x53, 0x55, cells, tasks, nodes, 0 };
    struct machine m;
    size_t used;

    for (size_t i = 0; i < cells; i++)
        setup[SETUP_HEAD + VALUE_BYTES * i] = 7;
    CHECK(bench_setup(&m, setup, sizeof setup, &used) == 0);
    CHECK(used == SETUP_HEAD + (size_t)VALUE_BYTES * cells);
    return m;
}

/* the machine of cases 9 to 12 */
static struct machine small(void)
{
    return fresh(1, 2, 5);
}

static void put_entry(uint8_t *entry, uint8_t task, uint8_t kind, uint8_t cell,
                      uint8_t value)
{
    const uint8_t bytes[ENTRY_BYTES] = { 0x45, 0x4E, task, kind, cell, 0, value };

    memcpy(entry, bytes, sizeof bytes);
}

static struct answer apply_on(struct machine *m, uint8_t task, uint8_t kind,
                              uint8_t cell, uint8_t value)
{
    uint8_t entry[ENTRY_BYTES];

    put_entry(entry, task, kind, cell, value);
    return bench_apply(m, entry, sizeof entry);
}

static struct answer apply(struct machine *m, uint8_t task, uint8_t kind,
                           uint8_t value)
{
    return apply_on(m, task, kind, 0, value);
}

/* A call on cell 0 and its steps; returns the last answer. */
static struct answer call(struct machine *m, uint8_t task, uint8_t kind,
                          uint8_t value, unsigned steps)
{
    struct answer a = apply(m, task, kind, value);

    while (steps-- > 0)
        a = apply(m, task, GO, 0);
    return a;
}

static bool counts_are(const struct machine *m, unsigned a, unsigned b,
                       unsigned c, unsigned d, unsigned e)
{
    return m->count[0] == a && m->count[1] == b && m->count[2] == c &&
           m->count[3] == d && m->count[4] == e;
}

static bool zeros(const struct machine *m)
{
    static const struct machine zero;

    return memcmp(m, &zero, sizeof zero) == 0;
}

static bool same_task(const struct task *a, const struct task *b)
{
    return a->phase == b->phase && a->cell == b->cell && a->value == b->value &&
           a->held == b->held && a->own == b->own && a->cursor == b->cursor;
}

/* Field by field: what stands between the fields of a struct is no matter. */
static bool same(const struct machine *a, const struct machine *b)
{
    for (unsigned p = 0; p < MAX_TASKS; p++)
        if (!same_task(&a->task[p], &b->task[p]))
            return false;
    return a->cells == b->cells && a->tasks == b->tasks && a->nodes == b->nodes &&
           a->free == b->free &&
           memcmp(a->node_of, b->node_of, sizeof a->node_of) == 0 &&
           memcmp(a->value, b->value, sizeof a->value) == 0 &&
           memcmp(a->count, b->count, sizeof a->count) == 0;
}

static void check_setups(void)
{
    struct machine m = small();
    size_t used;
    static const uint8_t bad[] = { 0x53, 0x55, 1, 2, 4, 0, 7, 0, 0, 0 };

    CHECK(m.node_of[0] == 0 && m.value[0] == 7);
    CHECK(m.task[0].own == 1 && m.task[1].own == 2);
    CHECK(counts_are(&m, 1, 1, 1, 0, 0));
    CHECK(bench_setup(&m, bad, sizeof bad, &used) == BAD_SIZES);
    CHECK(zeros(&m) && used == 0);
}

/* Case 3: the store has three steps and leaves its task the old node. */
static void check_case_3(void)
{
    struct machine m = fresh(1, 1, 3);

    CHECK(call(&m, 0, LOAD, 0, 4).value == 7);
    CHECK(call(&m, 0, STORE, 9, 3).number == TOOK);
    CHECK(m.task[0].phase == IDLE && m.task[0].own == 0);
    CHECK(m.node_of[0] == 1 && m.value[1] == 9);
    CHECK(m.count[0] == 1 && m.count[1] == 1 && m.count[2] == 0);
    CHECK(apply(&m, 0, GO, 0).number == BAD_GO);
}

/* Case 9: task 0 stands after L1 while node 0 leaves the cell and returns. */
static void check_case_9(void)
{
    struct machine m = small();

    call(&m, 0, LOAD, 0, 1);
    CHECK(call(&m, 1, LOAD, 0, 4).value == 7);
    CHECK(call(&m, 1, STORE, 9, 3).number == TOOK);
    CHECK(m.task[1].own == 0 && m.node_of[0] == 2);
    CHECK(call(&m, 1, LOAD, 0, 4).value == 9);
    CHECK(call(&m, 1, STORE, 11, 3).number == TOOK);
    CHECK(m.task[1].own == 2 && m.node_of[0] == 0);
    apply(&m, 0, GO, 0);
    apply(&m, 0, GO, 0);

    struct answer a = apply(&m, 0, GO, 0);

    CHECK(a.number == LOADED && a.value == 11);
}

/* Case 10: both linked; the first store has to look for a free node. */
static void check_case_10(void)
{
    struct machine m = small();

    call(&m, 0, LOAD, 0, 4);
    call(&m, 1, LOAD, 0, 4);
    call(&m, 1, STORE, 9, 2);
    CHECK(m.count[0] == 3 && m.task[1].phase == S3);
    CHECK(apply(&m, 1, GO, 0).number == MOVED);
    CHECK(m.count[0] == 2 && m.task[1].phase == S5);
    CHECK(apply(&m, 1, GO, 0).number == MOVED);
    CHECK(m.count[0] == 1 && m.task[1].phase == S6 && m.task[1].cursor == 1);
    CHECK(apply(&m, 1, GO, 0).number == MOVED);
    CHECK(apply(&m, 1, GO, 0).number == MOVED);
    CHECK(apply(&m, 1, GO, 0).number == TOOK); /* the seventh step */
    CHECK(m.task[1].own == 3);
    CHECK(call(&m, 0, STORE, 8, 3).number == LOST);
    CHECK(m.task[0].own == 1);
    CHECK(counts_are(&m, 0, 1, 1, 1, 0));
}

/* Case 11: task 0 stands after L1 while the cell moves on to another node. */
static void check_case_11(void)
{
    struct machine m = small();

    call(&m, 0, LOAD, 0, 1);
    call(&m, 1, LOAD, 0, 4);
    CHECK(call(&m, 1, STORE, 9, 3).number == TOOK);
    for (unsigned i = 0; i < 6; i++)
        CHECK(apply(&m, 0, GO, 0).number == MOVED);
    CHECK(apply(&m, 0, GO, 0).value == 9);
}

static void check_case_12(void)
{
    struct machine m = small();

    call(&m, 0, LOAD, 0, 4);
    CHECK(call(&m, 0, RELEASE, 0, 1).number == RELEASED);
    CHECK(counts_are(&m, 1, 1, 1, 0, 0));
}

/* Both linked, and task 0 releases in the middle of task 1's store. */
static void check_release_in_store(void)
{
    struct machine m = small(), before;

    call(&m, 0, LOAD, 0, 4);
    call(&m, 1, LOAD, 0, 4);
    call(&m, 1, STORE, 9, 2);
    before = m;

    /* before S3, which leaves 1 */
    CHECK(call(&m, 0, RELEASE, 0, 1).number == RELEASED);
    CHECK(m.count[0] == 2 && m.task[1].phase == S3);
    CHECK(apply(&m, 1, GO, 0).number == TOOK);
    CHECK(m.task[1].own == 0 && counts_are(&m, 1, 1, 1, 0, 0));

    /* after S3, which left 2: S5 is due although 1 is left by now */
    m = before;
    CHECK(apply(&m, 1, GO, 0).number == MOVED);
    CHECK(m.count[0] == 2 && m.task[1].phase == S5);
    CHECK(call(&m, 0, RELEASE, 0, 1).number == RELEASED);
    CHECK(m.count[0] == 1 && m.task[1].phase == S5);
    CHECK(apply(&m, 1, GO, 0).number == MOVED);
    CHECK(m.count[0] == 0 && m.task[1].phase == S6 && m.task[1].cursor == 1);
    CHECK(apply(&m, 1, GO, 0).number == MOVED);
    CHECK(apply(&m, 1, GO, 0).number == MOVED);
    CHECK(apply(&m, 1, GO, 0).number == TOOK);
    CHECK(m.task[1].own == 3 && counts_are(&m, 0, 1, 1, 1, 0));
}

static void check_refused(struct machine m, uint8_t number, uint8_t task)
{
    struct machine before = m;
    struct answer a = apply(&m, 1, GO, 0);

    CHECK(a.number == number && a.task == task && a.value == 0);
    CHECK(same(&m, &before));
}

/*
 * Task 1's next step is the phase's and looks at node 3, whose count is given,
 * as the kept total is: they may be such as no bytes lead to.
 */
static struct machine facing(uint8_t phase, uint8_t count, uint8_t total)
{
    struct machine m = small();

    m.task[1].phase = phase;
    m.task[1].held = m.task[1].cursor = 3;
    m.count[3] = count;
    m.free = total;
    return m;
}

/* No field changes but those that the table names, and the total where a count
 * comes to 0 or leaves it. */
static void check_lowered(uint8_t phase, uint8_t count, uint8_t total,
                          uint8_t number, uint8_t next)
{
    struct machine m = facing(phase, count, total), due = m;
    struct answer a;

    if (count == 1 && total == m.nodes) { /* more than all would be free */
        check_refused(m, DAMAGED, 1);
        return;
    }
    due.task[1].phase = next;
    due.count[3]--;
    if (count == 1)
        due.free++;
    if (number == TOOK)
        due.task[1].own = 3;
    if (phase == S5)
        due.task[1].cursor = 4;
    a = apply(&m, 1, GO, 0);
    CHECK(a.number == number && a.task == 1 && a.value == 0);
    CHECK(same(&m, &due));
}

static void check_lowering(uint8_t total)
{
    for (uint8_t count = 1; count <= 3; count++) {
        check_lowered(L5, count, total, MOVED, L1);
        check_lowered(S5, count, total, MOVED, S6);
        check_lowered(S7, count, total, LOST, IDLE);
        check_lowered(R1, count, total, RELEASED, IDLE);
    }
    /* no sound machine leaves 0 here; the rule is the same */
    check_lowered(S3, 1, total, MOVED, S5);
    check_lowered(S3, 2, total, TOOK, IDLE);
    check_lowered(S3, 3, total, MOVED, S5);
}

static void check_raised(uint8_t count, uint8_t total)
{
    struct machine m = facing(L2, count, total), due = m;

    if (count == 0 && total == 0) { /* a free node where none is left */
        check_refused(m, DAMAGED, 1);
        return;
    }
    due.task[1].phase = L3;
    due.count[3]++;
    if (count == 0)
        due.free--;
    CHECK(apply(&m, 1, GO, 0).number == MOVED);
    CHECK(same(&m, &due));
}

static void check_sought(uint8_t count, uint8_t total)
{
    struct machine m = facing(S6, count, total), due = m;

    if (count == 0 && total == 0) {
        check_refused(m, DAMAGED, 1);
        return;
    }
    if (count == 0) {
        due.task[1].phase = IDLE;
        due.task[1].own = 3;
        due.count[3] = 1;
        due.free--;
    } else {
        due.task[1].cursor = 4;
    }
    CHECK(apply(&m, 1, GO, 0).number == (count == 0 ? TOOK : MOVED));
    CHECK(same(&m, &due));
}

/* The total stays where no count changes. */
static void check_stays(uint8_t phase, uint8_t kind, uint8_t total)
{
    for (uint8_t count = 0; count <= 3; count++) {
        struct machine m = facing(phase, count, total);

        CHECK(!is_refusal(apply(&m, 1, kind, 0).number) && m.free == total);
        m = facing(phase, count, total);
        m.node_of[0] = 3; /* L3 and S2 go the other way */
        CHECK(!is_refusal(apply(&m, 1, kind, 0).number) && m.free == total);
    }
}

static void check_changes(void)
{
    for (uint8_t total = 0; total <= 5; total++) { /* 5 is K */
        check_lowering(total);
        for (uint8_t count = 0; count <= 3; count++) {
            if (count < 3)
                check_raised(count, total);
            check_sought(count, total);
        }
        check_stays(L1, GO, total);
        check_stays(L3, GO, total);
        check_stays(L4, GO, total);
        check_stays(S1, GO, total);
        check_stays(S2, GO, total);
        check_stays(V1, GO, total);
        check_stays(IDLE, LOAD, total);
        check_stays(IDLE, STORE, total);
        check_stays(LINKED, STORE, total);
        check_stays(LINKED, RELEASE, total);
        check_stays(LINKED, VALIDATE, total);
    }
}

/* The free nodes: kept, answered and counted. */
static bool free_are(const struct machine *m, unsigned due)
{
    unsigned answered = 99, counted = 99;

    return m->free == due && bench_free(m, &answered) == 0 && answered == due &&
           bench_free_counted(m, &counted) == 0 && counted == due;
}

/* One entry for each digit, which says how many it leaves free: the first is
 * of the kind, the rest are go. */
static bool leave_free(struct machine *m, uint8_t task, uint8_t kind,
                       uint8_t value, const char *digits)
{
    for (; *digits != '\0'; digits++, kind = GO, value = 0)
        if (is_refusal(apply(m, task, kind, value).number) ||
            !free_are(m, (unsigned)(*digits - '0')))
            return false;
    return true;
}

/* Case 10 again: one store ends by taking node 3, the other by freeing node 0. */
static void check_free_in_case_10(void)
{
    struct machine m = small();

    CHECK(free_are(&m, 2));
    CHECK(leave_free(&m, 0, LOAD, 0, "22222"));
    CHECK(leave_free(&m, 1, LOAD, 0, "22222"));
    CHECK(leave_free(&m, 1, STORE, 9, "22222221"));
    CHECK(leave_free(&m, 0, STORE, 8, "1112"));
    CHECK(counts_are(&m, 0, 1, 1, 1, 0));
}

/* S5 leaves 0 where the other holder has released since S3. */
static void check_free_at_s5(void)
{
    struct machine m = small();

    CHECK(leave_free(&m, 0, LOAD, 0, "22222"));
    CHECK(leave_free(&m, 1, LOAD, 0, "22222"));
    CHECK(leave_free(&m, 1, STORE, 9, "2222"));
    CHECK(leave_free(&m, 0, RELEASE, 0, "22"));
    CHECK(leave_free(&m, 1, GO, 0, "3332"));
    CHECK(m.task[1].own == 3 && counts_are(&m, 0, 1, 1, 1, 0));
}

/*
 * A load raises a free node.  Task 0 reads node 0 and stands; task 1 stores
 * while task 2 is linked too, so that it can't keep node 0 and takes node 4;
 * task 2 gives node 0 up, and nobody has it.  It takes three tasks.
 */
static void check_free_raised(void)
{
    struct machine m = fresh(1, 3, 7);

    CHECK(free_are(&m, 3));
    CHECK(leave_free(&m, 0, LOAD, 0, "33"));
    CHECK(leave_free(&m, 1, LOAD, 0, "33333"));
    CHECK(leave_free(&m, 2, LOAD, 0, "33333"));
    CHECK(leave_free(&m, 1, STORE, 9, "333333332"));
    CHECK(m.task[1].own == 4 && counts_are(&m, 1, 1, 1, 1, 1));
    CHECK(leave_free(&m, 2, RELEASE, 0, "23"));
    CHECK(leave_free(&m, 0, GO, 0, "22")); /* L2 on node 0, and turned back */
    CHECK(m.task[0].phase == L5 && counts_are(&m, 1, 1, 1, 1, 1));
    CHECK(leave_free(&m, 0, GO, 0, "33333")); /* L5; then node 2, never free */
    CHECK(m.task[0].phase == LINKED && m.task[0].held == 2);
    CHECK(counts_are(&m, 0, 1, 2, 1, 1));
}

static void check_fresh_totals(void)
{
    struct machine least = fresh(1, 1, 3), most = fresh(1, 1, 128);
    struct machine crowded = fresh(64, 16, 96), full = fresh(64, 16, 128);

    CHECK(free_are(&least, 1) && free_are(&most, 126));
    CHECK(free_are(&crowded, 16) && free_are(&full, 48));
}

/* Answers with the total, whatever else is damaged; 22 leaves the place alone. */
static void check_free_question(void)
{
    struct machine m = small();

    memset(m.node_of, 255, sizeof m.node_of);
    memset(m.count, 255, sizeof m.count);
    memset(m.task, 255, sizeof m.task);
    for (unsigned total = 0; total <= 255; total++) {
        unsigned got = 999;
        bool above = total > 5;

        m.free = (uint8_t)total;
        CHECK(bench_free(&m, &got) == (above ? DAMAGED : 0));
        CHECK(got == (above ? 999 : total));
    }
}

/* The sizes that a setup takes, and no others: all there are. */
static bool answered_by_sizes(void)
{
    struct machine m = small();

    m.free = 0;
    for (unsigned i = 0; i < 1u << 24; i++) {
        unsigned n = i >> 16, p = i >> 8 & 255, k = i & 255, got = 999;
        bool taken = n - 1 < 64 && p - 1 < 16 && n + 2 * p <= k && k <= 128;

        m.cells = (uint8_t)n;
        m.tasks = (uint8_t)p;
        m.nodes = (uint8_t)k;
        if (bench_free(&m, &got) != (taken ? 0 : DAMAGED) ||
            got != (taken ? 0 : 999))
            return false;
    }
    return true;
}

static uint8_t below(unsigned limit, uint32_t *state)
{
    return (uint8_t)(chance(state) % limit);
}

/* An entry that the task's phase allows, so that only damage can refuse it. */
static void put_allowed(uint8_t *entry, const struct machine *m, uint8_t task,
                        uint32_t *state)
{
    const struct task *t = &m->task[task];
    uint8_t of_16 = below(16, state);
    uint8_t cell = below(m->cells, state);
    uint8_t value = below(256, state);

    if (t->phase == IDLE && of_16 > 0)
        put_entry(entry, task, LOAD, cell, 0);
    else if (t->phase == IDLE) /* without a link: lost at once */
        put_entry(entry, task, STORE, cell, value);
    else if (t->phase != LINKED)
        put_entry(entry, task, GO, 0, 0);
    else if (of_16 < 2)
        put_entry(entry, task, RELEASE, 0, 0);
    else if (of_16 == 2)
        put_entry(entry, task, VALIDATE, 0, 0);
    else
        put_entry(entry, task, STORE, of_16 == 3 ? cell : t->cell, value);
}

static void move(struct machine *m, uint8_t task, uint32_t *state)
{
    uint8_t entry[ENTRY_BYTES];

    put_allowed(entry, m, task, state);
    bench_apply(m, entry, sizeof entry);
}

/* After every entry of a random schedule the total is the full count. */
static bool kept_free(uint8_t cells, uint8_t tasks, uint8_t nodes,
                      unsigned entries)
{
    struct machine m = fresh(cells, tasks, nodes);
    uint32_t state = 1;
    unsigned counted;

    while (entries-- > 0) {
        move(&m, below(tasks, &state), &state);
        if (bench_free_counted(&m, &counted) != 0 || !free_are(&m, counted))
            return false;
    }
    return true;
}

static void check_kept_free(void)
{
    for (uint8_t tasks = 1; tasks <= MAX_TASKS; tasks++) {
        CHECK(kept_free(1, tasks, (uint8_t)(1 + 2 * tasks), 20000));
        CHECK(kept_free(2, tasks, MAX_NODES, 20000));
        CHECK(kept_free(MAX_CELLS, tasks, (uint8_t)(MAX_CELLS + 2 * tasks), 20000));
    }
}

/* The steps that the task's store still needs if no other task moves. */
static unsigned steps_alone(struct machine m, uint8_t task)
{
    unsigned steps = 0;

    if (m.task[task].phase < S1 || m.task[task].phase > S7)
        return 0;
    while (m.task[task].phase != IDLE && steps < MAX_NODES + 4) {
        apply(&m, task, GO, 0);
        steps++;
    }
    return steps;
}

/* The most of these, of any task at any moment of a random schedule. */
static unsigned longest_alone(uint8_t cells, uint8_t tasks, unsigned entries)
{
    struct machine m = fresh(cells, tasks, (uint8_t)(cells + 2 * tasks));
    uint32_t state = 1;
    unsigned longest = 0;

    while (entries-- > 0) {
        move(&m, below(tasks, &state), &state);
        for (uint8_t p = 0; p < tasks; p++) {
            unsigned steps = steps_alone(m, p);

            longest = steps > longest ? steps : longest;
        }
    }
    return longest;
}

/* Within N+2P+3; the most is one less, and with one task a store never seeks. */
static void check_stores_alone(void)
{
    CHECK(longest_alone(1, 1, 1000) == 3);
    CHECK(longest_alone(1, 2, 10000) == 1 + 2 * 2 + 2);
    CHECK(longest_alone(2, 2, 10000) == 2 + 2 * 2 + 2);
    CHECK(longest_alone(1, 3, 100000) == 1 + 2 * 3 + 2);
    CHECK(longest_alone(2, 3, 100000) == 2 + 2 * 3 + 2);
}

/* Task 0 validates: the number is due, and only the phase changes on the way. */
static void check_validated(struct machine m, uint8_t number)
{
    struct machine before = m, begun = m;
    struct answer a = apply(&m, 0, VALIDATE, 0);

    begun.task[0].phase = V1;
    CHECK(a.number == MOVED && a.task == 0 && a.value == 0);
    CHECK(same(&m, &begun));
    a = apply(&m, 0, GO, 0);
    CHECK(a.number == number && a.task == 0 && a.value == 0);
    CHECK(same(&m, &before));
}

static void check_validates(void)
{
    struct machine m = small();

    call(&m, 0, LOAD, 0, 4);
    check_validated(m, GOOD);
    call(&m, 1, LOAD, 0, 4);
    CHECK(call(&m, 1, STORE, 7, 7).number == TOOK); /* the value that was there */
    CHECK(m.task[0].phase == LINKED && m.task[0].held == 0 && m.node_of[0] == 2);
    check_validated(m, GONE);

    /* numbers decide whatever else is wrong: no count is looked at */
    m = small();
    m.task[0].phase = LINKED;
    m.task[0].held = 3; /* count 0 */
    check_validated(m, GONE);
    m.node_of[0] = 3;
    m.count[3] = 3; /* P+1 */
    check_validated(m, GOOD);
}

/* 16 in every phase but linked, and nothing changes. */
static void check_early_validates(void)
{
    for (unsigned i = 0; i < PHASES; i++) {
        struct machine m = small(), before;
        struct answer a;

        if (i == LINKED || !is_phase(i))
            continue;
        m.task[1].phase = (uint8_t)i;
        before = m;
        a = apply(&m, 1, VALIDATE, 0);
        CHECK(a.number == BAD_CALL && a.task == 1 && a.value == 0);
        CHECK(same(&m, &before));
    }
}

/* Lost at once, and every byte of the machine is as it was. */
static void check_unlinked(struct machine *m, uint8_t task, uint8_t cell)
{
    struct machine before;
    struct answer a;

    memcpy(&before, m, sizeof before); /* an assignment may leave gaps out */
    a = apply_on(m, task, STORE, cell, 9);
    CHECK(a.number == LOST && a.task == task && a.value == 0);
    CHECK(a.met == before.task[task].phase);
    CHECK(memcmp(m, &before, sizeof before) == 0);
}

/* Case 5, and an idle task that has been linked to the cell before. */
static void check_case_5(void)
{
    struct machine m = fresh(2, 2, 6);

    check_refused(m, BAD_GO, 1);
    check_unlinked(&m, 1, 0);
    check_unlinked(&m, 1, 1);
    CHECK(apply(&m, 1, RELEASE, 0).number == BAD_CALL);
    CHECK(apply(&m, 1, VALIDATE, 0).number == BAD_CALL);
    CHECK(apply_on(&m, 1, STORE, 2, 9).number == BAD_CELL);

    /* the record still names the cell and the node that is in it */
    call(&m, 1, LOAD, 0, 4);
    call(&m, 1, RELEASE, 0, 1);
    CHECK(m.task[1].cell == 0 && m.task[1].held == m.node_of[0]);
    check_unlinked(&m, 1, 0);
    check_unlinked(&m, 1, 1);
    CHECK(call(&m, 1, LOAD, 0, 4).value == 7);
}

/* Case 6: the link stays, and its own store takes later. */
static void check_case_6(void)
{
    struct machine m = fresh(2, 2, 6);

    call(&m, 0, LOAD, 0, 4);
    CHECK(apply_on(&m, 0, STORE, 2, 9).number == BAD_CELL);
    check_unlinked(&m, 0, 1);
    check_unlinked(&m, 0, 1);
    CHECK(call(&m, 0, VALIDATE, 0, 1).number == GOOD);
    check_unlinked(&m, 0, 1);
    CHECK(call(&m, 0, STORE, 11, 3).number == TOOK);
    CHECK(m.node_of[0] == 2 && m.value[2] == 11);
    CHECK(m.node_of[1] == 1 && m.value[1] == 7);
    check_unlinked(&m, 0, 0);
}

/* A stale link stays too: the store on its own cell begins, and is lost. */
static void check_stale_link(void)
{
    struct machine m = fresh(2, 2, 6);

    call(&m, 0, LOAD, 0, 4);
    call(&m, 1, LOAD, 0, 4);
    CHECK(call(&m, 1, STORE, 8, 8).number == TOOK);
    check_unlinked(&m, 0, 1);
    CHECK(call(&m, 0, VALIDATE, 0, 1).number == GONE);
    check_unlinked(&m, 0, 1);
    CHECK(call(&m, 0, STORE, 9, 2).number == MOVED && m.task[0].phase == S7);
    CHECK(apply(&m, 0, GO, 0).number == LOST && m.task[0].phase == IDLE);
    CHECK(m.value[m.node_of[0]] == 8);
}

/* Task 1's store goes on as if nobody else had tried. */
static void check_during_store(void)
{
    struct machine m = fresh(2, 3, 8);

    apply_on(&m, 2, LOAD, 1, 0);
    for (unsigned i = 0; i < 4; i++)
        apply(&m, 2, GO, 0);
    apply(&m, 1, LOAD, 0);
    for (uint8_t due = L1; due <= L4; due++) {
        CHECK(m.task[1].phase == due);
        check_unlinked(&m, 0, 0);
        check_unlinked(&m, 2, 0);
        apply(&m, 1, GO, 0);
    }
    check_unlinked(&m, 0, 0);
    apply(&m, 1, STORE, 11);
    for (uint8_t due = S1; due <= S3; due++) {
        CHECK(m.task[1].phase == due);
        check_unlinked(&m, 0, 0);
        check_unlinked(&m, 2, 0);
        CHECK(apply(&m, 1, GO, 0).number == (due == S3 ? TOOK : MOVED));
    }
    CHECK(m.value[m.node_of[0]] == 11);
    CHECK(call(&m, 2, VALIDATE, 0, 1).number == GOOD);
}

/*
 * Task 1 in the phase, its cell 1 of 2: own, other and missing cell.  No count
 * and no total is asked for, so that they may be such as no bytes lead to.
 */
static void check_stores_in(uint8_t phase, uint8_t count, uint8_t total)
{
    struct machine m = fresh(2, 2, 6), begun;

    m.task[1].phase = phase;
    m.task[1].cell = 1;
    m.task[1].held = m.task[1].cursor = 4;
    memset(m.count, count, m.nodes);
    m.free = total;
    begun = m;
    begun.task[1].phase = S1;
    begun.task[1].value = 9;

    for (uint8_t cell = 0; cell <= 2; cell++) {
        struct machine after = m;

        if (cell < 2 && (phase == IDLE || (phase == LINKED && cell != 1))) {
            check_unlinked(&after, 1, cell);
            continue;
        }
        CHECK(apply_on(&after, 1, STORE, cell, 9).number ==
              (cell == 2 ? BAD_CELL : phase == LINKED ? MOVED : BAD_CALL));
        CHECK(same(&after, cell == 1 && phase == LINKED ? &begun : &m));
    }
}

static void check_stores(void)
{
    for (unsigned i = 0; i < PHASES; i++)
        if (is_phase(i))
            for (uint8_t count = 0; count <= 3; count++)
                for (uint8_t total = 0; total <= 6; total++)
                    check_stores_in((uint8_t)i, count, total);
}

/* Each fault of a store comes before the answer that it would get without. */
static void check_store_orders(uint8_t phase)
{
    static const struct {
        uint8_t due, entry[ENTRY_BYTES];
    } orders[] = {
        { BAD_MARK, { 0x45, 0x4F, 9, 9, 9, 9, 9, 9, 9, 9 } },
        { BAD_TASK, { 0x45, 0x4E, 2, 9, 9, 9, 9, 9, 9, 9 } },
        { BAD_KIND, { 0x45, 0x4E, 1, 9, 9, 9, 9, 9, 9, 9 } },
        { NOT_ZERO, { 0x45, 0x4E, 1, STORE, 2, 1, 9, 9, 9, 9 } },
        { NOT_ZERO, { 0x45, 0x4E, 1, STORE, 0, 1, 9, 9, 9, 9 } },
        { BAD_CELL, { 0x45, 0x4E, 1, STORE, 2, 0, 9, 9, 9, 9 } },
    };
    struct machine m = fresh(2, 2, 6), before;

    m.task[1].phase = phase;
    m.task[1].cell = 1;
    before = m;
    for (size_t i = 0; i < sizeof orders / sizeof orders[0]; i++) {
        CHECK(bench_apply(&m, orders[i].entry, ENTRY_BYTES).number ==
              orders[i].due);
        CHECK(bench_apply(&m, orders[i].entry, ENTRY_BYTES - 1).number == CUT);
        CHECK(same(&m, &before));
    }
    m.task[0].own = 6; /* damage is looked for before anything else */
    CHECK(apply_on(&m, 1, STORE, 0, 9).number == DAMAGED);
}

/* 18 is nobody's answer: every kind and cell byte, in every phase. */
static bool never_18(void)
{
    const struct machine start = fresh(2, 2, 6);

    for (unsigned i = 0; i < 1u << 20; i++) {
        struct machine m = start;

        if (!is_phase(i >> 16))
            continue;
        m.task[1].phase = (uint8_t)(i >> 16);
        m.task[1].cell = 1;
        if (apply_on(&m, 1, (uint8_t)(i >> 8), (uint8_t)i, 0).number == UNUSED)
            return false;
    }
    return true;
}

typedef struct report runner(struct machine *machine, const uint8_t *schedule,
                             size_t length, uint8_t *replies, size_t room,
                             const struct display *display);

enum { UNTOUCHED = 0xA5 }; /* more than can be free */

/* What a run gave.  There is room for one entry more than a schedule can have. */
struct ran {
    struct machine machine;
    struct report report;
    uint8_t replies[REPLY_BYTES * (MAX_ENTRIES + 1)];
    uint8_t free_nodes[MAX_ENTRIES + 1];
};

static void run_from(struct ran *r, runner *run, const struct machine *start,
                     const uint8_t *schedule, size_t length)
{
    struct display d = { bench_free, r->free_nodes, sizeof r->free_nodes };

    memset(r->replies, UNTOUCHED, sizeof r->replies);
    memset(r->free_nodes, UNTOUCHED, sizeof r->free_nodes);
    r->machine = *start;
    r->report = run(&r->machine, schedule, length, r->replies,
                    sizeof r->replies, &d);
}

static bool untouched(const uint8_t *bytes, size_t count)
{
    for (size_t i = 0; i < count; i++)
        if (bytes[i] != UNTOUCHED)
            return false;
    return true;
}

/* Past what the entries that were tried wrote, every byte is as it was. */
static bool left_alone(const struct ran *r, size_t tried)
{
    size_t used = REPLY_BYTES * tried;

    return untouched(r->replies + used, sizeof r->replies - used) &&
           untouched(r->free_nodes + tried, sizeof r->free_nodes - tried);
}

static bool same_run(const struct ran *a, const struct ran *b)
{
    return same(&a->machine, &b->machine) &&
           memcmp(&a->report, &b->report, sizeof a->report) == 0 &&
           memcmp(a->replies, b->replies, sizeof a->replies) == 0 &&
           memcmp(a->free_nodes, b->free_nodes, sizeof a->free_nodes) == 0;
}

/*
 * Whether a run that tests the ranges once gives what one that tests them at
 * each entry gives; the latter's report goes to *report.  The schedule is not
 * too long, so that only the ranges can refuse it before an entry is tried.
 */
static bool alike(const struct machine *start, const uint8_t *schedule,
                  size_t length, struct report *report)
{
    struct ran each, once;
    size_t tried = 0;

    run_from(&each, bench_run_shown, start, schedule, length);
    run_from(&once, bench_run_once, start, schedule, length);
    *report = each.report;
    if (bench_in_range(start))
        tried = report->accepted + (report->refusal != 0);
    return same_run(&each, &once) && left_alone(&each, tried) &&
           (tried > 0 || same(&each.machine, start));
}

/* 22 by ranges: no entry and no run, however it tests, changes or writes a byte. */
static void check_out_of_range(struct machine m)
{
    static const uint8_t load[] = { 0x45, 0x4E, 1, LOAD, 0, 0, 0, 0, 0, 0 };
    struct report r;

    CHECK(!bench_in_range(&m));
    check_refused(m, DAMAGED, 0);
    CHECK(alike(&m, load, sizeof load, &r));
    CHECK(r.refusal == DAMAGED && r.accepted == 0 && r.loads == 0);
    CHECK(alike(&m, load, 0, &r));
    CHECK(r.refusal == DAMAGED && r.accepted == 0);
}

/* Each byte as the phase of one task; if it is none, of the other too. */
static void check_phases(void)
{
    CHECK(S3 == 9 && S5 == 11 && S6 == 12 && S7 == 13 && R1 == 14 && V1 == 15);
    for (unsigned i = 0; i <= 255; i++) {
        bool exists = i <= 15 && i != 10;
        struct machine m = small();

        m.task[0].phase = (uint8_t)i;
        if (exists) {
            check_refused(m, BAD_GO, 1);
        } else {
            check_out_of_range(m);
            m.task[1].phase = (uint8_t)i;
            m.task[0].phase = IDLE;
            check_out_of_range(m);
        }
    }
}

static void check_damage_by_range(void)
{
    struct machine m;

    m = small(); m.cells = 0; check_out_of_range(m);
    m = small(); m.cells = 65; check_out_of_range(m);
    m = small(); m.tasks = 0; check_out_of_range(m);
    m = small(); m.tasks = 17; check_out_of_range(m);
    m = small(); m.nodes = 4; check_out_of_range(m);
    m = small(); m.nodes = 129; check_out_of_range(m);
    m = small(); m.node_of[0] = 5; check_out_of_range(m);
    m = small(); m.count[4] = 4; check_out_of_range(m);
    m = small(); m.task[1].cell = 1; check_out_of_range(m);
    m = small(); m.task[0].held = 5; check_out_of_range(m);
    m = small(); m.task[0].own = 5; check_out_of_range(m);
    m = small(); m.task[0].cursor = 5; check_out_of_range(m);
    m = small(); m.free = 6; check_out_of_range(m);
    m = small(); m.free = 255; check_out_of_range(m);

    /* the largest that are in range, and places nobody looks at */
    m = small();
    m.node_of[0] = 4;
    m.count[4] = 3;
    m.free = 5;
    m.task[0].phase = 15;
    m.task[1].held = m.task[1].own = m.task[1].cursor = 4;
    m.node_of[1] = m.count[5] = m.task[2].phase = 255;
    check_refused(m, BAD_GO, 1);
}

static void check_damage_by_step(void)
{
    static const uint8_t lowering[] = { L5, S3, S5, S7, R1 };
    struct machine m;

    for (size_t i = 0; i < sizeof lowering; i++) {
        m = small();
        m.task[1].phase = lowering[i];
        m.task[1].held = 3; /* count 0 */
        check_refused(m, DAMAGED, 1);
    }
    m = small();
    m.task[1].phase = L2;
    m.count[0] = 3; /* P+1 */
    check_refused(m, DAMAGED, 1);
}

static void check_run(runner *run)
{
    static const struct display none; /* no room: it never asks */
    uint8_t schedule[MAX_SCHEDULE + 1] = {
        0x45, 0x4E, 1, LOAD, 0, 0, 0, 0, 0, 0,
        0x45, 0x4E, 1, GO, 0, 0, 0, 0, 0, 0,
        0x45, 0x4E
    };
    static const uint8_t expected[] = {
        0x41, 0x4E, 0, 1, 0, 0, 0, 0,
        0x41, 0x4E, 0, 1, 0, 0, 0, 0,
        0x41, 0x4E, 20, 0, 0, 0, 0, 0,
        UNTOUCHED, UNTOUCHED
    };
    uint8_t replies[sizeof expected];
    struct machine m = small(), before = small();
    struct report r;

    memset(replies, UNTOUCHED, sizeof replies);

    /* order: damage, too long, no room */
    m.task[0].own = 5;
    r = run(&m, schedule, sizeof schedule, replies, 0, &none);
    CHECK(r.refusal == DAMAGED && r.accepted == 0);
    m = before;
    r = run(&m, schedule, sizeof schedule, replies, 0, &none);
    CHECK(r.refusal == TOO_LONG && r.accepted == 0);
    r = run(&m, schedule, 22, replies, 23, &none); /* the cut entry counts */
    CHECK(r.refusal == NO_ROOM && r.accepted == 0 && r.loads == 0);
    CHECK(same(&m, &before));
    CHECK(untouched(replies, sizeof replies));

    r = run(&m, schedule, 22, replies, 24, &none);
    CHECK(r.refusal == CUT && r.accepted == 2 && r.loads == 1 && r.load_steps == 1);
    CHECK(memcmp(replies, expected, sizeof expected) == 0);

    /* damage met by a step is the last reply and carries the task byte */
    m = before;
    m.count[0] = 3;
    memset(replies, UNTOUCHED, sizeof replies);
    memcpy(schedule + 20, schedule + 10, ENTRY_BYTES);
    r = run(&m, schedule, 30, replies, sizeof replies, &none);
    CHECK(r.refusal == DAMAGED && r.accepted == 2 && r.load_steps == 1);
    CHECK(replies[18] == DAMAGED && replies[19] == 1 && replies[24] == UNTOUCHED);

    r = run(&m, schedule, 0, NULL, 0, &none);
    CHECK(r.refusal == 0 && r.accepted == 0);
}

/* Stores without a link count as accepted and as nothing else. */
static void check_run_unlinked(void)
{
    static const uint8_t schedule[] = {
        0x45, 0x4E, 1, STORE, 0, 0, 9, 0, 0, 0,
        0x45, 0x4E, 0, STORE, 0, 0, 9, 0, 0, 0,
        0x45, 0x4E, 1, GO, 0, 0, 0, 0, 0, 0,
    };
    static const uint8_t expected[] = {
        0x41, 0x4E, 3, 1, 0, 0, 0, 0,
        0x41, 0x4E, 3, 0, 0, 0, 0, 0,
        0x41, 0x4E, 17, 1, 0, 0, 0, 0,
    };
    uint8_t replies[sizeof expected];
    struct machine m = small(), before = m;
    struct report r = bench_run(&m, schedule, sizeof schedule, replies,
                                sizeof replies);

    CHECK(r.accepted == 2 && r.refusal == BAD_GO && r.loads == 0);
    CHECK(r.load_steps == 0 && r.turned_back == 0 && r.swaps == 0);
    CHECK(memcmp(replies, expected, sizeof expected) == 0);
    CHECK(same(&m, &before));
}

/* S5 gives node 3 back, S6 takes node 4, a load begins, and another can't. */
static void check_display(runner *run, free_question *ask, size_t room)
{
    static const uint8_t schedule[] = {
        0x45, 0x4E, 1, GO, 0, 0, 0, 0, 0, 0,
        0x45, 0x4E, 1, GO, 0, 0, 0, 0, 0, 0,
        0x45, 0x4E, 1, LOAD, 0, 0, 0, 0, 0, 0,
        0x45, 0x4E, 1, LOAD, 0, 0, 0, 0, 0, 0,
    };
    static const uint8_t due[] = { 2, 1, 1, 1 };
    uint8_t shown[6] = { 99, 99, 99, 99, 99, 99 }, replies[32];
    struct display d = { ask, shown, room };
    struct machine m = facing(S5, 1, 1), damaged = facing(S5, 1, 6);
    struct report r;

    /* no entry is tried: the display has nothing to show */
    r = run(&damaged, schedule, sizeof schedule, replies, 32, &d);
    CHECK(r.refusal == DAMAGED && r.accepted == 0);
    r = run(&m, schedule, sizeof schedule, replies, 31, &d);
    CHECK(r.refusal == NO_ROOM && r.accepted == 0);
    for (size_t i = 0; i < sizeof shown; i++)
        CHECK(shown[i] == 99);

    r = run(&m, schedule, sizeof schedule, replies, 32, &d);
    CHECK(r.refusal == BAD_CALL && r.accepted == 3);
    for (size_t i = 0; i < sizeof shown; i++)
        CHECK(shown[i] == (i < room && i < sizeof due ? due[i] : 99));

    /* refused at the first entry, which is tried all the same */
    r = run(&m, schedule + 30, 10, replies, 32, &d);
    CHECK(r.refusal == BAD_CALL && r.accepted == 0);
    CHECK(shown[0] == (room > 0 ? 1 : 99));
}

static void check_displays(void)
{
    for (size_t room = 0; room <= 6; room++) {
        check_display(bench_run_shown, bench_free, room);
        check_display(bench_run_shown, bench_free_counted, room);
        check_display(bench_run_once, bench_free, room);
        check_display(bench_run_once, bench_free_counted, room);
    }
}

/* Tasks 0 and 3 are idle, 1 is linked to cell 0, and 2 is to lower a count of 0. */
static struct machine facing_refusals(void)
{
    struct machine m = fresh(2, 4, 10);

    call(&m, 1, LOAD, 0, 4);
    m.task[2].phase = L5;
    m.task[2].held = 9;
    return m;
}

/* Each refusal that an entry can meet but 20, with entries before and behind it. */
static void check_refused_entries(void)
{
    static const struct {
        uint8_t due, entry[ENTRY_BYTES];
    } refused[] = {
        { BAD_MARK, { 0x44, 0x4E, 0, LOAD } },
        { BAD_MARK, { 0x45, 0x4F, 0, LOAD } },
        { BAD_TASK, { 0x45, 0x4E, 4, LOAD } },
        { BAD_TASK, { 0x45, 0x4E, 255, LOAD } },
        { BAD_KIND, { 0x45, 0x4E, 0, KINDS } },
        { BAD_KIND, { 0x45, 0x4E, 0, 255 } },
        { NOT_ZERO, { 0x45, 0x4E, 2, GO, 0, 0, 0, 0, 0, 1 } },
        { NOT_ZERO, { 0x45, 0x4E, 0, LOAD, 0, 0, 1 } },
        { NOT_ZERO, { 0x45, 0x4E, 1, STORE, 0, 1 } },
        { NOT_ZERO, { 0x45, 0x4E, 1, RELEASE, 1 } },
        { NOT_ZERO, { 0x45, 0x4E, 1, VALIDATE, 1 } },
        { BAD_CELL, { 0x45, 0x4E, 0, LOAD, 2 } },
        { BAD_CELL, { 0x45, 0x4E, 1, STORE, 255 } },
        { BAD_CALL, { 0x45, 0x4E, 1, LOAD } },
        { BAD_CALL, { 0x45, 0x4E, 2, STORE } },
        { BAD_CALL, { 0x45, 0x4E, 0, RELEASE } },
        { BAD_CALL, { 0x45, 0x4E, 2, VALIDATE } },
        { BAD_GO, { 0x45, 0x4E, 0, GO } },
        { BAD_GO, { 0x45, 0x4E, 1, GO } },
        { DAMAGED, { 0x45, 0x4E, 2, GO } },
    };
    const struct machine m = facing_refusals();
    uint8_t schedule[3 * ENTRY_BYTES];
    struct report r;

    put_entry(schedule, 3, LOAD, 1, 0);
    put_entry(schedule + 2 * ENTRY_BYTES, 3, GO, 0, 0);
    for (size_t i = 0; i < sizeof refused / sizeof refused[0]; i++) {
        memcpy(schedule + ENTRY_BYTES, refused[i].entry, ENTRY_BYTES);
        CHECK(alike(&m, schedule, sizeof schedule, &r));
        CHECK(r.refusal == refused[i].due && r.accepted == 1 && r.loads == 1);
    }
}

/* A load and three steps of it, cut at every byte. */
static void check_cut_schedules(void)
{
    const struct machine m = small();
    uint8_t schedule[4 * ENTRY_BYTES];
    struct report r;

    for (size_t i = 0; i < 4; i++)
        put_entry(schedule + i * ENTRY_BYTES, 1, i == 0 ? LOAD : GO, 0, 0);
    for (size_t length = 0; length <= sizeof schedule; length++) {
        CHECK(alike(&m, schedule, length, &r));
        CHECK(r.refusal == (length % ENTRY_BYTES == 0 ? 0 : CUT));
        CHECK(r.accepted == length / ENTRY_BYTES);
    }
}

/* What walks met, so that no check that rests on them is empty. */
struct met {
    unsigned long accepted, damaged;
    unsigned accepted_in, damaged_in; /* a bit for each phase */
    unsigned long left_range;         /* by an accepted entry */
};

/* Tries an entry that is allowed.  False if it is refused. */
static bool meet(struct met *met, struct machine *m, const uint8_t *entry)
{
    unsigned phase = 1u << m->task[entry[2]].phase;
    struct answer a = bench_apply(m, entry, ENTRY_BYTES);

    if (is_refusal(a.number)) {
        CHECK(a.number == DAMAGED);
        met->damaged++;
        met->damaged_in |= phase;
        return false;
    }
    met->accepted++;
    met->accepted_in |= phase;
    met->left_range += !bench_in_range(m);
    return true;
}

/*
 * Writes a random schedule of entries that the phases allow, tried one by one.
 * Behind one that is refused there are more, which a run must not try.
 */
static void walk(uint8_t *schedule, size_t entries, struct machine m,
                 uint32_t *state, struct met *met)
{
    bool goes_on = true;

    for (size_t i = 0; i < entries; i++, schedule += ENTRY_BYTES) {
        put_allowed(schedule, &m, below(m.tasks, state), state);
        goes_on = goes_on && meet(met, &m, schedule);
    }
}

/* The longest there is, accepted whole. */
static void check_long_schedule(uint8_t cells, uint8_t tasks, uint8_t nodes)
{
    struct machine m = fresh(cells, tasks, nodes);
    uint8_t schedule[MAX_SCHEDULE];
    uint32_t state = 1;
    struct met met = { 0 };
    struct report r;

    walk(schedule, MAX_ENTRIES, m, &state, &met);
    CHECK(met.left_range == 0);
    CHECK(alike(&m, schedule, sizeof schedule, &r));
    CHECK(r.refusal == 0 && r.accepted == MAX_ENTRIES && r.swaps > 0);
}

static void check_long_schedules(void)
{
    check_long_schedule(1, 1, 3);
    check_long_schedule(1, 2, 5);
    check_long_schedule(2, 3, 8);
    check_long_schedule(2, 4, MAX_NODES);
    check_long_schedule(1, MAX_TASKS, 1 + 2 * MAX_TASKS);
    check_long_schedule(MAX_CELLS, MAX_TASKS, MAX_NODES);
}

/* Half of them so small that the tasks often meet on a cell or a node. */
static struct machine of_any_size(uint32_t *state)
{
    bool few = below(2, state) == 0;
    unsigned cells = 1 + below(few ? 3 : MAX_CELLS, state);
    unsigned tasks = 1 + below(few ? 4 : MAX_TASKS, state);
    unsigned least = cells + 2 * tasks;
    unsigned more = below(few ? 3 : MAX_NODES + 1 - least, state);

    return fresh((uint8_t)cells, (uint8_t)tasks, (uint8_t)(least + more));
}

static struct task any_task(const struct machine *m, uint32_t *state)
{
    struct task t = { 0 };

    do
        t.phase = below(PHASES, state);
    while (!is_phase(t.phase));
    t.cell = below(m->cells, state);
    t.value = chance(state);
    t.held = below(m->nodes, state);
    t.own = below(m->nodes, state);
    t.cursor = below(m->nodes, state);
    return t;
}

/* Every number is in its range, and no other law is kept. */
static struct machine any_in_range(uint32_t *state)
{
    struct machine m = of_any_size(state);

    memset(m.node_of, 255, sizeof m.node_of); /* past N nobody looks */
    memset(m.count, 255, sizeof m.count);
    memset(m.task, 255, sizeof m.task);
    m.free = below(m.nodes + 1, state);
    for (unsigned i = 0; i < m.cells; i++)
        m.node_of[i] = below(m.nodes, state);
    for (unsigned i = 0; i < m.nodes; i++) {
        m.value[i] = chance(state);
        m.count[i] = below(m.tasks + 2, state);
    }
    for (unsigned p = 0; p < m.tasks; p++)
        m.task[p] = any_task(&m, state);
    return m;
}

/*
 * Machines that no setup leads to.  They are in range, an accepted entry keeps
 * them so, and a run that tests once relies on nothing else.  The steps still
 * refuse to take a count or the total too far.
 */
static void check_unreached(void)
{
    enum { MACHINES = 4000, ENTRIES = 60 };
    const unsigned any = ((1u << PHASES) - 1) & ~(1u << 10); /* 10 is no phase */
    const unsigned counting = 1u << L2 | 1u << L5 | 1u << S3 | 1u << S5 | 1u << S6 |
                              1u << S7 | 1u << R1;
    uint8_t schedule[ENTRIES * ENTRY_BYTES];
    uint32_t state = 1;
    unsigned differ = 0;
    struct met met = { 0 };
    struct report r;

    for (unsigned i = 0; i < MACHINES; i++) {
        struct machine m = any_in_range(&state);
        size_t cut = i % 4 == 0 ? below(ENTRY_BYTES, &state) : 0;

        walk(schedule, ENTRIES, m, &state, &met);
        differ += !alike(&m, schedule, sizeof schedule - cut, &r);
    }
    CHECK(met.left_range == 0);
    CHECK(differ == 0);
    CHECK(met.accepted > 10000 && met.accepted_in == any);
    CHECK(met.damaged > 1000 && met.damaged_in == counting);
}

static void check_holders(void)
{
    struct task list[MAX_TASKS + 1];
    unsigned holders = 99;

    memset(list, 0, sizeof list);
    for (unsigned i = 0; i <= MAX_TASKS; i++) {
        list[i].phase = (uint8_t)i;
        list[i].held = 127;
    }
    /* all but idle, L1, L2, S6 and 10, which is no phase */
    CHECK(bench_holders(list, MAX_TASKS, 127, &holders) == 0 && holders == 11);
    for (unsigned i = 0; i <= MAX_TASKS; i++) {
        unsigned due = (i >= 3 && i <= 9) || i == 11 || (i >= 13 && i <= 15);

        CHECK(bench_holders(list + i, 1, 127, &holders) == 0 && holders == due);
    }
    CHECK(bench_holders(list, MAX_TASKS, 126, &holders) == 0 && holders == 0);
    CHECK(bench_holders(list, 4, 127, &holders) == 0 && holders == 1);
    holders = 99;
    CHECK(bench_holders(list, MAX_TASKS + 1, 0, &holders) == BAD_QUESTION);
    CHECK(bench_holders(list, 0, 128, &holders) == BAD_QUESTION);
    CHECK(holders == 99);
}

int main(void)
{
    check_setups();
    check_case_3();
    check_case_9();
    check_case_10();
    check_case_11();
    check_case_12();
    check_release_in_store();
    check_changes();
    check_fresh_totals();
    check_free_in_case_10();
    check_free_at_s5();
    check_free_raised();
    check_free_question();
    CHECK(answered_by_sizes());
    check_kept_free();
    check_stores_alone();
    check_validates();
    check_early_validates();
    check_case_5();
    check_case_6();
    check_stale_link();
    check_during_store();
    check_stores();
    check_store_orders(IDLE);
    check_store_orders(LINKED);
    CHECK(never_18());
    check_phases();
    check_damage_by_range();
    check_damage_by_step();
    check_run(bench_run_shown);
    check_run(bench_run_once);
    check_run_unlinked();
    check_displays();
    check_refused_entries();
    check_cut_schedules();
    check_long_schedules();
    check_unreached();
    check_holders();
    if (failed == 0)
        printf("check: all hold\n");
    return failed == 0 ? 0 : 1;
}
