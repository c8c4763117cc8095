/*
 * speed: the proved run beside the second program's, in nanoseconds an entry,
 * and what it costs to ask after every entry how many nodes are free.
 *
 * All start from the same bytes, test the ranges once, at the run's start, and
 * write the same replies.  Each call sets its machine up anew; the time of the
 * same setup with an empty schedule is taken off.  Nothing passes or fails.
 *
 * A processor learns the branches of a schedule that is run over and over, and
 * those of a short one sooner.  So ten short ones are taken in turn, with as many
 * branches as one long one.
 */
#include "../random/driver.h"
#include "../second/bench.h"
#include "../second/chance.h"

#include <kemilunda.h>
#include <stdlib.h>
#include <string.h>

enum {
    MOST_SCHEDULES = 10, /* in one sample */
    MOST_SAMPLES = 1000,
    FEWEST_SAMPLES = 20,
    SAMPLE_MILLIS = 500, /* for one way and length, once there are enough samples */
    COUNTS = 200000 /* of the nodes alone, in one sample */
};

struct input {
    uint8_t bytes[MAX_SETUP + MAX_SCHEDULE];
    size_t length;
    size_t entries;
};

struct output {
    uint8_t replies[REPLY_BYTES * MAX_ENTRIES];
    uint8_t free_nodes[MAX_ENTRIES];
    struct report report;
};

typedef void runner(const struct input *in, struct output *out);

static void take_numbers(struct output *out,
                         const uint32_t numbers[KEMILUNDA_NUMBERS])
{
    out->report = (struct report){
        .accepted = numbers[KEMILUNDA_ACCEPTED],
        .refusal = numbers[KEMILUNDA_REFUSAL],
        .loads = numbers[KEMILUNDA_LOADS],
        .load_steps = numbers[KEMILUNDA_LOAD_STEPS],
        .turned_back = numbers[KEMILUNDA_TURNED_BACK],
        .swaps = numbers[KEMILUNDA_SWAPS],
    };
}

static void run_proved(const struct input *in, struct output *out)
{
    uint32_t numbers[KEMILUNDA_NUMBERS];

    if (kemilunda_run(in->bytes, in->length, out->replies, sizeof out->replies,
                      numbers) != 0)
        abort();
    take_numbers(out, numbers);
}

static void ask_proved(const struct input *in, struct output *out)
{
    uint32_t numbers[KEMILUNDA_NUMBERS];

    if (kemilunda_run_free(in->bytes, in->length, out->replies,
                           sizeof out->replies, out->free_nodes,
                           sizeof out->free_nodes, numbers) != 0)
        abort();
    take_numbers(out, numbers);
}

static void show_second(const struct input *in, struct output *out,
                        struct display d)
{
    struct machine m;
    size_t used;

    if (bench_setup(&m, in->bytes, in->length, &used) != 0)
        abort();
    out->report = bench_run_once(&m, in->bytes + used, in->length - used,
                                 out->replies, sizeof out->replies, &d);
}

static void run_second(const struct input *in, struct output *out)
{
    show_second(in, out, (struct display){ .room = 0 });
}

static void ask_second(const struct input *in, struct output *out)
{
    show_second(in, out, (struct display){ bench_free, out->free_nodes,
                                           sizeof out->free_nodes });
}

static void count_second(const struct input *in, struct output *out)
{
    show_second(in, out, (struct display){ bench_free_counted, out->free_nodes,
                                           sizeof out->free_nodes });
}

/*
 * The ways to do the work, in the order in which they are sampled.  Others stand
 * between a run and the same run again, which would find its branches learnt.
 */
enum {
    PROVED, SECOND,
    TABLE_WAYS,
    PROVED_ASKED = TABLE_WAYS, SECOND_ASKED,
    PROVED_AGAIN, SECOND_AGAIN,
    SECOND_COUNTED,
    WAYS
};

static const struct {
    runner *run;
    bool asks;
} WAY[WAYS] = {
    [PROVED] = { run_proved, false },
    [PROVED_AGAIN] = { run_proved, false },
    [PROVED_ASKED] = { ask_proved, true },
    [SECOND] = { run_second, false },
    [SECOND_AGAIN] = { run_second, false },
    [SECOND_ASKED] = { ask_second, true },
    [SECOND_COUNTED] = { count_second, true },
};

/* Schedules that are accepted whole -------------------------------------- */

struct sizes {
    uint8_t cells, tasks, nodes;
};

/* An entry that the task's phase allows: mostly steps, seven stores a release. */
static void put_entry(uint8_t *entry, const struct machine *m, uint32_t *state)
{
    uint8_t task = (uint8_t)(chance(state) % m->tasks);
    const struct task *t = &m->task[task];

    memset(entry, 0, ENTRY_BYTES);
    entry[0] = 0x45;
    entry[1] = 0x4E;
    entry[2] = task;
    if (t->phase == IDLE) {
        entry[3] = LOAD;
        entry[4] = (uint8_t)(chance(state) % m->cells);
    } else if (t->phase == LINKED && chance(state) % 8 == 0) {
        entry[3] = RELEASE;
    } else if (t->phase == LINKED) {
        entry[3] = STORE;
        entry[4] = t->cell;
        entry[6] = (uint8_t)chance(state);
    }
}

static void make_input(struct input *in, struct sizes s, size_t entries,
                       uint32_t seed)
{
    struct machine m;
    uint32_t state = seed;
    size_t at;

    memset(in, 0, sizeof *in);
    memcpy(in->bytes, (uint8_t[]){ 0x53, 0x55, s.cells, s.tasks, s.nodes }, 5);
    if (bench_setup(&m, in->bytes, sizeof in->bytes, &at) != 0)
        abort();
    for (size_t i = 0; i < entries; i++, at += ENTRY_BYTES) {
        put_entry(in->bytes + at, &m, &state);
        if (is_refusal(bench_apply(&m, in->bytes + at, ENTRY_BYTES).number))
            abort();
    }
    in->length = at;
    in->entries = entries;
}

/* Lengths of a schedule; with no entries there is the setup alone. */
enum { LONG, SHORT, NONE, LENGTHS };

static const struct {
    const char *name;
    size_t entries, schedules;
} LENGTH[LENGTHS] = {
    [LONG] = { "6,553", MAX_ENTRIES, 1 },
    [SHORT] = { "650", 650, MOST_SCHEDULES },
    [NONE] = { "none", 0, 1 },
};

/* Schedules of one length for one setup, and the best time of each way. */
struct work {
    size_t entries, schedules;
    struct input inputs[MOST_SCHEDULES];
    double best[WAYS]; /* nanoseconds of one schedule, its setup included */
};

static void make_work(struct work *work, struct sizes s, int length)
{
    work->entries = LENGTH[length].entries;
    work->schedules = LENGTH[length].schedules;
    for (size_t i = 0; i < work->schedules; i++)
        make_input(&work->inputs[i], s, work->entries, (uint32_t)i + 1);
}

/* Whether all ways do the same ------------------------------------------- */

static bool same_work(const struct output *a, const struct output *b,
                      size_t entries, bool asked)
{
    return a->report.accepted == entries &&
           memcmp(&a->report, &b->report, sizeof a->report) == 0 &&
           memcmp(a->replies, b->replies, REPLY_BYTES * entries) == 0 &&
           (!asked || memcmp(a->free_nodes, b->free_nodes, entries) == 0);
}

static void check_input(const struct input *in, size_t ways)
{
    static struct output due, got;

    count_second(in, &due);
    for (size_t way = 0; way < ways; way++) {
        memset(&got, 0, sizeof got);
        WAY[way].run(in, &got);
        if (!same_work(&got, &due, in->entries, WAY[way].asks)) {
            fprintf(stderr, "speed: two ways did not do the same work\n");
            exit(2);
        }
    }
}

/* Time ------------------------------------------------------------------- */

/* Nanoseconds of one schedule: all in turn, so often that the clock can tell. */
static double sample(runner *run, const struct work *work)
{
    static struct output out;
    size_t about = work->schedules * (work->entries + 7); /* a setup is some seven */
    size_t passes = 1 + MAX_ENTRIES / about;
    double began = seconds();

    for (size_t i = 0; i < passes; i++)
        for (size_t j = 0; j < work->schedules; j++)
            run(&work->inputs[j], &out);
    return (seconds() - began) * 1e9 / (double)(passes * work->schedules);
}

/*
 * The best of each.  Taken in turn, so that what disturbs one disturbs all, and
 * so that the others come between a schedule and itself.
 */
static void take_samples(struct work *works, size_t count, size_t ways)
{
    double until = seconds() + (double)(count * ways) * SAMPLE_MILLIS / 1000;

    for (int i = 0; i < FEWEST_SAMPLES || (i < MOST_SAMPLES && seconds() < until); i++) {
        for (size_t j = 0; j < count * ways; j++) {
            struct work *work = &works[j / ways];
            size_t way = j % ways;
            double took = sample(WAY[way].run, work);

            if (i == 0 || took < work->best[way])
                work->best[way] = took;
        }
    }
}

static void time_works(struct work *works, size_t count, size_t ways)
{
    for (size_t i = 0; i < count; i++)
        for (size_t j = 0; j < works[i].schedules; j++)
            check_input(&works[i].inputs[j], ways);
    take_samples(works, count, ways);
}

/* Nanoseconds an entry. */
static double each(const struct work *work, const struct work *setup, size_t way)
{
    return (work->best[way] - setup->best[way]) / (double)work->entries;
}

/* The run alone ---------------------------------------------------------- */

enum { SETUPS = 3 };

struct measured {
    char name[sizeof "255/255/255"]; /* cells/tasks/nodes */
    double ns[LENGTHS][TABLE_WAYS];  /* of an entry; of the setup, if there are none */
};

static void print_times(const struct measured *m, int length)
{
    const double *ns = m->ns[length];

    printf("  %-12s %9s %9.1f %9.1f %9.2f\n", m->name, LENGTH[length].name,
           ns[PROVED], ns[SECOND], ns[PROVED] / ns[SECOND]);
}

static void print_growth(const struct measured *m)
{
    const double *from = m->ns[SHORT], *to = m->ns[LONG];

    printf("  %-12s %9s %9.2f %9.2f\n", m->name, "", to[PROVED] / from[PROVED],
           to[SECOND] / from[SECOND]);
}

/* The largest of the setups' times over the smallest. */
static void print_spread(const struct measured m[SETUPS], int length)
{
    double least = m[0].ns[length][PROVED], most = least;

    for (int i = 1; i < SETUPS; i++) {
        double ns = m[i].ns[length][PROVED];

        least = ns < least ? ns : least;
        most = ns > most ? ns : most;
    }
    printf("  %-12s %9s %9.2f\n", "", LENGTH[length].name, most / least);
}

static void print_table(const struct measured m[SETUPS])
{
    printf("a run, ns an entry\n");
    printf("  %-12s %9s %9s %9s %9s\n", "setup", "entries", "proved", "C", "ratio");
    for (int i = 0; i < SETUPS; i++) {
        print_times(&m[i], LONG);
        print_times(&m[i], SHORT);
    }
    printf("growth from 650 to 6,553 entries\n");
    for (int i = 0; i < SETUPS; i++)
        print_growth(&m[i]);
    printf("the slowest of the three setups as a multiple of the quickest\n");
    print_spread(m, LONG);
    print_spread(m, SHORT);
    printf("the setup alone, ns\n");
    for (int i = 0; i < SETUPS; i++)
        print_times(&m[i], NONE);
    fflush(stdout);
}

static void take_times(struct measured *m, struct sizes s, const struct work *works)
{
    snprintf(m->name, sizeof m->name, "%u/%u/%u", s.cells, s.tasks, s.nodes);
    for (size_t way = 0; way < TABLE_WAYS; way++) {
        m->ns[NONE][way] = works[NONE].best[way];
        m->ns[SHORT][way] = each(&works[SHORT], &works[NONE], way);
        m->ns[LONG][way] = each(&works[LONG], &works[NONE], way);
    }
}

static void measure(const struct sizes setups[SETUPS])
{
    static struct work works[SETUPS * LENGTHS];
    struct measured m[SETUPS];

    for (int i = 0; i < SETUPS * LENGTHS; i++)
        make_work(&works[i], setups[i / LENGTHS], i % LENGTHS);
    time_works(works, SETUPS * LENGTHS, TABLE_WAYS);
    for (int i = 0; i < SETUPS; i++)
        take_times(&m[i], setups[i], works + i * LENGTHS);
    print_table(m);
}

/* The question ----------------------------------------------------------- */

/* Nanoseconds to count the free nodes below K once, with nothing around it. */
static double count_alone(const struct input *in)
{
    /* fetched anew for each count, so that no compiler makes do with one */
    free_question *volatile ask = bench_free_counted;
    struct machine m;
    size_t used;
    unsigned found, sum = 0;
    double best = 0;

    if (bench_setup(&m, in->bytes, in->length, &used) != 0)
        abort();
    for (int i = 0; i < FEWEST_SAMPLES; i++) {
        double began = seconds(), took;

        for (int j = 0; j < COUNTS; j++) {
            if (ask(&m, &found) != 0)
                abort();
            sum += found;
        }
        took = (seconds() - began) * 1e9 / COUNTS;
        best = i == 0 || took < best ? took : best;
    }
    if (sum != (unsigned)m.free * COUNTS * FEWEST_SAMPLES)
        abort();
    return best;
}

static void print_question(const char *what, double without, double with)
{
    printf("  %-44s %9.1f %9.1f %9.1f\n", what, without, with, with - without);
}

static void measure_question(struct sizes s)
{
    static struct work works[2]; /* the entries, and the setup alone */
    double ns[WAYS];

    make_work(&works[0], s, LONG);
    make_work(&works[1], s, NONE);
    time_works(works, 2, WAYS);
    for (size_t way = 0; way < WAYS; way++)
        ns[way] = each(&works[0], &works[1], way);

    printf("free nodes asked for after each of 6,553 entries, ns an entry: "
           "setup %u/%u/%u\n", s.cells, s.tasks, s.nodes);
    printf("  %-44s %9s %9s %9s\n", "", "not asked", "asked", "more");
    print_question("proved, from the kept total", ns[PROVED], ns[PROVED_ASKED]);
    print_question("second, from the kept total", ns[SECOND], ns[SECOND_ASKED]);
    print_question("second, counting the nodes below K", ns[SECOND],
                   ns[SECOND_COUNTED]);
    printf("  %-44s %9s %9s %9.1f\n", "counting them alone, no run around it",
           "", "", count_alone(&works[1].inputs[0]));
    print_question("noise: proved, asked neither time", ns[PROVED],
                   ns[PROVED_AGAIN]);
    print_question("noise: second, asked neither time", ns[SECOND],
                   ns[SECOND_AGAIN]);
    fflush(stdout);
}

int main(void)
{
    static const struct sizes setups[SETUPS] = {
        { MAX_CELLS, MAX_TASKS, MAX_NODES },
        { 2, 3, 8 }, { 1, 2, 5 }, /* the least pools */
    };

    measure(setups);
    measure_question(setups[0]);
    measure_question(setups[SETUPS - 1]);
    return 0;
}
