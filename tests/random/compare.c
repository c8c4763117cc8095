/*
 * compare PROGRAM FIRST_SEED COUNT KEEP_DIR
 *
 * Runs PROGRAM on one random input a seed and compares what it prints, byte
 * for byte, with the second program's text, in which no entry may be answered
 * 18.  Exit status: 0 all equal and everything reachable met, 1 differences,
 * 2 could not run, 3 all equal but something reachable never met.
 */
#define _POSIX_C_SOURCE 200809L

#include "../second/bench.h"
#include "coverage.h"
#include "driver.h"
#include "generate.h"
#include "readable.h"

#include <errno.h>
#include <fcntl.h>
#include <poll.h>
#include <signal.h>
#include <stdlib.h>
#include <string.h>
#include <sys/wait.h>
#include <unistd.h>

enum {
    MAX_TEXT = 32 * (MAX_ENTRIES + 3), /* no line is longer than 32 bytes */
    PATIENCE = 60,                     /* seconds before a program is given up */
    MAX_HANGS = 3,                     /* then the rest would hang as well */
    SHOWN_BYTES = 200,                 /* of a differing line */
    FULL_LISTINGS = 10                 /* later differences are shown without one */
};

static const char HANGS[] = "no end in time";

struct text {
    char bytes[MAX_TEXT + 1]; /* one more, to see a text that is too long */
    size_t length;
};

/* The program under test ------------------------------------------------- */

struct child {
    pid_t pid;
    int to;   /* its standard input, -1 once closed */
    int from; /* its standard output */
};

static struct child start(const char *program)
{
    int in[2], out[2];
    struct child c;

    if (pipe(in) != 0 || pipe(out) != 0)
        give_up("compare: pipe");
    c.pid = fork();
    if (c.pid < 0)
        give_up("compare: fork");
    if (c.pid == 0) {
        signal(SIGPIPE, SIG_DFL);
        if (dup2(in[0], STDIN_FILENO) < 0 || dup2(out[1], STDOUT_FILENO) < 0)
            _exit(127);
        close(in[0]);
        close(in[1]);
        close(out[0]);
        close(out[1]);
        execl(program, program, (char *)NULL);
        _exit(127);
    }
    close(in[0]);
    close(out[1]);
    c.to = in[1];
    c.from = out[0];
    /* never block on writing: the program may be waiting for us to read */
    if (fcntl(c.to, F_SETFL, O_NONBLOCK) != 0)
        give_up("compare: fcntl");
    return c;
}

static void close_input(struct child *c)
{
    close(c->to);
    c->to = -1;
}

/* Writes one more piece; closes at the end or when nobody reads any more. */
static void feed(struct child *c, const uint8_t *input, size_t length,
                 size_t piece, size_t *fed)
{
    size_t size = length - *fed < piece ? length - *fed : piece;
    ssize_t wrote = size > 0 ? write(c->to, input + *fed, size) : 0;

    if (wrote > 0)
        *fed += (size_t)wrote;
    if (*fed == length || (wrote < 0 && errno != EAGAIN && errno != EINTR))
        close_input(c);
}

/* Reads what there is; false at the end, or when it can't be the text. */
static bool collect(struct child *c, struct text *t)
{
    ssize_t got = read(c->from, t->bytes + t->length,
                       sizeof t->bytes - t->length);

    if (got > 0)
        t->length += (size_t)got;
    if (got < 0 && errno == EINTR)
        return true;
    return got > 0 && t->length < sizeof t->bytes;
}

/*
 * The program's text for an input that is fed in pieces.  Returns NULL, or
 * what went wrong.  Document 01 names no exit status, so none is asked for.
 */
static const char *run_program(const char *program, const uint8_t *input,
                               size_t length, size_t piece, struct text *t)
{
    struct child c = start(program);
    double until = seconds() + PATIENCE;
    const char *wrong = NULL;
    size_t fed = 0;
    int status;

    t->length = 0;
    for (bool open = true; open;) {
        struct pollfd ends[2] = { { c.from, POLLIN, 0 }, { c.to, POLLOUT, 0 } };

        if (poll(ends, 2, 1000) < 0 && errno != EINTR)
            give_up("compare: poll");
        if (ends[1].revents != 0)
            feed(&c, input, length, piece, &fed);
        if (ends[0].revents != 0)
            open = collect(&c, t);
        if (seconds() > until) {
            kill(c.pid, SIGKILL);
            wrong = HANGS;
            open = false;
        }
    }
    if (c.to >= 0)
        close_input(&c);
    close(c.from);
    while (waitpid(c.pid, &status, 0) < 0)
        if (errno != EINTR)
            give_up("compare: waitpid");
    if (WIFEXITED(status) && WEXITSTATUS(status) == 127) {
        fprintf(stderr, "compare: %s can't be run\n", program);
        exit(2);
    }
    if (wrong == NULL && WIFSIGNALED(status))
        wrong = "ended by a signal";
    return wrong;
}

/* The second program, in this process ------------------------------------ */

static void run_second(const uint8_t *input, size_t length, struct text *t)
{
    FILE *out = fmemopen(t->bytes, sizeof t->bytes, "w");

    if (out == NULL)
        give_up("compare: fmemopen");
    bench_print(out, input, length);
    if (fflush(out) != 0)
        give_up("compare: second program");
    t->length = (size_t)ftell(out);
    fclose(out);
}

/* Differences ------------------------------------------------------------ */

static void print_line(const char *who, const struct text *t, size_t start)
{
    printf("  %-8s ", who);
    if (start >= t->length) {
        printf("(nothing more)\n");
        return;
    }
    putchar('"');
    for (size_t i = start; i < t->length && i - start < SHOWN_BYTES; i++) {
        unsigned char byte = (unsigned char)t->bytes[i];

        if (byte == '\n') { /* shown, because its lack is a difference too */
            printf("\\n");
            break;
        }
        if (byte < ' ' || byte > '~')
            printf("\\x%02X", byte);
        else
            putchar(byte);
    }
    printf("\"\n");
}

/* Prints the first differing line; returns its number, counted from 1. */
static size_t print_difference(const struct text *program,
                               const struct text *second)
{
    size_t shorter = program->length < second->length ? program->length
                                                      : second->length;
    size_t at = 0, line = 1, start = 0;

    while (at < shorter && program->bytes[at] == second->bytes[at]) {
        if (program->bytes[at++] == '\n') {
            line++;
            start = at;
        }
    }
    printf("  line %zu:\n", line);
    print_line("program", program, start);
    print_line("second", second, start);
    return line;
}

static bool same(const struct text *a, const struct text *b)
{
    return a->length == b->length && memcmp(a->bytes, b->bytes, a->length) == 0;
}

/* The first line that gives 18, counted from 1; 0 where none does. */
static size_t line_of_18(const struct text *t)
{
    size_t line = 1, word = 1, start = 0;

    for (size_t i = 0; i < t->length; i++) {
        char byte = t->bytes[i];
        bool setup = word == 2 && t->bytes[0] == 's'; /* its only line */

        if (byte != ' ' && byte != '\n')
            continue;
        if ((word == 3 || setup) && i - start == 2 &&
            memcmp(t->bytes + start, "18", 2) == 0)
            return line;
        start = i + 1;
        word = byte == ' ' ? word + 1 : 1;
        line += byte == '\n';
    }
    return 0;
}

/* Some seeds feed the program in small pieces, the rest as fast as it goes. */
static size_t piece_size(uint64_t seed)
{
    return seed % 4 == 0 ? 1 + seed / 4 % 23 : 65536;
}

struct tally {
    unsigned long inputs;
    unsigned long differences;
    unsigned long hangs;
    struct coverage coverage;
};

static void compare(const char *program, uint64_t seed, const char *dir,
                    struct tally *tally)
{
    static uint8_t input[MAX_GENERATED];
    static struct text first, second;
    size_t length = generate(seed, input, sizeof input);
    const char *wrong;
    size_t line;

    tally->inputs++;
    cover(&tally->coverage, input, length);
    run_second(input, length, &second);
    wrong = run_program(program, input, length, piece_size(seed), &first);
    line = line_of_18(&second); /* where the texts are equal, of both */
    if (wrong == NULL && same(&first, &second) && line == 0)
        return;

    tally->differences++;
    tally->hangs += wrong == HANGS;
    if (wrong == NULL && same(&first, &second)) {
        printf("seed %llu: both give 18\n", (unsigned long long)seed);
    } else {
        printf("seed %llu: %s\n", (unsigned long long)seed,
               wrong != NULL ? wrong : "the texts differ");
        line = print_difference(&first, &second);
    }

    keep_input(dir, seed, input, length);
    /* entry n is on line n+1; what comes later had no part in it */
    if (tally->differences <= FULL_LISTINGS)
        readable(stdout, input, length, line - 1);
    fflush(stdout);
}

/* ------------------------------------------------------------------------ */

int main(int argc, char **argv)
{
    static struct tally tally;
    uint64_t first, count;

    if (argc != 5 || !number_argument(argv[2], &first) ||
        !number_argument(argv[3], &count)) {
        fprintf(stderr, "usage: compare PROGRAM FIRST_SEED COUNT KEEP_DIR\n");
        return 2;
    }
    if (access(argv[1], X_OK) != 0)
        give_up(argv[1]);
    make_folder(argv[4]);
    signal(SIGPIPE, SIG_IGN); /* a program may stop reading early */

    double began = seconds();

    for (uint64_t i = 0; i < count && tally.hangs < MAX_HANGS; i++)
        compare(argv[1], first + i, argv[4], &tally);

    double took = seconds() - began;
    unsigned never = coverage_print(stdout, &tally.coverage);

    printf("%.1f seconds, %.0f inputs a second, %.1f MB of input\n", took,
           took > 0 ? (double)tally.inputs / took : 0,
           (double)tally.coverage.bytes / 1e6);
    if (never > 0)
        printf("coverage: %u reachable things never met\n", never);
    if (tally.inputs < count)
        printf("stopped early: the program hangs\n");
    printf("compare: %lu inputs, %lu differences\n", tally.inputs,
           tally.differences);
    if (fflush(stdout) != 0)
        return 2;
    return tally.differences > 0 ? 1 : never > 0 ? 3 : 0;
}
