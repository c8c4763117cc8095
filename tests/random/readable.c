#include "readable.h"

#include "../second/bench.h"

const char *phase_name(unsigned phase)
{
    static const char *const names[PHASES] = {
        "idle", "L1", "L2", "L3", "L4", "L5", "linked",
        "S1", "S2", "S3", [S5] = "S5", "S6", "S7", "R1", "V1"
    };

    return is_phase(phase) ? names[phase] : "?";
}

static unsigned long number32(const uint8_t *bytes)
{
    return (unsigned long)bytes[0] | (unsigned long)bytes[1] << 8 |
           (unsigned long)bytes[2] << 16 | (unsigned long)bytes[3] << 24;
}

static void print_bytes(FILE *out, const uint8_t *bytes, size_t length)
{
    fputs(" [", out);
    for (size_t i = 0; i < length; i++)
        fprintf(out, "%s%02X", i == 0 ? "" : " ", bytes[i]);
    fputs("]", out);
}

static void print_call(FILE *out, const uint8_t *entry)
{
    fprintf(out, "task %u ", entry[2]);
    switch (entry[3]) {
    case GO:
        fputs("go", out);
        break;
    case LOAD:
        fprintf(out, "load cell %u", entry[4]);
        break;
    case STORE:
        fprintf(out, "store %lu to cell %u", number32(entry + 6), entry[4]);
        break;
    case RELEASE:
        fputs("release", out);
        break;
    case VALIDATE:
        fputs("validate", out);
        break;
    default:
        fprintf(out, "kind %u", entry[3]);
    }
}

static void print_outcome(FILE *out, const struct machine *m, struct answer a)
{
    uint8_t now = m->task[a.task].phase;

    if (a.number == LOADED)
        fprintf(out, ": load gives %lu", (unsigned long)a.value);
    else if (a.number == TOOK)
        fputs(": store took", out);
    else if (a.number == LOST)
        fputs(a.met == S7 ? ": store lost" : ": no link there, store lost", out);
    else if (a.number == RELEASED)
        fputs(": released", out);
    else if (a.number == GOOD)
        fputs(": good", out);
    else if (a.number == GONE)
        fputs(": gone", out);
    else if (a.met == L3 && now == L5)
        fputs(": turned back", out);
    else if (a.met == S2 && now == S3)
        fputs(": swap took", out);
}

static struct answer print_entry(FILE *out, struct machine *m,
                                 const uint8_t *entry, size_t left)
{
    struct answer a = bench_apply(m, entry, left);

    if (left < ENTRY_BYTES)
        fputs("cut entry", out);
    else
        print_call(out, entry);
    if (is_refusal(a.number)) {
        fprintf(out, ": refused %u", a.number);
        print_bytes(out, entry, left < ENTRY_BYTES ? left : ENTRY_BYTES);
    } else {
        if (entry[3] == GO)
            fprintf(out, " (%s)", phase_name(a.met));
        print_outcome(out, m, a);
    }
    fputc('\n', out);
    return a;
}

static void print_setup(FILE *out, const struct machine *m)
{
    fprintf(out, "setup: N %u, P %u, K %u, values", m->cells, m->tasks,
            m->nodes);
    for (unsigned i = 0; i < m->cells; i++)
        fprintf(out, " %lu", (unsigned long)m->value[i]);
    fputc('\n', out);
}

void readable(FILE *out, const uint8_t *input, size_t length, size_t last)
{
    struct machine m;
    size_t at;
    unsigned refusal = bench_setup(&m, input, length, &at);

    if (refusal != 0) {
        fprintf(out, "setup of %zu bytes: refused %u", length, refusal);
        print_bytes(out, input, length < SETUP_HEAD ? length : SETUP_HEAD);
        fputc('\n', out);
        return;
    }
    print_setup(out, &m);
    if (length - at > MAX_SCHEDULE) {
        fprintf(out, "schedule of %zu bytes: refused 23\n", length - at);
        return;
    }
    for (size_t i = 1; at < length && i <= last; i++) {
        fprintf(out, "%zu: ", i);
        if (is_refusal(print_entry(out, &m, input + at, length - at).number))
            last = i; /* a run stops here */
        at += length - at < ENTRY_BYTES ? length - at : ENTRY_BYTES;
    }
    if (at < length)
        fprintf(out, "(%zu bytes more)\n", length - at);
}
