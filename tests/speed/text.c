/*
 * speed_text: the proved import and export of the longest schedule beside three
 * in plain C, in nanoseconds a line.
 *
 * The second program's goes over its input twice or more, so that a refusal
 * writes nothing, as the proved one's does.  The other two go over it once and
 * write as they go: a loop that tests every byte, and the C library's own
 * sscanf and snprintf, which also take lines that are to be refused.  Nothing
 * passes or fails.
 */
#include "../random/driver.h"
#include "../second/bytes.h"
#include "../text/ways.h"

#include <kemilunda.h>
#include <stdlib.h>
#include <string.h>

enum {
    MOST_SAMPLES = 1000,
    FEWEST_SAMPLES = 20,
    SAMPLE_MILLIS = 500 /* for one way, once there are enough samples */
};

typedef uint32_t converter(const uint8_t *input, size_t length, uint8_t *output,
                           size_t room, size_t *written);

/* A loop ----------------------------------------------------------------- */

/* The number at *at, which goes on behind it; above most where it is too large. */
static uint64_t loop_number(const uint8_t **at, const uint8_t *end, uint64_t most,
                            bool *good)
{
    const uint8_t *first = *at, *p = first;
    uint64_t number = 0;

    for (; p < end && *p >= '0' && *p <= '9'; p++)
        if (number <= most)
            number = 10 * number + (uint64_t)(*p - '0');
    *good = *good && p > first && (*first != '0' || p == first + 1);
    *at = p;
    return number;
}

static uint32_t loop_import(const uint8_t *text, size_t length, uint8_t *entries,
                            size_t room, size_t *written)
{
    const uint8_t *at = text, *end = text + length;
    uint8_t *entry = entries;

    for (; at < end; entry += ENTRY_BYTES) {
        uint64_t numbers[LINE_NUMBERS];
        bool good = true;

        for (size_t i = 0; i < LINE_NUMBERS; i++) {
            numbers[i] = loop_number(&at, end, i < 3 ? 255 : UINT32_MAX, &good);
            good = good && at < end && *at++ == (i < 3 ? ',' : '\n');
            if (!good)
                return BAD_FORM;
        }
        if ((numbers[0] | numbers[1] | numbers[2]) > 255 || numbers[3] > UINT32_MAX)
            return TOO_LARGE;
        if (room - (size_t)(entry - entries) < ENTRY_BYTES)
            return SHORT_OUTPUT;
        memcpy(entry, ENTRY_MARK, sizeof ENTRY_MARK);
        for (size_t i = 0; i < 3; i++)
            entry[2 + i] = (uint8_t)numbers[i];
        entry[5] = 0;
        write32(entry + 6, (uint32_t)numbers[3]);
    }
    *written = (size_t)(entry - entries);
    return 0;
}

/* A number and the byte behind it. */
static uint8_t *loop_digits(uint8_t *at, uint32_t number, uint8_t behind)
{
    uint8_t digits[10];
    size_t count = 0;

    do
        digits[count++] = (uint8_t)('0' + number % 10);
    while ((number /= 10) > 0);
    while (count > 0)
        *at++ = digits[--count];
    *at++ = behind;
    return at;
}

static uint32_t loop_export(const uint8_t *entries, size_t length, uint8_t *text,
                            size_t room, size_t *written)
{
    uint8_t *at = text;

    for (const uint8_t *entry = entries; length > 0; entry += ENTRY_BYTES) {
        if (length < ENTRY_BYTES)
            return CUT;
        if (!has_mark(entry, ENTRY_MARK))
            return BAD_MARK;
        if (entry[5] != 0)
            return NOT_ZERO;
        if (room - (size_t)(at - text) < MAX_LINE)
            return SHORT_OUTPUT;
        for (size_t i = 0; i < 3; i++)
            at = loop_digits(at, entry[2 + i], ',');
        at = loop_digits(at, read32(entry + 6), '\n');
        length -= ENTRY_BYTES;
    }
    *written = (size_t)(at - text);
    return 0;
}

/* sscanf and snprintf ---------------------------------------------------- */

static uint32_t stdio_import(const uint8_t *text, size_t length, uint8_t *entries,
                             size_t room, size_t *written)
{
    size_t used = 0;

    while (length > 0) {
        const uint8_t *end = memchr(text, '\n', length);
        char line[MAX_LINE];
        unsigned task, kind, cell;
        unsigned long value;
        int count;

        if (end == NULL || end - text >= MAX_LINE)
            return BAD_FORM;
        /* sscanf first looks for the end of what it is handed: a line, not all */
        memcpy(line, text, (size_t)(end - text));
        line[end - text] = '\0';
        if (sscanf(line, "%u,%u,%u,%lu%n", &task, &kind, &cell, &value, &count) != 4 ||
            count != end - text)
            return BAD_FORM;
        if (task > 255 || kind > 255 || cell > 255 || value > UINT32_MAX)
            return TOO_LARGE;
        if (room - used < ENTRY_BYTES)
            return SHORT_OUTPUT;
        memcpy(entries + used, (uint8_t[]){ 0x45, 0x4E, (uint8_t)task, (uint8_t)kind,
                                            (uint8_t)cell, 0 }, 6);
        write32(entries + used + 6, (uint32_t)value);
        used += ENTRY_BYTES;
        length -= (size_t)(end + 1 - text);
        text = end + 1;
    }
    *written = used;
    return 0;
}

static uint32_t stdio_export(const uint8_t *entries, size_t length, uint8_t *text,
                             size_t room, size_t *written)
{
    size_t used = 0;

    for (size_t i = 0; i < length; i += ENTRY_BYTES) {
        const uint8_t *entry = entries + i;

        if (length - i < ENTRY_BYTES)
            return CUT;
        if (!has_mark(entry, ENTRY_MARK))
            return BAD_MARK;
        if (entry[5] != 0)
            return NOT_ZERO;

        int line = snprintf((char *)text + used, room - used, "%u,%u,%u,%lu\n", entry[2],
                            entry[3], entry[4], (unsigned long)read32(entry + 6));

        if (line < 0 || (size_t)line >= room - used) /* it wants a byte more, for a NUL */
            return SHORT_OUTPUT;
        used += (size_t)line;
    }
    *written = used;
    return 0;
}

/* Time ------------------------------------------------------------------- */

enum { PROVED, PROVED_AGAIN, SECOND, LOOP, STDIO, WAYS };

static const char *const NAMES[WAYS] = { "proved", "again", "second", "loop", "stdio" };

/* The best time of one call in each way, in nanoseconds a line. */
static void take_samples(double best[WAYS], converter *const ways[WAYS],
                         const struct input *in, const struct input *due)
{
    static uint8_t output[MOST_INPUT];
    double until = seconds() + WAYS * SAMPLE_MILLIS / 1000.0;

    for (int i = 0; i < FEWEST_SAMPLES || (i < MOST_SAMPLES && seconds() < until); i++) {
        for (size_t w = 0; w < WAYS; w++) { /* in turn: what disturbs one disturbs all */
            size_t written = 0;

            memset(output, 0xA5, due->length); /* else the way before has done the work */

            double began = seconds();
            uint32_t result = ways[w](in->bytes, in->length, output, sizeof output, &written);
            double took = (seconds() - began) * 1e9 / MAX_LINES;

            if (result != 0 || written != due->length ||
                memcmp(output, due->bytes, written) != 0) {
                fprintf(stderr, "speed_text: %s did other work\n", NAMES[w]);
                exit(2);
            }
            if (i == 0 || took < best[w])
                best[w] = took;
        }
    }
}

static void measure(const char *what, converter *const ways[WAYS],
                    const struct input *in, const struct input *due)
{
    double best[WAYS];

    take_samples(best, ways, in, due);
    printf("  %-28s", what);
    for (size_t w = 0; w < WAYS; w++)
        printf(" %9.1f", best[w]);
    printf("\n  %-28s %9s %9s", "  proved as a multiple of it", "", "");
    for (size_t w = SECOND; w < WAYS; w++)
        printf(" %9.2f", best[PROVED] / best[w]);
    printf("\n");
}

int main(void)
{
    static converter *const import[WAYS] = {
        kemilunda_import, kemilunda_import, text_import, loop_import, stdio_import
    };
    static converter *const export[WAYS] = {
        kemilunda_export, kemilunda_export, text_export, loop_export, stdio_export
    };
    static struct schedule s;
    uint32_t state = 1;

    make_schedule(&s, MAX_LINES, &state);
    printf("6,553 lines as text, %.1f bytes a line on average, ns a line\n",
           (double)s.text.length / MAX_LINES);
    printf("  %-28s", "");
    for (size_t w = 0; w < WAYS; w++)
        printf(" %9s", NAMES[w]);
    printf("\n");
    measure("import", import, &s.text, &s.entries);
    measure("export", export, &s.entries, &s.text);
    return 0;
}
