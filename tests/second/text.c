#include "text.h"

#include "bytes.h"

#include <string.h>

/* One line --------------------------------------------------------------- */

static const uint64_t MOST[LINE_NUMBERS] = { 255, 255, 255, UINT32_MAX };

static size_t count_digits(const uint8_t *text, size_t length)
{
    size_t digits = 0;

    while (digits < length && text[digits] >= '0' && text[digits] <= '9')
        digits++;
    return digits;
}

/* A number may have any digits, but starts with 0 only where that is all of it. */
static bool number_form(const uint8_t *text, size_t digits)
{
    return digits == 1 || (digits > 1 && text[0] != '0');
}

/* Stops at the first value above most: there may be more digits than it can hold. */
static uint64_t number_of(const uint8_t *text, size_t digits, uint64_t most)
{
    uint64_t number = 0;

    for (size_t i = 0; i < digits && number <= most; i++)
        number = 10 * number + (uint64_t)(text[i] - '0');
    return number;
}

/* The line without its newline: 0 and its four numbers, or the refusal. */
static uint32_t read_line(const uint8_t *line, size_t length,
                          uint64_t numbers[LINE_NUMBERS])
{
    size_t at = 0;

    for (size_t i = 0; i < LINE_NUMBERS; i++) {
        if (i > 0) {
            if (at == length || line[at] != ',')
                return BAD_FORM;
            at++;
        }

        size_t digits = count_digits(line + at, length - at);

        if (!number_form(line + at, digits))
            return BAD_FORM;
        numbers[i] = number_of(line + at, digits, MOST[i]);
        at += digits;
    }
    if (at != length)
        return BAD_FORM;

    /* only now: a fault of form later in the line goes before a size */
    for (size_t i = 0; i < LINE_NUMBERS; i++)
        if (numbers[i] > MOST[i])
            return TOO_LARGE;
    return 0;
}

static void write_entry(uint8_t *entry, const uint64_t numbers[LINE_NUMBERS])
{
    memcpy(entry, ENTRY_MARK, sizeof ENTRY_MARK);
    entry[2] = (uint8_t)numbers[0];
    entry[3] = (uint8_t)numbers[1];
    entry[4] = (uint8_t)numbers[2];
    entry[5] = 0;
    write32(entry + 6, (uint32_t)numbers[3]);
}

/* Import ----------------------------------------------------------------- */

static size_t count_newlines(const uint8_t *text, size_t length)
{
    size_t newlines = 0;

    for (size_t i = 0; i < length; i++)
        newlines += text[i] == '\n';
    return newlines;
}

/*
 * Goes through the lines up to the first bad one.  Writes an entry for each
 * where there is a place for them; with NULL it only looks.
 */
static uint32_t read_lines(const uint8_t *text, size_t length, uint8_t *entries)
{
    while (length > 0) {
        const uint8_t *end = memchr(text, '\n', length);
        uint64_t numbers[LINE_NUMBERS];

        if (end == NULL) /* not closed, whatever it says */
            return BAD_FORM;

        size_t line = (size_t)(end - text);
        uint32_t refusal = read_line(text, line, numbers);

        if (refusal != 0)
            return refusal;
        if (entries != NULL) {
            write_entry(entries, numbers);
            entries += ENTRY_BYTES;
        }
        text += line + 1;
        length -= line + 1;
    }
    return 0;
}

uint32_t text_import(const uint8_t *text, size_t length, uint8_t *entries,
                     size_t room, size_t *written)
{
    size_t lines = count_newlines(text, length);
    uint32_t refusal;

    if (lines > MAX_LINES)
        return TOO_LONG;
    refusal = read_lines(text, length, NULL);
    if (refusal != 0)
        return refusal;
    if (room < ENTRY_BYTES * lines)
        return SHORT_OUTPUT;

    if (lines > 0)
        read_lines(text, length, entries);
    *written = ENTRY_BYTES * lines;
    return 0;
}

/* Export ----------------------------------------------------------------- */

/* Writes a line and its newline into the MAX_LINE bytes; gives its length. */
static size_t write_line(uint8_t *line, const uint8_t *entry)
{
    char text[MAX_LINE + 1];
    int length = snprintf(text, sizeof text, "%u,%u,%u,%lu\n", entry[2], entry[3],
                          entry[4], (unsigned long)read32(entry + 6));

    memcpy(line, text, (size_t)length);
    return (size_t)length;
}

static uint32_t entry_fault(const uint8_t *entry, size_t left)
{
    if (left < ENTRY_BYTES)
        return CUT;
    if (!has_mark(entry, ENTRY_MARK))
        return BAD_MARK;
    return entry[5] != 0 ? NOT_ZERO : 0;
}

uint32_t text_export(const uint8_t *entries, size_t length, uint8_t *text,
                     size_t room, size_t *written)
{
    uint8_t line[MAX_LINE];
    size_t whole = 0, used = 0;

    if (length > MAX_SCHEDULE)
        return TOO_LONG;
    for (size_t at = 0; at < length; at += ENTRY_BYTES) {
        uint32_t refusal = entry_fault(entries + at, length - at);

        if (refusal != 0)
            return refusal;
        whole += write_line(line, entries + at);
    }
    if (room < whole)
        return SHORT_OUTPUT;

    for (size_t at = 0; at < length; at += ENTRY_BYTES) {
        size_t more = write_line(line, entries + at);

        memcpy(text + used, line, more);
        used += more;
    }
    *written = whole;
    return 0;
}
