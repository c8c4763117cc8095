/*
 * Schedules as text, item 4 of document 02, written a second time in plain C,
 * from the documents alone as bench.h is.
 *
 * A line stands for an entry: its task, kind, cell and value in decimal, a comma
 * between two of them, a newline at the end.
 */
#ifndef TEXT_H
#define TEXT_H

#include "bench.h"

enum {
    MAX_LINES = MAX_ENTRIES,
    LINE_NUMBERS = 4,
    /* three numbers of 3 digits, one of 10, three commas and the newline */
    MAX_LINE = 3 * 3 + 10 + 3 + 1
};

/* The refusals that only this item has; 15, 19, 20 and 23 are those of bench.h. */
enum text_refusal {
    BAD_FORM = 30,
    TOO_LARGE = 31,
    SHORT_OUTPUT = 32
};

/*
 * Both give 0 and the bytes written in *written, or the refusal.  A refusal
 * leaves the output and *written alone; output past the bytes written stays.
 */

/* Text to entry bytes. */
uint32_t text_import(const uint8_t *text, size_t length, uint8_t *entries,
                     size_t room, size_t *written);

/* Entry bytes to text. */
uint32_t text_export(const uint8_t *entries, size_t length, uint8_t *text,
                     size_t room, size_t *written);

#endif
