/* What every comparison with the second program needs around itself. */
#ifndef DRIVER_H
#define DRIVER_H

#include <stdbool.h>
#include <stddef.h>
#include <stdint.h>
#include <stdio.h>

/* Says what the system refused, and ends the program with status 2. */
_Noreturn void give_up(const char *what);

double seconds(void);

bool number_argument(const char *text, uint64_t *value);

void make_folder(const char *path);

/* Leaves an input that shows a difference in DIR, and says where. */
void keep_input(const char *dir, uint64_t seed, const uint8_t *input,
                size_t length);

/* Something that has to be met at least once. */
struct row {
    const char *what;
    unsigned long met;
};

/*
 * Prints a table of such things under the name of what they are about, and a
 * line for each that was never met.  Returns the number of such lines.
 */
unsigned coverage_rows(FILE *out, const char *thing, const struct row *rows,
                       size_t count);

#endif
