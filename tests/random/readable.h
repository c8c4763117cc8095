/* An input as a schedule that a person can follow. */
#ifndef READABLE_H
#define READABLE_H

#include <stddef.h>
#include <stdint.h>
#include <stdio.h>

/*
 * Prints the setup and the entries up to number last (all of them for
 * SIZE_MAX), with what the second program makes of each.
 */
void readable(FILE *out, const uint8_t *input, size_t length, size_t last);

/* A phase by its short name in document 01's table; V1 is validate's.  "?" for
 * a number that is no phase. */
const char *phase_name(unsigned phase);

#endif
