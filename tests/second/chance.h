/*
 * A random sequence, the same on every machine, for walks through a bench
 * where any spread of choices will do.  (tests/random/generate.c has dice of
 * its own, with a seed for each input.)
 */
#ifndef CHANCE_H
#define CHANCE_H

#include <stdint.h>

static inline uint32_t chance(uint32_t *state)
{
    *state = *state * 1664525 + 1013904223;
    return *state >> 16; /* the low bits of such a sequence repeat soon */
}

#endif
