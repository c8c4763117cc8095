/*
 * Random inputs for the bench program.  The same seed gives the same bytes on
 * every machine; nothing else goes in.
 */
#ifndef GENERATE_H
#define GENERATE_H

#include <stddef.h>
#include <stdint.h>

/* Room enough for every input that any seed can give. */
enum { MAX_GENERATED = 140000 };

/*
 * Writes the seed's input and returns its length, at most cap.  A cap below
 * MAX_GENERATED may cut an input short.
 */
size_t generate(uint64_t seed, uint8_t *out, size_t cap);

#endif
