/* Numbers and marks in the documents' records, which have the lowest byte first. */
#ifndef BYTES_H
#define BYTES_H

#include <stdbool.h>
#include <stdint.h>

static const uint8_t ENTRY_MARK[2] = { 0x45, 0x4E };

static inline uint32_t read32(const uint8_t *bytes)
{
    return (uint32_t)bytes[0] | (uint32_t)bytes[1] << 8 |
           (uint32_t)bytes[2] << 16 | (uint32_t)bytes[3] << 24;
}

static inline void write32(uint8_t *bytes, uint32_t value)
{
    bytes[0] = (uint8_t)value;
    bytes[1] = (uint8_t)(value >> 8);
    bytes[2] = (uint8_t)(value >> 16);
    bytes[3] = (uint8_t)(value >> 24);
}

static inline bool has_mark(const uint8_t *bytes, const uint8_t mark[2])
{
    return bytes[0] == mark[0] && bytes[1] == mark[1];
}

#endif
