/* Packed records: a byte for the size and the mark, and one for each eight places, the first of them its highest bit. */
#include <string.h>

#include "work_patterns.h"

static size_t record_length(size_t size)
{
    return 1 + (size + 3) / 4;
}

static uint8_t byte_of(const uint8_t *places, size_t count)
{
    unsigned byte = 0;
    for (size_t i = 0; i < count; i++)
        byte = 2 * byte + places[i];
    return (uint8_t)(byte << (8 - count));
}

static void pack(size_t size, const uint8_t *places, uint8_t *bytes)
{
    size_t i = 0;
    *bytes++ = (uint8_t)(4 * size);
    for (; i + 8 <= 2 * size; i += 8)
        *bytes++ = byte_of(places + i, 8);
    if (i < 2 * size)
        *bytes = byte_of(places + i, 2 * size - i);
}

spire_reply c_record_write(
    size_t size, const uint8_t *places, size_t places_count, uint8_t *bytes, size_t bytes_count)
{
    if (!sized(size))
        return refused(REFUSED_SIZE);
    if (bytes_count != record_length(size))
        return refused(REFUSED_LENGTH);
    uint64_t fault = pattern_fault(size, places, places_count);
    if (fault)
        return refused(fault);
    pack(size, places, bytes);
    return answered(0);
}

/* In the order empty, size, the rest of what a record is asked. */
static uint64_t layout_fault(const uint8_t *bytes, size_t count)
{
    if (count == 0)
        return REFUSED_RECORD;
    size_t size = bytes[0] / 4;
    if (!sized(size))
        return REFUSED_SIZE;
    if (bytes[0] % 4 != 0 || count != record_length(size))
        return REFUSED_RECORD;
    unsigned fill = 8 * (unsigned)(count - 1) - 2 * (unsigned)size;
    return bytes[count - 1] % (1u << fill) != 0 ? REFUSED_RECORD : 0;
}

/* By whole words: a call for so few bytes would take longer than the rest. */
static void copy(const uint8_t *from, uint8_t *to, size_t count)
{
    size_t i = 0;
    for (; i + 8 <= count; i += 8)
        memcpy(to + i, from + i, 8);
    for (; i < count; i++)
        to[i] = from[i];
}

/* The places are unpacked apart, since a refusal leaves the slice as it was lent. */
spire_reply c_record_read(const uint8_t *bytes, size_t bytes_count, uint8_t *places, size_t places_count)
{
    uint64_t fault = layout_fault(bytes, bytes_count);
    if (fault)
        return refused(fault);
    size_t size = bytes[0] / 4;
    if (places_count != 2 * size)
        return refused(REFUSED_LENGTH);
    uint8_t unpacked[ROOM + 8];
    for (size_t i = 0; i < bytes_count - 1; i++)
        for (size_t j = 0; j < 8; j++)
            unpacked[8 * i + j] = bytes[1 + i] >> (7 - j) & 1;
    if (pattern_contents(size, unpacked))
        return refused(REFUSED_SHAPE);
    copy(unpacked, places, 2 * size);
    return answered(size);
}
