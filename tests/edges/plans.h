/* Plans in bytes, for the programs of the edges. */
#include <inttypes.h>
#include <stdio.h>
#include <string.h>

#include "bittmelon.h"

struct entry {
    uint8_t kind;
    uint64_t set;
    uint16_t length;
};

/* The bytes of a plan; how many they are. */
static inline size_t plan_bytes(uint8_t bytes[BITTMELON_MAX_PLAN_BYTES], uint8_t processors, uint8_t resources, uint8_t count,
    const struct entry *entries)
{
    uint8_t *at = bytes;
    *at++ = processors;
    *at++ = resources;
    *at++ = count;
    for (int i = 0; i < count; i++) {
        *at++ = entries[i].kind;
        for (int byte = 0; byte < 8; byte++)
            *at++ = (uint8_t)(entries[i].set >> 8 * byte);
        *at++ = (uint8_t)entries[i].length;
        *at++ = (uint8_t)(entries[i].length >> 8);
    }
    return (size_t)(at - bytes);
}

/* The fresh board of such a plan; the refusal's number, or 0. */
static inline uint32_t fresh_of(struct bittmelon_board *board, uint8_t processors, uint8_t resources, uint8_t count,
    const struct entry *entries)
{
    uint8_t bytes[BITTMELON_MAX_PLAN_BYTES];
    size_t size = plan_bytes(bytes, processors, resources, count, entries);
    return bittmelon_fresh(board, bytes, size).refusal;
}
