/* The boards and the turns of the benchmarks from C: what bench_library does in Rattle. */
#include <inttypes.h>
#include <stdio.h>
#include <stdlib.h>
#include <string.h>

#include "bittmelon.h"

/* An entry of a plan, in bytes. */
static inline uint8_t *put_entry(uint8_t *at, uint8_t kind, uint64_t set, uint8_t length)
{
    *at++ = kind;
    for (int byte = 0; byte < 8; byte++)
        *at++ = (uint8_t)(set >> 8 * byte);
    *at++ = length;
    *at++ = 0;
    return at;
}

/* 64 resources and 64 entries, every third of which writes, over two or three resources. */
static inline void plan(uint8_t bytes[BITTMELON_MAX_PLAN_BYTES], uint8_t processors)
{
    uint8_t *at = bytes;
    *at++ = processors;
    *at++ = 64;
    *at++ = 64;
    for (uint64_t i = 0; i < 64; i++) {
        uint64_t set = (uint64_t)1 << i * 7 % 64 | (uint64_t)1 << i * 11 % 64 | (uint64_t)1 << i * 5 % 16;
        at = put_entry(at, i % 3 == 0, set, (uint8_t)(i % 20 + 1));
    }
}

/* A board of 16 or 32 processors on which so many have issued a first request. 0 if all went well. */
static inline int fill(struct bittmelon_board *board, uint64_t busy)
{
    uint8_t bytes[BITTMELON_MAX_PLAN_BYTES];
    plan(bytes, busy <= 16 ? 16 : 32);
    if (busy < 1 || busy > 32 || bittmelon_fresh(board, bytes, sizeof bytes).refusal != 0)
        return 1;
    for (uint8_t p = 0; p < busy; p++)
        bittmelon_issue(board, p, p * 3 % 64, 0);
    return 0;
}

/* The next number of a fixed sequence. */
static inline uint64_t next(uint64_t seed)
{
    return (seed % 2147483648 * 1103515245 + 12345) % 2147483648;
}

/* The lowest holder at or above a place, round the board. The place is the seed's, as a part of all places. */
static inline uint8_t holder_by(const struct bittmelon_board *board, uint64_t seed)
{
    uint32_t holding = board->phases[2];
    uint32_t place = (uint32_t)(seed % 1048576 * board->processors / 1048576);
    uint32_t above = holding >> place << place;
    return (uint8_t)__builtin_ctz(above != 0 ? above : holding);
}

static inline uint8_t entry_by(uint64_t seed)
{
    return (uint8_t)(seed / 1048576 % 64);
}

static inline uint64_t mixed(uint64_t sum, struct bittmelon_reply reply)
{
    if (reply.refusal != 0)
        return sum;
    return (sum % 4294967296 * 31 + (uint64_t)reply.granted * 65536 + (uint64_t)reply.entitled * 2 + reply.late) % 4294967296;
}

/* One turn: a holder completes at the tick and issues again at once. */
static inline uint64_t exchanged(struct bittmelon_board *board, uint64_t sum, uint64_t seed, uint64_t tick)
{
    uint8_t p = holder_by(board, seed);
    sum = mixed(sum, bittmelon_complete(board, p, tick));
    return mixed(sum, bittmelon_issue(board, p, entry_by(seed), tick));
}

/* Argument i as a number, or `other` where there is none. */
static inline uint64_t number_of(int argc, char **argv, int i, uint64_t other)
{
    return argc > i ? strtoull(argv[i], NULL, 10) : other;
}
