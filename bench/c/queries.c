/* What a viewer asks of a board with 16 busy processors. Prints a checksum, which the Rust program prints too for the list
 * and for reach.
 * usage: queries list TURNS       the list of the whole board after each turn of two calls
 *        queries single TURNS     the state and the direct waits of each processor, by single queries, after each turn
 *        queries reach TURNS      the reach of a processor, where all 16 wait in one long line
 */
#include "board.h"

static struct bittmelon_board board;

/* The checksum with a byte of the list, another at each turn. */
static uint64_t with_list(uint64_t sum, uint64_t tick)
{
    uint8_t list[129] = {0};
    bittmelon_list(&board, list, sizeof list);
    return (sum % 4294967296 * 31 + list[tick % sizeof list]) % 4294967296;
}

/* The checksum with the state and the direct waits of every processor, by single queries. */
static uint64_t with_queries(uint64_t sum)
{
    for (uint8_t p = 0; p < 16; p++) {
        uint64_t state = bittmelon_state(&board, p).value;
        uint64_t waits = bittmelon_waits(&board, p).value;
        sum = (sum % 4294967296 * 31 + state * 65536 + waits) % 4294967296;
    }
    return sum;
}

static uint64_t sum_of_turns(uint64_t turns, int single)
{
    uint64_t seed = 1, sum = 0;
    for (uint64_t tick = 1; tick <= turns; tick++) {
        seed = next(seed);
        sum = exchanged(&board, sum, seed, tick);
        sum = single ? with_queries(sum) : with_list(sum, tick);
    }
    return sum;
}

/* 16 processors in one long line: entry i writes two resources, the second of which is the first of the next entry. */
static int line_up(void)
{
    uint8_t bytes[BITTMELON_MAX_PLAN_BYTES];
    uint8_t *at = bytes;
    *at++ = 16;
    *at++ = 17;
    *at++ = 16;
    for (int i = 0; i < 16; i++)
        at = put_entry(at, 1, (uint64_t)3 << i, 1);
    if (bittmelon_fresh(&board, bytes, (size_t)(at - bytes)).refusal != 0)
        return 1;
    for (uint8_t p = 0; p < 16; p++)
        bittmelon_issue(&board, p, p, 0);
    return 0;
}

/* The checksum of the reach of a processor and a byte of the scratch, others at each turn. */
static uint64_t sum_of_reaches(uint64_t turns)
{
    uint64_t sum = 0;
    for (uint64_t tick = 0; tick < turns; tick++) {
        uint8_t scratch[32] = {0};
        uint64_t mask = bittmelon_reach(&board, (uint8_t)(tick % 16), scratch, sizeof scratch).value;
        sum = (sum % 4294967296 * 31 + mask * 256 + scratch[tick % 32]) % 4294967296;
    }
    return sum;
}

int main(int argc, char **argv)
{
    const char *what = argc > 1 ? argv[1] : "list";
    uint64_t turns = number_of(argc, argv, 2, 1000000);
    int reach = strcmp(what, "reach") == 0;
    if ((reach ? line_up() : fill(&board, 16)) != 0)
        return 1;
    printf("%" PRIu64 "\n", reach ? sum_of_reaches(turns) : sum_of_turns(turns, strcmp(what, "single") == 0));
    return 0;
}
