/* The calls of bench_library, from C: the same plan, the same turns, the same checksum.
 * usage: calls BUSY TURNS
 */
#include "board.h"

int main(int argc, char **argv)
{
    static struct bittmelon_board board;
    uint64_t turns = number_of(argc, argv, 2, 5000000);
    if (fill(&board, number_of(argc, argv, 1, 16)) != 0)
        return 1;
    uint64_t seed = 1, sum = 0;
    for (uint64_t tick = 1; tick <= turns; tick++) {
        seed = next(seed);
        sum = exchanged(&board, sum, seed, tick);
    }
    printf("%" PRIu64 "\n", sum);
    return 0;
}
