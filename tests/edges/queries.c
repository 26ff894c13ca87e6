/* The edges of the queries' rules. The file queries.expected has the answers due. */
#include "plans.h"

static struct bittmelon_board board;
static uint8_t bytes[512];

/* Plan F: writes {2}, {1,2}, {0}, reads {0,1}, {2}. */
static const struct entry entries[5] = {{1, 4, 30}, {1, 6, 20}, {1, 1, 40}, {0, 3, 10}, {0, 4, 5}};

/* The first so many bytes, each a 7. */
static uint8_t *sevens(size_t size)
{
    memset(bytes, 7, sizeof bytes);
    return size == 0 ? NULL : bytes;
}

static void print_answer(struct bittmelon_answer answer, const char *form)
{
    if (answer.refusal != 0)
        printf("refused %" PRIu32 " ", answer.refusal);
    else
        printf(form, (unsigned)answer.value);
}

static void print_hex(size_t size)
{
    for (size_t i = 0; i < size; i++)
        printf("%02x", bytes[i]);
    printf("\n");
}

static void print_all(uint8_t processor)
{
    print_answer(bittmelon_state(&board, processor), "%u ");
    print_answer(bittmelon_waits(&board, processor), "%04x ");
    print_answer(bittmelon_reach(&board, processor, bytes, 32), "%04x ");
    printf("\n");
}

/* The answer, and the buffer after it. */
static void print_list(size_t size)
{
    print_answer(bittmelon_list(&board, bytes, size), "%u ");
    print_hex(size);
}

static void print_reach(uint8_t processor, size_t size)
{
    print_answer(bittmelon_reach(&board, processor, bytes, size), "%04x ");
}

/* After the first four calls of plan F: 0 holds, 1 waits for 0, 2 for 1, and the read of 3 holds. */
static void four_calls(void)
{
    fresh_of(&board, 4, 3, 5, entries);
    for (uint8_t p = 0; p < 4; p++)
        bittmelon_issue(&board, p, p, p);
}

/* Clauses 7.1 to 7.3, of every processor and of one that is not the plan's; the scratch is left with a word for each. */
static void print_queries(void)
{
    sevens(32);
    for (uint8_t p = 0; p <= 4; p++)
        print_all(p);
    print_hex(32);
}

/* Clauses 7.4 and 7.5: a scratch of 31 is refused and stays, 11 comes before 16, 32 are taken, the byte behind stays. */
static void print_scratches(void)
{
    sevens(31);
    print_reach(2, 31);
    print_reach(4, 31);
    printf("%u %u \n", bytes[0], bytes[30]);
    sevens(33);
    print_reach(2, 33);
    printf("%u %u \n", bytes[31], bytes[32]);
    print_reach(32, 33);
    printf("\n");
}

/* Clauses 7.7 to 7.9: a buffer that is one byte short is refused and stays; one of just the size is filled; what is behind the
 * list stays. The processors that wait were issued at ticks 1 and 2: waits of 4,294,967,295 and one less, of more, and one that
 * would run backwards. A board value with more processors than a state has places for lists those. */
static void print_lists(void)
{
    static const uint64_t last[] = {4294967296, 4294967298, 1};
    sevens(32);
    print_list(32);
    sevens(33);
    print_list(33);
    sevens(35);
    for (int i = 0; i < 3; i++) {
        board.last = last[i];
        print_list(35);
    }
    board.last = 3;
    board.processors = 200;
    sevens(322);
    print_list(322);
}

/* A board on which the last processor holds, 0 waits for it, and 1 waits for 0: lists and scratches that are a byte short, and of
 * just the size. Clauses 7.4, 7.7 and 7.9: two bytes to a mask up to 16 processors, four above. */
static void print_board(uint8_t processors, size_t list, size_t scratch)
{
    fresh_of(&board, processors, 3, 5, entries);
    bittmelon_issue(&board, (uint8_t)(processors - 1), 0, 0);
    bittmelon_issue(&board, 0, 1, 1);
    bittmelon_issue(&board, 1, 2, 2);
    for (size_t size = list - 1; size <= list; size++) {
        sevens(size);
        print_list(size);
    }
    for (size_t size = scratch - 1; size <= scratch; size++) {
        sevens(size);
        print_reach(1, size);
        print_hex(size);
    }
}

int main(void)
{
    four_calls();
    print_queries();
    print_scratches();
    print_lists();
    print_board(16, 129, 32);
    print_board(17, 171, 128);
    print_board(32, 321, 128);
    return 0;
}
