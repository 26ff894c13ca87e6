/* The edges of the arbiter's rules. The file arbiter.expected has the answers due. */
#include "plans.h"

#define LAST_TICK BITTMELON_MAX_TICK

static struct bittmelon_board board;

static void print_refusal(uint32_t refusal)
{
    printf("refused %" PRIu32 "\n", refusal);
}

static void print_reply(struct bittmelon_reply reply)
{
    if (reply.refusal != 0)
        print_refusal(reply.refusal);
    else
        printf("%08" PRIx32 " %08" PRIx32 " %" PRIu32 "\n", reply.granted, reply.entitled, reply.late);
}

static void issue(uint8_t processor, uint8_t entry, uint64_t tick)
{
    print_reply(bittmelon_issue(&board, processor, entry, tick));
}

static void complete(uint8_t processor, uint64_t tick)
{
    print_reply(bittmelon_complete(&board, processor, tick));
}

static void withdraw(uint8_t processor, uint64_t tick)
{
    print_reply(bittmelon_withdraw(&board, processor, tick));
}

static void handover(uint8_t processor, uint8_t entry, uint64_t tick)
{
    print_reply(bittmelon_handover(&board, processor, entry, tick));
}

/* Two writes on one resource, of lengths 30 and 20, and a read of it of length 5. */
static const struct entry entries[3] = {{1, 1, 30}, {1, 1, 20}, {0, 1, 5}};

/* The fresh board of that plan with four processors. */
static void start(void)
{
    fresh_of(&board, 4, 1, 3, entries);
}

/* Clauses 2.3 and 4.5: plans of 1, 16, 17 and 32 processors, and none of 0 or 33; the highest issues, the next is refused. */
static void counts(uint8_t processors)
{
    uint32_t refusal = fresh_of(&board, processors, 1, 3, entries);
    if (refusal != 0) {
        print_refusal(refusal);
        return;
    }
    issue((uint8_t)(processors - 1), 0, 0);
    issue(processors, 0, 0);
}

/* Clause 4.5: the same tick again is taken, an earlier one is refused, and a refused tick does not count. */
static void ticks(void)
{
    start();
    issue(0, 2, 7);
    issue(1, 2, 7);
    issue(2, 2, 6);
    complete(0, 6);
    complete(0, 7);
    complete(1, 7);
}

/* Clause 4.8: a hold as long as the length is not late, and one tick more is. */
static void holds(void)
{
    start();
    issue(0, 1, 100);
    complete(0, 120);
    issue(0, 1, 120);
    complete(0, 141);
}

/* Clause 4.8: a hold is counted from the grant and not from the issue. */
static void holds_after_a_wait(void)
{
    start();
    issue(0, 0, 0);
    issue(1, 1, 1);
    complete(0, 30);
    complete(1, 50);
}

/* The largest tick is taken, one above is not. */
static void last_ticks(void)
{
    start();
    issue(0, 0, LAST_TICK + 1);
    issue(0, 0, UINT64_MAX);
    issue(0, 0, LAST_TICK);
    complete(0, LAST_TICK + 1);
    complete(0, LAST_TICK);
}

/* Busy, idle and unheld, with an entitled and with a waiting request. */
static void phases(void)
{
    start();
    complete(0, 1);
    issue(0, 0, 1);
    issue(0, 0, 1);
    issue(1, 2, 2);
    complete(1, 2);
    issue(2, 1, 3);
    complete(2, 3);
}

/* Clause 4.5: a withdrawal is refused by 10, 11, 14 and 17. An entitled write that leaves lets the read behind it hold. */
static void withdrawals(void)
{
    start();
    withdraw(0, LAST_TICK + 1);
    withdraw(4, 0);
    withdraw(0, 0);
    issue(0, 2, 1);
    withdraw(0, 1);
    issue(1, 0, 2);
    issue(2, 2, 3);
    withdraw(1, 4);
    withdraw(1, 4);
}

/* Clause 4.10: a request for an entry that is not the plan's is none, and holding counts before waiting. */
static void stray_withdrawals(void)
{
    start();
    board.entry[1] = 200;
    board.phases[0] = 6;
    board.phases[2] = 4;
    struct bittmelon_board stray = board;
    withdraw(1, 0);
    board = stray;
    withdraw(2, 0);
}

/* Clause 4.5: a handover is refused by 10, 11, 12, 14 and 15, in this order, and then the request is as it was. */
static void refused_handovers(void)
{
    start();
    handover(9, 9, LAST_TICK + 1);
    handover(4, 3, 0);
    handover(0, 3, 0);
    handover(0, 0, 0);
    issue(0, 0, 1);
    issue(1, 1, 2);
    handover(1, 3, 2);
    handover(1, 2, 2);
    handover(0, 3, 31);
    complete(0, 31);
}

/* Clauses 4.6 to 4.8: the write in line holds before the read that is issued. A hold runs from the handover that granted it
 * to the one that ends it, and late is the completion's. */
static void handovers(void)
{
    start();
    issue(0, 0, 1);
    issue(1, 1, 2);
    handover(0, 2, 3);
    complete(1, 23);
    handover(0, 2, 28);
    handover(0, 1, 34);
    handover(0, 1, 54);
    handover(0, 0, LAST_TICK);
    handover(0, 0, LAST_TICK + 1);
    handover(0, 2, LAST_TICK);
}

/* Clause 4.10: a request for an entry that is not the plan's is none, holding counts before waiting, and a hold that would run
 * backwards is not late. A read that waits for nobody holds once anybody hands over, and of two writes that hold together the
 * other holds on. */
static void stray_handovers(void)
{
    start();
    board.entry[1] = 200;
    board.entry[3] = 2;
    board.since[2] = 50;
    struct bittmelon_board stray = board;
    stray.phases[0] = 14;
    stray.phases[2] = 4;
    struct bittmelon_board two = board;
    two.phases[2] = 5;
    board = stray;
    handover(1, 0, 0);
    board = stray;
    handover(2, 2, 0);
    board = two;
    handover(0, 2, 0);
}

int main(void)
{
    static const uint8_t processors[] = {0, 1, 16, 17, 32, 33};
    for (size_t i = 0; i < sizeof processors; i++)
        counts(processors[i]);
    ticks();
    holds();
    holds_after_a_wait();
    last_ticks();
    phases();
    withdrawals();
    stray_withdrawals();
    refused_handovers();
    handovers();
    stray_handovers();
    return 0;
}
