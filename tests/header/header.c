/* The names of include/bittmelon.h against what the archive answers: every constant, every refusal that C can provoke, every
 * state, and the fields of the answers.
 *
 * It prints a line for each refusal (`refusal NAME NUMBER`) and for each field of a board (`field NAME OFFSET SIZE COUNT`),
 * which tests/header/run holds against the specification and rust/tests/layout.txt. The last line counts the checks. No size
 * in here depends on the header's constants, so that a wrong one does no harm.
 */
#include <stdio.h>
#include <string.h>

#include "bittmelon.h"

static unsigned long passed, failed;
static uint8_t plan[4096], buffer[4096];
static struct bittmelon_board board;

static void expect(int holds, const char *what)
{
    if (holds) {
        passed++;
        return;
    }
    failed++;
    printf("not so: %s\n", what);
}

/* A plan all of whose entries write resource 0 for at most 9 ticks. Gives its bytes. */
static size_t make_plan(unsigned processors, unsigned resources, unsigned entries)
{
    memset(plan, 0, sizeof plan);
    plan[0] = (uint8_t)processors;
    plan[1] = (uint8_t)resources;
    plan[2] = (uint8_t)entries;
    for (unsigned i = 0; i < entries; i++) {
        plan[3 + 11 * i] = 1;
        plan[3 + 11 * i + 1] = 1;
        plan[3 + 11 * i + 9] = 9;
    }
    return 3 + 11 * (size_t)entries;
}

static void make_board(unsigned processors, unsigned resources, unsigned entries)
{
    size_t size = make_plan(processors, resources, entries);
    struct bittmelon_answer made = bittmelon_fresh(&board, plan, size);
    expect(made.refusal == BITTMELON_ACCEPTED && made.value == size, "a plan within the largest counts is accepted whole");
}

/* Plan F of the specification. */
static void make_plan_f(void)
{
    static const uint8_t entries[5][3] = {{1, 4, 30}, {1, 6, 20}, {1, 1, 40}, {0, 3, 10}, {0, 4, 5}};
    size_t size = make_plan(4, 3, 5);
    for (unsigned i = 0; i < 5; i++) {
        plan[3 + 11 * i] = entries[i][0];
        plan[3 + 11 * i + 1] = entries[i][1];
        plan[3 + 11 * i + 9] = entries[i][2];
    }
    expect(bittmelon_fresh(&board, plan, size).refusal == BITTMELON_ACCEPTED, "plan F is accepted");
    int same = board.processors == 4 && board.entries == 5 && board.writes == 7 && board.last == 0;
    for (unsigned i = 0; i < 5; i++)
        same = same && board.names[i] == entries[i][1] && board.lengths[i] == entries[i][2];
    expect(same, "the fields of the board of plan F have what the plan has");
}

/* A count of a plan is accepted from 1 to the largest, and refused with its number otherwise. */
static void count_limits(void)
{
    int processors = 1, resources = 1, entries = 1;
    for (unsigned n = 0; n < 256; n++) {
        uint32_t refusal = bittmelon_plan_refusal(plan, make_plan(n, 1, 1));
        processors = processors
            && refusal == (n >= 1 && n <= BITTMELON_MAX_PROCESSORS ? BITTMELON_ACCEPTED : BITTMELON_PROCESSORS);
        refusal = bittmelon_plan_refusal(plan, make_plan(1, n, 1));
        resources = resources && refusal == (n >= 1 && n <= BITTMELON_MAX_RESOURCES ? BITTMELON_ACCEPTED : BITTMELON_RESOURCES);
        refusal = bittmelon_plan_refusal(plan, make_plan(1, 1, n));
        entries = entries && refusal == (n >= 1 && n <= BITTMELON_MAX_ENTRIES ? BITTMELON_ACCEPTED : BITTMELON_ENTRIES);
    }
    expect(processors, "BITTMELON_MAX_PROCESSORS is the largest count of processors");
    expect(resources, "BITTMELON_MAX_RESOURCES is the largest count of resources");
    expect(entries, "BITTMELON_MAX_ENTRIES is the largest count of entries");
}

static void room_limits(void)
{
    struct bittmelon_answer made = bittmelon_fresh(&board, plan, make_plan(32, 64, 64));
    expect(made.refusal == BITTMELON_ACCEPTED && made.value == BITTMELON_MAX_PLAN_BYTES,
        "a plan of 32 processors, 64 resources and 64 entries takes BITTMELON_MAX_PLAN_BYTES");
    expect(bittmelon_fresh(&board, plan, BITTMELON_MAX_PLAN_BYTES - 1).refusal == BITTMELON_SHORT,
        "with a byte less than BITTMELON_MAX_PLAN_BYTES the largest plan is short");
    make_board(32, 64, 64);
    int scratch = 1, list = 1;
    for (size_t size = 0; size < 1024; size++) {
        scratch = scratch && bittmelon_reach(&board, 31, buffer, size).refusal
            == (size < BITTMELON_MAX_SCRATCH_BYTES ? BITTMELON_ROOM : BITTMELON_ACCEPTED);
        list = list && bittmelon_list(&board, buffer, size).refusal
            == (size < BITTMELON_MAX_LIST_BYTES ? BITTMELON_ROOM : BITTMELON_ACCEPTED);
    }
    expect(scratch, "BITTMELON_MAX_SCRATCH_BYTES are what a reach among 32 processors needs, and no more");
    expect(list, "BITTMELON_MAX_LIST_BYTES are what a list of 32 processors needs, and no more");
    expect(bittmelon_list(&board, buffer, sizeof buffer).value == BITTMELON_MAX_LIST_BYTES,
        "a list of 32 processors takes BITTMELON_MAX_LIST_BYTES");
}

static void tick_limits(void)
{
    make_board(2, 1, 1);
    expect(bittmelon_issue(&board, 0, 0, BITTMELON_MAX_TICK + 1).refusal == BITTMELON_TICK,
        "a tick above BITTMELON_MAX_TICK is refused");
    expect(bittmelon_issue(&board, 0, 0, BITTMELON_MAX_TICK).refusal == BITTMELON_ACCEPTED, "BITTMELON_MAX_TICK is accepted");
    expect(BITTMELON_MAX_TICK == 1099511627775u && sizeof(BITTMELON_MAX_TICK) == 8, "BITTMELON_MAX_TICK is 1,099,511,627,775");
}

static void old_names(void)
{
    expect(BITTMELON_PROCESSORS_MOST == BITTMELON_MAX_PROCESSORS, "BITTMELON_PROCESSORS_MOST");
    expect(BITTMELON_RESOURCES_MOST == BITTMELON_MAX_RESOURCES, "BITTMELON_RESOURCES_MOST");
    expect(BITTMELON_ENTRIES_MOST == BITTMELON_MAX_ENTRIES, "BITTMELON_ENTRIES_MOST");
    expect(BITTMELON_PLAN_ROOM == BITTMELON_MAX_PLAN_BYTES, "BITTMELON_PLAN_ROOM");
    expect(BITTMELON_SCRATCH_ROOM == BITTMELON_MAX_SCRATCH_BYTES, "BITTMELON_SCRATCH_ROOM");
    expect(BITTMELON_LIST_ROOM == BITTMELON_MAX_LIST_BYTES, "BITTMELON_LIST_ROOM");
    expect(BITTMELON_LAST_TICK == BITTMELON_MAX_TICK, "BITTMELON_LAST_TICK");
}

/* A plan of one entry with one byte changed. */
static uint32_t edited(unsigned at, uint8_t value)
{
    size_t size = make_plan(1, 1, 1);
    plan[at] = value;
    return bittmelon_plan_refusal(plan, size);
}

/* Each refusal that a function for C returns, provoked. */
static void provoked(void)
{
    expect(bittmelon_plan_refusal(plan, 0) == BITTMELON_SHORT, "no bytes: BITTMELON_SHORT");
    expect(edited(0, 0) == BITTMELON_PROCESSORS, "no processors: BITTMELON_PROCESSORS");
    expect(edited(1, 0) == BITTMELON_RESOURCES, "no resources: BITTMELON_RESOURCES");
    expect(edited(2, 0) == BITTMELON_ENTRIES, "no entries: BITTMELON_ENTRIES");
    expect(edited(3, 2) == BITTMELON_KIND, "a kind of 2: BITTMELON_KIND");
    expect(edited(4, 0) == BITTMELON_SET, "an empty set: BITTMELON_SET");
    expect(edited(4, 2) == BITTMELON_SET, "a resource that is not counted: BITTMELON_SET");
    expect(edited(12, 0) == BITTMELON_LENGTH, "a length of 0: BITTMELON_LENGTH");
    make_board(3, 1, 1);
    expect(bittmelon_issue(&board, 0, 0, 7).refusal == BITTMELON_ACCEPTED, "an issue: BITTMELON_ACCEPTED");
    expect(bittmelon_issue(&board, 1, 0, 7).refusal == BITTMELON_ACCEPTED, "an issue that waits: BITTMELON_ACCEPTED");
    expect(bittmelon_issue(&board, 2, 0, 6).refusal == BITTMELON_TICK, "a tick that goes back: BITTMELON_TICK");
    expect(bittmelon_issue(&board, 3, 0, 7).refusal == BITTMELON_PROCESSOR, "processor 3 of 3: BITTMELON_PROCESSOR");
    expect(bittmelon_state(&board, 3).refusal == BITTMELON_PROCESSOR, "the state of processor 3 of 3: BITTMELON_PROCESSOR");
    expect(bittmelon_issue(&board, 2, 1, 7).refusal == BITTMELON_ENTRY, "entry 1 of 1: BITTMELON_ENTRY");
    expect(bittmelon_shared(&board, 0, 1).refusal == BITTMELON_ENTRY, "the conflict of entry 1 of 1: BITTMELON_ENTRY");
    expect(bittmelon_issue(&board, 0, 0, 7).refusal == BITTMELON_BUSY, "an issue of a holder: BITTMELON_BUSY");
    expect(bittmelon_issue(&board, 1, 0, 7).refusal == BITTMELON_BUSY, "an issue of a waiter: BITTMELON_BUSY");
    expect(bittmelon_complete(&board, 2, 7).refusal == BITTMELON_IDLE, "a completion without a request: BITTMELON_IDLE");
    expect(bittmelon_withdraw(&board, 2, 7).refusal == BITTMELON_IDLE, "a withdrawal without a request: BITTMELON_IDLE");
    expect(bittmelon_handover(&board, 2, 0, 7).refusal == BITTMELON_IDLE, "a handover without a request: BITTMELON_IDLE");
    expect(bittmelon_complete(&board, 1, 7).refusal == BITTMELON_UNHELD, "a completion of a waiter: BITTMELON_UNHELD");
    expect(bittmelon_handover(&board, 1, 0, 7).refusal == BITTMELON_UNHELD, "a handover of a waiter: BITTMELON_UNHELD");
    expect(bittmelon_reach(&board, 0, buffer, 0).refusal == BITTMELON_ROOM, "no scratch: BITTMELON_ROOM");
    expect(bittmelon_list(&board, buffer, 0).refusal == BITTMELON_ROOM, "no buffer: BITTMELON_ROOM");
    expect(bittmelon_withdraw(&board, 0, 7).refusal == BITTMELON_HELD, "a withdrawal of a holder: BITTMELON_HELD");
}

static int is_in(unsigned processor, enum bittmelon_phase phase)
{
    struct bittmelon_answer answer = bittmelon_state(&board, (uint8_t)processor);
    return answer.refusal == BITTMELON_ACCEPTED && answer.value == (uint64_t)phase;
}

/* Each state, and each field of the answers, on plan F. What a reply says of a processor fits the name of its state. */
static void states(void)
{
    make_plan_f();
    expect(is_in(0, BITTMELON_STATE_IDLE), "a processor without a request: BITTMELON_STATE_IDLE");
    struct bittmelon_reply reply = bittmelon_issue(&board, 0, 0, 0);
    expect(reply.granted == 1 && reply.entitled == 0 && reply.late == 0, "the first issue is granted");
    expect(is_in(0, BITTMELON_STATE_HOLDING), "a processor that was granted: BITTMELON_STATE_HOLDING");
    reply = bittmelon_issue(&board, 1, 1, 1);
    expect(reply.granted == 0 && reply.entitled == 0 && reply.late == 0, "an issue that conflicts with a holder's is not granted");
    expect(is_in(1, BITTMELON_STATE_WAITING), "a processor in the queue: BITTMELON_STATE_WAITING");
    reply = bittmelon_issue(&board, 3, 4, 3);
    expect(reply.granted == 0 && reply.entitled == 8 && reply.late == 0, "a read that waits for a holder alone is entitled");
    expect(is_in(3, BITTMELON_STATE_ENTITLED), "a processor that is entitled: BITTMELON_STATE_ENTITLED");
    reply = bittmelon_complete(&board, 0, 31);
    expect(reply.granted == 8 && reply.entitled == 2 && reply.late == 1, "a completion after 31 of 30 ticks is late");
    struct bittmelon_conflict over = bittmelon_shared(&board, 1, 2);
    expect(over.refusal == BITTMELON_ACCEPTED && over.conflict == 1 && over.lowest == 0 && over.count == 2,
        "entries 1 and 2 conflict over two resources from 0 on");
    over = bittmelon_shared(&board, 3, 4);
    expect(over.refusal == BITTMELON_ACCEPTED && over.conflict == 0 && over.lowest == 0 && over.count == 0,
        "two reads do not conflict");
}

#define REFUSAL(name) printf("refusal %s %d\n", #name, (int)BITTMELON_##name)
#define FIELD(name, element) \
    printf("field %s %u %u %u\n", #name, (unsigned)offsetof(struct bittmelon_board, name), (unsigned)sizeof(board.element), \
        (unsigned)(sizeof board.name / sizeof board.element))

static void print_names(void)
{
    REFUSAL(ACCEPTED);
    REFUSAL(SHORT);
    REFUSAL(TAIL);
    REFUSAL(PROCESSORS);
    REFUSAL(RESOURCES);
    REFUSAL(ENTRIES);
    REFUSAL(KIND);
    REFUSAL(SET);
    REFUSAL(LENGTH);
    REFUSAL(VERB);
    REFUSAL(TICK);
    REFUSAL(PROCESSOR);
    REFUSAL(ENTRY);
    REFUSAL(BUSY);
    REFUSAL(IDLE);
    REFUSAL(UNHELD);
    REFUSAL(ROOM);
    REFUSAL(HELD);
    REFUSAL(REGISTER);
    FIELD(last, last);
    FIELD(writes, writes);
    FIELD(phases, phases[0]);
    FIELD(processors, processors);
    FIELD(entries, entries);
    FIELD(unused, unused[0]);
    FIELD(entry, entry[0]);
    FIELD(earlier, earlier[0]);
    FIELD(since, since[0]);
    FIELD(rows, rows[0]);
    FIELD(lengths, lengths[0]);
    FIELD(names, names[0]);
    FIELD(widened, widened[0]);
    printf("size %u\n", (unsigned)sizeof(struct bittmelon_board));
}

int main(void)
{
    count_limits();
    room_limits();
    tick_limits();
    old_names();
    provoked();
    states();
    unsigned major, minor, patch;
    expect(sscanf(BITTMELON_VERSION, "%u.%u.%u", &major, &minor, &patch) == 3
        && 10000 * major + 100 * minor + patch == BITTMELON_VERSION_NUMBER, "the version's text and number are the same");
    expect(bittmelon_version_number() == BITTMELON_VERSION_NUMBER, "the archive has the header's version");
    print_names();
    printf("%lu passed, %lu failed\n", passed, failed);
    return failed != 0;
}
