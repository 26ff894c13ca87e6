/* Listings of logs, through the functions for C, with junk in the board first.
 * usage: listings calls|queries|conflicts FOLDER LOG...
 *
 * For each LOG a file of its name in FOLDER gets what lockreplay, query_listing or conflict_listing prints for it. Before the
 * board is made it has junk, on which calls and queries are made. Every answer, and the board and the bytes of the buffers
 * after it, is held against a model of the rules on any content (model.h). Behind the board, the log and every buffer is a page that cannot be touched, and before
 * them are bytes that have to stay.
 *
 * The last line counts what was asked and what was wrong. Exit status: 0 only if nothing was.
 */
#define _GNU_SOURCE
#include <inttypes.h>
#include <stdio.h>
#include <stdlib.h>
#include <string.h>
#include <sys/mman.h>

#include "bittmelon.h"
#include "model.h"

#define FILL 170
#define ACTIONS 24 /* on the junk of a log */

enum asked { FRESH, ISSUE, COMPLETE, WITHDRAW, HANDOVER, STATE, WAITS, REACH, LIST, SHARED, FUNCTIONS };
static const char *const names[FUNCTIONS] = {
    "fresh", "issue", "complete", "withdraw", "handover", "state", "waits", "reach", "list", "shared"};
#define BIT(number) (1u << (number))
static const uint32_t refusals[FUNCTIONS] = { /* the numbers that each may give: clause 8.2 of the specification */
    BIT(1) | BIT(3) | BIT(4) | BIT(5) | BIT(6) | BIT(7) | BIT(8),
    BIT(10) | BIT(11) | BIT(12) | BIT(13),
    BIT(10) | BIT(11) | BIT(14) | BIT(15),
    BIT(10) | BIT(11) | BIT(14) | BIT(17),
    BIT(10) | BIT(11) | BIT(12) | BIT(14) | BIT(15),
    BIT(11), BIT(11), BIT(11) | BIT(16), BIT(16), BIT(12)};
static uint32_t seen[FUNCTIONS];

struct region { /* some bytes with a page behind them that cannot be touched */
    uint8_t *start, *end;
};
static struct region of_board, of_log, of_buffer;
static struct bittmelon_board *board;
static struct bittmelon_board before;
static uint64_t seed;
static unsigned long asked, wrong;
static const char *current = "";

static struct region region(size_t size)
{
    uint8_t *start = mmap(NULL, size + 4096, PROT_READ | PROT_WRITE, MAP_PRIVATE | MAP_ANONYMOUS, -1, 0);
    if (start == MAP_FAILED || mprotect(start + size, 4096, PROT_NONE) != 0)
        abort();
    return (struct region){start, start + size};
}

static void expect(int holds, enum asked f, const char *what)
{
    if (holds)
        return;
    if (wrong++ < 20)
        printf("%s: %s: %s\n", current, names[f], what);
}

static uint64_t below(uint64_t n)
{
    seed = seed * 6364136223846793005u + 1442695040888963407u;
    return (seed >> 33) % n;
}

/* What holds after every function: it gave a number that it may give, and a refusal and a query leave the board as it was. */
static void check(enum asked f, uint32_t refusal, int rest_is_zero)
{
    asked++;
    expect(refusal == 0 || (refusal < 32 && refusals[f] >> refusal & 1), f, "a refusal that it does not have");
    expect(refusal == 0 || rest_is_zero, f, "more than a refusal");
    if (refusal < 32)
        seen[f] |= BIT(refusal);
    if (refusal != 0 || f >= STATE) {
        expect(memcmp(board, &before, sizeof before) == 0, f, "the board changed");
        return;
    }
    expect(memcmp(board->unused, before.unused, sizeof before.unused) == 0, f, "unused bytes changed");
    if (f == FRESH)
        return;
    size_t rows = offsetof(struct bittmelon_board, rows);
    expect(memcmp((uint8_t *)board + rows, (uint8_t *)&before + rows, sizeof before - rows) == 0, f, "the plan changed");
    expect(board->processors == before.processors && board->entries == before.entries && board->writes == before.writes, f,
        "the counts changed");
    if (f == COMPLETE || f == WITHDRAW)
        expect(memcmp(board->entry, before.entry, 32) == 0 && memcmp(board->earlier, before.earlier, 128) == 0, f,
            "entries or orders changed");
}

/* The bytes before the board, which nothing may touch. */
static void check_around(enum asked f)
{
    for (uint8_t *byte = of_board.start; byte < (uint8_t *)board; byte++)
        expect(*byte == FILL, f, "a byte before the board changed");
}

static struct bittmelon_answer fresh(const uint8_t *bytes, size_t size)
{
    before = *board;
    struct bittmelon_answer answer = bittmelon_fresh(board, bytes, size);
    check(FRESH, answer.refusal, answer.value == 0);
    expect(answer.refusal == bittmelon_plan_refusal(bytes, size), FRESH, "another refusal than the plan's");
    check_around(FRESH);
    return answer;
}

/* A call by its number in a log. */
static struct bittmelon_reply call(unsigned verb, uint8_t processor, uint8_t entry, uint64_t tick)
{
    before = *board;
    struct bittmelon_reply reply = verb == 0 ? bittmelon_issue(board, processor, entry, tick)
        : verb == 1 ? bittmelon_complete(board, processor, tick)
        : verb == 2 ? bittmelon_withdraw(board, processor, tick)
        : bittmelon_handover(board, processor, entry, tick);
    check((enum asked)(ISSUE + verb), reply.refusal, reply.granted == 0 && reply.entitled == 0 && reply.late == 0);
    struct bittmelon_board after = before;
    struct bittmelon_reply due = model_call(&after, verb, processor, entry, tick);
    expect(memcmp(&reply, &due, sizeof due) == 0, (enum asked)(ISSUE + verb), "another answer than the model's");
    expect(memcmp(board, &after, sizeof after) == 0, (enum asked)(ISSUE + verb), "another board than the model's");
    return reply;
}

/* The last so many bytes of the buffers' region, all of which are 170. */
static uint8_t *buffer_of(size_t size)
{
    memset(of_buffer.start, FILL, (size_t)(of_buffer.end - of_buffer.start));
    return size == 0 ? NULL : of_buffer.end - size;
}

/* Whether all bytes between two places are 170: the first is, and each is as the one before it. */
static int all_filled(const uint8_t *from, const uint8_t *to)
{
    return from == to || (*from == FILL && memcmp(from, from + 1, (size_t)(to - from - 1)) == 0);
}

/* Whether all bytes of the buffers' region are 170 but the first so many of a buffer. */
static int kept_but(size_t size, size_t written)
{
    uint8_t *from = of_buffer.end - size, *behind = written < size ? from + written : of_buffer.end;
    return all_filled(of_buffer.start, from) && all_filled(behind, of_buffer.end);
}

static size_t scratch_room(void)
{
    return board->processors <= 16 ? 32 : 128;
}

static size_t list_room(void)
{
    size_t m = board->processors < 32 ? board->processors : 32;
    return 1 + m * (board->processors <= 16 ? 8 : 10);
}

/* The number due for a query about a processor. */
static uint32_t due_for(uint8_t processor)
{
    return processor < model_processors(board) ? 0 : 11;
}

static struct bittmelon_answer state(uint8_t processor)
{
    before = *board;
    struct bittmelon_answer answer = bittmelon_state(board, processor);
    enum phase phase[32];
    model_phases(board, phase);
    check(STATE, answer.refusal, answer.value == 0);
    expect(answer.refusal == due_for(processor), STATE, "another refusal than the model's");
    expect(answer.refusal || answer.value == (uint64_t)phase[processor], STATE, "another state than the model's");
    return answer;
}

static struct bittmelon_answer waits(uint8_t processor)
{
    before = *board;
    struct bittmelon_answer answer = bittmelon_waits(board, processor);
    enum phase phase[32];
    model_phases(board, phase);
    check(WAITS, answer.refusal, answer.value == 0);
    expect(answer.refusal == due_for(processor), WAITS, "another refusal than the model's");
    expect(answer.refusal || answer.value == model_waits(board, phase, processor), WAITS,
        "other waits than the model's");
    return answer;
}

static struct bittmelon_answer reach(uint8_t processor, size_t size)
{
    before = *board;
    struct bittmelon_answer answer = bittmelon_reach(board, processor, buffer_of(size), size);
    check(REACH, answer.refusal, answer.value == 0);
    expect(answer.refusal == 11 || (answer.refusal == 16) == (size < scratch_room()), REACH, "the wrong room");
    expect(kept_but(size, answer.refusal ? 0 : scratch_room()), REACH, "bytes outside the scratch changed");
    expect((answer.refusal == 11) == (due_for(processor) == 11), REACH, "another refusal than the model's");
    if (answer.refusal == 0) {
        uint8_t words[128];
        uint32_t reaches[32];
        model_reaches(board, reaches);
        expect(answer.value == reaches[processor], REACH, "another reach than the model's");
        size_t bytes = model_words(board, reaches, words);
        expect(memcmp(of_buffer.end - size, words, bytes) == 0, REACH, "other words than the model's");
    }
    return answer;
}

static struct bittmelon_answer list(size_t size)
{
    before = *board;
    struct bittmelon_answer answer = bittmelon_list(board, buffer_of(size), size);
    check(LIST, answer.refusal, answer.value == 0);
    expect((answer.refusal == 16) == (size < list_room()), LIST, "the wrong room");
    expect(answer.refusal || answer.value == list_room(), LIST, "the wrong size");
    expect(kept_but(size, answer.refusal ? 0 : list_room()), LIST, "bytes outside the list changed");
    uint8_t due[321];
    size_t bytes = model_list(board, due);
    expect(answer.refusal || (answer.value == bytes && memcmp(of_buffer.end - size, due, bytes) == 0), LIST,
        "another list than the model's");
    return answer;
}

static struct bittmelon_conflict shared(uint8_t first, uint8_t second)
{
    before = *board;
    struct bittmelon_conflict answer = bittmelon_shared(board, first, second);
    check(SHARED, answer.refusal, answer.conflict == 0 && answer.lowest == 0 && answer.count == 0);
    uint64_t over = model_shared(board, first, second);
    int none = first >= board->entries || second >= board->entries;
    expect(answer.refusal == (none ? 12u : 0u), SHARED, "another refusal than the model's");
    expect(none || (answer.conflict == (over != 0) && answer.count == (uint32_t)__builtin_popcountll(over)
        && answer.lowest == (over ? (uint32_t)__builtin_ctzll(over) : 0)), SHARED, "another conflict than the model's");
    return answer;
}

static size_t some_size(size_t room)
{
    return below(4) == 0 ? below(2 * room) : room + below(3) - 1;
}

static void act_on_junk(void)
{
    uint8_t processor = (uint8_t)(below(4) ? below(board->processors + 1u) : below(256));
    uint8_t entry = (uint8_t)(below(4) ? below(board->entries + 1u) : below(256));
    uint64_t ticks[] = {board->last, board->last + 1 + below(90), board->last - 1, BITTMELON_MAX_TICK, BITTMELON_MAX_TICK + 1};
    uint64_t tick = ticks[below(4) ? below(2) : below(5)];
    unsigned act = (unsigned)below(9);
    switch (act) {
    case 4: state(processor); break;
    case 5: waits(processor); break;
    case 6: reach(processor, some_size(scratch_room())); break;
    case 7: list(some_size(list_room())); break;
    case 8: shared(entry, (uint8_t)below(board->entries + 1u)); break;
    default: call(act, processor, entry, tick);
    }
    check_around(act == 8 ? SHARED : (enum asked)(ISSUE + act));
}

static void fill_with_junk(unsigned kind)
{
    uint8_t *bytes = (uint8_t *)board;
    uint8_t same = (uint8_t)(below(2) ? below(256) : 255 * below(2));
    for (size_t i = 0; i < sizeof *board; i++)
        bytes[i] = kind == 0 ? same : (uint8_t)below(256);
    if (kind < 2)
        return;
    board->processors = (uint8_t)(1 + below(kind == 2 ? 32 : 40));
    board->entries = (uint8_t)(1 + below(kind == 2 ? 64 : 80));
    board->last >>= 24 + below(40);
    for (size_t i = 0; i < 32; i++) {
        board->entry[i] = (uint8_t)below(kind == 2 ? board->entries : board->entries + 3u);
        board->since[i] >>= 24 + below(40);
    }
}

/* The board that fresh makes does not depend on what was there. */
static void check_fresh(const uint8_t *bytes, size_t size)
{
    static struct bittmelon_board other;
    memset(&other, 0, sizeof other);
    memcpy(other.unused, board->unused, sizeof other.unused);
    expect(bittmelon_fresh(&other, bytes, size).refusal == 0, FRESH, "refused another time");
    expect(memcmp(board, &other, sizeof other) == 0, FRESH, "what was there before shows");
}

static int digits(void)
{
    return board->processors <= 16 ? 4 : 8;
}

static void print_bytes(FILE *out, const char *word, const uint8_t *bytes, size_t size)
{
    fprintf(out, "%s ", word);
    for (size_t i = 0; i < size; i++)
        fprintf(out, "%02x", bytes[i]);
    fputc('\n', out);
}

/* What query_listing prints after a call. */
static void print_queries(FILE *out)
{
    for (uint8_t p = 0; p < 33; p++) {
        struct bittmelon_answer is = state(p), direct = waits(p), reached = reach(p, scratch_room());
        expect(is.refusal == direct.refusal && is.refusal == reached.refusal, STATE, "another refusal than waits and reach");
        if (is.refusal != 0)
            fprintf(out, "%u refused %" PRIu32 "\n", p, is.refusal);
        else
            fprintf(out, "%u %" PRIu64 " %0*" PRIx64 " %0*" PRIx64 "\n", p, is.value, digits(), direct.value, digits(),
                reached.value);
    }
    size_t size = list_room() + 16;
    list(size);
    print_bytes(out, "board", of_buffer.end - size, size);
    size = scratch_room() + 16;
    reach(0, size);
    print_bytes(out, "scratch", of_buffer.end - size, size);
}

/* What conflict_listing prints for a plan. */
static void print_conflicts(FILE *out)
{
    for (uint8_t i = 0; i < board->entries; i++)
        for (uint8_t j = i; j < board->entries; j++) {
            struct bittmelon_conflict over = shared(i, j), back = shared(j, i);
            expect(memcmp(&over, &back, sizeof over) == 0, SHARED, "not the same the other way round");
            if (over.conflict)
                fprintf(out, "%u %u %" PRIu32 " %" PRIu32 "\n", i, j, over.lowest, over.count);
            else
                fprintf(out, "%u %u none\n", i, j);
        }
    fprintf(out, "0 %u refused %" PRIu32 "\n", board->entries, shared(0, board->entries).refusal);
}

static void print_call(FILE *out, const uint8_t *record)
{
    uint64_t tick = 0;
    for (int i = 7; i >= 3; i--)
        tick = tick << 8 | record[i];
    struct bittmelon_reply reply = call(record[0], record[1], record[2], tick);
    fprintf(out, "%" PRIu64 " %c %u ", tick, "icwh"[record[0]], record[1]);
    if (reply.refusal != 0)
        fprintf(out, "refused %" PRIu32 "\n", reply.refusal);
    else
        fprintf(out, "%0*" PRIx32 " %0*" PRIx32 " %" PRIu32 "\n", digits(), reply.granted, digits(), reply.entitled, reply.late);
}

/* The calls of a log, from the bytes behind its plan. Gives the number of the fault that ends the listing, or 0. */
static unsigned print_calls(FILE *out, const uint8_t *bytes, size_t left, int queries)
{
    if (left < 2)
        return 1;
    unsigned count = bytes[0] + 256u * bytes[1];
    bytes += 2;
    left -= 2;
    for (; count > 0; count--, bytes += 8, left -= 8) {
        if (left < 8)
            return 1;
        if (bytes[0] > 3 || ((bytes[0] == 1 || bytes[0] == 2) && bytes[2] != 0))
            return 9;
        print_call(out, bytes);
        if (queries)
            print_queries(out);
    }
    return left == 0 ? 0 : 2;
}

static void print_log(FILE *out, const uint8_t *bytes, size_t size, const char *kind)
{
    struct bittmelon_answer made = fresh(bytes, size);
    if (made.refusal != 0) {
        fprintf(out, "refused %" PRIu32 "\n", made.refusal);
        return;
    }
    check_fresh(bytes, size);
    if (kind[1] == 'o') {
        print_conflicts(out);
        return;
    }
    fprintf(out, "processors %u resources %u entries %u read %" PRIu32 " write %" PRIu32 "\n", bytes[0], bytes[1], bytes[2],
        bittmelon_read_figure(bytes, size), bittmelon_write_figure(bytes, size));
    unsigned fault = print_calls(out, bytes + made.value, size - made.value, kind[0] == 'q');
    if (fault != 0)
        fprintf(out, "refused %u\n", fault);
}

static void take_log(const char *kind, const char *folder, const char *path)
{
    char name[4096];
    const char *slash = strrchr(path, '/');
    snprintf(name, sizeof name, "%s/%s", folder, slash ? slash + 1 : path);
    current = path;
    FILE *in = fopen(path, "rb"), *out = fopen(name, "wb");
    if (!in || !out)
        exit(2);
    fseek(in, 0, SEEK_END);
    size_t size = (size_t)ftell(in);
    rewind(in);
    if (size > (size_t)(of_log.end - of_log.start) || fread(of_log.end - size, 1, size, in) != size)
        exit(2);
    fclose(in);
    fill_with_junk((unsigned)below(4));
    for (int i = 0; i < ACTIONS; i++)
        act_on_junk();
    print_log(out, size == 0 ? NULL : of_log.end - size, size, kind);
    fclose(out);
}

/* A plan for each of its refusals. */
static void refused_plans(void)
{
    static const uint8_t good[14] = {1, 1, 1, 0, 1, 0, 0, 0, 0, 0, 0, 0, 1, 0};
    static const struct {
        uint8_t at, value, refusal;
    } edits[] = {{0, 0, 3}, {0, 33, 3}, {1, 0, 4}, {1, 65, 4}, {2, 0, 5}, {2, 65, 5}, {2, 2, 1}, {3, 2, 6}, {4, 0, 7}, {4, 2, 7},
        {12, 0, 8}};
    for (size_t i = 0; i < sizeof edits / sizeof *edits; i++) {
        uint8_t *bytes = of_log.end - sizeof good;
        memcpy(bytes, good, sizeof good);
        bytes[edits[i].at] = edits[i].value;
        expect(fresh(bytes, sizeof good).refusal == edits[i].refusal, FRESH, "another refusal than it has");
    }
}

int main(int argc, char **argv)
{
    if (argc < 4)
        return 2;
    of_board = region(4096);
    of_log = region(1 << 20);
    of_buffer = region(4096);
    memset(of_board.start, FILL, 4096);
    board = (struct bittmelon_board *)(void *)(of_board.end - sizeof *board);
    seed = (uint64_t)(unsigned char)argv[1][0];
    refused_plans();
    for (int i = 3; i < argc; i++)
        take_log(argv[1], argv[2], argv[i]);
    current = "all logs";
    for (int f = 0; f < FUNCTIONS; f++)
        expect((seen[f] & ~1u) == refusals[f] && seen[f] & 1, (enum asked)f, "a refusal that never was, or nothing else");
    expect(bittmelon_version_number() == BITTMELON_VERSION_NUMBER, FRESH, "the archive's version is not the header's");
    printf("%s: %d logs, %lu asked, %lu wrong\n", argv[1], argc - 3, asked, wrong);
    return wrong != 0;
}
