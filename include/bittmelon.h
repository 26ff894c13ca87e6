/* Bittmelon: the lock arbiter of a board, for C and C++. Link with libbittmelon.a.
 *
 * A board is one struct. The caller owns it and puts it wherever it likes. The library uses no heap and keeps no state of
 * its own. Make a board with bittmelon_fresh from the bytes of a plan. Call it with bittmelon_issue, _complete, _withdraw
 * and _handover. Query it with bittmelon_state, _waits, _reach, _list and _shared. specification.md says exactly what each
 * function does.
 *
 * Only one caller at a time may call a board. Cores that share a board must take turns, for instance with a spin lock.
 * Queries only read the board, so several queries may run at the same time while no call runs. Different boards have
 * nothing in common.
 *
 * Plans, scratches and buffers must lie outside the board. If the size is 0, the pointer may be null.
 *
 * A refusal changes no byte of the board or of a buffer. The struct may contain anything, even junk: every function
 * returns, and touches only what it is given. What the figures promise is true of a board that bittmelon_fresh made and
 * that only these functions changed.
 *
 * Ticks come from a clock of the caller's, in any unit, but the same unit as the plan's lengths. Nothing here reads a
 * clock. Ticks never go back, and they range from 0 to BITTMELON_MAX_TICK. A mask is a set of processors: bit p is
 * processor p.
 */
#ifndef BITTMELON_H
#define BITTMELON_H

#include <stddef.h>
#include <stdint.h>

/* The version in the file VERSION, as text and as the number 10000 x major + 100 x minor + patch. */
#define BITTMELON_VERSION "3.2.0"
#define BITTMELON_VERSION_NUMBER 30200

/* The largest counts of a plan, and the most bytes that a plan takes: 3, and 11 for each entry. */
#define BITTMELON_MAX_PROCESSORS 32
#define BITTMELON_MAX_RESOURCES 64
#define BITTMELON_MAX_ENTRIES 64
#define BITTMELON_MAX_PLAN_BYTES (3 + 11 * BITTMELON_MAX_ENTRIES)

/* The most bytes that the scratch of a reach needs, and the most bytes that a list takes. A scratch needs 32 bytes for up to
 * 16 processors and 128 for more. A list takes 1 byte, and for each processor 8 bytes if there are up to 16 processors and 10
 * if there are more. */
#define BITTMELON_MAX_SCRATCH_BYTES 128
#define BITTMELON_MAX_LIST_BYTES (1 + 10 * BITTMELON_MAX_PROCESSORS)

/* The largest tick, 1,099,511,627,775: 40 bits. */
#define BITTMELON_MAX_TICK ((((uint64_t)1) << 40) - 1)

#define BITTMELON_PROCESSORS_MOST BITTMELON_MAX_PROCESSORS /* old name, kept for one version */
#define BITTMELON_RESOURCES_MOST BITTMELON_MAX_RESOURCES   /* old name, kept for one version */
#define BITTMELON_ENTRIES_MOST BITTMELON_MAX_ENTRIES       /* old name, kept for one version */
#define BITTMELON_PLAN_ROOM BITTMELON_MAX_PLAN_BYTES       /* old name, kept for one version */
#define BITTMELON_SCRATCH_ROOM BITTMELON_MAX_SCRATCH_BYTES /* old name, kept for one version */
#define BITTMELON_LIST_ROOM BITTMELON_MAX_LIST_BYTES       /* old name, kept for one version */
#define BITTMELON_LAST_TICK BITTMELON_MAX_TICK             /* old name, kept for one version */

#ifdef __cplusplus
extern "C" {
#endif

/* Why something was refused. 0 means that it was accepted. */
enum bittmelon_refusal {
    BITTMELON_ACCEPTED = 0,
    BITTMELON_SHORT = 1,       /* short: the bytes end before a count, an entry or a call that is due */
    BITTMELON_TAIL = 2,        /* tail: there are bytes after the last call of a log */
    BITTMELON_PROCESSORS = 3,  /* processors: the count is not 1 to 32 */
    BITTMELON_RESOURCES = 4,   /* resources: the count is not 1 to 64 */
    BITTMELON_ENTRIES = 5,     /* entries: the count is not 1 to 64 */
    BITTMELON_KIND = 6,        /* kind: neither 0 nor 1 */
    BITTMELON_SET = 7,         /* set: no resource, or a resource that the plan does not have */
    BITTMELON_LENGTH = 8,      /* length: 0 */
    BITTMELON_VERB = 9,        /* verb: above 3, or a completion or a withdrawal that has an entry */
    BITTMELON_TICK = 10,       /* tick: below the last accepted one, or above 1,099,511,627,775 */
    BITTMELON_PROCESSOR = 11,  /* processor: not one of the plan's */
    BITTMELON_ENTRY = 12,      /* entry: not one of the plan's */
    BITTMELON_BUSY = 13,       /* busy: an issue while the processor's request is active */
    BITTMELON_IDLE = 14,       /* idle: a completion, a withdrawal or a handover with no active request */
    BITTMELON_UNHELD = 15,     /* unheld: a completion or a handover while the request does not hold */
    BITTMELON_ROOM = 16,       /* room: a buffer or a scratch that is too short */
    BITTMELON_HELD = 17,       /* held: a withdrawal of a request that holds */
    BITTMELON_REGISTER = 18    /* register: an offset that is not listed or may not be written, or a command above 4 */
};

/* The values that bittmelon_state returns. */
enum bittmelon_phase {
    BITTMELON_STATE_IDLE = 0,     /* no request */
    BITTMELON_STATE_WAITING = 1,  /* in the queue */
    BITTMELON_STATE_ENTITLED = 2, /* next in the queue, waiting for holders to finish */
    BITTMELON_STATE_HOLDING = 3   /* granted */
};

/* A board. The fields that calls change come first, then the fields that calls only read, then the fields that only
 * bittmelon_fresh and bittmelon_shared use. The content is the library's business. */
struct bittmelon_board {
    uint64_t last;       /* the last accepted tick */
    uint64_t writes;     /* which entries are writes */
    uint32_t phases[3];  /* masks: waiting, entitled, holding */
    uint8_t processors;  /* the plan's counts of processors and of entries */
    uint8_t entries;
    uint8_t unused[2];   /* never read */
    uint8_t entry[32];   /* for each processor's request: its entry, who was active before it, and its tick */
    uint32_t earlier[32];
    uint64_t since[32];
    uint64_t rows[64];   /* for each entry: which entries it conflicts with, its length, its names and its widened set */
    uint16_t lengths[64];
    uint64_t names[64];
    uint64_t widened[64];
};

/* The answer to a call. If the call is refused, the other fields are 0. */
struct bittmelon_reply {
    uint32_t refusal;    /* enum bittmelon_refusal */
    uint32_t granted;    /* mask: who began to hold in this call */
    uint32_t entitled;   /* mask: who became entitled in this call and still is */
    uint32_t late;       /* 1 if this call completed a hold that was longer than its entry's length */
};

/* The answer to a query. If the query is refused, the value is 0. */
struct bittmelon_answer {
    uint32_t refusal;    /* enum bittmelon_refusal */
    uint64_t value;
};

/* What two entries conflict over. If they do not conflict, or the query is refused, the other fields are 0. */
struct bittmelon_conflict {
    uint32_t refusal;    /* enum bittmelon_refusal */
    uint32_t conflict;   /* 1 if they conflict */
    uint32_t lowest;     /* the lowest-numbered resource that they conflict over */
    uint32_t count;      /* how many resources they conflict over */
};

/* Checks that the layout is the one that the archive was built with. */
#if defined(__cplusplus) && __cplusplus >= 201103L
#define BITTMELON_ASSERT(name, holds) static_assert(holds, #name)
#elif defined(__STDC_VERSION__) && __STDC_VERSION__ >= 201112L
#define BITTMELON_ASSERT(name, holds) _Static_assert(holds, #name)
#else
#define BITTMELON_ASSERT(name, holds) typedef char name[(holds) ? 1 : -1]
#endif
struct bittmelon_aligned {
    char first;
    struct bittmelon_board board;
};
BITTMELON_ASSERT(bittmelon_board_size, sizeof(struct bittmelon_board) == 2112);
BITTMELON_ASSERT(bittmelon_board_alignment, offsetof(struct bittmelon_aligned, board) == 8);
BITTMELON_ASSERT(bittmelon_reply_size, sizeof(struct bittmelon_reply) == 16);
BITTMELON_ASSERT(bittmelon_answer_size, sizeof(struct bittmelon_answer) == 16);
BITTMELON_ASSERT(bittmelon_conflict_size, sizeof(struct bittmelon_conflict) == 16);
#undef BITTMELON_ASSERT

/* The version of the archive. BITTMELON_VERSION_NUMBER is the version of this header. */
uint32_t bittmelon_version_number(void);

/* The next three functions take the bytes of a plan. They ignore bytes after the plan. If the count is 0, the pointer may be
 * null. They only read, and may be called from any thread.
 *
 * The figures are guaranteed if every holder keeps to its entry's declared length. If even one hold is longer, they promise
 * nothing. */

/* The refusal number of the first fault in the order of the bytes (1 or 3 to 8), or 0 if the plan is accepted. */
uint32_t bittmelon_plan_refusal(const uint8_t *bytes, size_t count);

/* The longest time that a read waits if every holder keeps to its length: Lr + Lw, in ticks. 0 for a refused plan. */
uint32_t bittmelon_read_figure(const uint8_t *bytes, size_t count);

/* The longest time that a write waits if every holder keeps to its length: (m - 1) x (Lr + Lw), in ticks. 0 for a refused
 * plan, and for m = 1. */
uint32_t bittmelon_write_figure(const uint8_t *bytes, size_t count);

/* The functions that the archive exports. They take the fields of a board one by one. Do not call them; call the inline
 * functions below this list, which take a board. */
struct bittmelon_answer bittmelon_fresh_parts(const uint8_t *plan, size_t size, uint8_t *processors, uint8_t *entries,
    uint64_t *writes, uint16_t lengths[64], uint64_t names[64], uint64_t widened[64], uint64_t rows[64], uint64_t *last,
    uint32_t phases[3], uint8_t entry[32], uint64_t since[32], uint32_t earlier[32]);
struct bittmelon_reply bittmelon_issue_parts(uint8_t processors, uint8_t entries, uint64_t writes, const uint64_t rows[64],
    const uint16_t lengths[64], uint64_t *last, uint32_t phases[3], uint8_t entry[32], uint64_t since[32],
    uint32_t earlier[32], uint8_t processor, uint8_t requested, uint64_t tick);
struct bittmelon_reply bittmelon_complete_parts(uint8_t processors, uint8_t entries, uint64_t writes, const uint64_t rows[64],
    const uint16_t lengths[64], uint64_t *last, uint32_t phases[3], const uint8_t entry[32], uint64_t since[32],
    const uint32_t earlier[32], uint8_t processor, uint64_t tick);
struct bittmelon_reply bittmelon_withdraw_parts(uint8_t processors, uint8_t entries, uint64_t writes, const uint64_t rows[64],
    const uint16_t lengths[64], uint64_t *last, uint32_t phases[3], const uint8_t entry[32], uint64_t since[32],
    const uint32_t earlier[32], uint8_t processor, uint64_t tick);
struct bittmelon_reply bittmelon_handover_parts(uint8_t processors, uint8_t entries, uint64_t writes, const uint64_t rows[64],
    const uint16_t lengths[64], uint64_t *last, uint32_t phases[3], uint8_t entry[32], uint64_t since[32],
    uint32_t earlier[32], uint8_t processor, uint8_t requested, uint64_t tick);
struct bittmelon_answer bittmelon_state_parts(uint8_t processors, uint8_t entries, const uint32_t phases[3],
    const uint8_t entry[32], uint8_t processor);
struct bittmelon_answer bittmelon_waits_parts(uint8_t processors, uint8_t entries, uint64_t writes, const uint64_t rows[64],
    const uint32_t phases[3], const uint8_t entry[32], const uint32_t earlier[32], uint8_t processor);
struct bittmelon_answer bittmelon_reach_parts(uint8_t processors, uint8_t entries, uint64_t writes, const uint64_t rows[64],
    const uint32_t phases[3], const uint8_t entry[32], const uint32_t earlier[32], uint8_t processor,
    uint8_t *scratch, size_t size);
struct bittmelon_answer bittmelon_list_parts(uint8_t processors, uint8_t entries, uint64_t writes, const uint64_t rows[64],
    uint64_t last, const uint32_t phases[3], const uint8_t entry[32], const uint64_t since[32], const uint32_t earlier[32],
    uint8_t *buffer, size_t size);
struct bittmelon_conflict bittmelon_shared_parts(uint8_t processors, uint8_t entries, uint64_t writes, const uint64_t names[64],
    const uint64_t widened[64], uint8_t first, uint8_t second);

/* Makes the board of a plan, with no requests and the last accepted tick 0. The value is the number of bytes that the plan
 * took; bytes after the plan are ignored. Refused with 1 or 3 to 8. */
static inline struct bittmelon_answer bittmelon_fresh(struct bittmelon_board *board, const uint8_t *plan, size_t size)
{
    return bittmelon_fresh_parts(plan, size, &board->processors, &board->entries, &board->writes, board->lengths,
        board->names, board->widened, board->rows, &board->last, board->phases, board->entry, board->since, board->earlier);
}

/* The processor requests the entry. It holds the entry once its bit is set in the granted mask of a reply, either this one or
 * a later one. Refused with 10, 11, 12 or 13. */
static inline struct bittmelon_reply bittmelon_issue(struct bittmelon_board *board, uint8_t processor, uint8_t entry,
    uint64_t tick)
{
    return bittmelon_issue_parts(board->processors, board->entries, board->writes, board->rows, board->lengths,
        &board->last, board->phases, board->entry, board->since, board->earlier, processor, entry, tick);
}

/* Completes the processor's request, which must hold. Refused with 10, 11, 14 or 15. */
static inline struct bittmelon_reply bittmelon_complete(struct bittmelon_board *board, uint8_t processor, uint64_t tick)
{
    return bittmelon_complete_parts(board->processors, board->entries, board->writes, board->rows, board->lengths,
        &board->last, board->phases, board->entry, board->since, board->earlier, processor, tick);
}

/* Withdraws the processor's request, which must not hold: it leaves the queue. Refused with 10, 11, 14 or 17. */
static inline struct bittmelon_reply bittmelon_withdraw(struct bittmelon_board *board, uint8_t processor, uint64_t tick)
{
    return bittmelon_withdraw_parts(board->processors, board->entries, board->writes, board->rows, board->lengths,
        &board->last, board->phases, board->entry, board->since, board->earlier, processor, tick);
}

/* Completes the processor's request and requests the entry in one call: both happen, or neither. Refused with 10, 11, 12, 14
 * or 15. */
static inline struct bittmelon_reply bittmelon_handover(struct bittmelon_board *board, uint8_t processor, uint8_t entry,
    uint64_t tick)
{
    return bittmelon_handover_parts(board->processors, board->entries, board->writes, board->rows, board->lengths,
        &board->last, board->phases, board->entry, board->since, board->earlier, processor, entry, tick);
}

/* The state of the processor; the value is an enum bittmelon_phase. Refused with 11. */
static inline struct bittmelon_answer bittmelon_state(const struct bittmelon_board *board, uint8_t processor)
{
    return bittmelon_state_parts(board->processors, board->entries, board->phases, board->entry, processor);
}

/* The mask of the processors that this processor waits for directly. Refused with 11. */
static inline struct bittmelon_answer bittmelon_waits(const struct bittmelon_board *board, uint8_t processor)
{
    return bittmelon_waits_parts(board->processors, board->entries, board->writes, board->rows, board->phases,
        board->entry, board->earlier, processor);
}

/* The mask of all processors to which a chain of direct waits leads from this processor. The scratch must not be part of the
 * board. See BITTMELON_MAX_SCRATCH_BYTES for its size. Refused with 11 or 16. */
static inline struct bittmelon_answer bittmelon_reach(const struct bittmelon_board *board, uint8_t processor,
    uint8_t *scratch, size_t size)
{
    return bittmelon_reach_parts(board->processors, board->entries, board->writes, board->rows, board->phases,
        board->entry, board->earlier, processor, scratch, size);
}

/* Writes the list of the whole board into the buffer: the number of processors in one byte, then for each processor its state
 * in one byte, its entry in one byte (255 if it has no request), the ticks that it has waited in four bytes, and its direct
 * waits in two bytes if there are up to 16 processors and in four if there are more. The low byte of a number comes first.
 * The value is the number of bytes written; later bytes of the buffer stay as they were. See BITTMELON_MAX_LIST_BYTES for the
 * size. Refused with 16. */
static inline struct bittmelon_answer bittmelon_list(const struct bittmelon_board *board, uint8_t *buffer, size_t size)
{
    return bittmelon_list_parts(board->processors, board->entries, board->writes, board->rows, board->last,
        board->phases, board->entry, board->since, board->earlier, buffer, size);
}

/* What two entries of the plan conflict over. Refused with 12. */
static inline struct bittmelon_conflict bittmelon_shared(const struct bittmelon_board *board, uint8_t first, uint8_t second)
{
    return bittmelon_shared_parts(board->processors, board->entries, board->writes, board->names, board->widened,
        first, second);
}

#ifdef __cplusplus
}
#endif

#endif
