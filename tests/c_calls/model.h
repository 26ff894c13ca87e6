/* The rules on any content of a board, processor by processor, from the specification alone: sections 3, 4, 5 and 7. What
 * the library answers, and what it leaves, is held against this. A conflict is looked up in the row of the request that is
 * asked about; an entry that has no row conflicts with none.
 */
#include "bittmelon.h"

enum phase { IDLE, WAITING, ENTITLED, HOLDING };

static unsigned model_processors(const struct bittmelon_board *b)
{
    return b->processors < 32 ? b->processors : 32;
}

static int model_has(uint32_t mask, unsigned p)
{
    return mask >> p & 1;
}

/* Clause 4.10: which requests count, and in which phase. */
static void model_phases(const struct bittmelon_board *b, enum phase phase[32])
{
    for (unsigned p = 0; p < 32; p++) {
        int counts = p < model_processors(b) && b->entry[p] < b->entries;
        phase[p] = !counts ? IDLE
            : model_has(b->phases[2], p) ? HOLDING
            : model_has(b->phases[1], p) ? ENTITLED
            : model_has(b->phases[0], p) ? WAITING : IDLE;
    }
}

static uint32_t model_mask(const enum phase phase[32], enum phase is)
{
    uint32_t mask = 0;
    for (unsigned p = 0; p < 32; p++)
        mask |= (uint32_t)(phase[p] == is) << p;
    return mask;
}

static int model_writes(const struct bittmelon_board *b, unsigned p)
{
    return b->entry[p] < 64 && (b->writes >> b->entry[p] & 1);
}

static int model_conflict(const struct bittmelon_board *b, unsigned p, unsigned q)
{
    return b->entry[p] < 64 && b->entry[q] < 64 && (b->rows[b->entry[p]] >> b->entry[q] & 1);
}

/* Whether some request of this phase and kind conflicts with that of p. */
static int model_meets(const struct bittmelon_board *b, const enum phase phase[32], unsigned p, enum phase is, int write)
{
    for (unsigned q = 0; q < 32; q++)
        if (phase[q] == is && model_writes(b, q) == write && model_conflict(b, p, q))
            return 1;
    return 0;
}

/* Whether an unsatisfied write that is earlier conflicts with that of p. */
static int model_behind(const struct bittmelon_board *b, const enum phase phase[32], unsigned p)
{
    for (unsigned q = 0; q < 32; q++)
        if ((phase[q] == WAITING || phase[q] == ENTITLED) && model_writes(b, q) && model_has(b->earlier[p], q)
            && model_conflict(b, p, q))
            return 1;
    return 0;
}

/* Clauses 5.3 to 5.6: the phase of p after a step. */
static enum phase model_step(const struct bittmelon_board *b, const enum phase phase[32], unsigned p, int step)
{
    enum phase is = phase[p];
    if (is == IDLE || is == HOLDING) /* no step moves these */
        return is;
    int write = model_writes(b, p), by_holding = model_meets(b, phase, p, HOLDING, 1);
    int by_entitled = model_meets(b, phase, p, ENTITLED, 1);
    switch (step) {
    case 1: return !write && !by_holding && (is == ENTITLED || (is == WAITING && !by_entitled)) ? HOLDING : is;
    case 2:
        return write && is == WAITING && !model_behind(b, phase, p) && !by_holding && !model_meets(b, phase, p, ENTITLED, 0)
            ? ENTITLED : is;
    case 3: return write && is == ENTITLED && !model_meets(b, phase, p, HOLDING, 0) ? HOLDING : is;
    default: return !write && is == WAITING && by_holding && !by_entitled ? ENTITLED : is;
    }
}

/* Section 5, and clause 4.7: all requests are settled, and who began to hold and who became entitled is told. */
static struct bittmelon_reply model_settled(struct bittmelon_board *b, enum phase phase[32], uint64_t tick)
{
    struct bittmelon_reply reply = {0, 0, 0, 0};
    uint32_t held = model_mask(phase, HOLDING), entitled = model_mask(phase, ENTITLED);
    for (int step = 1; step <= 4; step++) {
        enum phase next[32];
        for (unsigned p = 0; p < 32; p++)
            next[p] = model_step(b, phase, p, step);
        memcpy(phase, next, sizeof next);
    }
    reply.granted = model_mask(phase, HOLDING) & ~held;
    reply.entitled = model_mask(phase, ENTITLED) & ~entitled;
    for (unsigned p = 0; p < 32; p++)
        if (model_has(reply.granted, p))
            b->since[p] = tick;
    return reply;
}

/* The request of p for an entry is put in, waiting: all that are active are earlier, and it is earlier than none. */
static struct bittmelon_reply model_enter(struct bittmelon_board *b, enum phase phase[32], uint8_t p, uint8_t entry,
    uint64_t tick)
{
    for (unsigned q = 0; q < 32; q++)
        b->earlier[q] &= ~((uint32_t)1 << p);
    b->earlier[p] = ~model_mask(phase, IDLE);
    b->entry[p] = entry;
    b->since[p] = tick;
    phase[p] = WAITING;
    return model_settled(b, phase, tick);
}

/* Clause 4.5: the number due, or 0. Verbs are 0 issue, 1 completion, 2 withdrawal, 3 handover. */
static uint32_t model_refusal(const struct bittmelon_board *b, const enum phase phase[32], unsigned verb, uint8_t p,
    uint8_t entry, uint64_t tick)
{
    if (tick < b->last || tick > BITTMELON_MAX_TICK)
        return 10;
    if (p >= model_processors(b))
        return 11;
    if ((verb == 0 || verb == 3) && entry >= b->entries)
        return 12;
    if (verb == 0)
        return phase[p] == IDLE ? 0 : 13;
    if (phase[p] == IDLE)
        return 14;
    if (verb == 2)
        return phase[p] == HOLDING ? 17 : 0;
    return phase[p] == HOLDING ? 0 : 15;
}

static struct bittmelon_reply model_call(struct bittmelon_board *b, unsigned verb, uint8_t p, uint8_t entry, uint64_t tick)
{
    struct bittmelon_reply reply = {0, 0, 0, 0};
    enum phase phase[32];
    model_phases(b, phase);
    reply.refusal = model_refusal(b, phase, verb, p, entry, tick);
    if (reply.refusal != 0)
        return reply;
    if (verb != 0) {
        uint64_t held = tick > b->since[p] ? tick - b->since[p] : 0, length = b->entry[p] < 64 ? b->lengths[b->entry[p]] : 0;
        phase[p] = IDLE;
        reply = model_settled(b, phase, tick);
        reply.late = verb != 2 && held > length;
    }
    if (verb == 0 || verb == 3) {
        struct bittmelon_reply second = model_enter(b, phase, p, entry, tick);
        reply.granted |= second.granted;
        reply.entitled = (reply.entitled | second.entitled) & model_mask(phase, ENTITLED);
    }
    b->last = tick;
    for (int i = 0; i < 3; i++)
        b->phases[i] = model_mask(phase, (enum phase)(WAITING + i));
    return reply;
}

/* Clause 7.2, with the phases of all. */
static uint32_t model_waits(const struct bittmelon_board *b, const enum phase phase[32], unsigned p)
{
    uint32_t mask = 0;
    for (unsigned q = 0; q < 32; q++) {
        int for_it = phase[p] == ENTITLED ? phase[q] == HOLDING && model_writes(b, q) != model_writes(b, p)
            : phase[p] != WAITING ? 0
            : !model_writes(b, p) ? phase[q] == ENTITLED && model_writes(b, q)
            : phase[q] != IDLE && model_writes(b, q) && model_has(b->earlier[p], q);
        mask |= (uint32_t)(for_it && model_conflict(b, p, q)) << q;
    }
    return mask;
}

/* Clause 7.3: of every processor, those to which a chain leads. */
static void model_reaches(const struct bittmelon_board *b, uint32_t reach[32])
{
    enum phase phase[32];
    model_phases(b, phase);
    for (unsigned p = 0; p < 32; p++)
        reach[p] = model_waits(b, phase, p);
    for (int again = 1; again;) {
        again = 0;
        for (unsigned p = 0; p < 32; p++)
            for (unsigned q = 0; q < 32; q++)
                if (model_has(reach[p], q) && (reach[q] & ~reach[p])) {
                    reach[p] |= reach[q];
                    again = 1;
                }
    }
}

static uint8_t *model_put(uint8_t *at, uint64_t number, int size)
{
    while (size-- > 0) {
        *at++ = (uint8_t)number;
        number >>= 8;
    }
    return at;
}

/* Clause 7.4: the words of a scratch, from the reach of all; how many bytes they are. */
static size_t model_words(const struct bittmelon_board *b, const uint32_t reach[32], uint8_t bytes[128])
{
    int size = b->processors <= 16 ? 2 : 4;
    uint8_t *at = bytes;
    for (int p = 0; p < 8 * size; p++)
        at = model_put(at, reach[p], size);
    return (size_t)(at - bytes);
}

/* Clauses 7.7 and 7.8: the list of the whole board; how many bytes it is. */
static size_t model_list(const struct bittmelon_board *b, uint8_t bytes[321])
{
    enum phase phase[32];
    uint8_t *at = model_put(bytes, model_processors(b), 1);
    model_phases(b, phase);
    for (unsigned p = 0; p < model_processors(b); p++) {
        uint64_t waited = b->last > b->since[p] ? b->last - b->since[p] : 0;
        if (phase[p] != WAITING && phase[p] != ENTITLED)
            waited = 0;
        at = model_put(at, phase[p], 1);
        at = model_put(at, phase[p] == IDLE ? 255 : b->entry[p], 1);
        at = model_put(at, waited < 4294967295 ? waited : 4294967295, 4);
        at = model_put(at, model_waits(b, phase, p), b->processors <= 16 ? 2 : 4);
    }
    return (size_t)(at - bytes);
}

/* Clauses 3.2 and 3.4, by the sets that stand on the board: what two entries share. */
static uint64_t model_shared(const struct bittmelon_board *b, uint8_t i, uint8_t j)
{
    int first = i < 64 && (b->writes >> i & 1), second = j < 64 && (b->writes >> j & 1);
    if (i >= 64 || j >= 64 || (!first && !second))
        return 0;
    return first && second ? b->widened[i] & b->widened[j] : b->names[i] & b->names[j];
}
