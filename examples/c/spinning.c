/* Six threads share a board, as cores do. Each thread requests entries of a plan and spins until its request is granted.
 * usage: spinning [SECONDS [LOG LISTING]]
 *
 * Calls are made one at a time, under a spin lock. The thread that makes a call publishes who began to hold in it, by setting
 * a word for each such thread. A waiting thread spins on its own word only. Now and then a waiting thread withdraws, and some
 * holders hand over. While a thread holds, it checks that no conflicting thread holds too. Ticks are microseconds since the
 * start.
 *
 * LOG receives the plan and the first calls as they were made, at most 65,535. LISTING receives the answers to them, as
 * lockreplay prints them for that log. Exit status: 0; 1 if a conflicting holder was seen or a call was refused that should
 * not have been; 2 for a wrong argument, a thread that cannot be started or a file that cannot be written.
 */
#define _POSIX_C_SOURCE 200809L
#include <inttypes.h>
#include <pthread.h>
#include <sched.h>
#include <stdatomic.h>
#include <stdio.h>
#include <stdlib.h>
#include <time.h>

#include "bittmelon.h"

#define THREADS 6
#define RESOURCES 4
#define ENTRIES 8
#define LOGGED 65535
#define WRITER 0x10000u /* what a writer adds to a resource's count of holders; a reader adds 1 */

static const struct {
    uint8_t writes;
    uint8_t names;   /* bit r is resource r */
    uint16_t length; /* in ticks */
} plan[ENTRIES] = {
    {0, 0x1, 60}, {0, 0x3, 60}, {0, 0xc, 60}, {0, 0xf, 80}, {1, 0x1, 40}, {1, 0x6, 40}, {1, 0x8, 50}, {1, 0x5, 50},
};

struct logged {
    uint8_t verb, processor, entry;
    uint64_t tick;
    struct bittmelon_reply reply;
};

/* The lock, and the variables that it protects. */
static atomic_flag lock = ATOMIC_FLAG_INIT;
static struct bittmelon_board board;
static struct logged calls[LOGGED];
static size_t logged;
static uint64_t last;
static uint64_t made, refused, late;

static struct timespec start;
static atomic_bool stop;
static atomic_uint granted[THREADS]; /* set by the thread that makes the granting call, cleared by the granted thread */
static atomic_uint holders[RESOURCES];
static atomic_ulong violations, holds, withdrawn, handed_over;
static uint64_t record[RESOURCES]; /* the data that the resources protect: not atomic */

static uint64_t now(void)
{
    struct timespec t;
    clock_gettime(CLOCK_MONOTONIC, &t);
    return (uint64_t)((t.tv_sec - start.tv_sec) * 1000000 + (t.tv_nsec - start.tv_nsec) / 1000);
}

static uint32_t next(uint32_t *seed)
{
    *seed = *seed * 1103515245u + 12345u;
    return *seed >> 8;
}

/* Makes the call that the verb names (the verbs are those of a log) and publishes which threads it granted. */
static struct bittmelon_reply call(uint8_t verb, uint8_t processor, uint8_t entry)
{
    while (atomic_flag_test_and_set_explicit(&lock, memory_order_acquire))
        sched_yield();
    uint64_t tick = now();
    if (tick < last)
        tick = last; /* the clocks of two cores may differ */
    last = tick;
    struct bittmelon_reply reply = verb == 0 ? bittmelon_issue(&board, processor, entry, tick)
        : verb == 1 ? bittmelon_complete(&board, processor, tick)
        : verb == 2 ? bittmelon_withdraw(&board, processor, tick)
        : bittmelon_handover(&board, processor, entry, tick);
    for (uint32_t left = reply.granted; left != 0; left &= left - 1) {
        unsigned who = 0;
        while (!(left >> who & 1))
            who++;
        atomic_store_explicit(&granted[who], 1, memory_order_release);
    }
    if (logged < LOGGED)
        calls[logged++] = (struct logged){verb, processor, entry, tick, reply};
    made++;
    refused += reply.refusal != 0;
    late += reply.late;
    atomic_flag_clear_explicit(&lock, memory_order_release);
    return reply;
}

/* Holds for this many microseconds, and checks for a conflicting holder: a writer together with anybody else. */
static void hold(uint8_t entry, uint64_t ticks)
{
    unsigned mine = plan[entry].writes ? WRITER : 1;
    for (unsigned r = 0; r < RESOURCES; r++) {
        if (!(plan[entry].names >> r & 1))
            continue;
        unsigned others = atomic_fetch_add(&holders[r], mine);
        if (plan[entry].writes ? others != 0 : others >= WRITER)
            atomic_fetch_add(&violations, 1);
    }
    uint64_t until = now() + ticks, seen = 0;
    do {
        for (unsigned r = 0; r < RESOURCES; r++) {
            if (!(plan[entry].names >> r & 1))
                continue;
            if (plan[entry].writes)
                record[r]++;
            else
                seen += record[r];
        }
    } while (now() < until);
    (void)seen;
    for (unsigned r = 0; r < RESOURCES; r++)
        if (plan[entry].names >> r & 1)
            atomic_fetch_sub(&holders[r], mine);
    atomic_fetch_add(&holds, 1);
}

/* Spins until the thread's request is granted, and returns whether it holds. If looks is not 0, withdraws after that many
 * looks. */
static int wait_for_grant(uint8_t processor, unsigned looks)
{
    for (unsigned looked = 0; !atomic_load_explicit(&granted[processor], memory_order_acquire); looked++) {
        if (looks != 0 && looked == looks) {
            uint32_t refusal = call(2, processor, 0).refusal;
            if (refusal == 0) {
                atomic_fetch_add(&withdrawn, 1);
                return 0;
            }
            if (refusal != BITTMELON_HELD) /* BITTMELON_HELD: granted in the meantime */
                atomic_fetch_add(&violations, 1);
        }
        sched_yield();
    }
    return 1;
}

static void *run(void *argument)
{
    uint8_t processor = *(uint8_t *)argument;
    uint32_t seed = processor + 1u;
    int active = 0; /* whether a handover has already issued the next request */
    uint8_t entry = 0;
    while (active || !atomic_load(&stop)) {
        if (!active) {
            entry = (uint8_t)(next(&seed) % ENTRIES);
            atomic_store_explicit(&granted[processor], 0, memory_order_relaxed);
            if (call(0, processor, entry).refusal != 0)
                atomic_fetch_add(&violations, 1);
        }
        active = 0;
        if (!wait_for_grant(processor, next(&seed) % 4 == 0 ? 1 + next(&seed) % 20 : 0))
            continue;
        hold(entry, next(&seed) % 30);
        uint8_t verb = 1;
        if (next(&seed) % 3 == 0 && !atomic_load(&stop)) {
            verb = 3;
            active = 1;
            entry = (uint8_t)(next(&seed) % ENTRIES);
            atomic_fetch_add(&handed_over, 1);
        }
        atomic_store_explicit(&granted[processor], 0, memory_order_relaxed);
        if (call(verb, processor, verb == 3 ? entry : 0).refusal != 0)
            atomic_fetch_add(&violations, 1);
    }
    return NULL;
}

static size_t plan_bytes(uint8_t bytes[BITTMELON_MAX_PLAN_BYTES])
{
    size_t size = 0;
    bytes[size++] = THREADS;
    bytes[size++] = RESOURCES;
    bytes[size++] = ENTRIES;
    for (int e = 0; e < ENTRIES; e++) {
        bytes[size++] = plan[e].writes;
        bytes[size++] = plan[e].names;
        for (int i = 0; i < 7; i++)
            bytes[size++] = 0;
        bytes[size++] = (uint8_t)plan[e].length;
        bytes[size++] = (uint8_t)(plan[e].length >> 8);
    }
    return size;
}

static int write_log(const char *path, const uint8_t *bytes, size_t size)
{
    FILE *file = fopen(path, "wb");
    if (!file)
        return 0;
    fwrite(bytes, 1, size, file);
    fputc((int)(logged & 255), file);
    fputc((int)(logged >> 8), file);
    for (size_t i = 0; i < logged; i++) {
        uint8_t call_bytes[8] = {calls[i].verb, calls[i].processor, calls[i].entry};
        for (int b = 0; b < 5; b++)
            call_bytes[3 + b] = (uint8_t)(calls[i].tick >> 8 * b);
        fwrite(call_bytes, 1, 8, file);
    }
    return fclose(file) == 0;
}

static int write_listing(const char *path, const uint8_t *bytes, size_t size)
{
    FILE *file = fopen(path, "w");
    if (!file)
        return 0;
    fprintf(file, "processors %d resources %d entries %d read %" PRIu32 " write %" PRIu32 "\n", THREADS, RESOURCES, ENTRIES,
        bittmelon_read_figure(bytes, size), bittmelon_write_figure(bytes, size));
    for (size_t i = 0; i < logged; i++) {
        struct bittmelon_reply reply = calls[i].reply;
        fprintf(file, "%" PRIu64 " %c %d ", calls[i].tick, "icwh"[calls[i].verb], calls[i].processor);
        if (reply.refusal != 0)
            fprintf(file, "refused %" PRIu32 "\n", reply.refusal);
        else
            fprintf(file, "%04" PRIx32 " %04" PRIx32 " %" PRIu32 "\n", reply.granted, reply.entitled, reply.late);
    }
    return fclose(file) == 0;
}

int main(int argc, char **argv)
{
    uint8_t bytes[BITTMELON_MAX_PLAN_BYTES];
    size_t size = plan_bytes(bytes);
    double seconds = argc > 1 ? strtod(argv[1], NULL) : 3;
    if ((argc != 1 && argc != 2 && argc != 4) || !(seconds > 0)) {
        fprintf(stderr, "usage: spinning [SECONDS [LOG LISTING]]\n");
        return 2;
    }
    if (bittmelon_fresh(&board, bytes, size).refusal != 0)
        return 1;
    clock_gettime(CLOCK_MONOTONIC, &start);
    pthread_t threads[THREADS];
    uint8_t numbers[THREADS];
    for (uint8_t p = 0; p < THREADS; p++) {
        numbers[p] = p;
        if (pthread_create(&threads[p], NULL, run, &numbers[p]) != 0) {
            fprintf(stderr, "spinning: no thread\n");
            return 2;
        }
    }
    struct timespec length = {(time_t)seconds, (long)((seconds - (double)(time_t)seconds) * 1e9)};
    nanosleep(&length, NULL);
    atomic_store(&stop, 1);
    for (int p = 0; p < THREADS; p++)
        pthread_join(threads[p], NULL);
    printf("calls %" PRIu64 " logged %zu holds %lu withdrawn %lu handed over %lu refused %" PRIu64 " late %" PRIu64
        " violations %lu\n", made, logged, atomic_load(&holds), atomic_load(&withdrawn), atomic_load(&handed_over), refused, late,
        atomic_load(&violations));
    if (argc == 4 && !(write_log(argv[2], bytes, size) && write_listing(argv[3], bytes, size))) {
        fprintf(stderr, "spinning: cannot write %s and %s\n", argv[2], argv[3]);
        return 2;
    }
    return atomic_load(&violations) != 0;
}
