/* walks FRAMES WALKS: the library and the plain C on the same image and addresses, in turns, in one process.
 * Prints a line for each walk: its name, then the nanoseconds of a walk in five runs of C and in five runs of the library.
 * A run has many short turns of each side, one after the other, and counts the fastest: others use the machine too. */
#include <stdint.h>
#include <stdio.h>
#include <stdlib.h>
#include <string.h>
#include <time.h>
#include "pageledger.h"

typedef uint64_t stage2_fn(const uint8_t *, size_t, uint64_t, uint64_t, uint64_t, uint64_t, uint64_t, uint64_t *, size_t);
typedef uint64_t both_fn(const uint8_t *, size_t, uint64_t, uint64_t, uint64_t, uint64_t, uint64_t, uint64_t, uint64_t,
                         uint64_t *, size_t);
stage2_fn plain_stage2;
both_fn plain_both_stages;

enum { RUNS = 5, TURNS = 100, ADDRESSES = 1 << 16 };

static uint64_t state = 88172645463325252u;
static uint64_t random_number(void)
{
    state ^= state << 13;
    state ^= state >> 7;
    state ^= state << 17;
    return state;
}

static double now(void)
{
    struct timespec t;
    clock_gettime(CLOCK_MONOTONIC, &t);
    return (double)t.tv_sec * 1e9 + (double)t.tv_nsec;
}

static const uint64_t base = 0x40000000;
static uint64_t frames, length, addresses[ADDRESSES];
static uint8_t *ram;
static volatile uint64_t sink;

/* Every frame is a table that stage 1 and stage 2 share: each descriptor leads to some frame, and is a page at level 3. */
static void fill(void)
{
    for (uint64_t i = 0; i < length; i += 8) {
        uint64_t d = (base + 4096 * (random_number() % frames)) | 0x4c3;
        memcpy(ram + i, &d, 8);
    }
    for (int i = 0; i < ADDRESSES; i++)
        addresses[i] = random_number() >> 16;
}

static uint64_t use(const uint64_t *answer, uint64_t sum)
{
    return sum * 31 + answer[1] + answer[6];
}

/* One turn; keeps its time if it is the fastest. */
static void keep(double began, double *fastest)
{
    double took = now() - began;
    if (*fastest == 0 || took < *fastest)
        *fastest = took;
}

static uint64_t address(long i)
{
    return addresses[i % ADDRESSES] ^ ((uint64_t)i << 12 & 0xfffffff000);
}

static uint64_t time_stage2(stage2_fn *f, long from, long walks, double *fastest)
{
    uint64_t answer[7], sum = 0;
    double began = now();
    for (long i = from; i < from + walks; i++) {
        f(ram, length, base, frames, base, address(i), i & 1, answer, 7);
        sum = use(answer, sum);
    }
    keep(began, fastest);
    return sum;
}

static uint64_t time_both(both_fn *f, long from, long walks, double *fastest)
{
    uint64_t answer[7], sum = 0;
    double began = now();
    for (long i = from; i < from + walks; i++) {
        f(ram, length, base, frames, base, base, address(i), 0, i & 1, answer, 7);
        sum = use(answer, sum);
    }
    keep(began, fastest);
    return sum;
}

static int differ(uint64_t a, uint64_t access, uint64_t el)
{
    enum { N = PAGELEDGER_ANSWER_NUMBERS };
    uint64_t c[N], ours[N], c2[N], ours2[N];
    uint64_t status = plain_stage2(ram, length, base, frames, base, a, access, c, N)
                      | pageledger_stage2(ram, length, base, frames, base, a, access, ours, N)
                      | plain_both_stages(ram, length, base, frames, base, base, a, access, el, c2, N)
                      | pageledger_both_stages(ram, length, base, frames, base, base, a, access, el, ours2, N);
    return status != PAGELEDGER_DONE || memcmp(c, ours, sizeof c) || memcmp(c2, ours2, sizeof c2);
}

static void report(const char *name, double fastest[2][RUNS], long walks)
{
    printf("%s", name);
    for (int side = 0; side < 2; side++)
        for (int run = 0; run < RUNS; run++)
            printf(" %.3f", fastest[side][run] / (double)walks);
    printf("\n");
}

int main(int count, char **words)
{
    if (count != 3)
        return 2;
    frames = strtoull(words[1], 0, 0);
    long walks = atol(words[2]) / TURNS;
    length = 4096 * frames;
    ram = aligned_alloc(4096, length);
    if (!ram || walks <= 0)
        return 2;
    fill();
    for (long i = 0; i < 100000; i++)
        if (differ(address(i), i % 3, i & 1)) {
            printf("the library and the plain C differ\n");
            return 1;
        }
    double two[2][RUNS] = {{0}}, both[2][RUNS] = {{0}};
    for (int run = 0; run < RUNS; run++)
        for (int turn = 0; turn < TURNS; turn++)
            /* Each side is first in every other turn. No address is used twice in a run, so that neither side finds in the
             * cache what the other has fetched, and each side has the other's addresses in the next run. */
            for (int k = 0; k < 2; k++) {
                int side = (turn + k) % 2;
                long from = (2 * turn + (side + run) % 2) * walks;
                sink += time_stage2(side ? pageledger_stage2 : plain_stage2, from, walks, &two[side][run]);
                sink += time_both(side ? pageledger_both_stages : plain_both_stages, from, walks, &both[side][run]);
            }
    report("stage2", two, walks);
    report("both", both, walks);
    return 0;
}
