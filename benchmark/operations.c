/* operations: the monitor's operations, the library and the plain C (monitor.c) in turns, in one process.
 * Prints a line 'compare NAME' with the nanoseconds of an operation in five runs of C and in five runs of the library; then a line
 * 'grow NAME FRAMES' with those of the library at four sizes of RAM. Each run counts its fastest turn: others use the machine too. */
#include <stdint.h>
#include <stdio.h>
#include <stdlib.h>
#include <string.h>
#include <time.h>
#include "pageledger.h"

size_t plain_ledger_bytes(uint64_t n);
void plain_set_up(uint8_t *ram, void *frames, uint64_t b, uint64_t n, uint64_t k);
uint64_t plain_create(uint64_t g), plain_give(uint64_t f, uint64_t g), plain_map(uint64_t f, uint64_t g, uint64_t a, uint64_t r);
uint64_t plain_unmap(uint64_t a, uint64_t g), plain_take(uint64_t f, uint64_t g), plain_invalidated(uint64_t g);

enum { RUNS = 5, TURNS = 20, PAGES = 16384, MOST = 65536 };
static const uint64_t base = 0x40000000;
static uint8_t *ram;
static uint32_t *ledger;
static void *plain_ledger;
static uint64_t size;

#define SLICES ram, 4096 * size, ledger, PAGELEDGER_LEDGER_WORDS(size)

static void must(uint64_t answer, const char *what)
{
    if (answer) {
        printf("%s was answered %llu\n", what, (unsigned long long)answer);
        exit(1);
    }
}

static double now(void)
{
    struct timespec t;
    clock_gettime(CLOCK_MONOTONIC, &t);
    return (double)t.tv_sec * 1e9 + (double)t.tv_nsec;
}

static void keep(double began, double *fastest)
{
    double took = now() - began;
    if (*fastest == 0 || took < *fastest)
        *fastest = took;
}

static void print_runs(const double *fastest, double operations)
{
    for (int run = 0; run < RUNS; run++)
        printf(" %.3f", fastest[run] / operations);
}

/* A side of the comparison; both have guest 1 with PAGES pages from frame FIRST on. */
enum { FIRST = 64 };

static void begin(int ours)
{
    size = FIRST + PAGES;
    if (ours) {
        must(pageledger_set_up(SLICES, base, size, 1), "set-up");
        must(pageledger_create(SLICES, 1), "create");
        for (uint64_t f = FIRST; f < size; f++)
            must(pageledger_give(SLICES, f, 1), "give");
    } else {
        plain_set_up(ram, plain_ledger, base, size, 1);
        must(plain_create(1), "create");
        for (uint64_t f = FIRST; f < size; f++)
            must(plain_give(f, 1), "give");
    }
}

/* Consecutive pages of the guest, each its own frame. */
static uint64_t map_all(int ours)
{
    uint64_t refused = 0;
    if (ours)
        for (uint64_t i = 0; i < PAGES; i++)
            refused |= pageledger_map(SLICES, FIRST + i, 1, 4096 * i, 3);
    else
        for (uint64_t i = 0; i < PAGES; i++)
            refused |= plain_map(FIRST + i, 1, 4096 * i, 3);
    return refused;
}

static uint64_t unmap_all(int ours)
{
    uint64_t refused = 0;
    if (ours)
        for (uint64_t i = 0; i < PAGES; i++)
            refused |= pageledger_unmap(SLICES, 4096 * i, 1);
    else
        for (uint64_t i = 0; i < PAGES; i++)
            refused |= plain_unmap(4096 * i, 1);
    return refused;
}

static uint64_t give_and_take_all(int ours)
{
    uint64_t refused = 0;
    if (ours)
        for (uint64_t f = FIRST; f < size; f++) {
            refused |= pageledger_take(SLICES, f, 1);
            refused |= pageledger_give(SLICES, f, 1);
        }
    else
        for (uint64_t f = FIRST; f < size; f++) {
            refused |= plain_take(f, 1);
            refused |= plain_give(f, 1);
        }
    return refused;
}

static void forget(int ours)
{
    must(ours ? pageledger_invalidated(SLICES, 1) : plain_invalidated(1), "invalidated");
}

/* What was mapped translates alike on both sides: the walk of document 01 on the tables that each has made. */
static uint64_t seen(uint64_t root)
{
    uint64_t answer[PAGELEDGER_ANSWER_NUMBERS], sum = 0;
    for (uint64_t i = 0; i < PAGES; i += 7)
        for (uint64_t access = PAGELEDGER_READ; access <= PAGELEDGER_EXECUTE; access++) {
            must(pageledger_stage2(ram, 4096 * size, base, size, root, 4096 * i + 8, access, answer, PAGELEDGER_ANSWER_NUMBERS),
                 "stage 2");
            sum = sum * 31 + answer[PAGELEDGER_ANSWER_WHAT] * 7 + answer[PAGELEDGER_ANSWER_ADDRESS] + answer[PAGELEDGER_ANSWER_KIND]
                  + answer[PAGELEDGER_ANSWER_LEVEL];
        }
    return sum;
}

static void compare(void)
{
    double map[2][RUNS] = {{0}}, unmap[2][RUNS] = {{0}}, pair[2][RUNS] = {{0}}, give[2][RUNS] = {{0}};
    uint64_t sums[2];
    for (int ours = 0; ours < 2; ours++) {
        begin(ours);
        must(map_all(ours), "map");
        sums[ours] = seen(base + 4096);
    }
    if (sums[0] != sums[1]) {
        printf("the library and the plain C differ\n");
        exit(1);
    }
    for (int run = 0; run < RUNS; run++)
        for (int turn = 0; turn < TURNS; turn++)
            for (int k = 0; k < 2; k++) {
                int ours = (turn + k) % 2;
                begin(ours);
                must(map_all(ours), "map"); /* the tables are there from now on */
                must(unmap_all(ours), "unmap");
                forget(ours);
                double began = now();
                must(map_all(ours), "map");
                keep(began, &map[ours][run]);
                double between = now();
                must(unmap_all(ours), "unmap");
                keep(between, &unmap[ours][run]);
                keep(began, &pair[ours][run]);
                forget(ours);
                began = now();
                must(give_and_take_all(ours), "give and take");
                keep(began, &give[ours][run]);
            }
    struct { const char *name; double (*times)[RUNS]; } rows[] = {
        {"map", map}, {"unmap", unmap}, {"map+unmap", pair}, {"give+take", give},
    };
    for (int i = 0; i < 4; i++) {
        printf("compare %s", rows[i].name);
        print_runs(rows[i].times[0], PAGES);
        print_runs(rows[i].times[1], PAGES);
        printf("\n");
    }
}

/* One size of RAM: guests 1 and 2, a page of guest 1 that is the last frame, and its tables. */
enum { TIMES = 511 };

static void grow(uint64_t frames)
{
    enum { SET_UP, CREATE, GIVE, MAP, UNMAP, SHARE, UNSHARE, TAKE, DESTROY, INVALIDATED, TRANSLATION, ROWS };
    static const char *names[] = {"set-up", "create", "give", "map", "unmap", "share", "unshare", "take", "destroy", "invalidated",
                                  "translation"};
    double fastest[ROWS][RUNS] = {{0}};
    uint64_t page = frames - 1, answer[PAGELEDGER_ANSWER_NUMBERS];
    size = frames;
    /* A single call is shorter than what the clock can tell, so a turn has as many as change nothing that the next call needs. */
    #define TIMED(row, calls) do { double began = now(); calls; keep(began, &fastest[row][run]); } while (0)
    for (int run = 0; run < RUNS; run++)
        for (int turn = 0; turn < TURNS; turn++) {
            TIMED(SET_UP, must(pageledger_set_up(SLICES, base, size, 1), "set-up"));
            must(pageledger_create(SLICES, 1), "create");
            must(pageledger_create(SLICES, 2), "create");
            TIMED(CREATE, must(pageledger_create(SLICES, 3), "create"));
            TIMED(GIVE, must(pageledger_give(SLICES, page, 1), "give"));
            must(pageledger_map(SLICES, page, 1, 4096 * TIMES, 1), "map");
            TIMED(MAP, for (uint64_t i = 0; i < TIMES; i++) must(pageledger_map(SLICES, page, 1, 4096 * i, 1), "map"));
            TIMED(TRANSLATION, for (uint64_t i = 0; i < TIMES; i++)
                  must(pageledger_translation(SLICES, 1, 4096 * i, PAGELEDGER_READ, answer, PAGELEDGER_ANSWER_NUMBERS), "translation"));
            TIMED(UNMAP, for (uint64_t i = 0; i < TIMES; i++) must(pageledger_unmap(SLICES, 4096 * i, 1), "unmap"));
            must(pageledger_unmap(SLICES, 4096 * TIMES, 1), "unmap");
            TIMED(INVALIDATED, must(pageledger_invalidated(SLICES, 1), "invalidated"));
            TIMED(SHARE, for (uint64_t i = 0; i < TIMES; i++) must(pageledger_share(SLICES, 1, page, 2, i % 2), "share"));
            TIMED(UNSHARE, must(pageledger_unshare(SLICES, 1, page, 2), "unshare"));
            TIMED(TAKE, must(pageledger_take(SLICES, page, 1), "take"));
            TIMED(DESTROY, must(pageledger_destroy(SLICES, 1), "destroy"));
        }
    for (int row = 0; row < ROWS; row++) {
        int many = row == MAP || row == UNMAP || row == SHARE || row == TRANSLATION;
        printf("grow %s %llu", names[row], (unsigned long long)frames);
        print_runs(fastest[row], many ? TIMES : 1);
        printf("\n");
    }
}

int main(void)
{
    ram = aligned_alloc(4096, 4096ul * MOST);
    ledger = malloc(4ul * PAGELEDGER_LEDGER_WORDS(MOST));
    plain_ledger = malloc(plain_ledger_bytes(MOST));
    if (!ram || !ledger || !plain_ledger)
        return 2;
    memset(ram, 0, 4096ul * MOST);
    compare();
    for (uint64_t frames = 1 << 4; frames <= 1 << 16; frames <<= 4)
        grow(frames);
    return 0;
}
