/* The same walks and operations on every processor: prints how often each answer was given, and a digest of every answer, of RAM and of
 * what the ledger says on the way. tests/digest.numbers is what a build must print, wherever it runs: the x86-64 library printed it, which
 * host/ holds to a second implementation of documents 01 and 03. */
#include <inttypes.h>
#include <stdio.h>
#include <stdlib.h>
#include "pageledger.h"

enum { FRAMES = 64, WALKS = 100000, ROUNDS = 4, OPERATIONS = 10000, PLACES = 12, APART = 0x40201000 };
static const uint64_t base = 0x40000000;
/* Whole pages, for tests/stores.c, which protects them. */
static uint64_t words[PAGELEDGER_RAM_BYTES(FRAMES) / 8] __attribute__((aligned(4096)));
static uint32_t ledger[PAGELEDGER_LEDGER_WORDS(FRAMES)];
#define RAM (uint8_t *)words, sizeof words
#define BOTH RAM, ledger, PAGELEDGER_LEDGER_WORDS(FRAMES)

static uint64_t state = 88172645463325252u, digest = 14695981039346656037u, seen[16];

static uint64_t random_below(uint64_t n)
{
    state ^= state << 13;
    state ^= state >> 7;
    state ^= state << 17;
    return (state >> 16) % n;
}

static void take_in(uint64_t x)
{
    digest = (digest ^ x) * 1099511628211u;
    digest ^= digest >> 29;
}

static void take_in_all(const uint64_t *x, size_t n)
{
    for (size_t i = 0; i < n; i++)
        take_in(x[i]);
}

/* Every array here has room for its answer. */
static void has_room(uint64_t status)
{
    if (status != PAGELEDGER_DONE) {
        printf("status %" PRIu64 "\n", status);
        exit(1);
    }
}

/* RAM word by word; of the ledger what can be asked of it, since how it lies there is no promise. */
static void take_in_state(void)
{
    uint64_t answer[PAGELEDGER_ANSWER_NUMBERS];
    take_in_all(words, sizeof words / sizeof *words);
    for (uint64_t f = 0; f < FRAMES; f++) {
        has_room(pageledger_frame(BOTH, f, answer, PAGELEDGER_FRAME_NUMBERS));
        take_in_all(answer, PAGELEDGER_FRAME_NUMBERS);
        for (uint64_t g = 1; g <= PAGELEDGER_GUESTS; g++)
            take_in(pageledger_shared_with(BOTH, f, g));
    }
    for (uint64_t g = 1; g <= PAGELEDGER_GUESTS; g++) {
        has_room(pageledger_guest(BOTH, g, answer, PAGELEDGER_GUEST_NUMBERS));
        take_in_all(answer, PAGELEDGER_GUEST_NUMBERS);
    }
}

static void show(const char *what, uint64_t n)
{
    printf("%s %" PRIu64 ":", what, n);
    for (int i = 0; i < 16; seen[i++] = 0)
        printf(" %" PRIu64, seen[i]);
    printf(", digest %016" PRIx64 "\n", digest);
}

/* Mostly sane, and now and then any number at all. */
static uint64_t number(uint64_t below)
{
    return random_below(50) ? random_below(below) : random_below(UINT64_MAX);
}

/* Tables that lead into RAM, with the bits of a descriptor right more often than not, and with others now and then. */
static uint64_t descriptor(void)
{
    uint64_t d = (base + 4096 * random_below(FRAMES + 1)) | 0x4c0;
    d |= random_below(6) ? 3 : random_below(4);
    return random_below(8) ? d : d ^ (uint64_t)1 << random_below(60);
}

static void walk_at_random(void)
{
    uint64_t answer[PAGELEDGER_ANSWER_NUMBERS], root1 = 4096 * random_below(FRAMES), root2 = base + 4096 * random_below(FRAMES);
    uint64_t va = number((uint64_t)1 << 48), access = number(3), el = number(2);
    size_t place = random_below(sizeof words / sizeof *words); /* apart: C does not say which side of = comes first */
    words[place] = descriptor();
    take_in(random_below(2)
            ? pageledger_stage2(RAM, base, FRAMES, root2, va, access, answer, PAGELEDGER_ANSWER_NUMBERS)
            : pageledger_both_stages(RAM, base, FRAMES, root1 + base, root2, va, access, el, answer, PAGELEDGER_ANSWER_NUMBERS));
    take_in_all(answer, PAGELEDGER_ANSWER_NUMBERS);
    seen[4 * (answer[PAGELEDGER_ANSWER_WHAT] & 3) + (answer[PAGELEDGER_ANSWER_LEVEL] & 3)]++;
}

enum operation { CREATE, GIVE, MAP, UNMAP, SHARE, UNSHARE, TAKE, DESTROY, INVALIDATED };

/* An operation with its arguments; `last` is map's rights or share's writing. */
struct call {
    enum operation operation;
    uint64_t f, g, h, a, last;
};

static struct call call_at_random(void)
{
    uint64_t f = number(FRAMES + 1), g = number(5), h = number(5), a = number(PLACES) * APART;
    struct call call = {TAKE, f, g, h, a, 0};
    uint64_t which = random_below(32);
    if (which < 28)
        call.operation = which < 1 ? DESTROY : which < 4 ? CREATE : which < 7 ? INVALIDATED : which < 11 ? GIVE
                       : which < 19 ? MAP : which < 22 ? UNMAP : which < 26 ? SHARE : UNSHARE;
    if (call.operation == MAP || call.operation == SHARE)
        call.last = number(call.operation == MAP ? 8 : 2);
    return call;
}

static uint64_t perform(struct call call)
{
    switch (call.operation) {
    case CREATE: return pageledger_create(BOTH, call.g);
    case GIVE: return pageledger_give(BOTH, call.f, call.g);
    case MAP: return pageledger_map(BOTH, call.f, call.g, call.a, call.last);
    case UNMAP: return pageledger_unmap(BOTH, call.a, call.g);
    case SHARE: return pageledger_share(BOTH, call.g, call.f, call.h, call.last);
    case UNSHARE: return pageledger_unshare(BOTH, call.g, call.f, call.h);
    case TAKE: return pageledger_take(BOTH, call.f, call.g);
    case DESTROY: return pageledger_destroy(BOTH, call.g);
    default: return pageledger_invalidated(BOTH, call.g);
    }
}

static void ask_at_random(void)
{
    uint64_t answer[PAGELEDGER_ANSWER_NUMBERS] = {0}, *second = answer + PAGELEDGER_FRAME_NUMBERS;
    uint64_t f = number(FRAMES + 1), g = number(5), a = number(PLACES) * APART, access = number(3);
    take_in(pageledger_frame(BOTH, f, answer, PAGELEDGER_ANSWER_NUMBERS));
    take_in(pageledger_guest(BOTH, g, second, PAGELEDGER_ANSWER_NUMBERS - PAGELEDGER_FRAME_NUMBERS));
    take_in(pageledger_shared_with(BOTH, f, g));
    take_in_all(answer, PAGELEDGER_ANSWER_NUMBERS);
    take_in(pageledger_translation(BOTH, g, a, access, answer, PAGELEDGER_ANSWER_NUMBERS));
    take_in_all(answer, PAGELEDGER_ANSWER_NUMBERS);
}

int main(void)
{
    for (size_t i = 0; i < sizeof words / sizeof *words; i++)
        words[i] = descriptor();
    for (int i = 0; i < WALKS; i++)
        walk_at_random();
    show("walks", WALKS);
    for (int round = 0; round < ROUNDS; round++) {
        take_in(pageledger_set_up(BOTH, base, FRAMES, 2));
        for (int i = 0; i < OPERATIONS; i++) {
            uint64_t answered = perform(call_at_random());
            take_in(answered);
            seen[answered & 15]++;
            ask_at_random();
            if (i % 50 == 0)
                take_in_state();
        }
        take_in_state();
    }
    show("operations", ROUNDS * OPERATIONS);
    return 0;
}
