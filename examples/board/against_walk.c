/* The machine against the walk: random operations on four guests, and after each random accesses of one of them, which the processor
 * translates by itself (AT), through the tables that the library made and through stage-1 tables that the guest's pages happen to hold;
 * and which the library walks. */
#include "board.h"

#ifndef OPERATIONS
#define OPERATIONS 20000
#endif
enum { PLACES = 6, TRIES = 4, ACCESSES = 8, STAGES = 2, KINDS = 6, ANSWERS = 16, SHOWN = 5, TABLE_ENTRIES = 512 };
#define PLACE_BYTES 0x40201000u          /* from one place to the next another entry of every level but 0 */
#define STAGE_1_PAGE 0x743u              /* a page or table, access flag, inner shareable, EL0 too */
#define STAGE_1_RIGHTS (below(4) << 6 | below(4) << 53)
#define LOW_BITS 12
#define ADDRESSES (1ull << 48)

static uint64_t below(uint64_t n)
{
    static uint64_t state = 88172645463325252u;
    state ^= state << 13;
    state ^= state >> 7;
    state ^= state << 17;
    return (state >> 16) % n;
}

/* ---- Operations ---- */

static uint64_t some_guest(void) { return below(40) ? 1 + below(PAGELEDGER_GUESTS) : below(PAGELEDGER_GUESTS + 2); }
static uint64_t some_frame(void) { return below(FRAMES + 1); }
static uint64_t some_place(void) { return below(PLACES) * PLACE_BYTES; }

/* Where something is mapped for the guest, if that is found soon. */
static uint64_t mapped_place(uint64_t guest)
{
    uint64_t ipa = some_place();
    for (int tries = 0; tries < TRIES && frame_of(guest, ipa) == NO_FRAME; tries++)
        ipa = some_place();
    return ipa;
}

/* Any frame, but more often than not one that the guest may map. */
static uint64_t frame_for(uint64_t guest)
{
    uint64_t answer[PAGELEDGER_FRAME_NUMBERS], frame = some_frame();
    for (uint64_t tries = below(FRAMES / 2); tries > 0; tries--, frame = some_frame())
        if (pageledger_frame(BOTH, frame, answer, PAGELEDGER_FRAME_NUMBERS) == PAGELEDGER_DONE
            && answer[PAGELEDGER_FRAME_WHAT] == PAGELEDGER_FRAME_PAGE
            && (answer[PAGELEDGER_FRAME_GUEST] == guest || pageledger_shared_with(BOTH, frame, guest)))
            break;
    return frame;
}

/* The page is then full of stage-1 descriptors, which the guest might have written. */
static uint64_t give(void)
{
    uint64_t frame = some_frame(), guest = some_guest(), refused = pageledger_give(BOTH, frame, guest);
    uint64_t *words = (uint64_t *)FRAME(frame);
    for (int i = 0; !refused && i < TABLE_ENTRIES; i++) {
        uint64_t ipa = below(2) ? some_place() : mapped_place(guest), descriptor = ipa | STAGE_1_PAGE | STAGE_1_RIGHTS;
        words[i] = below(8) ? descriptor : descriptor ^ 1u << below(LOW_BITS);
    }
    return refused;
}

static uint64_t map(void)
{
    uint64_t guest = some_guest(), frame = frame_for(guest), ipa = some_place();
    return pageledger_map(BOTH, frame, guest, ipa, PAGELEDGER_R | below(PAGELEDGER_RWX + 1));
}

static uint64_t share(void)
{
    uint64_t owner = some_guest(), frame = frame_for(owner), with = some_guest();
    return pageledger_share(BOTH, owner, frame, with, below(2));
}

static uint64_t unshare(void)
{
    uint64_t owner = some_guest(), frame = some_frame();
    return pageledger_unshare(BOTH, owner, frame, some_guest());
}

static uint64_t unmap(void) { uint64_t ipa = some_place(); return pageledger_unmap(BOTH, ipa, some_guest()); }
static uint64_t take(void) { uint64_t frame = some_frame(); return pageledger_take(BOTH, frame, some_guest()); }
static uint64_t invalidate(void) { return pageledger_arm_invalidate(BOTH, some_guest()); }
static uint64_t create(void) { return pageledger_create(BOTH, some_guest()); }
static uint64_t destroy(void) { return pageledger_destroy(BOTH, some_guest()); }

/* How often each is tried, of 256 times. */
static const struct {
    unsigned often;
    uint64_t (*operation)(void);
} operations[] = {{80, map}, {40, give}, {32, invalidate}, {32, share}, {29, take}, {16, create}, {16, unmap}, {8, unshare}, {3, destroy}};

static uint64_t operate(void)
{
    uint64_t chosen = below(256), i = 0;
    for (; chosen >= operations[i].often; i++)
        chosen -= operations[i].often;
    return operations[i].operation();
}

/* ---- Accesses ---- */

struct access {
    uint64_t guest, stages, root, va, kind, el;
};

#define ASK(how) __asm__ volatile("at " how ", %0\n isb" : : "r"(access->va) : "memory")

/* What the processor says, PAR_EL1. */
static uint64_t ask_processor(const struct access *access)
{
    switch (access->el << 1 | access->kind) {
    case PAGELEDGER_EL0 << 1 | PAGELEDGER_READ: ASK("s12e0r"); break;
    case PAGELEDGER_EL0 << 1 | PAGELEDGER_WRITE: ASK("s12e0w"); break;
    case PAGELEDGER_EL1 << 1 | PAGELEDGER_READ: ASK("s12e1r"); break;
    default: ASK("s12e1w");
    }
    return GET(par_el1);
}

static int ask_library(const struct access *access, uint64_t *answer)
{
    if (access->stages == 1)
        return pageledger_translation(BOTH, access->guest, access->va, access->kind, answer, PAGELEDGER_ANSWER_NUMBERS) == PAGELEDGER_DONE;
    return pageledger_both_stages(RAM, LENT_AT, FRAMES, access->root, root_of(access->guest), access->va, access->kind, access->el,
                                  answer, PAGELEDGER_ANSWER_NUMBERS) == PAGELEDGER_DONE;
}

/* The guest's root has bits 1..0 = 1 for this address, which QEMU takes for a block (docs/DECISIONS.md, 8). */
static int block_at_level_0(const struct access *access)
{
    uint64_t frame = frame_of(access->guest, access->root);
    return access->stages == STAGES && frame != NO_FRAME && access->va < ADDRESSES
           && (((uint64_t *)FRAME(frame))[access->va >> 39] & 3) == 1;
}

enum { AT_STAGE_1, AT_STAGE_2, DURING_STAGE_1, WAYS_TO_FAIL };
static uint64_t counted, found, faults[WAYS_TO_FAIL][KINDS], level_of_stage_1, blocks_at_level_0, not_modelled, different;

/* PAR_EL1: bit 0, it failed; 6..1 the status; 8, during stage 1; 9, at stage 2. Or bits 47..12 of the address. */
static int same_place(uint64_t par, uint64_t va, uint64_t address)
{
    return !pageledger_arm_bits(par, 0, 0) && pageledger_arm_bits(par, 47, 12) == address / PAGE_BYTES
           && pageledger_arm_bits(va, 11, 0) == address % PAGE_BYTES;
}

static int same_fault(uint64_t par, const uint64_t *answer)
{
    uint64_t during = answer[PAGELEDGER_ANSWER_WHAT] == PAGELEDGER_DURING, status = pageledger_arm_bits(par, 6, 1);
    uint64_t stage = pageledger_arm_bits(par, 9, 9) + 1, level = pageledger_arm_bits(status, 1, 0);
    if (!pageledger_arm_bits(par, 0, 0) || stage != answer[PAGELEDGER_ANSWER_STAGE] || pageledger_arm_bits(par, 8, 8) != during
        || pageledger_arm_kind(status) != answer[PAGELEDGER_ANSWER_KIND])
        return 0;
    if (level == answer[PAGELEDGER_ANSWER_LEVEL])
        return 1;
    level_of_stage_1 += during && level == answer[PAGELEDGER_ANSWER_OF]; /* QEMU 7.2 tells that one */
    return during && level == answer[PAGELEDGER_ANSWER_OF];
}

static void compare(const struct access *access)
{
    uint64_t answer[PAGELEDGER_ANSWER_NUMBERS], par = ask_processor(access), what, kind;
    int same = ask_library(access, answer);
    what = answer[PAGELEDGER_ANSWER_WHAT], kind = answer[PAGELEDGER_ANSWER_KIND];
    counted++;
    if (kind == PAGELEDGER_NOT_MODELLED) {
        not_modelled++;
    } else if (block_at_level_0(access)) {
        blocks_at_level_0++;
    } else if (what == PAGELEDGER_FOUND) {
        same &= same_place(par, access->va, answer[PAGELEDGER_ANSWER_ADDRESS]);
        found++;
    } else {
        same &= same_fault(par, answer);
        faults[what == PAGELEDGER_DURING ? DURING_STAGE_1 : answer[PAGELEDGER_ANSWER_STAGE] - 1][kind]++;
    }
    if (!same && different++ < SHOWN)
        printf("  DIFFERENT: guest %lu va 0x%lx kind %lu EL%lu: PAR_EL1 0x%lx, library %lu 0x%lx kind %lu stage %lu level %lu of %lu\n",
               access->guest, access->va, access->kind, access->el, par, what, answer[PAGELEDGER_ANSWER_ADDRESS], kind,
               answer[PAGELEDGER_ANSWER_STAGE], answer[PAGELEDGER_ANSWER_LEVEL], answer[PAGELEDGER_ANSWER_OF]);
}

/* Most addresses of stage 2 alone are mapped or nearly; stage 1 finds descriptors everywhere, and is asked beyond 2^48 too. */
static uint64_t some_address(uint64_t stages)
{
    if (stages == 1)
        return some_place() + below(below(8) ? PAGE_BYTES : 2 * PAGE_BYTES);
    return below(below(8) ? ADDRESSES : 16 * ADDRESSES);
}

/* Accesses of a guest, with its stage 1 off and then on. What the processor kept is not compared: it forgets first, and the ledger is not
 * told of it. */
static void try_accesses(uint64_t guest)
{
    struct access access = {.guest = guest, .root = mapped_place(guest)};
    SET(vttbr_el2, pageledger_arm_vttbr(BOTH, guest));
    SET(ttbr0_el1, access.root);
    for (access.stages = 1; access.stages <= STAGES; access.stages++) {
        SET(sctlr_el1, access.stages == STAGES ? SCTLR_EL1_STAGE_1_ON : SCTLR_EL1_STAGE_1_OFF);
        pageledger_arm_forget(BOTH, guest);
        for (uint64_t i = 0; i < ACCESSES; i++) {
            access.va = some_address(access.stages);
            access.kind = i % 2 ? PAGELEDGER_WRITE : PAGELEDGER_READ;
            access.el = i / 2 % 2 ? PAGELEDGER_EL1 : PAGELEDGER_EL0;
            compare(&access);
        }
    }
}

static void show(const uint64_t *answers)
{
    static const char *const ways[WAYS_TO_FAIL] = {"stage 1", "stage 2", "stage 2 during stage 1"};
    printf("  answered 0 to 14:");
    for (int i = 0; i <= PAGELEDGER_DIRTY; i++)
        printf(" %lu", answers[i]);
    printf("\n  accesses: %lu, found %lu", counted, found);
    for (int way = 0; way < WAYS_TO_FAIL; way++)
        for (int kind = 0; kind < KINDS; kind++)
            if (faults[way][kind])
                printf(", %s %s %lu", ways[way], kind_names[kind], faults[way][kind]);
    printf("\n  not compared: %lu not modelled, %lu blocks at level 0; with stage 1's level in place of stage 2's: %lu\n",
           not_modelled, blocks_at_level_0, level_of_stage_1);
    printf("  differences: %lu\n", different);
}

void machine_against_walk(void)
{
    uint64_t answers[ANSWERS] = {0}, set_up = pageledger_arm_set_up(BOTH, LENT_AT, FRAMES, MONITOR_FRAMES);
    printf("The machine against the walk: %lu random operations on four guests\n", (uint64_t)OPERATIONS);
    SET(mair_el1, MAIR_EL1_CACHEABLE);
    SET(tcr_el1, tcr_el1());
    for (int i = 0; i < OPERATIONS; i++) {
        uint64_t guest = 1 + below(PAGELEDGER_GUESTS);
        answers[operate() % ANSWERS]++;
        if (root_of(guest))
            try_accesses(guest);
    }
    show(answers);
    check("there are none", different == 0);
    check("set up anew, and each answer of a walk was found", !set_up && found
          && faults[AT_STAGE_1][PAGELEDGER_TRANSLATION] && faults[AT_STAGE_1][PAGELEDGER_ACCESS_FLAG]
          && faults[AT_STAGE_1][PAGELEDGER_PERMISSION] && faults[AT_STAGE_2][PAGELEDGER_TRANSLATION]
          && faults[AT_STAGE_2][PAGELEDGER_PERMISSION] && faults[DURING_STAGE_1][PAGELEDGER_TRANSLATION]);
}
