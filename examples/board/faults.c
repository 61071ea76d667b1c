/* A fault that the machine took, beside what the library's walk says of the same access. */
#include "board.h"

static const char *const guest_names[] = {"", "cluster", "radio", "reader", ""};
static const char *const access_names[] = {"read", "write", "execute"};

/* Of both stages where the guest's own is on. */
static uint64_t ask_library(uint64_t guest, const struct pageledger_arm_fault *fault, uint64_t *answer)
{
    uint64_t el = pageledger_arm_bits(GET(spsr_el2), 3, 2);
    if (GET(sctlr_el1) == SCTLR_EL1_STAGE_1_OFF)
        return pageledger_translation(BOTH, guest, fault->ipa, fault->access, answer, PAGELEDGER_ANSWER_NUMBERS);
    return pageledger_both_stages(RAM, LENT_AT, FRAMES, GET(ttbr0_el1), root_of(guest), fault->va, fault->access, el,
                                  answer, PAGELEDGER_ANSWER_NUMBERS);
}

/* The address that the processor tells is one that stage 2 refuses so. */
static int address_agrees(uint64_t guest, const struct pageledger_arm_fault *fault)
{
    uint64_t answer[PAGELEDGER_ANSWER_NUMBERS], access = fault->during ? (uint64_t)PAGELEDGER_READ : fault->access;
    return pageledger_translation(BOTH, guest, fault->ipa, access, answer, PAGELEDGER_ANSWER_NUMBERS) == PAGELEDGER_DONE
           && answer[PAGELEDGER_ANSWER_WHAT] == PAGELEDGER_FAULT && answer[PAGELEDGER_ANSWER_KIND] == fault->kind;
}

/* In kind, stage and level. For a fault during stage 1, QEMU 7.2 tells stage 1's level in place of stage 2's. */
static int fault_agrees(const struct pageledger_arm_fault *fault, const uint64_t *answer)
{
    uint64_t what = fault->during ? PAGELEDGER_DURING : PAGELEDGER_FAULT;
    return answer[PAGELEDGER_ANSWER_WHAT] == what && answer[PAGELEDGER_ANSWER_STAGE] == 2
           && answer[PAGELEDGER_ANSWER_KIND] == fault->kind
           && (answer[PAGELEDGER_ANSWER_LEVEL] == fault->level || (fault->during && answer[PAGELEDGER_ANSWER_OF] == fault->level));
}

void hold_to_library(uint64_t guest, const struct pageledger_arm_fault *fault)
{
    uint64_t answer[PAGELEDGER_ANSWER_NUMBERS];
    int agree = ask_library(guest, fault, answer) == PAGELEDGER_DONE && fault_agrees(fault, answer) && address_agrees(guest, fault);
    printf("  %s may not %s 0x%lx\n", guest_names[guest], access_names[fault->access], fault->va);
    printf("    machine: %s stage 2 level %lu%s (ESR_EL2 0x%lx)\n", kind_names[fault->kind], fault->level,
           fault->during ? " during stage 1" : "", GET(esr_el2));
    printf("    library: %s stage %lu level %lu%s: %s\n", kind_names[answer[PAGELEDGER_ANSWER_KIND]], answer[PAGELEDGER_ANSWER_STAGE],
           answer[PAGELEDGER_ANSWER_LEVEL], answer[PAGELEDGER_ANSWER_WHAT] == PAGELEDGER_DURING ? " during stage 1" : "",
           agree ? "they agree" : "THEY DIFFER");
    if (!agree)
        exit(1);
}
