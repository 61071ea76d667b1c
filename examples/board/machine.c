/* A core's own registers at EL2, and what guests' registers hold when they begin. */
#include "board.h"

/* Descriptors of level 1, each a block of 1 GiB, for the monitor's own use: valid, access flag, then what differs. */
#define BLOCK (1u << 10 | 1u)
#define INNER_SHAREABLE (3u << 8)
#define WRITABLE (1u << 6)
#define DEVICES (1u << 2) /* attributes 1 of MAIR_EL2; normal memory has attributes 0 */
#define NO_EXECUTION (1ull << 54)
#define GIB (1ull << 30)

/* TCR_EL2 and TCR_EL1: walks as in VTCR_EL2, write-back and inner shareable; 4 KiB granule. */
#define WALKS_CACHED (3u << 12 | 1u << 10 | 1u << 8)
#define TCR_EL2_RES1 (1u << 31 | 1u << 23)
#define NO_TTBR1 (1u << 23)
#define VA_BITS(n) (64u - (n))

#define MAIR_EL2_NORMAL_DEVICES 0x00ffu
#define SCTLR_EL2_RES1 0x30c50830u
#define SCTLR_EL2_ON (1u << 12 | 1u << 2 | 1u) /* I, C, M: and no alignment checks, as the library wants it */
#define CPTR_EL2_RES1 0x33ffu                  /* and guests' vector registers are theirs */

enum { TABLE_ENTRIES = 512, IN_TIME_SECONDS = 5 };

/* The monitor's own memory, each address where it is: the board's devices in the first GiB, RAM in the second. */
static const uint64_t level_1[TABLE_ENTRIES] __attribute__((aligned(PAGE_BYTES))) = {
    BLOCK | WRITABLE | DEVICES | NO_EXECUTION,
    GIB | BLOCK | WRITABLE | INNER_SHAREABLE,
};

void own_registers(void)
{
    SET(mair_el2, MAIR_EL2_NORMAL_DEVICES);
    SET(tcr_el2, TCR_EL2_RES1 | pageledger_arm_range() << 16 | WALKS_CACHED | VA_BITS(39));
    SET(ttbr0_el2, (uintptr_t)level_1);
    __asm__ volatile("dsb sy\n tlbi alle2\n dsb sy\n isb" : : : "memory");
    SET(sctlr_el2, SCTLR_EL2_RES1 | SCTLR_EL2_ON);
    SET(cptr_el2, CPTR_EL2_RES1);
    SET(vtcr_el2, pageledger_arm_vtcr());
    SET(hcr_el2, PAGELEDGER_ARM_HCR_EL2);
    SET(vttbr_el2, 0);
    pageledger_arm_core_starts();
}

/* TCR_EL1 as document 01 has it (docs/TRUST.md, 11): 48 bits, one range of addresses. */
uint64_t tcr_el1(void)
{
    return pageledger_arm_range() << 32 | NO_TTBR1 | WALKS_CACHED | VA_BITS(48);
}

/* Whether the time in which the other core must have done something still runs. *end is 0 at first. */
int in_time(uint64_t *end)
{
    uint64_t now = GET(cntvct_el0);
    if (*end == 0)
        *end = now + IN_TIME_SECONDS * GET(cntfrq_el0);
    return now < *end;
}
