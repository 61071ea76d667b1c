/* What pageledger.h asks of a host, as code for a monitor at EL2: invalidation, barriers, caches, the values of registers, and a fault
 * in the library's words. Header only, in GNU C99 or C++11, over the bare-metal archive. Nothing here is proved: it is the host's part of
 * isolation, and each function names the section of docs/TRUST.md whose duty it does. examples/board is a monitor that uses all of it.
 *
 * What its caller sees to: these functions run at EL2 with HCR_EL2.TGE = 0, one at a time, as the library's do, and while the guest's
 * registers of EL1 are loaded where that is said. A guest's VMID is its number. All cores have data-cache lines of one size. */
#ifndef PAGELEDGER_ARM_H
#define PAGELEDGER_ARM_H

#ifndef __aarch64__
#error "pageledger_arm.h is for AArch64"
#endif

#include "pageledger.h"

#ifdef __cplusplus
extern "C" {
#endif

/* A system register by its name in assembly, read and written. */
#define PAGELEDGER_ARM_GET(name) \
    __extension__({ uint64_t got_; __asm__ volatile("mrs %0, " #name : "=r"(got_)); got_; })
#define PAGELEDGER_ARM_SET(name, value) \
    __extension__({ uint64_t set_ = (value); __asm__ volatile("msr " #name ", %0" : : "r"(set_) : "memory"); (void)0; })

/* Bits high to low of a register, as the Arm manual numbers them. */
static inline uint64_t pageledger_arm_bits(uint64_t value, unsigned high, unsigned low)
{
    return value >> low & (((uint64_t)2 << (high - low)) - 1);
}

/* ---- Registers ---- */

/* HCR_EL2 while a guest runs (TRUST 11): VM, stage 2 is on; SWIO, what the guest invalidates in caches by set and way is cleaned too;
 * FMO, IMO, AMO, interrupts come to EL2; TSC, so does SMC, which would else reach the firmware and could turn the board off; RW, EL1 is
 * AArch64. All others are 0: TGE, FWB, CD, ID and ATA have to be. A host may add traps, and E2H where it uses it. */
#define PAGELEDGER_ARM_HCR_EL2 (1u << 31 | 1u << 19 | 7u << 3 | 1u << 1 | 1u)

/* How many bits of physical address the processor has, as ID_AA64MMFR0_EL1.PARange and VTCR_EL2.PS tell it. */
enum pageledger_arm_range {
    PAGELEDGER_ARM_44_BITS = 4,
    PAGELEDGER_ARM_48_BITS = 5
};

static inline uint64_t pageledger_arm_range(void)
{
    uint64_t range = pageledger_arm_bits(PAGELEDGER_ARM_GET(id_aa64mmfr0_el1), 3, 0);
    return range < PAGELEDGER_ARM_48_BITS ? range : (uint64_t)PAGELEDGER_ARM_48_BITS;
}

/* VTCR_EL2 while a guest runs (TRUST 11): PAGELEDGER_VTCR_EL2, where the processor has 48 bits of physical address. Where it has 44, PS
 * and T0SZ are for 44: RAM lies below 2^44, and a guest-physical address of 2^44 or more faults at level 0, whatever is mapped there.
 * 0 where it has fewer: stage 2 can't start at level 0 then, and these tables are not for this processor. */
static inline uint64_t pageledger_arm_vtcr(void)
{
    uint64_t range = pageledger_arm_range(), bits_48 = PAGELEDGER_ARM_48_BITS << 16 | (64 - 48), bits_44 = range << 16 | (64 - 44);
    if (range == PAGELEDGER_ARM_48_BITS)
        return PAGELEDGER_VTCR_EL2;
    return range == PAGELEDGER_ARM_44_BITS ? PAGELEDGER_VTCR_EL2 - bits_48 + bits_44 : 0;
}

/* VTTBR_EL2 while a guest runs (TRUST 11): its root table, and its number for a VMID. 0 where it does not exist, and then it does not
 * run. */
static inline uint64_t pageledger_arm_vttbr(const uint8_t *ram, size_t ram_length, const uint32_t *ledger, size_t ledger_length,
                                            uint64_t guest)
{
    uint64_t answer[PAGELEDGER_GUEST_NUMBERS];
    if (pageledger_guest(ram, ram_length, ledger, ledger_length, guest, answer, PAGELEDGER_GUEST_NUMBERS) != PAGELEDGER_DONE
        || answer[PAGELEDGER_GUEST_WHAT] != PAGELEDGER_GUEST_PRESENT)
        return 0;
    return answer[PAGELEDGER_GUEST_ROOT] | guest << 48;
}

/* ---- What processors keep ---- */

/* Every core forgets every translation of every guest (TRUST 9, "Nothing is kept at set-up"). */
static inline void pageledger_arm_forget_all(void)
{
    __asm__ volatile("dsb ishst\n tlbi alle1is\n dsb ish\n isb" : : : "memory");
}

/* This core, which has just come up, forgets what it may have kept from before (TRUST 9): before it runs a guest. */
static inline void pageledger_arm_core_starts(void)
{
    __asm__ volatile("tlbi alle1\n dsb nsh\n isb" : : : "memory");
}

/* In place of pageledger_set_up, with no guest running on any core: when it is called, nothing is kept (TRUST 9). Answers
 * PAGELEDGER_NO_FRAME too where RAM does not lie at a multiple of 8, which pageledger_set_up can't see (TRUST 8). */
PAGELEDGER_MUST_USE
static inline uint64_t pageledger_arm_set_up(const uint8_t *ram, size_t ram_length, uint32_t *ledger, size_t ledger_length,
                                             uint64_t base, uint64_t frames, uint64_t monitor_frames)
{
    if ((uintptr_t)ram % sizeof(uint64_t) != 0)
        return PAGELEDGER_NO_FRAME;
    pageledger_arm_forget_all();
    return pageledger_set_up(ram, ram_length, ledger, ledger_length, base, frames, monitor_frames);
}

/* After an operation that answered 0, before its guest runs on what it made, on this core or another (TRUST 8). */
static inline void pageledger_arm_after_operation(void)
{
    __asm__ volatile("dsb ish\n isb" : : : "memory");
}

/* Every core forgets every translation of this guest, of stage 1 and 2; nothing is reported. TLBI VMALLS12E1IS takes the VMID from
 * VTTBR_EL2, which is the guest's meanwhile and is put back. A guest that does not exist has no root to stand there beside its VMID: then
 * every guest's translations go. */
static inline void pageledger_arm_forget(const uint8_t *ram, size_t ram_length, const uint32_t *ledger, size_t ledger_length,
                                         uint64_t guest)
{
    uint64_t its = pageledger_arm_vttbr(ram, ram_length, ledger, ledger_length, guest), before = PAGELEDGER_ARM_GET(vttbr_el2);
    if (its == 0) {
        pageledger_arm_forget_all();
        return;
    }
    PAGELEDGER_ARM_SET(vttbr_el2, its);
    __asm__ volatile("isb\n dsb ishst\n tlbi vmalls12e1is\n dsb ish\n isb" : : : "memory");
    PAGELEDGER_ARM_SET(vttbr_el2, before);
    __asm__ volatile("isb" : : : "memory");
}

/* In place of pageledger_invalidated: the invalidation and its report in one (TRUST 9, "an invalidation is complete before it is
 * reported"). After pageledger_destroy no core has the guest's root in VTTBR_EL2 any more when this is called. */
PAGELEDGER_MUST_USE
static inline uint64_t pageledger_arm_invalidate(const uint8_t *ram, size_t ram_length, uint32_t *ledger, size_t ledger_length,
                                                 uint64_t guest)
{
    pageledger_arm_forget(ram, ram_length, ledger, ledger_length, guest);
    return pageledger_invalidated(ram, ram_length, ledger, ledger_length, guest);
}

/* ---- What a frame holds, below the caches ---- */

/* The frame at the host's address `at`, after pageledger_give and after the host's stores to it, before pageledger_map: a guest that reads
 * below the caches, as each does until it turns its stage 1 on, finds what the host sees (TRUST 12, "Data caches"). */
static inline void pageledger_arm_clean_frame(const uint8_t *at)
{
    uint64_t line = (uint64_t)4 << pageledger_arm_bits(PAGELEDGER_ARM_GET(ctr_el0), 19, 16);
    for (uint64_t offset = 0; offset < PAGELEDGER_RAM_BYTES(1); offset += line)
        __asm__ volatile("dc civac, %0" : : "r"(at + offset) : "memory");
    __asm__ volatile("dsb sy" : : : "memory");
}

/* As pageledger_arm_clean_frame, before pageledger_map with the right to execute: and no instruction cache holds what lay in the frame
 * before, for a former owner or before the host loaded it (TRUST 12, "Instruction caches"). All of them are invalidated: one may find its
 * lines by the guest's virtual address, which is not the host's. */
static inline void pageledger_arm_clean_code(const uint8_t *at)
{
    pageledger_arm_clean_frame(at);
    __asm__ volatile("ic ialluis\n dsb ish\n isb" : : : "memory");
}

/* ---- A fault in the library's words ---- */

/* A fault of stage 2 that came to EL2. */
struct pageledger_arm_fault {
    uint64_t access; /* one of enum pageledger_access */
    uint64_t kind;   /* one of enum pageledger_kind */
    uint64_t level;  /* the level, 0 to 3, at which stage 2 failed */
    uint64_t during; /* 1 where it failed for the address of a stage-1 descriptor; otherwise 0 */
    uint64_t va;     /* what the guest wanted */
    uint64_t ipa;    /* the guest-physical address that stage 2 refused; where it is a stage-1 descriptor's, that of its page */
};

/* One of enum pageledger_kind for a fault's status, as ESR_EL2 has it in bits 5..0 and PAR_EL1 in bits 6..1; 0 for one that the library
 * has no word for. */
static inline uint64_t pageledger_arm_kind(uint64_t status)
{
    switch (pageledger_arm_bits(status, 5, 2)) {
    case 1: return PAGELEDGER_TRANSLATION;
    case 2: return PAGELEDGER_ACCESS_FLAG;
    case 3: return PAGELEDGER_PERMISSION;
    case 5: return PAGELEDGER_WALK_ABORT; /* an external abort on a table walk */
    default: return 0;
    }
}

/* Exceptions that a guest's accesses take to EL2, in bits 31..26 of ESR_EL2. */
enum pageledger_arm_class {
    PAGELEDGER_ARM_INSTRUCTION_ABORT = 0x20,
    PAGELEDGER_ARM_DATA_ABORT = 0x24
};

/* The guest-physical page of the fault. For a permission that is missing HPFAR_EL2 does not tell it, but for a stage-1 descriptor's; the
 * guest's stage 1 is asked then (AT), and its PAR_EL1 put back. 1, or 0 where stage 1 no longer leads anywhere. */
static inline int pageledger_arm_refused_page(const struct pageledger_arm_fault *fault, uint64_t *page)
{
    uint64_t before = PAGELEDGER_ARM_GET(par_el1), told;
    if (fault->kind != PAGELEDGER_PERMISSION || fault->during) {
        *page = pageledger_arm_bits(PAGELEDGER_ARM_GET(hpfar_el2), 39, 4) << 12;
        return 1;
    }
    __asm__ volatile("at s1e1r, %0\n isb" : : "r"(fault->va) : "memory");
    told = PAGELEDGER_ARM_GET(par_el1);
    PAGELEDGER_ARM_SET(par_el1, before);
    *page = pageledger_arm_bits(told, 47, 12) << 12;
    return !pageledger_arm_bits(told, 0, 0);
}

/* The fault with which a guest came to EL2, while its registers of EL1 and VTTBR_EL2 are loaded. 1 where it is told; 0 where ESR_EL2 tells
 * of no fault that the library has a word for, or where the guest's own tables no longer lead there: its access is then tried again. */
static inline int pageledger_arm_read_fault(struct pageledger_arm_fault *fault)
{
    uint64_t esr = PAGELEDGER_ARM_GET(esr_el2), what = pageledger_arm_bits(esr, 31, 26), page;
    if (what != PAGELEDGER_ARM_INSTRUCTION_ABORT && what != PAGELEDGER_ARM_DATA_ABORT)
        return 0;
    fault->access = what == PAGELEDGER_ARM_INSTRUCTION_ABORT ? (uint64_t)PAGELEDGER_EXECUTE : pageledger_arm_bits(esr, 6, 6);
    fault->kind = pageledger_arm_kind(pageledger_arm_bits(esr, 5, 0));
    fault->level = pageledger_arm_bits(esr, 1, 0);
    fault->during = pageledger_arm_bits(esr, 7, 7);
    fault->va = PAGELEDGER_ARM_GET(far_el2);
    if (fault->kind == 0 || !pageledger_arm_refused_page(fault, &page))
        return 0;
    fault->ipa = fault->during ? page : page | pageledger_arm_bits(fault->va, 11, 0);
    return 1;
}

#ifdef __cplusplus
}
#endif

#endif
