/* Pageledger: the memory core of a small hypervisor for Arm, proved.
 *
 * The walk of translation tables: what does a guest's address translate to, through the guest's own tables (stage 1) and the
 * monitor's (stage 2)? VMSAv8-64, 4 KiB granule, 48-bit addresses, both stages from level 0. And the monitor: which frame of
 * RAM belongs to which of four guests, and stage-2 tables that say no more than that.
 *
 * What is proved of each function, where its caller has seen to what is listed below: it answers what is said above it, changes what
 * is said there and nothing else, reads and writes inside the arrays that it is lent, and returns. The proof is of the source, against
 * definitions; docs/TRUST.md lists what else must be true, the compiler first.
 *
 * What is checked of the compiled library and not proved (tests/objects.py, tests/link.py, host/tests/stores): an operation makes
 * the stores to RAM that its definition lists, in that order, and no others; as compiled for Arm it uses less than 1 KiB of stack,
 * reads a descriptor by one 64-bit load and writes it by one 64-bit store (so that none is seen half-written where `ram` lies at a
 * multiple of 8), and clears a new table before it links it; on bare metal that store is a store-release, STLR, and no vector
 * register is used; every build answers the same to the same calls. No function calls back, waits, or uses a heap, global state, a
 * lock or floating point.
 *
 * What a caller sees to, of every call:
 *   - an array is a pointer and its number of elements. The pointer is valid for that many elements during the call, aligned for
 *     its type, and not null even where the number is 0. An array that is written overlaps no other. RAM that the monitor's
 *     functions are given lies at a multiple of 8: elsewhere the bare-metal library takes an alignment fault in its first map. No
 *     function here can see where it lies; pageledger_arm_set_up refuses it;
 *   - frames, guests, addresses, rights, accesses may be any numbers: what does not fit is answered. So may the lengths that
 *     set-up and the walks are given, and the length of an array for an answer. The lengths of RAM and ledger that operations and
 *     questions are given may not: they are those of the two arrays for which set-up answered 0. Others are undefined behaviour;
 *   - during a walk (pageledger_stage2, pageledger_both_stages) nobody writes RAM: nothing is proved of bytes that change meanwhile.
 *     Who may write what during the monitor's functions, and more that they count on, stands above them.
 */
#ifndef PAGELEDGER_H
#define PAGELEDGER_H

#include <stddef.h>
#include <stdint.h>

/* The version, 0xMMmmpp: major, minor, patch. */
#define PAGELEDGER_VERSION 0x000200
#define PAGELEDGER_VERSION_STRING "0.2.0"

/* An answer that is not looked at is a mistake, and the compiler says so where it can. */
#if defined(__cplusplus) && __cplusplus >= 201703L
#define PAGELEDGER_MUST_USE [[nodiscard]]
#elif !defined(__cplusplus) && defined(__STDC_VERSION__) && __STDC_VERSION__ >= 202311L
#define PAGELEDGER_MUST_USE [[nodiscard]]
#elif defined(__GNUC__)
#define PAGELEDGER_MUST_USE __attribute__((warn_unused_result))
#else
#define PAGELEDGER_MUST_USE
#endif

#ifdef __cplusplus
extern "C" {
#endif

/* What a function returns. An operation that is refused returns one of enum pageledger_refusal instead. */
enum pageledger_status {
    PAGELEDGER_DONE = 0,
    /* The array for the answer has fewer elements than the answer has numbers. Nothing was written. No refusal has this number. */
    PAGELEDGER_SHORT = 64
};

/* ---- The walk ---- */

/* How the guest wants to use an address. */
enum pageledger_access {
    PAGELEDGER_READ = 0,
    PAGELEDGER_WRITE = 1,
    PAGELEDGER_EXECUTE = 2
};

/* Where in the guest the access comes from. */
enum pageledger_el {
    PAGELEDGER_EL0 = 0, /* its programs */
    PAGELEDGER_EL1 = 1  /* its kernel */
};

/* The places of a walk's answer in the array. A number that an answer does not have is 0. */
enum pageledger_answer {
    PAGELEDGER_ANSWER_WHAT = 0,    /* one of enum pageledger_what */
    PAGELEDGER_ANSWER_ADDRESS = 1, /* FOUND: the physical address, below 2^48. It need not lie in RAM: a device may be there */
    PAGELEDGER_ANSWER_KIND = 2,    /* FAULT, DURING: one of enum pageledger_kind */
    PAGELEDGER_ANSWER_STAGE = 3,   /* FAULT: the stage that failed, 1 or 2. DURING: 2 */
    PAGELEDGER_ANSWER_LEVEL = 4,   /* FAULT, DURING: the level, 0 to 3, at which that stage failed */
    PAGELEDGER_ANSWER_OF = 5,      /* DURING: the level, 0 to 3, of the stage-1 descriptor that was to be fetched */
    PAGELEDGER_ANSWER_FETCHED = 6, /* how many descriptors were read: at most 4 for stage 2 alone, 24 for both */
    PAGELEDGER_ANSWER_NUMBERS = 7  /* how many numbers an answer has */
};

enum pageledger_what {
    PAGELEDGER_FOUND = 0,
    PAGELEDGER_FAULT = 1,
    PAGELEDGER_DURING = 2, /* stage 2 failed while the address of a stage-1 descriptor went through it */
    PAGELEDGER_REFUSED = 3 /* an argument does not fit. Nothing was read */
};

enum pageledger_kind {
    PAGELEDGER_WALK_ABORT = 1,   /* a descriptor does not lie in RAM */
    PAGELEDGER_TRANSLATION = 2,  /* a descriptor is invalid, or (stage 1, level 0) the virtual address is 2^48 or more */
    PAGELEDGER_NOT_MODELLED = 3, /* a descriptor has a bit set that the library does not know */
    PAGELEDGER_ACCESS_FLAG = 4,  /* the access flag of a block or page is 0 */
    PAGELEDGER_PERMISSION = 5    /* a block or page does not allow the access */
};

/* Both functions take RAM as `ram_length` bytes, the first at the physical address `base`: `frames` frames of 4,096 bytes,
 * 16 to 65,536 of them, `base` a multiple of 4,096, RAM's end at most 2^48, and `ram_length` 4,096 x `frames`. A root is the
 * address of a table of level 0, a multiple of 4,096 below 2^48; it need not lie in RAM. Where a number is none of these, the
 * answer is REFUSED. They never write RAM, and what they answer depends on the arguments and on the fetched descriptors alone.
 * What holds of the processor's registers where the answer is also the processor's: docs/TRUST.md, 11. */

/* Stage 2 alone: what the guest-physical address `ipa` translates to under the tables at the physical address `root`, for an
 * access of the kind `access`. An `ipa` of 2^48 or more is REFUSED.
 * Returns PAGELEDGER_DONE with the answer in the first PAGELEDGER_ANSWER_NUMBERS elements of `answer` (any others stay as they
 * were), or PAGELEDGER_SHORT. The answer is never DURING, and a FAULT's stage is 2. */
PAGELEDGER_MUST_USE
uint64_t pageledger_stage2(const uint8_t *ram, size_t ram_length, uint64_t base, uint64_t frames,
                           uint64_t root, uint64_t ipa, uint64_t access,
                           uint64_t *answer, size_t answer_length);

/* Both stages: what the guest's virtual address `va` translates to. `root1` is the guest-physical address of the guest's table
 * of level 0, `root2` the physical address of the monitor's. The guest's descriptors are reached through stage 2 as reads; the
 * address that stage 1 gives goes through stage 2 with `access`. A `va` of 2^48 or more is a FAULT of kind TRANSLATION at
 * stage 1, level 0, with nothing fetched.
 * Returns as pageledger_stage2 does. */
PAGELEDGER_MUST_USE
uint64_t pageledger_both_stages(const uint8_t *ram, size_t ram_length, uint64_t base, uint64_t frames,
                                uint64_t root1, uint64_t root2, uint64_t va, uint64_t access, uint64_t el,
                                uint64_t *answer, size_t answer_length);

/* ---- The monitor ----
 *
 * Guests are numbered 1 to 4, frames from 0 on: frame f is the 4,096 bytes at physical address base + 4,096 x f. The state is in
 * two arrays, RAM and the ledger; each function below takes both, and there is no other state.
 *
 * What is proved. An operation answers 0 and has done what is said above it and no more: every other address of every guest
 * translates as before. Or it answers the number of the first refusal that applies, in the order in which they are listed, and has
 * changed nothing, not a byte of RAM and not the ledger. And of any sequence of operations with any numbers after a set-up, with
 * guests' stores between them and translation caches taken into account: no page is reached by two guests unless its owner shared
 * it, none is written beyond what was shared, no guest reaches a table, and a frame changes hands only when no cache can lead to
 * it, and all zero. No function here can see to what follows; where it is not kept, this is not true of the machine. For a monitor at
 * EL2, pageledger_arm.h has it as functions.
 *
 * Set-up, once. When it is called, the processors keep nothing: every proof about a sequence begins there. So once per boot, before
 * any guest runs: DSB ISHST, TLBI ALLE1IS (or VMALLS12E1IS under every VMID), DSB ISH, ISB; then pageledger_set_up. A core that comes
 * up later does TLBI ALLE1, DSB NSH, ISB. Translations that are left from before void isolation, and so does a second set-up, unless
 * every guest has stopped and all of this is done again: the answer is 0 all the same.
 *
 * Calls. One at a time, whichever core makes it; the two arrays are always the same, and the ledger lies outside RAM.
 *
 * Who may write what, from set-up on:
 *   - the ledger, and frames that are tables or drain after having been tables: these functions, and nobody else;
 *   - pages, and those that drain: guests, where they reach them, at any time. A store during a call counts as made before it or
 *     after it: no operation reads a page, and one is written only to clear it before it is anybody's;
 *   - pages, free frames and the monitor's: the host too, between calls. (The proofs about sequences have such steps, but for those
 *     of what a guest reads.) What is the host's alone stands in the monitor's frames or outside RAM;
 *   - devices that access memory themselves: nothing of RAM. These tables are not theirs.
 *
 * Who may run. A guest runs only while it exists: before pageledger_destroy it has stopped on every core. It may run on any core
 * during any call of the bare-metal library, pageledger_map for itself too: who sees a table's link, by a store-release, sees its zeros.
 * (The other archives have plain stores: over them no core runs a guest while pageledger_map works for it.) But during
 * pageledger_stage2 and pageledger_both_stages on this RAM none runs that writes it. After pageledger_create a barrier completes, DSB
 * ISH and then ISB, before the guest runs; after pageledger_map, before it counts on what was mapped: till then it may fault there.
 *
 * Invalidation. pageledger_invalidated is a report and does nothing to the processor. It is called only after all translations of the
 * guest have been invalidated on every core: DSB ISHST, TLBI VMALLS12E1IS, DSB ISH, ISB. This TLBI takes the VMID from VTTBR_EL2, so
 * that the guest's stands there, an ISB later, and it wants HCR_EL2.TGE = 0. When the report of a destroyed guest is made, no core has
 * its root in VTTBR_EL2 any more: that frame is then anybody's.
 *
 * Caches of data and instructions. Every guest begins with its stage 1 off, and may map its memory as not cacheable later: it then reads
 * below the caches. So after pageledger_give, and after the host has stored to the frame, it is cleaned to the point of coherency before
 * pageledger_map: DC CIVAC for each line, DSB; else the guest may read what the memory held before. And before it is mapped for
 * execution: IC IALLUIS, DSB ISH, ISB; else the guest may execute lines that an instruction cache kept of the frame's former contents.
 *
 * Registers. RAM and the ledger are mapped for the library as normal memory, without alignment checks (SCTLR_EL2.A = 0); RAM with
 * the attributes of the processor's table walks: write-back, inner shareable. While a guest runs: HCR_EL2.VM = 1 and TGE, FWB, CD, ID,
 * ATA = 0, and TSC = 1, or a guest's SMC reaches the firmware, which can turn the board off; in VTTBR_EL2 its root table
 * (pageledger_guest) and a VMID that is its number's alone; in VTCR_EL2 PAGELEDGER_VTCR_EL2, on a processor with 48 bits of physical
 * address (with 44: pageledger_arm_vtcr). When a guest faults for a permission, HPFAR_EL2 does not tell the address, unless it is a
 * stage-1 descriptor's: AT S1E1R on FAR_EL2 does, with PAR_EL1 saved (pageledger_arm_read_fault). */

/* VTCR_EL2: bit 31 = 1, PS = 5 (48 bits), TG0 = 0 (4 KiB), SH0 = 3, ORGN0 = 1, IRGN0 = 1, SL0 = 2 (from level 0), T0SZ = 16 (48 bits);
 * all else 0, among it HA and HD. Bit 19, VS, is the host's choice: VMIDs of 16 bits. */
#define PAGELEDGER_VTCR_EL2 (1u << 31 | 5u << 16 | 0u << 14 | 3u << 12 | 1u << 10 | 1u << 8 | 2u << 6 | 16u)

/* The lengths that set-up wants for n frames: RAM in bytes, the ledger in elements of 32 bits (64 bytes a frame, and 576). */
#define PAGELEDGER_RAM_BYTES(n) ((size_t)(n) * 4096)
#define PAGELEDGER_LEDGER_WORDS(n) (144 + 16 * (size_t)(n))

/* Guests have the numbers 1 to PAGELEDGER_GUESTS. */
#define PAGELEDGER_GUESTS 4

/* What an operation answers where it is refused. */
enum pageledger_refusal {
    PAGELEDGER_NO_GUEST_NUMBER = 1,    /* a guest's number is not 1 to 4 */
    PAGELEDGER_GUEST_EXISTS = 2,       /* the guest exists already, or is dirty */
    PAGELEDGER_NO_FREE_FRAMES = 3,     /* not enough free frames */
    PAGELEDGER_NO_FRAME = 4,           /* a frame's number is out of range; set-up: a number or a length does not fit */
    PAGELEDGER_NO_GUEST = 5,           /* a guest that is named does not exist */
    PAGELEDGER_NOT_FREE = 6,           /* the frame is not free */
    PAGELEDGER_NO_PAGE_ADDRESS = 7,    /* the guest-physical address is no multiple of 4,096, or is 2^48 or more */
    PAGELEDGER_NO_RIGHTS = 8,          /* the rights are not one of enum pageledger_rights */
    PAGELEDGER_NOT_ITS_PAGE = 9,       /* the frame is no page that this guest may use so */
    PAGELEDGER_MAPPED_ALREADY = 10,    /* the address is mapped already */
    PAGELEDGER_NOT_MAPPED = 11,        /* the address is not mapped */
    PAGELEDGER_WITH_ITSELF = 12,       /* a guest can't share with itself */
    PAGELEDGER_STILL_USED = 13,        /* the page is still mapped or shared */
    PAGELEDGER_DIRTY = 14              /* the guest is dirty */
};

/* The name of what an operation answered: "DONE", a refusal's name as above without the prefix, or "UNKNOWN". For messages; it is
 * compiled into the program that calls it, and is no part of the library. */
static inline const char *pageledger_refusal_name(uint64_t answered)
{
    switch (answered) {
    case PAGELEDGER_DONE: return "DONE";
    case PAGELEDGER_NO_GUEST_NUMBER: return "NO_GUEST_NUMBER";
    case PAGELEDGER_GUEST_EXISTS: return "GUEST_EXISTS";
    case PAGELEDGER_NO_FREE_FRAMES: return "NO_FREE_FRAMES";
    case PAGELEDGER_NO_FRAME: return "NO_FRAME";
    case PAGELEDGER_NO_GUEST: return "NO_GUEST";
    case PAGELEDGER_NOT_FREE: return "NOT_FREE";
    case PAGELEDGER_NO_PAGE_ADDRESS: return "NO_PAGE_ADDRESS";
    case PAGELEDGER_NO_RIGHTS: return "NO_RIGHTS";
    case PAGELEDGER_NOT_ITS_PAGE: return "NOT_ITS_PAGE";
    case PAGELEDGER_MAPPED_ALREADY: return "MAPPED_ALREADY";
    case PAGELEDGER_NOT_MAPPED: return "NOT_MAPPED";
    case PAGELEDGER_WITH_ITSELF: return "WITH_ITSELF";
    case PAGELEDGER_STILL_USED: return "STILL_USED";
    case PAGELEDGER_DIRTY: return "DIRTY";
    default: return "UNKNOWN";
    }
}

/* With which rights a page is mapped: 1 to read, 2 to write, 4 to execute, added up; a page is always read. */
enum pageledger_rights {
    PAGELEDGER_R = 1,
    PAGELEDGER_RW = 3,
    PAGELEDGER_RX = 5,
    PAGELEDGER_RWX = 7
};

/* Lays the ledger out for `frames` frames of RAM, 16 to 65,536, from physical address `base` on, a multiple of 4,096, with RAM's
 * end at most 2^48. The first `monitor_frames` of them, fewer than `frames`, are the monitor's and never anybody else's; all others
 * are free. No guest exists. `ram_length` is PAGELEDGER_RAM_BYTES(frames), `ledger_length` PAGELEDGER_LEDGER_WORDS(frames).
 * The two arrays may hold anything, but the processors keep nothing (see above: once). RAM is not changed, the ledger is written
 * whole. Answers 0; or 4, and then nothing is written. */
PAGELEDGER_MUST_USE
uint64_t pageledger_set_up(const uint8_t *ram, size_t ram_length, uint32_t *ledger, size_t ledger_length,
                           uint64_t base, uint64_t frames, uint64_t monitor_frames);

/* Guest `guest` exists: a free frame, cleared, becomes its root table. Nothing is mapped yet.
 * Refusals: 1, 2, 3. */
PAGELEDGER_MUST_USE
uint64_t pageledger_create(uint8_t *ram, size_t ram_length, uint32_t *ledger, size_t ledger_length, uint64_t guest);

/* A free frame, cleared, becomes a page of the guest, its owner. It is mapped nowhere and shared with nobody.
 * Refusals: 5, 4, 6. */
PAGELEDGER_MUST_USE
uint64_t pageledger_give(uint8_t *ram, size_t ram_length, uint32_t *ledger, size_t ledger_length,
                         uint64_t frame, uint64_t guest);

/* The guest's page at guest-physical address `ipa` translates to the frame, with these rights, and the walk then finds it there.
 * The frame is a page of the guest's own, or one that is shared with it: then not to execute, and to write only where that is
 * shared. A page may be mapped in many places. Takes up to three free frames for new tables; tables that become empty stay.
 * Refusals: 5, 14, 7, 8, 4, 9, 10, 3. */
PAGELEDGER_MUST_USE
uint64_t pageledger_map(uint8_t *ram, size_t ram_length, uint32_t *ledger, size_t ledger_length,
                        uint64_t frame, uint64_t guest, uint64_t ipa, uint64_t rights);

/* The guest's page at `ipa` no longer translates, and the guest is dirty: a cache may still hold the translation until it is
 * reported invalidated. The page stays its owner's.
 * Refusals: 5, 7, 11. */
PAGELEDGER_MUST_USE
uint64_t pageledger_unmap(uint8_t *ram, size_t ram_length, uint32_t *ledger, size_t ledger_length,
                          uint64_t ipa, uint64_t guest);

/* The guest `with` may map the owner's page for reading, and for writing too unless `writing` is 0. Sharing again sets writing
 * anew; where it takes writing away, 13 while `with` has the page mapped, 14 while it is dirty.
 * Refusals: 5, 12, 4, 9, 13, 14. */
PAGELEDGER_MUST_USE
uint64_t pageledger_share(const uint8_t *ram, size_t ram_length, uint32_t *ledger, size_t ledger_length,
                          uint64_t owner, uint64_t frame, uint64_t with, uint64_t writing);

/* The guest `with` may no longer map the owner's page. 9 where it is not shared with it, 13 while it has the page mapped, 14 while
 * it is dirty.
 * Refusals: 5, 4, 9, 13, 14. */
PAGELEDGER_MUST_USE
uint64_t pageledger_unshare(const uint8_t *ram, size_t ram_length, uint32_t *ledger, size_t ledger_length,
                            uint64_t owner, uint64_t frame, uint64_t with);

/* The owner loses its page, which must be mapped nowhere and shared with nobody. It is free; or it drains, where the owner is
 * dirty, until that guest is reported invalidated: till then the owner's caches may lead to it. Its bytes stay, and are cleared
 * when it is given again.
 * Refusals: 5, 4, 9, 13. */
PAGELEDGER_MUST_USE
uint64_t pageledger_take(const uint8_t *ram, size_t ram_length, uint32_t *ledger, size_t ledger_length,
                         uint64_t frame, uint64_t owner);

/* The guest no longer exists and is dirty; its tables and pages drain until it is reported invalidated. The host has stopped it
 * before. 13 while a page of its own is shared with somebody, or somebody's with it.
 * Refusals: 5, 13. */
PAGELEDGER_MUST_USE
uint64_t pageledger_destroy(const uint8_t *ram, size_t ram_length, uint32_t *ledger, size_t ledger_length, uint64_t guest);

/* The host's report that every processor has forgotten all translations of this guest's number: it is no longer dirty, and what
 * drained for it is free.
 * Refusals: 1. */
PAGELEDGER_MUST_USE
uint64_t pageledger_invalidated(const uint8_t *ram, size_t ram_length, uint32_t *ledger, size_t ledger_length, uint64_t guest);

/* ---- Questions to the monitor. They change nothing but the array for the answer. ---- */

/* The places of the answer about a frame. A number that an answer does not have is 0. */
enum pageledger_frame_answer {
    PAGELEDGER_FRAME_WHAT = 0,   /* one of enum pageledger_frame_what */
    PAGELEDGER_FRAME_GUEST = 1,  /* whose table or page it is, or for whom it drains: 1 to 4 */
    PAGELEDGER_FRAME_PLACES = 2, /* PAGE: in how many places it is mapped, of all guests */
    PAGELEDGER_FRAME_NUMBERS = 3 /* how many numbers an answer has */
};

enum pageledger_frame_what {
    PAGELEDGER_FRAME_OUTSIDE = 0, /* there is no such frame */
    PAGELEDGER_FRAME_MONITOR = 1,
    PAGELEDGER_FRAME_FREE = 2,
    PAGELEDGER_FRAME_TABLE = 3,
    PAGELEDGER_FRAME_DRAINING = 4,
    PAGELEDGER_FRAME_PAGE = 5
};

/* What a frame is. Returns PAGELEDGER_DONE with the answer in the first PAGELEDGER_FRAME_NUMBERS elements of `answer` (any others
 * stay as they were), or PAGELEDGER_SHORT. */
PAGELEDGER_MUST_USE
uint64_t pageledger_frame(const uint8_t *ram, size_t ram_length, const uint32_t *ledger, size_t ledger_length,
                          uint64_t frame, uint64_t *answer, size_t answer_length);

/* What of the frame is shared with a guest. */
enum pageledger_shared {
    PAGELEDGER_SHARED_NOTHING = 0, /* also where there is no such frame or guest */
    PAGELEDGER_SHARED_READING = 1,
    PAGELEDGER_SHARED_WRITING = 2  /* reading and writing */
};

/* Returns one of enum pageledger_shared. */
PAGELEDGER_MUST_USE
uint64_t pageledger_shared_with(const uint8_t *ram, size_t ram_length, const uint32_t *ledger, size_t ledger_length,
                                uint64_t frame, uint64_t guest);

/* The places of the answer about a guest. */
enum pageledger_guest_answer {
    PAGELEDGER_GUEST_WHAT = 0,   /* one of enum pageledger_guest_what */
    PAGELEDGER_GUEST_ROOT = 1,   /* PRESENT: the physical address of its root table, as VTTBR_EL2 wants it; otherwise 0 */
    PAGELEDGER_GUEST_DIRTY = 2,  /* 1 where it is dirty; otherwise 0 */
    PAGELEDGER_GUEST_NUMBERS = 3 /* how many numbers an answer has */
};

enum pageledger_guest_what {
    PAGELEDGER_GUEST_NOBODY = 0, /* the number is not 1 to 4 */
    PAGELEDGER_GUEST_ABSENT = 1, /* it does not exist */
    PAGELEDGER_GUEST_PRESENT = 2
};

/* What a guest is. Returns PAGELEDGER_DONE with the answer in the first PAGELEDGER_GUEST_NUMBERS elements of `answer` (any others
 * stay as they were), or PAGELEDGER_SHORT. */
PAGELEDGER_MUST_USE
uint64_t pageledger_guest(const uint8_t *ram, size_t ram_length, const uint32_t *ledger, size_t ledger_length,
                          uint64_t guest, uint64_t *answer, size_t answer_length);

/* What the guest-physical address `ipa` of a guest translates to: pageledger_stage2 from its root. REFUSED also where there is no
 * such guest. It reads the guest's tables alone, so that guests may write pages meanwhile. Returns as pageledger_stage2 does. */
PAGELEDGER_MUST_USE
uint64_t pageledger_translation(const uint8_t *ram, size_t ram_length, const uint32_t *ledger, size_t ledger_length,
                                uint64_t guest, uint64_t ipa, uint64_t access,
                                uint64_t *answer, size_t answer_length);

#ifdef __cplusplus
}
#endif

#endif
