/* The monitor: guests' pages, what guests call for, and the loop in which a guest runs. The library decides; what it leaves to its host,
 * pageledger_arm.h does. */
#include "board.h"

enum { MOST_FAULTS = 20, INSTRUCTION_BYTES = 4, LINK_REGISTER = 30, REFUSED_REGISTER = 28, HVC_CLASS = 0x16 };

struct guest guests[PAGELEDGER_GUESTS + 1];
uint32_t ledger[PAGELEDGER_LEDGER_WORDS(FRAMES)];

/* Every array here has room for its answer. */
static void has_room(uint64_t status)
{
    if (status != PAGELEDGER_DONE)
        exit(1);
}

/* ---- Questions ---- */

uint64_t root_of(uint64_t guest)
{
    uint64_t answer[PAGELEDGER_GUEST_NUMBERS];
    has_room(pageledger_guest(BOTH, guest, answer, PAGELEDGER_GUEST_NUMBERS));
    return answer[PAGELEDGER_GUEST_ROOT];
}

uint64_t frame_of(uint64_t guest, uint64_t ipa)
{
    uint64_t answer[PAGELEDGER_ANSWER_NUMBERS];
    has_room(pageledger_translation(BOTH, guest, ipa, PAGELEDGER_READ, answer, PAGELEDGER_ANSWER_NUMBERS));
    return answer[PAGELEDGER_ANSWER_WHAT] == PAGELEDGER_FOUND ? (answer[PAGELEDGER_ANSWER_ADDRESS] - LENT_AT) / PAGE_BYTES : NO_FRAME;
}

uint64_t kind_of_frame(uint64_t frame)
{
    uint64_t answer[PAGELEDGER_FRAME_NUMBERS];
    has_room(pageledger_frame(BOTH, frame, answer, PAGELEDGER_FRAME_NUMBERS));
    return answer[PAGELEDGER_FRAME_WHAT];
}

/* The last free frame: the library takes its tables from the other end. */
uint64_t free_frame(void)
{
    uint64_t frame = FRAMES;
    while (frame > 0 && kind_of_frame(frame - 1) != PAGELEDGER_FRAME_FREE)
        frame--;
    return frame > 0 ? frame - 1 : NO_FRAME;
}

/* ---- Pages ---- */

/* A free frame becomes the guest's page at this address, and holds these bytes, or zeros. */
uint64_t provide(uint64_t guest, uint64_t frame, uint64_t ipa, uint64_t rights, const uint8_t *bytes)
{
    uint64_t refused = pageledger_give(BOTH, frame, guest);
    if (refused)
        return refused;
    for (int i = 0; bytes && i < PAGE_BYTES; i++)
        FRAME(frame)[i] = bytes[i];
    if (rights == PAGELEDGER_RX || rights == PAGELEDGER_RWX)
        pageledger_arm_clean_code(FRAME(frame));
    else
        pageledger_arm_clean_frame(FRAME(frame));
    refused = pageledger_map(BOTH, frame, guest, ipa, rights);
    pageledger_arm_after_operation();
    return refused;
}

/* The guest's page at this address no longer translates, in no processor. */
uint64_t take_away(uint64_t guest, uint64_t ipa)
{
    uint64_t refused = pageledger_unmap(BOTH, ipa, guest);
    return refused ? refused : pageledger_arm_invalidate(BOTH, guest);
}

static uint64_t share(uint64_t owner, uint64_t ipa, uint64_t with)
{
    uint64_t frame = frame_of(owner, ipa), refused = pageledger_share(BOTH, owner, frame, with, 0);
    if (!refused)
        refused = pageledger_map(BOTH, frame, with, ipa, PAGELEDGER_R);
    pageledger_arm_after_operation();
    return refused;
}

static uint64_t unshare(uint64_t owner, uint64_t ipa, uint64_t with)
{
    uint64_t frame = frame_of(owner, ipa), refused = 0;
    if (frame != NO_FRAME && frame_of(with, ipa) == frame)
        refused = take_away(with, ipa);
    return refused ? refused : pageledger_unshare(BOTH, owner, frame, with);
}

/* ---- Running ---- */

void begin(uint64_t guest, struct guest registers)
{
    guests[guest] = registers;
    guests[guest].pc = CODE;
    guests[guest].spsr = SPSR_EL1_MASKED;
}

/* The guest's registers of EL1 and its tables, in place of those of the guest that ran before. */
static void load(uint64_t guest)
{
    static uint64_t current;
    struct guest *from = &guests[current], *to = &guests[guest];
    if (guest != current) {
        from->sctlr = GET(sctlr_el1), from->tcr = GET(tcr_el1), from->ttbr0 = GET(ttbr0_el1), from->mair = GET(mair_el1);
        SET(sctlr_el1, to->sctlr), SET(tcr_el1, to->tcr), SET(ttbr0_el1, to->ttbr0), SET(mair_el1, to->mair);
        current = guest;
    }
    SET(vttbr_el2, pageledger_arm_vttbr(BOTH, guest));
    ISB();
}

/* What a guest called for. 0 where it is to go on. */
static int serve(uint64_t guest, uint64_t call)
{
    uint64_t *x = guests[guest].x;
    switch (call) {
    case CALL_PRINT: put((char)x[0]); break;
    case CALL_SHARE: x[0] = share(guest, x[0], x[1]); break;
    case CALL_UNSHARE: x[0] = unshare(guest, x[0], x[1]); break;
    case CALL_YIELD: return 1;
    default: unexpected(GET(esr_el2), guests[guest].pc, call);
    }
    return 0;
}

/* The guest goes on behind the access that was refused, and sees that it was. */
static unsigned refuse(uint64_t guest, const struct pageledger_arm_fault *fault)
{
    struct guest *it = &guests[guest];
    hold_to_library(guest, fault);
    it->x[REFUSED_REGISTER] = 1;
    it->pc = fault->access == PAGELEDGER_EXECUTE ? it->x[LINK_REGISTER] : it->pc + INSTRUCTION_BYTES;
    return fault->during ? REFUSED_DURING_STAGE_1 : REFUSED(fault->access);
}

/* Runs a guest until it yields: which of its accesses were refused. */
unsigned run(uint64_t guest)
{
    unsigned refused = 0, faults = 0;
    for (;;) {
        struct pageledger_arm_fault fault;
        load(guest);
        enter(&guests[guest]);
        if (pageledger_arm_read_fault(&fault) && faults++ < MOST_FAULTS)
            refused |= refuse(guest, &fault);
        else if (pageledger_arm_bits(GET(esr_el2), 31, 26) != HVC_CLASS)
            unexpected(GET(esr_el2), guests[guest].pc, GET(far_el2));
        else if (serve(guest, pageledger_arm_bits(GET(esr_el2), 15, 0)))
            return refused;
    }
}
