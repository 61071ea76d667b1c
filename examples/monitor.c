/* A guest with one page: what does its address 0x80000abc translate to, and who may have the page back? */
#include <inttypes.h>
#include <stdio.h>
#include "pageledger.h"

static uint64_t ram[PAGELEDGER_RAM_BYTES(16) / 8]; /* 16 frames from 0x40000000, of which the first two are the monitor's */
static uint32_t ledger[PAGELEDGER_LEDGER_WORDS(16)];
#define BOTH (uint8_t *)ram, sizeof ram, ledger, PAGELEDGER_LEDGER_WORDS(16)

int main(void)
{
    uint64_t answer[PAGELEDGER_ANSWER_NUMBERS], refusal;
    if (pageledger_set_up(BOTH, 0x40000000, 16, 2) || pageledger_create(BOTH, 1) || pageledger_give(BOTH, 8, 1)
        || pageledger_map(BOTH, 8, 1, 0x80000000, PAGELEDGER_RW)
        || pageledger_translation(BOTH, 1, 0x80000abc, PAGELEDGER_WRITE, answer, PAGELEDGER_ANSWER_NUMBERS)
        || answer[PAGELEDGER_ANSWER_WHAT] != PAGELEDGER_FOUND)
        return 1;
    printf("0x%" PRIx64 " fetched %" PRIu64 "\n", answer[PAGELEDGER_ANSWER_ADDRESS], answer[PAGELEDGER_ANSWER_FETCHED]);
    refusal = pageledger_take(BOTH, 8, 1);
    printf("take answers %" PRIu64 ", %s\n", refusal, pageledger_refusal_name(refusal)); /* 13: it is still mapped */
    return 0;
}
