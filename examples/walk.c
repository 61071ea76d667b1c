/* What does guest-physical 0xabc translate to? A table of stage 2 that points at itself answers. */
#include <inttypes.h>
#include <stdio.h>
#include "pageledger.h"

int main(void)
{
    static uint64_t ram[16 * 512]; /* 16 frames from 0x40000000 */
    uint64_t answer[PAGELEDGER_ANSWER_NUMBERS];
    ram[0x1000 / 8] = 0x400014c3; /* a table at three levels, and a page at the fourth */
    if (pageledger_stage2((const uint8_t *)ram, sizeof ram, 0x40000000, 16, 0x40001000, 0xabc, PAGELEDGER_WRITE,
                          answer, PAGELEDGER_ANSWER_NUMBERS)
        || answer[PAGELEDGER_ANSWER_WHAT] != PAGELEDGER_FOUND)
        return 1;
    printf("0x%" PRIx64 " fetched %" PRIu64 "\n", answer[PAGELEDGER_ANSWER_ADDRESS], answer[PAGELEDGER_ANSWER_FETCHED]);
    return 0;
}
