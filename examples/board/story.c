/* The story: the instrument cluster has a page, shares it with the radio, takes it back, and loses it; a hostile app on the radio tries all
 * the time. */
#include "board.h"

#define ALL_REFUSED (REFUSED(PAGELEDGER_READ) | REFUSED(PAGELEDGER_WRITE) | REFUSED(PAGELEDGER_EXECUTE))

static uint64_t page; /* the frame that the story is about */

/* The radio tries all that it can. It must be refused these accesses to the page, which the library foretells, and what its own table
 * leads to outside its memory. */
static void radio_tries(const char *when, unsigned expected)
{
    uint64_t answer[PAGELEDGER_ANSWER_NUMBERS];
    unsigned foretold = 0;
    printf("%s\n", when);
    for (uint64_t access = PAGELEDGER_READ; access <= PAGELEDGER_EXECUTE; access++)
        if (pageledger_translation(BOTH, RADIO, PAGE, access, answer, PAGELEDGER_ANSWER_NUMBERS) != PAGELEDGER_DONE
            || answer[PAGELEDGER_ANSWER_WHAT] != PAGELEDGER_FOUND)
            foretold |= REFUSED(access);
    check("it is refused what the library foretells, no less and no more",
          run(RADIO) == (expected | REFUSED_DURING_STAGE_1) && foretold == expected);
}

static int set_up(void)
{
    return !pageledger_arm_set_up(BOTH, LENT_AT, FRAMES, MONITOR_FRAMES)
           && !pageledger_create(BOTH, CLUSTER) && !provide(CLUSTER, free_frame(), CODE, PAGELEDGER_RX, cluster)
           && !provide(CLUSTER, page = free_frame(), PAGE, PAGELEDGER_RW, 0)
           && !pageledger_create(BOTH, RADIO) && !provide(RADIO, free_frame(), CODE, PAGELEDGER_RX, radio)
           && !provide(RADIO, free_frame(), CODE + PAGE_BYTES, PAGELEDGER_R, radio + PAGE_BYTES)
           && !provide(RADIO, free_frame(), CODE + 2 * PAGE_BYTES, PAGELEDGER_R, radio + 2 * PAGE_BYTES);
}

static void shared_and_taken_back(void)
{
    printf("The cluster has a page\n");
    run(CLUSTER);
    radio_tries("The radio has no part in it", ALL_REFUSED);
    run(CLUSTER);
    radio_tries("It is shared with the radio, to read", ALL_REFUSED & ~REFUSED(PAGELEDGER_READ));
    check("take answers STILL_USED", pageledger_take(BOTH, page, CLUSTER) == PAGELEDGER_STILL_USED);
    run(CLUSTER);
    radio_tries("It is shared no longer", ALL_REFUSED);
}

static void given_on(void)
{
    printf("The host takes the page from the cluster and gives it to the radio\n");
    check("it is unmapped, invalidated and taken", !take_away(CLUSTER, PAGE) && !pageledger_take(BOTH, page, CLUSTER));
    check("given to the radio", !provide(RADIO, page, PAGE, PAGELEDGER_RW, 0));
    radio_tries("The radio finds zeros there", REFUSED(PAGELEDGER_EXECUTE));
}

/* Between unmap and the invalidation the processor may go by what it kept, and the ledger counts on that. */
static void kept(void)
{
    printf("The host unmaps the page from the radio, and invalidates nothing\n");
    check("unmap", !pageledger_unmap(BOTH, PAGE, RADIO));
    pageledger_arm_after_operation();
    if (run(RADIO) & REFUSED(PAGELEDGER_READ))
        printf("  the processor did not keep the translation\n");
    else
        printf("  the processor kept the translation: the radio still reads and writes\n");
    check("take is done, and the frame drains", !pageledger_take(BOTH, page, RADIO) && kind_of_frame(page) == PAGELEDGER_FRAME_DRAINING);
    check("it can't be given to the cluster: NOT_FREE", pageledger_give(BOTH, page, CLUSTER) == PAGELEDGER_NOT_FREE);
    check("nothing can be mapped for the radio: DIRTY",
          pageledger_map(BOTH, frame_of(RADIO, CODE), RADIO, PAGE, PAGELEDGER_R) == PAGELEDGER_DIRTY);
    check("invalidated and reported, it is free",
          !pageledger_arm_invalidate(BOTH, RADIO) && kind_of_frame(page) == PAGELEDGER_FRAME_FREE);
    radio_tries("The radio after the invalidation", ALL_REFUSED);
    check("given to the cluster, the frame holds zeros",
          !provide(CLUSTER, page, PAGE, PAGELEDGER_RW, 0) && *(volatile uint64_t *)FRAME(page) == 0);
}

void story(void)
{
    check("two guests are set up", set_up());
    begin(CLUSTER, (struct guest){.sctlr = SCTLR_EL1_STAGE_1_OFF});
    begin(RADIO, (struct guest){.sctlr = SCTLR_EL1_STAGE_1_ON, .mair = MAIR_EL1_CACHEABLE, .ttbr0 = CODE + PAGE_BYTES, .tcr = tcr_el1()});
    shared_and_taken_back();
    given_on();
    kept();
}
